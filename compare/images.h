/* Images at random, of a kind that matters to the format: well formed ones, and damage. The words are those of docs/FORMAT.md. */
#ifndef IMAGES_H
#define IMAGES_H

#include <stdbool.h>

#include "layers.h"

enum { SECTOR = 128 };
static const uint32_t ONES = 0xFFFFFFFFu;

/* The upper three bits of an entry, and what they are in an entry that is complete and in one that is in passing. */
static const uint32_t UPPER_BITS = 0xE0000000u, COMPLETE = 0xC0000000u, IN_PASSING = 0x80000000u;

/* ---- Chance: splitmix64, so that a seed means the same everywhere. */

static uint64_t chance_state;

static uint64_t chance(void)
{
    uint64_t z = chance_state += 0x9E3779B97F4A7C15u;
    z = (z ^ (z >> 30)) * 0xBF58476D1CE4E5B9u;
    z = (z ^ (z >> 27)) * 0x94D049BB133111EBu;
    return z ^ (z >> 31);
}

static uint32_t below(uint32_t n)
{
    return (uint32_t)(chance() % n);
}

static bool one_in(uint32_t n)
{
    return below(n) == 0;
}

/* A word of the kinds that matter: any, all ones, none, one bit set or clear, an entry that is complete or in passing, a small number, one
 * near the ceiling. */
static uint32_t odd_word(struct geometry g)
{
    uint32_t upper_bits = one_in(2) ? COMPLETE : IN_PASSING;
    switch (below(8)) {
    case 0: return ONES;
    case 1: return 0;
    case 2: return 1u << below(32);
    case 3: return ~(1u << below(32));
    case 4: return upper_bits + below(g.logical + 2);
    case 5: return below(g.logical + 2);
    case 6: return SHELLWALTZ_CEILING - 2 + below(5);
    default: return (uint32_t)chance();
    }
}

/* Any but all ones. */
static uint32_t programmed_word(struct geometry g)
{
    uint32_t word = odd_word(g);
    return word == ONES ? ~(1u << below(32)) : word;
}

/* ---- The parts of an image */

static uint32_t slots_of(struct geometry g)
{
    return g.sectors - 1;
}

static uint32_t map_words_of(struct geometry g)
{
    return (slots_of(g) + 31) / 32;
}

static uint32_t *block_of(struct geometry g, uint32_t *image, uint32_t b)
{
    return image + (size_t)b * g.sectors * SECTOR;
}

static uint32_t *entries_of(struct geometry g, uint32_t *block)
{
    return block + 3 + map_words_of(g);
}

static uint32_t *contents_of(uint32_t *block, uint32_t slot)
{
    return block + (size_t)(slot + 1) * SECTOR;
}

/* ---- Entries and slots */

static uint32_t number_in(uint32_t entry)
{
    return entry & ~UPPER_BITS;
}

static bool says_complete(struct geometry g, uint32_t entry)
{
    return (entry & UPPER_BITS) == COMPLETE && number_in(entry) < g.logical;
}

static bool says_passing(struct geometry g, uint32_t entry)
{
    return (entry & UPPER_BITS) == IN_PASSING && number_in(entry) < g.logical;
}

/* Whether the slot is live, where none of the image is superseded. */
static bool says_live(struct geometry g, uint32_t entry)
{
    return says_complete(g, entry) || says_passing(g, entry);
}

static uint32_t *map_word_of(uint32_t *block, uint32_t slot)
{
    return block + 3 + slot / 32;
}

/* A free entry alone does not make a slot free: with a clear bit it is taken, and dead. */
static bool is_free_slot(struct geometry g, uint32_t *block, uint32_t slot)
{
    return entries_of(g, block)[slot] == ONES && (*map_word_of(block, slot) >> slot % 32 & 1) == 1;
}

static void take_slot(uint32_t *block, uint32_t slot)
{
    *map_word_of(block, slot) &= ~(1u << slot % 32);
}

/* ---- Well-formed images */

static uint32_t some_count(void)
{
    return one_in(3) ? SHELLWALTZ_CEILING - below(2) : below(5);
}

static void fill_contents(uint32_t *contents)
{
    uint32_t fill = one_in(4) ? ONES : (uint32_t)chance();
    for (uint32_t j = 0; j < SECTOR; j++)
        contents[j] = fill ^ (one_in(2) ? j : 0);
}

/* An entry that a dead slot can have: free, as the map bit is clear; replaced, released or not finished; in passing with a number of L or
 * more; or any other that is not valid, or neither complete nor in passing. */
static uint32_t dead_entry(struct geometry g)
{
    uint32_t n = below(g.logical), entry = odd_word(g);
    switch (below(6)) {
    case 0: return ONES;
    case 1: return n;
    case 2: return 0x40000000u + n;
    case 3: return 0xE0000000u + n;
    case 4: return IN_PASSING + g.logical + (one_in(2) ? 0 : below(0x20000000u - g.logical));
    default: return (entry & UPPER_BITS) == COMPLETE || says_passing(g, entry) ? entry & 0x7FFFFFFFu : entry;
    }
}

/* Words 1 and 2 of a full block whose live numbers are from the least to the greatest: the closest bounds, or loose ones. Where nothing is
 * live in it (the least is above the greatest then), anything. But neither is all ones. */
static void put_bounds(struct geometry g, uint32_t *block, uint32_t least, uint32_t greatest)
{
    if (least > greatest) {
        block[1] = programmed_word(g);
        block[2] = programmed_word(g);
        return;
    }
    block[1] = one_in(2) ? least : below(least + 1);
    block[2] = one_in(2) ? greatest : greatest + below(one_in(2) ? 3 : ONES - greatest);
}

/* The numbers that an image is to store, in any order. Those before the next one have their slots. */
struct numbers {
    uint32_t order[SHELLWALTZ_MOST_LOGICAL(64, 64)], next, end;
};

static void shuffle_numbers(struct numbers *numbers, struct geometry g)
{
    uint32_t *order = numbers->order;
    for (uint32_t n = 0; n < g.logical; n++)
        order[n] = n;
    for (uint32_t n = g.logical; n > 1; n--) {
        uint32_t other = below(n), kept = order[n - 1];
        order[n - 1] = order[other];
        order[other] = kept;
    }
    numbers->next = 0;
    numbers->end = below(g.logical + 1);
}

/* What the slots of a block are that are not free: live and dead ones, dead ones alone, or dead ones that are taken and have no entry. */
enum mix { LIVE_AND_DEAD, DEAD_ALONE, TAKEN_ALONE };

/* Each number gets one slot, so none is complete and in passing as well. */
static uint32_t some_entry(struct geometry g, enum mix mix, struct numbers *numbers)
{
    if (mix == TAKEN_ALONE)
        return ONES;
    if (mix == DEAD_ALONE || numbers->next == numbers->end || one_in(3))
        return dead_entry(g);
    return (one_in(4) ? IN_PASSING : COMPLETE) + numbers->order[numbers->next++];
}

/* A block in which `used` slots are not free. */
static void make_block(struct geometry g, uint32_t *block, uint32_t used, enum mix mix, struct numbers *numbers)
{
    uint32_t *entries = entries_of(g, block), slots = slots_of(g), least = ONES, greatest = 0, left = used;
    block[0] = some_count();
    for (uint32_t i = 0; i < slots; i++) {
        if (below(slots - i) >= left)
            continue;
        left--;
        take_slot(block, i);
        fill_contents(contents_of(block, i));
        entries[i] = some_entry(g, mix, numbers);
        if (says_live(g, entries[i])) {
            uint32_t n = number_in(entries[i]);
            least = n < least ? n : least;
            greatest = n > greatest ? n : greatest;
        }
    }
    if (used == slots)
        put_bounds(g, block, least, greatest);
}

/* How many slots of a block are used: all of them; all or any number of them; any number; or all or none, so that no block is open. */
static uint32_t some_used(uint32_t style, uint32_t slots)
{
    switch (style) {
    case 0: return slots;
    case 1: return one_in(2) ? slots : below(slots + 1);
    case 2: return below(slots + 1);
    default: return one_in(2) ? slots : 0;
    }
}

static void erase_all(struct geometry g, uint32_t *image)
{
    for (size_t w = 0; w < words_of(g); w++)
        image[w] = ONES;
}

/* A well-formed image with nothing in it that a run of writes would have to have made. */
static void make_image(struct geometry g, uint32_t *image)
{
    static struct numbers numbers;
    uint32_t blank = below(g.blocks), style = below(4);
    bool has_dead_blocks = one_in(3);
    shuffle_numbers(&numbers, g);
    erase_all(g, image);
    for (uint32_t b = 0; b < g.blocks; b++) {
        enum mix mix = has_dead_blocks && one_in(3) ? (one_in(2) ? DEAD_ALONE : TAKEN_ALONE) : LIVE_AND_DEAD;
        make_block(g, block_of(g, image, b), b == blank ? 0 : some_used(style, slots_of(g)), mix, &numbers);
    }
}

/* ---- Damage. One word at each kind of place: the three words at a block's start, the map and the bits above its slots, an entry, a word
 * of the management sector that no rule speaks of, and the first, the last and any word of a slot's contents. */
static void damage(struct geometry g, uint32_t *image)
{
    uint32_t b = below(g.blocks), i = below(slots_of(g)), *block = block_of(g, image, b), *contents = contents_of(block, i), *at;
    switch (below(10)) {
    case 0: at = block; break;
    case 1: at = block + 1; break;
    case 2: at = block + 2; break;
    case 3: at = map_word_of(block, i); break;
    case 4: at = block + 3 + map_words_of(g) - 1; break;
    case 5: at = entries_of(g, block) + i; break;
    case 6: at = block + SECTOR - 1; break;
    case 7: at = contents; break;
    case 8: at = contents + SECTOR - 1; break;
    default: at = contents + below(SECTOR); break;
    }
    *at = one_in(2) ? *at ^ 1u << below(32) : odd_word(g);
}

#endif

/* Faults of known rules, planted in a well-formed image: each breaks one rule in one block by the way it is made, and the list of them
 * alone says which block and rule a call has to name. So this is an opinion on the answer that neither implementation has a part in.
 *
 * What a fault rests on stays as it is when the next one is planted: the entry of its slot is pinned. No number that is live in a pinned
 * slot in passing becomes complete elsewhere, as that would take the slot's number from it. A fault that would break a rule beside its own is
 * made so that it does not (a block that becomes full gets bounds), or the other rule is listed as well (R6). */
#ifndef FAULTS_H
#define FAULTS_H

#include <stdio.h>

#include "images.h"

enum { RULES = 8, MOST_FAULTS = 3, NONE = 64 };

/* The ways to break the rules that can be broken in more ways than one. */

/* A clear bit above those of the slots; a set bit over an entry that is complete, that is in passing, and over any other in use. */
enum { ABOVE_THE_SLOTS, OVER_COMPLETE, OVER_PASSING, OVER_OTHER, WAYS_OF_R2 };

/* Contents in a slot that was free, and in one that was taken and is free again. */
enum { IN_A_FREE_SLOT, IN_A_FREED_SLOT, WAYS_OF_R3 };

/* A sum: the later one of the two slots is the one that was changed; they are in two blocks; both are in passing, and not complete. */
enum { LATER_CHANGED = 1, TWO_BLOCKS = 2, BOTH_IN_PASSING = 4, WAYS_OF_R5 = 8 };

/* A dead entry in each blank block; a slot taken in each; or one taken in the last blank block that was to break nothing. Beside these,
 * another fault was put in the last blank block: then R6 is never the answer. */
enum { BY_DEAD_ENTRIES, BY_TAKEN_SLOTS, BY_A_HARMLESS_ONE, WAYS_OF_R6, BY_ANOTHER_FAULT = WAYS_OF_R6 };

/* While a slot is free, word 1, 2 or both programmed; or a slot free again in a block that was full. In a full block a live number below
 * word 1 or above word 2, complete and in passing; with live numbers, and with none, word 1, 2 or both all ones; or both left so when the last
 * free slots were taken. */
enum {
    WHILE_A_SLOT_IS_FREE,
    FREED_IN_FULL = WHILE_A_SLOT_IS_FREE + 3,
    OUTSIDE_COMPLETE,
    OUTSIDE_IN_PASSING = OUTSIDE_COMPLETE + 2,
    ONES_OVER_LIVE = OUTSIDE_IN_PASSING + 2,
    ONES_OVER_NONE = ONES_OVER_LIVE + 3,
    ONES_LEFT = ONES_OVER_NONE + 3,
    WAYS_OF_R7
};

/* A sum: the complete one of the two slots is the one that was put; it is before the superseded one; they are in two blocks. Beside these,
 * two slots of a block superseded by one. */
enum { COMPLETE_PUT = 1, COMPLETE_BEFORE = 2, COMPLETE_IN_ANOTHER_BLOCK = 4, TWO_SUPERSEDED = 8, WAYS_OF_R8 };

enum { MOST_WAYS = WAYS_OF_R7 };

struct fault {
    uint32_t rule, block;   /* the block that is charged with it; for R6 the number of blocks */
    uint32_t way;           /* of those above; 0 for a rule that has none there */
    uint32_t earlier_block; /* for R5: of the earlier one of the two slots */
    uint32_t slot;          /* for R8: the superseded one */
};

struct planting {
    struct geometry g;
    uint32_t *image;
    struct fault faults[MOST_FAULTS + 1]; /* as they were planted; a fault in the last blank block brings R6 with it */
    uint32_t count;
    bool pinned[64][63];
    bool filled; /* a slot was taken that was the last free one of its block, and nothing broken by that */
};

/* ---- Slots */

static uint32_t *entry_of(const struct planting *p, uint32_t b, uint32_t slot)
{
    return entries_of(p->g, block_of(p->g, p->image, b)) + slot;
}

static bool is_free(const struct planting *p, uint32_t b, uint32_t slot)
{
    return is_free_slot(p->g, block_of(p->g, p->image, b), slot);
}

static bool is_used(const struct planting *p, uint32_t b, uint32_t slot)
{
    return !is_free(p, b, slot);
}

static bool has_entry_in_use(const struct planting *p, uint32_t b, uint32_t slot)
{
    return *entry_of(p, b, slot) != ONES;
}

static bool is_complete(const struct planting *p, uint32_t b, uint32_t slot)
{
    return says_complete(p->g, *entry_of(p, b, slot));
}

static bool is_loose(const struct planting *p, uint32_t b, uint32_t slot)
{
    return !p->pinned[b][slot];
}

static bool is_loose_and_free(const struct planting *p, uint32_t b, uint32_t slot)
{
    return is_loose(p, b, slot) && is_free(p, b, slot);
}

static bool is_loose_and_taken(const struct planting *p, uint32_t b, uint32_t slot)
{
    return is_loose(p, b, slot) && is_used(p, b, slot) && !has_entry_in_use(p, b, slot);
}

static bool is_pinned_and_free(const struct planting *p, uint32_t b, uint32_t slot)
{
    return !is_loose(p, b, slot) && is_free(p, b, slot);
}

static bool is_complete_somewhere(const struct planting *p, uint32_t number)
{
    for (uint32_t b = 0; b < p->g.blocks; b++)
        for (uint32_t i = 0; i < slots_of(p->g); i++)
            if (*entry_of(p, b, i) == COMPLETE + number)
                return true;
    return false;
}

/* Not so if it is superseded: by then a planted fault may have made it that. */
static bool is_live(const struct planting *p, uint32_t b, uint32_t slot)
{
    uint32_t entry = *entry_of(p, b, slot);
    return says_complete(p->g, entry) || (says_passing(p->g, entry) && !is_complete_somewhere(p, number_in(entry)));
}

static bool is_loose_and_live(const struct planting *p, uint32_t b, uint32_t slot)
{
    return is_loose(p, b, slot) && is_live(p, b, slot);
}

/* Any slot of the block that is of the kind, or NONE. */
static uint32_t some_slot(const struct planting *p, uint32_t b, bool (*is_of_the_kind)(const struct planting *, uint32_t, uint32_t))
{
    uint32_t slots = slots_of(p->g), start = below(slots);
    for (uint32_t i = 0; i < slots; i++)
        if (is_of_the_kind(p, b, (start + i) % slots))
            return (start + i) % slots;
    return NONE;
}

/* A slot that is taken and has no entry: it is free again when its map bit is set. Not the only one of its block that is used: the block would
 * be blank, and that could mend R6. */
static uint32_t some_slot_to_free(const struct planting *p, uint32_t b)
{
    uint32_t used = 0;
    for (uint32_t i = 0; i < slots_of(p->g); i++)
        used += is_used(p, b, i);
    return used > 1 ? some_slot(p, b, is_loose_and_taken) : NONE;
}

static bool is_blank(const struct planting *p, uint32_t b)
{
    return some_slot(p, b, is_used) == NONE;
}

static bool is_full(const struct planting *p, uint32_t b)
{
    return some_slot(p, b, is_free) == NONE;
}

static bool some_block_is_blank(const struct planting *p)
{
    for (uint32_t b = 0; b < p->g.blocks; b++)
        if (is_blank(p, b))
            return true;
    return false;
}

/* ---- The list */

static bool is_listed(const struct planting *p, uint32_t rule, uint32_t block)
{
    for (uint32_t i = 0; i < p->count; i++)
        if (p->faults[i].rule == rule && p->faults[i].block == block)
            return true;
    return false;
}

static void list(struct planting *p, struct fault fault)
{
    p->faults[p->count++] = fault;
}

/* R6 has the highest block of all, so that it needs no word of its own here. */
static bool comes_before(const struct fault *x, const struct fault *y)
{
    return x->block < y->block || (x->block == y->block && x->rule < y->rule);
}

/* The one that a call has to name. */
static const struct fault *first_fault(const struct planting *p)
{
    const struct fault *first = p->faults;
    for (uint32_t i = 1; i < p->count; i++)
        if (comes_before(&p->faults[i], first))
            first = &p->faults[i];
    return first;
}

/* R6, if no block is blank any more. */
static void list_if_none_is_blank(struct planting *p, uint32_t way)
{
    if (!is_listed(p, 6, p->g.blocks) && !some_block_is_blank(p))
        list(p, (struct fault){.rule = 6, .block = p->g.blocks, .way = way});
}

/* ---- Planting. A function that finds no place for its fault in the block leaves the image as it was. */

static void bound_live_numbers(struct planting *p, uint32_t b)
{
    uint32_t least = ONES, greatest = 0;
    for (uint32_t i = 0; i < slots_of(p->g); i++) {
        uint32_t n = number_in(*entry_of(p, b, i));
        if (!is_live(p, b, i))
            continue;
        least = n < least ? n : least;
        greatest = n > greatest ? n : greatest;
    }
    put_bounds(p->g, block_of(p->g, p->image, b), least, greatest);
}

/* An entry in place of what a loose slot has, with nothing broken by the slot's map bit and by words 1 and 2. They stay where R7 is to be
 * broken: a block that breaks it keeps a free slot, a live number that they do not bound, or a word of all ones. */
static void put_entry(struct planting *p, uint32_t b, uint32_t slot, uint32_t entry)
{
    *entry_of(p, b, slot) = entry;
    take_slot(block_of(p->g, p->image, b), slot);
    p->pinned[b][slot] = true;
    if (is_full(p, b) && !is_listed(p, 7, b))
        bound_live_numbers(p, b);
}

/* Nothing is broken: a live slot that nothing rests on stays live when it is in passing. Few are so by themselves late in a run. */
static void let_pass_sometimes(struct planting *p, uint32_t b, uint32_t slot)
{
    uint32_t *entry = entry_of(p, b, slot);
    if (is_loose(p, b, slot) && one_in(3))
        *entry = IN_PASSING + number_in(*entry);
}

/* Nothing is broken: a slot is taken, whose entry stays free. Its contents are anything, as it is dead. */
static void take_a_slot(struct planting *p, uint32_t b)
{
    uint32_t slot = some_slot(p, b, is_loose_and_free);
    if (slot == NONE)
        return;
    fill_contents(contents_of(block_of(p->g, p->image, b), slot));
    put_entry(p, b, slot, ONES);
    p->filled |= is_full(p, b);
}

static void set_map_bit(struct planting *p, uint32_t b, uint32_t slot)
{
    *map_word_of(block_of(p->g, p->image, b), slot) |= 1u << slot % 32;
    p->pinned[b][slot] = true;
}

/* R1: a count above the ceiling. */
static void plant_count(struct planting *p, uint32_t b)
{
    block_of(p->g, p->image, b)[0] = SHELLWALTZ_CEILING + 1 + (one_in(2) ? 0 : below(ONES - SHELLWALTZ_CEILING));
    list(p, (struct fault){.rule = 1, .block = b});
}

/* R2: a bit of the map that is clear above those of the slots, or set over an entry in use. The slot is what its entry makes it all the same.
 * A clear bit over a free entry breaks nothing. */
static void plant_map_bit(struct planting *p, uint32_t b)
{
    uint32_t slots = slots_of(p->g), above = 32 * map_words_of(p->g) - slots, slot = some_slot(p, b, has_entry_in_use), way;
    if (above > 0 && one_in(3)) {
        take_slot(block_of(p->g, p->image, b), slots + below(above));
        way = ABOVE_THE_SLOTS;
    } else if (slot != NONE) {
        uint32_t entry = *entry_of(p, b, slot);
        set_map_bit(p, b, slot);
        way = says_complete(p->g, entry) ? OVER_COMPLETE : says_passing(p->g, entry) ? OVER_PASSING : OVER_OTHER;
    } else {
        return;
    }
    list(p, (struct fault){.rule = 2, .block = b, .way = way});
}

/* R3: a clear bit in the contents of a free slot, or of one that is free again. In both cases the block had a free slot, so that R7 holds. */
static void plant_contents(struct planting *p, uint32_t b)
{
    uint32_t free_slot = some_slot(p, b, is_free), freed = some_slot_to_free(p, b);
    bool frees = freed != NONE && one_in(2);
    uint32_t slot = frees ? freed : free_slot, word = one_in(3) ? 0 : one_in(2) ? SECTOR - 1 : below(SECTOR);
    if (free_slot == NONE)
        return;
    set_map_bit(p, b, slot);
    contents_of(block_of(p->g, p->image, b), slot)[word] &= ~(1u << below(32));
    list(p, (struct fault){.rule = 3, .block = b, .way = frees ? IN_A_FREED_SLOT : IN_A_FREE_SLOT});
}

/* R4: a faulty entry, of the least number that is too large or of any. */
static void plant_faulty_entry(struct planting *p, uint32_t b)
{
    uint32_t slot = some_slot(p, b, is_loose), logical = p->g.logical;
    if (slot == NONE)
        return;
    put_entry(p, b, slot, COMPLETE + logical + (one_in(2) ? 0 : below(0x20000000u - logical)));
    list(p, (struct fault){.rule = 4, .block = b});
}

/* R5: a number that is live in a slot of the block and in an earlier one, of this block or of one before it. One of the two has it already,
 * and the other one is changed: to a complete entry if the first one is complete, and to one in passing if it is in passing, so that neither
 * supersedes the other. Where the earlier one is changed, the number must be live nowhere else: a third slot could be charged too. */
static void plant_number_again(struct planting *p, uint32_t b)
{
    uint32_t earlier_block = one_in(2) ? b : below(b + 1);
    bool later_put = one_in(2);
    uint32_t from_block = later_put ? earlier_block : b, to_block = later_put ? b : earlier_block;
    uint32_t from = some_slot(p, from_block, is_live), to = some_slot(p, to_block, is_loose);
    if (from == NONE || to == NONE || (from_block == to_block && from == to) || (!later_put && p->pinned[from_block][from]))
        return;
    let_pass_sometimes(p, from_block, from);
    uint32_t entry = *entry_of(p, from_block, from);
    bool later_changed = earlier_block == b ? from < to : later_put;
    put_entry(p, to_block, to, entry);
    p->pinned[from_block][from] = true;
    uint32_t way = (later_changed ? LATER_CHANGED : 0) + (earlier_block == b ? 0 : TWO_BLOCKS);
    way += says_passing(p->g, entry) ? BOTH_IN_PASSING : 0;
    list(p, (struct fault){.rule = 5, .block = b, .way = way, .earlier_block = earlier_block});
}

/* R6: in each blank block a dead entry, or a slot that is taken and keeps its free entry. By itself that breaks nothing. */
static void plant_in_blank_blocks(struct planting *p)
{
    bool with_entries = one_in(2);
    for (uint32_t b = 0; b < p->g.blocks; b++) {
        uint32_t slot = some_slot(p, b, is_loose);
        if (is_blank(p, b) && slot != NONE)
            put_entry(p, b, slot, with_entries ? dead_entry(p->g) : ONES);
    }
    list_if_none_is_blank(p, with_entries ? BY_DEAD_ENTRIES : BY_TAKEN_SLOTS);
}

/* R7: word 1, 2 or both programmed while a slot is free. */
static void plant_early_bounds(struct planting *p, uint32_t b, uint32_t free_slot)
{
    uint32_t *block = block_of(p->g, p->image, b), which = below(3);
    if (which != 1)
        block[1] = programmed_word(p->g);
    if (which != 0)
        block[2] = programmed_word(p->g);
    p->pinned[b][free_slot] = true;
    list(p, (struct fault){.rule = 7, .block = b, .way = WHILE_A_SLOT_IS_FREE + which});
}

/* R7: a slot of a full block is free again, with contents as R3 asks, and words 1 and 2 stay programmed. */
static void plant_late_bounds(struct planting *p, uint32_t b, uint32_t slot)
{
    uint32_t *contents = contents_of(block_of(p->g, p->image, b), slot);
    for (uint32_t j = 0; j < SECTOR; j++)
        contents[j] = ONES;
    set_map_bit(p, b, slot);
    list(p, (struct fault){.rule = 7, .block = b, .way = FREED_IN_FULL});
}

/* R7: the last free slots are taken, and words 1 and 2 stay all ones. What keeps a slot free would keep the block from being full. */
static void plant_no_bounds(struct planting *p, uint32_t b)
{
    if (some_slot(p, b, is_pinned_and_free) != NONE)
        return;
    list(p, (struct fault){.rule = 7, .block = b, .way = ONES_LEFT});
    for (uint32_t i = 0; i < slots_of(p->g); i++)
        if (is_free(p, b, i))
            put_entry(p, b, i, ONES);
}

/* R7: word 1 or 2 on the wrong side of a live number of a full block, and not all ones. */
static void plant_wrong_bound(struct planting *p, uint32_t b, uint32_t live_slot)
{
    uint32_t *block = block_of(p->g, p->image, b), n = number_in(*entry_of(p, b, live_slot));
    bool is_above = n > 0 && one_in(2);
    if (is_above)
        block[2] = one_in(2) ? below(n) : n - 1;
    else
        block[1] = n + 1 + (one_in(2) ? 0 : below(ONES - n - 1));
    let_pass_sometimes(p, b, live_slot);
    p->pinned[b][live_slot] = true;
    list(p, (struct fault){.rule = 7, .block = b, .way = (is_complete(p, b, live_slot) ? OUTSIDE_COMPLETE : OUTSIDE_IN_PASSING) + is_above});
}

/* R7: word 1, 2 or both of a full block all ones, whether a number is live in it or not. */
static void plant_ones(struct planting *p, uint32_t b)
{
    uint32_t *block = block_of(p->g, p->image, b), which = below(3);
    bool has_live = some_slot(p, b, is_live) != NONE;
    if (which != 1)
        block[1] = ONES;
    if (which != 0)
        block[2] = ONES;
    list(p, (struct fault){.rule = 7, .block = b, .way = (has_live ? ONES_OVER_LIVE : ONES_OVER_NONE) + which});
}

static void plant_bounds(struct planting *p, uint32_t b)
{
    uint32_t free_slot = some_slot(p, b, is_free), live_slot = some_slot(p, b, is_live), freed = some_slot_to_free(p, b);
    if (free_slot != NONE && one_in(4))
        plant_no_bounds(p, b);
    else if (free_slot != NONE)
        plant_early_bounds(p, b, free_slot);
    else if (freed != NONE && one_in(4))
        plant_late_bounds(p, b, freed);
    else if (live_slot != NONE && !one_in(3))
        plant_wrong_bound(p, b, live_slot);
    else
        plant_ones(p, b);
}

static void list_superseded(struct planting *p, uint32_t b, uint32_t slot, uint32_t complete_block, uint32_t complete_slot, bool complete_put)
{
    bool is_before = complete_block < b || (complete_block == b && complete_slot < slot);
    uint32_t way = (complete_put ? COMPLETE_PUT : 0) + (is_before ? COMPLETE_BEFORE : 0);
    way += complete_block == b ? 0 : COMPLETE_IN_ANOTHER_BLOCK;
    p->pinned[b][slot] = p->pinned[complete_block][complete_slot] = true;
    list(p, (struct fault){.rule = 8, .block = b, .way = way, .slot = slot});
}

/* R8: an entry in passing is put in the block, of a number that is complete; or two of them. They are live for nothing. */
static void plant_passing(struct planting *p, uint32_t b, uint32_t complete_block)
{
    uint32_t from = some_slot(p, complete_block, is_complete), to = some_slot(p, b, is_loose);
    if (from == NONE || to == NONE || (complete_block == b && from == to))
        return;
    uint32_t entry = IN_PASSING + number_in(*entry_of(p, complete_block, from));
    put_entry(p, b, to, entry);
    list_superseded(p, b, to, complete_block, from, false);
    uint32_t again = some_slot(p, b, is_loose);
    if (again != NONE && one_in(3)) {
        put_entry(p, b, again, entry);
        p->faults[p->count - 1].way = TWO_SUPERSEDED;
    }
}

/* R8: a number that is live in the block is put in another slot, complete. The old one is in passing, or becomes so: it is as if a placing had
 * ended after step (e). Nothing may rest on the old slot, as it is not live any more; and so the number was live nowhere else. */
static void plant_complete(struct planting *p, uint32_t b, uint32_t complete_block)
{
    uint32_t from = some_slot(p, b, is_loose_and_live), to = some_slot(p, complete_block, is_loose);
    if (from == NONE || to == NONE || (complete_block == b && from == to))
        return;
    uint32_t n = number_in(*entry_of(p, b, from));
    *entry_of(p, b, from) = IN_PASSING + n;
    put_entry(p, complete_block, to, COMPLETE + n);
    list_superseded(p, b, from, complete_block, to, true);
}

static void plant_superseded(struct planting *p, uint32_t b)
{
    uint32_t complete_block = one_in(2) ? b : below(p->g.blocks);
    if (one_in(2))
        plant_passing(p, b, complete_block);
    else
        plant_complete(p, b, complete_block);
}

/* A rule that the block breaks already is not broken once more. Rule 0 breaks none. What was put may have been put in the last blank block. */
static void plant(struct planting *p, uint32_t rule, uint32_t b)
{
    if (is_listed(p, rule, b))
        return;
    switch (rule) {
    case 0: take_a_slot(p, b); break;
    case 1: plant_count(p, b); break;
    case 2: plant_map_bit(p, b); break;
    case 3: plant_contents(p, b); break;
    case 4: plant_faulty_entry(p, b); break;
    case 5: plant_number_again(p, b); break;
    case 6: plant_in_blank_blocks(p); break;
    case 7: plant_bounds(p, b); break;
    default: plant_superseded(p, b); break;
    }
    list_if_none_is_blank(p, rule == 0 ? BY_A_HARMLESS_ONE : BY_ANOTHER_FAULT);
}

/* One to three faults, about half of them in one block. A rule that finds no place gives way to another one, so those that often find none
 * are tried more often; R1 always finds one. */
static void plant_faults(struct planting *p, struct geometry g, uint32_t *image)
{
    static const uint32_t rules[] = {0, 1, 2, 2, 3, 3, 4, 5, 5, 5, 5, 6, 7, 7, 8, 8, 8, 8};
    uint32_t wanted = 1 + below(MOST_FAULTS), home = below(g.blocks);
    *p = (struct planting){.g = g, .image = image};
    for (int tries = 0; p->count == 0 || (p->count < wanted && tries < 12); tries++) {
        uint32_t block = one_in(2) ? home : below(g.blocks);
        plant(p, rules[below(sizeof rules / sizeof *rules)], block);
    }
}

static void show_faults(const struct planting *p)
{
    for (uint32_t i = 0; i < p->count; i++) {
        const struct fault *f = &p->faults[i];
        printf("  planted: rule %u in block %u, way %u\n", (unsigned)f->rule, (unsigned)f->block, (unsigned)f->way);
    }
}

#endif

/* Lookup tables to lend, right ones and wrong ones, and what a call has to leave of them. Where a number is stored is looked up here, slot
 * by slot, so this is an opinion on a table that neither implementation has a part in. */
#ifndef TABLES_H
#define TABLES_H

#include <stdio.h>

#include "counts.h"
#include "images.h"

enum { MOST_SLOTS = 64 * 63, MOST_TABLE = MOST_SLOTS + 256 };

/* What the words of a lent table are: where the numbers are; nowhere; any words; places that the image does not have; places of slots that are
 * dead (also taken ones without an entry), that hold another number, and that are free; and where the numbers were in an earlier image. */
enum table_kind { RIGHT, ALL_NOWHERE, ANY_WORDS, OUTSIDE, DEAD_SLOTS, OTHERS_SLOTS, FREE_SLOTS, OLDER, KINDS };
static const char *const kind_names[KINDS] = {"right", "nowhere", "any words", "outside", "dead", "of others", "free", "older"};

struct lending {
    enum table_kind kind;
    struct geometry g;                               /* the image's, with a number for each word of the table */
    uint16_t places[MOST_TABLE], after[MOST_TABLE];  /* where the numbers are before the call, and where they are after it */
    bool right;                                      /* a right table of the right length */
    bool misleads;                                   /* it has another word for the call's number than a right one */
};

/* ---- Places */

static uint32_t places_of(struct geometry g)
{
    return g.blocks * slots_of(g);
}

static uint32_t entry_at(struct geometry g, uint32_t *image, uint32_t place)
{
    return entries_of(g, block_of(g, image, place / slots_of(g)))[place % slots_of(g)];
}

static bool is_free_at(struct geometry g, uint32_t *image, uint32_t place)
{
    return is_free_slot(g, block_of(g, image, place / slots_of(g)), place % slots_of(g));
}

/* Where each number is stored: the words of a right table. A number is where it is complete, and only without such a slot where it is in
 * passing, on whichever side of it the complete one is. */
static void find_all(struct geometry g, uint32_t *image, uint16_t *places)
{
    for (uint32_t n = 0; n < g.logical; n++)
        places[n] = SHELLWALTZ_NOWHERE;
    for (uint32_t place = 0; place < places_of(g); place++) {
        uint32_t entry = entry_at(g, image, place), n = number_in(entry);
        if (says_complete(g, entry) || (says_passing(g, entry) && places[n] == SHELLWALTZ_NOWHERE))
            places[n] = (uint16_t)place;
    }
}

/* The right table of an earlier image, with words for as many numbers as a table can have. */
static uint16_t older[MOST_TABLE];

static void keep_as_older(struct geometry g, uint32_t *image)
{
    find_all((struct geometry){g.blocks, g.sectors, MOST_TABLE}, image, older);
}

/* ---- Filling */

/* The places of all slots that a kind is made of; of a kind that is not made of slots, none. Where a slot is superseded or faulty, every call
 * is refused whatever it is lent. */
static uint32_t list_slots(enum table_kind kind, struct geometry g, uint32_t *image, uint16_t *list)
{
    uint32_t count = 0;
    for (uint32_t place = 0; place < places_of(g); place++) {
        enum table_kind made_of_it = is_free_at(g, image, place)               ? FREE_SLOTS
                                     : says_live(g, entry_at(g, image, place)) ? OTHERS_SLOTS
                                                                               : DEAD_SLOTS;
        if (made_of_it == kind)
            list[count++] = (uint16_t)place;
    }
    return count;
}

/* The first place behind the last slot, the last one before the word that means nowhere, or any between. */
static uint16_t some_place_outside(struct geometry g)
{
    uint32_t first = places_of(g);
    return (uint16_t)(one_in(3) ? first : one_in(2) ? SHELLWALTZ_NOWHERE - 1 : first + below(SHELLWALTZ_NOWHERE - first));
}

/* Any of the list, but the number's own place only if there is no other. */
static uint16_t some_other_slot(const uint16_t *list, uint32_t count, uint16_t own)
{
    uint32_t i = below(count);
    return list[i] != own ? list[i] : list[(i + 1) % count];
}

/* Fills the table with a word for each number. Where the image has no slot that the kind is made of, it becomes one that says nowhere. */
static void fill_table(struct lending *lent, uint32_t *image, uint16_t *table)
{
    static uint16_t list[MOST_SLOTS];
    uint32_t count = list_slots(lent->kind, lent->g, image, list);
    if (lent->kind >= DEAD_SLOTS && lent->kind <= FREE_SLOTS && count == 0)
        lent->kind = ALL_NOWHERE;
    for (uint32_t n = 0; n < lent->g.logical; n++)
        switch (lent->kind) {
        case RIGHT: table[n] = lent->places[n]; break;
        case ALL_NOWHERE: table[n] = SHELLWALTZ_NOWHERE; break;
        case ANY_WORDS: table[n] = (uint16_t)chance(); break;
        case OUTSIDE: table[n] = some_place_outside(lent->g); break;
        case OLDER: table[n] = older[n]; break;
        default: table[n] = some_other_slot(list, count, lent->places[n]); break;
        }
}

static enum table_kind some_kind(void)
{
    return one_in(4) ? RIGHT : (enum table_kind)below(KINDS);
}

/* ---- What a call has to leave */

/* Sets what an accepted call has to set of the table that it was lent: the words of the numbers that are elsewhere after it, and those of all
 * numbers where it builds. So a right table becomes the right one of the new image, and of a wrong one all other words stay. */
static void follow_places(struct lending *lent, uint32_t *image, bool builds, uint16_t *table)
{
    find_all(lent->g, image, lent->after);
    for (uint32_t n = 0; n < lent->g.logical; n++)
        if (builds || lent->after[n] != lent->places[n])
            table[n] = lent->after[n];
}

/* ---- Lengths that are refused: none, one word too few or too many, those of a buffer, and any. */

enum { NO_WORDS, ONE_LESS, ONE_MORE, OF_A_BUFFER, ANY_LENGTH, LENGTHS };

static size_t some_length(uint32_t logical)
{
    switch (below(LENGTHS)) {
    case NO_WORDS: return 0;
    case ONE_LESS: return logical - 1;
    case ONE_MORE: return logical + 1;
    case OF_A_BUFFER: return SECTOR;
    default: return below(MOST_TABLE);
    }
}

static int kind_of_length(size_t words, uint32_t logical)
{
    return words == 0             ? NO_WORDS
           : words + 1 == logical ? ONE_LESS
           : words == logical + 1 ? ONE_MORE
           : words == SECTOR      ? OF_A_BUFFER
                                  : ANY_LENGTH;
}

/* ---- What came about: which tables were lent to calls that were accepted, and which lengths to calls that refused them. */

/* What an accepted call did: it built a table, read, released, wrote without reclaiming, or wrote after a reclaim that moved other numbers
 * only, or the number itself. */
enum deed { BUILT, READ_IT, RELEASED, WROTE, MOVED_OTHERS, MOVED_ITSELF, DEEDS };

static struct {
    unsigned long deed[DEEDS][KINDS];
    unsigned long length[4][LENGTHS]; /* by build, read, write and release */
} lent_so;

/* The block that a write has erased, told by its erase count; the number of blocks if it has erased none. */
static uint32_t erased_block(struct geometry g, uint32_t *before, uint32_t *after)
{
    uint32_t b = 0;
    while (b < g.blocks && *block_of(g, before, b) == *block_of(g, after, b))
        b++;
    return b;
}

/* The deed of an accepted write; DEEDS for a reclaim that moved nothing, of which a table has nothing to tell. */
static enum deed deed_of_write(const struct lending *lent, uint32_t *before, uint32_t *after, uint32_t number)
{
    uint32_t slots = slots_of(lent->g), moved = 0, erased = erased_block(lent->g, before, after);
    if (erased == lent->g.blocks)
        return WROTE;
    if (lent->places[number] / slots == erased)
        return MOVED_ITSELF;
    for (uint32_t n = 0; n < lent->g.logical; n++)
        moved += lent->places[n] / slots == erased;
    return moved > 0 ? MOVED_OTHERS : DEEDS;
}

/* Counts a table only where it was to be seen whether the call trusts it: a wrong one is wrong for the call's number. */
static void count_lent(const struct lending *lent, enum deed deed)
{
    if (deed < DEEDS && (lent->kind == RIGHT || lent->misleads))
        lent_so.deed[deed][lent->kind]++;
}

/* Prints how often each kind was lent, and each length refused; whether everything came about. */
static bool show_what_was_lent(void)
{
    static const char *const deeds[DEEDS] = {"\n  built", ", read", ", released", "\n  written", ", others moved", ", itself moved"};
    static const char *const calls[4] = {"; refused by build", ", read", ", write", ", release"};
    bool complete = true;
    printf("  lent:");
    for (int k = 0; k < KINDS; k++)
        printf("%s %s", k == 0 ? "" : ",", kind_names[k]);
    for (int d = 0; d < DEEDS; d++)
        complete &= show_counts(deeds[d], lent_so.deed[d], KINDS);
    printf("\n  of length 0, one less, one more, 128, any");
    for (int c = 0; c < 4; c++)
        complete &= show_counts(calls[c], lent_so.length[c], LENGTHS);
    puts(complete ? "" : " <- a 0: tables that were never lent so");
    return complete;
}

#endif

/* What a placing leaves that ends before its last step: an entry in passing, and a slot that is taken and has no entry. No call leaves these,
 * and calls use them up. So they are made here in the middle of a run as well, and it is counted what accepted calls met with of them. */
#ifndef PASSING_H
#define PASSING_H

#include "calls.h"

/* ---- Making */

static uint32_t free_slots_in(struct geometry g, uint32_t *block)
{
    uint32_t count = 0;
    for (uint32_t i = 0; i < slots_of(g); i++)
        count += is_free_slot(g, block, i);
    return count;
}

/* Step (a) alone, where the block is open and stays so: then a well-formed image stays one. */
static void take_lowest_free_slot(struct geometry g, uint32_t *block)
{
    uint32_t count = free_slots_in(g, block), slot = 0;
    if (count < 2 || count == slots_of(g))
        return;
    while (!is_free_slot(g, block, slot))
        slot++;
    take_slot(block, slot);
    if (one_in(2))
        fill_contents(contents_of(block, slot));
}

/* Step (b) for some numbers of a block, with no new slot: each is still live where it was. */
static void put_in_passing(struct geometry g, uint32_t *block)
{
    uint32_t *entries = entries_of(g, block);
    for (uint32_t i = 0; i < slots_of(g); i++)
        if (says_complete(g, entries[i]) && one_in(2))
            entries[i] = IN_PASSING + number_in(entries[i]);
}

/* What it leaves is as if some placings had ended early. */
static void end_placings_early(struct geometry g, uint32_t *image)
{
    put_in_passing(g, block_of(g, image, below(g.blocks)));
    take_lowest_free_slot(g, block_of(g, image, below(g.blocks)));
}

/* A number of which some entry says so, for example that it is in passing; the other one if none does. */
static uint32_t some_number_that(bool (*says_so)(struct geometry, uint32_t), struct geometry g, uint32_t *image, uint32_t other)
{
    uint32_t places = places_of(g), start = below(places);
    for (uint32_t i = 0; i < places; i++) {
        uint32_t entry = entry_at(g, image, (start + i) % places);
        if (says_so(g, entry))
            return number_in(entry);
    }
    return other;
}

/* ---- Counting */

/* What the image of an accepted call had: a taken slot without an entry in an open block; a full block of such slots alone, and one of any
 * dead slots alone; a dead entry in passing with the number L, and with a higher one. */
enum { OPEN_WITH_TAKEN, FULL_OF_TAKEN, FULL_OF_DEAD, PASSING_L, PASSING_BEYOND_L, FINDINGS };

/* The table that a call on a number in passing was lent: none, one that tells its slot, or one that misleads. */
enum { NO_TABLE, TELLS, MISLEADS, TELLINGS };
enum { USES = RELEASE - READ + 1 };

/* Writes of a number in passing: by rules 1 and 2, and by rule 3 where the reclaim leaves the number where it is, and where it moves it. */
enum { BY_RULE_1, BY_RULE_2, BY_RULE_3, BY_RULE_3_MOVED, WRITE_RULES };

static struct {
    unsigned long found[FINDINGS];
    unsigned long used[USES][TELLINGS]; /* by read, write and release */
    unsigned long written[WRITE_RULES];
    unsigned long words[2];             /* of those that erased nothing: with 133 words, and 135, as step (b) counts too */
    unsigned long moved_others;         /* reclaims that moved an entry in passing of another number than the one written */
} met_with;

static void find_in_block(struct geometry g, uint32_t *block, bool *found)
{
    uint32_t slots = slots_of(g), *entries = entries_of(g, block), free_slots = free_slots_in(g, block), taken = 0, live = 0;
    for (uint32_t i = 0; i < slots; i++) {
        uint32_t entry = entries[i];
        taken += entry == ONES && !is_free_slot(g, block, i);
        live += says_live(g, entry);
        found[PASSING_L] |= entry == IN_PASSING + g.logical;
        found[PASSING_BEYOND_L] |= (entry & UPPER_BITS) == IN_PASSING && number_in(entry) > g.logical;
    }
    found[OPEN_WITH_TAKEN] |= taken > 0 && free_slots > 0;
    found[FULL_OF_TAKEN] |= taken == slots;
    found[FULL_OF_DEAD] |= free_slots == 0 && live == 0;
}

static void count_findings(struct geometry g, uint32_t *image)
{
    bool found[FINDINGS] = {false};
    for (uint32_t b = 0; b < g.blocks; b++)
        find_in_block(g, block_of(g, image, b), found);
    for (int i = 0; i < FINDINGS; i++)
        met_with.found[i] += found[i];
}

/* The block that has the entry; the number of blocks if none has. */
static uint32_t block_with(struct geometry g, uint32_t *image, uint32_t entry)
{
    uint32_t place = 0;
    while (place < places_of(g) && entry_at(g, image, place) != entry)
        place++;
    return place / slots_of(g);
}

static int rule_of_write(struct geometry g, uint32_t *before, uint32_t *after, uint32_t number)
{
    uint32_t erased = erased_block(g, before, after), placed = block_with(g, after, COMPLETE + number);
    if (erased < g.blocks)
        return block_with(g, before, IN_PASSING + number) == erased ? BY_RULE_3_MOVED : BY_RULE_3;
    return free_slots_in(g, block_of(g, before, placed)) == slots_of(g) ? BY_RULE_2 : BY_RULE_1;
}

static bool moves_others_in_passing(struct geometry g, uint32_t *before, uint32_t *after, uint32_t number)
{
    uint32_t erased = erased_block(g, before, after);
    for (uint32_t i = 0; erased < g.blocks && i < slots_of(g); i++) {
        uint32_t entry = entries_of(g, block_of(g, before, erased))[i];
        if (says_passing(g, entry) && number_in(entry) != number)
            return true;
    }
    return false;
}

static void count_write_over_passing(struct asked a, uint32_t *before, const struct side *s)
{
    met_with.written[rule_of_write(a.g, before, s->image, a.number)]++;
    met_with.words[0] += s->count[1] == 0 && s->count[0] == 133;
    met_with.words[1] += s->count[1] == 0 && s->count[0] == 135;
}

/* A call that was accepted, on the image that was there before it. A format looks at none, and what a call by steps meets with the whole call
 * meets with too. */
static void count_accepted(struct asked a, uint32_t *before, const struct side *s, const struct lending *lent)
{
    enum call plain = takes_table(a.call) ? without_table[a.call] : a.call;
    if (a.call == FORMAT || goes_by_steps(a.call))
        return;
    count_findings(a.g, before);
    if (writes(a.call))
        met_with.moved_others += moves_others_in_passing(a.g, before, s->image, a.number);
    if (plain < READ || block_with(a.g, before, IN_PASSING + a.number) == a.g.blocks)
        return;
    met_with.used[plain - READ][!takes_table(a.call) ? NO_TABLE : lent->misleads ? MISLEADS : TELLS]++;
    if (writes(a.call))
        count_write_over_passing(a, before, s);
}

/* Prints how often accepted calls met with each; whether everything came about. */
static bool show_what_was_met_with(void)
{
    static const char *const uses[USES] = {"; without a table, with one that tells, that misleads: read", ", written", ", released"};
    bool complete = show_counts("  accepted with taken slots in an open block, alone in a full one, dead ones alone, in passing L, beyond L",
                                met_with.found, FINDINGS);
    printf("\n  in passing");
    for (int u = 0; u < USES; u++)
        complete &= show_counts(uses[u], met_with.used[u], TELLINGS);
    complete &= show_counts("; written by rules 1, 2, 3, 3 and moved", met_with.written, WRITE_RULES);
    complete &= show_counts(", with 133, 135 words", met_with.words, 2);
    complete &= show_counts("; others moved", &met_with.moved_others, 1);
    puts(complete ? "" : " <- a 0: what no accepted call met with");
    return complete;
}

#endif

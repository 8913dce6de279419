/* The two sides, and one call on both of them: what it gives and leaves has to be the same, and what a third opinion says. */
#ifndef COMPARING_H
#define COMPARING_H

#include <stdbool.h>
#include <stdio.h>
#include <stdlib.h>
#include <string.h>

#include "came_about.h"
#include "mending.h"

enum { ANSWERS = SHELLWALTZ_NO_ROOM + 1 };
enum { RUBBISH = 77 }; /* what a call finds where it is to put a number: neither a block nor a rule */

static struct side ours, theirs, wanted; /* the library, the second implementation, and what a third opinion wants of a call */
static struct side *const sides[] = {&ours, &theirs, &wanted};
enum { SIDES = sizeof sides / sizeof *sides };
static struct lending lent;
static uint32_t *before;                 /* the image before the call */
static bool walking;                     /* the call is one of a walk through all steps (steps.h) */

static uint64_t seed;
static unsigned round_number, call_number;
static unsigned long compared, seen[CALLS][ANSWERS], named[CALLS][RULES + 1], erasures;

/* The first place where n words of a size differ, from the guard on; n + GUARD where none does. */
static long first_difference(const void *x, const void *y, size_t n, size_t size)
{
    const unsigned char *p = (const unsigned char *)x - GUARD * size, *q = (const unsigned char *)y - GUARD * size;
    size_t bytes = (n + 2 * GUARD) * size, i = 0;
    if (memcmp(p, q, bytes) == 0)
        return (long)(n + GUARD);
    while (p[i] == q[i])
        i++;
    return (long)(i / size) - GUARD;
}

static bool are_same(const void *x, const void *y, size_t n, size_t size)
{
    return first_difference(x, y, n, size) == (long)(n + GUARD);
}

static unsigned word_at(const void *words, long at, size_t size)
{
    return size == sizeof(uint16_t) ? ((const uint16_t *)words)[at] : ((const uint32_t *)words)[at];
}

static void show_words(const char *what, const void *x, const struct side *other, const void *y, size_t n, size_t size)
{
    long at = first_difference(x, y, n, size);
    if (at < (long)(n + GUARD))
        printf("  first differing word of the %s: %ld: library %0*x, %s %0*x\n", what, at, (int)(2 * size), word_at(x, at, size), other->name,
               (int)(2 * size), word_at(y, at, size));
}

static void show_numbers(const char *what, size_t x, const struct side *other, size_t y)
{
    if (x != y)
        printf("  %s: library %zu, %s %zu\n", what, x, other->name, y);
}

static void show_call(const char *what, struct asked a, const struct side *other)
{
    printf("compare: %s: seed %llu round %u call %u\n", what, (unsigned long long)seed, round_number, call_number);
    printf("  %s at (%u,%u,%u), image of %zu words, number %u, buffer of %zu words\n", names[a.call], (unsigned)a.g.blocks,
           (unsigned)a.g.sectors, (unsigned)a.g.logical, a.image_words, (unsigned)a.number, a.buffer_words);
    if (takes_table(a.call))
        printf("  table of %zu words, kind: %s\n", a.table_words, kind_names[lent.kind]);
    if (tells_a_step(a.call))
        printf("  step %u, by the library: kind %u, place %zu, word %08x\n", (unsigned)a.step, (unsigned)ours.step.kind, ours.step.place,
               (unsigned)ours.step.word);
    if (does_first_steps(a.call))
        printf("  steps at most: %u\n", (unsigned)a.step);
    printf("  answer: library %u, %s %u\n", (unsigned)ours.answer, other->name, (unsigned)other->answer);
}

static void show_difference(const char *what, struct asked a, size_t n, const struct side *other)
{
    static const char *const counts[4] = {"count 0", "count 1", "count 2", "count 3"};
    show_call(what, a, other);
    for (int i = 0; i < 4; i++)
        show_numbers(counts[i], ours.count[i], other, other->count[i]);
    show_numbers("bad block", ours.bad_block, other, other->bad_block);
    show_numbers("bad rule", ours.bad_rule, other, other->bad_rule);
    show_numbers("kind of step", ours.step.kind, other, other->step.kind);
    show_numbers("place of step", ours.step.place, other, other->step.place);
    show_numbers("word of step", ours.step.word, other, other->step.word);
    show_words("image", ours.image, other, other->image, n, sizeof *before);
    long at = first_difference(ours.image, other->image, n, sizeof *before);
    if (at >= 0 && at < (long)n)
        printf("  it was %08x before the call\n", (unsigned)before[at]);
    show_words("buffer", ours.buffer, other, other->buffer, MOST_BUFFER, sizeof *ours.buffer);
    if (takes_table(a.call))
        show_words("table", ours.table, other, other->table, a.table_words, sizeof *ours.table);
    exit(1);
}

/* Whether the library has given and left the same as the other side. */
static bool are_alike(struct asked a, size_t n, const struct side *other)
{
    return ours.answer == other->answer && memcmp(ours.count, other->count, sizeof ours.count) == 0
           && ours.bad_block == other->bad_block && ours.bad_rule == other->bad_rule && are_same_steps(ours.step, other->step)
           && are_same(ours.image, other->image, n, sizeof *ours.image)
           && are_same(ours.buffer, other->buffer, MOST_BUFFER, sizeof *ours.buffer)
           && (!takes_table(a.call) || are_same(ours.table, other->table, a.table_words, sizeof *ours.table));
}

/* Whether a block and a rule are named with the answer 4 and with no other, and the number of blocks with R6 and with no other rule. */
static bool names_what_it_may(struct asked a)
{
    if (a.call == FORMAT)
        return ours.bad_block == RUBBISH && ours.bad_rule == RUBBISH;
    if (ours.answer != SHELLWALTZ_MALFORMED)
        return ours.bad_block == 0 && ours.bad_rule == 0;
    if (ours.bad_rule == 6)
        return ours.bad_block == a.g.blocks;
    return ours.bad_rule >= 1 && ours.bad_rule <= RULES && ours.bad_block < a.g.blocks;
}

static void show_named(const char *what, struct asked a)
{
    show_call(what, a, &theirs);
    printf("  named by both: block %u, rule %u\n", (unsigned)ours.bad_block, (unsigned)ours.bad_rule);
}

/* Rubbish on each side where the call is to put a number. */
static void put_rubbish(void)
{
    for (int s = 0; s < SIDES; s++) {
        for (int i = 0; i < 4; i++)
            sides[s]->count[i] = RUBBISH;
        sides[s]->bad_block = sides[s]->bad_rule = RUBBISH;
        sides[s]->step = (struct step){RUBBISH, RUBBISH, RUBBISH};
    }
}

/* The same on each side: a buffer at random, and rubbish. */
static void make_ready(void)
{
    for (int j = 0; j < MOST_BUFFER; j++)
        wanted.buffer[j] = theirs.buffer[j] = ours.buffer[j] = (uint32_t)chance();
    put_rubbish();
}

/* The same table on each side, with a guard behind its last word. At the first place that is outside, in the guard of the image, the number
 * seems to be stored, complete or in passing: who looks there is taken in. */
static void lend_table(struct asked a, struct geometry g)
{
    size_t bytes = a.table_words * sizeof *ours.table;
    uint32_t decoy = (one_in(2) ? COMPLETE : IN_PASSING) + a.number;
    lent.kind = a.kind;
    lent.g = (struct geometry){g.blocks, g.sectors, (uint32_t)a.table_words};
    find_all(lent.g, ours.image, lent.places);
    fill_table(&lent, ours.image, ours.table);
    lent.right = a.table_words == a.g.logical && memcmp(ours.table, lent.places, bytes) == 0;
    lent.misleads = a.number < a.table_words && ours.table[a.number] != lent.places[a.number];
    for (int s = 0; s < SIDES; s++) {
        if (sides[s] != &ours)
            memcpy(sides[s]->table, ours.table, bytes);
        guard_end(sides[s]->table, a.table_words, sizeof *ours.table);
        *entries_of(g, block_of(g, sides[s]->image, g.blocks)) = decoy;
    }
}

/* Whether the call has to refuse the table for its length: that is asked right after the geometry. */
static bool refuses_the_length(struct asked a)
{
    uint32_t bad_block, bad_rule;
    return a.table_words != a.g.logical
           && library.check(a.g.blocks, a.g.sectors, a.g.logical, before, a.image_words, &bad_block, &bad_rule) != SHELLWALTZ_BAD_GEOMETRY;
}

/* The third opinion on a call with a table: what the library gives and leaves without one, and the table that follows from the places. A
 * refusal that only a table can meet with gives and leaves what every refusal does. */
static void make_wanted(struct asked a, size_t n)
{
    struct asked plain = a;
    bool other_length = refuses_the_length(a);
    plain.call = without_table[a.call];
    if (other_length)
        plain.g.logical = 0;
    memcpy(wanted.image, before, n * sizeof *before);
    call(&library, &wanted, plain);
    if (other_length)
        wanted.answer = SHELLWALTZ_BAD_BUFFER;
    if (wanted.answer == SHELLWALTZ_OK)
        follow_places(&lent, wanted.image, a.call == BUILD_TABLE, wanted.table);
}

/* A right table is right after an accepted call: the one that is built afresh, here from words that are all wrong. */
static void hold_against_a_build(struct asked a, size_t n)
{
    for (size_t i = 0; i < a.table_words; i++)
        wanted.table[i] = (uint16_t)~ours.table[i];
    struct side afresh = wanted;
    call(&library, &afresh, sound_call(BUILD_TABLE, a.g));
    if (afresh.answer != SHELLWALTZ_OK || !are_alike(a, n, &wanted))
        show_difference("another table than is built afresh", a, n, &wanted);
}

static void hold_against_wanted(struct asked a, size_t n)
{
    make_wanted(a, n);
    if (!are_alike(a, n, &wanted))
        show_difference("not what is wanted with a table", a, n, &wanted);
    if (ours.answer == SHELLWALTZ_OK && lent.right)
        hold_against_a_build(a, n);
}

/* Does the whole call of a call by steps, with the library, on an image like the one given; how many steps it has, which is 0 for a refusal. */
static uint32_t do_whole_call(struct asked a, const uint32_t *image, size_t n)
{
    a.call = whole_call[a.call];
    memcpy(wanted.image, image, n * sizeof *image);
    call(&library, &wanted, a);
    return wanted.count[0] + wanted.count[1];
}

/* Whether the library tells a step of the image where the call has one, and none from its end on. */
static bool tells_what_it_may(struct asked a, uint32_t steps)
{
    return a.step < steps ? is_in_image(a.g, ours.step) : are_same_steps(ours.step, no_step);
}

/* A step that is told changes nothing, and counts nothing. */
static void want_as_before(size_t n)
{
    memcpy(wanted.image, before, n * sizeof *before);
    for (int i = 0; i < 4; i++)
        wanted.count[i] = RUBBISH;
    wanted.step = ours.step;
}

/* Any steps, if there are as many as asked for. */
static void want_as_many(uint32_t steps, size_t n)
{
    memcpy(wanted.image, ours.image, n * sizeof *before);
    wanted.count[0] = steps - ours.count[1];
    wanted.count[1] = ours.count[1];
}

/* The third opinion on a call by steps is the whole call: it refuses the same, and after its last step none is told and all are done. Before
 * that it says how many steps there are, and not which: that is found by a walk through all of them (walks.h). */
static void hold_against_whole_call(struct asked a, size_t n)
{
    uint32_t steps = do_whole_call(a, before, n);
    if (tells_a_step(a.call))
        want_as_before(n);
    else if (a.step < steps)
        want_as_many(a.step, n);
    if (!are_alike(a, n, &wanted) || (tells_a_step(a.call) && !tells_what_it_may(a, steps)))
        show_difference("not what the whole call says", a, n, &wanted);
    if (ours.answer == SHELLWALTZ_OK)
        asked_at[a.call][where_in_list(a.step, steps)]++;
}

/* What a repair has to answer: what a check does where that refuses the geometry, or refuses the image and so does the repair, with the same
 * pair; and else what is worked out here. Of a refused repair no step is left. */
static void want_answer_of_repair(struct asked a)
{
    wanted.answer = library.check(a.g.blocks, a.g.sectors, a.g.logical, before, a.image_words, &wanted.bad_block, &wanted.bad_rule);
    mending.steps = 0;
    if (wanted.answer == SHELLWALTZ_BAD_GEOMETRY || (wanted.answer == SHELLWALTZ_MALFORMED && ours.answer == SHELLWALTZ_MALFORMED))
        return;
    work_out_mending(a.g, before);
    wanted.answer = mending.answer;
    wanted.bad_block = wanted.bad_rule = 0;
}

/* The image and the counts of a repair, or of its first steps. */
static void want_steps_of_repair(struct asked a)
{
    uint32_t done = a.call == REPAIR_FIRST && a.step < mending.steps ? a.step : mending.steps;
    wanted.count[0] = wanted.count[1] = 0;
    for (uint32_t i = 0; i < done; i++) {
        carry_out(a.g, wanted.image, mending.list[i]);
        wanted.count[mending.list[i].kind == SHELLWALTZ_ERASE]++;
    }
}

static void hold_against_mending(struct asked a, size_t n)
{
    want_answer_of_repair(a);
    memcpy(wanted.image, before, n * sizeof *before);
    if (a.call == REPAIR_STEP)
        wanted.step = a.step < mending.steps ? mending.list[a.step] : no_step;
    else
        want_steps_of_repair(a);
    if (!are_alike(a, n, &wanted))
        show_difference("not what a repair has to do", a, n, &wanted);
    if (ours.answer != SHELLWALTZ_BAD_GEOMETRY && ours.answer != SHELLWALTZ_MALFORMED)
        count_repair(a.call, a.step);
}

static void count_table(struct asked a)
{
    static const enum deed deeds[CALLS] = {[BUILD_TABLE] = BUILT, [READ_WITH_TABLE] = READ_IT, [RELEASE_WITH_TABLE] = RELEASED};
    if (ours.answer == SHELLWALTZ_OK)
        count_lent(&lent, a.call == WRITE_WITH_TABLE ? deed_of_write(&lent, before, ours.image, a.number) : deeds[a.call]);
    else if (ours.answer == SHELLWALTZ_BAD_BUFFER && a.buffer_words == SECTOR)
        lent_so.length[a.call - BUILD_TABLE][kind_of_length(a.table_words, a.g.logical)]++;
}

static void count_call(struct asked a)
{
    compared++;
    seen[a.call][ours.answer]++;
    if (ours.answer == SHELLWALTZ_MALFORMED)
        named[a.call][ours.bad_rule]++;
    if (writes(a.call))
        erasures += ours.count[1];
    if (takes_table(a.call))
        count_table(a);
    if (ours.answer == SHELLWALTZ_OK && !mends(a.call))
        count_accepted(a, before, &ours, &lent);
}

/* What is changed for the tests of this test. */
static void spoil(struct asked a, size_t n)
{
    bool has_words = takes_table(a.call) && a.table_words > 0;
    (void)has_words, (void)n;
#ifdef SPOIL
    if (one_in(200))
        theirs.image[below((uint32_t)n)] ^= 1u << below(32);
#endif
#ifdef SPOIL_PAIR
    if (theirs.answer == SHELLWALTZ_MALFORMED && one_in(20))
        theirs.SPOIL_PAIR ^= 1;
#endif
#ifdef SPOIL_TABLE
    if (has_words && one_in(20))
        theirs.table[below((uint32_t)a.table_words)] ^= (uint16_t)(1u << below(16));
#endif
#ifdef SPOIL_BOTH_TABLES
    if (has_words && (SPOIL_BOTH_TABLES) && one_in(20)) {
        uint32_t at = below((uint32_t)a.table_words);
        theirs.table[at] = ours.table[at] ^= (uint16_t)(1u << below(16));
    }
#endif
#ifdef SPOIL_WITH_TABLE
    if (takes_table(a.call) && one_in(20))
        theirs.SPOIL_WITH_TABLE = ours.SPOIL_WITH_TABLE ^= 1;
#endif
}

/* Likewise, of calls by steps and of repairs. */
static void spoil_steps(struct asked a, size_t n)
{
    (void)a, (void)n;
#ifdef SPOIL_BY_STEPS
    if (goes_by_steps(a.call) && !mends(a.call) && !walking && one_in(20))
        theirs.SPOIL_BY_STEPS = ours.SPOIL_BY_STEPS ^= 1;
#endif
#ifdef SPOIL_STEP
    if (tells_a_step(a.call) && one_in(500))
        theirs.step.SPOIL_STEP ^= 1;
#endif
#ifdef SPOIL_BOTH_STEPS
    if (tells_a_step(a.call) && walking && one_in(500))
        theirs.step.SPOIL_BOTH_STEPS = ours.step.SPOIL_BOTH_STEPS ^= 1;
#endif
#ifdef SPOIL_REPAIR
    if (mends(a.call) && one_in(50))
        theirs.SPOIL_REPAIR ^= 1;
#endif
#ifdef SPOIL_BOTH_REPAIRS
    if (mends(a.call) && one_in(50))
        theirs.SPOIL_BOTH_REPAIRS = ours.SPOIL_BOTH_REPAIRS ^= 1;
#endif
#ifdef SPOIL_FIRST
    if (does_first_steps(a.call) && one_in(500))
        theirs.image[below((uint32_t)n)] ^= 1u << below(32);
#endif
}

/* Likewise, of what is asked: one step more than the comparison knows of. */
static struct asked spoil_asked(struct asked a)
{
#ifdef SPOIL_ONE_MORE
    if (does_first_steps(a.call) && (SPOIL_ONE_MORE) && one_in(50))
        a.step++;
#endif
    return a;
}

/* The same call on both sides. */
static void call_both(struct asked a, size_t n)
{
    struct asked made = spoil_asked(a);
    call(&library, &ours, made);
    call(&second, &theirs, made);
    spoil(a, n);
    spoil_steps(a, n);
    if (!are_alike(a, n, &theirs))
        show_difference("difference", a, n, &theirs);
    if (ours.answer >= ANSWERS)
        fail("an answer that no call has");
    if (!names_what_it_may(a)) {
        show_named("a block and a rule that the call cannot name", a);
        exit(1);
    }
}

/* A call on an image of geometry g. */
static void compare_call(struct asked a, struct geometry g)
{
    size_t n = words_of(g);
    make_ready();
    memcpy(before, ours.image, n * sizeof *before);
    if (takes_table(a.call))
        lend_table(a, g);
    call_both(a, n);
    if (takes_table(a.call))
        hold_against_wanted(a, n);
    if (mends(a.call))
        hold_against_mending(a, n);
    if (goes_by_steps(a.call))
        hold_against_whole_call(a, n);
    count_call(a);
}

/* Some call on the image that both sides have. How many steps it has is asked of the library, and may be what the call is asked for. */
static struct asked some_call_here(struct geometry g)
{
    struct asked a = some_call(g);
    if (goes_by_steps(a.call))
        a.step = some_step(do_whole_call(a, ours.image, words_of(g)));
    return a;
}

static void copy_over(size_t n)
{
    memcpy(theirs.image, ours.image, n * sizeof *ours.image);
}

/* The third opinion on an image with planted faults: they say what a call that answers 4 has to name. */
static void hold_against(const struct planting *planted, struct asked a)
{
    const struct fault *first = first_fault(planted);
#ifdef SPOIL_BOTH
    if (one_in(20))
        theirs.SPOIL_BOTH = ours.SPOIL_BOTH ^= 1;
#endif
    if (ours.answer == SHELLWALTZ_MALFORMED && ours.bad_block == first->block && ours.bad_rule == first->rule)
        return;
    show_named("not what the planted faults say", a);
    show_faults(planted);
    exit(1);
}

#endif

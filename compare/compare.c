/* Holds the linked library against the second implementation: the same call on two images that are the same, and afterwards the
 * answer, the counts, the block and the rule that the call names, the step that it tells, the whole image, the whole buffer and the whole
 * lookup table, where one was lent, have to be the same again.
 *
 *     compare SEED ROUNDS SECONDS
 *
 * runs rounds 0 to ROUNDS - 1, or as many as SECONDS allow, but four for each geometry at least, so that on a slow machine too all comes
 * about that has to. A round takes the next geometry of the list, makes an image (formatted; or well formed at random: blocks blank, open
 * and full, any erase counts, entries complete and in passing, any dead slots) and does calls on it, few or many, some on an image that was
 * damaged at one or two places, some with numbers, lengths and geometries out of their range. Now and then it makes of the image what
 * placings leave that end early (passing.h). The round's choices depend on SEED and its number alone.
 *
 * Some calls are on an image with one to three planted faults (faults.h), in one block or in several. What was planted says which block
 * and rule have to be named, so there both sides are held against a third opinion as well.
 *
 * Some calls are lent a table, a right one or one of the wrong kinds of tables.h, or one of another length. There the third opinion is what
 * the library does without a table, and the table that follows from where the numbers were and are; and a right table has to be the
 * one that the library builds afresh.
 *
 * Some calls go by steps: they tell one step of a write, a release or a repair, or do its first steps only, with any number of them. There the
 * third opinion is the whole call, of which they have to refuse what it refuses. And through some writes, with reclaims among them, and some
 * releases and repairs there is a walk (walks.h): every step is asked for, and carrying them all out has to leave and count what the whole call
 * does; and some of these are cut after every number of steps, where both sides have to leave what carrying those out leaves. Other calls are made
 * on the images on the way, now and then.
 *
 * What a repair has to do is worked out here as well (mending.h), and held against each. There are repairs of well-formed images, of damaged
 * ones, of such with planted faults that can be mended or cannot; and of images that a call has left that was cut, and repairs after it that were
 * cut as well (repairs.h). There all numbers have to read as before that call or as after it, at least 100,000 times.
 *
 * At the first difference it prints both, the call and the first word that differs, and fails. At the end it fails too where some
 * refusal of some call, some rule that a call can name, some way that a fault can be planted or that planted faults can hide one another, some
 * kind of table in some accepted call, something that an early end leaves, some place of a step in its list, some kind of walk, something that
 * a repair can have to do or to refuse, some kind of cut, or an erasure, never came about, or too few steps, reclaims and cuts did: then the inputs
 * have missed it.
 *
 * The tests of this test, each of which must find what is changed: compiled with -DSPOIL it changes one word after some calls; with
 * -DSPOIL_PAIR=bad_block or -DSPOIL_PAIR=bad_rule that number of the second side, after some calls that answered 4; and with
 * -DSPOIL_BOTH=bad_block or -DSPOIL_BOTH=bad_rule that of both sides, where it is held against the planted faults. With -DSPOIL_TABLE it
 * changes a word of the second side's table; with -DSPOIL_BOTH_TABLES=CONDITION one of both tables, after calls of which the condition holds;
 * and with -DSPOIL_WITH_TABLE=PART that part of both sides, after calls with a table. With -DSPOIL_STEP=PART it changes the kind, the place
 * or the word of a step that the second side tells; with -DSPOIL_BOTH_STEPS=PART that of both sides, in a walk; with -DSPOIL_FIRST the second
 * side's image after some first steps; with -DSPOIL_ONE_MORE=CONDITION both sides do one step too many, where the condition holds; and with
 * -DSPOIL_BY_STEPS=PART it changes that part of both sides, after calls by steps that are not of a walk. With -DSPOIL_REPAIR=PART it changes
 * that part of the second side after repairs, and with -DSPOIL_BOTH_REPAIRS=PART of both; with -DSPOIL_SECTOR both sides lose a sector in a repair
 * after cuts, and with -DSPOIL_COUNT a count; with -DSPOIL_ALLOWED it takes one cut more for allowed than is; and with -DSPOIL_MENDABLE=CONDITION
 * it takes planted faults for such that can be mended or cannot, where the condition holds. */
#define _POSIX_C_SOURCE 200809L
#include <stdbool.h>
#include <stdio.h>
#include <stdlib.h>
#include <string.h>
#include <time.h>

#include "repairs.h"

enum { SHORT_RUN = 48, LONG_RUN = 1500 };

/* From the smallest to the largest, with one and two map words, L at both ends, and d at and beside 32. */
static const struct geometry geometries[] = {
    {2, 3, 1},     {3, 2, 1},     {2, 4, 2},      {2, 64, 1},     {2, 64, 62},    {64, 2, 1},
    {64, 2, 62},   {3, 3, 3},     {4, 4, 8},      {4, 8, 16},     {5, 5, 15},     {8, 16, 90},
    {8, 16, 1},    {8, 16, 104},  {16, 16, 200},  {7, 33, 100},   {7, 34, 190},   {3, 32, 61},
    {32, 32, 900}, {32, 33, 991}, {64, 33, 1000}, {33, 64, 2015}, {64, 64, 1000}, {64, 64, 3968},
};
enum { GEOMETRIES = sizeof geometries / sizeof *geometries, LEAST_ROUNDS = 4 * GEOMETRIES };

/* In the stories of a round (repairs.h): the least rounds make as many as there have to be, and those after them some more. */
enum { CUTS = 1 + LEAST_CUTS_IN_STORIES / LEAST_ROUNDS, FEWER_CUTS = 300 };

/* Calls on an image that one or two words of damage were done to, and back. */
static void on_a_damaged_image(struct geometry g, uint32_t *kept)
{
    size_t n = words_of(g);
    memcpy(kept, ours.image, n * sizeof *kept);
    damage(g, ours.image);
    if (one_in(2))
        damage(g, ours.image);
    copy_over(n);
    for (int i = 0; i < 4; i++, call_number++)
        compare_call(i == 0 ? sound_call(CHECK, g) : some_call_here(g), g);
    memcpy(ours.image, kept, n * sizeof *kept);
    copy_over(n);
}

/* Calls on an image that faults were planted in, and back. With another L other entries are live and faulty, and such a call may be accepted,
 * as a format is: then the image may be another one, and the planted faults say nothing of it. */
static void on_a_faulty_image(struct geometry g, uint32_t *kept)
{
    static struct planting planted;
    size_t n = words_of(g);
    struct asked a = sound_call(CHECK, g);
    memcpy(kept, ours.image, n * sizeof *kept);
    plant_faults(&planted, g, ours.image);
    copy_over(n);
    compare_call(a, g);
    hold_against(&planted, a);
    count_faults(&planted);
    bool mendable = is_mendable(&planted);
    for (int i = 0; i < 3 && ours.answer != SHELLWALTZ_OK; i++) {
        a = some_call_here(g);
        call_number++;
        compare_call(a, g);
        if (ours.answer == SHELLWALTZ_MALFORMED && a.g.logical == g.logical)
            hold_against(&planted, a);
        if (mends(a.call) && ours.answer != SHELLWALTZ_BAD_GEOMETRY && a.g.logical == g.logical)
            hold_repair_against(&planted, a, mendable);
    }
    memcpy(ours.image, kept, n * sizeof *kept);
    copy_over(n);
    call_number++;
}

/* A reclaim that moves something is rare. Where a write came to one, such writes are done from the image before it: with each kind of table,
 * or where a call takes long with one of them. Some are walked through before that. */
static void reclaim_again(struct asked a, struct geometry g, uint32_t *kept)
{
    size_t n = words_of(g);
    int times = n <= 4 * SMALL_IMAGE ? KINDS : 1;
    memcpy(kept, before, n * sizeof *kept);
    memcpy(ours.image, kept, n * sizeof *kept);
    copy_over(n);
    a.call = WRITE;
    if (one_in(4))
        walk_through(a);
    a.call = WRITE_WITH_TABLE;
    a.table_words = a.g.logical;
    for (int i = 0; i < times; i++, call_number++) {
        a.kind = times == 1 ? some_kind() : (enum table_kind)i;
        a.number = one_in(2) ? a.number : below(g.logical);
        memcpy(ours.image, kept, n * sizeof *kept);
        copy_over(n);
        compare_call(a, g);
    }
}

static bool is_well_formed(struct geometry g)
{
    uint32_t bad_block, bad_rule;
    return library.check(g.blocks, g.sectors, g.logical, ours.image, words_of(g), &bad_block, &bad_rule) == SHELLWALTZ_OK;
}

/* A call, now and then on a number in passing, and more such where it reclaimed. With another L other entries in passing are live: where
 * such a call was accepted, the image may not be well formed with the round's own L any more, and so it is put back; and so is one that some
 * steps of a call have left as no rule allows it. */
static void some_call_on_the_image(struct geometry g, uint32_t *kept)
{
    struct asked a = some_call_here(g);
    size_t n = words_of(g);
    if (a.number < g.logical && one_in(6))
        a.number = some_number_that(says_passing, g, ours.image, a.number);
    compare_call(a, g);
    if (writes(a.call) && ours.count[0] > 2 * SECTOR) /* more than its own sector was placed */
        reclaim_again(a, g, kept);
    if (a.g.logical != g.logical || (does_first_steps(a.call) && !is_well_formed(g))) {
        memcpy(ours.image, before, n * sizeof *before);
        copy_over(n);
    }
}

static void one_round(uint32_t *kept)
{
    struct geometry g = geometries[round_number % GEOMETRIES];
    size_t n = words_of(g);
    chance_state = seed * 0x2545F4914F6CDD1Du + round_number;
    call_number = 0;
    make_image(g, ours.image);
    copy_over(n);
    for (int s = 0; s < SIDES; s++)
        guard_end(sides[s]->image, n, sizeof *ours.image);
    keep_as_older(g, ours.image);
    compare_call(sound_call(one_in(4) ? FORMAT : CHECK, g), g);
    if (ours.answer != 0)
        fail("an image that was to be well formed is not");
    /* Planting is for the end of a run, and rarer where a call takes long: what it has to bring about does not depend on the size. */
    for (unsigned calls = one_in(16) ? LONG_RUN : SHORT_RUN; calls > 0; calls--, call_number++) {
        if (one_in(6))
            on_a_damaged_image(g, kept);
        if (calls <= SHORT_RUN && (n <= SMALL_IMAGE || one_in(6)))
            on_a_faulty_image(g, kept);
        some_call_on_the_image(g, kept);
        if (one_in(24))
            walk_through_some_call(g);
        if (one_in(12))
            keep_as_older(g, ours.image);
        if (one_in(12)) {
            end_placings_early(g, ours.image);
            copy_over(n);
        }
    }
    for (int walks = n <= SMALL_IMAGE ? 8 : 2; walks > 0; walks--)
        walk_through_a_reclaim(g);
    if (one_in(n <= SMALL_IMAGE ? 2 : 8))
        tell_stories(g);
    make_cuts(round_number < LEAST_ROUNDS ? CUTS : FEWER_CUTS);
}

/* Whether the call has named every rule. Where R6 is the pair nothing else is wrong, and a repair does not refuse with 4. */
static bool show_named_rules(enum call c)
{
    bool complete = show_counts(" |", named[c] + 1, 5);
    complete &= show_counts("", named[c] + 6, 1) != mends(c);
    return complete & show_counts("", named[c] + 7, 2);
}

/* Whether the call was accepted and was refused in every way that its row of the table has and, if it answers 4, has named what it can. */
static bool show_row(enum call c)
{
    static const char *const rows[CALLS] = {"01", "014", "014", "012345", "012346", "01345", "0124", "012345", "012346", "012345",
                                           "012346", "01345", "012346", "01345", "0146A", "0146A", "0146A"};
    static const char answers[] = "0123456789A"; /* A: 10 */
    bool complete = true;
    printf("  %-18s", names[c]);
    for (int r = 0; r < ANSWERS; r++) {
        printf(" %lu", seen[c][r]);
        complete &= (strchr(rows[c], answers[r]) != NULL) == (seen[c][r] > 0);
    }
    if (strchr(rows[c], '4'))
        complete &= show_named_rules(c);
    puts(complete ? "" : " <- an answer or a rule that never came about, or an answer that the call does not have");
    return complete;
}

static void all_came_about(void)
{
    bool complete = true;
    for (int c = 0; c < CALLS; c++)
        complete &= show_row((enum call)c);
    complete &= show_what_came_about();
    complete &= show_what_was_lent();
    complete &= show_what_was_met_with();
    complete &= show_where_asked();
    complete &= show_walks();
    complete &= show_repairs();
    complete &= show_stories();
    if (!complete)
        fail("the inputs have missed something");
    if (erasures == 0)
        fail("no block was erased");
}

int main(int argc, char **argv)
{
    if (argc != 4)
        fail("usage: compare SEED ROUNDS SECONDS");
    seed = strtoull(argv[1], NULL, 10);
    unsigned rounds = (unsigned)strtoul(argv[2], NULL, 10);
    time_t end = time(NULL) + (time_t)strtol(argv[3], NULL, 10);
    size_t longest = 0;
    for (int i = 0; i < GEOMETRIES; i++)
        if (words_of(geometries[i]) > longest)
            longest = words_of(geometries[i]);
    ours = make_side("library", longest);
    theirs = make_side("second", longest);
    wanted = make_side("wanted", longest);
    before = make_words(longest, sizeof *before);
    walk.start = make_words(longest, sizeof *walk.start);
    walk.image = make_words(longest, sizeof *walk.image);
    mending.image = make_words(longest, sizeof *mending.image);
    story.start = make_words(longest, sizeof *story.start);
    story.middle = make_words(longest, sizeof *story.middle);
    uint32_t *kept = make_words(longest, sizeof *kept);
    for (round_number = 0; round_number < rounds && (round_number < LEAST_ROUNDS || time(NULL) < end); round_number++)
        one_round(kept);
    printf("compare: seed %llu, %u rounds over %d geometries, %lu calls alike, %lu erasures; calls by answer 0 to 10 | by rule 1 to 8:\n",
           (unsigned long long)seed, round_number, (int)GEOMETRIES, compared, erasures);
    all_came_about();
    return 0;
}

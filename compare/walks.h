/* Walks through a write, a release or a repair, step by step: each of its steps is asked of both sides, from the image before it, and carried out on an
 * image, which has to become what the whole call leaves. Then some are cut everywhere: after any number of steps both sides have to leave
 * what carrying these out leaves. Such an image is none that a call finds otherwise, so other calls are made on it. */
#ifndef WALKS_H
#define WALKS_H

#include "comparing.h"

enum { MOST_STEPS = MOST_MENDING }; /* a write has fewer: 62 sectors are copied, the block is erased and counted, and the sector placed */
enum { CHEAP_WALK = 1 << 22 };            /* words of the images of all steps, in a walk that takes next to no time */
enum { LEAST_STEPS = 100000, LEAST_RECLAIMS = 100, LEAST_CUTS = 10000 };

static struct {
    struct geometry g;
    struct asked tells, does; /* the calls for one step, and for the first steps */
    uint32_t *start, *image;  /* before the call, and after some of its steps */
    uint32_t buffer[MOST_BUFFER];
    uint32_t steps;
    struct step list[MOST_STEPS + 2]; /* those, and what is told at the end and one past it */
} walk;

/* ---- Counting */

/* What was walked through: a release; a write without a reclaim; and with one that copies nothing, one sector, and several; and a repair that
 * empties no block, and that empties one. */
enum { A_RELEASE, NO_RECLAIM, COPIES_NONE, COPIES_ONE, COPIES_SEVERAL, A_REPAIR, EMPTIES_A_BLOCK, WALKS };

static struct {
    unsigned long through[WALKS], cut[WALKS];
    unsigned long steps, cuts;
    unsigned long well_formed, breaks[RULES + 1]; /* images on the way that other calls were made on */
} walked;

static int kind_of_walk(enum call tells, const uint32_t *count)
{
    if (tells == RELEASE_STEP)
        return A_RELEASE;
    if (tells == REPAIR_STEP)
        return count[1] == 0 ? A_REPAIR : EMPTIES_A_BLOCK;
    if (count[1] == 0)
        return NO_RECLAIM;
    return count[0] < 2 * SECTOR ? COPIES_NONE : count[0] < 3 * SECTOR ? COPIES_ONE : COPIES_SEVERAL;
}

/* Prints how many walks, steps and cuts there were; whether they are enough. On the way a call may leave no blank block (R6), a block that is
 * full without its bounds (R7), an entry that is superseded (R8), and right after an erasure a count of all ones (R1). */
static bool show_walks(void)
{
    unsigned long reclaims = walked.through[COPIES_NONE] + walked.through[COPIES_ONE] + walked.through[COPIES_SEVERAL];
    bool enough = walked.steps >= LEAST_STEPS && reclaims >= LEAST_RECLAIMS && walked.cuts >= LEAST_CUTS;
    enough &= show_counts("  walked through: releases, writes without a reclaim, with one of no, one, several copies, repairs, that empty a block",
                          walked.through, WALKS);
    printf("; %lu steps, %lu reclaims", walked.steps, reclaims);
    enough &= show_counts("\n  of these cut everywhere", walked.cut, WALKS);
    printf("; %lu cuts", walked.cuts);
    enough &= show_counts("; called on the way: well formed", &walked.well_formed, 1);
    enough &= show_counts(", R1", walked.breaks + 1, 1);
    enough &= show_counts(", R6 to R8", walked.breaks + 6, 3);
    puts(enough ? "" : " <- too few steps, reclaims or cuts, or a 0");
    return enough;
}

/* ---- Walking */

/* Each side as the call finds it. */
static void go_to_start(void)
{
    size_t bytes = words_of(walk.g) * sizeof *before;
    memcpy(before, walk.start, bytes);
    for (int s = 0; s < SIDES; s++) {
        memcpy(sides[s]->image, walk.start, bytes);
        memcpy(sides[s]->buffer, walk.buffer, sizeof walk.buffer);
    }
    put_rubbish();
}

static void accept(struct side *s)
{
    s->answer = SHELLWALTZ_OK;
    s->bad_block = s->bad_rule = 0;
}

/* From the first step to one past the end: as many are told as the whole call has, and nothing changes. */
static void ask_for_every_step(void)
{
    struct asked a = walk.tells;
    size_t n = words_of(walk.g);
    go_to_start();
    for (a.step = 0; a.step < walk.steps + 2; a.step++) {
        put_rubbish();
        call_both(a, n);
        accept(&wanted);
        wanted.step = ours.step;
        if (!are_alike(a, n, &wanted) || !tells_what_it_may(a, walk.steps))
            show_difference("not what the whole call says", a, n, &wanted);
        walk.list[a.step] = ours.step;
        walked.steps++;
    }
}

/* Carries out one step of the list, and counts its kind. */
static void go_on(uint32_t step, uint32_t *image, uint32_t *count)
{
    struct asked a = walk.tells;
    a.step = step;
    if (!carry_out(walk.g, image, walk.list[step])) {
        ours.step = walk.list[step];
        show_call("a word that is not left as it is asked for", a, &theirs);
        exit(1);
    }
    count[walk.list[step].kind == SHELLWALTZ_ERASE]++;
}

/* The list, carried out on the image of the library's side, has to leave and to count what its whole call does. */
static void carry_out_all(void)
{
    struct asked whole = walk.tells;
    size_t n = words_of(walk.g);
    whole.call = whole_call[walk.tells.call];
    go_to_start();
    do_whole_call(walk.tells, walk.start, n);
    accept(&ours);
    ours.count[0] = ours.count[1] = 0;
    for (uint32_t i = 0; i < walk.steps; i++)
        go_on(i, ours.image, ours.count);
    if (!are_alike(whole, n, &wanted))
        show_difference("the steps do not make the whole call", whole, n, &wanted);
}

/* ---- Cutting */

/* On the number of the walk, or on another. */
static struct asked sound_call_on_the_way(enum call c)
{
    struct asked a = sound_call(c, walk.g);
    a.number = one_in(2) ? walk.tells.number : below(walk.g.logical);
    a.kind = some_kind();
    return a;
}

/* A call on the image that a cut leaves, and back. */
static void call_on_the_way(struct asked a)
{
    compare_call(a, walk.g);
    memcpy(ours.image, walk.image, words_of(walk.g) * sizeof *before);
    copy_over(words_of(walk.g));
    call_number++;
}

/* The image may be well formed or not: the calls are accepted, or refused with what is wrong with it. */
static void stop_on_the_way(void)
{
    static const enum call calls[] = {REPORT, READ, WRITE, RELEASE, BUILD_TABLE, REPAIR};
    walking = false;
    call_on_the_way(sound_call_on_the_way(CHECK));
    if (ours.answer == SHELLWALTZ_OK)
        walked.well_formed++;
    else
        walked.breaks[ours.bad_rule]++;
    for (int i = 0; i < 6; i++)
        call_on_the_way(sound_call_on_the_way(calls[i]));
    call_on_the_way(some_call_here(walk.g));
    walking = true;
}

/* After most steps, which program contents, the rules say what they said before. */
static bool is_worth_a_stop(uint32_t done)
{
    if (done == 0 || done > walk.steps)
        return false;
    struct step last = walk.list[done - 1];
    return one_in(last.kind == SHELLWALTZ_PROGRAM && last.place / SECTOR % walk.g.sectors != 0 ? 300 : 8);
}

/* So many steps, or all where there are fewer, are done by both sides as they were carried out here. */
static void cut_after(uint32_t most, const uint32_t *count)
{
    struct asked a = walk.does;
    size_t n = words_of(walk.g);
    a.step = most;
    go_to_start();
    memcpy(wanted.image, walk.image, n * sizeof *before);
    memcpy(wanted.count, count, 2 * sizeof *count);
    accept(&wanted);
    call_both(a, n);
    if (!are_alike(a, n, &wanted))
        show_difference("not what the first steps leave", a, n, &wanted);
    walked.cuts++;
}

static void cut_everywhere(void)
{
    uint32_t count[2] = {0, 0};
    memcpy(walk.image, walk.start, words_of(walk.g) * sizeof *before);
    for (uint32_t done = 0; done < walk.steps + 2; done++) {
        cut_after(done, count);
        if (is_worth_a_stop(done))
            stop_on_the_way();
        if (done < walk.steps)
            go_on(done, walk.image, count);
    }
    cut_after(ONES, count);
}

/* ---- Which calls */

/* A write, a release or a repair of the image that both sides have, and back. Only if it is accepted and has a step; and a walk that takes long
 * is rarer. */
static void walk_through(struct asked a)
{
    size_t n = words_of(a.g);
    make_ready();
    memcpy(walk.start, ours.image, n * sizeof *before);
    memcpy(walk.buffer, ours.buffer, sizeof walk.buffer);
    walk.g = a.g;
    walk.tells = walk.does = a;
    walk.tells.call = step_call[a.call];
    walk.does.call = first_call[a.call];
    walk.steps = do_whole_call(walk.tells, walk.start, n);
    if (walk.steps == 0 || !one_in(1 + (uint32_t)(n * walk.steps / CHEAP_WALK)))
        return;
    if (walk.steps > MOST_STEPS)
        fail("more steps than a call can have");
    int kind = kind_of_walk(walk.tells.call, wanted.count);
    walking = true;
    ask_for_every_step();
    carry_out_all();
    walked.through[kind]++;
    if (one_in(2)) {
        cut_everywhere();
        walked.cut[kind]++;
    }
    walking = false;
    go_to_start();
}

static void walk_through_some_call(struct geometry g)
{
    struct asked a = sound_call(one_in(4) ? RELEASE : WRITE, g);
    a.number = below(g.logical);
    if (a.call == RELEASE || one_in(4))
        a.number = some_number_that(one_in(2) ? says_passing : says_live, g, ours.image, a.number);
    walk_through(a);
}

/* A well-formed image of which a write has to reclaim: all blocks but one are full. The numbers are spread over them, each block has its share,
 * so that most victims have live slots. */
static void make_full_image(struct geometry g, uint32_t *image)
{
    static struct numbers numbers;
    uint32_t blank = below(g.blocks);
    shuffle_numbers(&numbers, g);
    erase_all(g, image);
    for (uint32_t b = 0; b < g.blocks; b++) {
        numbers.end = (b + 1) * g.logical / g.blocks;
        make_block(g, block_of(g, image, b), b == blank ? 0 : slots_of(g), LIVE_AND_DEAD, &numbers);
    }
}

/* Few slots of the block stay live. */
static void release_most(struct geometry g, uint32_t *block)
{
    for (uint32_t i = 0; i < slots_of(g); i++)
        if (says_live(g, entries_of(g, block)[i]) && !one_in(8))
            entries_of(g, block)[i] &= 0x7FFFFFFFu;
}

/* From an image of its own. The victim is often a block from which most was released, so that few sectors are copied and the walk through a large
 * image is not too long. */
static void walk_through_a_reclaim(struct geometry g)
{
    struct asked a = sound_call(WRITE, g);
    make_full_image(g, ours.image);
    if (!one_in(3))
        release_most(g, block_of(g, ours.image, below(g.blocks)));
    copy_over(words_of(g));
    a.number = below(g.logical);
    walk_through(a);
}

#endif

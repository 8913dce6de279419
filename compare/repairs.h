/* Repairs: of images with planted faults, and of those that cuts leave.
 *
 * What was planted says whether a repair has to refuse the image with 4, and with which pair. A cut is some first steps of a write, a release or
 * a repair, done by both sides. The story of one goes on with repairs that are cut as well, and ends with one that is not. As long as there
 * are not more cuts since the last erasure than the geometry allows, each repair has to be accepted; a check has to accept what the last one leaves;
 * and all along each number reads, all of them at once, as before the call that was cut or as after it. What they read is looked up here
 * (tables.h). With one cut more than that, a repair may be refused. */
#ifndef REPAIRS_H
#define REPAIRS_H

#include "walks.h"

enum { LEAST_CUTS_IN_STORIES = 100000 };
enum { COPY = 133 }; /* the steps of a copy that fills no block */

/* Small ones, where a call takes next to no time: with g from 1 to d, with two blocks and more, with one slot, and with two map words. */
static const struct geometry story_geometries[] = {
    {2, 3, 1}, {2, 4, 1}, {2, 4, 2}, {3, 2, 1}, {3, 3, 1}, {3, 3, 3}, {3, 4, 3}, {4, 3, 5}, {4, 4, 5}, {4, 4, 8}, {2, 6, 2}, {2, 34, 25},
};
enum { SMALL_STORIES = sizeof story_geometries / sizeof *story_geometries - 1 };

static struct {
    struct asked call;                  /* the call that is cut */
    uint32_t steps;                     /* of the whole call */
    bool reclaims;                      /* it erases a block */
    uint32_t *start, *middle;           /* the image before it, and one that repairs begin with */
    uint32_t buffer[MOST_BUFFER];
    uint16_t places[MOST_TABLE];        /* where the numbers are in the first of these images */
    uint32_t allowed, cuts;             /* since the last erasure */
} story;

/* ---- Counting */

/* What was cut: a write without a reclaim, and with one; a release; a repair that empties no block, and that empties one. */
enum { CUT_WRITES, CUT_RECLAIMS, CUT_RELEASES, CUT_REPAIRS, CUT_EMPTYINGS, CUT_CALLS };

static struct {
    unsigned long cuts, cut[CUT_CALLS];
    unsigned long everywhere[2];       /* calls, and repairs, that were cut after each number of steps */
    unsigned long rule[RULES + 1];     /* what a check says of the images that the last repair of a story finds; 0: nothing */
    unsigned long allowed, past[3];    /* repairs after at most as many cuts as are allowed; and after one more, accepted and refused with 10, with 6 */
    unsigned long reads[2];            /* as before the call, and as after it, where these differ */
    unsigned long planted[2];          /* images that a repair has to refuse with 4, and others */
    unsigned long refused[RULES + 1];  /* the rules of the faults that make it refuse */
    unsigned long twice;               /* two blocks that have no count, and nothing else */
    unsigned long passed_on;           /* refused with the pair of a fault that could be mended */
} told;

/* Prints how often each came about; whether all did. On the way a call may leave R1, R6, R7 and R8 broken, and no other rule. */
static bool show_stories(void)
{
    bool enough = told.cuts >= LEAST_CUTS_IN_STORIES;
    printf("  stories: %lu cuts", told.cuts);
    enough &= show_counts(", of writes without and with a reclaim, releases, repairs without and with one", told.cut, CUT_CALLS);
    enough &= show_counts("; calls, repairs cut everywhere", told.everywhere, 2);
    enough &= show_counts("\n  repaired at the end: nothing broken", told.rule, 1);
    enough &= show_counts(", R1", told.rule + 1, 1);
    enough &= show_counts(", R6 to R8", told.rule + 6, 3);
    enough &= show_counts("; after no more cuts than are allowed", &told.allowed, 1);
    enough &= show_counts(", after one more accepted, refused with 10, with 6", told.past, 3);
    enough &= show_counts("; reads as before, as after", told.reads, 2);
    enough &= show_counts("\n  planted: images to refuse with 4, to mend", told.planted, 2);
    enough &= show_counts("; refused for R1 to R5", told.refused + 1, 5);
    enough &= show_counts(", R7", told.refused + 7, 1);
    enough &= show_counts(", two without a count", &told.twice, 1);
    enough &= show_counts(", with the pair of another fault", &told.passed_on, 1);
    puts(enough ? "" : " <- too few cuts, or a 0");
    return enough;
}

/* ---- What the numbers read */

static const uint32_t *contents_at(struct geometry g, uint32_t *image, uint32_t place)
{
    return place == SHELLWALTZ_NOWHERE ? NULL : contents_of(block_of(g, image, place / slots_of(g)), place % slots_of(g));
}

/* What a number reads at the end of the call, or before it; a null pointer where it is not stored. */
static const uint32_t *contents_told(uint32_t number, bool after)
{
    if (after && number == story.call.number)
        return story.call.call == WRITE ? story.buffer : NULL;
    return contents_at(story.call.g, story.start, story.places[number]);
}

static bool reads_as(const uint16_t *places, bool after)
{
    for (uint32_t n = 0; n < story.call.g.logical; n++) {
        const uint32_t *is = contents_at(story.call.g, ours.image, places[n]), *has_to_be = contents_told(n, after);
        if ((is == NULL) != (has_to_be == NULL) || (is && memcmp(is, has_to_be, SECTOR * sizeof *is) != 0))
            return false;
    }
    return true;
}

static void show_story(const char *what, struct asked a)
{
    show_call(what, a, &theirs);
    printf("  in the story of a %s of %u, with %u cuts since the last erasure, where %u are allowed\n", names[story.call.call],
           (unsigned)story.call.number, (unsigned)story.cuts, (unsigned)story.allowed);
    exit(1);
}

/* All numbers as before the call that was cut, or all as after it. */
static void hold_against_story(struct asked a)
{
    static uint16_t places[MOST_TABLE];
    find_all(a.g, ours.image, places);
    bool before_it = reads_as(places, false), after_it = reads_as(places, true);
    if (!before_it && !after_it)
        show_story("the numbers read neither as before the call that was cut nor as after it", a);
    if (before_it != after_it)
        told.reads[after_it]++;
}

/* ---- Calls of a story */

/* On the images that both sides have. */
static void call_in_story(struct asked a)
{
    size_t n = words_of(a.g);
    memcpy(before, ours.image, n * sizeof *before);
    for (int s = 0; s < SIDES; s++)
        memcpy(sides[s]->buffer, story.buffer, sizeof story.buffer);
    put_rubbish();
    call_both(a, n);
    if (mends(a.call))
        hold_against_mending(a, n);
    count_call(a);
    call_number++;
}

static void go_back_to(const uint32_t *image)
{
    size_t n = words_of(story.call.g);
    memcpy(ours.image, image, n * sizeof *image);
    copy_over(n);
}

/* Whether a call is accepted: with at most as many cuts as are allowed it has to be. With one more there may be no room; or the block that was
 * filled is full by then and so may be the victim, or another one is, and at the ceiling. */
static bool is_accepted_in_story(struct asked a)
{
    if (ours.answer == SHELLWALTZ_MALFORMED)
        show_story("refused with 4 after cuts", a);
    if (ours.answer != SHELLWALTZ_OK && story.cuts <= story.allowed)
        show_story("refused after no more cuts than are allowed", a);
    if (mends(a.call) && story.cuts <= story.allowed)
        told.allowed++;
    else if (mends(a.call))
        told.past[ours.answer == SHELLWALTZ_OK ? 0 : ours.answer == SHELLWALTZ_NO_ROOM ? 1 : 2]++;
    return ours.answer == SHELLWALTZ_OK;
}

static int kind_of_cut(enum call c)
{
    bool reclaims = mends(c) ? mending.victim < mending.g.blocks : story.reclaims;
    return c == RELEASE_FIRST ? CUT_RELEASES : (mends(c) ? CUT_REPAIRS : CUT_WRITES) + reclaims;
}

/* The first steps of the story's call, or of a repair; whether it was accepted. */
static bool cut_in_story(enum call whole, uint32_t most)
{
    struct asked a = story.call;
    a.call = first_call[whole];
    a.step = most;
    call_in_story(a);
    if (!is_accepted_in_story(a))
        return false;
    told.cuts++;
    told.cut[kind_of_cut(a.call)]++;
    story.cuts = ours.count[1] > 0 ? 1 : story.cuts + 1;
    hold_against_story(a);
    return true;
}

/* For the tests of this test: on both sides a sector is lost, or a count. */
static void spoil_repaired(struct geometry g)
{
    (void)g;
#ifdef SPOIL_SECTOR
    uint32_t place = below(places_of(g)), *entry = entries_of(g, block_of(g, ours.image, place / slots_of(g))) + place % slots_of(g);
    if (says_live(g, *entry))
        *entry &= ~VALID;
    copy_over(words_of(g));
#endif
#ifdef SPOIL_COUNT
    *ours.image = ONES;
    copy_over(words_of(g));
#endif
}

/* A repair that is not cut, and what it has to leave; whether it was accepted. */
static bool repair_in_story(void)
{
    struct asked repair = sound_call(REPAIR, story.call.g), check = sound_call(CHECK, story.call.g);
    call_in_story(check);
    told.rule[ours.bad_rule]++;
    call_in_story(repair);
    if (!is_accepted_in_story(repair))
        return false;
    spoil_repaired(repair.g);
    hold_against_story(repair);
    call_in_story(check);
    if (ours.answer != SHELLWALTZ_OK)
        show_story("a check refuses what a repair leaves", check);
    return true;
}

/* ---- Stories */

/* Any number of steps; or one near the ends of a copy, where entries change; or all. */
static uint32_t some_cut(uint32_t steps)
{
    uint32_t near = COPY * below(steps / COPY + 1);
    near += one_in(2) ? below(3) : 128 + below(7);
    return one_in(40) ? ONES : one_in(2) ? below(steps + 1) : near < steps ? near : steps;
}

static uint32_t steps_of_repair(void)
{
    work_out_mending(story.call.g, ours.image);
    return mending.steps;
}

/* Now and then other calls are made where the repair is due, and it is walked through. */
static void look_around(void)
{
    struct asked repair = sound_call(REPAIR, story.call.g), step = sound_call(REPAIR_STEP, story.call.g);
    if (one_in(4)) {
        step.step = some_step(steps_of_repair());
        compare_call(step, step.g);
    }
    if (one_in(32))
        walk_through(repair);
}

/* The call is cut, and then repairs; at most once more than is allowed. Whether the last repair was accepted. */
static bool cut_at_random(void)
{
    uint32_t cuts = 1 + below(story.allowed + 1);
    go_back_to(story.start);
    story.cuts = 0;
    bool goes_on = cut_in_story(story.call.call, some_cut(story.steps));
    for (uint32_t i = 1; i < cuts && goes_on; i++) {
        look_around();
        goes_on = cut_in_story(REPAIR, some_cut(steps_of_repair()));
    }
    return goes_on && repair_in_story();
}

/* The repair that is due is cut after each number of steps. */
static void cut_repair_everywhere(void)
{
    uint32_t cuts = story.cuts, steps = steps_of_repair();
    memcpy(story.middle, ours.image, words_of(story.call.g) * sizeof *before);
    for (uint32_t done = 0; done <= steps; done++) {
        go_back_to(story.middle);
        story.cuts = cuts;
        if (cut_in_story(REPAIR, done))
            repair_in_story();
    }
    told.everywhere[1]++;
}

/* The call is cut after each number of steps, and so are some of the repairs. */
static void cut_everywhere_in_story(void)
{
    for (uint32_t done = 0; done <= story.steps; done++) {
        go_back_to(story.start);
        story.cuts = 0;
        cut_in_story(story.call.call, done);
        if (one_in(100))
            cut_repair_everywhere();
        else
            repair_in_story();
    }
    told.everywhere[0]++;
}

/* A story of the image that both sides have; none where the call is refused. */
static void begin_story(struct asked a)
{
    size_t n = words_of(a.g);
    uint32_t full_blocks = a.g.blocks - 1;
    make_ready();
    memcpy(story.buffer, ours.buffer, sizeof story.buffer);
    memcpy(story.start, ours.image, n * sizeof *before);
    find_all(a.g, story.start, story.places);
    story.call = a;
    story.cuts = 0;
    a.call = first_call[a.call];
    story.steps = do_whole_call(a, story.start, n);
    story.reclaims = wanted.count[1] > 0;
    story.allowed = (full_blocks * slots_of(a.g) - a.g.logical + full_blocks - 1) / full_blocks;
#ifdef SPOIL_ALLOWED
    story.allowed++;
#endif
}

/* Of a write or a release. */
static void begin_some_story(struct geometry g)
{
    struct asked a = sound_call(one_in(8) ? RELEASE : WRITE, g);
    a.number = one_in(2) ? below(g.logical) : some_number_that(says_live, g, ours.image, 0);
    begin_story(a);
}

/* Some stories with one beginning, each of which may go on with the next call. The first one is a well-formed image that often has to be
 * reclaimed. */
static void tell_stories(struct geometry g)
{
    if (one_in(4))
        make_image(g, ours.image);
    else
        make_full_image(g, ours.image);
    if (one_in(2))
        release_most(g, block_of(g, ours.image, below(g.blocks)));
    copy_over(words_of(g));
    begin_some_story(g);
    for (int i = 0; i < 16 && story.steps > 0; i++)
        if (cut_at_random() && one_in(3))
            begin_some_story(g);
    if (story.steps > 0 && words_of(g) <= SMALL_IMAGE / 2 && one_in(8))
        cut_everywhere_in_story();
}

/* ---- Planted faults */

/* Each word of the two that is programmed bounds the live numbers. */
static bool bounds_are_mendable(const struct planting *p, uint32_t b)
{
    uint32_t *block = block_of(p->g, p->image, b);
    for (uint32_t i = 0; i < slots_of(p->g); i++) {
        uint32_t n = number_in(*entry_of(p, b, i));
        if (is_live(p, b, i) && ((block[1] != ONES && n < block[1]) || n > block[2]))
            return false;
    }
    return is_full(p, b);
}

static bool is_mendable_fault(const struct planting *p, const struct fault *f)
{
    switch (f->rule) {
    case 1: return *block_of(p->g, p->image, f->block) == ONES && is_blank(p, f->block);
    case 6: return true;
    case 7: return bounds_are_mendable(p, f->block);
    case 8: return true;
    default: return false;
    }
}

/* Whether a repair has to go on, as it mends all that was planted; a count is missing in one block at most. */
static bool is_mendable(const struct planting *p)
{
    uint32_t counts = 0;
    for (uint32_t i = 0; i < p->count; i++) {
        counts += p->faults[i].rule == 1;
        if (!is_mendable_fault(p, &p->faults[i]))
            return false;
    }
    return counts <= 1;
}

static void count_planted(const struct planting *p, bool mendable)
{
    bool each = true;
    for (uint32_t i = 0; i < p->count; i++) {
        bool alone = is_mendable_fault(p, &p->faults[i]);
        each &= alone;
        told.refused[p->faults[i].rule] += !alone;
    }
    told.planted[mendable]++;
    told.twice += each && !mendable;
    told.passed_on += !each && is_mendable_fault(p, first_fault(p));
}

/* R1, as right after an erasure. */
static void plant_no_count(struct planting *p, uint32_t b)
{
    *block_of(p->g, p->image, b) = ONES;
    list(p, (struct fault){.rule = 1, .block = b});
}

/* A fault of those that are mended where they are alone. */
static void plant_mendable(struct planting *p, uint32_t b)
{
    static const uint32_t rules[] = {1, 6, 7, 7, 8, 8, 8};
    uint32_t rule = rules[below(7)];
    if (is_listed(p, rule, rule == 6 ? p->g.blocks : b))
        return;
    switch (rule) {
    case 1: is_blank(p, b) ? plant_no_count(p, b) : (void)0; break;
    case 6: plant_in_blank_blocks(p); break;
    case 7: is_full(p, b) ? plant_ones(p, b) : plant_no_bounds(p, b); break;
    default: plant_superseded(p, b); break;
    }
    list_if_none_is_blank(p, BY_ANOTHER_FAULT);
}

/* At most three of these, or beside them one of any kind. The image may have no blank block from the beginning. */
static void plant_to_mend(struct planting *p, struct geometry g, uint32_t *image)
{
    uint32_t faults = below(MOST_FAULTS + 1);
    *p = (struct planting){.g = g, .image = image};
    list_if_none_is_blank(p, BY_ANOTHER_FAULT);
    for (int tries = 0; p->count < faults && tries < 8; tries++)
        plant_mendable(p, below(g.blocks));
    uint32_t rule = 1 + below(RULES), block = below(g.blocks);
    if (p->count < MOST_FAULTS && one_in(4))
        plant(p, rule, block);
}

/* An image that lacks nothing but a blank block, with blocks open and full in any number. */
static void make_image_without_blank(struct geometry g, uint32_t *image)
{
    static struct numbers numbers;
    shuffle_numbers(&numbers, g);
    erase_all(g, image);
    for (uint32_t b = 0; b < g.blocks; b++) {
        enum mix mix = one_in(4) ? DEAD_ALONE : LIVE_AND_DEAD;
        make_block(g, block_of(g, image, b), 1 + below(slots_of(g)), mix, &numbers);
    }
}

/* What the planted faults say of a repair; whether they are mendable was asked before it. */
static void hold_repair_against(const struct planting *planted, struct asked a, bool mendable)
{
#ifdef SPOIL_MENDABLE
    if ((SPOIL_MENDABLE) && one_in(20))
        mendable = !mendable;
#endif
    if (ours.answer == SHELLWALTZ_MALFORMED)
        hold_against(planted, a);
    if ((ours.answer == SHELLWALTZ_MALFORMED) != mendable)
        return;
    show_named(mendable ? "refuses what can be mended" : "does not refuse what cannot be mended", a);
    show_faults(planted);
    exit(1);
}

/* All three calls, on an image with planted faults. What a repair leaves of it reads as it did. */
static void mend_planted_faults(struct geometry g)
{
    static const enum call calls[] = {REPAIR_STEP, REPAIR_FIRST, REPAIR};
    static struct planting planted;
    size_t n = words_of(g);
    if (one_in(2))
        make_image_without_blank(g, ours.image);
    else
        make_image(g, ours.image);
    plant_to_mend(&planted, g, ours.image);
    copy_over(n);
    bool mendable = is_mendable(&planted);
    count_planted(&planted, mendable);
    begin_story((struct asked){.call = RELEASE, .g = g, .number = g.logical, .image_words = n});
    for (int i = 0; i < 3; i++) {
        struct asked a = sound_call(calls[i], g);
        go_back_to(story.start);
        uint32_t steps = steps_of_repair();
        a.step = one_in(2) ? below(steps + 1) : some_step(steps);
        compare_call(a, g);
        hold_repair_against(&planted, a, mendable);
        hold_against_story(a);
    }
    if (ours.answer == SHELLWALTZ_OK)
        repair_in_story();
}

/* ---- Some of both, until so many cuts more were made. */
static void make_cuts(unsigned long cuts)
{
    unsigned long end = told.cuts + cuts;
    while (told.cuts < end) {
        struct geometry g = story_geometries[one_in(24) ? SMALL_STORIES : below(SMALL_STORIES)];
        for (int s = 0; s < SIDES; s++)
            guard_end(sides[s]->image, words_of(g), sizeof *ours.image);
        for (int i = 0; i < 4; i++)
            mend_planted_faults(g);
        tell_stories(g);
    }
}

#endif

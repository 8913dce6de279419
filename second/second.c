#include "second.h"

#include <string.h>

#define ONES UINT32_C(0xFFFFFFFF)

/* Words of a block's header with a fixed place. */
#define ERASE_COUNT 0u
#define LEAST_MAPPED 1u
#define GREATEST_MAPPED 2u
#define FREE_MAP 3u

/* An entry: three state bits over a logical number. */
#define VALID_BIT UINT32_C(0x80000000)
#define CURRENT_BIT UINT32_C(0x40000000)
#define STATE_MASK UINT32_C(0xE0000000)
#define STATE_WRITING UINT32_C(0xE0000000)
#define STATE_COMPLETE UINT32_C(0xC0000000)
#define STATE_PASSING UINT32_C(0x80000000)
#define NUMBER_MASK UINT32_C(0x1FFFFFFF)
#define FREE_ENTRY ONES

/* A set of broken rules has bit r for rule r. */
#define RULE(r) (UINT32_C(1) << (r))

#define MAP_BITS 32u
#define MARK_WORDS (SECOND_MOST_LOGICAL / 32u)

_Static_assert(SECOND_MOST_LOGICAL == (SECOND_MOST_BLOCKS - 1u) *
               (SECOND_MOST_SECTORS - 1u) - 1u, "largest L");
_Static_assert(MARK_WORDS * 32u == SECOND_MOST_LOGICAL, "a mark for each");
_Static_assert(SECOND_MOST_BLOCKS * (SECOND_MOST_SECTORS - 1u) <=
               SECOND_NO_SLOT, "no slot is taken for none");

struct spot {
    uint32_t block;
    uint32_t slot;
};

/* ---- Geometry ---------------------------------------------------------- */

uint32_t second_slots(struct second_geometry g)
{
    return g.sectors - 1u;
}

uint32_t second_map_words(struct second_geometry g)
{
    return (second_slots(g) + MAP_BITS - 1u) / MAP_BITS;
}

size_t second_image_words(struct second_geometry g)
{
    return (size_t)g.blocks * g.sectors * SECOND_SECTOR_WORDS;
}

uint32_t second_gain(struct second_geometry g)
{
    uint32_t others = g.blocks - 1u;

    return (others * second_slots(g) - g.logical + others - 1u) / others;
}

bool second_geometry_ok(struct second_geometry g)
{
    /* Blocks and sectors first: the product below cannot then overflow. */
    if (g.blocks < SECOND_LEAST_BLOCKS || g.blocks > SECOND_MOST_BLOCKS)
        return false;
    if (g.sectors < SECOND_LEAST_SECTORS || g.sectors > SECOND_MOST_SECTORS)
        return false;
    return g.logical >= 1u && g.logical < (g.blocks - 1u) * second_slots(g);
}

static bool image_fits(struct second_geometry g, size_t image_words)
{
    return second_geometry_ok(g) && image_words == second_image_words(g);
}

/* ---- Places in the image ----------------------------------------------- */

static size_t block_words(struct second_geometry g)
{
    return (size_t)g.sectors * SECOND_SECTOR_WORDS;
}

static size_t block_place(struct second_geometry g, uint32_t block)
{
    return block * block_words(g);
}

static size_t map_place(struct second_geometry g, struct spot at)
{
    return block_place(g, at.block) + FREE_MAP + at.slot / MAP_BITS;
}

static size_t entry_place(struct second_geometry g, struct spot at)
{
    return block_place(g, at.block) + FREE_MAP + second_map_words(g) + at.slot;
}

static size_t content_place(struct second_geometry g, struct spot at)
{
    /* One sector further on: the block's first sector is its header. */
    return block_place(g, at.block) +
           (size_t)SECOND_SECTOR_WORDS * (at.slot + 1u);
}

/* ---- Bits -------------------------------------------------------------- */

static uint32_t count_ones(uint32_t word)
{
    word -= (word >> 1) & UINT32_C(0x55555555);
    word = (word & UINT32_C(0x33333333)) +
           ((word >> 2) & UINT32_C(0x33333333));
    word = (word + (word >> 4)) & UINT32_C(0x0F0F0F0F);
    return (word * UINT32_C(0x01010101)) >> 24;
}

/* For a word other than 0: what lies below its lowest one, counted. */
static uint32_t trailing_zeros(uint32_t word)
{
    return count_ones((word & (~word + 1u)) - 1u);
}

static uint32_t map_bit(uint32_t slot)
{
    return UINT32_C(1) << (slot % MAP_BITS);
}

static bool all_ones(const uint32_t *sector)
{
    uint32_t all = ONES;

    /* No early way out: a plain fold is what compilers make wide. */
    for (uint32_t i = 0; i < SECOND_SECTOR_WORDS; i++)
        all &= sector[i];
    return all == ONES;
}

/* ---- Entries ----------------------------------------------------------- */

static uint32_t number_of(uint32_t entry)
{
    return entry & NUMBER_MASK;
}

/* True of faults too, which have a number that is too large. */
static bool is_complete(uint32_t entry)
{
    return (entry & STATE_MASK) == STATE_COMPLETE;
}

/* In passing: about to give way to a newer copy of its number.  With a number
 * that is too large there is nothing to hold on to, and it is merely dead. */
static bool is_passing(struct second_geometry g, uint32_t entry)
{
    return (entry & STATE_MASK) == STATE_PASSING &&
           number_of(entry) < g.logical;
}

/* In a well-formed image, where no entry is a fault and none in passing has
 * been overtaken by the newer copy.  Then no other slot has to be asked. */
static bool is_live(struct second_geometry g, uint32_t entry)
{
    return is_complete(entry) || is_passing(g, entry);
}

/* The same of a number below L, complete or in passing. */
static bool is_live_for(uint32_t entry, uint32_t number)
{
    return (entry | CURRENT_BIT) == (STATE_COMPLETE | number);
}

/* ---- Check ------------------------------------------------------------- */

/* What is known of the numbers, a bit for each. */
struct marks {
    uint32_t complete[MARK_WORDS]; /* anywhere, once there is one in passing */
    uint32_t live[MARK_WORDS];     /* in a slot already looked at */
};

static bool marked(const uint32_t *marks, uint32_t number)
{
    return (marks[number / 32u] >> (number % 32u) & 1u) != 0u;
}

/* Marks the number; false when it already was. */
static bool mark(uint32_t *marks, uint32_t number)
{
    uint32_t bit = UINT32_C(1) << (number % 32u);
    bool fresh = (marks[number / 32u] & bit) == 0u;

    marks[number / 32u] |= bit;
    return fresh;
}

/* Goes over all entries of the image: what supersedes an entry in passing may
 * lie behind it. */
static void mark_complete(struct second_geometry g, const uint32_t *image,
                          uint32_t *complete)
{
    uint32_t slots = second_slots(g);

    for (uint32_t block = 0; block < g.blocks; block++) {
        const uint32_t *entries =
            image + entry_place(g, (struct spot){block, 0});

        for (uint32_t slot = 0; slot < slots; slot++)
            if (is_complete(entries[slot]) &&
                number_of(entries[slot]) < g.logical)
                (void)mark(complete, number_of(entries[slot]));
    }
}

static bool any_passing(struct second_geometry g, const uint32_t *head)
{
    const uint32_t *entries = head + FREE_MAP + second_map_words(g);
    uint32_t slots = second_slots(g);
    uint32_t any = 0;

    /* A plain fold again. */
    for (uint32_t slot = 0; slot < slots; slot++)
        any |= is_passing(g, entries[slot]) ? 1u : 0u;
    return any != 0u;
}

/* What one look at a block gives. */
struct findings {
    uint32_t broken; /* the rules that the block breaks */
    uint32_t free_slots;
    uint32_t least; /* of the numbers live in the block */
    uint32_t greatest;
};

/* R5.  Marked are the numbers of the slots before this one, so of two slots
 * with one number the later is found at fault. */
static void inspect_live(uint32_t number, uint32_t *live,
                         struct findings *found)
{
    if (!mark(live, number))
        found->broken |= RULE(5);
    if (number < found->least)
        found->least = number;
    if (number > found->greatest)
        found->greatest = number;
}

/* R4, R5 and rule 8 for an entry in use. */
static void inspect_entry(struct second_geometry g, uint32_t entry,
                          struct marks *marks, struct findings *found)
{
    uint32_t number = number_of(entry);

    if (is_complete(entry)) {
        if (number < g.logical)
            inspect_live(number, marks->live, found);
        else /* not live, and it has no place among the marks */
            found->broken |= RULE(4);
    } else if (is_passing(g, entry)) {
        if (marked(marks->complete, number))
            found->broken |= RULE(8); /* superseded, so not live */
        else
            inspect_live(number, marks->live, found);
    }
}

/* R2 to R5 and rule 8 for the slots of one word of the free map. */
static void inspect_slots(struct second_geometry g, const uint32_t *head,
                          uint32_t first, struct marks *marks,
                          struct findings *found)
{
    const uint32_t *entries = head + FREE_MAP + second_map_words(g);
    const uint32_t *contents = head + SECOND_SECTOR_WORDS;
    uint32_t map = head[FREE_MAP + first / MAP_BITS];
    uint32_t rest = second_slots(g) - first;
    uint32_t end = first + (rest < MAP_BITS ? rest : MAP_BITS);
    uint32_t asked = ONES; /* the bits to be set if all of them are right */

    for (uint32_t slot = first; slot < end; slot++) {
        uint32_t entry = entries[slot];

        if (entry != FREE_ENTRY) {
            asked &= ~map_bit(slot);
            inspect_entry(g, entry, marks, found);
        } else if ((map & map_bit(slot)) != 0u) {
            if (!all_ones(contents + SECOND_SECTOR_WORDS * slot))
                found->broken |= RULE(3);
            found->free_slots++;
        } else {
            /* Taken by a write that got no further: dead, and there is
             * nothing to ask of its contents. */
            asked &= ~map_bit(slot);
        }
    }
    if (map != asked)
        found->broken |= RULE(2);
}

/* R7 for a block whose slots have been looked at.  All ones in a full block
 * say that its range was never programmed, even if they happen to hold it. */
static bool range_fits(const uint32_t *head, const struct findings *found)
{
    uint32_t least = head[LEAST_MAPPED];
    uint32_t greatest = head[GREATEST_MAPPED];

    if (found->free_slots > 0u)
        return least == ONES && greatest == ONES;
    return least != ONES && greatest != ONES &&
           least <= found->least && found->greatest <= greatest;
}

/* A broken rule does not end the look: one that goes before it may be broken
 * further on in the block. */
static struct findings inspect_block(struct second_geometry g,
                                     const uint32_t *head,
                                     struct marks *marks)
{
    /* With no live number every range holds them all. */
    struct findings found = {.least = ONES, .greatest = 0};

    if (head[ERASE_COUNT] > SECOND_CEILING)
        found.broken |= RULE(1);
    for (uint32_t slot = 0; slot < second_slots(g); slot += MAP_BITS)
        inspect_slots(g, head, slot, marks, &found);
    if (!range_fits(head, &found))
        found.broken |= RULE(7);
    return found;
}

/* A rule and the block charged with breaking it; 0 and 0 for no fault. */
struct fault {
    uint32_t block;
    uint32_t rule;
};

static struct fault first_fault(struct second_geometry g,
                                const uint32_t *image)
{
    struct marks marks = {{0}, {0}};
    bool complete_marked = false;
    bool any_blank = false;

    for (uint32_t block = 0; block < g.blocks; block++) {
        const uint32_t *head = image + block_place(g, block);
        struct findings found;

        /* Most images have nothing in passing and are spared this. */
        if (!complete_marked && any_passing(g, head)) {
            mark_complete(g, image, marks.complete);
            complete_marked = true;
        }
        found = inspect_block(g, head, &marks);
        /* The rules go by their numbers, so the lowest bit is the first. */
        if (found.broken != 0u)
            return (struct fault){block, trailing_zeros(found.broken)};
        any_blank = any_blank || found.free_slots == second_slots(g);
    }
    if (!any_blank) /* R6 */
        return (struct fault){g.blocks, 6};
    return (struct fault){0, 0};
}

static bool well_formed(struct second_geometry g, const uint32_t *image,
                        uint32_t *bad_block, uint32_t *bad_rule)
{
    struct fault first = first_fault(g, image);

    *bad_block = first.block;
    *bad_rule = first.rule;
    return first.rule == 0u;
}

/* ---- The table --------------------------------------------------------- */

/* A call without a table goes the way of the one with.  It hands this on, told
 * to be of the length that is asked, so that it is never refused for that. */
#define NO_TABLE NULL

static bool table_fits(struct second_geometry g, size_t table_words)
{
    return table_words == g.logical;
}

static uint16_t table_word(struct second_geometry g, struct spot at)
{
    return (uint16_t)(at.block * second_slots(g) + at.slot);
}

static void note(uint16_t *table, uint32_t number, uint16_t word)
{
    if (table != NO_TABLE)
        table[number] = word;
}

/* True when the number is live where the table says.  Nothing vouches for the
 * table, so it is the entry there that decides. */
static bool table_holds(struct second_geometry g, const uint32_t *image,
                        uint32_t number, const uint16_t *table,
                        struct spot *at)
{
    uint32_t slots = second_slots(g);
    struct spot told;

    if (table == NO_TABLE)
        return false;
    told = (struct spot){table[number] / slots, table[number] % slots};
    if (told.block >= g.blocks) /* as it is for the word that means none */
        return false;
    *at = told;
    return is_live_for(image[entry_place(g, told)], number);
}

/* ---- Refusals ---------------------------------------------------------- */

/* As with the table: the length that is asked, for a call that takes none. */
#define NO_BUFFER_WORDS SECOND_SECTOR_WORDS

/* 1 to 4 of read, write and release, with the first fault beside a 4. */
static uint32_t refusal(struct second_geometry g, const uint32_t *image,
                        size_t image_words, uint32_t number,
                        size_t buffer_words, size_t table_words,
                        uint32_t *bad_block, uint32_t *bad_rule)
{
    *bad_block = 0;
    *bad_rule = 0;
    if (!image_fits(g, image_words))
        return SECOND_BAD_GEOMETRY;
    if (buffer_words != SECOND_SECTOR_WORDS || !table_fits(g, table_words))
        return SECOND_BAD_BUFFER;
    if (number >= g.logical)
        return SECOND_BAD_NUMBER;
    if (!well_formed(g, image, bad_block, bad_rule))
        return SECOND_BAD_IMAGE;
    return SECOND_OK;
}

/* ---- Looking into a well-formed image ---------------------------------- */

/* Where the number is live; R5 lets that be one slot at most.  So a slot that
 * the table points out is the one that the search would find.  That there is
 * none only the search can tell. */
static bool find_live(struct second_geometry g, const uint32_t *image,
                      uint32_t number, const uint16_t *table,
                      struct spot *at)
{
    uint32_t slots = second_slots(g);
    uint32_t block;
    uint32_t slot;

    if (table_holds(g, image, number, table, at))
        return true;
    for (block = 0; block < g.blocks; block++) {
        const uint32_t *entries =
            image + entry_place(g, (struct spot){block, 0});

        for (slot = 0; slot < slots; slot++)
            if (is_live_for(entries[slot], number))
                goto found;
    }
    return false;
found:
    *at = (struct spot){block, slot};
    return true;
}

/* The map alone tells: R2 lets a bit be set only where the entry is free, and
 * where it is clear no slot is free, whatever the entry. */
static uint32_t free_slots_of(struct second_geometry g, const uint32_t *image,
                              uint32_t block)
{
    const uint32_t *map = image + map_place(g, (struct spot){block, 0});
    uint32_t map_words = second_map_words(g);
    uint32_t ones = 0;

    for (uint32_t i = 0; i < map_words; i++)
        ones += count_ones(map[i]);
    /* The bits that belong to no slot are set as well. */
    return ones - (map_words * MAP_BITS - second_slots(g));
}

/* For a block that has a free slot. */
static uint32_t lowest_free_slot(struct second_geometry g,
                                 const uint32_t *image, uint32_t block)
{
    const uint32_t *map = image + map_place(g, (struct spot){block, 0});
    uint32_t i = 0;

    while (map[i] == 0u)
        i++;
    return i * MAP_BITS + trailing_zeros(map[i]);
}

static uint32_t live_slots_of(struct second_geometry g, const uint32_t *image,
                              uint32_t block)
{
    const uint32_t *entries = image + entry_place(g, (struct spot){block, 0});
    uint32_t slots = second_slots(g);
    uint32_t live = 0;

    for (uint32_t slot = 0; slot < slots; slot++)
        live += is_live(g, entries[slot]) ? 1u : 0u;
    return live;
}

/* ---- Steps ------------------------------------------------------------- */

struct step {
    uint32_t kind;
    uint32_t place;
    uint32_t word;
};

/* A call on its way through its steps.  Most steps hang on those before them,
 * so all of them are taken in one image, even where few are asked for; if the
 * lent one is not to go as far as that, it is a copy.  The counts are 64 bits
 * wide not for the range but because a word of the image cannot then be one of
 * them, so the compiler may keep them in registers while it stores into the
 * image. */
struct run {
    struct second_geometry g;
    uint32_t *image;   /* takes every step */
    uint32_t *lent;    /* takes the first `most`; image itself, or another */
    uint64_t most;
    uint64_t sought;   /* the step to be told, by its number */
    struct step found; /* what it is; SECOND_DONE as long as it did not come */
    uint64_t taken;
    uint64_t words;    /* of the first `most`, like the erasures */
    uint64_t erasures;
};

/* More than any call takes, and more than a caller can ask for. */
#define NO_END UINT64_MAX

/* In static storage for its size.  What it holds is of no use after a call. */
static uint32_t scratch[SECOND_MOST_BLOCKS * SECOND_MOST_SECTORS *
                        SECOND_SECTOR_WORDS];

/* In the lent image, all of it. */
static struct run whole_run(struct second_geometry g, uint32_t *image)
{
    return (struct run){.g = g, .image = image, .lent = image,
                        .most = NO_END, .sought = NO_END};
}

/* In a copy, with not one step in the image itself. */
static struct run run_aside(struct second_geometry g, const uint32_t *image)
{
    memcpy(scratch, image, second_image_words(g) * sizeof *image);
    return (struct run){.g = g, .image = scratch, .lent = NULL,
                        .most = 0, .sought = NO_END};
}

/* What a step does to an image: programming can only clear bits, an erase sets
 * those of a whole block. */
static void carry_out(struct second_geometry g, uint32_t *image,
                      struct step step)
{
    if (step.kind == SECOND_PROGRAM) {
        image[step.place] &= step.word;
    } else {
        uint32_t *block = image + block_place(g, step.place);

        for (size_t i = 0; i < block_words(g); i++)
            block[i] = ONES;
    }
}

/* The one way any step is taken. */
static void take(struct run *run, struct step step)
{
    carry_out(run->g, run->image, step);
    if (run->taken < run->most) {
        if (run->lent != run->image)
            carry_out(run->g, run->lent, step);
        if (step.kind == SECOND_PROGRAM)
            run->words++;
        else
            run->erasures++;
    }
    if (run->taken == run->sought)
        run->found = step;
    run->taken++;
}

static void program(struct run *run, size_t place, uint32_t word)
{
    take(run, (struct step){SECOND_PROGRAM, (uint32_t)place, word});
}

static void erase(struct run *run, uint32_t block)
{
    take(run, (struct step){SECOND_ERASE, block, 0});
}

static void tell_counts(const struct run *run, uint32_t *words,
                        uint32_t *erasures)
{
    *words = (uint32_t)run->words;
    *erasures = (uint32_t)run->erasures;
}

static void tell_step(const struct run *run, uint32_t *kind, uint32_t *place,
                      uint32_t *word)
{
    *kind = run->found.kind;
    *place = run->found.place;
    *word = run->found.word;
}

/* ---- Write ------------------------------------------------------------- */

struct range {
    uint32_t least;
    uint32_t greatest;
};

/* Of the numbers live in the block; 0 and 0 if there is none.  In an image
 * with a superseded slot it is not to be asked. */
static struct range live_range(struct second_geometry g,
                               const uint32_t *image, uint32_t block)
{
    const uint32_t *entries = image + entry_place(g, (struct spot){block, 0});
    uint32_t slots = second_slots(g);
    struct range live = {0, 0};
    bool any = false;

    for (uint32_t slot = 0; slot < slots; slot++) {
        if (is_live(g, entries[slot])) {
            uint32_t number = number_of(entries[slot]);

            if (!any || number < live.least)
                live.least = number;
            if (!any || number > live.greatest)
                live.greatest = number;
            any = true;
        }
    }
    return live;
}

/* Step (g): to be done when the new entry is live and the old one is not. */
static void program_range(struct run *run, uint32_t block)
{
    struct range live = live_range(run->g, run->image, block);
    size_t head = block_place(run->g, block);

    program(run, head + LEAST_MAPPED, live.least);
    program(run, head + GREATEST_MAPPED, live.greatest);
}

/* No entry has its place here: word 0 of an image is an erase count. */
#define NOWHERE ((size_t)0)

/* Places the number in a free slot.  Old is the place of its live entry,
 * NOWHERE if it has none.  In an entry in passing (b) finds nothing to clear,
 * but it is a step and counts as one all the same. */
static void place_number(struct run *run, struct spot to, uint32_t number,
                         const uint32_t *data, size_t old)
{
    struct second_geometry g = run->g;
    const uint32_t *image = run->image;
    size_t map = map_place(g, to);
    size_t entry = entry_place(g, to);
    size_t content = content_place(g, to);

    program(run, map, image[map] & ~map_bit(to.slot)); /* (a) */
    if (old != NOWHERE)
        program(run, old, image[old] & ~CURRENT_BIT); /* (b) */
    for (uint32_t i = 0; i < SECOND_SECTOR_WORDS; i++)
        program(run, content + i, data[i]); /* (c) */
    program(run, entry, STATE_WRITING + number); /* (d) */
    program(run, entry, STATE_COMPLETE + number); /* (e) */
    if (old != NOWHERE)
        program(run, old, image[old] & ~(CURRENT_BIT | VALID_BIT)); /* (f) */
    if (free_slots_of(g, image, to.block) == 0u)
        program_range(run, to.block); /* (g) */
}

/* What the choice of a slot hangs on. */
struct survey {
    uint32_t open_blocks;
    uint32_t first_open;
    uint32_t blank_blocks;
    uint32_t best_blank; /* least erase count, then lowest number */
};

static struct survey survey_blocks(struct second_geometry g,
                                   const uint32_t *image)
{
    struct survey seen = {0, 0, 0, 0};
    uint32_t least_count = ONES; /* above the ceiling */

    for (uint32_t block = 0; block < g.blocks; block++) {
        uint32_t free_slots = free_slots_of(g, image, block);
        uint32_t count = image[block_place(g, block) + ERASE_COUNT];

        if (free_slots == second_slots(g)) {
            if (count < least_count) {
                least_count = count;
                seen.best_blank = block;
            }
            seen.blank_blocks++;
        } else if (free_slots > 0u) {
            if (seen.open_blocks == 0u)
                seen.first_open = block;
            seen.open_blocks++;
        }
    }
    return seen;
}

/* Full block with most dead slots, least erase count, lowest number.  Asked
 * only where a block is full and no slot is superseded. */
static uint32_t choose_victim(struct second_geometry g, const uint32_t *image)
{
    uint32_t victim = 0;
    uint32_t most_dead = 0;
    uint32_t least_count = 0;
    bool any = false;

    for (uint32_t block = 0; block < g.blocks; block++) {
        uint32_t count = image[block_place(g, block) + ERASE_COUNT];
        uint32_t dead;

        if (free_slots_of(g, image, block) != 0u)
            continue;
        dead = second_slots(g) - live_slots_of(g, image, block);
        if (!any || dead > most_dead ||
            (dead == most_dead && count < least_count)) {
            victim = block;
            most_dead = dead;
            least_count = count;
            any = true;
        }
    }
    return victim;
}

/* Moves the victim's live slots to the target, then erases the victim.  The
 * target has a free slot for each of them; if there are none to move it may be
 * any block.  A blank one is so taken from slot 0 on. */
static void reclaim(struct run *run, uint32_t victim, uint32_t target,
                    uint16_t *table)
{
    struct second_geometry g = run->g;
    const uint32_t *image = run->image;
    size_t count_place = block_place(g, victim) + ERASE_COUNT;
    uint32_t count = image[count_place];
    uint32_t slots = second_slots(g);

    for (uint32_t slot = 0; slot < slots; slot++) {
        struct spot from = {victim, slot};
        size_t old = entry_place(g, from);

        if (is_live(g, image[old])) {
            struct spot to = {target, lowest_free_slot(g, image, target)};
            uint32_t number = number_of(image[old]);

            place_number(run, to, number, image + content_place(g, from), old);
            note(table, number, table_word(g, to));
        }
    }
    erase(run, victim);
    program(run, count_place, count + 1u);
}

/* The write in a well-formed image: done, or refused before its first step. */
static uint32_t write_number(struct run *run, uint32_t number,
                             const uint32_t *data, uint16_t *table)
{
    struct second_geometry g = run->g;
    const uint32_t *image = run->image;
    struct survey seen = survey_blocks(g, image);
    struct spot to;
    struct spot at;
    size_t old;

    if (seen.open_blocks == 0u && seen.blank_blocks == 1u) {
        uint32_t victim = choose_victim(g, image);

        if (image[block_place(g, victim) + ERASE_COUNT] == SECOND_CEILING)
            return SECOND_WORN_OUT;
        /* It keeps a free slot: L is below the slots of the full blocks, so
         * the victim has a dead one. */
        reclaim(run, victim, seen.best_blank, table);
        seen = survey_blocks(g, image);
    }
    if (seen.open_blocks > 0u)
        to = (struct spot){seen.first_open,
                           lowest_free_slot(g, image, seen.first_open)};
    else
        to = (struct spot){seen.best_blank, 0};

    /* Only now: the reclaim may have moved the old slot. */
    old = find_live(g, image, number, table, &at) ? entry_place(g, at)
                                                  : NOWHERE;
    place_number(run, to, number, data, old);
    note(table, number, table_word(g, to));
    return SECOND_OK;
}

uint32_t second_write_with_table(uint32_t blocks, uint32_t sectors,
                                 uint32_t logical,
                                 uint32_t *image, size_t image_words,
                                 uint32_t number, const uint32_t *buffer,
                                 size_t buffer_words,
                                 uint16_t *table, size_t table_words,
                                 uint32_t *words, uint32_t *erasures,
                                 uint32_t *bad_block, uint32_t *bad_rule)
{
    struct second_geometry g = {blocks, sectors, logical};
    struct run run = whole_run(g, image);
    uint32_t answer = refusal(g, image, image_words, number, buffer_words,
                              table_words, bad_block, bad_rule);

    if (answer == SECOND_OK)
        answer = write_number(&run, number, buffer, table);
    tell_counts(&run, words, erasures);
    return answer;
}

uint32_t second_write(uint32_t blocks, uint32_t sectors, uint32_t logical,
                      uint32_t *image, size_t image_words,
                      uint32_t number, const uint32_t *buffer,
                      size_t buffer_words,
                      uint32_t *words, uint32_t *erasures,
                      uint32_t *bad_block, uint32_t *bad_rule)
{
    return second_write_with_table(blocks, sectors, logical, image,
                                   image_words, number, buffer, buffer_words,
                                   NO_TABLE, logical, words, erasures,
                                   bad_block, bad_rule);
}

uint32_t second_write_step(uint32_t blocks, uint32_t sectors, uint32_t logical,
                           const uint32_t *image, size_t image_words,
                           uint32_t number, const uint32_t *buffer,
                           size_t buffer_words,
                           uint32_t step,
                           uint32_t *kind, uint32_t *place, uint32_t *word,
                           uint32_t *bad_block, uint32_t *bad_rule)
{
    struct second_geometry g = {blocks, sectors, logical};
    struct run run = {.found = {SECOND_DONE, 0, 0}};
    uint32_t answer = refusal(g, image, image_words, number, buffer_words,
                              logical, bad_block, bad_rule);

    if (answer == SECOND_OK) {
        run = run_aside(g, image);
        run.sought = step;
        answer = write_number(&run, number, buffer, NO_TABLE);
    }
    tell_step(&run, kind, place, word);
    return answer;
}

uint32_t second_write_first(uint32_t blocks, uint32_t sectors,
                            uint32_t logical,
                            uint32_t *image, size_t image_words,
                            uint32_t number, const uint32_t *buffer,
                            size_t buffer_words,
                            uint32_t most,
                            uint32_t *words, uint32_t *erasures,
                            uint32_t *bad_block, uint32_t *bad_rule)
{
    struct second_geometry g = {blocks, sectors, logical};
    struct run run = {.words = 0, .erasures = 0};
    uint32_t answer = refusal(g, image, image_words, number, buffer_words,
                              logical, bad_block, bad_rule);

    if (answer == SECOND_OK) {
        run = run_aside(g, image);
        run.lent = image;
        run.most = most;
        answer = write_number(&run, number, buffer, NO_TABLE);
    }
    tell_counts(&run, words, erasures);
    return answer;
}

/* ---- Release ----------------------------------------------------------- */

/* The release in a well-formed image: done, or refused before its step. */
static uint32_t release_number(struct run *run, uint32_t number,
                               uint16_t *table)
{
    struct spot at;
    size_t entry;

    if (!find_live(run->g, run->image, number, table, &at))
        return SECOND_NOT_MAPPED;
    entry = entry_place(run->g, at);
    program(run, entry, run->image[entry] & ~VALID_BIT);
    note(table, number, SECOND_NO_SLOT);
    return SECOND_OK;
}

uint32_t second_release_with_table(uint32_t blocks, uint32_t sectors,
                                   uint32_t logical,
                                   uint32_t *image, size_t image_words,
                                   uint32_t number,
                                   uint16_t *table, size_t table_words,
                                   uint32_t *words, uint32_t *erasures,
                                   uint32_t *bad_block, uint32_t *bad_rule)
{
    struct second_geometry g = {blocks, sectors, logical};
    struct run run = whole_run(g, image);
    uint32_t answer = refusal(g, image, image_words, number, NO_BUFFER_WORDS,
                              table_words, bad_block, bad_rule);

    if (answer == SECOND_OK)
        answer = release_number(&run, number, table);
    tell_counts(&run, words, erasures);
    return answer;
}

uint32_t second_release(uint32_t blocks, uint32_t sectors, uint32_t logical,
                        uint32_t *image, size_t image_words,
                        uint32_t number,
                        uint32_t *words, uint32_t *erasures,
                        uint32_t *bad_block, uint32_t *bad_rule)
{
    return second_release_with_table(blocks, sectors, logical, image,
                                     image_words, number, NO_TABLE, logical,
                                     words, erasures, bad_block, bad_rule);
}

uint32_t second_release_step(uint32_t blocks, uint32_t sectors,
                             uint32_t logical,
                             const uint32_t *image, size_t image_words,
                             uint32_t number, uint32_t step,
                             uint32_t *kind, uint32_t *place, uint32_t *word,
                             uint32_t *bad_block, uint32_t *bad_rule)
{
    struct second_geometry g = {blocks, sectors, logical};
    struct run run = {.found = {SECOND_DONE, 0, 0}};
    uint32_t answer = refusal(g, image, image_words, number, NO_BUFFER_WORDS,
                              logical, bad_block, bad_rule);

    if (answer == SECOND_OK) {
        run = run_aside(g, image);
        run.sought = step;
        answer = release_number(&run, number, NO_TABLE);
    }
    tell_step(&run, kind, place, word);
    return answer;
}

uint32_t second_release_first(uint32_t blocks, uint32_t sectors,
                              uint32_t logical,
                              uint32_t *image, size_t image_words,
                              uint32_t number, uint32_t most,
                              uint32_t *words, uint32_t *erasures,
                              uint32_t *bad_block, uint32_t *bad_rule)
{
    struct second_geometry g = {blocks, sectors, logical};
    struct run run = {.words = 0, .erasures = 0};
    uint32_t answer = refusal(g, image, image_words, number, NO_BUFFER_WORDS,
                              logical, bad_block, bad_rule);

    if (answer == SECOND_OK) {
        run = run_aside(g, image);
        run.lent = image;
        run.most = most;
        answer = release_number(&run, number, NO_TABLE);
    }
    tell_counts(&run, words, erasures);
    return answer;
}

/* ---- Repair ------------------------------------------------------------ */

/* R7 of a full block but for what (ii) programs: each of the two words is all
 * ones, or no live number of the block lies beyond it. */
static bool range_mendable(const uint32_t *head, const struct findings *found)
{
    uint32_t least = head[LEAST_MAPPED];
    uint32_t greatest = head[GREATEST_MAPPED];

    return found->free_slots == 0u &&
           (least == ONES || least <= found->least) &&
           (greatest == ONES || found->greatest <= greatest);
}

/* The block breaks no rule, or only in ways that (i), (ii) and (iii) mend. */
static bool block_mendable(struct second_geometry g, const uint32_t *head,
                           const struct findings *found)
{
    uint32_t mended = RULE(8); /* (i) */

    if (range_mendable(head, found))
        mended |= RULE(7); /* (ii) */
    if (found->free_slots == second_slots(g) && head[ERASE_COUNT] == ONES)
        mended |= RULE(1); /* (iii) */
    return (found->broken & ~mended) == 0u;
}

/* No fault but K4's four.  R6 is not asked, since (iv) sees to it; whether it
 * can is a matter for 10 and 6. */
static bool mendable(struct second_geometry g, const uint32_t *image)
{
    struct marks marks = {{0}, {0}};
    uint32_t without_count = 0;

    mark_complete(g, image, marks.complete);
    for (uint32_t block = 0; block < g.blocks; block++) {
        const uint32_t *head = image + block_place(g, block);
        struct findings found = inspect_block(g, head, &marks);

        if (!block_mendable(g, head, &found))
            return false;
        without_count += head[ERASE_COUNT] == ONES ? 1u : 0u;
    }
    /* A cut behind an erase leaves one of them, and no call leaves two. */
    return without_count <= 1u;
}

/* (i).  It clears no complete entry, so what was superseded before the first
 * of its steps still is at its turn. */
static void clear_superseded(struct run *run)
{
    struct second_geometry g = run->g;
    uint32_t complete[MARK_WORDS] = {0};
    struct spot at;

    mark_complete(g, run->image, complete);
    for (at.block = 0; at.block < g.blocks; at.block++)
        for (at.slot = 0; at.slot < second_slots(g); at.slot++) {
            size_t place = entry_place(g, at);
            uint32_t entry = run->image[place];

            if (is_passing(g, entry) && marked(complete, number_of(entry)))
                program(run, place, entry & ~VALID_BIT);
        }
}

/* (ii).  Comes after (i), so that live_range may be asked. */
static void program_missing_ranges(struct run *run)
{
    struct second_geometry g = run->g;

    for (uint32_t block = 0; block < g.blocks; block++) {
        size_t head = block_place(g, block);
        struct range live;

        if (free_slots_of(g, run->image, block) > 0u)
            continue;
        live = live_range(g, run->image, block);
        if (run->image[head + LEAST_MAPPED] == ONES)
            program(run, head + LEAST_MAPPED, live.least);
        if (run->image[head + GREATEST_MAPPED] == ONES)
            program(run, head + GREATEST_MAPPED, live.greatest);
    }
}

static uint32_t largest_count_beside(struct second_geometry g,
                                     const uint32_t *image, uint32_t beside)
{
    uint32_t largest = 0;

    for (uint32_t block = 0; block < g.blocks; block++) {
        uint32_t count = image[block_place(g, block) + ERASE_COUNT];

        if (block != beside && count > largest)
            largest = count;
    }
    return largest;
}

/* (iii).  In a mendable image only a blank block can be without a count, and
 * only one. */
static void program_missing_count(struct run *run)
{
    struct second_geometry g = run->g;

    for (uint32_t block = 0; block < g.blocks; block++) {
        size_t place = block_place(g, block) + ERASE_COUNT;

        if (run->image[place] == ONES)
            program(run, place, largest_count_beside(g, run->image, block));
    }
}

/* Settled before the first step, since a refusal must not come behind one. */
struct plan {
    uint32_t answer;
    bool reclaims; /* (iv) has work to do, with these two blocks */
    uint32_t victim;
    uint32_t target;
};

/* For a mendable image.  (iv) goes by the slots as (i) leaves them, so (i) is
 * carried out on a copy and the copy looked at. */
static struct plan plan_repair(struct second_geometry g,
                               const uint32_t *image)
{
    struct run ahead = run_aside(g, image);
    struct plan plan = {SECOND_OK, false, 0, 0};
    struct survey seen;
    uint32_t room;

    clear_superseded(&ahead);
    seen = survey_blocks(g, ahead.image);
    if (seen.blank_blocks > 0u)
        return plan;

    plan.answer = SECOND_NO_ROOM;
    if (seen.open_blocks == g.blocks) /* no block is full */
        return plan;
    plan.victim = choose_victim(g, ahead.image);
    plan.target = seen.first_open;
    room = seen.open_blocks == 0u
               ? 0u : free_slots_of(g, ahead.image, plan.target);
    if (room < live_slots_of(g, ahead.image, plan.victim))
        return plan;

    plan.answer = SECOND_WORN_OUT;
    if (image[block_place(g, plan.victim) + ERASE_COUNT] == SECOND_CEILING)
        return plan;

    plan.answer = SECOND_OK;
    plan.reclaims = true;
    return plan;
}

/* 1, 4, 10 and 6, or how to go about it.  The pair beside a 4 is the check's:
 * the image's first fault, even if that one could be mended. */
static struct plan repair_plan(struct second_geometry g,
                               const uint32_t *image, size_t image_words,
                               uint32_t *bad_block, uint32_t *bad_rule)
{
    *bad_block = 0;
    *bad_rule = 0;
    if (!image_fits(g, image_words))
        return (struct plan){.answer = SECOND_BAD_GEOMETRY};
    if (!mendable(g, image)) {
        (void)well_formed(g, image, bad_block, bad_rule);
        return (struct plan){.answer = SECOND_BAD_IMAGE};
    }
    return plan_repair(g, image);
}

/* The steps of a repair that is not refused. */
static void mend(struct run *run, struct plan plan)
{
    clear_superseded(run);       /* (i) */
    program_missing_ranges(run); /* (ii) */
    program_missing_count(run);  /* (iii) */
    if (plan.reclaims)           /* (iv) */
        reclaim(run, plan.victim, plan.target, NO_TABLE);
}

uint32_t second_repair(uint32_t blocks, uint32_t sectors, uint32_t logical,
                       uint32_t *image, size_t image_words,
                       uint32_t *words, uint32_t *erasures,
                       uint32_t *bad_block, uint32_t *bad_rule)
{
    struct second_geometry g = {blocks, sectors, logical};
    struct run run = whole_run(g, image);
    struct plan plan = repair_plan(g, image, image_words, bad_block, bad_rule);

    if (plan.answer == SECOND_OK)
        mend(&run, plan);
    tell_counts(&run, words, erasures);
    return plan.answer;
}

uint32_t second_repair_step(uint32_t blocks, uint32_t sectors,
                            uint32_t logical,
                            const uint32_t *image, size_t image_words,
                            uint32_t step,
                            uint32_t *kind, uint32_t *place, uint32_t *word,
                            uint32_t *bad_block, uint32_t *bad_rule)
{
    struct second_geometry g = {blocks, sectors, logical};
    struct run run = {.found = {SECOND_DONE, 0, 0}};
    struct plan plan = repair_plan(g, image, image_words, bad_block, bad_rule);

    if (plan.answer == SECOND_OK) {
        run = run_aside(g, image);
        run.sought = step;
        mend(&run, plan);
    }
    tell_step(&run, kind, place, word);
    return plan.answer;
}

uint32_t second_repair_first(uint32_t blocks, uint32_t sectors,
                             uint32_t logical,
                             uint32_t *image, size_t image_words,
                             uint32_t most,
                             uint32_t *words, uint32_t *erasures,
                             uint32_t *bad_block, uint32_t *bad_rule)
{
    struct second_geometry g = {blocks, sectors, logical};
    struct run run = {.words = 0, .erasures = 0};
    struct plan plan = repair_plan(g, image, image_words, bad_block, bad_rule);

    if (plan.answer == SECOND_OK) {
        run = run_aside(g, image);
        run.lent = image;
        run.most = most;
        mend(&run, plan);
    }
    tell_counts(&run, words, erasures);
    return plan.answer;
}

/* ---- The other calls --------------------------------------------------- */

uint32_t second_format(uint32_t blocks, uint32_t sectors, uint32_t logical,
                       uint32_t *image, size_t image_words,
                       uint32_t *words, uint32_t *erasures)
{
    struct second_geometry g = {blocks, sectors, logical};

    *words = 0;
    *erasures = 0;
    if (!image_fits(g, image_words))
        return SECOND_BAD_GEOMETRY;

    /* Not made of steps: it may set bits and counts nothing. */
    for (size_t i = 0; i < image_words; i++)
        image[i] = ONES;
    for (uint32_t block = 0; block < blocks; block++)
        image[block_place(g, block) + ERASE_COUNT] = 0;
    return SECOND_OK;
}

uint32_t second_check(uint32_t blocks, uint32_t sectors, uint32_t logical,
                      const uint32_t *image, size_t image_words,
                      uint32_t *bad_block, uint32_t *bad_rule)
{
    struct second_geometry g = {blocks, sectors, logical};

    *bad_block = 0;
    *bad_rule = 0;
    if (!image_fits(g, image_words))
        return SECOND_BAD_GEOMETRY;
    if (!well_formed(g, image, bad_block, bad_rule))
        return SECOND_BAD_IMAGE;
    return SECOND_OK;
}

uint32_t second_report(uint32_t blocks, uint32_t sectors, uint32_t logical,
                       const uint32_t *image, size_t image_words,
                       uint32_t *mapped, uint32_t *free_slots,
                       uint32_t *dead, uint32_t *erase_sum,
                       uint32_t *bad_block, uint32_t *bad_rule)
{
    struct second_geometry g = {blocks, sectors, logical};

    *mapped = 0;
    *free_slots = 0;
    *dead = 0;
    *erase_sum = 0;
    *bad_block = 0;
    *bad_rule = 0;
    if (!image_fits(g, image_words))
        return SECOND_BAD_GEOMETRY;
    if (!well_formed(g, image, bad_block, bad_rule))
        return SECOND_BAD_IMAGE;

    for (uint32_t block = 0; block < blocks; block++) {
        uint32_t live_here = live_slots_of(g, image, block);
        uint32_t free_here = free_slots_of(g, image, block);

        *mapped += live_here;
        *free_slots += free_here;
        /* In a well-formed image a slot is live, free or dead. */
        *dead += second_slots(g) - live_here - free_here;
        *erase_sum += image[block_place(g, block) + ERASE_COUNT];
    }
    return SECOND_OK;
}

uint32_t second_build_table(uint32_t blocks, uint32_t sectors,
                            uint32_t logical,
                            const uint32_t *image, size_t image_words,
                            uint16_t *table, size_t table_words,
                            uint32_t *bad_block, uint32_t *bad_rule)
{
    struct second_geometry g = {blocks, sectors, logical};
    struct spot at;

    *bad_block = 0;
    *bad_rule = 0;
    if (!image_fits(g, image_words))
        return SECOND_BAD_GEOMETRY;
    if (!table_fits(g, table_words))
        return SECOND_BAD_BUFFER;
    if (!well_formed(g, image, bad_block, bad_rule))
        return SECOND_BAD_IMAGE;

    for (uint32_t number = 0; number < logical; number++)
        table[number] = SECOND_NO_SLOT;
    for (at.block = 0; at.block < blocks; at.block++)
        for (at.slot = 0; at.slot < second_slots(g); at.slot++) {
            uint32_t entry = image[entry_place(g, at)];

            if (is_live(g, entry))
                table[number_of(entry)] = table_word(g, at);
        }
    return SECOND_OK;
}

uint32_t second_read_with_table(uint32_t blocks, uint32_t sectors,
                                uint32_t logical,
                                const uint32_t *image, size_t image_words,
                                uint32_t number, uint32_t *buffer,
                                size_t buffer_words,
                                const uint16_t *table, size_t table_words,
                                uint32_t *bad_block, uint32_t *bad_rule)
{
    struct second_geometry g = {blocks, sectors, logical};
    uint32_t answer = refusal(g, image, image_words, number, buffer_words,
                              table_words, bad_block, bad_rule);
    struct spot at;

    if (answer != SECOND_OK)
        return answer;
    if (!find_live(g, image, number, table, &at))
        return SECOND_NOT_MAPPED;

    memcpy(buffer, image + content_place(g, at),
           SECOND_SECTOR_WORDS * sizeof *buffer);
    return SECOND_OK;
}

uint32_t second_read(uint32_t blocks, uint32_t sectors, uint32_t logical,
                     const uint32_t *image, size_t image_words,
                     uint32_t number, uint32_t *buffer, size_t buffer_words,
                     uint32_t *bad_block, uint32_t *bad_rule)
{
    return second_read_with_table(blocks, sectors, logical, image,
                                  image_words, number, buffer, buffer_words,
                                  NO_TABLE, logical, bad_block, bad_rule);
}

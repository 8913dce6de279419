/* What a repair has to do: its answer and its list of steps, worked out from the words of an image as docs/FORMAT.md says ("Repair"). So this is
 * an opinion on a repair that neither implementation has a part in. It is about images that have no other faults than the four that a repair
 * mends; which those are, is known only where the faults were planted (repairs.h) or come of a cut. */
#ifndef MENDING_H
#define MENDING_H

#include "passing.h"
#include "steps.h"

static const uint32_t VALID = 0x80000000u, CURRENT = 0x40000000u, NOT_FINISHED = 0xE0000000u;

/* (i) makes superseded slots dead, (ii) gives full blocks their words 1 and 2, (iii) gives a blank block its count, (iv) empties a block. */
enum { CLEARS, BOUNDS, COUNTS, EMPTIES, PARTS };

/* Why there is no room: no block is full; none is open, and the victim has live slots; the open one has too few free slots. */
enum { NONE_IS_FULL, NONE_IS_OPEN, TOO_FEW_FREE, NO_ROOMS };

enum { MOST_MENDING = 64 * 63 + 2 * 64 + 64 + 63 * 133 + 2 + 2 };

static struct {
    struct geometry g;
    uint32_t *image; /* as the steps leave it */
    uint32_t answer;
    struct step list[MOST_MENDING];
    uint32_t steps, begins[PARTS + 1]; /* all, and those before each part */
    uint32_t victim, target;           /* of (iv); the number of blocks where there is none, or (iv) is not due */
    uint32_t copies;
    bool fills;                        /* the last copy takes the last free slot of the target */
    int no_room;                       /* why, where the answer is 10 */
} mending;

/* ---- What is asked of the blocks, when (i) is done and so no slot is superseded */

static uint32_t *mended_block(uint32_t b)
{
    return block_of(mending.g, mending.image, b);
}

static bool is_full_block(uint32_t b)
{
    return free_slots_in(mending.g, mended_block(b)) == 0;
}

static bool is_blank_block(uint32_t b)
{
    return free_slots_in(mending.g, mended_block(b)) == slots_of(mending.g);
}

static uint32_t live_slots_in(uint32_t b)
{
    uint32_t count = 0;
    for (uint32_t i = 0; i < slots_of(mending.g); i++)
        count += says_live(mending.g, entries_of(mending.g, mended_block(b))[i]);
    return count;
}

/* The first block that is so, or the number of blocks. */
static uint32_t first_block(bool (*is_so)(uint32_t))
{
    uint32_t b = 0;
    while (b < mending.g.blocks && !is_so(b))
        b++;
    return b;
}

static bool is_open_block(uint32_t b)
{
    return !is_full_block(b) && !is_blank_block(b);
}

/* In a full block a slot that is not live is dead: the most dead, the least worn of these, and the first of those. */
static uint32_t usual_victim(void)
{
    uint32_t best = first_block(is_full_block);
    for (uint32_t b = best; b < mending.g.blocks; b++) {
        uint32_t live = live_slots_in(b), fewest = live_slots_in(best);
        if (is_full_block(b) && (live < fewest || (live == fewest && *mended_block(b) < *mended_block(best))))
            best = b;
    }
    return best;
}

/* ---- The steps */

static void add_step(struct step s)
{
    mending.list[mending.steps++] = s;
    carry_out(mending.g, mending.image, s);
}

static void add_word(const uint32_t *at, uint32_t word)
{
    add_step((struct step){SHELLWALTZ_PROGRAM, (size_t)(at - mending.image), word});
}

/* (i) */
static void clear_superseded(void)
{
    static uint16_t places[SHELLWALTZ_MOST_LOGICAL(64, 64)];
    struct geometry g = mending.g;
    find_all(g, mending.image, places);
    for (uint32_t b = 0; b < g.blocks; b++)
        for (uint32_t i = 0; i < slots_of(g); i++) {
            uint32_t *entry = entries_of(g, mended_block(b)) + i;
            if (says_passing(g, *entry) && says_complete(g, entry_at(g, mending.image, places[number_in(*entry)])))
                add_word(entry, *entry & ~VALID);
        }
}

/* (ii) of a block, and (g): the words of the two that are all ones. */
static void add_bounds(uint32_t b)
{
    uint32_t *block = mended_block(b), least = ONES, greatest = 0;
    for (uint32_t i = 0; i < slots_of(mending.g); i++) {
        uint32_t entry = entries_of(mending.g, block)[i], n = number_in(entry);
        if (!says_live(mending.g, entry))
            continue;
        least = n < least ? n : least;
        greatest = n > greatest ? n : greatest;
    }
    if (block[1] == ONES)
        add_word(block + 1, least == ONES ? 0 : least);
    if (block[2] == ONES)
        add_word(block + 2, greatest);
}

/* (iii) of a block. */
static void add_count(uint32_t b)
{
    uint32_t largest = 0;
    for (uint32_t other = 0; other < mending.g.blocks; other++)
        if (other != b && *mended_block(other) > largest)
            largest = *mended_block(other);
    add_word(mended_block(b), largest);
}

/* A placing of the number that is live in a slot of the victim, in the lowest free slot of the target. */
static void add_copy(uint32_t *old_entry, const uint32_t *contents)
{
    struct geometry g = mending.g;
    uint32_t *block = mended_block(mending.target), n = number_in(*old_entry), slot = 0;
    while (!is_free_slot(g, block, slot))
        slot++;
    uint32_t *map = map_word_of(block, slot), *entry = entries_of(g, block) + slot;
    add_word(map, *map & ~(1u << slot % 32));
    add_word(old_entry, *old_entry & ~CURRENT);
    for (uint32_t j = 0; j < SECTOR; j++)
        add_word(contents_of(block, slot) + j, contents[j]);
    add_word(entry, NOT_FINISHED + n);
    add_word(entry, COMPLETE + n);
    add_word(old_entry, *old_entry & ~(CURRENT | VALID));
    mending.copies++;
    mending.fills = is_full_block(mending.target);
    if (mending.fills)
        add_bounds(mending.target);
}

/* (iv) */
static void empty_victim(void)
{
    uint32_t *block = mended_block(mending.victim), count = *block;
    for (uint32_t i = 0; i < slots_of(mending.g); i++)
        if (says_live(mending.g, entries_of(mending.g, block)[i]))
            add_copy(entries_of(mending.g, block) + i, contents_of(block, i));
    add_step((struct step){SHELLWALTZ_ERASE, mending.victim, 0});
    add_word(block, count + 1);
}

/* ---- All of it */

/* What (iv) goes by, on the image that (i) leaves; and the answer. */
static void decide(void)
{
    uint32_t blocks = mending.g.blocks;
    mending.answer = SHELLWALTZ_OK;
    mending.victim = mending.target = blocks;
    if (first_block(is_blank_block) < blocks)
        return;
    mending.victim = usual_victim();
    mending.target = first_block(is_open_block);
    uint32_t room = mending.target == blocks ? 0 : free_slots_in(mending.g, mended_block(mending.target));
    mending.no_room = mending.victim == blocks                ? NONE_IS_FULL
                      : room >= live_slots_in(mending.victim) ? NO_ROOMS
                      : mending.target == blocks              ? NONE_IS_OPEN
                                                              : TOO_FEW_FREE;
    if (mending.no_room < NO_ROOMS)
        mending.answer = SHELLWALTZ_NO_ROOM;
    else if (*mended_block(mending.victim) == SHELLWALTZ_CEILING)
        mending.answer = SHELLWALTZ_WORN_OUT;
}

/* The repair of an image of this geometry. */
static void work_out_mending(struct geometry g, const uint32_t *image)
{
    mending.g = g;
    mending.steps = mending.copies = 0;
    mending.fills = false;
    memcpy(mending.image, image, words_of(g) * sizeof *image);
    mending.begins[CLEARS] = 0;
    clear_superseded();
    mending.begins[BOUNDS] = mending.steps;
    decide();
    for (uint32_t b = 0; b < g.blocks; b++)
        if (is_full_block(b))
            add_bounds(b);
    mending.begins[COUNTS] = mending.steps;
    for (uint32_t b = 0; b < g.blocks; b++)
        if (is_blank_block(b) && *mended_block(b) == ONES)
            add_count(b);
    mending.begins[EMPTIES] = mending.steps;
    if (mending.answer == SHELLWALTZ_OK && mending.victim < g.blocks)
        empty_victim();
    mending.begins[PARTS] = mending.steps;
    if (mending.answer != SHELLWALTZ_OK)
        mending.steps = 0;
}

/* Which parts have steps, as a sum of 1, 2, 4 and 8. */
static int parts_of_mending(void)
{
    int parts = 0;
    for (int p = 0; p < PARTS; p++)
        parts += (mending.begins[p] < mending.begins[p + 1]) << p;
    return parts;
}

/* ---- What came about */

enum { SUMS = 1 << PARTS };

static struct {
    unsigned long parts[SUMS];         /* accepted whole repairs, by what they had to do */
    unsigned long copies[3], filled;   /* in (iv): none, one, several, and how often the target was filled */
    unsigned long no_room[NO_ROOMS], worn;
    unsigned long worn_too;            /* 10, with a victim at the ceiling */
    unsigned long cut[PARTS];          /* accepted first steps that end within a part */
} mended;

static void count_whole_repair(void)
{
    mended.parts[parts_of_mending()]++;
    if (mending.victim == mending.g.blocks)
        return;
    mended.copies[mending.copies < 2 ? mending.copies : 2]++;
    mended.filled += mending.fills;
}

static void count_cut_repair(uint32_t most)
{
    for (int p = 0; p < PARTS; p++)
        mended.cut[p] += mending.begins[p] < most && most < mending.begins[p + 1];
}

static void count_refused_repair(void)
{
    if (mending.answer == SHELLWALTZ_WORN_OUT) {
        mended.worn++;
        return;
    }
    mended.no_room[mending.no_room]++;
    mended.worn_too += mending.victim < mending.g.blocks && *mended_block(mending.victim) == SHELLWALTZ_CEILING;
}

/* A repair that was not refused with 1 or 4. */
static void count_repair(enum call call, uint32_t most)
{
    if (mending.answer != SHELLWALTZ_OK)
        count_refused_repair();
    else if (call == REPAIR)
        count_whole_repair();
    else if (call == REPAIR_FIRST)
        count_cut_repair(most);
}

/* Prints how often each came about; whether all did. Where (iii) is due a block is blank, so (iv) is not; and it has one step. */
static bool show_repairs(void)
{
    static const char *const sums[SUMS] = {"nothing", "i",  "ii",    "i ii",  "iii",    "i iii", "ii iii", "i ii iii",
                                           "iv",      "i iv", "ii iv", "i ii iv"};
    bool complete = true;
    printf("  repaired, by what was to be done:");
    for (int sum = 0; sum < SUMS; sum++)
        if (sums[sum]) {
            printf("%s %s", sum == 0 ? "" : ",", sums[sum]);
            complete &= show_counts("", mended.parts + sum, 1);
        }
    complete &= show_counts("\n  (iv) with no, one, several copies", mended.copies, 3);
    complete &= show_counts(", a target filled", &mended.filled, 1);
    complete &= show_counts("; cut in (i), (ii)", mended.cut, COUNTS);
    complete &= show_counts(", (iv)", mended.cut + EMPTIES, 1);
    complete &= show_counts("; 10 as no block is full, none is open, too few slots are free", mended.no_room, NO_ROOMS);
    complete &= show_counts(", with a victim at the ceiling", &mended.worn_too, 1);
    complete &= show_counts("; 6", &mended.worn, 1);
    puts(complete ? "" : " <- a 0: what no repair had to do");
    return complete;
}

#endif

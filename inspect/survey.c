#include "survey.h"

static const uint32_t NUMBER_BITS = 0x1FFFFFFFu;

/* Bits 31 to 29 of an entry: valid, current and finished; valid and finished, and not current any more. */
static const uint32_t COMPLETE = 6, IN_PASSING = 4;

/* Once the complete entries of the whole image are known. */
static enum slot_kind kind_of(const struct survey *s, const struct slot *slot)
{
    uint32_t state = slot->entry >> 29;
    bool is_below = slot->number < s->part.logical;
    if (slot->entry == ALL_ONES)
        return slot->map_bit ? FREE : DEAD;
    if (state == COMPLETE)
        return is_below ? LIVE : FAULTY;
    if (state != IN_PASSING || !is_below)
        return DEAD;
    return s->numbers[slot->number].has_complete ? SUPERSEDED : LIVE;
}

/* A set bit over a free entry makes a free slot, so in any other slot it is over an entry in use. */
bool has_stale_map_bit(const struct slot *slot)
{
    return slot->map_bit && slot->kind != FREE;
}

bool is_stained(const struct slot *slot)
{
    return slot->kind == FREE && slot->first_stain < SHELLWALTZ_SECTOR_WORDS;
}

bool is_live_in_passing(const struct slot *slot)
{
    return slot->kind == LIVE && slot->entry >> 29 == IN_PASSING;
}

bool is_taken(const struct slot *slot)
{
    return slot->kind == DEAD && slot->entry == ALL_ONES;
}

uint32_t entry_word(const struct survey *s, uint32_t slot)
{
    return MAP_WORD + s->map_words + slot;
}

const uint32_t *contents_of(const struct survey *s, struct place at)
{
    return s->blocks[at.block].words + (size_t)(at.slot + 1) * SHELLWALTZ_SECTOR_WORDS;
}

unsigned long byte_of(const struct survey *s, const uint32_t *word)
{
    return (unsigned long)(word - s->part.image) * 4;
}

static uint32_t first_stain(const uint32_t *contents)
{
    uint32_t word = 0;
    while (word < SHELLWALTZ_SECTOR_WORDS && contents[word] == ALL_ONES)
        word++;
    return word;
}

/* A live slot: whether its number was met before, in the order of blocks and slots. */
static void meet_number(struct survey *s, struct slot *slot, struct place at)
{
    struct place first = s->numbers[slot->number].first;
    struct slot *first_slot = &s->blocks[first.block].slots[first.slot];
    if (!s->numbers[slot->number].is_live) {
        s->numbers[slot->number].is_live = true;
        s->numbers[slot->number].first = at;
        return;
    }
    slot->is_repeat = true;
    slot->first = first;
    first_slot->next = first_slot->is_repeated ? first_slot->next : at;
    first_slot->is_repeated = true;
}

/* What its words say of a slot by itself, and whether it is the first with a complete entry for its number. */
static void read_slot(struct survey *s, struct place at)
{
    struct block *block = &s->blocks[at.block];
    struct slot *slot = &block->slots[at.slot];
    slot->entry = block->words[entry_word(s, at.slot)];
    slot->number = slot->entry & NUMBER_BITS;
    slot->map_bit = block->words[MAP_WORD + at.slot / MAP_BITS] >> at.slot % MAP_BITS & 1;
    if (slot->entry >> 29 == COMPLETE && slot->number < s->part.logical && !s->numbers[slot->number].has_complete) {
        s->numbers[slot->number].has_complete = true;
        s->numbers[slot->number].complete = at;
    }
}

static void read_block(struct survey *s, uint32_t b)
{
    s->blocks[b].words = s->part.image + (size_t)b * s->part.sectors * SHELLWALTZ_SECTOR_WORDS;
    for (uint32_t i = 0; i < s->slots; i++)
        read_slot(s, (struct place){b, i});
}

static void survey_slot(struct survey *s, struct place at)
{
    struct block *block = &s->blocks[at.block];
    struct slot *slot = &block->slots[at.slot];
    slot->kind = kind_of(s, slot);
    if (slot->kind == FREE)
        slot->first_stain = first_stain(contents_of(s, at));
    if (slot->kind == LIVE)
        meet_number(s, slot, at);
    if (slot->kind == SUPERSEDED)
        slot->complete = s->numbers[slot->number].complete;
    block->count[slot->kind]++;
}

static void survey_block(struct survey *s, uint32_t b)
{
    struct block *block = &s->blocks[b];
    for (uint32_t i = 0; i < s->slots; i++)
        survey_slot(s, (struct place){b, i});
    block->kind = block->count[FREE] == s->slots ? BLANK : block->count[FREE] == 0 ? FULL : OPEN;
}

void survey(struct survey *s, struct shellwaltz_part part)
{
    *s = (struct survey){.part = part, .slots = part.sectors - 1};
    s->map_words = (s->slots + MAP_BITS - 1) / MAP_BITS;
    /* all entries first: what an entry in passing is may be decided by a slot after it */
    for (uint32_t b = 0; b < part.blocks; b++)
        read_block(s, b);
    for (uint32_t b = 0; b < part.blocks; b++)
        survey_block(s, b);
}

uint32_t slots_of_kind(const struct survey *s, enum slot_kind kind)
{
    uint32_t sum = 0;
    for (uint32_t b = 0; b < s->part.blocks; b++)
        sum += s->blocks[b].count[kind];
    return sum;
}

uint32_t blocks_of_kind(const struct survey *s, enum block_kind kind)
{
    uint32_t sum = 0;
    for (uint32_t b = 0; b < s->part.blocks; b++)
        sum += s->blocks[b].kind == kind;
    return sum;
}

struct wear wear_of(const struct survey *s)
{
    struct wear wear = {0, 0, 0, 0};
    for (uint32_t b = 0; b < s->part.blocks; b++) {
        uint32_t count = s->blocks[b].words[COUNT_WORD];
        bool is_above = count > SHELLWALTZ_CEILING, is_first = wear.above == b && !is_above;
        wear.above += is_above;
        wear.sum += is_above ? 0 : count;
        wear.least = is_first || (!is_above && count < s->blocks[wear.least].words[COUNT_WORD]) ? b : wear.least;
        wear.greatest = is_first || (!is_above && count > s->blocks[wear.greatest].words[COUNT_WORD]) ? b : wear.greatest;
    }
    return wear;
}

bool is_full_part(const struct survey *s)
{
    return blocks_of_kind(s, OPEN) == 0 && blocks_of_kind(s, BLANK) == 1;
}

/* Most dead slots first, then the least erase count; the lowest number among equals, as the search goes up. */
static bool goes_before(const struct block *x, const struct block *y)
{
    if (x->count[DEAD] != y->count[DEAD])
        return x->count[DEAD] > y->count[DEAD];
    return x->words[COUNT_WORD] < y->words[COUNT_WORD];
}

uint32_t victim_of(const struct survey *s)
{
    uint32_t victim = s->part.blocks;
    for (uint32_t b = 0; b < s->part.blocks; b++)
        if (s->blocks[b].kind == FULL && (victim == s->part.blocks || goes_before(&s->blocks[b], &s->blocks[victim])))
            victim = b;
    return victim;
}

#include "places.h"

#include <ctype.h>
#include <stdarg.h>
#include <stdio.h>
#include <string.h>

/* Sets the sentence and answers true: what ends a search that has found its place. */
static bool say(struct sentence *s, const char *format, ...)
{
    va_list values;
    va_start(values, format);
    vsnprintf(s->text, sizeof s->text, format, values);
    va_end(values);
    return true;
}

struct sentence word_in_words(uint32_t word)
{
    struct sentence s;
    say(&s, word == ALL_ONES ? "0x%X" : "%u", word);
    return s;
}

struct sentence name_of_block(const struct survey *s, uint32_t block)
{
    struct sentence name;
    say(&name, block < s->part.blocks ? "block %u" : "block %u, one past the last,", block);
    return name;
}

/* ---- The rules. Each answers whether the block breaks it, and says where first. */

static bool breaks_rule_1(const struct survey *s, uint32_t b, struct sentence *place)
{
    const uint32_t *count = s->blocks[b].words + COUNT_WORD;
    return *count > SHELLWALTZ_CEILING && say(place, "its erase count, word %u (byte 0x%lX of the file), is %s; it should be at most %u", COUNT_WORD,
                                              byte_of(s, count), word_in_words(*count).text, SHELLWALTZ_CEILING);
}

static bool is_clear_beyond_slots(const struct survey *s, uint32_t b, struct sentence *place)
{
    for (uint32_t bit = s->slots; bit < MAP_BITS * s->map_words; bit++) {
        const uint32_t *word = s->blocks[b].words + MAP_WORD + bit / MAP_BITS;
        if ((*word >> bit % MAP_BITS & 1) == 0)
            return say(place, "bit %u of word %u (byte 0x%lX of the file), which belongs to no slot, is clear; it should be set", bit % MAP_BITS,
                       MAP_WORD + bit / MAP_BITS, byte_of(s, word));
    }
    return false;
}

static bool breaks_rule_2(const struct survey *s, uint32_t b, struct sentence *place)
{
    for (uint32_t i = 0; i < s->slots; i++) {
        const struct slot *slot = &s->blocks[b].slots[i];
        uint32_t word = MAP_WORD + i / MAP_BITS;
        if (has_stale_map_bit(slot))
            return say(place, "slot %u's map bit, bit %u of word %u (byte 0x%lX of the file), is set while its entry is 0x%08X; it should be clear", i,
                       i % MAP_BITS, word, byte_of(s, s->blocks[b].words + word), slot->entry);
    }
    return is_clear_beyond_slots(s, b, place);
}

static bool breaks_rule_3(const struct survey *s, uint32_t b, struct sentence *place)
{
    for (uint32_t i = 0; i < s->slots; i++) {
        const struct slot *slot = &s->blocks[b].slots[i];
        const uint32_t *stain = contents_of(s, (struct place){b, i}) + slot->first_stain;
        if (is_stained(slot))
            return say(place, "slot %u is free while word %u of its contents (byte 0x%lX of the file) is 0x%08X; it should be 0x%X", i,
                       slot->first_stain, byte_of(s, stain), *stain, ALL_ONES);
    }
    return false;
}

static bool breaks_rule_4(const struct survey *s, uint32_t b, struct sentence *place)
{
    for (uint32_t i = 0; i < s->slots; i++) {
        const struct slot *slot = &s->blocks[b].slots[i];
        uint32_t word = entry_word(s, i);
        if (slot->kind == FAULTY)
            return say(place, "slot %u's entry, word %u (byte 0x%lX of the file), is 0x%08X, for number %u; the number should be below %u", i, word,
                       byte_of(s, s->blocks[b].words + word), slot->entry, slot->number, s->part.logical);
    }
    return false;
}

static bool breaks_rule_5(const struct survey *s, uint32_t b, struct sentence *place)
{
    for (uint32_t i = 0; i < s->slots; i++) {
        const struct slot *slot = &s->blocks[b].slots[i];
        if (slot->is_repeat)
            return say(place, "number %u is live in block %u slot %u and in block %u slot %u; it should be live in one slot only", slot->number,
                       slot->first.block, slot->first.slot, b, i);
    }
    return false;
}

/* The block with the most free slots, and the lowest of them. */
static uint32_t nearest_to_blank(const struct survey *s)
{
    uint32_t nearest = 0;
    for (uint32_t b = 1; b < s->part.blocks; b++)
        nearest = s->blocks[b].count[FREE] > s->blocks[nearest].count[FREE] ? b : nearest;
    return nearest;
}

/* The first slot that is free, or that is not: the block has one. */
static uint32_t first_slot(const struct block *block, bool is_free)
{
    uint32_t i = 0;
    while ((block->slots[i].kind == FREE) != is_free)
        i++;
    return i;
}

/* No word is wrong by itself, so the block that is nearest to blank is named. */
static bool breaks_rule_6(const struct survey *s, uint32_t past_the_last, struct sentence *place)
{
    uint32_t b = nearest_to_blank(s);
    const struct block *block = &s->blocks[b];
    (void)past_the_last;
    if (block->kind == BLANK)
        return false;
    uint32_t i = first_slot(block, false);
    return say(place, "block %u has the fewest slots in use, %u of %u, the first of them slot %u with entry 0x%08X; one block should have none", b,
               s->slots - block->count[FREE], s->slots, i, block->slots[i].entry);
}

/* Words 1 and 2 of a block with a free slot. */
static bool is_bounded_too_early(const struct survey *s, uint32_t b, struct sentence *place)
{
    const struct block *block = &s->blocks[b];
    uint32_t i = first_slot(block, true), word = block->words[LEAST_WORD] != ALL_ONES ? LEAST_WORD : GREATEST_WORD;
    return block->words[word] != ALL_ONES &&
           say(place, "word %u (byte 0x%lX of the file) is %s while slot %u is free; it should be 0x%X", word, byte_of(s, block->words + word),
               word_in_words(block->words[word]).text, i, ALL_ONES);
}

/* A word of a full block that is not all ones, and its live numbers: whether one of them is below word 1, or above word 2. */
static bool is_out_of_bounds(const struct survey *s, uint32_t b, uint32_t word, struct sentence *place)
{
    const struct block *block = &s->blocks[b];
    bool is_least = word == LEAST_WORD, found = false;
    uint32_t bound = block->words[word], first = 0, best = bound;
    for (uint32_t i = 0; i < s->slots; i++) {
        uint32_t n = block->slots[i].number;
        if (block->slots[i].kind != LIVE || (is_least ? n >= bound : n <= bound))
            continue;
        first = found ? first : i;
        best = !found || (is_least ? n < best : n > best) ? n : best;
        found = true;
    }
    return found && say(place, "word %u (byte 0x%lX of the file) is %u while number %u is live in slot %u; it should be at %s %u", word,
                        byte_of(s, block->words + word), bound, block->slots[first].number, first, is_least ? "most" : "least", best);
}

/* Word 1 or 2 of a full block. All ones are wrong by themselves, whether or not the live numbers are within them. */
static bool is_bad_bound(const struct survey *s, uint32_t b, uint32_t word, struct sentence *place)
{
    const uint32_t *bound = s->blocks[b].words + word;
    if (*bound == ALL_ONES)
        return say(place, "word %u (byte 0x%lX of the file) is 0x%X while no slot is free; it should not be all ones", word, byte_of(s, bound),
                   ALL_ONES);
    return is_out_of_bounds(s, b, word, place);
}

static bool breaks_rule_7(const struct survey *s, uint32_t b, struct sentence *place)
{
    if (s->blocks[b].kind != FULL)
        return is_bounded_too_early(s, b, place);
    return is_bad_bound(s, b, LEAST_WORD, place) || is_bad_bound(s, b, GREATEST_WORD, place);
}

static bool breaks_rule_8(const struct survey *s, uint32_t b, struct sentence *place)
{
    for (uint32_t i = 0; i < s->slots; i++) {
        const struct slot *slot = &s->blocks[b].slots[i];
        uint32_t word = entry_word(s, i);
        if (slot->kind == SUPERSEDED)
            return say(place,
                       "slot %u's entry, word %u (byte 0x%lX of the file), is 0x%08X while block %u slot %u has a complete entry for number %u; "
                       "bit 31 should be clear",
                       i, word, byte_of(s, s->blocks[b].words + word), slot->entry, slot->complete.block, slot->complete.slot, slot->number);
    }
    return false;
}

bool is_broken(const struct survey *s, uint32_t block, uint32_t rule, struct sentence *place)
{
    static bool (*const breaks[RULES + 1])(const struct survey *, uint32_t, struct sentence *) = {
        NULL, breaks_rule_1, breaks_rule_2, breaks_rule_3, breaks_rule_4, breaks_rule_5, breaks_rule_6, breaks_rule_7, breaks_rule_8};
    return rule >= 1 && rule <= RULES && (block == s->part.blocks) == (rule == 6) && breaks[rule](s, block, place);
}

struct sentence verdict_of(const struct survey *s, struct shellwaltz_result check)
{
    struct sentence verdict, place = {"this tool does not see where"};
    const char *meaning = shellwaltz_rule_meaning(check.bad_rule);
    is_broken(s, check.bad_block, check.bad_rule, &place);
    if (check.answer == SHELLWALTZ_OK)
        say(&verdict, "Well formed: every rule holds (blocks: %u, sectors of a block: %u, logical sectors: %u).", s->part.blocks, s->part.sectors,
            s->part.logical);
    else
        /* the rule's own sentence goes into this one, without its capital and its full stop */
        say(&verdict, "Malformed: %s breaks rule %u (%c%.*s): %s.", name_of_block(s, check.bad_block).text, check.bad_rule,
            tolower((unsigned char)meaning[0]), (int)strlen(meaning) - 2, meaning + 1, place.text);
    return verdict;
}

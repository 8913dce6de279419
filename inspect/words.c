#include "words.h"

#include "little_endian.h"

enum { LINE = 16, SECTOR_BYTES = 4 * SHELLWALTZ_SECTOR_WORDS };

const char *name_of_block_kind(enum block_kind kind)
{
    static const char *const names[] = {"blank", "open", "full"};
    return names[kind];
}

const char *name_of_slot_kind(enum slot_kind kind)
{
    static const char *const names[] = {"free", "live", "dead", "superseded", "faulty"};
    return names[kind];
}

struct sentence rules_broken_by(const struct survey *s, uint32_t block)
{
    struct sentence list = {""}, place;
    for (uint32_t rule = 1, length = 0; rule <= RULES; rule++)
        if (is_broken(s, block, rule, &place))
            length += (uint32_t)snprintf(list.text + length, sizeof list.text - length, "%sR%u", length == 0 ? "" : " ", rule);
    return list;
}

/* ---- The table */

static void print_table(FILE *out, const struct survey *s)
{
    fprintf(out, "%5s  %5s  %11s  %4s  %4s  %4s  %10s  %6s  %10s  %10s  %s\n", "Block", "Kind", "Erase count", "Free", "Live", "Dead", "Superseded",
            "Faulty", "Word 1", "Word 2", "Breaks");
    for (uint32_t b = 0; b < s->part.blocks; b++) {
        const struct block *block = &s->blocks[b];
        struct sentence broken = rules_broken_by(s, b);
        fprintf(out, "%5u  %5s  %11s  %4u  %4u  %4u  %10u  %6u  %10s  %10s%s%s\n", b, name_of_block_kind(block->kind),
                word_in_words(block->words[COUNT_WORD]).text, block->count[FREE], block->count[LIVE], block->count[DEAD], block->count[SUPERSEDED],
                block->count[FAULTY], word_in_words(block->words[LEAST_WORD]).text, word_in_words(block->words[GREATEST_WORD]).text,
                *broken.text == '\0' ? "" : "  ", broken.text);
    }
}

/* ---- The totals */

static void print_erase_counts(FILE *out, const struct survey *s)
{
    struct wear wear = wear_of(s);
    if (wear.above == s->part.blocks) {
        fputs("Erase counts: all of them are above the ceiling.\n", out);
        return;
    }
    fprintf(out, "Erase counts: %u in all, the least %u (block %u), the greatest %u (block %u)", wear.sum, s->blocks[wear.least].words[COUNT_WORD],
            wear.least, s->blocks[wear.greatest].words[COUNT_WORD], wear.greatest);
    if (wear.above > 0)
        fprintf(out, ", without the %u above the ceiling", wear.above);
    fputs(".\n", out);
}

/* Of a well-formed image: each write takes a free slot, until those of one blank block are left. */
static void print_next_reclaim(FILE *out, const struct survey *s)
{
    uint32_t b = victim_of(s);
    if (!is_full_part(s))
        fprintf(out, "Writes that fit before one has to reclaim a block: %u.\n", slots_of_kind(s, FREE) - s->slots);
    else if (s->blocks[b].words[COUNT_WORD] == SHELLWALTZ_CEILING)
        fprintf(out, "The next write is refused with %u: block %u, which it would reclaim, was erased %u times.\n", SHELLWALTZ_WORN_OUT, b,
                SHELLWALTZ_CEILING);
    else
        fprintf(out, "The next write reclaims block %u (dead slots: %u, live slots: %u, erase count: %u).\n", b, s->blocks[b].count[DEAD],
                s->blocks[b].count[LIVE], s->blocks[b].words[COUNT_WORD]);
}

static void print_totals(FILE *out, const struct survey *s, bool is_well_formed)
{
    fprintf(out, "Slots: %u in all, %u live, %u free, %u dead, %u superseded, %u faulty.\n", s->part.blocks * s->slots, slots_of_kind(s, LIVE),
            slots_of_kind(s, FREE), slots_of_kind(s, DEAD), slots_of_kind(s, SUPERSEDED), slots_of_kind(s, FAULTY));
    print_erase_counts(out, s);
    if (is_well_formed)
        print_next_reclaim(out, s);
}

/* ---- The other faults */

/* A line for each pair of a block and a rule, but for the one of the verdict; the heading before the first. */
static void print_other_faults(FILE *out, const struct survey *s, struct shellwaltz_result check)
{
    struct sentence place;
    bool is_first = true;
    for (uint32_t pair = 0; pair < (s->part.blocks + 1) * RULES; pair++) {
        uint32_t block = pair / RULES, rule = 1 + pair % RULES;
        if ((block == check.bad_block && rule == check.bad_rule) || !is_broken(s, block, rule, &place))
            continue;
        fputs(is_first ? "\nAlso broken, with the first place of each:\n" : "", out);
        fprintf(out, "B%s breaks rule %u: %s.\n", name_of_block(s, block).text + 1, rule, place.text); /* with a capital */
        is_first = false;
    }
}

void print_survey(FILE *out, const struct survey *s, struct shellwaltz_result check)
{
    fprintf(out, "%s\n\n", verdict_of(s, check).text);
    print_table(out, s);
    fputs("\n", out);
    print_totals(out, s, check.answer == SHELLWALTZ_OK);
    print_other_faults(out, s, check);
}

/* ---- A sector */

static void print_hex_line(FILE *out, const uint32_t *words, uint32_t start)
{
    char text[LINE + 1] = "";
    fprintf(out, "%08x: ", start);
    for (uint32_t i = 0; i < LINE; i++) {
        unsigned char byte = byte_in(words, start + i);
        fprintf(out, i % 2 == 0 ? "%02x" : "%02x ", byte);
        text[i] = byte >= ' ' && byte <= '~' ? (char)byte : '.';
    }
    fprintf(out, " %s\n", text);
}

static void print_slot(FILE *out, const struct survey *s, struct place at)
{
    const uint32_t *contents = contents_of(s, at);
    const struct slot *slot = &s->blocks[at.block].slots[at.slot];
    fprintf(out, "Sector %u is in block %u slot %u, with entry 0x%08X, from byte 0x%lX of the file:\n", slot->number, at.block, at.slot, slot->entry,
            byte_of(s, contents));
    for (uint32_t start = 0; start < SECTOR_BYTES; start += LINE)
        print_hex_line(out, contents, start);
}

void print_sector(FILE *out, const struct survey *s, uint32_t number)
{
    fputs("\n", out);
    if (!s->numbers[number].is_live)
        fprintf(out, "Sector %u is not mapped.\n", number);
    for (uint32_t i = 0; i < s->part.blocks * s->slots; i++) {
        struct place at = {i / s->slots, i % s->slots};
        const struct slot *slot = &s->blocks[at.block].slots[at.slot];
        if (slot->kind == LIVE && slot->number == number)
            print_slot(out, s, at);
    }
}

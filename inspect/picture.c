#include "picture.h"

#include <string.h>

#include "words.h"

/* All lengths are in pixels. From left to right: the block's kind and number, a cell for each slot, the number again, the bar of the erase
 * count, the count, and the rules that the block breaks. */
static const uint32_t MARGIN = 16, LABELS = 76, PITCH = 27, CELL_WIDTH = 26, ROW = 19, CELL_HEIGHT = 17, NUMBERS = 36, BAR = 120, COUNTS = 84,
                      RULES_WIDTH = 260, LEAST_WIDTH = 840;
static const uint32_t LETTER = 7, LARGE_LETTER = 11, LINE_HEIGHT = 18, BASELINE = 13, KEY_WIDTH = 128, SPACE = 8;

/* What stands in the cell of a faulty slot. */
#define FAULT_SIGN "!"

/* The fills differ in lightness, from white over sky blue, vermilion and blue to dark grey, so that they can be told apart without their hues as
 * well. The blue of a superseded slot is too dark for black letters: its number, which follows the cell and its mark, or its key, is white. The mark of
 * a slot that breaks a rule is black with white inside it, so that it shows on each of them. */
static const char style[] = "<style>"
                            "text{font:12px sans-serif;fill:#000}"
                            ".name{font-weight:bold;font-size:16px}"
                            ".slot,.in{font-size:10px;text-anchor:middle;pointer-events:none}"
                            ".label,.row,.corner{text-anchor:end}"
                            ".ground{fill:#fff}"
                            ".free{fill:#fff}.live{fill:#56b4e9}.dead{fill:#4d4d4d}.superseded{fill:#0072b2}.faulty{fill:#d55e00}"
                            ".superseded+.in,.superseded+.mark+.inner+.in{fill:#fff}"
                            ".cell,.key{stroke:#888;stroke-width:1}"
                            ".mark{fill:none;stroke:#000;stroke-width:3;pointer-events:none}"
                            ".inner{fill:none;stroke:#fff;stroke-width:1;pointer-events:none}"
                            ".bar{fill:#0072b2}.over{fill:#d55e00}.track{fill:#eee}"
                            ".bad{fill:#f0e442}.badname{font-weight:bold}"
                            "</style>\n";

struct layout {
    uint32_t width, height;
    uint32_t line;    /* letters of a line of the verdict */
    uint32_t legend;  /* top of the legend */
    uint32_t rows;    /* top of the first row */
    uint32_t cells;   /* left end of the first cell */
    uint32_t bars;    /* left end of the bars */
    uint32_t longest; /* the erase count of the longest bar */
};

/* ---- Text */

/* Up to `most` characters, as XML has them; what is not a printable ASCII character becomes a question mark. */
static void print_escaped(FILE *out, const char *text, size_t most)
{
    for (; *text != '\0' && most > 0; text++, most--)
        switch (*text) {
        case '&': fputs("&amp;", out); break;
        case '<': fputs("&lt;", out); break;
        case '>': fputs("&gt;", out); break;
        default: putc(*text >= ' ' && *text <= '~' ? *text : '?', out); break;
        }
}

static void begin_text(FILE *out, const char *class, uint32_t x, uint32_t y)
{
    fprintf(out, "<text class=\"%s\" x=\"%u\" y=\"%u\">", class, x, y + BASELINE);
}

static void print_text(FILE *out, const char *class, uint32_t x, uint32_t y, const char *text)
{
    begin_text(out, class, x, y);
    print_escaped(out, text, strlen(text));
    fputs("</text>\n", out);
}

static void print_number(FILE *out, const char *class, uint32_t x, uint32_t y, uint32_t number)
{
    begin_text(out, class, x, y);
    fprintf(out, "%u</text>\n", number);
}

/* The length of the text's next line: up to the last space within `most` letters, or all of them. */
static uint32_t next_line(const char *text, uint32_t most)
{
    uint32_t length = (uint32_t)strlen(text);
    if (length <= most)
        return length;
    for (length = most; length > 0 && text[length] != ' '; length--)
        ;
    return length > 0 ? length : most;
}

/* Prints the text in lines, or only counts them where `out` is null. */
static uint32_t print_lines(FILE *out, const char *text, uint32_t most, uint32_t y)
{
    uint32_t lines = 0;
    for (; *text != '\0'; lines++) {
        uint32_t length = next_line(text, most);
        if (out) {
            begin_text(out, "verdict", MARGIN, y + lines * LINE_HEIGHT);
            print_escaped(out, text, length);
            fputs("</text>\n", out);
        }
        text += length;
        text += *text == ' ';
    }
    return lines;
}

/* ---- Layout */

static struct layout lay_out(const struct survey *s, const char *verdict)
{
    struct layout l = {.cells = MARGIN + LABELS, .longest = s->blocks[wear_of(s).greatest].words[COUNT_WORD]};
    l.bars = l.cells + s->slots * PITCH + NUMBERS;
    l.width = l.bars + BAR + COUNTS + RULES_WIDTH;
    l.width = l.width < LEAST_WIDTH ? LEAST_WIDTH : l.width;
    l.line = (l.width - 2 * MARGIN) / LETTER;
    l.legend = MARGIN + 2 * LINE_HEIGHT + print_lines(NULL, verdict, l.line, 0) * LINE_HEIGHT;
    l.rows = l.legend + 3 * LINE_HEIGHT;
    l.height = l.rows + (s->part.blocks + 1) * ROW + MARGIN;
    return l;
}

/* ---- Above the rows */

static void print_rect(FILE *out, const char *class, uint32_t x, uint32_t y, uint32_t width, uint32_t height)
{
    fprintf(out, "<rect class=\"%s\" x=\"%u\" y=\"%u\" width=\"%u\" height=\"%u\"/>\n", class, x, y, width, height);
}

/* Inside a cell, so that its neighbours do not cover it. */
static void print_mark(FILE *out, uint32_t x, uint32_t y)
{
    print_rect(out, "mark", x + 1, y + 1, CELL_WIDTH - 2, CELL_HEIGHT - 2);
    print_rect(out, "inner", x + 2, y + 2, CELL_WIDTH - 4, CELL_HEIGHT - 4);
}

static void print_key(FILE *out, uint32_t place, uint32_t y, const char *class, const char *sign, const char *meaning)
{
    uint32_t x = MARGIN + place * KEY_WIDTH;
    print_rect(out, class, x, y, CELL_WIDTH, CELL_HEIGHT);
    if (*sign != '\0')
        print_text(out, "in", x + CELL_WIDTH / 2, y, sign);
    print_text(out, "meaning", x + CELL_WIDTH + SPACE, y, meaning);
}

static void print_legend(FILE *out, uint32_t y)
{
    print_key(out, 0, y, "key free", "", "free");
    print_key(out, 1, y, "key live", "17", "live, sector 17");
    print_key(out, 2, y, "key dead", "", "dead");
    print_key(out, 3, y, "key superseded", "17", "superseded");
    print_key(out, 4, y, "key faulty", FAULT_SIGN, "faulty entry");
    print_key(out, 5, y, "ground", "", "marked: breaks a rule");
    print_mark(out, MARGIN + 5 * KEY_WIDTH, y);
}

/* The name of the file without its folders. */
static const char *last_name(const char *path)
{
    const char *name = path;
    for (; *path != '\0'; path++)
        if (*path == '/' || *path == '\\')
            name = path + 1;
    return name;
}

static void print_head(FILE *out, const struct survey *s, const struct layout *l, const char *verdict, const char *path)
{
    uint32_t heads = l->rows - LINE_HEIGHT;
    begin_text(out, "name", MARGIN, MARGIN);
    print_escaped(out, last_name(path), (l->width - 2 * MARGIN) / LARGE_LETTER);
    fputs("</text>\n", out);
    print_lines(out, verdict, l->line, MARGIN + LINE_HEIGHT + LINE_HEIGHT / 2);
    print_legend(out, l->legend);
    print_text(out, "corner", l->cells - SPACE, heads, "block / slot");
    print_text(out, "meaning", l->bars, heads, "erase count");
    for (uint32_t i = 0; i < s->slots; i++)
        print_number(out, "slot", l->cells + i * PITCH + CELL_WIDTH / 2, heads, i);
}

/* ---- A cell */

/* The rules that the slot breaks, as its title says them; empty if it breaks none. */
static struct sentence faults_of_slot(const struct slot *slot)
{
    struct sentence faults = {""};
    size_t length = 0, room = sizeof faults.text;
    if (has_stale_map_bit(slot))
        length += (size_t)snprintf(faults.text, room, "; breaks R2: its map bit is set");
    if (is_stained(slot))
        length += (size_t)snprintf(faults.text + length, room - length, "; breaks R3: word %u of its contents is not all ones", slot->first_stain);
    if (slot->kind == FAULTY)
        length += (size_t)snprintf(faults.text + length, room - length, "; breaks R4: there is no logical sector %u", slot->number);
    if (slot->is_repeat)
        length += (size_t)snprintf(faults.text + length, room - length, "; breaks R5: its number is live in block %u slot %u as well",
                                   slot->first.block, slot->first.slot);
    if (slot->kind == SUPERSEDED)
        snprintf(faults.text + length, room - length, "; breaks R8: block %u slot %u has a complete entry", slot->complete.block,
                 slot->complete.slot);
    return faults;
}

/* Whether the slot has the contents of a logical sector, be they the present ones or not. */
static bool has_sector(const struct slot *slot)
{
    return slot->kind == LIVE || slot->kind == SUPERSEDED;
}

static void print_title_of_slot(FILE *out, const struct slot *slot, struct place at, const char *faults)
{
    fprintf(out, "<title>block %u slot %u: %s, ", at.block, at.slot, name_of_slot_kind(slot->kind));
    if (has_sector(slot))
        fprintf(out, "sector %u, ", slot->number);
    fprintf(out, "entry 0x%08X", slot->entry);
    if (is_live_in_passing(slot))
        fputs("; in passing", out);
    if (is_taken(slot))
        fputs("; taken, with a free entry", out);
    fputs(faults, out);
    if (slot->is_repeated)
        fprintf(out, "; its number is live again in block %u slot %u", slot->next.block, slot->next.slot);
    fputs("</title>", out);
}

/* With the number of a live or superseded slot: it has four digits at most, and they fit. */
static void print_cell(FILE *out, const struct slot *slot, struct place at, uint32_t x, uint32_t y)
{
    struct sentence faults = faults_of_slot(slot);
    fprintf(out, "<rect class=\"cell %s\" x=\"%u\" y=\"%u\" width=\"%u\" height=\"%u\">", name_of_slot_kind(slot->kind), x, y, CELL_WIDTH, CELL_HEIGHT);
    print_title_of_slot(out, slot, at, faults.text);
    fputs("</rect>\n", out);
    if (*faults.text != '\0')
        print_mark(out, x, y);
    if (has_sector(slot))
        print_number(out, "in", x + CELL_WIDTH / 2, y, slot->number);
    if (slot->kind == FAULTY)
        print_text(out, "in", x + CELL_WIDTH / 2, y, FAULT_SIGN);
}

/* ---- A row */

static void print_label(FILE *out, const struct block *block, uint32_t b, uint32_t x, uint32_t y)
{
    const char *kind = name_of_block_kind(block->kind);
    begin_text(out, "label", x, y);
    fprintf(out, "<title>block %u: %s, %u free, %u live, %u dead, %u superseded, %u faulty; word 1 is %s, word 2 is %s</title>%s %u</text>\n", b, kind,
            block->count[FREE], block->count[LIVE], block->count[DEAD], block->count[SUPERSEDED], block->count[FAULTY],
            word_in_words(block->words[LEAST_WORD]).text, word_in_words(block->words[GREATEST_WORD]).text, kind, b);
}

/* In proportion to the greatest count, and never too short to be seen. A count above the ceiling has a bar of its own colour, as long as any. */
static uint32_t length_of_bar(const struct layout *l, uint32_t count)
{
    if (count == 0 || count > SHELLWALTZ_CEILING)
        return count == 0 ? 0 : BAR;
    return 1 + (uint32_t)((uint64_t)count * (BAR - 1) / l->longest);
}

static void print_bar(FILE *out, const struct layout *l, uint32_t b, uint32_t count, uint32_t y)
{
    const char *class = count > SHELLWALTZ_CEILING ? "bar over" : "bar";
    print_number(out, "row", l->bars - SPACE, y, b);
    print_rect(out, "track", l->bars, y + 4, BAR, CELL_HEIGHT - 8);
    fprintf(out, "<rect class=\"%s\" x=\"%u\" y=\"%u\" width=\"%u\" height=\"%u\"><title>erase count %s</title></rect>\n", class, l->bars, y + 4,
            length_of_bar(l, count), CELL_HEIGHT - 8, word_in_words(count).text);
    print_text(out, "count", l->bars + BAR + SPACE, y, word_in_words(count).text);
}

/* The first place of each rule that the block breaks. */
static void print_places(FILE *out, const struct survey *s, uint32_t b)
{
    struct sentence place;
    const char *between = "";
    for (uint32_t rule = 1; rule <= RULES; rule++) {
        if (!is_broken(s, b, rule, &place))
            continue;
        fprintf(out, "%sR%u: ", between, rule);
        print_escaped(out, place.text, sizeof place.text);
        fputs(".", out);
        between = " ";
    }
}

static void print_rules(FILE *out, const struct survey *s, const struct layout *l, uint32_t b, bool is_bad)
{
    struct sentence rules = rules_broken_by(s, b);
    if (*rules.text == '\0')
        return;
    begin_text(out, is_bad ? "badname" : "breaks", l->bars + BAR + COUNTS, l->rows + b * ROW);
    fputs("<title>", out);
    print_places(out, s, b);
    fputs("</title>", out);
    if (is_bad)
        fprintf(out, "bad block %u: %s</text>\n", b, rules.text);
    else
        fprintf(out, "breaks %s</text>\n", rules.text);
}

/* What marks the bad block: a band behind its row, and its name. */
static void print_band(FILE *out, const struct layout *l, uint32_t y)
{
    print_rect(out, "bad", 0, y - 1, l->width, ROW);
}

static void print_row(FILE *out, const struct survey *s, const struct layout *l, uint32_t b, bool is_bad)
{
    const struct block *block = &s->blocks[b];
    uint32_t y = l->rows + b * ROW;
    if (is_bad)
        print_band(out, l, y);
    print_label(out, block, b, l->cells - SPACE, y);
    for (uint32_t i = 0; i < s->slots; i++)
        print_cell(out, &block->slots[i], (struct place){b, i}, l->cells + i * PITCH, y);
    print_bar(out, l, b, block->words[COUNT_WORD], y);
    print_rules(out, s, l, b, is_bad);
}

/* The row one past the last, where no block is blank. */
static void print_rule_6(FILE *out, const struct survey *s, const struct layout *l, bool is_bad)
{
    uint32_t b = s->part.blocks, y = l->rows + b * ROW;
    if (is_bad) {
        print_band(out, l, y);
        begin_text(out, "badname", MARGIN, y);
        fprintf(out, "bad block %u: R6, no block is blank</text>\n", b);
    } else if (blocks_of_kind(s, BLANK) == 0) {
        print_text(out, "breaks", MARGIN, y, "breaks R6: no block is blank");
    }
}

void print_picture(FILE *out, const struct survey *s, struct shellwaltz_result check, const char *path)
{
    struct sentence verdict = verdict_of(s, check);
    struct layout l = lay_out(s, verdict.text);
    bool is_malformed = check.answer == SHELLWALTZ_MALFORMED;
    fprintf(out, PICTURE_BEGINNING " xmlns=\"http://www.w3.org/2000/svg\" width=\"%u\" height=\"%u\" viewBox=\"0 0 %u %u\">\n<title>", l.width,
            l.height, l.width, l.height);
    print_escaped(out, path, strlen(path));
    fputs("</title>\n<desc>", out);
    print_escaped(out, verdict.text, sizeof verdict.text);
    fputs("</desc>\n", out);
    fputs(style, out);
    print_rect(out, "ground", 0, 0, l.width, l.height);
    print_head(out, s, &l, verdict.text, path);
    for (uint32_t b = 0; b < s->part.blocks; b++)
        print_row(out, s, &l, b, is_malformed && check.bad_block == b);
    print_rule_6(out, s, &l, is_malformed && check.bad_block == s->part.blocks);
    fputs("</svg>\n", out);
}

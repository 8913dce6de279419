/* inspect looks at files of every kind: sound images, such with planted faults, with slots as a placing has them halfway, with flipped bits and changed
 * words, random ones, cut ones, too long ones, and those of another geometry.
 *
 *     any_file SEED FILES FOLDER
 *
 * It must never do what a sanitizer stops. What it says must be what the library says of the same words: the status, the pair of the
 * verdict (of planted faults the one that was planted); and of a sound image that nothing is broken, the totals, what the next write does (by a
 * write on a copy) and the bytes of a sector. The picture has a cell for each slot, and a mark for the bad block. Of each eighth file, if it could be
 * looked at, the image, the words and the picture stay in the folder for tests/opinion; the file LIST says which. It fails too where some kind of
 * file, some outcome or some remark on a slot or a block never came about.
 *
 * The test of this test: compiled with -DSPOIL it changes an erase count in some files when it has noted what to expect, and must fail. */
#include <stdarg.h>
#include <stdio.h>
#include <stdlib.h>
#include <string.h>

#include "../compare/counts.h"
#include "../compare/faults.h"
#include "../inspect/inspect.h"
#include "../inspect/little_endian.h"

static const struct geometry geometries[] = {{2, 3, 1},   {3, 2, 1},   {64, 2, 62}, {3, 3, 3},     {4, 4, 8},      {4, 8, 16},
                                             {5, 5, 15},  {8, 16, 90}, {4, 32, 90}, {7, 33, 100},  {7, 34, 190},   {2, 64, 62},
                                             {3, 5, 7},   {5, 3, 7},   {2, 16, 14}, {16, 2, 14},   {64, 64, 3968}};
enum { GEOMETRIES = sizeof geometries / sizeof *geometries, LARGE = GEOMETRIES - 1, LARGE_EVERY = 1600, KEPT_EVERY = 8 };
enum kind { SOUND, PLANTED, HALFWAY, FLIPPED, RANDOM, CUT, TOO_LONG, OTHER_GEOMETRY, FILE_KINDS };
enum { OUTCOMES = 3, TEXT = 1 << 17, PICTURE = 1 << 21 };

#ifdef SPOIL
enum { SPOILED = 1 };
#else
enum { SPOILED = 0 };
#endif

/* What a picture says of slots as a placing has them halfway, of which the first two are no fault, and of words 1 and 2 of a full block. */
static const char *const remarks[] = {"; in passing", "; taken, with a free entry", "; breaks R8: ",
                                      " while no slot is free; it should not be all ones"};
enum { REMARKS = sizeof remarks / sizeof *remarks, SOUND_REMARKS = 2 };

/* A file, and what to expect of it. */
struct trial {
    enum kind kind;
    struct planting planted;
    struct geometry g;               /* as it is handed to inspect */
    uint32_t *image;                 /* the file's words */
    size_t bytes;                    /* of the file */
    uint32_t number;                 /* the sector that is asked for */
    struct shellwaltz_result check;  /* of a file of the right length */
    enum inspect_status status;
};

static const char *folder;
static FILE *kept;
static char file_name[512], picture_name[512], text[TEXT], complaint[TEXT], picture[PICTURE];
static unsigned long seen_kind[FILE_KINDS], seen_status[OUTCOMES], seen_rule[RULES + 1], seen_reclaim, seen_worn, seen_sector;
static unsigned long seen_remark[REMARKS], seen_in_sound[SOUND_REMARKS];

static void fail(const struct trial *t, const char *why)
{
    printf("inspect: %s: geometry %u %u %u, kind of file %d, sector %u, %s\n%s%s", why, (unsigned)t->g.blocks, (unsigned)t->g.sectors,
           (unsigned)t->g.logical, (int)t->kind, (unsigned)t->number, file_name, text, complaint);
    show_faults(&t->planted);
    exit(1);
}

static struct shellwaltz_part part_of(const struct trial *t, uint32_t *image)
{
    struct shellwaltz_part part = SHELLWALTZ_PART(t->g.blocks, t->g.sectors, t->g.logical, image);
    return part;
}

/* ---- Files */

static void flip_bits(struct trial *t)
{
    for (uint32_t n = 1 + below(4); n > 0; n--) {
        uint32_t b = below(t->g.blocks), word = one_in(2) ? below(68) : below(t->g.sectors * SECTOR);
        block_of(t->g, t->image, b)[word % (t->g.sectors * SECTOR)] ^= 1u << below(32);
    }
}

/* Some slot as a placing has it halfway. A free one is taken, and has its free entry still; a complete entry is in passing, and live still; any other
 * becomes one in passing, which is superseded if its number has a complete one. */
static void leave_slot_halfway(struct trial *t)
{
    uint32_t slots = slots_of(t->g), slot = below(slots), *block = block_of(t->g, t->image, below(t->g.blocks));
    uint32_t *entry = block + 3 + (slots + 31) / 32 + slot;
    if (*entry == 0xFFFFFFFFu)
        block[3 + slot / 32] &= ~(1u << slot % 32);
    else if (*entry >> 29 == 6)
        *entry &= ~(1u << 30);
    else
        *entry = 0x80000000u + below(t->g.logical);
}

/* Some block as the placing that fills it has it halfway: every slot is taken, and words 1 and 2, which would bound any number, may be all ones yet. */
static void leave_block_halfway(struct trial *t)
{
    uint32_t *block = block_of(t->g, t->image, below(t->g.blocks));
    for (uint32_t slot = 0; slot < slots_of(t->g); slot++)
        block[3 + slot / 32] &= ~(1u << slot % 32);
    block[1] = one_in(3) ? 0xFFFFFFFFu : 0;
    block[2] = one_in(3) ? 0xFFFFFFFFu : t->g.logical - 1;
}

static void leave_halfway(struct trial *t)
{
    for (uint32_t n = 1 + below(6); n > 0; n--)
        one_in(6) ? leave_block_halfway(t) : leave_slot_halfway(t);
}

static void make_random(struct trial *t)
{
    bool any_bytes = one_in(2);
    for (size_t w = 0; w < words_of(t->g); w++)
        t->image[w] = any_bytes ? (uint32_t)chance() : odd_word(t->g);
}

/* The length of the file: an image's, but for those that are cut or too long. */
static void set_length(struct trial *t)
{
    size_t bytes = 4 * words_of(t->g);
    if (t->kind == CUT)
        bytes = one_in(8) ? 0 : one_in(4) ? bytes - 1 : below((uint32_t)bytes);
    if (t->kind == TOO_LONG)
        bytes += one_in(4) ? 1 : 1 + below(4096);
    t->bytes = bytes;
}

/* A file of another length cannot be looked at. Of planted faults the first is known from how they were made. */
static void expect(struct trial *t)
{
    struct shellwaltz_part part = part_of(t, t->image);
    t->status = INSPECT_NOT_DONE;
    if (t->bytes != 4 * words_of(t->g))
        return;
    t->check = shellwaltz_part_check(&part);
    t->status = t->check.answer == SHELLWALTZ_OK ? INSPECT_SOUND : INSPECT_MALFORMED;
    const struct fault *first = first_fault(&t->planted);
    if (t->kind == PLANTED && (first->block != t->check.bad_block || first->rule != t->check.bad_rule))
        fail(t, "the check names another fault than was planted");
}

static enum kind some_kind(void)
{
    static const enum kind kinds[] = {SOUND, SOUND, PLANTED, HALFWAY, HALFWAY, FLIPPED, FLIPPED, FLIPPED, FLIPPED, RANDOM, RANDOM, RANDOM, RANDOM,
                                      CUT, CUT, CUT, TOO_LONG, OTHER_GEOMETRY};
    return kinds[below(sizeof kinds / sizeof *kinds)];
}

static struct trial make_trial(unsigned long round, uint32_t *image)
{
    struct geometry g = geometries[round % LARGE_EVERY == 0 ? LARGE : below(LARGE)];
    struct trial t = {.kind = some_kind(), .g = g, .image = image};
    make_image(g, image);
    switch (t.kind) {
    case PLANTED: plant_faults(&t.planted, g, image); break;
    case HALFWAY: leave_halfway(&t); break;
    case FLIPPED: one_in(4) ? damage(g, image) : flip_bits(&t); break;
    case RANDOM: make_random(&t); break;
    default: break;
    }
    set_length(&t);
    if (t.kind == OTHER_GEOMETRY)
        t.g = geometries[below(LARGE)];
    t.number = below(t.g.logical);
    expect(&t);
    return t;
}

static void save(const struct trial *t)
{
    FILE *file = fopen(file_name, "wb");
    uint32_t flip = SPOILED && one_in(8);
    if (!file)
        fail(t, "the file cannot be made");
    t->image[0] ^= flip;
    for (size_t i = 0; i < t->bytes; i++)
        putc(byte_in(t->image, i), file);
    t->image[0] ^= flip;
    if (fclose(file) != 0)
        fail(t, "the file cannot be written");
}

/* ---- What inspect leaves */

static void load(FILE *file, char *to, size_t room)
{
    rewind(file);
    to[fread(to, 1, room - 1, file)] = '\0';
}

static enum inspect_status run(const struct trial *t)
{
    char b[12], s[12], l[12], n[12];
    char *argv[] = {"inspect", file_name, b, s, "--svg", picture_name, l, "--sector", n, NULL};
    FILE *out = tmpfile(), *err = tmpfile();
    if (!out || !err)
        fail(t, "no file for the output");
    sprintf(b, "%u", (unsigned)t->g.blocks);
    sprintf(s, "%u", (unsigned)t->g.sectors);
    sprintf(l, "0x%x", (unsigned)t->g.logical);
    sprintf(n, "%u", (unsigned)t->number);
    enum inspect_status status = inspect(9, argv, out, err);
    load(out, text, sizeof text);
    load(err, complaint, sizeof complaint);
    fclose(out);
    fclose(err);
    return status;
}

/* Letter by letter: under the sanitizers each search by strstr first goes to the end of the text. */
static unsigned long count(const char *in, const char *what)
{
    unsigned long n = 0;
    size_t length = strlen(what);
    for (const char *at = in; *at != '\0'; at++)
        n += *at == *what && strncmp(at, what, length) == 0;
    return n;
}

/* Fails where the words or the picture lack what the format gives. */
static void must_have(const struct trial *t, const char *in, const char *format, ...)
{
    char wanted[256];
    va_list values;
    va_start(values, format);
    vsnprintf(wanted, sizeof wanted, format, values);
    va_end(values);
    if (strstr(in, wanted))
        return;
    printf("wanted: %s\n", wanted);
    fail(t, "something else is said");
}

static void hold_verdict(const struct trial *t)
{
    const char *past = t->check.bad_block == t->g.blocks ? ", one past the last," : "";
    char verdict[128] = "Well formed: every rule holds (";
    if (t->status == INSPECT_MALFORMED)
        snprintf(verdict, sizeof verdict, "Malformed: block %u%s breaks rule %u (", (unsigned)t->check.bad_block, past, (unsigned)t->check.bad_rule);
    if (strncmp(text, verdict, strlen(verdict)) != 0 || strstr(text, "does not see"))
        fail(t, "the verdict is another one, or has no place");
    if (t->status == INSPECT_SOUND && strstr(text, "\nAlso broken"))
        fail(t, "something is broken in a sound image");
}

static void hold_totals(const struct trial *t)
{
    struct shellwaltz_part part = part_of(t, t->image);
    struct shellwaltz_totals totals = shellwaltz_part_report(&part);
    must_have(t, text, ", %u live, %u free, %u dead, 0 superseded, 0 faulty.\n", (unsigned)totals.mapped, (unsigned)totals.free_slots,
              (unsigned)totals.dead);
    must_have(t, text, "Erase counts: %u in all, ", (unsigned)totals.erase_sum);
}

/* What a write on a copy does is what the words say of it. */
static void hold_next_write(const struct trial *t)
{
    static uint32_t copy[SHELLWALTZ_IMAGE_WORDS(64, 64)], buffer[SECTOR];
    struct shellwaltz_part part = part_of(t, copy);
    memcpy(copy, t->image, t->bytes);
    struct shellwaltz_result wrote = shellwaltz_part_write(&part, t->number, buffer);
    if (wrote.answer == SHELLWALTZ_WORN_OUT)
        must_have(t, text, "The next write is refused with 6: block ");
    else if (wrote.erasures == 0)
        must_have(t, text, "Writes that fit before one has to reclaim a block: ");
    for (uint32_t b = 0; b < t->g.blocks; b++)
        if (*block_of(t->g, copy, b) != *block_of(t->g, t->image, b))
            must_have(t, text, "The next write reclaims block %u (", (unsigned)b);
    seen_reclaim += wrote.erasures;
    seen_worn += wrote.answer == SHELLWALTZ_WORN_OUT;
}

/* A line as xxd has it, up to its text. */
static void hold_line(const struct trial *t, const uint32_t *sector, uint32_t start)
{
    char hex[64], *at = hex;
    for (uint32_t byte = start; byte < start + 16; byte++)
        at += sprintf(at, "%02x%s", (unsigned)byte_in(sector, byte), byte % 2 == 0 ? "" : " ");
    must_have(t, text, "\n%08x: %s ", (unsigned)start, hex);
}

static void hold_sector(const struct trial *t)
{
    uint32_t buffer[SECTOR];
    struct shellwaltz_part part = part_of(t, t->image);
    if (shellwaltz_part_read(&part, t->number, buffer).answer == SHELLWALTZ_UNMAPPED) {
        must_have(t, text, "\nSector %u is not mapped.\n", (unsigned)t->number);
        return;
    }
    seen_sector++;
    must_have(t, text, "\nSector %u is in block ", (unsigned)t->number);
    for (uint32_t start = 0; start < 4 * SECTOR; start += 16)
        hold_line(t, buffer, start);
}

static void note_remarks(const struct trial *t)
{
    for (unsigned r = 0; r < REMARKS; r++) {
        unsigned long times = count(picture, remarks[r]);
        seen_remark[r] += times;
        if (r < SOUND_REMARKS && t->status == INSPECT_SOUND)
            seen_in_sound[r] += times;
    }
}

static void hold_picture(const struct trial *t)
{
    FILE *file = fopen(picture_name, "rb");
    if (!file)
        fail(t, "there is no picture");
    load(file, picture, sizeof picture);
    fclose(file);
    if (count(picture, "<rect class=\"cell ") != t->g.blocks * slots_of(t->g) || strcmp(picture + strlen(picture) - 7, "</svg>\n") != 0)
        fail(t, "the picture has not a cell for each slot");
    if (count(picture, "<rect class=\"bad\"") != (t->status == INSPECT_MALFORMED))
        fail(t, "the picture does not mark the one bad block");
    if (count(picture, "<rect class=\"cell superseded\"") != count(picture, "; breaks R8: "))
        fail(t, "the picture does not say of each superseded slot, and of no other, that it breaks rule 8");
    note_remarks(t);
}

/* The words go beside the image and the picture, and the three into the list. */
static void keep(const struct trial *t, unsigned long round)
{
    char name[512];
    snprintf(name, sizeof name, "%s/%lu.txt", folder, round);
    FILE *file = fopen(name, "wb");
    if (!file || fputs(text, file) < 0 || fclose(file) != 0)
        fail(t, "the words cannot be kept");
    fprintf(kept, "%lu %u %u %u %u %s\n", round, (unsigned)t->g.blocks, (unsigned)t->g.sectors, (unsigned)t->g.logical, (unsigned)t->number,
            file_name);
}

/* What the words and the picture must be, whatever is on the image, and what they must be of a sound one. */
static void hold(const struct trial *t)
{
    hold_verdict(t);
    hold_picture(t);
    if (t->status == INSPECT_SOUND) {
        hold_totals(t);
        hold_next_write(t);
        hold_sector(t);
    }
}

static void try_one(unsigned long round, uint32_t *image)
{
    snprintf(file_name, sizeof file_name, "%s/%lu.img", folder, round);
    snprintf(picture_name, sizeof picture_name, "%s/%lu.svg", folder, round);
    struct trial t = make_trial(round, image);
    bool is_done = t.status != INSPECT_NOT_DONE;
    save(&t);
    seen_kind[t.kind]++;
    seen_status[t.status]++;
    seen_rule[t.check.bad_rule]++;
    if (run(&t) != t.status)
        fail(&t, "another status");
    if (is_done ? *complaint != '\0' : strncmp(complaint, "inspect: ", 9) != 0 || *text != '\0')
        fail(&t, "a file of another length has a sentence and nothing else, and any other file has none");
    if (is_done)
        hold(&t);
    if (is_done && round % KEPT_EVERY == 0) {
        keep(&t, round);
    } else {
        remove(file_name);
        remove(picture_name);
    }
}

int main(int argc, char **argv)
{
    char name[512];
    uint32_t *image = calloc(2 * words_of(geometries[LARGE]), 4); /* with room for what makes a file too long */
    if (argc != 4 || !image)
        return 2;
    chance_state = strtoull(argv[1], NULL, 10);
    unsigned long files = strtoul(argv[2], NULL, 10);
    folder = argv[3];
    snprintf(name, sizeof name, "%s/LIST", folder);
    kept = fopen(name, "a");
    for (unsigned long round = 0; kept && round < files; round++)
        try_one(round, image);
    free(image);
    bool complete = kept && fclose(kept) == 0;
    printf("inspect: %lu files", files);
    complete &= show_counts("; sound, planted, halfway, flipped, random, cut, too long, of another geometry", seen_kind, FILE_KINDS);
    complete &= show_counts("; status 0, 1, 2", seen_status, OUTCOMES);
    complete &= show_counts("; rule 1 to 8 the answer", seen_rule + 1, RULES);
    complete &= show_counts("; the next write reclaims", &seen_reclaim, 1);
    complete &= show_counts(", is refused", &seen_worn, 1);
    complete &= show_counts("; sectors", &seen_sector, 1);
    complete &= show_counts("; slots in passing, taken, superseded, full blocks without word 1 or 2", seen_remark, REMARKS);
    complete &= show_counts("; in passing and taken in sound images", seen_in_sound, SOUND_REMARKS);
    puts(complete ? "" : " <- a 0: it never came about");
    return complete ? 0 : 1;
}

/* The short calls of include/shellwaltz.h only pass on: each gives, changes and leaves what the proved function of the same name does; of a part
 * with a lookup table, a read, a write or a release what the one with a table does. Tried on images that are sound, bad in a block, bad as
 * a whole and cut, with numbers in and out of range, with steps from the first to the greatest number, with geometries that are refused, and with no
 * table, a right one, a wrong one and one that is too short. And the sentences for logs: each number has one of its own, and every other
 * number the same one. */
#include <stdio.h>
#include <stdlib.h>
#include <string.h>

#include "../include/shellwaltz.h"

enum { BLOCKS = 3, SECTORS = 3, LOGICAL = 3, WORDS = BLOCKS * SECTORS * 128, NUMBERS = 5, IMAGES = 7, CALLS = 14, SHAPES = 3 };
enum { NO_TABLE, RIGHT, WRONG, TOO_SHORT, TABLES };
enum { FIRST_BY_STEPS = 8, STEPS = 6 };
static const uint32_t steps[STEPS] = {0, 1, 2, 100, 133, 0xFFFFFFFFu};

/* What a call leaves: its image, its buffer, its table and the word behind it, and what it gives, in the order of struct shellwaltz_totals, of
 * struct shellwaltz_result or of struct shellwaltz_step. */
struct left {
    uint32_t image[WORDS], buffer[SHELLWALTZ_SECTOR_WORDS], given[7];
    uint16_t table[LOGICAL + 1];
};

static unsigned compared, answers_seen[SHELLWALTZ_NO_ROOM + 1], kinds_seen[3];

static void store(uint32_t *image, uint32_t number, uint32_t most)
{
    uint32_t words, erasures, block, rule, sector[SHELLWALTZ_SECTOR_WORDS] = {1, 2, 3};
    shellwaltz_write_first(BLOCKS, SECTORS, LOGICAL, image, WORDS, number, sector, SHELLWALTZ_SECTOR_WORDS, most, &words, &erasures, &block, &rule);
}

/* All numbers stored, and one of them again; the next write, which reclaims, is cut while it copies. */
static void make_cut_image(uint32_t *image)
{
    for (uint32_t time = 0; time < 4; time++)
        store(image, time % LOGICAL, 0xFFFFFFFFu);
    store(image, 1, 50);
}

/* Sound and fresh; block 1 at fault; no block blank; sound with number 2 stored twice and a count, so that no total is 0; with it stored four
 * times, so that the next write erases; cut, so that a repair erases; and cut, with that block at the ceiling. */
static void make_image(int which, uint32_t *image)
{
    uint32_t words, erasures;
    shellwaltz_format(BLOCKS, SECTORS, LOGICAL, image, WORDS, &words, &erasures);
    if (which == 1)
        image[SECTORS * 128] = SHELLWALTZ_CEILING + 1;
    for (uint32_t b = 0; which == 2 && b < BLOCKS; b++) {
        image[b * SECTORS * 128 + 3] = 0xFFFFFFFEu;
        image[b * SECTORS * 128 + 4] = 0;
    }
    for (int time = 0; (which == 3 && time < 2) || (which == 4 && time < 4); time++) {
        store(image, 2, 0xFFFFFFFFu);
        image[2 * SECTORS * 128] = 7;
    }
    if (which >= 5)
        make_cut_image(image);
    if (which == 6)
        image[0] = SHELLWALTZ_CEILING;
}

static void proved(int call, struct shellwaltz_part p, uint32_t n, struct left *l)
{
    uint32_t *g = l->given, *b = l->buffer;
    switch (call) {
    case 0: g[0] = shellwaltz_format(p.blocks, p.sectors, p.logical, p.image, p.image_words, g + 1, g + 2); break;
    case 1: g[0] = shellwaltz_check(p.blocks, p.sectors, p.logical, p.image, p.image_words, g + 3, g + 4); break;
    case 2: g[0] = shellwaltz_report(p.blocks, p.sectors, p.logical, p.image, p.image_words, g + 1, g + 2, g + 3, g + 4, g + 5, g + 6); break;
    case 3: g[0] = shellwaltz_read(p.blocks, p.sectors, p.logical, p.image, p.image_words, n, b, SHELLWALTZ_SECTOR_WORDS, g + 3, g + 4); break;
    case 4:
        g[0] = shellwaltz_write(p.blocks, p.sectors, p.logical, p.image, p.image_words, n, b, SHELLWALTZ_SECTOR_WORDS, g + 1, g + 2, g + 3, g + 4);
        break;
    case 5: g[0] = shellwaltz_release(p.blocks, p.sectors, p.logical, p.image, p.image_words, n, g + 1, g + 2, g + 3, g + 4); break;
    default: g[0] = shellwaltz_repair(p.blocks, p.sectors, p.logical, p.image, p.image_words, g + 1, g + 2, g + 3, g + 4); break;
    }
}

/* Of a part that has no table, a build is that of one of no words. */
static void proved_with_table(int call, struct shellwaltz_part p, uint32_t n, struct left *l)
{
    uint32_t *g = l->given, *b = l->buffer, words = SHELLWALTZ_SECTOR_WORDS;
    uint16_t *t = l->table;
    size_t size = p.table_words;
    switch (call) {
    case 3: g[0] = shellwaltz_read_with_table(p.blocks, p.sectors, p.logical, p.image, p.image_words, n, b, words, t, size, g + 3, g + 4); break;
    case 4:
        g[0] = shellwaltz_write_with_table(p.blocks, p.sectors, p.logical, p.image, p.image_words, n, b, words, t, size, g + 1, g + 2, g + 3, g + 4);
        break;
    case 5:
        g[0] = shellwaltz_release_with_table(p.blocks, p.sectors, p.logical, p.image, p.image_words, n, t, size, g + 1, g + 2, g + 3, g + 4);
        break;
    default: g[0] = shellwaltz_build_table(p.blocks, p.sectors, p.logical, p.image, p.image_words, t, size, g + 3, g + 4); break;
    }
}

/* A place is below 2^32 here. */
static void proved_by_steps(int call, struct shellwaltz_part p, uint32_t n, uint32_t i, struct left *l)
{
    uint32_t *g = l->given, *b = l->buffer, words = SHELLWALTZ_SECTOR_WORDS;
    size_t place = 0;
    switch (call) {
    case 8:
        g[0] = shellwaltz_write_step(p.blocks, p.sectors, p.logical, p.image, p.image_words, n, b, words, i, g + 1, &place, g + 3, g + 4, g + 5);
        break;
    case 9: g[0] = shellwaltz_release_step(p.blocks, p.sectors, p.logical, p.image, p.image_words, n, i, g + 1, &place, g + 3, g + 4, g + 5); break;
    case 10: g[0] = shellwaltz_repair_step(p.blocks, p.sectors, p.logical, p.image, p.image_words, i, g + 1, &place, g + 3, g + 4, g + 5); break;
    case 11: g[0] = shellwaltz_write_first(p.blocks, p.sectors, p.logical, p.image, p.image_words, n, b, words, i, g + 1, g + 2, g + 3, g + 4); return;
    case 12: g[0] = shellwaltz_release_first(p.blocks, p.sectors, p.logical, p.image, p.image_words, n, i, g + 1, g + 2, g + 3, g + 4); return;
    default: g[0] = shellwaltz_repair_first(p.blocks, p.sectors, p.logical, p.image, p.image_words, i, g + 1, g + 2, g + 3, g + 4); return;
    }
    g[2] = (uint32_t)place;
    kinds_seen[g[1]]++;
}

static void by_the_short_call(int call, struct shellwaltz_part p, uint32_t n, uint32_t i, struct left *l)
{
    struct shellwaltz_result r = {0, 0, 0, 0, 0};
    struct shellwaltz_totals t = {0, 0, 0, 0, 0, 0, 0};
    struct shellwaltz_step s = {0, 0, 0, 0, 0, 0};
    switch (call) {
    case 0: r = shellwaltz_part_format(&p); break;
    case 1: r = shellwaltz_part_check(&p); break;
    case 2: t = shellwaltz_part_report(&p); break;
    case 3: r = shellwaltz_part_read(&p, n, l->buffer); break;
    case 4: r = shellwaltz_part_write(&p, n, l->buffer); break;
    case 5: r = shellwaltz_part_release(&p, n); break;
    case 6: r = shellwaltz_part_build_table(&p); break;
    case 7: r = shellwaltz_part_repair(&p); break;
    case 8: s = shellwaltz_part_write_step(&p, n, l->buffer, i); break;
    case 9: s = shellwaltz_part_release_step(&p, n, i); break;
    case 10: s = shellwaltz_part_repair_step(&p, i); break;
    case 11: r = shellwaltz_part_write_first(&p, n, l->buffer, i); break;
    case 12: r = shellwaltz_part_release_first(&p, n, i); break;
    default: r = shellwaltz_part_repair_first(&p, i); break;
    }
    uint32_t result[7] = {r.answer, r.words, r.erasures, r.bad_block, r.bad_rule};
    uint32_t totals[7] = {t.answer, t.mapped, t.free_slots, t.dead, t.erase_sum, t.bad_block, t.bad_rule};
    uint32_t step[7] = {s.answer, s.kind, (uint32_t)s.place, s.word, s.bad_block, s.bad_rule};
    memcpy(l->given, call == 2 ? totals : call >= 8 && call <= 10 ? step : result, sizeof l->given);
}

/* The part that `l` has the image of, with the table that is asked for. */
static struct shellwaltz_part make_part(int shape, int tabled, struct left *l)
{
    struct shellwaltz_part none = SHELLWALTZ_PART(BLOCKS, SECTORS, LOGICAL, l->image);
    struct shellwaltz_part p = SHELLWALTZ_PART_WITH_TABLE(BLOCKS, SECTORS, LOGICAL, l->image, l->table);
    if (tabled == RIGHT)
        shellwaltz_part_build_table(&p);
    if (tabled == NO_TABLE)
        p = none;
    if (tabled == TOO_SHORT)
        p.table_words = LOGICAL - 1;
    if (shape == 1)
        p.logical = 0;
    if (shape == 2)
        p.image_words = WORDS - 1;
    return p;
}

static void compare(int call, int which, int shape, int tabled, uint32_t n, uint32_t i)
{
    static struct left ours, theirs;
    memset(&ours, 0, sizeof ours);
    make_image(which, ours.image);
    ours.buffer[5] = 77;
    for (int i = 0; i <= LOGICAL; i++)
        ours.table[i] = 1;
    struct shellwaltz_part p = make_part(shape, tabled, &ours);
    theirs = ours;
    by_the_short_call(call, p, n, i, &ours);
    p.image = theirs.image;
    if (call >= FIRST_BY_STEPS)
        proved_by_steps(call, p, n, i, &theirs);
    else if (call == 6 || (call >= 3 && call <= 5 && tabled != NO_TABLE))
        proved_with_table(call, p, n, &theirs);
    else
        proved(call, p, n, &theirs);
    if (memcmp(&ours, &theirs, sizeof ours) != 0) {
        printf("short calls: call %d on image %d, geometry %d, table %d, number %u, step %u differs\n", call, which, shape, tabled, (unsigned)n,
               (unsigned)i);
        exit(1);
    }
    if (call == 6 && tabled == NO_TABLE && ours.given[0] != (shape == 0 ? SHELLWALTZ_BAD_BUFFER : SHELLWALTZ_BAD_GEOMETRY)) {
        printf("short calls: a build without a table answers %u\n", (unsigned)ours.given[0]);
        exit(1);
    }
    compared++;
    answers_seen[ours.given[0]]++;
}

/* Each of the numbers has a sentence that no other one of them has. The last of them is no number of the library. */
static void sentences(const char *(*meaning)(uint32_t), const uint32_t *numbers, int count)
{
    for (int i = 0; i < count; i++)
        for (int j = 0; j < i; j++)
            if (strcmp(meaning(numbers[i]), meaning(numbers[j])) == 0 || meaning(numbers[i])[0] == '\0') {
                printf("short calls: %u and %u have one sentence\n", (unsigned)numbers[i], (unsigned)numbers[j]);
                exit(1);
            }
}

/* What is no number of the library has one sentence. */
static void one_sentence(const char *(*meaning)(uint32_t), const uint32_t *strangers, int count)
{
    for (int i = 1; i < count; i++)
        if (strcmp(meaning(strangers[i]), meaning(strangers[0])) != 0) {
            printf("short calls: two sentences for what is no number of the table\n");
            exit(1);
        }
}

static void all_sentences(void)
{
    static const uint32_t answers[] = {0, 1, 2, 3, 4, 5, 6, 10, 11}, no_answers[] = {11, 7, 8, 9, 12, 0xFFFFFFFFu};
    static const uint32_t rules[] = {0, 1, 2, 3, 4, 5, 6, 7, 8, 9}, no_rules[] = {9, 10, 0xFFFFFFFFu};
    sentences(shellwaltz_meaning, answers, 9);
    one_sentence(shellwaltz_meaning, no_answers, 6);
    sentences(shellwaltz_rule_meaning, rules, 10);
    one_sentence(shellwaltz_rule_meaning, no_rules, 3);
}

/* Whether each answer was given that the library has. */
static int all_answers_seen(void)
{
    int all = answers_seen[SHELLWALTZ_NO_ROOM] > 0;
    for (uint32_t answer = SHELLWALTZ_OK; answer <= SHELLWALTZ_WORN_OUT; answer++)
        all = all && answers_seen[answer] > 0;
    return all;
}

int main(void)
{
    for (int call = 0; call < CALLS; call++)
        for (int which = 0; which < IMAGES; which++)
            for (int shape = 0; shape < SHAPES; shape++)
                for (int tabled = 0; tabled < TABLES; tabled++)
                    for (uint32_t n = 0; n < NUMBERS; n++)
                        for (int i = 0; i < (call < FIRST_BY_STEPS ? 1 : STEPS); i++)
                            compare(call, which, shape, tabled, n, steps[i]);
    if (!all_answers_seen()) {
        printf("short calls: an answer never came about\n");
        return 1;
    }
    if (!kinds_seen[SHELLWALTZ_DONE] || !kinds_seen[SHELLWALTZ_PROGRAM] || !kinds_seen[SHELLWALTZ_ERASE]) {
        printf("short calls: a kind of step never came about\n");
        return 1;
    }
    all_sentences();
    printf("short calls: %u calls give and leave what the proved functions do, with a table and without; a sentence for each answer and rule\n",
           compared);
    return 0;
}

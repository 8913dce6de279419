/* Times of the linked library: beside the second implementation and the floor, and with a lookup table beside without one.
 *
 * The floor is what no program that keeps to docs/FORMAT.md can go below: one pass over just the words that the rules must look at, each
 * loaded once. A read adds the sector's words to it, a write those that it programs (and, with a reclaim, those that it erases).
 *
 * Each number is the least time of many rounds, so that what else the machine does counts little. */
#define _POSIX_C_SOURCE 200809L
#include <stdbool.h>
#include <stdio.h>
#include <stdlib.h>
#include <string.h>
#include <time.h>

#include "images.h"

enum { ROUNDS = 41, COLUMNS = 3 /* the most that a line compares */ };

static volatile uint32_t sink; /* what a pass found, so that it is not left out */

/* Eight sums side by side, so that no load waits for the one before it. */
static uint32_t all_of(const uint32_t *contents)
{
    uint32_t part[32];
    memcpy(part, contents, sizeof part);
    for (uint32_t j = 32; j < SECTOR; j += 32)
        for (uint32_t k = 0; k < 32; k++)
            part[k] &= contents[j + k];
    uint32_t all = 0xFFFFFFFFu;
    for (uint32_t k = 0; k < 32; k++)
        all &= part[k];
    return all;
}

/* Loads each word of a block that the rules must look at, once. */
static uint32_t floor_block(struct geometry g, const uint32_t *block)
{
    uint32_t slots = g.sectors - 1, map_words = (slots + 31) / 32, all = 0xFFFFFFFFu, seen = 0;
    const uint32_t *entries = block + 3 + map_words;
    for (uint32_t w = 0; w < 3 + map_words; w++)
        seen ^= block[w];
    for (uint32_t i = 0; i < slots; i++) {
        seen ^= entries[i];
        if (entries[i] == 0xFFFFFFFFu)
            all &= all_of(block + (size_t)(i + 1) * SECTOR);
    }
    return seen ^ all;
}

static void floor_pass(struct geometry g, const uint32_t *image)
{
    uint32_t seen = 0;
    for (uint32_t b = 0; b < g.blocks; b++)
        seen ^= floor_block(g, image + (size_t)b * g.sectors * SECTOR);
    sink = seen;
}

static uint64_t now_ns(void)
{
    struct timespec t;
    clock_gettime(CLOCK_MONOTONIC, &t);
    return (uint64_t)t.tv_sec * 1000000000u + (uint64_t)t.tv_nsec;
}

/* What is timed: a call on the image of its state. From WRITE on they change the image. */
enum what { CHECK, READ, READ_WITH, BUILD, PASS, PASS_READ, WRITE, WRITE_WITH, RELEASE, RELEASE_WITH, PASS_WRITE, PASS_RECLAIM };

struct state {
    struct geometry g;
    const struct layer *layer;
    const uint32_t *master; /* the image before the call */
    uint32_t *image;        /* the one that the call works on */
    const uint16_t *lent;   /* the lookup table before the call, if it is lent one */
    uint16_t *table;        /* the one that the call works on */
    uint32_t number;
    uint32_t buffer[SECTOR];
    uint32_t words, erasures, bad_block, bad_rule;
};

static void put_back(struct state *s)
{
    memcpy(s->image, s->master, words_of(s->g) * sizeof *s->image);
    if (s->lent)
        memcpy(s->table, s->lent, s->g.logical * sizeof *s->table);
}

static void floor_of(struct state *s, enum what what)
{
    struct geometry g = s->g;
    size_t n = words_of(g);
    uint32_t *target = s->image + (size_t)SECTOR * (g.sectors - 1);
    floor_pass(g, s->image);
    if (what == PASS_READ)
        memcpy(s->buffer, target, sizeof s->buffer);
    if (what == PASS_RECLAIM)
        for (uint32_t w = 0; w + SECTOR < s->words; w++)
            s->image[w] &= s->image[n - 1 - w];
    if (what == PASS_WRITE || what == PASS_RECLAIM)
        for (uint32_t j = 0; j < SECTOR; j++)
            target[j] &= s->buffer[j];
    if (what == PASS_RECLAIM)
        memset(s->image + n - (size_t)SECTOR * g.sectors, 0xFF, (size_t)SECTOR * g.sectors * sizeof *s->image);
}

static uint32_t once(struct state *s, enum what what)
{
    struct geometry g = s->g;
    const struct layer *by = s->layer;
    size_t n = words_of(g);
    uint32_t *block = &s->bad_block, *rule = &s->bad_rule;
    switch (what) {
    case CHECK:
        return by->check(g.blocks, g.sectors, g.logical, s->image, n, block, rule);
    case READ:
        return by->read(g.blocks, g.sectors, g.logical, s->image, n, s->number, s->buffer, SECTOR, block, rule);
    case READ_WITH:
        return shellwaltz_read_with_table(g.blocks, g.sectors, g.logical, s->image, n, s->number, s->buffer, SECTOR, s->table, g.logical,
                                          block, rule);
    case BUILD:
        return shellwaltz_build_table(g.blocks, g.sectors, g.logical, s->image, n, s->table, g.logical, block, rule);
    case WRITE:
        return by->write(g.blocks, g.sectors, g.logical, s->image, n, s->number, s->buffer, SECTOR, &s->words, &s->erasures, block, rule);
    case WRITE_WITH:
        return shellwaltz_write_with_table(g.blocks, g.sectors, g.logical, s->image, n, s->number, s->buffer, SECTOR, s->table, g.logical,
                                           &s->words, &s->erasures, block, rule);
    case RELEASE:
        return by->release(g.blocks, g.sectors, g.logical, s->image, n, s->number, &s->words, &s->erasures, block, rule);
    case RELEASE_WITH:
        return shellwaltz_release_with_table(g.blocks, g.sectors, g.logical, s->image, n, s->number, s->table, g.logical, &s->words,
                                             &s->erasures, block, rule);
    default:
        floor_of(s, what);
        return 0;
    }
}

/* The least time of one call, in nanoseconds. A call that changes the image gets a fresh one each time, outside the clock. */
static double least_time(struct state *s, enum what what)
{
    bool changes = what >= WRITE;
    unsigned calls = changes ? 1 : 1 + 4000000u / (unsigned)words_of(s->g);
    uint64_t least = UINT64_MAX;
    put_back(s);
    for (int round = 0; round < (changes ? 10 * ROUNDS : ROUNDS); round++) {
        if (changes)
            put_back(s);
        uint64_t start = now_ns();
        for (unsigned c = 0; c < calls; c++)
            if (once(s, what) != 0)
                fail("a timed call was refused");
        uint64_t took = now_ns() - start;
        if (took < least)
            least = took;
    }
    return (double)least / calls;
}

static double lesser(double a, double b)
{
    return a < b ? a : b;
}

/* One column of a line: whose call, which one, and the lookup table that it is lent. */
struct column {
    const struct layer *layer;
    enum what what;
    const uint16_t *lent;
};

/* The least times of a line's columns, in nanoseconds: by turns, so that a slow while of the machine does not meet one of them alone. */
static void by_turns(struct state *s, const struct column *columns, size_t count, double *least)
{
    for (size_t c = 0; c < count; c++)
        least[c] = 1e18;
    for (int turn = 0; turn < 5; turn++)
        for (size_t c = 0; c < count; c++) {
            s->layer = columns[c].layer;
            s->lent = columns[c].lent;
            least[c] = lesser(least[c], least_time(s, columns[c].what));
        }
}

static void print_geometry(struct geometry g)
{
    printf("| (%u,%u,%u) ", (unsigned)g.blocks, (unsigned)g.sectors, (unsigned)g.logical);
}

static void line(const char *name, struct state *s, enum what what, enum what pass)
{
    const struct column columns[COLUMNS] = {{&library, what, NULL}, {&second, what, NULL}, {&library, pass, NULL}};
    double least[COLUMNS];
    by_turns(s, columns, COLUMNS, least);
    print_geometry(s->g);
    printf("| %s | %.2f | %.2f | %.2f | %.2f | %.2f |\n", name, least[0] / 1000, least[1] / 1000, least[2] / 1000, least[0] / least[1],
           least[0] / least[2]);
}

static void *room(size_t bytes)
{
    void *words = malloc(bytes);
    if (!words)
        fail("no memory");
    return words;
}

static void times_at(struct geometry g)
{
    size_t n = words_of(g);
    char name[64];
    uint32_t *master = room(n * sizeof *master), *image = room(n * sizeof *image);
    fill_half(g, master);
    struct state s = {.g = g, .layer = &library, .master = master, .image = image, .number = 3};
    for (uint32_t j = 0; j < SECTOR; j++)
        s.buffer[j] = j;
    line("check", &s, CHECK, PASS);
    line("read", &s, READ, PASS_READ);
    line("write", &s, WRITE, PASS_WRITE);
    if (s.erasures != 0)
        fail("a write at half full erased a block");
    fill_to_reclaim(g, master);
    put_back(&s);
    once(&s, WRITE);
    /* a copy takes 133 words, and so does the write itself, which replaces a sector (135 if it fills its block); the count takes one */
    snprintf(name, sizeof name, "write with reclaim, %u copied", (unsigned)((s.words - 1) / 133 - 1));
    line(name, &s, WRITE, PASS_RECLAIM);
    if (s.erasures != 1)
        fail("the last write did not reclaim");
    free(master);
    free(image);
}

/* A call without a lookup table, with a right one and with a wrong one. What the right one spares was the lookup. */
static void line_with(const char *full, const char *name, struct state *s, const struct column *columns)
{
    double least[COLUMNS];
    by_turns(s, columns, COLUMNS, least);
    if (s->erasures != 0)
        fail("a call that is timed with tables erased a block");
    print_geometry(s->g);
    printf("| %s | %s | %.2f | %.2f | %.2f | %.1f %% |\n", full, name, least[0] / 1000, least[1] / 1000, least[2] / 1000,
           100 * (least[0] - least[1]) / least[0]);
}

/* What every call does before its own work, and what the table costs that is lent. */
static void check_and_build(const char *full, struct state *s, const uint16_t *wrong)
{
    const struct column columns[] = {{&library, CHECK, NULL}, {&library, BUILD, wrong}};
    double least[2];
    by_turns(s, columns, 2, least);
    print_geometry(s->g);
    printf("| %s | check | %.2f | – | – | – |\n", full, least[0] / 1000);
    print_geometry(s->g);
    printf("| %s | build the table | – | %.2f | – | – |\n", full, least[1] / 1000);
}

/* The stored number whose slot comes last in the order of blocks and slots: a lookup without a table finds it latest. */
static uint32_t last_stored(struct geometry g, const uint16_t *table)
{
    uint32_t last = 0;
    for (uint32_t n = 1; n < g.logical; n++)
        if (table[n] != SHELLWALTZ_NOWHERE && table[n] > table[last])
            last = n;
    return last;
}

/* On an image as the other tables have it, and on one where a check looks at few contents and a lookup passes nearly every entry. */
static void times_with_table(struct geometry g, const char *full, void (*fill)(struct geometry, uint32_t *))
{
    static const struct {
        const char *name;
        enum what without, with;
    } calls[] = {{"read", READ, READ_WITH}, {"write", WRITE, WRITE_WITH}, {"release", RELEASE, RELEASE_WITH}};
    size_t n = words_of(g), bytes = g.logical * sizeof(uint16_t);
    uint32_t *master = room(n * sizeof *master);
    uint16_t *right = room(bytes), *wrong = room(bytes);
    struct state s = {.g = g, .layer = &library, .master = master, .image = room(n * sizeof *master), .table = room(bytes)};
    fill(g, master);
    put_back(&s);
    if (once(&s, BUILD) != 0)
        fail("build_table was refused");
    memcpy(right, s.table, bytes);
    memset(wrong, 0, bytes); /* the first slot for every number: there is such a slot, and it is looked at for nothing */
    s.number = last_stored(g, right);
    check_and_build(full, &s, wrong);
    for (size_t i = 0; i < sizeof calls / sizeof *calls; i++) {
        const struct column columns[COLUMNS] = {
            {&library, calls[i].without, NULL}, {&library, calls[i].with, right}, {&library, calls[i].with, wrong}};
        line_with(full, calls[i].name, &s, columns);
    }
    free(master);
    free(s.image);
    free(s.table);
    free(right);
    free(wrong);
}

/* The words of the floor's pass: the growth of check's time is told by them and by the image's length. */
static void growth_at(struct geometry g)
{
    size_t n = words_of(g);
    uint32_t *image = room(n * sizeof *image);
    fill_half(g, image);
    uint32_t slots = g.sectors - 1;
    struct shellwaltz_part part = part_of(g, image);
    struct shellwaltz_totals totals = shellwaltz_part_report(&part);
    if (totals.answer != 0)
        fail("report was refused");
    size_t looked_at = (size_t)g.blocks * (3 + (slots + 31) / 32 + slots) + (size_t)totals.free_slots * SECTOR;
    struct state s = {.g = g, .layer = &library, .master = image, .image = room(n * sizeof *image)};
    double us = least_time(&s, CHECK);
    print_geometry(g);
    printf("| %zu | %zu | %.3f | %.3f |\n", n, looked_at, us / (double)n, us / (double)looked_at);
    free(s.image);
    free(image);
}

int main(void)
{
    static const struct geometry three[] = {{8, 16, 90}, {32, 32, 900}, {64, 64, 3968}};
    static const struct geometry growing[] = {{2, 3, 1},     {3, 2, 1},     {4, 8, 16},    {8, 16, 90},
                                              {16, 16, 200}, {32, 32, 900}, {64, 32, 1800}, {64, 64, 3968}};
    printf("| Geometry | Call | Library, µs | Second, µs | Floor, µs | Library / second | Library / floor |\n|---|---|---|---|---|---|---|\n");
    for (size_t i = 0; i < sizeof three / sizeof *three; i++)
        times_at(three[i]);
    printf("\n| Geometry | Words of the image | Words looked at | Check, ns per word | Check, ns per word looked at |\n|---|---|---|---|---|\n");
    for (size_t i = 0; i < sizeof growing / sizeof *growing; i++)
        growth_at(growing[i]);
    printf("\n| Geometry | Image | Call | Without, µs | Right table, µs | Wrong table, µs | Lookup |\n|---|---|---|---|---|---|---|\n");
    for (size_t i = 0; i < sizeof three / sizeof *three; i++) {
        times_with_table(three[i], "half full", fill_half);
        times_with_table(three[i], "nearly full", fill_nearly);
    }
    return 0;
}

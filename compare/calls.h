/* The calls that are compared, whole ones with and without a table and by steps, and the sides that they are made on. */
#ifndef CALLS_H
#define CALLS_H

#include <stdlib.h>
#include <string.h>

#include "tables.h"

enum { GUARD = 64, MOST_BUFFER = 2 * SECTOR, GUARD_BYTE = 0x5A };
enum { SMALL_IMAGE = 8192 }; /* words of an image on which a call takes next to no time */

/* ---- Sides: each has words of its own, with guard words on both ends. */

/* A step as a call tells it: what it is, the word's place or the block, and the word that is asked for. */
struct step {
    uint32_t kind;
    size_t place;
    uint32_t word;
};

struct side {
    const char *name;
    uint32_t *image, *buffer; /* behind the guard */
    uint16_t *table;
    uint32_t answer, count[4], bad_block, bad_rule;
    struct step step;
};

static void fail(const char *why)
{
    printf("compare: %s\n", why);
    exit(1);
}

static void *make_words(size_t n, size_t size)
{
    unsigned char *words = malloc((n + 2 * GUARD) * size);
    if (!words)
        fail("no memory");
    memset(words, GUARD_BYTE, (n + 2 * GUARD) * size);
    return words + GUARD * size;
}

/* The guard on the end of n words, where more words could be. */
static void guard_end(void *words, size_t n, size_t size)
{
    memset((unsigned char *)words + n * size, GUARD_BYTE, GUARD * size);
}

static struct side make_side(const char *name, size_t image_words)
{
    return (struct side){.name = name,
                         .image = make_words(image_words, sizeof(uint32_t)),
                         .buffer = make_words(MOST_BUFFER, sizeof(uint32_t)),
                         .table = make_words(MOST_TABLE, sizeof(uint16_t))};
}

/* ---- Calls */

enum call {
    FORMAT,
    CHECK,
    REPORT,
    READ,
    WRITE,
    RELEASE,
    BUILD_TABLE,
    READ_WITH_TABLE,
    WRITE_WITH_TABLE,
    RELEASE_WITH_TABLE,
    WRITE_STEP,
    RELEASE_STEP,
    WRITE_FIRST,
    RELEASE_FIRST,
    REPAIR,
    REPAIR_STEP,
    REPAIR_FIRST,
    CALLS
};
static const char *const names[CALLS] = {"format",      "check",           "report",           "read",              "write", "release",
                                         "build_table", "read_with_table", "write_with_table", "release_with_table",
                                         "write_step",  "release_step",    "write_first",      "release_first",
                                         "repair",      "repair_step",     "repair_first"};

/* The calls that do the same without a table. Of a build that is a check: it looks at the whole image, and leaves it. */
static const enum call without_table[CALLS] = {
    [BUILD_TABLE] = CHECK, [READ_WITH_TABLE] = READ, [WRITE_WITH_TABLE] = WRITE, [RELEASE_WITH_TABLE] = RELEASE};

/* The calls whose steps are told, or done up to some number. */
static const enum call whole_call[CALLS] = {[WRITE_STEP] = WRITE,       [RELEASE_STEP] = RELEASE,   [REPAIR_STEP] = REPAIR,
                                            [WRITE_FIRST] = WRITE,      [RELEASE_FIRST] = RELEASE, [REPAIR_FIRST] = REPAIR};

/* The calls that tell their steps, and that do the first of them. */
static const enum call step_call[CALLS] = {[WRITE] = WRITE_STEP, [RELEASE] = RELEASE_STEP, [REPAIR] = REPAIR_STEP};
static const enum call first_call[CALLS] = {[WRITE] = WRITE_FIRST, [RELEASE] = RELEASE_FIRST, [REPAIR] = REPAIR_FIRST};

static bool takes_table(enum call c)
{
    return c >= BUILD_TABLE && c <= RELEASE_WITH_TABLE;
}

static bool tells_a_step(enum call c)
{
    return c == WRITE_STEP || c == RELEASE_STEP || c == REPAIR_STEP;
}

static bool does_first_steps(enum call c)
{
    return c == WRITE_FIRST || c == RELEASE_FIRST || c == REPAIR_FIRST;
}

static bool goes_by_steps(enum call c)
{
    return tells_a_step(c) || does_first_steps(c);
}

/* A repair, whole or by steps. */
static bool mends(enum call c)
{
    return c == REPAIR || c == REPAIR_STEP || c == REPAIR_FIRST;
}

static bool writes(enum call c)
{
    return c == WRITE || c == WRITE_WITH_TABLE;
}

struct asked {
    enum call call;
    struct geometry g;
    size_t image_words, buffer_words, table_words;
    uint32_t number;
    enum table_kind kind;
    uint32_t step; /* the one that is to be told, or how many are to be done at most */
};

static void call(const struct layer *layer, struct side *s, struct asked a)
{
    uint32_t b = a.g.blocks, p = a.g.sectors, l = a.g.logical, i = a.number, *n = s->count, *bad = &s->bad_block, *rule = &s->bad_rule;
    uint32_t *image = s->image, *buffer = s->buffer, answer;
    uint16_t *table = s->table;
    size_t words = a.image_words, bw = a.buffer_words, tw = a.table_words;
    struct step *t = &s->step;
    switch (a.call) {
    case FORMAT: answer = layer->format(b, p, l, image, words, n, n + 1); break;
    case CHECK: answer = layer->check(b, p, l, image, words, bad, rule); break;
    case REPORT: answer = layer->report(b, p, l, image, words, n, n + 1, n + 2, n + 3, bad, rule); break;
    case READ: answer = layer->read(b, p, l, image, words, i, buffer, bw, bad, rule); break;
    case WRITE: answer = layer->write(b, p, l, image, words, i, buffer, bw, n, n + 1, bad, rule); break;
    case RELEASE: answer = layer->release(b, p, l, image, words, i, n, n + 1, bad, rule); break;
    case BUILD_TABLE: answer = layer->build_table(b, p, l, image, words, table, tw, bad, rule); break;
    case READ_WITH_TABLE: answer = layer->read_with_table(b, p, l, image, words, i, buffer, bw, table, tw, bad, rule); break;
    case WRITE_WITH_TABLE: answer = layer->write_with_table(b, p, l, image, words, i, buffer, bw, table, tw, n, n + 1, bad, rule); break;
    case RELEASE_WITH_TABLE: answer = layer->release_with_table(b, p, l, image, words, i, table, tw, n, n + 1, bad, rule); break;
    case WRITE_STEP:
        answer = layer->write_step(b, p, l, image, words, i, buffer, bw, a.step, &t->kind, &t->place, &t->word, bad, rule);
        break;
    case RELEASE_STEP: answer = layer->release_step(b, p, l, image, words, i, a.step, &t->kind, &t->place, &t->word, bad, rule); break;
    case WRITE_FIRST: answer = layer->write_first(b, p, l, image, words, i, buffer, bw, a.step, n, n + 1, bad, rule); break;
    case RELEASE_FIRST: answer = layer->release_first(b, p, l, image, words, i, a.step, n, n + 1, bad, rule); break;
    case REPAIR: answer = layer->repair(b, p, l, image, words, n, n + 1, bad, rule); break;
    case REPAIR_STEP: answer = layer->repair_step(b, p, l, image, words, a.step, &t->kind, &t->place, &t->word, bad, rule); break;
    default: answer = layer->repair_first(b, p, l, image, words, a.step, n, n + 1, bad, rule); break;
    }
    s->answer = answer;
}

/* With nothing out of its range. */
static struct asked sound_call(enum call c, struct geometry g)
{
    return (struct asked){.call = c, .g = g, .image_words = words_of(g), .buffer_words = SECTOR, .table_words = g.logical};
}

/* Calls with a table are rarer where a call takes long: each is held against one or two more. */
static enum call some_name(struct geometry g)
{
    static const enum call often[2][13] = {
        {WRITE, WRITE, WRITE, WRITE, WRITE, WRITE, READ, READ, READ, RELEASE, RELEASE, CHECK, REPORT},
        {WRITE_WITH_TABLE, WRITE_WITH_TABLE, WRITE_WITH_TABLE, WRITE_WITH_TABLE, WRITE_WITH_TABLE, WRITE_WITH_TABLE, READ_WITH_TABLE,
         READ_WITH_TABLE, READ_WITH_TABLE, RELEASE_WITH_TABLE, RELEASE_WITH_TABLE, BUILD_TABLE, BUILD_TABLE}};
    static const enum call by_steps[] = {WRITE_STEP, WRITE_STEP, RELEASE_STEP, WRITE_FIRST, WRITE_FIRST, RELEASE_FIRST};
    static const enum call repairs[] = {REPAIR, REPAIR_STEP, REPAIR_FIRST};
    if (one_in(8))
        return by_steps[below(6)];
    if (one_in(12))
        return repairs[below(3)];
    bool with_table = one_in(words_of(g) <= SMALL_IMAGE ? 2 : 6);
    return one_in(300) ? FORMAT : often[with_table][below(13)];
}

/* The table that the call is lent: mostly of the length that it asks for, if there can be one. */
static void choose_table(struct asked *a, struct geometry g)
{
    a->kind = some_kind();
    a->table_words = one_in(20) ? some_length(g.logical) : a->g.logical < MOST_TABLE ? a->g.logical : g.logical;
}

/* A call on an image of geometry g: mostly as it should be, now and then with one thing out of its range. */
static struct asked some_call(struct geometry g)
{
    static const uint32_t counts[] = {0, 1, 65, 128, 65535, 65536, 65538, 0x80000008u, 0xFFFFFFFFu};
    struct asked a = sound_call(some_name(g), g);
    a.number = below(one_in(3) && g.logical > 8 ? 8 : g.logical);
    switch (below(60)) {
    case 0: a.g.blocks = counts[below(9)]; break;
    case 1: a.g.sectors = counts[below(9)]; break;
    case 2: a.g.logical = counts[below(9)]; break;
    case 3: a.g.logical = SHELLWALTZ_MOST_LOGICAL(g.blocks, g.sectors) + below(3); break;
    case 4: a.image_words = below((uint32_t)a.image_words + 1); break;
    case 5: a.image_words += 1 + below(GUARD); break;
    case 6: a.buffer_words = below(MOST_BUFFER + 1); break;
    case 7: a.buffer_words = SECTOR - 1 + 2 * below(2); break;
    case 8: a.number = g.logical + below(2); break;
    case 9: a.number = one_in(2) ? ONES : (uint32_t)chance(); break;
    default: break;
    }
    if (takes_table(a.call))
        choose_table(&a, g);
    return a;
}

#endif

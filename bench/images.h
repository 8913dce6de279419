/* The images that the library is measured on. */
#ifndef IMAGES_H
#define IMAGES_H

#include <stdio.h>
#include <stdlib.h>
#include <string.h>

#include "../compare/layers.h"

enum { SECTOR = 128 };

static void fail(const char *what)
{
    fprintf(stderr, "bench: %s\n", what);
    exit(1);
}

static inline struct shellwaltz_part part_of(struct geometry g, uint32_t *image)
{
    return (struct shellwaltz_part)SHELLWALTZ_PART(g.blocks, g.sectors, g.logical, image);
}

/* An image in which sectors were written by turns, under the first of the numbers. */
static void fill_by_turns(struct geometry g, uint32_t numbers, uint32_t writes, uint32_t *image)
{
    uint32_t buffer[SECTOR];
    struct shellwaltz_part part = part_of(g, image);
    if (shellwaltz_part_format(&part).answer != 0)
        fail("format was refused");
    for (uint32_t i = 0; i < writes; i++) {
        for (uint32_t j = 0; j < SECTOR; j++)
            buffer[j] = i * 2654435761u + j;
        if (shellwaltz_part_write(&part, i % numbers, buffer).answer != 0)
            fail("a write was refused");
    }
}

/* An image that is half full: half of the numbers are written by turns until half of the slots are used. */
static void fill_half(struct geometry g, uint32_t *image)
{
    fill_by_turns(g, (g.logical + 1) / 2, g.blocks * (g.sectors - 1) / 2, image);
}

/* An image that is nearly full: all numbers are written by turns until two slots are free beside those of the one blank block. */
static inline void fill_nearly(struct geometry g, uint32_t *image)
{
    fill_by_turns(g, g.logical, (g.blocks - 1) * (g.sectors - 1) - 2, image);
}

/* Writes on, half of the numbers in no order, until the next write reclaims: its victim has live slots to copy. */
static void fill_to_reclaim(struct geometry g, uint32_t *image)
{
    uint32_t chance = 1, buffer[SECTOR] = {0};
    size_t n = words_of(g);
    uint32_t *before = malloc(n * sizeof *before);
    if (!before)
        fail("no memory");
    struct shellwaltz_part part = part_of(g, image);
    struct shellwaltz_result wrote = {0, 0, 0, 0, 0};
    while (wrote.erasures == 0) {
        memcpy(before, image, n * sizeof *before);
        chance = chance * 1664525u + 1013904223u;
        wrote = shellwaltz_part_write(&part, (chance >> 8) % ((g.logical + 1) / 2), buffer);
        if (wrote.answer != 0)
            fail("a write was refused");
    }
    memcpy(image, before, n * sizeof *before);
    free(before);
}

#endif

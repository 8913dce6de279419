/* A case of docs/FORMAT.md (Figures) at (8,16,90): sector 0 is written 106 times on a fresh image. 105 writes fill blocks 0 to 6 and erase nothing. The
 * 106th has to reclaim: it copies nothing, erases block 0 and lands in slot 0 of block 7, with 134 words and 1 erasure.
 *
 * The library and the second implementation do each write, and both images are compared word by word after it. */
#include <stdbool.h>
#include <stdio.h>
#include <stdlib.h>
#include <string.h>

#include "../compare/layers.h"

enum { BLOCKS = 8, SECTORS = 16, LOGICAL = 90, SLOTS = SECTORS - 1, SECTOR = 128, BLOCK = SECTORS * SECTOR, WORDS = BLOCKS * BLOCK };
enum { MAP = 3, ENTRIES = 4, BEFORE = 105 };
static const uint32_t ONES = 0xFFFFFFFFu, LIVE = 0xC0000000u, DEAD = 0x00000000u;

static unsigned write_number;

static void expect(bool holds, const char *what)
{
    if (holds)
        return;
    printf("one sector: write %u: %s\n", write_number, what);
    exit(1);
}

static void same(const uint32_t *ours, const uint32_t *theirs)
{
    for (unsigned w = 0; w < WORDS; w++)
        if (ours[w] != theirs[w]) {
            printf("one sector: write %u: word %u: library %08x, second %08x\n", write_number, w, (unsigned)ours[w], (unsigned)theirs[w]);
            exit(1);
        }
}

/* One write by one of the two: a first placing takes 131 words, a replacement 2 more, and 2 more if the block fills. */
static void write_once(const struct layer *layer, uint32_t *image, const uint32_t *buffer)
{
    uint32_t words = 77, erasures = 77, bad_block, bad_rule, placing = 131 + (write_number > 1 ? 2 : 0) + (write_number % SLOTS == 0 ? 2 : 0);
    bool reclaims = write_number > BEFORE;
    expect(layer->write(BLOCKS, SECTORS, LOGICAL, image, WORDS, 0, buffer, SECTOR, &words, &erasures, &bad_block, &bad_rule) == 0, "refused");
    expect(words == (reclaims ? 134 : placing), "another number of words");
    expect(erasures == (reclaims ? 1 : 0), "another number of erasures");
}

/* The whole image after the last write, told from the one before it: block 0 is erased and counted, slot 0 of block 7 has the sector,
 * and slot 14 of block 6, where it was, is dead. Nothing else changed. */
static void after_the_last(const uint32_t *image, uint32_t *before, const uint32_t *buffer)
{
    uint32_t *block7 = before + 7 * BLOCK;
    for (unsigned w = 0; w < BLOCK; w++)
        before[w] = w == 0 ? 1 : ONES;
    before[6 * BLOCK + ENTRIES + SLOTS - 1] = DEAD;
    block7[MAP] = ONES - 1;
    block7[ENTRIES] = LIVE;
    memcpy(block7 + SECTOR, buffer, SECTOR * sizeof *buffer);
    for (unsigned w = 0; w < WORDS; w++)
        if (image[w] != before[w]) {
            printf("one sector: word %u after the last write is %08x, and not %08x\n", w, (unsigned)image[w], (unsigned)before[w]);
            exit(1);
        }
}

int main(void)
{
    static uint32_t ours[WORDS], theirs[WORDS], before[WORDS], buffer[SECTOR];
    uint32_t words, erasures;
    expect(library.format(BLOCKS, SECTORS, LOGICAL, ours, WORDS, &words, &erasures) == 0, "format refused");
    expect(second.format(BLOCKS, SECTORS, LOGICAL, theirs, WORDS, &words, &erasures) == 0, "format refused");
    same(ours, theirs);
    for (write_number = 1; write_number <= BEFORE + 1; write_number++) {
        for (uint32_t j = 0; j < SECTOR; j++)
            buffer[j] = write_number * 2654435761u + j;
        memcpy(before, ours, sizeof before);
        write_once(&library, ours, buffer);
        write_once(&second, theirs, buffer);
        same(ours, theirs);
    }
    after_the_last(ours, before, buffer);
    printf("one sector: 105 writes without an erasure; the 106th erased block 0 and placed in block 7, slot 0, with 134 words\n");
    return 0;
}

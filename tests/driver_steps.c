/* What examples/array.c must print, from another source: the same calls and the same cuts by the second implementation, on an image and nothing
 * beside it. The counts are those that its calls for the first steps of a write, a release and a repair report.
 *
 *     driver_steps CALLS [each]
 *
 * With `each` a line for every step comes before them, those of the format too: what the part is to be told, in its order. */
#include <stdbool.h>
#include <stdio.h>
#include <stdlib.h>

#include "../second/second.h"

enum { BLOCKS = 8, SECTORS = 8, LOGICAL = 30, SECTOR = 128, BLOCK = SECTORS * SECTOR, WORDS = BLOCKS * BLOCK };
enum { WRITE, RELEASE, REPAIR, CALLS };

static uint32_t image[WORDS], buffer[SECTOR], number, bad_block, bad_rule;
static uint32_t refused, steps, most, erased, cuts[CALLS], repairs;
static bool each;

static uint32_t drawn(uint32_t bound)
{
    static uint32_t x = 2463534242u;
    x ^= x << 13;
    x ^= x >> 17;
    x ^= x << 5;
    return x % bound;
}

static uint32_t drawn_supply(void)
{
    uint32_t bits = drawn(11);
    return drawn(1u << bits);
}

static void tell(uint32_t kind, uint32_t place, uint32_t word)
{
    if (kind == SECOND_PROGRAM)
        printf("program %u %08x\n", (unsigned)place, (unsigned)word);
    if (kind == SECOND_ERASE)
        printf("erase %u\n", (unsigned)place);
}

static void tell_format(void)
{
    for (uint32_t b = 0; b < BLOCKS; b++)
        tell(SECOND_ERASE, b, 0);
    for (uint32_t b = 0; b < BLOCKS; b++)
        tell(SECOND_PROGRAM, b * BLOCK, 0);
}

static uint32_t step_of(int call, uint32_t i, uint32_t *kind, uint32_t *place, uint32_t *word)
{
    switch (call) {
    case WRITE:
        return second_write_step(BLOCKS, SECTORS, LOGICAL, image, WORDS, number, buffer, SECTOR, i, kind, place, word, &bad_block, &bad_rule);
    case RELEASE: return second_release_step(BLOCKS, SECTORS, LOGICAL, image, WORDS, number, i, kind, place, word, &bad_block, &bad_rule);
    default: return second_repair_step(BLOCKS, SECTORS, LOGICAL, image, WORDS, i, kind, place, word, &bad_block, &bad_rule);
    }
}

static uint32_t first_of(int call, uint32_t j, uint32_t *words, uint32_t *erasures)
{
    switch (call) {
    case WRITE:
        return second_write_first(BLOCKS, SECTORS, LOGICAL, image, WORDS, number, buffer, SECTOR, j, words, erasures, &bad_block, &bad_rule);
    case RELEASE: return second_release_first(BLOCKS, SECTORS, LOGICAL, image, WORDS, number, j, words, erasures, &bad_block, &bad_rule);
    default: return second_repair_first(BLOCKS, SECTORS, LOGICAL, image, WORDS, j, words, erasures, &bad_block, &bad_rule);
    }
}

/* The call with a supply for so many steps. It is cut if there is one step more, which is asked for before. */
static bool is_cut(int call, uint32_t supply)
{
    uint32_t kind = SECOND_DONE, place, word, words, erasures;
    step_of(call, supply, &kind, &place, &word);
    bool cut = kind != SECOND_DONE;
    for (uint32_t i = 0; each && i < supply; i++) {
        step_of(call, i, &kind, &place, &word);
        if (kind == SECOND_DONE)
            break;
        tell(kind, place, word);
    }
    refused += first_of(call, supply, &words, &erasures) != SECOND_OK;
    steps += words + erasures;
    most = words + erasures > most ? words + erasures : most;
    erased += erasures;
    cuts[call] += cut;
    repairs += call == REPAIR;
    return cut;
}

/* A start: where the image is not sound a repair, which may be cut. */
static bool is_cut_at_start(uint32_t supply)
{
    return second_check(BLOCKS, SECTORS, LOGICAL, image, WORDS, &bad_block, &bad_rule) != SECOND_OK && is_cut(REPAIR, supply);
}

static void make_call(uint32_t call)
{
    number = drawn(LOGICAL + 1);
    int what = drawn(4) != 0 ? WRITE : RELEASE;
    uint32_t supply = drawn(4) != 0 ? UINT32_MAX : drawn_supply(), in_a_row = 1;
    for (uint32_t i = 0; i < SECTOR; i++)
        buffer[i] = call * 2654435761u + i * 16777619u;
    if (!is_cut(what, supply))
        return;
    while (is_cut_at_start(in_a_row < 3 && drawn(2) != 0 ? drawn_supply() : UINT32_MAX))
        in_a_row++;
}

int main(int argc, char **argv)
{
    uint32_t calls = argc > 1 ? (uint32_t)strtoul(argv[1], NULL, 10) : 0, words, erasures, mapped, free_slots, dead, erase_sum;
    each = argc > 2;
    second_format(BLOCKS, SECTORS, LOGICAL, image, WORDS, &words, &erasures);
    if (each)
        tell_format();
    for (uint32_t call = 1; call <= calls; call++)
        make_call(call);
    if (second_report(BLOCKS, SECTORS, LOGICAL, image, WORDS, &mapped, &free_slots, &dead, &erase_sum, &bad_block, &bad_rule) != SECOND_OK) {
        printf("driver_steps: the image is not sound\n");
        return 1;
    }
    printf("%u calls, %u of them refused\n", (unsigned)calls, (unsigned)refused);
    printf("%u steps, at most %u in one call; %u blocks erased\n", (unsigned)steps, (unsigned)most, (unsigned)erased);
    printf("%u cuts: of %u writes, %u releases and %u repairs; %u repairs had something to do\n", (unsigned)(cuts[WRITE] + cuts[RELEASE] + cuts[REPAIR]),
           (unsigned)cuts[WRITE], (unsigned)cuts[RELEASE], (unsigned)cuts[REPAIR], (unsigned)repairs);
    printf("part and mirror are equal after each call, and all %u stored sectors read as they were written\n", (unsigned)mapped);
    return 0;
}

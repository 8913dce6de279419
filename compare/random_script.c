/* Writes a random script to standard output: random_script SEED. Records of all four operations, mostly with few numbers so that they
 * meet again; some with a number on either side of the present L or far from it, some of another operation; formats with an L on either side of its
 * limits; and now and then a short last record. */
#include <stdint.h>
#include <stdio.h>
#include <stdlib.h>

enum { FORMAT = 4, MOST_LOGICAL = 104 };

static uint64_t state;
static uint32_t logical = 70;

/* splitmix64 */
static uint32_t below(uint32_t n)
{
    uint64_t z = state += 0x9E3779B97F4A7C15u;
    z = (z ^ (z >> 30)) * 0xBF58476D1CE4E5B9u;
    z = (z ^ (z >> 27)) * 0x94D049BB133111EBu;
    return (uint32_t)((z ^ (z >> 31)) % n);
}

/* A format now and then: most runs are long enough to erase. */
static uint32_t operation(void)
{
    static const uint32_t others[] = {0, 5, 256, 257, 260, 0x10004u, 0x1000001u, 0x4000000u, 0x80000004u, 0xFFFFFFFFu};
    if (below(150) == 0)
        return FORMAT;
    return below(20) == 0 ? others[below(10)] : below(3) > 0 ? 1 : 2 + below(2);
}

static uint32_t number(uint32_t few)
{
    static const uint32_t anywhere[] = {69, 70, 89, 90, 0x10005u, 0x20000000u, 0xC0000005u, 0xFFFFFFFFu};
    switch (below(30)) {
    case 0:
        return anywhere[below(8)];
    case 1:
        return logical - 1;
    case 2:
        return logical;
    default:
        return below(few < logical ? few : logical);
    }
}

static uint32_t asked_logical(void)
{
    static const uint32_t edges[] = {0, 1, MOST_LOGICAL, MOST_LOGICAL + 1, 0xFFFFFFFFu, 0x10000u + 70, 0x80000000u + 70};
    uint32_t asked = below(2) == 0 ? edges[below(7)] : below(4) == 0 ? logical : 1 + below(MOST_LOGICAL);
    if (1 <= asked && asked <= MOST_LOGICAL)
        logical = asked;
    return asked;
}

static uint32_t fill(void)
{
    return below(8) == 0 ? 0xFFFFFFFFu : below(below(2) == 0 ? MOST_LOGICAL : 1000000);
}

/* The first bytes of a record, or all twelve. */
static void put_record(uint32_t few, uint32_t bytes)
{
    uint32_t record[3];
    record[0] = operation();
    record[1] = record[0] == FORMAT ? asked_logical() : number(few);
    record[2] = fill();
    for (uint32_t i = 0; i < bytes; i++)
        putchar((int)(record[i / 4] >> 8 * (i % 4) & 0xFF));
}

int main(int argc, char **argv)
{
    state = argc == 2 ? strtoull(argv[1], NULL, 10) : 0;
    uint32_t records = below(4) == 0 ? below(4) : below(1200), few = 1 + below(MOST_LOGICAL);
    for (uint32_t i = 0; i < records; i++)
        put_record(few, 12);
    put_record(few, below(2) * below(12));
    return fflush(stdout) != 0;
}

/* The stack that each call uses at the largest geometry, accepted and refused with 4, as a table. Fails where a call uses 4 KiB or more.
 *
 * A call runs on a stack of its own that was painted before, and the deepest word that lost its paint tells. The image is one on which
 * a write has to reclaim and to copy. The lookup table misleads for every number, so that a call that takes it looks there and then has
 * to search as well. For a repair that write is cut while it copies, so that no block is blank. The damaged image has one superseded slot, in the
 * last block that is in use: rule 8 is the last one of a block; and behind that a count that no repair mends. A step call is made for many steps,
 * and the deepest one tells. */
#include <ucontext.h>

#include "images.h"

enum { LIMIT = 4096, STACK_WORDS = 16384, NUMBER = 3, COPY_STEPS = 133, MENDED = 3 };
static const uint32_t PAINT = 0xA5C3A5C3u;
static const struct geometry g = {64, 64, 3968};

static uint32_t stack[STACK_WORDS];
static uint32_t *image, buffer[SECTOR], count[4], bad[2], answer, kind, word;
static size_t place;
static uint16_t table[SHELLWALTZ_MOST_LOGICAL(64, 64)];
static ucontext_t here, there;

static void call_nothing(void)
{
    answer = 0;
}

static void call_format(void)
{
    answer = shellwaltz_format(g.blocks, g.sectors, g.logical, image, words_of(g), count, count + 1);
}

static void call_check(void)
{
    answer = shellwaltz_check(g.blocks, g.sectors, g.logical, image, words_of(g), bad, bad + 1);
}

static void call_report(void)
{
    answer = shellwaltz_report(g.blocks, g.sectors, g.logical, image, words_of(g), count, count + 1, count + 2, count + 3,
                               bad, bad + 1);
}

static void call_read(void)
{
    answer = shellwaltz_read(g.blocks, g.sectors, g.logical, image, words_of(g), NUMBER, buffer, SECTOR, bad, bad + 1);
}

static void call_write(void)
{
    answer = shellwaltz_write(g.blocks, g.sectors, g.logical, image, words_of(g), NUMBER, buffer, SECTOR, count, count + 1,
                              bad, bad + 1);
    if (answer == 0 && count[1] != 1)
        fail("the write did not reclaim");
}

static void call_release(void)
{
    answer = shellwaltz_release(g.blocks, g.sectors, g.logical, image, words_of(g), NUMBER, count, count + 1, bad, bad + 1);
}

static uint32_t kind_in_write(uint32_t step)
{
    answer = shellwaltz_write_step(g.blocks, g.sectors, g.logical, image, words_of(g), NUMBER, buffer, SECTOR, step, &kind, &place, &word,
                                   bad, bad + 1);
    return kind;
}

/* Each step of the first copy, the first one of every other, and all from the erasure on to one past the end. */
static void call_write_step(void)
{
    uint32_t step = 0;
    while (kind_in_write(step) == SHELLWALTZ_PROGRAM)
        step += step < COPY_STEPS ? 1 : COPY_STEPS;
    if (answer == 0 && (step < COPY_STEPS || kind != SHELLWALTZ_ERASE))
        fail("the write did not copy and reclaim");
    do
        step++;
    while (kind_in_write(step) != SHELLWALTZ_DONE);
}

/* Its one step, and that it has no other. */
static void call_release_step(void)
{
    for (uint32_t step = 0; step < 2; step++)
        answer = shellwaltz_release_step(g.blocks, g.sectors, g.logical, image, words_of(g), NUMBER, step, &kind, &place, &word, bad, bad + 1);
}

static void call_write_first(void)
{
    answer = shellwaltz_write_first(g.blocks, g.sectors, g.logical, image, words_of(g), NUMBER, buffer, SECTOR, UINT32_MAX, count, count + 1,
                                    bad, bad + 1);
    if (answer == 0 && count[1] != 1)
        fail("the write did not reclaim");
}

static void call_release_first(void)
{
    answer = shellwaltz_release_first(g.blocks, g.sectors, g.logical, image, words_of(g), NUMBER, UINT32_MAX, count, count + 1, bad, bad + 1);
}

static void call_repair(void)
{
    answer = shellwaltz_repair(g.blocks, g.sectors, g.logical, image, words_of(g), count, count + 1, bad, bad + 1);
    if (answer == 0 && count[1] != 1)
        fail("the repair did not empty a block");
}

static uint32_t kind_in_repair(uint32_t step)
{
    answer = shellwaltz_repair_step(g.blocks, g.sectors, g.logical, image, words_of(g), step, &kind, &place, &word, bad, bad + 1);
    return kind;
}

/* Each step before the first copy and of it, the first one of every other, and all from the erasure on to one past the end. */
static void call_repair_step(void)
{
    uint32_t step = 0;
    while (kind_in_repair(step) == SHELLWALTZ_PROGRAM)
        step += step < MENDED + COPY_STEPS ? 1 : COPY_STEPS;
    if (answer == 0 && (step < MENDED + COPY_STEPS || kind != SHELLWALTZ_ERASE))
        fail("the repair did not copy and empty a block");
    do
        step++;
    while (kind_in_repair(step) != SHELLWALTZ_DONE);
}

static void call_repair_first(void)
{
    answer = shellwaltz_repair_first(g.blocks, g.sectors, g.logical, image, words_of(g), UINT32_MAX, count, count + 1, bad, bad + 1);
    if (answer == 0 && count[1] != 1)
        fail("the repair did not empty a block");
}

static void call_build_table(void)
{
    answer = shellwaltz_build_table(g.blocks, g.sectors, g.logical, image, words_of(g), table, g.logical, bad, bad + 1);
}

static void call_read_with_table(void)
{
    answer = shellwaltz_read_with_table(g.blocks, g.sectors, g.logical, image, words_of(g), NUMBER, buffer, SECTOR, table, g.logical,
                                        bad, bad + 1);
}

static void call_write_with_table(void)
{
    answer = shellwaltz_write_with_table(g.blocks, g.sectors, g.logical, image, words_of(g), NUMBER, buffer, SECTOR, table, g.logical,
                                         count, count + 1, bad, bad + 1);
    if (answer == 0 && count[1] != 1)
        fail("the write did not reclaim");
}

static void call_release_with_table(void)
{
    answer = shellwaltz_release_with_table(g.blocks, g.sectors, g.logical, image, words_of(g), NUMBER, table, g.logical,
                                           count, count + 1, bad, bad + 1);
}

/* A table in which each number has the place of the next one. */
static void make_table(void)
{
    call_build_table();
    uint16_t first = table[0];
    memmove(table, table + 1, (g.logical - 1) * sizeof *table);
    table[g.logical - 1] = first;
}

/* A write that reclaims is cut before the last step of its third copy, and a full block has not got its bounds: a repair has three words to
 * program before it copies. */
static void interrupt_write(void)
{
    if (shellwaltz_write_first(g.blocks, g.sectors, g.logical, image, words_of(g), NUMBER, buffer, SECTOR, 3 * COPY_STEPS - 1, count, count + 1,
                               bad, bad + 1) != 0)
        fail("the write was refused");
    image[1] = image[2] = UINT32_MAX;
}

/* Gives the last live slot of another number an entry in passing for NUMBER, which is complete elsewhere; and the last block, which is blank, a
 * count above the ceiling. */
static void damage(void)
{
    size_t entries = 3 + (g.sectors - 1 + 31) / 32;
    image[(size_t)(g.blocks - 1) * g.sectors * SECTOR] = SHELLWALTZ_CEILING + 1;
    for (uint32_t b = g.blocks; b-- > 0;)
        for (uint32_t i = g.sectors - 1; i-- > 0;) {
            uint32_t *entry = image + (size_t)b * g.sectors * SECTOR + entries + i;
            if (*entry >> 29 == 6 && *entry != 0xC0000000u + NUMBER) {
                *entry = 0x80000000u + NUMBER;
                return;
            }
        }
    fail("no live slot to damage");
}

static size_t stack_bytes(void (*call)(void), uint32_t wanted)
{
    for (size_t i = 0; i < STACK_WORDS; i++)
        stack[i] = PAINT;
    if (getcontext(&there) != 0)
        fail("no context");
    there.uc_stack.ss_sp = stack;
    there.uc_stack.ss_size = sizeof stack;
    there.uc_link = &here;
    makecontext(&there, call, 0);
    if (swapcontext(&here, &there) != 0)
        fail("no context");
    if (answer != wanted || (wanted == 4 && bad[1] != 8))
        fail("a call whose stack was measured had another answer");
    size_t untouched = 0;
    while (untouched < STACK_WORDS && stack[untouched] == PAINT)
        untouched++;
    return (STACK_WORDS - untouched) * sizeof *stack;
}

/* Less what the measuring itself takes. */
static size_t within_limit(void (*call)(void), uint32_t wanted)
{
    size_t bytes = stack_bytes(call, wanted) - stack_bytes(call_nothing, 0);
    if (bytes >= LIMIT)
        fail("a call uses 4 KiB of stack or more");
    return bytes;
}

int main(void)
{
    static const struct {
        const char *name;
        void (*call)(void), (*before)(void);
    } calls[] = {{"format", call_format, call_nothing}, {"check", call_check, call_nothing}, {"report", call_report, call_nothing},
                 {"read", call_read, call_nothing}, {"write with reclaim", call_write, call_nothing}, {"release", call_release, call_nothing},
                 {"repair that empties a block", call_repair, interrupt_write},
                 {"write_step with reclaim", call_write_step, call_nothing}, {"release_step", call_release_step, call_nothing},
                 {"repair_step that empties a block", call_repair_step, interrupt_write},
                 {"write_first with reclaim", call_write_first, call_nothing}, {"release_first", call_release_first, call_nothing},
                 {"repair_first that empties a block", call_repair_first, interrupt_write},
                 {"build_table", call_build_table, call_nothing}, {"read_with_table", call_read_with_table, call_nothing},
                 {"write_with_table with reclaim", call_write_with_table, call_nothing},
                 {"release_with_table", call_release_with_table, call_nothing}};
    uint32_t *master = malloc(words_of(g) * sizeof *master);
    image = malloc(words_of(g) * sizeof *image);
    if (!master || !image)
        fail("no memory");
    fill_half(g, master);
    fill_to_reclaim(g, master);
    printf("| Call | Stack, bytes | Refused with 4 |\n|---|---|---|\n");
    for (size_t i = 0; i < sizeof calls / sizeof *calls; i++) {
        memcpy(image, master, words_of(g) * sizeof *image);
        make_table();
        calls[i].before();
        printf("| %s | %zu |", calls[i].name, within_limit(calls[i].call, 0));
        if (calls[i].call == call_format) {
            printf(" never |\n");
            continue;
        }
        memcpy(image, master, words_of(g) * sizeof *image);
        damage();
        printf(" %zu |\n", within_limit(calls[i].call, 4));
    }
    free(image);
    free(master);
    return 0;
}

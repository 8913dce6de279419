/* A part for the driver of driver.h: an array that behaves as a NOR part does, with a supply that is cut at random. The program makes 4,000 calls,
 * or as many as its argument says, cuts the supply again and again, and ends with status 1 if part and mirror ever differ or a sector does not
 * read as it was written. Built and tried by tests/c-programs, and compiled as C++ too. */
#include <stdio.h>
#include <stdlib.h>
#include <string.h>

#include "driver.h"

enum { BLOCKS = 8, SECTORS = 8, LOGICAL = 30, BLOCK_WORDS = SECTORS * SHELLWALTZ_SECTOR_WORDS, WORDS = BLOCKS * BLOCK_WORDS };

/* ---- The part. Its supply lasts for some steps, and then is cut: from then on it does nothing. */

static const uint32_t ONES = 0xFFFFFFFFu, FOR_EVER = 0xFFFFFFFFu;
static uint32_t mirror[WORDS], cells[WORDS], supply = FOR_EVER, erasures;
const struct shellwaltz_part part = SHELLWALTZ_PART(BLOCKS, SECTORS, LOGICAL, mirror);
static int is_cut;

static int has_supply(void)
{
    is_cut = supply == 0;
    if (supply != FOR_EVER && supply != 0)
        supply--;
    return !is_cut;
}

uint32_t read_word(size_t place)
{
    return cells[place];
}

int program_word(size_t place, uint32_t word)
{
    if (!has_supply())
        return -1;
    cells[place] &= word;
    return read_word(place) == word ? 0 : -1;
}

int erase_block(size_t block)
{
    if (!has_supply())
        return -1;
    for (size_t place = block * BLOCK_WORDS; place < (block + 1) * BLOCK_WORDS; place++)
        cells[place] = ONES;
    erasures++;
    return 0;
}

/* ---- The trial: writes and releases at random, some of them cut; part and mirror compared after each. */

enum { CUTS_IN_A_ROW = 3 }; /* a repair is sure to mend as many, of the call and of repairs: g of docs/FORMAT.md, for these three numbers */
static uint32_t written[LOGICAL]; /* the last call that wrote the number, which its contents tell; 0: none */
static uint32_t refused, steps, most, cuts[CALLS], repairs;

static uint32_t random_below(uint32_t bound)
{
    static uint32_t x = 2463534242u;
    x ^= x << 13;
    x ^= x >> 17;
    x ^= x << 5;
    return x % bound;
}

/* Mostly few, so that a release and a short repair are cut as well. */
static uint32_t random_supply(void)
{
    return random_below(1u << random_below(11));
}

static void fill(uint32_t *buffer, uint32_t seed)
{
    for (uint32_t i = 0; i < SHELLWALTZ_SECTOR_WORDS; i++)
        buffer[i] = seed * 2654435761u + i * 16777619u;
}

static void stop(uint32_t call, const char *what)
{
    printf("driver: call %u: %s\n", (unsigned)call, what);
    exit(1);
}

static void compare(uint32_t call)
{
    size_t place = first_difference();
    if (place == WORDS)
        return;
    printf("driver: block %u, word %u: part %08x, mirror %08x\n", (unsigned)(place / BLOCK_WORDS), (unsigned)(place % BLOCK_WORDS),
           (unsigned)read_word(place), (unsigned)mirror[place]);
    stop(call, "part and mirror differ");
}

/* Whether the number reads as that call has written it; for 0, as one that is not stored. */
static int reads_as(uint32_t number, uint32_t call)
{
    uint32_t wanted[SHELLWALTZ_SECTOR_WORDS], got[SHELLWALTZ_SECTOR_WORDS];
    struct shellwaltz_result r = shellwaltz_part_read(&part, number, got);
    fill(wanted, call);
    return call ? r.answer == SHELLWALTZ_OK && memcmp(got, wanted, sizeof got) == 0 : r.answer == SHELLWALTZ_UNMAPPED;
}

static void read_all(uint32_t call)
{
    for (uint32_t number = 0; number < LOGICAL; number++)
        if (!reads_as(number, written[number]))
            stop(call, "a sector does not read as it was written");
}

static void count_steps(uint32_t done)
{
    steps += done;
    most = done > most ? done : most;
}

/* A part that fails and was not cut ends the trial. */
static void count_cut(uint32_t call, enum call what)
{
    if (!is_cut)
        stop(call, "the part failed");
    cuts[what]++;
}

/* The supply is back, for some steps or for ever, and the driver starts up. Gives 0 where part and mirror are in order. */
static int come_back(uint32_t call, uint32_t lasts)
{
    struct shellwaltz_result r;
    uint32_t done;
    supply = lasts;
    int failed = start_up(&r, &done);
    count_steps(done);
    repairs += failed || done > 0;
    if (failed) {
        count_cut(call, REPAIR);
        return -1;
    }
    if (r.answer != SHELLWALTZ_OK)
        stop(call, shellwaltz_meaning(r.answer));
    compare(call);
    return 0;
}

/* The call was cut, which is the first cut in a row. Then the number reads as before it or as after it, and all others as before. */
static void recover(uint32_t call, struct request request)
{
    uint32_t cuts_so_far = 1, after = request.call == WRITE ? call : 0;
    count_cut(call, request.call);
    while (come_back(call, cuts_so_far < CUTS_IN_A_ROW && random_below(2) ? random_supply() : FOR_EVER))
        cuts_so_far++;
    if (reads_as(request.number, after))
        written[request.number] = after;
    read_all(call);
}

static void try_call(uint32_t call)
{
    uint32_t buffer[SHELLWALTZ_SECTOR_WORDS], number = random_below(LOGICAL + 1), done; /* LOGICAL itself is no number, and is refused */
    struct request request = {random_below(4) ? WRITE : RELEASE, number, buffer};
    struct shellwaltz_result r;
    fill(buffer, call);
    supply = random_below(4) ? FOR_EVER : random_supply();
    int failed = carry_out(request, &r, &done);
    count_steps(done);
    if (failed) {
        recover(call, request);
        return;
    }
    if (done != r.words + r.erasures)
        stop(call, "the steps are not the words and erasures that the call reports");
    compare(call);
    if (r.answer == SHELLWALTZ_OK)
        written[number] = request.call == WRITE ? call : 0;
    else
        refused++;
}

int main(int argc, char **argv)
{
    uint32_t calls = argc > 1 ? (uint32_t)strtoul(argv[1], NULL, 10) : 4000, stored = 0, done;
    struct shellwaltz_result r;
    if (format_part())
        stop(0, "the part cannot be formatted");
    compare(0);
    erasures = 0;
    for (uint32_t call = 1; call <= calls; call++)
        try_call(call);
    supply = FOR_EVER;
    if (start_up(&r, &done) || r.answer != SHELLWALTZ_OK || done != 0)
        stop(calls, "the part is not in order");
    read_all(calls);
    for (uint32_t number = 0; number < LOGICAL; number++)
        stored += written[number] != 0;
    printf("%u calls, %u of them refused\n", (unsigned)calls, (unsigned)refused);
    printf("%u steps, at most %u in one call; %u blocks erased\n", (unsigned)steps, (unsigned)most, (unsigned)erasures);
    printf("%u cuts: of %u writes, %u releases and %u repairs; %u repairs had something to do\n",
           (unsigned)(cuts[WRITE] + cuts[RELEASE] + cuts[REPAIR]), (unsigned)cuts[WRITE], (unsigned)cuts[RELEASE], (unsigned)cuts[REPAIR],
           (unsigned)repairs);
    printf("part and mirror are equal after each call, and all %u stored sectors read as they were written\n", (unsigned)stored);
    return 0;
}

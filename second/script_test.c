/* Tests of the script program from outside: records go in, lines come out.
 * Scripts written by hand stand with the lines they must give.  Drawn ones are
 * held against a plain array of what every sector ought to hold, and their
 * erasures against the writes that so many of them must have taken. */
#include <inttypes.h>
#include <stdbool.h>
#include <stdint.h>
#include <stdio.h>
#include <stdlib.h>

#define ONES UINT32_C(0xFFFFFFFF)
#define DEFAULT_L 70u
#define MOST_L 104u
#define ALL_SLOTS 120u /* 8 blocks of 15 */
#define ROOM 105u      /* slots beside those of the one blank block */
#define OTHERS 7u      /* blocks beside it */

#define RUN_SCRIPT "./build/script <build/records >build/got"

enum { WRITE = 1, READ, RELEASE, FORMAT };

static FILE *records;
static FILE *wanted;
static bool failed;

static void fail(const char *name, uint32_t which)
{
    fprintf(stderr, "script_test: %s %" PRIu32 "\n", name, which);
    failed = true;
}

static FILE *must_open(const char *path, const char *mode)
{
    FILE *file = fopen(path, mode);

    if (file == NULL) {
        perror(path);
        exit(1);
    }
    return file;
}

static void put(uint32_t value)
{
    for (int i = 0; i < 4; i++)
        fputc((int)(value >> 8 * i & 0xFF), records);
}

static void put_record(uint32_t operation, uint32_t number, uint32_t fill)
{
    put(operation);
    put(number);
    put(fill);
}

static char letter_of(uint32_t operation)
{
    return operation >= WRITE && operation <= FORMAT
               ? "WRDL"[operation - WRITE] : 'X';
}

/* ---- Scripts by hand ---------------------------------------------------- */

static void begin(void)
{
    records = must_open("build/records", "wb");
    wanted = must_open("build/wanted", "w");
}

/* A record and what its line must say behind the letter and the number. */
static void step(uint32_t operation, uint32_t number, uint32_t fill,
                 const char *rest)
{
    put_record(operation, number, fill);
    fprintf(wanted, "%c %" PRIu32 " %s\n", letter_of(operation), number, rest);
}

static void outside(uint32_t number)
{
    step(WRITE, number, 1, "3 0 0 0");
    step(READ, number, 1, "3 0 0 0");
    step(RELEASE, number, 1, "3 0 0 0");
}

static void end(const char *totals, const char *name, uint32_t which)
{
    fprintf(wanted, "%s\n", totals);
    fclose(records);
    fclose(wanted);
    if (system(RUN_SCRIPT " && diff build/wanted build/got") != 0)
        fail(name, which);
}

static void test_default(void)
{
    begin();
    for (uint32_t number = DEFAULT_L; number <= ROOM; number++)
        outside(number);
    outside(ONES);
    step(WRITE, 69, 7, "0 131 0 0");
    step(READ, 69, 1, "0 0 0 7");
    outside(70);
    step(RELEASE, 69, 1, "0 1 0 0");
    step(READ, 69, 1, "5 0 0 0");
    end("T 0 119 1 0", "default L", DEFAULT_L);
}

/* The number left at the end is the highest there is: totals taken with a
 * lower L would find a fault in it. */
static void test_accepted(uint32_t logical, uint32_t fill)
{
    uint32_t last = logical - 1;

    begin();
    step(WRITE, 0, 5, "0 131 0 0");
    step(WRITE, 69, 6, "0 131 0 0");
    step(FORMAT, logical, fill, "0 0 0 0");
    for (uint32_t number = 0; number < logical; number++) {
        step(READ, number, 1, "5 0 0 0");
        step(RELEASE, number, 1, "5 0 0 0");
    }
    for (uint32_t number = logical; number <= ROOM; number++)
        outside(number);
    outside(ONES);
    step(WRITE, last, 7, "0 131 0 0");
    step(READ, last, 1, "0 0 0 7");
    step(RELEASE, last, 1, "0 1 0 0");
    step(WRITE, last, 8, "0 131 0 0");
    step(WRITE, last, 9, "0 133 0 0");
    outside(logical);
    end("T 1 117 2 0", "accepted L", logical);
}

/* Most of the refused numbers have a good L in their low bytes, and the fill
 * field is one too. */
static void test_refused(uint32_t old)
{
    static const uint32_t refused[] = {
        0, 105, 106, 326, 65606, 16777286, UINT32_C(2147483718), ONES,
    };
    uint32_t last = old - 1;

    begin();
    if (old != DEFAULT_L)
        step(FORMAT, old, 1, "0 0 0 0");
    step(WRITE, last, 8, "0 131 0 0");
    for (size_t i = 0; i < sizeof refused / sizeof refused[0]; i++) {
        step(FORMAT, refused[i], 50, "1 0 0 0");
        step(READ, last, 1, "0 0 0 8");
        outside(old);
    }
    step(WRITE, last, 9, "0 133 0 0");
    step(READ, last, 1, "0 0 0 9");
    end("T 1 118 1 0", "refused under L", old);
}

/* L shrinks, grows and stays, each time over something stored. */
static void test_one_after_another(void)
{
    begin();
    step(FORMAT, 104, 1, "0 0 0 0");
    step(WRITE, 103, 2, "0 131 0 0");
    step(FORMAT, 1, 1, "0 0 0 0");
    outside(103);
    step(WRITE, 0, 3, "0 131 0 0");
    step(WRITE, 0, 4, "0 133 0 0");
    step(FORMAT, 90, 1, "0 0 0 0");
    step(READ, 0, 1, "5 0 0 0");
    step(WRITE, 89, 5, "0 131 0 0");
    step(FORMAT, 90, 1, "0 0 0 0");
    step(RELEASE, 89, 1, "5 0 0 0");
    outside(90);
    end("T 0 120 0 0", "one after another", 4);
}

/* Every write over the one before leaves a dead slot behind, and each 15th
 * fills a block.  Then seven blocks are full and six of them all dead, so the
 * last write has one word, an erase count, to program beside its own 133: it
 * starts the blank block that has not been erased. */
static void write_106_times(void)
{
    step(WRITE, 0, 1, "0 131 0 0");
    for (uint32_t i = 2; i <= ROOM; i++)
        step(WRITE, 0, i, i % 15 == 0 ? "0 135 0 0" : "0 133 0 0");
    step(WRITE, 0, 106, "0 134 1 0");
}

static void test_after_an_erasure(void)
{
    begin();
    write_106_times();
    step(FORMAT, 105, 1, "1 0 0 0");
    step(READ, 0, 1, "0 0 0 106");
    end("T 1 29 90 1", "refused after an erasure", 105);

    begin();
    write_106_times();
    step(FORMAT, 70, 1, "0 0 0 0");
    end("T 0 120 0 0", "accepted after an erasure", 70);

    begin();
    write_106_times();
    step(FORMAT, 90, 1, "0 0 0 0");
    write_106_times();
    end("T 1 29 90 1", "erased anew", 90);
}

/* With 104 numbers in 105 slots one slot is dead.  From the 106th write on
 * each moves the 14 others of that slot's block, 133 words each, programs the
 * count, and fills the block it moved them to with its own, 135 words: no run
 * can have more erasures for its writes. */
static void test_nearly_full(void)
{
    begin();
    step(FORMAT, 104, 1, "0 0 0 0");
    for (uint32_t number = 0; number < 104; number++)
        step(WRITE, number, number,
             number % 15 == 14 ? "0 133 0 0" : "0 131 0 0");
    step(WRITE, 0, 1, "0 135 0 0");
    for (uint32_t i = 0; i < 40; i++)
        step(WRITE, i * 37 % 104, i, "0 1998 1 0");
    end("T 104 15 1 40", "nearly full", 104);
}

/* Most of those above 255 have a known operation in their low bytes. */
static void test_other_operations(void)
{
    static const uint32_t others[] = {
        0, 5, 6, 257, 258, 259, 260, 65540, 16777220, UINT32_C(2147483652),
        ONES,
    };

    begin();
    step(FORMAT, 90, 1, "0 0 0 0");
    step(WRITE, 89, 8, "0 131 0 0");
    for (size_t i = 0; i < sizeof others / sizeof others[0]; i++) {
        step(others[i], 89, 9, "7 0 0 0");
        step(others[i], 104, 9, "7 0 0 0");
        step(READ, 89, 1, "0 0 0 8");
        outside(90);
    }
    end("T 1 119 0 0", "other operations", 0);
}

/* A format that breaks off is none. */
static void test_short(uint32_t length)
{
    static const unsigned char format[] = {4, 0, 0, 0, 50, 0, 0, 0, 1, 0, 0};

    begin();
    step(WRITE, 69, 8, "0 131 0 0");
    fwrite(format, 1, length, records);
    fprintf(wanted, "X 0 8 0 0 0\n");
    end("T 1 119 0 0", "short record", length);
}

static void test_by_hand(void)
{
    static const uint32_t accepted[] = {1, 2, 69, 70, 71, 89, 90, 91, 104};
    static const uint32_t fills[] = {1, 105, ONES};

    test_default();
    for (size_t i = 0; i < sizeof accepted / sizeof accepted[0]; i++)
        test_accepted(accepted[i], 0);
    for (size_t i = 0; i < sizeof fills / sizeof fills[0]; i++)
        test_accepted(90, fills[i]);
    test_refused(DEFAULT_L);
    test_refused(1);
    test_refused(90);
    test_refused(104);
    test_one_after_another();
    test_after_an_erasure();
    test_nearly_full();
    test_other_operations();
    for (uint32_t length = 1; length < 12; length++)
        test_short(length);
}

/* ---- Drawn scripts ------------------------------------------------------ */

#define SCRIPTS 200u
#define RECORDS 800u

struct line {
    char letter;
    uint32_t number;
    uint32_t answer;
    uint32_t words;
    uint32_t erasures;
    uint32_t first;
};

struct model {
    uint32_t logical;
    bool mapped[MOST_L];
    uint32_t fill[MOST_L];
};

/* What the lines tell of the time since the last fresh image. */
struct run {
    uint32_t logical;
    uint32_t writes;
    uint32_t erasures;
};

static uint64_t seed = UINT64_C(0x9E3779B97F4A7C15);
static uint32_t erasing_runs;

static uint32_t below(uint32_t limit)
{
    seed ^= seed << 13;
    seed ^= seed >> 7;
    seed ^= seed << 17;
    return (uint32_t)(seed >> 16) % limit;
}

/* The line that a record must give.  The array does not tell the words and
 * the erasures of an accepted write: they stay 0. */
static struct line predict(struct model *known, uint32_t operation,
                           uint32_t number, uint32_t fill)
{
    struct line out = {letter_of(operation), number, 0, 0, 0, 0};

    if (out.letter == 'X') {
        out.answer = 7;
    } else if (operation == FORMAT) {
        if (number >= 1 && number <= MOST_L)
            *known = (struct model){.logical = number};
        else
            out.answer = 1;
    } else if (number >= known->logical) {
        out.answer = 3;
    } else if (operation == WRITE) {
        known->mapped[number] = true;
        known->fill[number] = fill;
    } else if (!known->mapped[number]) {
        out.answer = 5;
    } else if (operation == READ) {
        out.first = known->fill[number];
    } else {
        known->mapped[number] = false;
        out.words = 1;
    }
    return out;
}

/* Mostly a number that is not mapped, so that the image soon is as full as L
 * lets it be and a reclaim finds few dead slots. */
static uint32_t draw_number(const struct model *known)
{
    uint32_t number = 0;

    if (below(4) == 0)
        return below(known->logical);
    while (number < known->logical && known->mapped[number])
        number++;
    return number < known->logical ? number : below(known->logical);
}

/* Mostly writes, and some 250 records between two fresh images: an erasure
 * takes 106 writes. */
static struct line draw(struct model *known)
{
    uint32_t fill = below(ONES);
    uint32_t pick = below(1000);
    uint32_t operation = pick < 850 ? WRITE : pick < 960 ? READ : RELEASE;
    uint32_t number = operation == WRITE ? draw_number(known)
                                         : below(known->logical);

    if (pick < 4) {
        operation = FORMAT;
        number = 1 + below(MOST_L);
    } else if (pick < 6) {
        operation = FORMAT;
        number = pick == 4 ? 0 : ROOM + below(ONES - ROOM);
    } else if (pick < 10) {
        operation = 5 + below(ONES - 5);
    } else if (pick % 20 == 0) {
        number = known->logical + below(40);
    }
    put_record(operation, number, fill);
    return predict(known, operation, number, fill);
}

static bool accepted_write(struct line got)
{
    return got.letter == 'W' && got.answer == 0;
}

static bool as_predicted(struct line got, struct line want)
{
    if (accepted_write(got)) {
        want.words = got.words;
        want.erasures = got.erasures;
    }
    return got.letter == want.letter && got.number == want.number &&
           got.answer == want.answer && got.words == want.words &&
           got.erasures == want.erasures && got.first == want.first;
}

/* A run without an erasure is within the bound however few its writes. */
static bool within_bound(struct run since)
{
    uint32_t gain = (ROOM - since.logical + OTHERS - 1) / OTHERS;

    return since.erasures == 0 ||
           ROOM + gain * (since.erasures - 1) + 1 <= since.writes;
}

static bool follow(struct run *since, struct line got)
{
    if (got.letter == 'L' && got.answer == 0)
        *since = (struct run){got.number, 0, 0};
    if (accepted_write(got))
        since->writes++;
    if (since->erasures == 0 && got.erasures > 0)
        erasing_runs++;
    since->erasures += got.erasures;
    return within_bound(*since);
}

static bool totals_good(FILE *file, const struct model *known,
                        struct run since)
{
    uint32_t mapped, free_slots, dead, erase_sum;
    uint32_t held = 0;

    for (uint32_t number = 0; number < known->logical; number++)
        held += known->mapped[number] ? 1 : 0;
    return fscanf(file, " T %" SCNu32 " %" SCNu32 " %" SCNu32 " %" SCNu32,
                  &mapped, &free_slots, &dead, &erase_sum) == 4 &&
           mapped == held && mapped + free_slots + dead == ALL_SLOTS &&
           erase_sum == since.erasures &&
           fgetc(file) == '\n' && fgetc(file) == EOF;
}

static void test_drawn(uint32_t which)
{
    static struct line want[RECORDS];
    struct model known = {.logical = DEFAULT_L};
    struct run since = {DEFAULT_L, 0, 0};
    struct line got;
    FILE *lines;
    uint32_t done = 0;

    records = must_open("build/records", "wb");
    for (uint32_t i = 0; i < RECORDS; i++)
        want[i] = draw(&known);
    fclose(records);
    if (system(RUN_SCRIPT) != 0)
        fail("status of drawn script", which);

    lines = must_open("build/got", "r");
    while (done < RECORDS &&
           fscanf(lines, " %c %" SCNu32 " %" SCNu32 " %" SCNu32 " %" SCNu32
                  " %" SCNu32, &got.letter, &got.number, &got.answer,
                  &got.words, &got.erasures, &got.first) == 6 &&
           as_predicted(got, want[done]) && follow(&since, got))
        done++;
    if (done < RECORDS || !totals_good(lines, &known, since))
        fail("drawn script", which);
    fclose(lines);
}

int main(void)
{
    test_by_hand();
    for (uint32_t which = 0; which < SCRIPTS && !failed; which++)
        test_drawn(which);
    if (!failed && erasing_runs < SCRIPTS)
        fail("runs with an erasure:", erasing_runs);
    if (failed)
        return 1;
    printf("%u drawn scripts, %" PRIu32 " runs with an erasure\n", SCRIPTS,
           erasing_runs);
    return 0;
}

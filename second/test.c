/* Tests.  Beside the library stand a slow check that asks each rule of each
 * block by itself, a second account of write, release and repair that stores
 * results instead of taking steps and writes the steps down, a plain array of
 * what every sector ought to hold, and a walk over all slots that tells what a
 * table ought to say. */
#include "second.h"

#include <stdio.h>
#include <stdlib.h>
#include <string.h>

#define ONES UINT32_C(0xFFFFFFFF)
#define LIVE UINT32_C(0xC0000000)    /* complete */
#define PASSING UINT32_C(0x80000000) /* live if its number is not complete */
#define SECTOR SECOND_SECTOR_WORDS
#define POISON UINT32_C(0xA5A5A5A5)

static unsigned long passed;
static unsigned long failed;

static void check_at(bool good, const char *what, int line)
{
    if (good) {
        passed++;
    } else {
        failed++;
        fprintf(stderr, "test.c:%d: %s\n", line, what);
    }
}

#define CHECK(what) check_at((what), #what, __LINE__)

/* ---- Random numbers, the same in every run ------------------------------ */

static uint64_t seed = UINT64_C(0x9E3779B97F4A7C15);

static uint32_t rnd(void)
{
    seed ^= seed << 13;
    seed ^= seed >> 7;
    seed ^= seed << 17;
    return (uint32_t)(seed >> 16);
}

static uint32_t below(uint32_t limit)
{
    return rnd() % limit;
}

/* ---- Shape of an image, worked out apart from the library --------------- */

struct shape {
    uint32_t b, s, l;
};

/* Those that the slow accounts ask of every slot are inline. */
static inline uint32_t d_of(struct shape g) { return g.s - 1; }
static inline uint32_t k_of(struct shape g) { return g.s <= 33 ? 1 : 2; }
static size_t len_of(struct shape g) { return (size_t)g.b * g.s * 128; }

static inline uint32_t *head_of(struct shape g, uint32_t *im, uint32_t b)
{
    return im + (size_t)b * g.s * 128;
}

static uint32_t *map_of(struct shape g, uint32_t *im, uint32_t b, uint32_t s)
{
    return head_of(g, im, b) + 3 + s / 32;
}

static inline uint32_t *entry_of(struct shape g, uint32_t *im, uint32_t b,
                                 uint32_t s)
{
    return head_of(g, im, b) + 3 + k_of(g) + s;
}

static uint32_t *data_of(struct shape g, uint32_t *im, uint32_t b, uint32_t s)
{
    return head_of(g, im, b) + 128 * (s + 1);
}

static inline bool bit(uint32_t word, uint32_t n)
{
    return (word >> n & 1) == 1;
}

static inline uint32_t number_of(uint32_t e)
{
    return e % (UINT32_C(1) << 29);
}

/* Of an entry in use: dead without a look at anything beside it. */
static inline bool dead_by_itself(struct shape g, uint32_t e)
{
    return !bit(e, 31) || bit(e, 29) || (!bit(e, 30) && number_of(e) >= g.l);
}

static bool complete_somewhere(struct shape g, uint32_t *im, uint32_t n)
{
    for (uint32_t b = 0; b < g.b; b++)
        for (uint32_t s = 0; s < d_of(g); s++)
            if (*entry_of(g, im, b, s) == LIVE + n)
                return true;
    return false;
}

enum kind { FREE, LIVING, DEAD, FAULT, SUPERSEDED };

static enum kind kind_of(struct shape g, uint32_t *im, uint32_t b, uint32_t s)
{
    uint32_t e = *entry_of(g, im, b, s);

    if (e == ONES)
        return bit(*map_of(g, im, b, s), s % 32) ? FREE : DEAD;
    if (dead_by_itself(g, e))
        return DEAD;
    if (bit(e, 30))
        return number_of(e) < g.l ? LIVING : FAULT;
    return complete_somewhere(g, im, number_of(e)) ? SUPERSEDED : LIVING;
}

static bool lives(struct shape g, uint32_t *im, uint32_t b, uint32_t s)
{
    return kind_of(g, im, b, s) == LIVING;
}

static bool lives_as(struct shape g, uint32_t *im, uint32_t b, uint32_t s,
                     uint32_t n)
{
    return number_of(*entry_of(g, im, b, s)) == n && lives(g, im, b, s);
}

static uint32_t count_kind(struct shape g, uint32_t *im, uint32_t b,
                           enum kind want)
{
    uint32_t n = 0;

    for (uint32_t s = 0; s < d_of(g); s++)
        n += kind_of(g, im, b, s) == want;
    return n;
}

/* ---- Slow check: each rule of each block by itself ---------------------- */

static bool breaks_r1(struct shape g, uint32_t *im, uint32_t b)
{
    return head_of(g, im, b)[0] > 1000000;
}

static bool breaks_r2(struct shape g, uint32_t *im, uint32_t b)
{
    for (uint32_t i = 0; i < 32 * k_of(g); i++) {
        bool set = bit(*map_of(g, im, b, i), i % 32);

        if (i >= d_of(g) ? !set : set && *entry_of(g, im, b, i) != ONES)
            return true;
    }
    return false;
}

static bool breaks_r3(struct shape g, uint32_t *im, uint32_t b)
{
    for (uint32_t s = 0; s < d_of(g); s++) {
        uint32_t *data = data_of(g, im, b, s);

        if (kind_of(g, im, b, s) != FREE)
            continue;
        for (uint32_t i = 0; i < 128; i++)
            if (data[i] != ONES)
                return true;
    }
    return false;
}

static bool breaks_r4(struct shape g, uint32_t *im, uint32_t b)
{
    return count_kind(g, im, b, FAULT) > 0;
}

/* Slots are numbered through the image here; the later is the one in b. */
static bool breaks_r5(struct shape g, uint32_t *im, uint32_t b)
{
    uint32_t d = d_of(g);

    for (uint32_t later = b * d; later < (b + 1) * d; later++) {
        uint32_t n = number_of(*entry_of(g, im, b, later % d));

        if (!lives(g, im, b, later % d))
            continue;
        for (uint32_t i = 0; i < later; i++)
            if (lives_as(g, im, i / d, i % d, n))
                return true;
    }
    return false;
}

static bool breaks_r7(struct shape g, uint32_t *im, uint32_t b)
{
    uint32_t *h = head_of(g, im, b);

    if (count_kind(g, im, b, FREE) > 0)
        return h[1] != ONES || h[2] != ONES;
    if (h[1] == ONES || h[2] == ONES)
        return true;
    for (uint32_t s = 0; s < d_of(g); s++) {
        uint32_t n = number_of(*entry_of(g, im, b, s));

        if (lives(g, im, b, s) && (h[1] > n || n > h[2]))
            return true;
    }
    return false;
}

static bool breaks_r8(struct shape g, uint32_t *im, uint32_t b)
{
    return count_kind(g, im, b, SUPERSEDED) > 0;
}

/* The one rule that is asked of the image as a whole. */
static bool breaks_r6(struct shape g, uint32_t *im)
{
    for (uint32_t b = 0; b < g.b; b++)
        if (count_kind(g, im, b, FREE) == d_of(g))
            return false;
    return true;
}

/* The rules of a block in the order in which they are gone through. */
static const struct {
    uint32_t rule;
    bool (*breaks)(struct shape g, uint32_t *im, uint32_t b);
} block_rules[] = {
    {1, breaks_r1}, {2, breaks_r2}, {3, breaks_r3},
    {4, breaks_r4}, {5, breaks_r5}, {7, breaks_r7}, {8, breaks_r8},
};

#define BLOCK_RULES (sizeof block_rules / sizeof block_rules[0])

/* All the rules that are broken somewhere: bit r stands for rule r. */
static uint32_t broken(struct shape g, uint32_t *im)
{
    uint32_t rules = (uint32_t)breaks_r6(g, im) << 6;

    for (uint32_t b = 0; b < g.b; b++)
        for (size_t i = 0; i < BLOCK_RULES; i++)
            if (block_rules[i].breaks(g, im, b))
                rules |= UINT32_C(1) << block_rules[i].rule;
    return rules;
}

struct pair {
    uint32_t block, rule;
};

static const struct pair no_fault = {0, 0};

static struct pair first_fault(struct shape g, uint32_t *im)
{
    for (uint32_t b = 0; b < g.b; b++)
        for (size_t i = 0; i < BLOCK_RULES; i++)
            if (block_rules[i].breaks(g, im, b))
                return (struct pair){b, block_rules[i].rule};
    if (breaks_r6(g, im))
        return (struct pair){g.b, 6};
    return no_fault;
}

/* ---- The row of steps that a call ought to take ------------------------- */

enum { DONE, PROGRAM, ERASE };

struct step {
    uint32_t kind, place, word;
};

static const struct step no_step = {DONE, 0, 0};

/* 62 copies out of a block with one dead slot, the erase and the count, then a
 * replacement that fills the block: no row of a write is longer. */
#define LONGEST_ROW (62 * 133 + 2 + 135)

/* A repair may also have to see to nearly every entry, by (i), and to two
 * words of each block, by (ii). */
#define ROW_ROOM (64 * 63 + 2 * 64 + LONGEST_ROW)

static struct step row[ROW_ROOM];
static uint32_t row_length;

static void then(struct step next)
{
    if (row_length == ROW_ROOM)
        abort();
    row[row_length++] = next;
}

static void then_program(size_t place, uint32_t word)
{
    then((struct step){PROGRAM, (uint32_t)place, word});
}

static void then_erase(uint32_t block)
{
    then((struct step){ERASE, block, 0});
}

static void then_sector(size_t place, const uint32_t *data)
{
    for (uint32_t i = 0; i < 128; i++)
        then_program(place + i, data[i]);
}

/* Placing n, up to (f), in an image where that is still to come.  What is live
 * for n in it is either complete or in passing, so (b) and (f) are known. */
static void then_put(struct shape g, uint32_t *im, uint32_t b, uint32_t s,
                     uint32_t n, const uint32_t *data, const uint32_t *old)
{
    uint32_t *map = map_of(g, im, b, s);
    size_t entry = (size_t)(entry_of(g, im, b, s) - im);

    then_program((size_t)(map - im), *map - (UINT32_C(1) << s % 32));
    if (old)
        then_program((size_t)(old - im), PASSING + n);
    then_sector((size_t)(data_of(g, im, b, s) - im), data);
    then_program(entry, 0xE0000000 + n);
    then_program(entry, LIVE + n);
    if (old)
        then_program((size_t)(old - im), n);
}

/* ---- Second account of write and release -------------------------------- */

static uint32_t *model_find(struct shape g, uint32_t *im, uint32_t n)
{
    for (uint32_t b = 0; b < g.b; b++)
        for (uint32_t s = 0; s < d_of(g); s++) {
            uint32_t *e = entry_of(g, im, b, s);

            if ((*e == LIVE + n || *e == PASSING + n) && lives(g, im, b, s))
                return e;
        }
    return NULL;
}

/* Leaves what placing leaves, adds its steps to the row and gives their
 * number. */
static uint32_t model_put(struct shape g, uint32_t *im, uint32_t b, uint32_t s,
                          uint32_t n, const uint32_t *data)
{
    uint32_t *old = model_find(g, im, n);
    uint32_t *h = head_of(g, im, b);
    uint32_t cost = 131;

    then_put(g, im, b, s, n, data, old);
    if (old) {
        *old = n;
        cost += 2;
    }
    *map_of(g, im, b, s) ^= UINT32_C(1) << s % 32;
    *entry_of(g, im, b, s) = LIVE + n;
    memcpy(data_of(g, im, b, s), data, 512);
    if (count_kind(g, im, b, FREE) == 0) {
        h[1] = h[2] = n;
        for (uint32_t i = 0; i < d_of(g); i++) {
            uint32_t m = number_of(*entry_of(g, im, b, i));

            if (lives(g, im, b, i) && m < h[1])
                h[1] = m;
            if (lives(g, im, b, i) && m > h[2])
                h[2] = m;
        }
        then_program((size_t)(h + 1 - im), h[1]);
        then_program((size_t)(h + 2 - im), h[2]);
        cost += 2;
    }
    return cost;
}

/* Rules 1 and 2; false when neither applies. */
static bool model_target(struct shape g, uint32_t *im, uint32_t *tb,
                         uint32_t *ts)
{
    uint32_t blanks = 0;

    for (uint32_t b = 0; b < g.b; b++) {
        uint32_t n = count_kind(g, im, b, FREE);

        if (n == 0 || n == d_of(g))
            continue;
        *tb = b;
        for (*ts = 0; kind_of(g, im, b, *ts) != FREE;)
            ++*ts;
        return true;
    }
    for (uint32_t b = g.b; b-- > 0;)
        if (count_kind(g, im, b, FREE) == d_of(g)) {
            /* Downwards, so an equal count moves to the lower number. */
            if (blanks == 0 ||
                head_of(g, im, b)[0] <= head_of(g, im, *tb)[0])
                *tb = b;
            blanks++;
        }
    *ts = 0;
    return blanks > 1;
}

static bool model_better_victim(struct shape g, uint32_t *im, uint32_t a,
                                uint32_t b)
{
    uint32_t dead_a = count_kind(g, im, a, DEAD);
    uint32_t dead_b = count_kind(g, im, b, DEAD);

    if (dead_a != dead_b)
        return dead_a > dead_b;
    return head_of(g, im, a)[0] < head_of(g, im, b)[0];
}

static uint32_t model_write(struct shape g, uint32_t *im, uint32_t n,
                            const uint32_t *data, uint32_t *words,
                            uint32_t *erasures)
{
    uint32_t tb = 0, ts = 0, to = 0;

    row_length = 0;
    *words = *erasures = 0;
    if (!model_target(g, im, &tb, &ts)) {
        uint32_t blank = tb, v = blank == 0 ? 1 : 0;
        uint32_t count;

        for (uint32_t b = 0; b < g.b; b++)
            if (b != blank && model_better_victim(g, im, b, v))
                v = b;
        count = head_of(g, im, v)[0];
        if (count == 1000000)
            return 6;
        for (uint32_t s = 0; s < d_of(g); s++) {
            uint32_t m = number_of(*entry_of(g, im, v, s));

            if (lives(g, im, v, s))
                *words += model_put(g, im, blank, to++, m,
                                    data_of(g, im, v, s));
        }
        memset(head_of(g, im, v), 0xFF, (size_t)g.s * 512);
        head_of(g, im, v)[0] = count + 1;
        then_erase(v);
        then_program((size_t)(head_of(g, im, v) - im), count + 1);
        *words += 1;
        *erasures = 1;
        CHECK(model_target(g, im, &tb, &ts));
    }
    *words += model_put(g, im, tb, ts, n, data);
    return 0;
}

static uint32_t model_release(struct shape g, uint32_t *im, uint32_t n,
                              uint32_t *words, uint32_t *erasures)
{
    uint32_t *e = model_find(g, im, n);

    row_length = 0;
    *words = *erasures = 0;
    if (!e)
        return 5;
    *e -= UINT32_C(0x80000000); /* bit 31, which every live entry has */
    then_program((size_t)(e - im), *e);
    *words = 1;
    return 0;
}

/* ---- Calls, shortened --------------------------------------------------- */

static uint32_t words, erasures; /* of the last call */
static uint32_t report[4];       /* mapped, free, dead, erase sum */
static struct pair bad;          /* of the last call that gives one */
static struct step told;         /* by the last call that tells a step */

/* Stands for an answer that came with another pair than it ought to. */
#define WRONG_PAIR UINT32_C(99)

/* Exactly as long as the image, so that a step outside is caught. */
static uint32_t *lend(struct shape g)
{
    uint32_t *im = malloc(len_of(g) * sizeof *im);

    if (!im)
        abort();
    return im;
}

static uint32_t *copy_of(struct shape g, const uint32_t *im)
{
    return memcpy(lend(g), im, len_of(g) * sizeof *im);
}

static bool bad_is(struct pair want)
{
    return bad.block == want.block && bad.rule == want.rule;
}

/* Before a call: what it does not set is seen. */
static void poison(void)
{
    words = erasures = POISON;
    bad = (struct pair){POISON, POISON};
    told = (struct step){POISON, POISON, POISON};
    memset(report, 0xA5, sizeof report);
}

/* After a call: its answer, if the pair is the one that belongs to it. */
static uint32_t judged(struct shape g, uint32_t *im, uint32_t answer)
{
    struct pair want = answer == 4 ? first_fault(g, im) : no_fault;

    return bad_is(want) ? answer : WRONG_PAIR;
}

static uint32_t do_format(struct shape g, uint32_t *im)
{
    poison();
    return second_format(g.b, g.s, g.l, im, len_of(g), &words, &erasures);
}

static uint32_t do_check(struct shape g, uint32_t *im)
{
    poison();
    return judged(g, im, second_check(g.b, g.s, g.l, im, len_of(g),
                                      &bad.block, &bad.rule));
}

static uint32_t do_report(struct shape g, uint32_t *im)
{
    poison();
    return judged(g, im, second_report(g.b, g.s, g.l, im, len_of(g),
                                       &report[0], &report[1], &report[2],
                                       &report[3], &bad.block, &bad.rule));
}

static uint32_t do_read(struct shape g, uint32_t *im, uint32_t n,
                        uint32_t *buffer)
{
    poison();
    return judged(g, im, second_read(g.b, g.s, g.l, im, len_of(g), n, buffer,
                                     128, &bad.block, &bad.rule));
}

static uint32_t do_write(struct shape g, uint32_t *im, uint32_t n,
                         const uint32_t *buffer)
{
    poison();
    return judged(g, im, second_write(g.b, g.s, g.l, im, len_of(g), n, buffer,
                                      128, &words, &erasures, &bad.block,
                                      &bad.rule));
}

static uint32_t do_fill(struct shape g, uint32_t *im, uint32_t n,
                        uint32_t fill)
{
    uint32_t buffer[SECTOR];

    for (uint32_t i = 0; i < 128; i++)
        buffer[i] = fill;
    return do_write(g, im, n, buffer);
}

static uint32_t do_release(struct shape g, uint32_t *im, uint32_t n)
{
    poison();
    return judged(g, im, second_release(g.b, g.s, g.l, im, len_of(g), n,
                                        &words, &erasures, &bad.block,
                                        &bad.rule));
}

static uint32_t do_write_step(struct shape g, uint32_t *im, uint32_t n,
                              const uint32_t *buffer, uint32_t i)
{
    poison();
    return judged(g, im, second_write_step(g.b, g.s, g.l, im, len_of(g), n,
                                           buffer, 128, i, &told.kind,
                                           &told.place, &told.word,
                                           &bad.block, &bad.rule));
}

static uint32_t do_release_step(struct shape g, uint32_t *im, uint32_t n,
                                uint32_t i)
{
    poison();
    return judged(g, im, second_release_step(g.b, g.s, g.l, im, len_of(g), n,
                                             i, &told.kind, &told.place,
                                             &told.word, &bad.block,
                                             &bad.rule));
}

static uint32_t do_write_first(struct shape g, uint32_t *im, uint32_t n,
                               const uint32_t *buffer, uint32_t most)
{
    poison();
    return judged(g, im, second_write_first(g.b, g.s, g.l, im, len_of(g), n,
                                            buffer, 128, most, &words,
                                            &erasures, &bad.block,
                                            &bad.rule));
}

static uint32_t do_release_first(struct shape g, uint32_t *im, uint32_t n,
                                 uint32_t most)
{
    poison();
    return judged(g, im, second_release_first(g.b, g.s, g.l, im, len_of(g), n,
                                              most, &words, &erasures,
                                              &bad.block, &bad.rule));
}

static uint32_t do_repair(struct shape g, uint32_t *im)
{
    poison();
    return judged(g, im, second_repair(g.b, g.s, g.l, im, len_of(g), &words,
                                       &erasures, &bad.block, &bad.rule));
}

static uint32_t do_repair_step(struct shape g, uint32_t *im, uint32_t i)
{
    poison();
    return judged(g, im, second_repair_step(g.b, g.s, g.l, im, len_of(g), i,
                                            &told.kind, &told.place,
                                            &told.word, &bad.block,
                                            &bad.rule));
}

static uint32_t do_repair_first(struct shape g, uint32_t *im, uint32_t most)
{
    poison();
    return judged(g, im, second_repair_first(g.b, g.s, g.l, im, len_of(g),
                                             most, &words, &erasures,
                                             &bad.block, &bad.rule));
}

static uint32_t *fresh(struct shape g)
{
    uint32_t *im = lend(g);

    CHECK(do_format(g, im) == 0 && words == 0 && erasures == 0);
    return im;
}

static bool counts_are(uint32_t w, uint32_t e)
{
    return words == w && erasures == e;
}

static bool told_is(struct step want)
{
    return told.kind == want.kind && told.place == want.place &&
           told.word == want.word;
}

static bool report_is(struct shape g, uint32_t *im, uint32_t mapped,
                      uint32_t free_slots, uint32_t dead, uint32_t sum)
{
    return do_report(g, im) == 0 && report[0] == mapped &&
           report[1] == free_slots && report[2] == dead && report[3] == sum;
}

static bool same(struct shape g, const uint32_t *a, const uint32_t *b)
{
    return memcmp(a, b, len_of(g) * sizeof *a) == 0;
}

static bool all_are(const uint32_t *w, size_t n, uint32_t value)
{
    for (size_t i = 0; i < n; i++)
        if (w[i] != value)
            return false;
    return true;
}

/* Takes a free slot by hand, by its bit alone if the entry is all ones.  R1 to
 * R3 stay as they were. */
static void seat(struct shape g, uint32_t *im, uint32_t b, uint32_t s,
                 uint32_t entry)
{
    *entry_of(g, im, b, s) = entry;
    *map_of(g, im, b, s) &= ~(UINT32_C(1) << s % 32);
}

/* ---- Second account of repair ------------------------------------------- */

/* What the last one came to; all zeros if it was refused. */
static struct {
    uint32_t cleared; /* by (i) */
    uint32_t ranged;  /* words, by (ii) */
    uint32_t counted; /* by (iii) */
    uint32_t erased, copied;
    bool filled;      /* the last copy took the target's last slot */
    bool wiped_range; /* (ii) had a word to program in the victim */
} did;

static void model_clear(struct shape g, uint32_t *im)
{
    for (uint32_t b = 0; b < g.b; b++)
        for (uint32_t s = 0; s < d_of(g); s++) {
            uint32_t *e = entry_of(g, im, b, s);

            if (kind_of(g, im, b, s) != SUPERSEDED)
                continue;
            *e = number_of(*e);
            then_program((size_t)(e - im), *e);
            did.cleared++;
        }
}

/* The least number live in the block or the greatest, 0 for want of any. */
static uint32_t model_edge(struct shape g, uint32_t *im, uint32_t b,
                           bool greatest)
{
    uint32_t edge = 0, met = 0;

    for (uint32_t s = 0; s < d_of(g); s++) {
        uint32_t n = number_of(*entry_of(g, im, b, s));

        if (lives(g, im, b, s) &&
            (met++ == 0 || (greatest ? n > edge : n < edge)))
            edge = n;
    }
    return edge;
}

static void model_ranges(struct shape g, uint32_t *im)
{
    for (uint32_t b = 0; b < g.b; b++)
        for (uint32_t i = 1; i <= 2; i++) {
            uint32_t *w = head_of(g, im, b) + i;

            if (*w != ONES || count_kind(g, im, b, FREE) > 0)
                continue;
            *w = model_edge(g, im, b, i == 2);
            then_program((size_t)(w - im), *w);
            did.ranged++;
        }
}

/* Where two blocks want a count, the largest beside the first is the second's
 * all ones, and R1 stays broken. */
static void model_counts(struct shape g, uint32_t *im)
{
    for (uint32_t b = 0; b < g.b; b++) {
        uint32_t *h = head_of(g, im, b);
        uint32_t most = 0;

        if (h[0] != ONES || count_kind(g, im, b, FREE) != d_of(g))
            continue;
        for (uint32_t i = 0; i < g.b; i++)
            if (i != b && head_of(g, im, i)[0] > most)
                most = head_of(g, im, i)[0];
        h[0] = most;
        then_program((size_t)(h - im), most);
        did.counted++;
    }
}

static void model_empty(struct shape g, uint32_t *im, uint32_t v, uint32_t t)
{
    uint32_t count = head_of(g, im, v)[0], to = 0;

    for (uint32_t s = 0; s < d_of(g); s++) {
        if (!lives(g, im, v, s))
            continue;
        while (kind_of(g, im, t, to) != FREE)
            to++;
        model_put(g, im, t, to, number_of(*entry_of(g, im, v, s)),
                  data_of(g, im, v, s));
        did.copied++;
    }
    did.filled = did.copied > 0 && count_kind(g, im, t, FREE) == 0;
    memset(head_of(g, im, v), 0xFF, (size_t)g.s * 512);
    head_of(g, im, v)[0] = count + 1;
    then_erase(v);
    then_program((size_t)(head_of(g, im, v) - im), count + 1);
    did.erased++;
}

/* (iv) in an image that wants nothing else; was is how it came. */
static uint32_t model_make_blank(struct shape g, uint32_t *im, uint32_t *was)
{
    uint32_t v = g.b, t = g.b, room = 0;

    for (uint32_t b = 0; b < g.b; b++) {
        uint32_t free_here = count_kind(g, im, b, FREE);

        if (free_here > 0 && t == g.b) {
            t = b;
            room = free_here;
        }
        if (free_here == 0 &&
            (v == g.b || model_better_victim(g, im, b, v)))
            v = b;
    }
    if (v == g.b || room < count_kind(g, im, v, LIVING))
        return 10;
    if (head_of(g, im, v)[0] == 1000000)
        return 6;
    did.wiped_range = head_of(g, was, v)[1] == ONES ||
                      head_of(g, was, v)[2] == ONES;
    model_empty(g, im, v, t);
    return 0;
}

/* Mends a copy as far as (i) to (iii) go.  What the copy breaks then, beside
 * R6, was not to be mended. */
static uint32_t model_repair(struct shape g, uint32_t *im, uint32_t *w,
                             uint32_t *e)
{
    uint32_t *after = copy_of(g, im);
    uint32_t answer, rules;

    row_length = 0;
    memset(&did, 0, sizeof did);
    model_clear(g, after);
    model_ranges(g, after);
    model_counts(g, after);
    rules = broken(g, after);
    answer = (rules & ~(UINT32_C(1) << 6)) != 0 ? 4
           : rules != 0 ? model_make_blank(g, after, im) : 0;
    if (answer == 0) {
        memcpy(im, after, len_of(g) * sizeof *im);
    } else {
        row_length = 0;
        memset(&did, 0, sizeof did);
    }
    *e = did.erased;
    *w = row_length - did.erased;
    free(after);
    return answer;
}

/* ---- Geometry: P1 to P4 ------------------------------------------------- */

static bool derives(struct shape g, uint32_t d, uint32_t k, size_t length,
                    uint32_t gain)
{
    struct second_geometry x = {g.b, g.s, g.l};

    return second_geometry_ok(x) && second_slots(x) == d &&
           second_map_words(x) == k && second_image_words(x) == length &&
           second_gain(x) == gain;
}

static bool accepted(uint32_t b, uint32_t s, uint32_t l)
{
    struct shape g = {b, s, l};
    uint32_t *im = lend(g);
    uint32_t format = do_format(g, im);
    uint32_t check = do_check(g, im);

    free(im);
    CHECK(format == check);
    return format == 0;
}

/* Refused 1 by a lent image of the length the three would have. */
static bool refused(uint32_t b, uint32_t s, uint32_t l)
{
    struct shape g = {b, s, l};
    uint32_t *im = lend(g);
    bool all = true;

    memset(im, 0x5A, len_of(g) * sizeof *im);
    all = do_format(g, im) == 1 && counts_are(0, 0) && do_check(g, im) == 1 &&
          all_are(im, len_of(g), UINT32_C(0x5A5A5A5A));
    free(im);
    return all;
}

static void test_p1(void)
{
    struct shape g = {8, 16, 90};
    uint32_t *im = fresh(g);

    CHECK(derives(g, 15, 1, 16384, 3));
    CHECK(im[0] == 0 && all_are(im + 1, 2047, ONES));
    for (uint32_t n = 0; n < 15; n++)
        CHECK(do_fill(g, im, 89 - n, n) == 0);
    CHECK(counts_are(133, 0));
    CHECK(im[0] == 0 && im[1] == 75 && im[2] == 89 && im[3] == 0xFFFF8000);
    for (uint32_t n = 0; n < 15; n++) {
        CHECK(im[4 + n] == LIVE + 89 - n);
        CHECK(all_are(im + 128 * (n + 1), 128, n));
    }
    CHECK(all_are(im + 19, 109, ONES));
    CHECK(all_are(im + 2049, 2047, ONES));
    free(im);
}

static void test_p2_p3_p4(void)
{
    CHECK(accepted(8, 16, 104) && refused(8, 16, 105));
    CHECK(derives((struct shape){8, 16, 104}, 15, 1, 16384, 1));
    CHECK(refused(2, 2, 1) && accepted(2, 3, 1) && accepted(3, 2, 1));
    CHECK(derives((struct shape){2, 3, 1}, 2, 1, 768, 1));
    CHECK(derives((struct shape){3, 2, 1}, 1, 1, 768, 1));
    CHECK(accepted(64, 64, 3968) && refused(64, 64, 3969));
    CHECK(derives((struct shape){64, 64, 3968}, 63, 2, 524288, 1));
    CHECK(derives((struct shape){4, 33, 1}, 32, 1, 16896, 32));
    CHECK(derives((struct shape){4, 34, 1}, 33, 2, 17408, 33));
}

/* ---- Entries and steps: P5 to P9 ---------------------------------------- */

static void test_p5(void)
{
    static const struct { uint32_t entry, answer, mapped, dead; } cases[] = {
        {0xC0000059, 0, 1, 0}, {0xC000005A, 4, 0, 0}, {0xE0000005, 0, 0, 1},
        {0x40000005, 0, 0, 1}, {0xC0000000, 0, 1, 0}, {0xDFFFFFFF, 4, 0, 0},
        {0x80000005, 0, 1, 0}, {0x00000005, 0, 0, 1}, {0xFFFFFFFE, 0, 0, 1},
        {0xBFFFFFFF, 0, 0, 1}, {0x7FFFFFFF, 0, 0, 1}, {0x00000000, 0, 0, 1},
        {0xA0000005, 0, 0, 1}, {0x60000005, 0, 0, 1}, {0x20000005, 0, 0, 1},
        {0xE000005A, 0, 0, 1}, {0x4000005A, 0, 0, 1}, {0x8000005A, 0, 0, 1},
        {0x80000059, 0, 1, 0}, {0x80000000, 0, 1, 0}, {0x9FFFFFFF, 0, 0, 1},
        {0x8001005A, 0, 0, 1}, {0xFFFFFFFF, 0, 0, 1},
    };
    struct shape g = {8, 16, 90};
    uint32_t *im = fresh(g);

    im[3] = 0xFFFFFFFE;
    for (size_t i = 0; i < sizeof cases / sizeof cases[0]; i++) {
        im[4] = cases[i].entry;
        CHECK(do_check(g, im) == cases[i].answer);
        CHECK(do_report(g, im) == cases[i].answer);
        CHECK(report[0] == cases[i].mapped && report[2] == cases[i].dead);
        CHECK(report[1] == (cases[i].answer == 0 ? 119u : 0u));
    }
    free(im);
}

static void test_p6_p7_p8(void)
{
    struct shape g = {3, 5, 7};
    uint32_t *im = fresh(g);
    uint32_t *other = lend(g);
    uint32_t got[SECTOR];

    CHECK(derives(g, 4, 1, 1920, 1));
    CHECK(do_fill(g, im, 5, 0x12345678) == 0 && counts_are(131, 0)); /* P6 */
    CHECK(im[3] == 0xFFFFFFFE && im[4] == 0xC0000005);
    CHECK(im[0] == 0 && im[1] == ONES && im[2] == ONES);
    CHECK(all_are(im + 5, 123, ONES));
    CHECK(all_are(im + 128, 128, 0x12345678));
    memcpy(other, im, len_of(g) * sizeof *im);

    CHECK(do_fill(g, im, 5, 0) == 0 && counts_are(133, 0)); /* P7 */
    CHECK(im[3] == 0xFFFFFFFC && im[4] == 5 && im[5] == 0xC0000005);
    CHECK(all_are(im + 128, 128, 0x12345678) && all_are(im + 256, 128, 0));
    CHECK(do_read(g, im, 5, got) == 0 && all_are(got, 128, 0));
    CHECK(report_is(g, im, 1, 10, 1, 0));

    CHECK(do_release(g, other, 5) == 0 && counts_are(1, 0)); /* P8 */
    CHECK(other[4] == 0x40000005 && other[3] == 0xFFFFFFFE);
    CHECK(do_release(g, other, 5) == 5 && counts_are(0, 0));
    CHECK(do_read(g, other, 5, got) == 5 && all_are(got, 128, 0));
    CHECK(report_is(g, other, 0, 11, 1, 0));
    CHECK(do_fill(g, other, 5, 9) == 0 && counts_are(131, 0));
    CHECK(other[4] == 0x40000005 && other[5] == 0xC0000005);
    free(im);
    free(other);
}

static void test_p9(void)
{
    struct shape g = {2, 3, 1};
    uint32_t *im = fresh(g);

    CHECK(do_fill(g, im, 0, 1) == 0 && counts_are(131, 0));
    CHECK(do_fill(g, im, 0, 2) == 0 && counts_are(135, 0));
    CHECK(im[1] == 0 && im[2] == 0 && im[4] == 0 && im[5] == LIVE);
    CHECK(do_fill(g, im, 0, 3) == 0 && counts_are(269, 1));
    CHECK(im[0] == 1 && all_are(im + 1, 383, ONES));
    CHECK(im[384] == 0 && im[388] == 0 && im[389] == LIVE);
    CHECK(report_is(g, im, 1, 2, 1, 1));
    CHECK(do_fill(g, im, 0, 4) == 0 && counts_are(269, 1));
    CHECK(report_is(g, im, 1, 2, 1, 2));
    free(im);
}

/* ---- The cases without a mark ------------------------------------------- */

static void test_106_writes(void)
{
    struct shape g = {8, 16, 90};
    uint32_t *im = fresh(g);
    uint32_t got[SECTOR];

    for (uint32_t i = 1; i <= 105; i++) {
        CHECK(do_fill(g, im, 0, i) == 0 && erasures == 0);
        CHECK(words == 131u + (i > 1 ? 2 : 0) + (i % 15 == 0 ? 2 : 0));
    }
    CHECK(report_is(g, im, 1, 15, 104, 0));
    CHECK(do_fill(g, im, 0, 106) == 0 && counts_are(134, 1));
    CHECK(im[0] == 1 && all_are(im + 1, 2047, ONES));
    CHECK(*entry_of(g, im, 7, 0) == LIVE && head_of(g, im, 7)[0] == 0);
    CHECK(*map_of(g, im, 7, 0) == 0xFFFFFFFE);
    CHECK(*entry_of(g, im, 6, 14) == 0);
    CHECK(do_read(g, im, 0, got) == 0 && all_are(got, 128, 106));
    CHECK(report_is(g, im, 1, 29, 90, 1));
    free(im);
}

static void test_ceiling(void)
{
    struct shape g = {2, 3, 1};
    uint32_t *im = fresh(g);
    uint32_t *was = lend(g);

    /* A count at the ceiling is no matter while nothing is reclaimed. */
    im[0] = 1000000;
    im[384] = 1000000;
    CHECK(do_check(g, im) == 0);
    CHECK(do_fill(g, im, 0, 1) == 0 && counts_are(131, 0));
    CHECK(im[388] == ONES && im[4] == LIVE);
    CHECK(do_fill(g, im, 0, 2) == 0 && counts_are(135, 0));
    memcpy(was, im, len_of(g) * sizeof *im);
    CHECK(do_fill(g, im, 0, 3) == 6 && counts_are(0, 0) && same(g, im, was));
    CHECK(do_release(g, im, 0) == 0 && counts_are(1, 0));
    CHECK(do_fill(g, im, 0, 3) == 6 && counts_are(0, 0));
    memcpy(im, was, len_of(g) * sizeof *im);

    im[0] = 999999;
    CHECK(do_fill(g, im, 0, 3) == 0 && counts_are(269, 1));
    CHECK(im[0] == 1000000 && im[384] == 1000000);
    CHECK(report_is(g, im, 1, 2, 1, 2000000));
    CHECK(do_fill(g, im, 0, 4) == 6 && counts_are(0, 0));
    free(im);
    free(was);
}

/* Three full blocks of (4,3,5) with 0, 1 and 2 live; block 3 is blank. */
static uint32_t *three_full(struct shape g)
{
    static const uint32_t entries[6] = {0x00000004, 0x40000004, LIVE + 1,
                                        0x00000002, LIVE + 2, LIVE + 3};
    uint32_t *im = fresh(g);

    for (uint32_t i = 0; i < 6; i++) {
        seat(g, im, i / 2, i % 2, entries[i]);
        for (uint32_t j = 0; j < 128; j++)
            data_of(g, im, i / 2, i % 2)[j] = i;
    }
    for (uint32_t b = 0; b < 3; b++) {
        head_of(g, im, b)[1] = 0;
        head_of(g, im, b)[2] = 4;
    }
    CHECK(broken(g, im) == 0 && do_check(g, im) == 0);
    return im;
}

static void test_victim(void)
{
    struct shape g = {4, 3, 5};
    uint32_t got[SECTOR];
    uint32_t *im = three_full(g);

    /* Most dead slots first, whatever the counts. */
    head_of(g, im, 0)[0] = 1000000;
    CHECK(do_fill(g, im, 0, 9) == 6);
    head_of(g, im, 0)[0] = 999999;
    CHECK(do_fill(g, im, 0, 9) == 0 && counts_are(132, 1));
    CHECK(head_of(g, im, 0)[0] == 1000000);
    CHECK(*entry_of(g, im, 3, 0) == LIVE && *entry_of(g, im, 0, 0) == ONES);
    free(im);

    /* Equal in dead slots: the least count, even beside the ceiling. */
    im = three_full(g);
    *entry_of(g, im, 0, 1) = LIVE + 4;
    head_of(g, im, 0)[0] = 1000000;
    head_of(g, im, 1)[0] = 999999;
    CHECK(do_fill(g, im, 1, 9) == 0);
    /* One copied, the count, then a replacement that fills the block. */
    CHECK(counts_are(133 + 1 + 135, 1));
    CHECK(head_of(g, im, 1)[0] == 1000000);
    CHECK(*entry_of(g, im, 3, 0) == 1 && *entry_of(g, im, 3, 1) == LIVE + 1);
    CHECK(head_of(g, im, 3)[1] == 1 && head_of(g, im, 3)[2] == 1);
    CHECK(do_read(g, im, 1, got) == 0 && all_are(got, 128, 9));
    CHECK(all_are(data_of(g, im, 3, 0), 128, 2));
    free(im);
}

/* Equal in dead slots and in counts: the lowest number. */
static void test_victim_by_number(void)
{
    struct shape g = {4, 3, 5};
    uint32_t *im = three_full(g);

    *entry_of(g, im, 0, 1) = LIVE + 4;
    CHECK(do_fill(g, im, 0, 9) == 0 && counts_are(133 + 1 + 133, 1));
    CHECK(head_of(g, im, 0)[0] == 1 && head_of(g, im, 1)[0] == 0);
    CHECK(*entry_of(g, im, 3, 0) == LIVE + 4);
    CHECK(*entry_of(g, im, 3, 1) == LIVE);
    CHECK(head_of(g, im, 3)[1] == 0 && head_of(g, im, 3)[2] == 4);
    free(im);
}

static void test_choice_of_slot(void)
{
    struct shape g = {4, 34, 90};
    uint32_t *im = fresh(g);

    /* Blank blocks: the least count, then the lowest number. */
    head_of(g, im, 0)[0] = 7;
    head_of(g, im, 1)[0] = 6;
    head_of(g, im, 2)[0] = 5;
    head_of(g, im, 3)[0] = 5;
    CHECK(do_fill(g, im, 0, 1) == 0 && *entry_of(g, im, 2, 0) == LIVE);

    /* An open block goes before any blank one, the lowest number first, and
     * a hole before the slots after it, over both words of the map. */
    seat(g, im, 1, 5, 0);
    CHECK(do_fill(g, im, 1, 1) == 0 && *entry_of(g, im, 1, 0) == LIVE + 1);
    for (uint32_t s = 1; s < 32; s++)
        seat(g, im, 1, s, 0);
    CHECK(*map_of(g, im, 1, 0) == 0 && *map_of(g, im, 1, 32) == ONES);
    CHECK(do_fill(g, im, 2, 1) == 0 && *entry_of(g, im, 1, 32) == LIVE + 2);
    CHECK(counts_are(133, 0) && *map_of(g, im, 1, 32) == 0xFFFFFFFE);
    CHECK(head_of(g, im, 1)[1] == 1 && head_of(g, im, 1)[2] == 2);

    /* The last open block of the image, then the two blanks left. */
    CHECK(do_fill(g, im, 3, 1) == 0 && *entry_of(g, im, 2, 1) == LIVE + 3);
    free(im);
}

/* ---- Words the rules say nothing of ------------------------------------- */

static void test_unused_words(void)
{
    struct shape g = {2, 3, 1};
    uint32_t *im = fresh(g);

    for (uint32_t i = 6; i < 128; i++)
        im[i] = im[384 + i] = i * 0x01010101;
    CHECK(do_check(g, im) == 0);
    CHECK(do_fill(g, im, 0, 1) == 0 && do_fill(g, im, 0, 2) == 0);
    for (uint32_t i = 6; i < 128; i++)
        CHECK(im[i] == i * 0x01010101);
    CHECK(do_fill(g, im, 0, 3) == 0 && counts_are(269, 1));
    CHECK(all_are(im + 6, 122, ONES));
    for (uint32_t i = 6; i < 128; i++)
        CHECK(im[384 + i] == i * 0x01010101);
    CHECK(do_format(g, im) == 0 && all_are(im + 1, 383, ONES) && im[0] == 0);
    CHECK(all_are(im + 385, 383, ONES) && im[384] == 0);
    free(im);
}

/* ---- Refusals ----------------------------------------------------------- */

struct lent {
    struct shape g;
    uint32_t *im;
    size_t im_words;
    uint32_t number;
    size_t buffer_words;
};

static bool answers(uint32_t got, uint32_t want, struct pair first)
{
    return got == want && bad_is(want == 4 ? first : no_fault);
}

/* Check, report and read on the same arguments. */
static bool lookups_answer(struct lent a, uint32_t *im, struct pair first,
                           uint32_t check, uint32_t read)
{
    struct shape g = a.g;
    uint32_t buffer[SECTOR];
    bool good = true;

    memset(buffer, 0xA5, sizeof buffer);
    poison();
    good &= answers(second_check(g.b, g.s, g.l, im, a.im_words, &bad.block,
                                 &bad.rule), check, first);
    poison();
    good &= answers(second_report(g.b, g.s, g.l, im, a.im_words, &report[0],
                                  &report[1], &report[2], &report[3],
                                  &bad.block, &bad.rule), check, first);
    good &= check == 0 || all_are(report, 4, 0);
    poison();
    good &= answers(second_read(g.b, g.s, g.l, im, a.im_words, a.number,
                                buffer, a.buffer_words, &bad.block,
                                &bad.rule), read, first);
    return good && (read == 0 || all_are(buffer, SECTOR, POISON));
}

static bool write_answers(struct lent a, uint32_t *im, struct pair first,
                          uint32_t write)
{
    uint32_t buffer[SECTOR] = {0};

    poison();
    return answers(second_write(a.g.b, a.g.s, a.g.l, im, a.im_words, a.number,
                                buffer, a.buffer_words, &words, &erasures,
                                &bad.block, &bad.rule), write, first) &&
           (write == 0 || counts_are(0, 0));
}

static bool release_answers(struct lent a, uint32_t *im, struct pair first,
                            uint32_t release)
{
    poison();
    return answers(second_release(a.g.b, a.g.s, a.g.l, im, a.im_words,
                                  a.number, &words, &erasures, &bad.block,
                                  &bad.rule), release, first) &&
           (release == 0 || counts_are(0, 0));
}

/* Another number of steps with each turn: refusals do not hang on it. */
static uint32_t some_number(void)
{
    static const uint32_t numbers[] = {0, 1, 2, 130, 131, 1000, 0x80000000,
                                       ONES};
    static size_t turn;

    return numbers[turn++ % (sizeof numbers / sizeof numbers[0])];
}

/* The calls that tell a step and that take the first steps.  Where the write
 * is accepted no step is asked for, so that the image must stay as it is. */
static bool write_parts_answer(struct lent a, uint32_t *im, struct pair first,
                               uint32_t write)
{
    uint32_t buffer[SECTOR] = {0};
    bool good = true;

    poison();
    good &= answers(second_write_step(a.g.b, a.g.s, a.g.l, im, a.im_words,
                                      a.number, buffer, a.buffer_words,
                                      write == 0 ? ONES : some_number(),
                                      &told.kind, &told.place, &told.word,
                                      &bad.block, &bad.rule), write, first);
    good &= told_is(no_step);
    poison();
    good &= answers(second_write_first(a.g.b, a.g.s, a.g.l, im, a.im_words,
                                       a.number, buffer, a.buffer_words,
                                       write == 0 ? 0 : some_number(),
                                       &words, &erasures, &bad.block,
                                       &bad.rule), write, first);
    return good && counts_are(0, 0);
}

static bool release_parts_answer(struct lent a, uint32_t *im,
                                 struct pair first, uint32_t release)
{
    bool good = true;

    poison();
    good &= answers(second_release_step(a.g.b, a.g.s, a.g.l, im, a.im_words,
                                        a.number,
                                        release == 0 ? ONES : some_number(),
                                        &told.kind, &told.place, &told.word,
                                        &bad.block, &bad.rule),
                    release, first);
    good &= told_is(no_step);
    poison();
    good &= answers(second_release_first(a.g.b, a.g.s, a.g.l, im, a.im_words,
                                         a.number,
                                         release == 0 ? 0 : some_number(),
                                         &words, &erasures, &bad.block,
                                         &bad.rule), release, first);
    return good && counts_are(0, 0);
}

static bool repair_answers(struct lent a, uint32_t *im, struct pair first,
                           uint32_t repair)
{
    poison();
    return answers(second_repair(a.g.b, a.g.s, a.g.l, im, a.im_words, &words,
                                 &erasures, &bad.block, &bad.rule),
                   repair, first) && (repair == 0 || counts_are(0, 0));
}

static bool repair_parts_answer(struct lent a, uint32_t *im,
                                struct pair first, uint32_t repair)
{
    bool good = true;

    poison();
    good &= answers(second_repair_step(a.g.b, a.g.s, a.g.l, im, a.im_words,
                                       repair == 0 ? ONES : some_number(),
                                       &told.kind, &told.place, &told.word,
                                       &bad.block, &bad.rule), repair, first);
    good &= told_is(no_step);
    poison();
    good &= answers(second_repair_first(a.g.b, a.g.s, a.g.l, im, a.im_words,
                                        repair == 0 ? 0 : some_number(),
                                        &words, &erasures, &bad.block,
                                        &bad.rule), repair, first);
    return good && counts_are(0, 0);
}

/* What check says settles what a repair answers, but for an image with a
 * fault; that is left to the second account. */
static bool repair_fits(struct lent a, struct shape real, struct pair first,
                        uint32_t check)
{
    uint32_t *im = copy_of(real, a.im), *model = copy_of(real, a.im);
    uint32_t w = 0, e = 0;
    uint32_t want = check == 4 ? model_repair(a.g, model, &w, &e) : check;
    bool good = repair_parts_answer(a, im, first, want);

    good &= same(real, im, a.im);
    good &= repair_answers(a, im, first, want);
    good &= counts_are(w, e) && same(real, im, model);
    free(im);
    free(model);
    return good;
}

static bool format_answers(struct lent a, uint32_t *im, uint32_t format)
{
    poison();
    return second_format(a.g.b, a.g.s, a.g.l, im, a.im_words, &words,
                         &erasures) == format && counts_are(0, 0);
}

/* All calls on the same arguments: answers as given, with the first fault
 * beside a 4, and after a refusal not a word changed.  The lent image is as
 * long as the shape used for it, not as the one told. */
static void expect(struct lent a, struct shape real, uint32_t format,
                   uint32_t check, uint32_t read, uint32_t write,
                   uint32_t release, int line)
{
    struct pair first = check == 4 ? first_fault(a.g, a.im) : no_fault;
    uint32_t *im = copy_of(real, a.im);
    bool good = lookups_answer(a, im, first, check, read);

    good &= write_parts_answer(a, im, first, write);
    good &= release_parts_answer(a, im, first, release);
    good &= same(real, im, a.im);
    good &= write_answers(a, im, first, write);
    good &= write == 0 || same(real, im, a.im);
    free(im);

    im = copy_of(real, a.im);
    good &= release_answers(a, im, first, release);
    good &= release == 0 || same(real, im, a.im);
    free(im);

    im = copy_of(real, a.im);
    good &= format_answers(a, im, format);
    good &= format == 0 || same(real, im, a.im);
    free(im);

    good &= repair_fits(a, real, first, check);
    check_at(good, "refusals", line);
}

#define EXPECT(a, real, f, c, r, w, d) expect(a, real, f, c, r, w, d, __LINE__)

static void test_refusal_1(void)
{
    static const uint32_t off[] = {0, 1, 65, 66, 0x10000, 0x10008, 0x80000000,
                                   0x80000008, 0xFFFFFFFF};
    static const uint32_t wide[] = {0, 105, 106, 0x10000, 0x80000000,
                                    0x8000005A, 0xFFFFFFFF};
    static const size_t lengths[] = {0, 1, 16383, 16385, 32768, SIZE_MAX,
                                     SIZE_MAX / 4 + 1};
    struct shape g = {8, 16, 90};
    struct lent a = {g, fresh(g), len_of(g), 5, 128};
    struct lent b;

    CHECK(do_fill(g, a.im, 5, 7) == 0);
    EXPECT(a, g, 0, 0, 0, 0, 0);
    for (size_t i = 0; i < sizeof off / sizeof off[0]; i++) {
        b = a;
        b.g.b = off[i];
        EXPECT(b, g, 1, 1, 1, 1, 1);
        b = a;
        b.g.s = off[i];
        EXPECT(b, g, 1, 1, 1, 1, 1);
        for (size_t j = 0; j < sizeof off / sizeof off[0]; j++) {
            b.g = (struct shape){off[i], off[j], off[(i + j) % 9]};
            EXPECT(b, g, 1, 1, 1, 1, 1);
        }
    }
    for (size_t i = 0; i < sizeof wide / sizeof wide[0]; i++) {
        b = a;
        b.g.l = wide[i];
        EXPECT(b, g, 1, 1, 1, 1, 1);
    }
    for (size_t i = 0; i < sizeof lengths / sizeof lengths[0]; i++) {
        b = a;
        b.im_words = lengths[i];
        EXPECT(b, g, 1, 1, 1, 1, 1);
    }
    free(a.im);
}

/* Another geometry of the same length is a matter for the rules only. */
static void test_other_geometry(void)
{
    struct shape g = {8, 16, 90}, other = {16, 8, 90};
    struct lent a = {other, fresh(g), len_of(g), 5, 128};

    CHECK(do_fill(g, a.im, 5, 7) == 0);
    EXPECT(a, g, 0, 4, 4, 4, 4);
    /* Half a block on there is no erase count, but ones. */
    CHECK(do_check(other, a.im) == 4 && bad_is((struct pair){1, 1}));
    free(a.im);
}

/* Nothing is looked at before the length is known to be right. */
static void test_refusal_1_of_nothing(void)
{
    struct lent a = {{8, 16, 90}, NULL, 0, 0, 0};

    CHECK(lookups_answer(a, NULL, no_fault, 1, 1));
    CHECK(release_answers(a, NULL, no_fault, 1));
    CHECK(release_parts_answer(a, NULL, no_fault, 1));
    CHECK(repair_answers(a, NULL, no_fault, 1));
    CHECK(repair_parts_answer(a, NULL, no_fault, 1));
    CHECK(format_answers(a, NULL, 1));
    poison();
    CHECK(second_write_step(8, 16, 90, NULL, 0, 0, NULL, 0, 0, &told.kind,
                            &told.place, &told.word, &bad.block,
                            &bad.rule) == 1);
    CHECK(told_is(no_step) && bad_is(no_fault));
    poison();
    CHECK(second_write_first(8, 16, 90, NULL, 0, 0, NULL, 0, ONES, &words,
                             &erasures, &bad.block, &bad.rule) == 1);
    CHECK(counts_are(0, 0) && bad_is(no_fault));
    poison();
    CHECK(second_write(8, 16, 90, NULL, 0, 0, NULL, 0, &words, &erasures,
                       &bad.block, &bad.rule) == 1);
    CHECK(counts_are(0, 0) && bad_is(no_fault));
    poison();
    CHECK(second_read(8, 16, 90, NULL, 0, 0, NULL, 0, &bad.block,
                      &bad.rule) == 1);
    CHECK(bad_is(no_fault));
}

static void test_refusals_in_order(void)
{
    static const size_t sizes[] = {0, 1, 127, 129, 256, SIZE_MAX};
    struct shape g = {8, 16, 90};
    struct lent a = {g, fresh(g), len_of(g), 5, 128};
    struct lent b;

    EXPECT(a, g, 0, 0, 5, 0, 5);
    CHECK(do_fill(g, a.im, 5, 7) == 0);
    EXPECT(a, g, 0, 0, 0, 0, 0);
    for (size_t i = 0; i < sizeof sizes / sizeof sizes[0]; i++) {
        b = a;
        b.buffer_words = sizes[i];
        EXPECT(b, g, 0, 0, 2, 2, 0);
        b.number = 90;
        EXPECT(b, g, 0, 0, 2, 2, 3);
        b.im_words--;
        EXPECT(b, g, 1, 1, 1, 1, 1);
    }
    b = a;
    b.number = 89;
    EXPECT(b, g, 0, 0, 5, 0, 5);
    b.number = 90;
    EXPECT(b, g, 0, 0, 3, 3, 3);
    b.number = 0xFFFFFFFF;
    EXPECT(b, g, 0, 0, 3, 3, 3);
    free(a.im);
}

/* What is asked before 4 is given although the image has a fault. */
static void expect_around_4(struct lent a)
{
    struct shape g = a.g;
    struct lent b = a;

    EXPECT(b, g, 0, 4, 4, 4, 4);
    b.number = g.l - 1; /* not mapped */
    EXPECT(b, g, 0, 4, 4, 4, 4);
    b.number = g.l;
    EXPECT(b, g, 0, 4, 3, 3, 3);
    b.buffer_words = 127;
    EXPECT(b, g, 0, 4, 2, 2, 3);
    b.number = a.number;
    EXPECT(b, g, 0, 4, 2, 2, 4);
    b.im_words--;
    EXPECT(b, g, 1, 1, 1, 1, 1);
    b = a;
    b.g.l = (g.b - 1) * d_of(g);
    EXPECT(b, g, 1, 1, 1, 1, 1);
}

static void test_refusal_6_in_order(void)
{
    struct shape g = {2, 3, 1};
    struct lent a = {g, fresh(g), len_of(g), 0, 128};
    struct lent b;

    CHECK(do_fill(g, a.im, 0, 1) == 0 && do_fill(g, a.im, 0, 2) == 0);
    EXPECT(a, g, 0, 0, 0, 0, 0);
    a.im[0] = 1000000;
    EXPECT(a, g, 0, 0, 0, 6, 0);
    b = a;
    b.number = 1;
    EXPECT(b, g, 0, 0, 3, 3, 3);
    b.buffer_words = 0;
    EXPECT(b, g, 0, 0, 2, 2, 3);
    a.im[384] = 1000001;
    EXPECT(a, g, 0, 4, 4, 4, 4);
    CHECK(do_fill(g, a.im, 0, 3) == 4 && bad_is((struct pair){1, 1}));
    free(a.im);
}

/* ---- Each rule alone, with the sound image beside it -------------------- */

/* Rule 0 stands for none. */
static void verdict(struct shape g, uint32_t *im, struct pair want, int line)
{
    uint32_t rules = want.rule == 0 ? 0 : UINT32_C(1) << want.rule;
    uint32_t answer = want.rule == 0 ? 0 : 4;

    check_at(broken(g, im) == rules, "one rule", line);
    check_at(do_check(g, im) == answer && bad_is(want), "check", line);
    check_at(do_report(g, im) == answer && bad_is(want), "report", line);
}

#define VERDICT(block, rule) \
    verdict(g, im, (struct pair){block, rule}, __LINE__)

static void test_r1(struct shape g)
{
    uint32_t *im = fresh(g);

    for (uint32_t b = 0; b < g.b; b++) {
        head_of(g, im, b)[0] = 1000000;
        VERDICT(0, 0);
        head_of(g, im, b)[0] = 1000001;
        VERDICT(b, 1);
        head_of(g, im, b)[0] = ONES;
        VERDICT(b, 1);
        head_of(g, im, b)[0] = 1000000;
    }
    VERDICT(0, 0);
    free(im);
}

static void test_r2(struct shape g)
{
    static const uint32_t in_use[] = {3, LIVE, PASSING, 0xE0000000, 0x7FFFFFFF,
                                      0xFFFFFFFE, 0};
    uint32_t *im = fresh(g);
    uint32_t *h = head_of(g, im, 1);

    for (uint32_t i = 0; i < 32 * k_of(g); i++) {
        *map_of(g, im, 1, i) ^= UINT32_C(1) << i % 32;
        if (i < d_of(g)) {
            if (d_of(g) == 1)
                h[1] = h[2] = 0; /* full, with the slot taken */
            VERDICT(0, 0);
            for (size_t j = 0; j < sizeof in_use / sizeof in_use[0]; j++) {
                *entry_of(g, im, 1, i) = in_use[j];
                VERDICT(0, 0);
                *map_of(g, im, 1, i) ^= UINT32_C(1) << i % 32;
                VERDICT(1, 2);
                *map_of(g, im, 1, i) ^= UINT32_C(1) << i % 32;
            }
            *entry_of(g, im, 1, i) = ONES;
            h[1] = h[2] = ONES;
        } else {
            VERDICT(1, 2);
        }
        *map_of(g, im, 1, i) ^= UINT32_C(1) << i % 32;
        VERDICT(0, 0);
    }
    free(im);
}

static void test_r3(struct shape g)
{
    uint32_t *im = fresh(g);

    for (uint32_t s = 0; s < d_of(g); s++) {
        bool thorough = s == 0 || s + 1 == d_of(g);

        for (uint32_t i = 0; i < 128; i += thorough ? 1 : 127) {
            data_of(g, im, 1, s)[i] ^= UINT32_C(1) << i % 32;
            VERDICT(1, 3);
            data_of(g, im, 1, s)[i] = ONES;
        }
        VERDICT(0, 0);
    }
    /* The same in a slot that is taken, with an entry in use or still without
     * one: nothing is asked of its contents. */
    data_of(g, im, 1, 0)[127] = 0;
    seat(g, im, 1, 0, 0);
    if (d_of(g) == 1)
        head_of(g, im, 1)[1] = head_of(g, im, 1)[2] = 0;
    VERDICT(0, 0);
    seat(g, im, 1, 0, ONES);
    VERDICT(0, 0);
    free(im);
}

static void test_r4(struct shape g)
{
    uint32_t *im = fresh(g);

    for (uint32_t s = 0; s < d_of(g); s++) {
        seat(g, im, 1, s, LIVE + g.l - 1);
        if (s + 1 == d_of(g))
            head_of(g, im, 1)[1] = 0, head_of(g, im, 1)[2] = 0xFFFF;
        VERDICT(0, 0);
        *entry_of(g, im, 1, s) = LIVE + g.l;
        VERDICT(1, 4);
        *entry_of(g, im, 1, s) = 0xDFFFFFFF;
        VERDICT(1, 4);
        /* The same numbers in entries that are dead. */
        *entry_of(g, im, 1, s) = 0x80000000 + g.l;
        VERDICT(0, 0);
        *entry_of(g, im, 1, s) = 0xE0000000 + g.l;
        VERDICT(0, 0);
    }
    free(im);
}

static void test_r5(struct shape g)
{
    uint32_t *im = fresh(g);
    uint32_t last = d_of(g) - 1;

    for (uint32_t n = 0; n < g.l; n += n < 40 ? 1 : 31) {
        for (uint32_t b = 0; b < 2; b++) {
            uint32_t *e = entry_of(g, im, b, last);

            seat(g, im, 0, 0, LIVE + n);
            seat(g, im, b, last, PASSING + n);
            VERDICT(b, 8);
            *entry_of(g, im, 0, 0) = PASSING + n;
            VERDICT(b, 5);
            *e = LIVE + n;
            VERDICT(0, 8);
            *entry_of(g, im, 0, 0) = LIVE + n;
            VERDICT(b, 5);
            *e = n;
            VERDICT(0, 0);
            *e = 0xE0000000 + n;
            VERDICT(0, 0);
            *e = LIVE + (n == 0 ? 1 : n - 1);
            VERDICT(0, 0);
            *e = PASSING + (n == 0 ? 1 : n - 1);
            VERDICT(0, 0);
            *e = LIVE + n;
            *entry_of(g, im, 0, 0) = 0x40000000 + n;
            VERDICT(0, 0);
            *entry_of(g, im, 0, 0) = ONES;
            *e = ONES;
            *map_of(g, im, 0, 0) = *map_of(g, im, b, last) = ONES;
            *map_of(g, im, 0, last) = ONES;
        }
    }
    free(im);
}

/* The last slot of a block, by an entry or by no more than its bit. */
static void take_last(struct shape g, uint32_t *im, uint32_t b, uint32_t entry)
{
    seat(g, im, b, d_of(g) - 1, entry);
    if (d_of(g) == 1) /* that makes it full */
        head_of(g, im, b)[1] = head_of(g, im, b)[2] = 0;
}

static void test_r6(struct shape g, uint32_t entry)
{
    uint32_t *im = fresh(g);

    for (uint32_t b = 0; b < g.b; b++) {
        VERDICT(0, 0);
        take_last(g, im, b, entry);
    }
    VERDICT(g.b, 6);
    for (uint32_t b = 0; b < g.b; b++) {
        *entry_of(g, im, b, d_of(g) - 1) = ONES;
        *map_of(g, im, b, d_of(g) - 1) = ONES;
        head_of(g, im, b)[1] = head_of(g, im, b)[2] = ONES;
        VERDICT(0, 0);
        take_last(g, im, b, entry);
    }
    free(im);
}

static void test_r7_with_free(struct shape g)
{
    uint32_t *im = fresh(g);
    uint32_t *h = head_of(g, im, 0);

    for (uint32_t w = 1; w <= 2; w++) { /* blank */
        h[w] = 0x7FFFFFFF;
        VERDICT(0, 7);
        h[w] = ONES;
        VERDICT(0, 0);
    }
    for (uint32_t s = 0; s + 1 < d_of(g); s++) /* open, 3 and 5 live */
        seat(g, im, 0, s, s == 0 ? LIVE + 3 : s == 1 ? LIVE + 5 : s);
    VERDICT(0, 0);
    h[1] = 3;
    VERDICT(0, 7);
    h[1] = ONES;
    h[2] = 5;
    VERDICT(0, 7);
    h[1] = 3; /* what would be right in the full block */
    VERDICT(0, 7);
    free(im);
}

static void test_r7_full(struct shape g)
{
    uint32_t *im = fresh(g);
    uint32_t *h = head_of(g, im, 0);
    uint32_t d = d_of(g);

    for (uint32_t s = 0; s < d; s++) /* with dead numbers outside */
        seat(g, im, 0, s, s == 0 ? LIVE + 3 : s == 1 ? LIVE + 5 : 2);
    h[1] = 3;
    h[2] = 5;
    VERDICT(0, 0);
    h[1] = 4;
    VERDICT(0, 7);
    h[1] = ONES;
    VERDICT(0, 7);
    h[1] = 2;
    VERDICT(0, 0);
    h[1] = 0;
    VERDICT(0, 0);
    h[2] = 4;
    VERDICT(0, 7);
    h[2] = 6;
    VERDICT(0, 0);
    h[2] = ONES - 1;
    VERDICT(0, 0);
    h[2] = ONES; /* no less than any number, but not programmed */
    VERDICT(0, 7);
    *entry_of(g, im, 0, d - 1) = LIVE + 6; /* the last slot counts too */
    h[2] = 5;
    VERDICT(0, 7);
    *entry_of(g, im, 0, d - 1) = PASSING + 6;
    VERDICT(0, 7);
    h[2] = 6;
    VERDICT(0, 0);
    *entry_of(g, im, 0, d - 1) = PASSING + g.l; /* dead */
    h[2] = 5;
    VERDICT(0, 0);
    *entry_of(g, im, 0, d - 1) = ONES; /* not so its bit in the map */
    VERDICT(0, 0);
    free(im);
}

/* With no live number any two words will do that are not all ones. */
static void test_r7_all_dead(struct shape g)
{
    static const uint32_t fine[] = {0, 1, 6, 0x80000000, 0x7FFFFFFF,
                                    0xFFFFFFFE};
    uint32_t *im = fresh(g);
    uint32_t *h = head_of(g, im, 1);

    for (uint32_t s = 0; s < d_of(g); s++)
        seat(g, im, 1, s, s % 3 == 0 ? ONES : s % 3 == 1 ? 3 : PASSING + g.l);
    for (uint32_t round = 0; round < 2; round++) {
        VERDICT(1, 7);
        for (size_t i = 0; i < 6; i++) {
            h[1] = fine[i];
            h[2] = ONES;
            VERDICT(1, 7);
            for (size_t j = 0; j < 6; j++) {
                h[2] = fine[j];
                VERDICT(0, 0);
            }
            h[1] = ONES;
            VERDICT(1, 7);
        }
        h[2] = ONES;
        for (uint32_t s = 0; s < d_of(g); s++)
            *entry_of(g, im, 1, s) = ONES; /* taken, and no more than that */
    }
    free(im);
}

static void test_rules(void)
{
    static const struct shape shapes[] = {
        {3, 5, 7}, {8, 16, 90}, {4, 33, 95}, {4, 34, 98}, {3, 64, 125},
    };

    for (size_t i = 0; i < sizeof shapes / sizeof shapes[0]; i++) {
        test_r1(shapes[i]);
        test_r2(shapes[i]);
        test_r3(shapes[i]);
        test_r4(shapes[i]);
        test_r5(shapes[i]);
        test_r6(shapes[i], 0x00000001);
        test_r6(shapes[i], ONES);
        test_r7_with_free(shapes[i]);
        test_r7_full(shapes[i]);
        test_r7_all_dead(shapes[i]);
    }
    test_r1((struct shape){3, 2, 1});
    test_r2((struct shape){3, 2, 1});
    test_r3((struct shape){3, 2, 1});
    test_r4((struct shape){3, 2, 1});
    test_r6((struct shape){3, 2, 1}, 0x00000001);
    test_r6((struct shape){3, 2, 1}, ONES);
    test_r6((struct shape){2, 3, 1}, ONES);
    test_r7_all_dead((struct shape){3, 2, 1});
    test_r7_all_dead((struct shape){2, 3, 1});
}

/* ---- The first of several faults ---------------------------------------- */

/* Block 1 is blank.  In every other one the first five slots and the last five
 * are live, dead, dead, free and dead, and those between are dead: room to
 * break each rule of a block, low or high in it, without a touch on the
 * others. */
static uint32_t *roomy(struct shape g)
{
    uint32_t *im = fresh(g);
    uint32_t high = d_of(g) - 5;

    for (uint32_t b = 0; b < g.b; b++)
        for (uint32_t s = 0; s < d_of(g) && b != 1; s++) {
            if (s == 0 || s == high)
                seat(g, im, b, s, LIVE + 2 * b + (s == high));
            else if (s != 3 && s != high + 3)
                seat(g, im, b, s, 0x40000000 + 2 * b);
        }
    CHECK(broken(g, im) == 0 && do_check(g, im) == 0);
    return im;
}

static void break_rule(struct shape g, uint32_t *im, struct pair what,
                       bool high)
{
    uint32_t b = what.block, s = high ? d_of(g) - 5 : 0;

    switch (what.rule) {
    case 1: head_of(g, im, b)[0] = high ? ONES : 1000001; break;
    case 2:
        if (high) /* the last bit of the map, of no slot */
            *map_of(g, im, b, d_of(g)) &= 0x7FFFFFFF;
        else
            *map_of(g, im, b, s + 1) |= UINT32_C(1) << (s + 1) % 32;
        break;
    case 3: data_of(g, im, b, s + 3)[high ? 127 : 0] = 0; break;
    case 4: *entry_of(g, im, b, s + 1) = high ? 0xDFFFFFFF : LIVE + g.l; break;
    /* Again the first number of the image, or of the block itself. */
    case 5: *entry_of(g, im, b, s + 2) = LIVE + (high ? 0 : 2 * b); break;
    case 6: seat(g, im, 1, s, high ? ONES : 0); break;
    case 7: head_of(g, im, b)[high ? 2 : 1] = 0; break;
    /* By the first number of the image, or by one of the last block. */
    default:
        *entry_of(g, im, b, s + 4) = PASSING + (high ? 0 : 2 * (g.b - 1));
        break;
    }
}

/* The rules of the first, a middle and the last block of a roomy image, in the
 * order in which they are gone through: of a set of them the one with the
 * lowest number here is named. */
#define BREAKS (3 * BLOCK_RULES)

static struct pair break_at(struct shape g, size_t i)
{
    uint32_t blocks[3] = {0, g.b / 2, g.b - 1};

    return (struct pair){blocks[i / BLOCK_RULES],
                         block_rules[i % BLOCK_RULES].rule};
}

/* Three breaks in ascending order, fewer when some are equal: done together,
 * without R6 and then with it.  Bit i of high says where the i-th is done. */
static void expect_first(struct shape g, const uint32_t *sound,
                         const size_t at[3], uint32_t high, int line)
{
    struct pair want = break_at(g, at[0]);
    struct lent a = {g, copy_of(g, sound), len_of(g), 0, 128};
    uint32_t rules = 0;

    for (uint32_t i = 0; i < 3; i++) {
        struct pair what = break_at(g, at[i]);

        if (i > 0 && at[i] == at[i - 1])
            continue;
        break_rule(g, a.im, what, bit(high, i));
        rules |= UINT32_C(1) << what.rule;
    }
    for (uint32_t round = 0; round < 2; round++) {
        check_at(broken(g, a.im) == rules, "these rules", line);
        check_at(do_check(g, a.im) == 4 && bad_is(want), "first", line);
        expect(a, g, 0, 4, 4, 4, 4, line);
        break_rule(g, a.im, (struct pair){g.b, 6}, bit(high, 0));
        rules |= UINT32_C(1) << 6;
    }
    free(a.im);
}

#define EXPECT_FIRST(i, j, k, high) \
    expect_first(g, sound, (const size_t[]){i, j, k}, high, __LINE__)

static void test_one_to_three_breaks(struct shape g)
{
    uint32_t *sound = roomy(g);

    for (size_t i = 0; i < BREAKS; i++) {
        EXPECT_FIRST(i, i, i, 0);
        EXPECT_FIRST(i, i, i, 1);
        for (size_t j = i + 1; j < BREAKS; j++) {
            for (uint32_t high = 0; high < 4; high++)
                EXPECT_FIRST(i, j, j, high);
            for (size_t k = j + 1; k < BREAKS; k += 1 + below(2))
                EXPECT_FIRST(i, j, k, below(8));
        }
    }
    free(sound);
}

/* Each break by itself, with arguments that are refused before it. */
static void test_breaks_behind_refusals(struct shape g)
{
    uint32_t *sound = roomy(g);

    for (size_t i = 0; i <= BREAKS; i++) {
        struct lent a = {g, copy_of(g, sound), len_of(g), 0, 128};
        struct pair what = i < BREAKS ? break_at(g, i) : (struct pair){g.b, 6};

        break_rule(g, a.im, what, i % 2 == 0);
        CHECK(do_check(g, a.im) == 4 && bad_is(what));
        expect_around_4(a);
        free(a.im);
    }
    free(sound);
}

#define NAMED(block, rule) \
    CHECK(do_check(g, im) == 4 && bad_is((struct pair){block, rule}))

/* One number live in two slots, wherever the two are: block and slot go
 * through the image as one number, p before q. */
static void test_r5_charges_the_later(void)
{
    struct shape g = {5, 4, 9};
    uint32_t d = d_of(g);

    for (uint32_t q = 0; q < g.b * d; q++)
        for (uint32_t p = 0; p < q; p++) {
            uint32_t *im = fresh(g);

            /* The one stored first need not be the earlier. */
            seat(g, im, q / d, q % d, LIVE + 8);
            VERDICT(0, 0);
            seat(g, im, p / d, p % d, LIVE + 8);
            VERDICT(q / d, 5);
            free(im);
        }
}

static void test_r5_among_others(void)
{
    struct shape g = {6, 4, 9};
    uint32_t *im = fresh(g);

    seat(g, im, 1, 1, LIVE + 4);
    seat(g, im, 3, 0, LIVE + 4);
    seat(g, im, 4, 2, LIVE + 4); /* three slots: the second is the first bad */
    VERDICT(3, 5);
    *entry_of(g, im, 3, 0) = 0x40000004;
    VERDICT(4, 5);
    *entry_of(g, im, 1, 1) = LIVE + 9;
    VERDICT(1, 4);
    *entry_of(g, im, 4, 2) = LIVE + 9; /* twice there, but not live */
    VERDICT(1, 4);
    *entry_of(g, im, 1, 1) = *entry_of(g, im, 4, 2) = LIVE + 4;

    head_of(g, im, 5)[0] = ONES; /* behind the later block */
    NAMED(4, 5);
    head_of(g, im, 4)[2] = 7; /* in it, but after R5 */
    NAMED(4, 5);
    *map_of(g, im, 4, 0) = 0; /* in it, before R5 */
    NAMED(4, 2);
    head_of(g, im, 3)[1] = 7; /* between the two */
    NAMED(3, 7);
    head_of(g, im, 1)[2] = 7; /* in the block of the earlier */
    NAMED(1, 7);
    data_of(g, im, 0, 2)[5] = 0;
    NAMED(0, 3);
    free(im);
}

/* A slot is live by its entry alone, whatever the map says of it, but free by
 * both. */
static void test_map_hides_no_entry(void)
{
    struct shape g = {4, 5, 9};
    uint32_t *im = fresh(g);

    seat(g, im, 0, 1, LIVE + 3);
    *entry_of(g, im, 2, 2) = LIVE + 3;
    CHECK(broken(g, im) == (1u << 2 | 1u << 5));
    NAMED(2, 2);
    *map_of(g, im, 2, 2) = ~UINT32_C(4);
    VERDICT(2, 5);
    *entry_of(g, im, 2, 2) = ONES;
    data_of(g, im, 2, 2)[9] = 0;
    VERDICT(0, 0);
    *map_of(g, im, 2, 2) = ONES;
    VERDICT(2, 3);

    /* What the map calls free supersedes and is superseded like the rest. */
    *entry_of(g, im, 2, 2) = PASSING + 3;
    CHECK(broken(g, im) == (1u << 2 | 1u << 8));
    NAMED(2, 2);
    *map_of(g, im, 2, 2) = ~UINT32_C(4);
    VERDICT(2, 8);
    *entry_of(g, im, 0, 1) = PASSING + 3;
    VERDICT(2, 5);
    *entry_of(g, im, 2, 2) = LIVE + 3;
    *map_of(g, im, 2, 2) = ONES;
    CHECK(broken(g, im) == (1u << 2 | 1u << 8));
    NAMED(0, 8);
    free(im);
}

/* R7 as full blocks break it, behind and before the other rules. */
static void test_r7_of_full_among_others(void)
{
    struct shape g = {4, 5, 9};
    uint32_t *im = fresh(g);
    uint32_t *h = head_of(g, im, 2);

    for (uint32_t s = 0; s < 4; s++)
        seat(g, im, 2, s, LIVE + 2 + s);
    h[1] = 3;
    h[2] = 5;
    VERDICT(2, 7);
    head_of(g, im, 3)[0] = ONES;
    NAMED(2, 7);
    *entry_of(g, im, 2, 3) = LIVE + 4;
    NAMED(2, 5);
    *entry_of(g, im, 2, 1) = LIVE + 9;
    NAMED(2, 4);
    *map_of(g, im, 2, 0) ^= 0x80000000;
    NAMED(2, 2);
    h[0] = 1000001;
    NAMED(2, 1);
    head_of(g, im, 1)[1] = 0;
    NAMED(1, 7);
    free(im);
}

/* Every block full or open; the pair that R6 gets is that of no block. */
static void test_r6_behind_all(struct shape g)
{
    uint32_t *im = fresh(g);

    for (uint32_t b = 0; b < g.b; b++)
        seat(g, im, b, 0, 0);
    NAMED(g.b, 6);
    for (uint32_t b = g.b; b-- > 0;) {
        *entry_of(g, im, b, 0) = LIVE + g.l;
        NAMED(b, 4);
    }
    free(im);
}

static void test_first_faults(void)
{
    test_one_to_three_breaks((struct shape){5, 11, 20});
    test_breaks_behind_refusals((struct shape){5, 11, 20});
    test_breaks_behind_refusals((struct shape){4, 41, 100});
    test_breaks_behind_refusals((struct shape){64, 64, 3968});
    test_r5_charges_the_later();
    test_r5_among_others();
    test_map_hides_no_entry();
    test_r7_of_full_among_others();
    test_r6_behind_all((struct shape){2, 3, 1});
    test_r6_behind_all((struct shape){64, 3, 100});
}

/* ---- Many calls against an array ---------------------------------------- */

static uint32_t word_for(uint32_t number, uint32_t stamp, uint32_t i)
{
    uint32_t x = number * 0x9E3779B1u ^ stamp * 0x85EBCA77u ^ i * 0xC2B2AE3Du;

    x ^= x >> 15;
    if (stamp % 5 == 1)
        return 0;
    if (stamp % 5 == 2)
        return ONES;
    return x * 0x2C1B3C6Du ^ x >> 12;
}

static void sector_for(uint32_t number, uint32_t stamp, uint32_t *buffer)
{
    for (uint32_t i = 0; i < 128; i++)
        buffer[i] = word_for(number, stamp, i);
}

/* Stamp 0: not mapped. */
static bool reads_as(struct shape g, uint32_t *im, uint32_t n, uint32_t stamp)
{
    uint32_t got[SECTOR], want[SECTOR];
    uint32_t answer;

    memset(got, 0xA5, sizeof got);
    answer = do_read(g, im, n, got);
    if (stamp == 0)
        return answer == 5 && all_are(got, 128, POISON);
    sector_for(n, stamp, want);
    return answer == 0 && memcmp(got, want, sizeof got) == 0;
}

static void test_many(struct shape g, uint32_t calls, uint32_t compare_every)
{
    struct second_geometry x = {g.b, g.s, g.l};
    uint32_t dearest = 136 + 133 * (d_of(g) - second_gain(x));
    uint32_t *im = fresh(g);
    uint32_t *model = fresh(g);
    uint32_t *stamp = calloc(g.l, sizeof *stamp);
    uint32_t writes = 0, erased = 0, mapped = 0;

    if (!stamp)
        abort();
    for (uint32_t i = 1; i <= calls; i++) {
        /* First every number once, so that the image gets as full as it can,
         * then now and then a stretch over few numbers. */
        uint32_t n = i <= g.l ? (i * 7919u) % g.l
                   : i % 256 < 64 ? below(g.l) / 8 : below(g.l);
        uint32_t what = i <= g.l ? 0 : below(16);
        uint32_t buffer[SECTOR];
        uint32_t w, e;

        if (what < 14) {
            sector_for(n, i, buffer);
            CHECK(do_write(g, im, n, buffer) == 0);
            CHECK(model_write(g, model, n, buffer, &w, &e) == 0);
            CHECK(counts_are(w, e) && words <= dearest && erasures <= 1);
            writes++;
            erased += erasures;
            /* A reclaim wins at least g slots. */
            CHECK(erased == 0 || writes > (g.b - 1) * d_of(g) +
                                          (erased - 1) * second_gain(x));
            mapped += stamp[n] == 0;
            stamp[n] = i;
        } else if (what == 14) {
            uint32_t answer = do_release(g, im, n);

            CHECK(answer == (stamp[n] == 0 ? 5u : 0u));
            CHECK(answer == model_release(g, model, n, &w, &e));
            CHECK(counts_are(w, e));
            mapped -= stamp[n] != 0;
            stamp[n] = 0;
        } else {
            CHECK(reads_as(g, im, n, stamp[n]));
        }
        if (i % compare_every == 0 || i == calls)
            CHECK(same(g, im, model));
    }
    CHECK(erased > 0);
    CHECK(do_check(g, im) == 0 && do_report(g, im) == 0);
    CHECK(report[0] == mapped && report[3] == erased);
    CHECK(report[0] + report[1] + report[2] == g.b * d_of(g));
    for (uint32_t n = 0; n < g.l; n++)
        CHECK(reads_as(g, im, n, stamp[n]));
    free(im);
    free(model);
    free(stamp);
}

static void test_many_shapes(void)
{
    test_many((struct shape){2, 3, 1}, 3000, 1);
    test_many((struct shape){3, 2, 1}, 3000, 1);
    test_many((struct shape){2, 64, 62}, 2000, 1);
    test_many((struct shape){64, 2, 62}, 2000, 1);
    test_many((struct shape){64, 2, 1}, 500, 1);
    test_many((struct shape){3, 5, 7}, 5000, 1);
    test_many((struct shape){8, 16, 90}, 5000, 1);
    test_many((struct shape){8, 16, 104}, 5000, 1);
    test_many((struct shape){4, 33, 95}, 2000, 1);
    test_many((struct shape){4, 34, 98}, 2000, 1);
    test_many((struct shape){5, 64, 200}, 2000, 1);
    test_many((struct shape){64, 64, 3968}, 5000, 100);
    test_many((struct shape){64, 64, 2000}, 4900, 100);
}

/* ---- Images that no call made ------------------------------------------- */

static uint32_t dead_entry(struct shape g)
{
    for (;;) {
        uint32_t e = below(2) ? rnd() : (below(8) << 29) + below(g.l + 2);

        if (e != ONES && dead_by_itself(g, e))
            return e;
    }
}

/* For a dead slot: now and then an entry that is not in use at all. */
static uint32_t dead_slot(struct shape g)
{
    return below(4) == 0 ? ONES : dead_entry(g);
}

/* A random sound image: holes anywhere, several open blocks, any count. */
static void draw_image(struct shape g, uint32_t *im)
{
    static const uint32_t least_counts[] = {0, 3, 500000, 999998};
    uint32_t base = least_counts[below(4)];
    uint32_t blank = below(g.b);
    uint32_t fullness = below(3);
    uint32_t liveness = below(4);
    uint32_t next = 0; /* numbers below are live already */

    CHECK(do_format(g, im) == 0);
    for (uint32_t b = 0; b < g.b; b++) {
        uint32_t *h = head_of(g, im, b);
        uint32_t style = fullness == 0 ? 2 : below(fullness == 1 ? 3 : 8);

        h[0] = base + below(3);
        for (uint32_t i = 3 + k_of(g) + d_of(g); i < 128; i++)
            h[i] = rnd();
        if (b == blank || style == 0)
            continue;
        for (uint32_t s = 0; s < d_of(g); s++) {
            if (style == 1 && below(2))
                continue;
            if (next < g.l && below(4) <= liveness)
                seat(g, im, b, s, (below(4) ? LIVE : PASSING) + next++);
            else
                seat(g, im, b, s, dead_slot(g));
            for (uint32_t i = 0; i < 128; i++)
                data_of(g, im, b, s)[i] = rnd();
        }
        if (count_kind(g, im, b, FREE) == 0) {
            h[1] = 0;
            h[2] = below(2) ? g.l - 1 : ONES - 1;
        }
    }
}

static void call_and_compare(struct shape g, uint32_t *im, uint32_t *model,
                             uint32_t n)
{
    uint32_t buffer[SECTOR];
    uint32_t w, e, answer;

    for (uint32_t i = 0; i < 128; i++)
        buffer[i] = rnd();
    if (below(4) == 0) {
        answer = do_release(g, im, n);
        CHECK(answer == model_release(g, model, n, &w, &e));
    } else {
        answer = do_write(g, im, n, buffer);
        CHECK(answer == model_write(g, model, n, buffer, &w, &e));
    }
    CHECK(counts_are(w, e));
    CHECK(same(g, im, model));
    CHECK(do_check(g, im) == 0);
}

static void spoil(struct shape g, uint32_t *im)
{
    uint32_t b = below(g.b), s = below(d_of(g));
    uint32_t *h = head_of(g, im, b);
    uint32_t any = UINT32_C(1) << below(32);

    switch (below(10)) {
    case 0: h[below(3)] = below(2) ? rnd() : below(g.l + 1); break;
    case 1: h[0] = 999999 + below(3); break;
    case 2: *map_of(g, im, b, s) ^= any; break;
    case 3: *entry_of(g, im, b, s) = LIVE + below(g.l + 1); break;
    case 4: *entry_of(g, im, b, s) ^= any; break;
    case 5: data_of(g, im, b, s)[below(128)] ^= any; break;
    case 6: seat(g, im, b, s, dead_slot(g)); break;
    case 7: *entry_of(g, im, b, s) = PASSING + below(g.l + 1); break;
    case 8: seat(g, im, b, s, PASSING + below(g.l + 1)); break;
    default: h[3 + k_of(g) + d_of(g) + below(20)] = rnd(); break;
    }
}

static void test_drawn_images(void)
{
    static const struct shape shapes[] = {
        {2, 3, 1}, {3, 2, 1}, {3, 5, 7}, {4, 4, 8}, {4, 5, 6}, {3, 34, 60},
        {6, 3, 9},
    };

    for (uint32_t round = 0; round < 2100; round++) {
        struct shape g = shapes[round % 7];
        uint32_t *im = lend(g), *model = lend(g);
        uint32_t sound;

        draw_image(g, im);
        memcpy(model, im, len_of(g) * sizeof *im);
        CHECK(broken(g, im) == 0 && do_check(g, im) == 0);
        for (uint32_t i = 0; i < 8; i++)
            call_and_compare(g, im, model, below(g.l));
        for (uint32_t i = 0; i < 4; i++) {
            struct lent a = {g, im, len_of(g), below(g.l), 128};

            spoil(g, im);
            sound = broken(g, im) == 0;
            CHECK(do_check(g, im) == (sound ? 0u : 4u));
            if (!sound) {
                EXPECT(a, g, 0, 4, 4, 4, 4);
                break;
            }
            memcpy(model, im, len_of(g) * sizeof *im);
            call_and_compare(g, im, model, a.number);
        }
        free(im);
        free(model);
    }
}

/* ---- Damage ------------------------------------------------------------- */

/* Any word of a block, more often than their number one that rules read. */
static void scribble(struct shape g, uint32_t *im)
{
    uint32_t *h = head_of(g, im, below(g.b));
    uint32_t *w = h + below(below(4) ? 3 + k_of(g) + d_of(g) : 128 * g.s);

    switch (below(4)) {
    case 0: *w = rnd(); break;
    case 1: *w ^= UINT32_C(1) << below(32); break;
    case 2: *w = (below(2) ? LIVE : PASSING) + below(g.l + 1); break;
    default: *w = below(2) ? ONES : 0; break;
    }
}

static void damage(struct shape g, uint32_t *im)
{
    for (uint32_t left = 1 + below(4); left > 0; left--) {
        if (below(2))
            spoil(g, im);
        else
            scribble(g, im);
    }
}

/* Each rule comes up often enough, also as the first of several. */
static void test_damaged_images(void)
{
    static const struct shape shapes[] = {
        {2, 3, 1}, {3, 2, 1}, {3, 5, 7}, {4, 4, 8}, {4, 5, 6}, {3, 34, 60},
        {6, 3, 9}, {9, 3, 12},
    };
    uint32_t alone[9] = {0}, before_others[9] = {0};

    for (uint32_t round = 0; round < 1600; round++) {
        struct shape g = shapes[round % 8];
        uint32_t *drawn = lend(g);

        draw_image(g, drawn);
        for (uint32_t i = 0; i < 10; i++) {
            struct lent a = {g, copy_of(g, drawn), len_of(g), 0, 128};
            struct pair first;

            damage(g, a.im);
            first = first_fault(g, a.im);
            if (broken(g, a.im) == UINT32_C(1) << first.rule)
                alone[first.rule]++;
            else
                before_others[first.rule]++;
            CHECK(do_check(g, a.im) == (first.rule == 0 ? 0u : 4u));
            if (first.rule != 0 && i == 0)
                EXPECT(a, g, 0, 4, 4, 4, 4);
            free(a.im);
        }
        free(drawn);
    }
    for (uint32_t rule = 1; rule <= 8; rule++)
        CHECK(alone[rule] > 100 && (rule == 6 || before_others[rule] > 10));
}

/* ---- The table beside the image ----------------------------------------- */

#define NONE UINT16_C(0xFFFF) /* the word of a number that is not mapped */

/* Exactly as long as the table, so that a step outside is caught. */
static uint16_t *lend_table(size_t table_words)
{
    uint16_t *table = malloc(table_words ? table_words * sizeof *table : 1);

    if (!table)
        abort();
    return table;
}

static uint16_t *random_table(size_t table_words)
{
    uint16_t *table = lend_table(table_words);

    for (size_t i = 0; i < table_words; i++)
        table[i] = (uint16_t)rnd();
    return table;
}

static uint16_t *copy_of_table(size_t table_words, const uint16_t *table)
{
    return memcpy(lend_table(table_words), table,
                  table_words * sizeof *table);
}

static bool same_table(size_t table_words, const uint16_t *a,
                       const uint16_t *b)
{
    return memcmp(a, b, table_words * sizeof *a) == 0;
}

/* The walk: slots are numbered through the image. */
static uint16_t *right_table(struct shape g, uint32_t *im)
{
    uint16_t *table = lend_table(g.l);
    uint32_t d = d_of(g);

    for (uint32_t n = 0; n < g.l; n++)
        table[n] = NONE;
    for (uint32_t p = 0; p < g.b * d; p++) {
        if (lives(g, im, p / d, p % d))
            table[number_of(*entry_of(g, im, p / d, p % d))] = (uint16_t)p;
    }
    return table;
}

static bool is_right(struct shape g, uint32_t *im, const uint16_t *table)
{
    uint16_t *right = right_table(g, im);
    bool good = same_table(g.l, table, right);

    free(right);
    return good;
}

/* What a call does to a table, from the images before it and after it: a
 * number that was placed or released is not where it was, and its word is set;
 * all others are where they were, and their words keep what they had. */
static void carry(struct shape g, uint32_t *before, uint32_t *after,
                  uint16_t *table)
{
    uint16_t *was = right_table(g, before), *is = right_table(g, after);

    for (uint32_t n = 0; n < g.l; n++)
        if (was[n] != is[n])
            table[n] = is[n];
    free(was);
    free(is);
}

enum call { BUILD, READ, WRITE, RELEASE, CALLS };

/* The buffer is 128 words whatever is told of it. */
static uint32_t call_with(enum call c, struct lent a, uint32_t *buffer,
                          uint16_t *table, size_t table_words)
{
    struct shape g = a.g;

    poison();
    if (c == BUILD || c == READ)
        words = erasures = 0; /* as if reported */
    switch (c) {
    case BUILD:
        return second_build_table(g.b, g.s, g.l, a.im, a.im_words, table,
                                  table_words, &bad.block, &bad.rule);
    case READ:
        return second_read_with_table(g.b, g.s, g.l, a.im, a.im_words,
                                      a.number, buffer, a.buffer_words, table,
                                      table_words, &bad.block, &bad.rule);
    case WRITE:
        return second_write_with_table(g.b, g.s, g.l, a.im, a.im_words,
                                       a.number, buffer, a.buffer_words, table,
                                       table_words, &words, &erasures,
                                       &bad.block, &bad.rule);
    default:
        return second_release_with_table(g.b, g.s, g.l, a.im, a.im_words,
                                         a.number, table, table_words, &words,
                                         &erasures, &bad.block, &bad.rule);
    }
}

/* The namesake without a table.  Of building that is the check: it refuses
 * alike, and it does nothing either to the image and the buffer. */
static uint32_t call_without(enum call c, struct lent a, uint32_t *buffer)
{
    struct shape g = a.g;
    uint32_t answer;

    switch (c) {
    case BUILD: answer = do_check(g, a.im); break;
    case READ: answer = do_read(g, a.im, a.number, buffer); break;
    case WRITE: answer = do_write(g, a.im, a.number, buffer); break;
    default: answer = do_release(g, a.im, a.number); break;
    }
    if (c == BUILD || c == READ)
        words = erasures = 0;
    return answer;
}

static uint32_t do_build(struct shape g, uint32_t *im, uint16_t *table)
{
    struct lent a = {g, im, len_of(g), 0, 128};

    return judged(g, im, call_with(BUILD, a, NULL, table, g.l));
}

static uint32_t do_read_with(struct shape g, uint32_t *im, uint32_t n,
                             uint32_t *buffer, uint16_t *table)
{
    struct lent a = {g, im, len_of(g), n, 128};

    return judged(g, im, call_with(READ, a, buffer, table, g.l));
}

static uint32_t do_fill_with(struct shape g, uint32_t *im, uint32_t n,
                             uint32_t fill, uint16_t *table)
{
    struct lent a = {g, im, len_of(g), n, 128};
    uint32_t buffer[SECTOR];

    for (uint32_t i = 0; i < 128; i++)
        buffer[i] = fill;
    return judged(g, im, call_with(WRITE, a, buffer, table, g.l));
}

static uint32_t do_release_with(struct shape g, uint32_t *im, uint32_t n,
                                uint16_t *table)
{
    struct lent a = {g, im, len_of(g), n, 128};

    return judged(g, im, call_with(RELEASE, a, NULL, table, g.l));
}

/* Every word of the table, written out. */
#define TABLE_IS(...) \
    (sizeof (const uint16_t[]){__VA_ARGS__} == g.l * sizeof *table && \
     same_table(g.l, table, (const uint16_t[]){__VA_ARGS__}))

/* ---- Building it -------------------------------------------------------- */

static void test_build_fresh(struct shape g)
{
    uint32_t *im = fresh(g), *was = copy_of(g, im);
    uint16_t *table = random_table(g.l);

    CHECK(do_build(g, im, table) == 0 && same(g, im, was));
    for (uint32_t n = 0; n < g.l; n++)
        CHECK(table[n] == NONE);
    free(im);
    free(was);
    free(table);
}

static void test_build_by_hand(void)
{
    struct shape g = {3, 5, 7};
    uint32_t *im = fresh(g), *was;
    uint16_t *table = random_table(g.l);

    seat(g, im, 0, 0, 0x00000005); /* dead, and live in the slot after it */
    seat(g, im, 0, 1, LIVE + 5);
    seat(g, im, 0, 3, LIVE + 0); /* behind a hole */
    for (uint32_t s = 0; s < 4; s++) /* full, the last not complete */
        seat(g, im, 2, s, s < 3 ? LIVE + 6 - 2 * s : 0xE0000003);
    head_of(g, im, 2)[1] = 2;
    head_of(g, im, 2)[2] = 6;
    was = copy_of(g, im);
    CHECK(do_build(g, im, table) == 0 && same(g, im, was));
    CHECK(TABLE_IS(3, NONE, 10, NONE, 9, 1, 8));

    *entry_of(g, im, 0, 3) = 0x40000000; /* released */
    *entry_of(g, im, 2, 3) = LIVE + 3;   /* completed */
    *entry_of(g, im, 0, 0) = LIVE + 1;
    CHECK(do_build(g, im, table) == 0);
    CHECK(TABLE_IS(NONE, 0, 10, 11, 9, 1, 8));

    *map_of(g, im, 1, 0) = 0; /* no more a sound image */
    CHECK(do_build(g, im, table) == 4 && bad_is((struct pair){1, 2}));
    CHECK(TABLE_IS(NONE, 0, 10, 11, 9, 1, 8));
    free(im);
    free(was);
    free(table);
}

/* The least and the greatest of numbers and slots, where there are most. */
static void test_build_largest(void)
{
    struct shape g = {64, 64, 3968};
    uint32_t *im = fresh(g);
    uint16_t *table = random_table(g.l);

    seat(g, im, 63, 62, LIVE + 0);
    seat(g, im, 0, 0, LIVE + 3967);
    seat(g, im, 1, 0, LIVE + 3966);
    seat(g, im, 0, 62, LIVE + 1);
    CHECK(do_build(g, im, table) == 0);
    CHECK(table[0] == 4031 && table[1] == 62 && table[3966] == 63);
    CHECK(table[3967] == 0 && is_right(g, im, table));
    free(im);
    free(table);
}

/* ---- Keeping it: P6 to P9 and others by hand ---------------------------- */

static void test_table_p6_p7_p8(void)
{
    struct shape g = {3, 5, 7};
    uint32_t *im = fresh(g);
    uint16_t *table = random_table(g.l);
    uint32_t got[SECTOR];

    CHECK(do_build(g, im, table) == 0);
    CHECK(do_fill_with(g, im, 5, 1, table) == 0 && counts_are(131, 0));
    CHECK(TABLE_IS(NONE, NONE, NONE, NONE, NONE, 0, NONE));
    CHECK(do_fill_with(g, im, 5, 2, table) == 0 && counts_are(133, 0));
    CHECK(TABLE_IS(NONE, NONE, NONE, NONE, NONE, 1, NONE));
    CHECK(do_read_with(g, im, 5, got, table) == 0 && all_are(got, 128, 2));
    CHECK(do_read_with(g, im, 6, got, table) == 5 && all_are(got, 128, 2));
    CHECK(do_fill_with(g, im, 0, 3, table) == 0 && counts_are(131, 0));
    CHECK(TABLE_IS(2, NONE, NONE, NONE, NONE, 1, NONE));
    CHECK(do_release_with(g, im, 5, table) == 0 && counts_are(1, 0));
    CHECK(TABLE_IS(2, NONE, NONE, NONE, NONE, NONE, NONE));
    CHECK(do_release_with(g, im, 5, table) == 5 && counts_are(0, 0));
    CHECK(do_read_with(g, im, 5, got, table) == 5 && all_are(got, 128, 2));
    CHECK(TABLE_IS(2, NONE, NONE, NONE, NONE, NONE, NONE));
    free(im);
    free(table);
}

/* From the third write on the number is moved before it is placed. */
static void test_table_p9(void)
{
    static const uint16_t slots[5] = {0, 1, 3, 1, 3};
    static const uint32_t costs[5] = {131, 135, 269, 269, 269};
    struct shape g = {2, 3, 1};
    uint32_t *im = fresh(g);
    uint16_t *table = random_table(g.l);

    for (uint32_t i = 0; i < 5; i++) {
        table[0] = (uint16_t)rnd();
        CHECK(do_fill_with(g, im, 0, i, table) == 0);
        CHECK(counts_are(costs[i], i < 2 ? 0 : 1) && TABLE_IS(slots[i]));
    }
    free(im);
    free(table);
}

static void test_table_106_writes(void)
{
    struct shape g = {8, 16, 90};
    uint32_t *im = fresh(g);
    uint16_t *table = random_table(g.l);

    CHECK(do_build(g, im, table) == 0);
    for (uint32_t i = 0; i < 106; i++) {
        CHECK(do_fill_with(g, im, 0, i, table) == 0 && table[0] == i);
        CHECK(erasures == (i < 105 ? 0u : 1u));
    }
    CHECK(counts_are(134, 1) && is_right(g, im, table));
    free(im);
    free(table);
}

/* Number 4 moves from block 0 to the blank block 3 and 0 comes behind it. */
static void test_table_moves(void)
{
    struct shape g = {4, 3, 5};
    uint32_t *full = three_full(g), *im;
    uint16_t *table = random_table(g.l);

    *entry_of(g, full, 0, 1) = LIVE + 4;
    im = copy_of(g, full);
    CHECK(do_build(g, im, table) == 0 && TABLE_IS(NONE, 2, 4, 5, 1));
    CHECK(do_fill_with(g, im, 0, 9, table) == 0);
    CHECK(counts_are(267, 1) && TABLE_IS(7, 2, 4, 5, 6));
    CHECK(do_release_with(g, im, 2, table) == 0);
    CHECK(counts_are(1, 0) && TABLE_IS(7, 2, NONE, 5, 6));

    /* The words that do not belong to the two stay wrong. */
    memcpy(im, full, len_of(g) * sizeof *im);
    memcpy(table, (const uint16_t[5]){6, 5, NONE, 0, 4}, sizeof (uint16_t[5]));
    CHECK(do_fill_with(g, im, 0, 9, table) == 0);
    CHECK(counts_are(267, 1) && TABLE_IS(7, 5, NONE, 0, 6));
    CHECK(do_release_with(g, im, 3, table) == 0);
    CHECK(counts_are(1, 0) && TABLE_IS(7, 5, NONE, NONE, 6));
    CHECK(do_build(g, im, table) == 0 && TABLE_IS(7, 2, 4, NONE, 6));
    free(full);
    free(im);
    free(table);
}

/* ---- Refusals of the calls with a table --------------------------------- */

/* As much of a table as can be lent, whatever length is told. */
static size_t lendable(size_t table_words)
{
    return table_words < 8192 ? table_words : 8192;
}

/* As expect, for the four calls that take a table.  Its words are random, so
 * no answer may hang on them. */
static void expect_with(struct lent a, size_t table_words, struct shape real,
                        const uint32_t want[CALLS], int line)
{
    struct pair first = want[BUILD] == 4 ? first_fault(a.g, a.im) : no_fault;
    size_t lent = lendable(table_words);
    bool good = true;

    for (enum call c = BUILD; c < CALLS; c++) {
        struct lent b = a;
        uint16_t *table = random_table(lent);
        uint16_t *was = copy_of_table(lent, table);
        uint32_t buffer[SECTOR];

        b.im = copy_of(real, a.im);
        memset(buffer, 0xA5, sizeof buffer);
        good &= answers(call_with(c, b, buffer, table, table_words), want[c],
                        first);
        if (want[c] != 0)
            good &= counts_are(0, 0) && same(real, b.im, a.im) &&
                    all_are(buffer, 128, POISON) &&
                    same_table(lent, table, was);
        free(b.im);
        free(table);
        free(was);
    }
    check_at(good, "refusals with a table", line);
}

#define EXPECT_WITH(a, length, real, b, r, w, d) \
    expect_with(a, length, real, (const uint32_t[]){b, r, w, d}, __LINE__)

/* Lengths that are not L words, among them those of other things. */
static void expect_2_of_lengths(struct lent a)
{
    size_t l = a.g.l;
    const size_t others[] = {
        0, l - 1, l + 1, 2 * l, l / 2, (l + 1) / 2, 127, 128, 129,
        l + 0x100, l + 0x10000, l + 0x8000, l + ((size_t)UINT32_MAX + 1),
        0xFFFF, a.im_words, (size_t)a.g.b * d_of(a.g), SIZE_MAX,
        SIZE_MAX / 2 + 1 + l,
    };

    for (size_t i = 0; i < sizeof others / sizeof others[0]; i++)
        if (others[i] != l)
            EXPECT_WITH(a, others[i], a.g, 2, 2, 2, 2);
}

/* The table's length is asked after 1 and before all that is not 1 or 2. */
static void test_table_length_in_order(struct shape g)
{
    struct lent a = {g, fresh(g), len_of(g), 0, 128};
    struct lent b = a;

    expect_2_of_lengths(b); /* else 5 */
    CHECK(do_fill(g, a.im, 0, 7) == 0);
    expect_2_of_lengths(b); /* else accepted */
    b.buffer_words = g.l;
    expect_2_of_lengths(b); /* the two lengths exchanged are among these */
    b.number = g.l;
    expect_2_of_lengths(b);
    b.buffer_words = 128;
    expect_2_of_lengths(b); /* else 3 */
    head_of(g, a.im, 1)[0] = 1000001;
    expect_2_of_lengths(b);
    b.number = 0;
    expect_2_of_lengths(b); /* else 4 */

    b.im_words++;
    EXPECT_WITH(b, g.l - 1, g, 1, 1, 1, 1);
    EXPECT_WITH(b, g.l, g, 1, 1, 1, 1);
    EXPECT_WITH(b, g.l + 1, g, 1, 1, 1, 1);
    b = a;
    b.g.l = (g.b - 1) * d_of(g);
    EXPECT_WITH(b, g.l, g, 1, 1, 1, 1);
    EXPECT_WITH(b, b.g.l, g, 1, 1, 1, 1);
    b.g.l = 0;
    EXPECT_WITH(b, 0, g, 1, 1, 1, 1);
    EXPECT_WITH(b, g.l, g, 1, 1, 1, 1);
    free(a.im);
}

static void test_table_refusal_1(void)
{
    static const uint32_t off[] = {0, 1, 65, 0x10008, 0x80000008, 0xFFFFFFFF};
    static const uint32_t wide[] = {0, 105, 106, 0x1005A, 0x8000005A,
                                    0xFFFFFFFF};
    struct shape g = {8, 16, 90};
    struct lent a = {g, fresh(g), len_of(g), 5, 128};
    struct lent b;

    for (size_t i = 0; i < 6; i++) {
        b = a;
        b.g.b = off[i];
        EXPECT_WITH(b, 90, g, 1, 1, 1, 1);
        b = a;
        b.g.s = off[i];
        EXPECT_WITH(b, 90, g, 1, 1, 1, 1);
        b = a;
        b.g.l = wide[i];
        EXPECT_WITH(b, b.g.l, g, 1, 1, 1, 1);
        b = a;
        b.im_words = off[i];
        EXPECT_WITH(b, 90, g, 1, 1, 1, 1);
    }
    b = (struct lent){g, NULL, 0, 0, 0};
    for (enum call c = BUILD; c < CALLS; c++)
        CHECK(answers(call_with(c, b, NULL, NULL, 0), 1, no_fault));
    b = (struct lent){g, a.im, len_of(g), 0, 0};
    for (enum call c = BUILD; c < CALLS; c++)
        CHECK(answers(call_with(c, b, NULL, NULL, 0), 2, no_fault));
    free(a.im);
}

/* With a table of the right length the others come as without one. */
static void test_table_refusals_in_order(void)
{
    static const size_t sizes[] = {0, 1, 90, 127, 129, SIZE_MAX};
    struct shape g = {8, 16, 90};
    struct lent a = {g, fresh(g), len_of(g), 5, 128};
    struct lent b = a;

    EXPECT_WITH(b, 90, g, 0, 5, 0, 5);
    CHECK(do_fill(g, a.im, 5, 7) == 0);
    EXPECT_WITH(b, 90, g, 0, 0, 0, 0);
    b.number = 89;
    EXPECT_WITH(b, 90, g, 0, 5, 0, 5);
    b.number = 90;
    EXPECT_WITH(b, 90, g, 0, 3, 3, 3);
    b.number = 0xFFFFFFFF;
    EXPECT_WITH(b, 90, g, 0, 3, 3, 3);
    for (size_t i = 0; i < sizeof sizes / sizeof sizes[0]; i++) {
        b = a;
        b.buffer_words = sizes[i];
        EXPECT_WITH(b, 90, g, 0, 2, 2, 0);
        b.number = 90;
        EXPECT_WITH(b, 90, g, 0, 2, 2, 3);
    }
    free(a.im);
}

/* As expect_around_4, for a fault by itself in each block and of each rule. */
static void test_table_around_4(struct shape g)
{
    uint32_t *sound = roomy(g);

    for (size_t i = 0; i <= BREAKS; i++) {
        struct lent a = {g, copy_of(g, sound), len_of(g), 0, 128};
        struct pair what = i < BREAKS ? break_at(g, i) : (struct pair){g.b, 6};
        struct lent b = a;

        break_rule(g, a.im, what, i % 2 == 0);
        EXPECT_WITH(b, g.l, g, 4, 4, 4, 4);
        CHECK(bad_is(what)); /* release was the last */
        b.number = g.l - 1;
        EXPECT_WITH(b, g.l, g, 4, 4, 4, 4);
        b.number = g.l;
        EXPECT_WITH(b, g.l, g, 4, 3, 3, 3);
        EXPECT_WITH(b, g.l + 1, g, 2, 2, 2, 2);
        b.buffer_words = 127;
        EXPECT_WITH(b, g.l, g, 4, 2, 2, 3);
        free(a.im);
    }
    free(sound);
}

static void test_table_refusal_6(void)
{
    struct shape g = {2, 3, 1};
    struct lent a = {g, fresh(g), len_of(g), 0, 128};
    struct lent b = a;

    CHECK(do_fill(g, a.im, 0, 1) == 0 && do_fill(g, a.im, 0, 2) == 0);
    EXPECT_WITH(a, 1, g, 0, 0, 0, 0);
    a.im[0] = 1000000;
    EXPECT_WITH(a, 1, g, 0, 0, 6, 0);
    expect_2_of_lengths(a);
    b.number = 1;
    EXPECT_WITH(b, 1, g, 0, 3, 3, 3);
    CHECK(do_release(g, a.im, 0) == 0);
    EXPECT_WITH(a, 1, g, 0, 5, 6, 5);
    free(a.im);
}

static void test_table_refusals(void)
{
    test_table_length_in_order((struct shape){2, 3, 1});
    test_table_length_in_order((struct shape){8, 16, 90});
    test_table_length_in_order((struct shape){5, 34, 128});
    test_table_refusal_1();
    test_table_refusals_in_order();
    test_table_around_4((struct shape){5, 11, 20});
    test_table_around_4((struct shape){4, 41, 100});
    test_table_refusal_6();
}

/* ---- Tables that are wrong ---------------------------------------------- */

/* One call with the table, on the image, and its namesake on a copy. */
static void call_both(enum call c, struct lent a, uint16_t *table)
{
    struct shape g = a.g;
    struct lent b = a;
    uint32_t *before = copy_of(g, a.im);
    uint16_t *want = copy_of_table(g.l, table);
    uint32_t mine[SECTOR], other[SECTOR];
    uint32_t answer, w, e;
    struct pair named;

    for (uint32_t i = 0; i < 128; i++)
        mine[i] = other[i] = rnd();
    b.im = copy_of(g, a.im);
    answer = call_without(c, b, other);
    w = words;
    e = erasures;
    named = bad;
    CHECK(call_with(c, a, mine, table, g.l) == answer);
    CHECK(counts_are(w, e) && bad_is(named));
    CHECK(same(g, a.im, b.im) && memcmp(mine, other, sizeof mine) == 0);
    if (c == BUILD && answer == 0) {
        CHECK(is_right(g, a.im, table));
    } else {
        carry(g, before, b.im, want);
        CHECK(same_table(g.l, table, want));
    }
    free(before);
    free(b.im);
    free(want);
}

/* A slot of this kind other than the number's own, from a random one on. */
static uint16_t some_slot(struct shape g, uint32_t *im, enum kind want,
                          uint32_t n)
{
    uint32_t d = d_of(g), first = below(g.b * d);

    for (uint32_t i = 0; i < g.b * d; i++) {
        uint32_t p = (first + i) % (g.b * d);

        if (kind_of(g, im, p / d, p % d) == want &&
            !lives_as(g, im, p / d, p % d, n))
            return (uint16_t)p;
    }
    return NONE;
}

/* A word for a number, wrong in one of several ways. */
#define WRONG_WAYS 8u

static uint16_t wrong_word(struct shape g, uint32_t *im, uint32_t n,
                           uint32_t way)
{
    uint32_t end = g.b * d_of(g);

    switch (way) {
    case 0: return NONE;
    case 1: return (uint16_t)rnd();
    case 2: return (uint16_t)end;
    case 3: return (uint16_t)(end + below(0xFFFF - end));
    case 4: return some_slot(g, im, DEAD, n);
    case 5: return some_slot(g, im, LIVING, n);
    case 6: return some_slot(g, im, FREE, n);
    default: return (uint16_t)below(end);
    }
}

/* Ways from WRONG_WAYS on: the older table, a mixture of all the wrong ways,
 * one in four words wrong. */
#define TABLE_WAYS (WRONG_WAYS + 3)

static uint16_t *draw_table(struct shape g, uint32_t *im, uint32_t way,
                            const uint16_t *older)
{
    uint16_t *table;

    if (way == WRONG_WAYS)
        return copy_of_table(g.l, older);
    table = right_table(g, im);
    for (uint32_t n = 0; n < g.l; n++) {
        if (way < WRONG_WAYS)
            table[n] = wrong_word(g, im, n, way);
        else if (way == WRONG_WAYS + 1 || below(4) == 0)
            table[n] = wrong_word(g, im, n, below(WRONG_WAYS));
    }
    return table;
}

static enum call some_call(void)
{
    uint32_t what = below(8);

    return what == 0 ? BUILD : what == 1 ? READ : what < 4 ? RELEASE : WRITE;
}

/* Calls one after the other, so that a table in part mended is met too. */
static void some_calls(struct shape g, const uint32_t *im, uint16_t *table,
                       uint32_t calls)
{
    uint32_t *own = copy_of(g, im);

    for (uint32_t i = 0; i < calls; i++) {
        struct lent a = {g, own, len_of(g), below(g.l), 128};

        call_both(READ, a, table);
        call_both(some_call(), a, table);
    }
    free(own);
}

static void test_wrong_tables(void)
{
    static const struct shape shapes[] = {
        {2, 3, 1}, {3, 2, 1}, {3, 5, 7}, {4, 4, 8}, {4, 5, 6}, {3, 34, 60},
        {6, 3, 9}, {64, 2, 62},
    };

    for (uint32_t round = 0; round < 400; round++) {
        struct shape g = shapes[round % 8];
        uint32_t *im = lend(g);
        uint16_t *older;

        draw_image(g, im);
        older = right_table(g, im);
        for (uint32_t i = 0; i < 6; i++) {
            uint32_t answer = do_fill(g, im, below(g.l), i);

            CHECK(answer == 0 || answer == 6);
        }
        for (uint32_t way = 0; way < TABLE_WAYS; way++) {
            uint16_t *table = draw_table(g, im, way, older);

            some_calls(g, im, table, 3);
            free(table);
        }
        free(im);
        free(older);
    }
}

/* The same over images with a fault, and what they refuse with. */
static void test_tables_of_damaged_images(void)
{
    static const struct shape shapes[] = {
        {2, 3, 1}, {3, 5, 7}, {4, 4, 8}, {3, 34, 60}, {6, 3, 9},
    };

    for (uint32_t round = 0; round < 500; round++) {
        struct shape g = shapes[round % 5];
        uint32_t *im = lend(g);
        struct lent a = {g, im, len_of(g), below(g.l), 128};
        uint16_t *older, *table;

        draw_image(g, im);
        older = right_table(g, im);
        damage(g, im);
        table = draw_table(g, im, round % TABLE_WAYS, older);
        for (enum call c = BUILD; c < CALLS; c++)
            call_both(c, a, table);
        free(im);
        free(older);
        free(table);
    }
}

/* Each slot and a little more, for each number, where writing must reclaim;
 * the words of the others are right or all wrong. */
static void test_each_word_of_each_number(void)
{
    struct shape g = {4, 3, 5};
    uint32_t *full = three_full(g);

    *entry_of(g, full, 0, 1) = LIVE + 4;
    for (uint32_t i = 0; i < 2 * CALLS * g.l * 12; i++) {
        struct lent a = {g, copy_of(g, full), len_of(g), i / 12 % g.l, 128};
        uint16_t *table = right_table(g, full);

        if (i % 2 == 1)
            for (uint32_t n = 0; n < g.l; n++)
                table[n] = NONE;
        table[a.number] = (uint16_t)(i % 12);
        call_both((enum call)(i / 12 / g.l % CALLS), a, table);
        free(a.im);
        free(table);
    }
    free(full);
}

/* Of the one number of the smallest image, each word there is. */
static void test_each_word_there_is(void)
{
    struct shape g = {2, 3, 1};
    uint32_t *im = fresh(g);
    uint16_t *table = lend_table(1);
    uint32_t got[SECTOR];
    uint32_t good = 0;

    CHECK(do_fill(g, im, 0, 1) == 0 && do_fill(g, im, 0, 2) == 0);
    for (uint32_t word = 0; word <= 0xFFFF; word++) {
        got[0] = got[127] = POISON;
        table[0] = (uint16_t)word;
        good += do_read_with(g, im, 0, got, table) == 0 && got[0] == 2 &&
                got[127] == 2 && table[0] == word;
    }
    CHECK(good == 0x10000);
    CHECK(do_release(g, im, 0) == 0);
    got[0] = POISON;
    for (uint32_t word = 0; word <= 0xFFFF; word++) {
        table[0] = (uint16_t)word;
        good -= do_read_with(g, im, 0, got, table) == 5 && got[0] == POISON &&
                table[0] == word;
    }
    CHECK(good == 0);
    free(im);
    free(table);
}

/* Number 5 in block 0 in entries of all states in which it is dead there, with
 * others in the two in which it is not; live only in block 2. */
static void test_dead_of_the_same_number(uint32_t state_there)
{
    struct shape g = {3, 11, 10};
    uint32_t *im = fresh(g), *own;
    uint16_t *table = random_table(g.l);
    uint32_t got[SECTOR];

    for (uint32_t state = 0; state < 8; state++)
        seat(g, im, 0, state, (state << 29) + (state == 6 ? 4
                                              : state == 4 ? 3 : 5));
    seat(g, im, 2, 3, state_there + 5);
    for (uint32_t i = 0; i < 128; i++)
        data_of(g, im, 2, 3)[i] = 77;
    for (uint16_t p = 0; p < 10; p++) {
        table[5] = p;
        CHECK(do_read_with(g, im, 5, got, table) == 0);
        CHECK(all_are(got, 128, 77) && table[5] == p);
        own = copy_of(g, im);
        CHECK(do_fill_with(g, own, 5, 9, table) == 0 && counts_are(133, 0));
        CHECK(*entry_of(g, own, 2, 3) == 5 && table[5] == 8);
        CHECK(*entry_of(g, own, 0, 8) == LIVE + 5);
        free(own);
        own = copy_of(g, im);
        table[5] = p;
        CHECK(do_release_with(g, own, 5, table) == 0 && counts_are(1, 0));
        CHECK(*entry_of(g, own, 2, 3) == (state_there & 0x40000000) + 5);
        CHECK(table[5] == NONE);
        *entry_of(g, own, 2, 3) = state_there + 5;
        CHECK(same(g, own, im));
        free(own);
    }
    free(im);
    free(table);
}

/* The image is the front of a longer one.  The words tell of slots in the
 * block behind it, where just these numbers seem live. */
static void test_slots_behind_the_image(void)
{
    struct shape g = {3, 5, 7}, longer = {4, 5, 7};
    uint32_t *im = fresh(longer), *was;
    uint16_t *table = random_table(g.l);
    uint32_t got[SECTOR] = {0};

    for (uint32_t n = 0; n < 4; n++) {
        seat(longer, im, 3, n, LIVE + n);
        table[n] = (uint16_t)(12 + n);
    }
    was = copy_of(longer, im);
    for (uint32_t n = 0; n < 4; n++) {
        CHECK(do_read_with(g, im, n, got, table) == 5 && got[0] == 0);
        CHECK(do_release_with(g, im, n, table) == 5 && counts_are(0, 0));
        CHECK(same(longer, im, was) && table[n] == 12 + n);
    }
    for (uint32_t n = 0; n < 4; n++) {
        CHECK(do_fill_with(g, im, n, n, table) == 0);
        CHECK(counts_are(n < 3 ? 131 : 133, 0) && table[n] == n);
    }
    CHECK(memcmp(head_of(longer, im, 3), head_of(longer, was, 3),
                 5 * 512) == 0);
    free(im);
    free(was);
    free(table);
}

/* ---- A right table over many calls -------------------------------------- */

static uint32_t *model_data(struct shape g, uint32_t *im, uint32_t n)
{
    for (uint32_t b = 0; b < g.b; b++)
        for (uint32_t s = 0; s < d_of(g); s++)
            if (lives_as(g, im, b, s, n))
                return data_of(g, im, b, s);
    return NULL;
}

static bool reads_like(struct shape g, uint32_t *im, uint32_t *model,
                       uint32_t n, uint16_t *table)
{
    uint32_t *want = model_data(g, model, n);
    uint32_t got[SECTOR];
    uint32_t answer;

    memset(got, 0xA5, sizeof got);
    answer = do_read_with(g, im, n, got, table);
    if (!want)
        return answer == 5 && all_are(got, 128, POISON);
    return answer == 0 && memcmp(got, want, sizeof got) == 0;
}

/* All calls are with the table; it was built before the first of them only. */
static void run_with_table(struct shape g, uint32_t *im, uint32_t calls,
                           uint32_t least_erased)
{
    uint32_t *model = copy_of(g, im);
    uint16_t *table = random_table(g.l);
    uint32_t erased = 0;

    CHECK(do_build(g, im, table) == 0);
    for (uint32_t i = 0; i < calls; i++) {
        struct lent a = {g, im, len_of(g), below(g.l), 128};
        uint32_t buffer[SECTOR];
        uint32_t answer, w, e, what = below(16);

        if (i % 256 < 64)
            a.number /= 8;
        if (what < 13) {
            sector_for(a.number, i, buffer);
            answer = call_with(WRITE, a, buffer, table, g.l);
            CHECK(answer == model_write(g, model, a.number, buffer, &w, &e));
            CHECK(answer == 0 && counts_are(w, e) && bad_is(no_fault));
            erased += e;
        } else if (what < 15) {
            answer = call_with(RELEASE, a, NULL, table, g.l);
            CHECK(answer == model_release(g, model, a.number, &w, &e));
            CHECK(counts_are(w, e) && bad_is(no_fault));
        } else {
            CHECK(reads_like(g, im, model, a.number, table));
        }
        CHECK(same(g, im, model) && is_right(g, model, table));
    }
    for (uint32_t n = 0; n < g.l; n += 1 + g.l / 100)
        CHECK(reads_like(g, im, model, n, table));
    CHECK(do_build(g, im, table) == 0 && is_right(g, model, table));
    CHECK(erased >= least_erased);
    free(im);
    free(model);
    free(table);
}

/* All numbers are live and the blocks full but for the last.  The dead slots
 * are spread evenly, the numbers anyhow.  Of so many live entries one is in
 * passing, and every other dead slot has a free entry. */
static uint32_t *packed(struct shape g, uint32_t so_many)
{
    uint32_t *im = fresh(g);
    uint32_t d = d_of(g), end = (g.b - 1) * d, dead = end - g.l;

    for (uint32_t p = 0, next = 0; p < end; p++) {
        uint32_t *h = head_of(g, im, p / d);

        if (p * dead / end != (p + 1) * dead / end)
            seat(g, im, p / d, p % d, (p - next) % 2 == 0 ? 0 : ONES);
        else
            seat(g, im, p / d, p % d, (p % so_many == 0 ? PASSING : LIVE) +
                                      next++ * 7919 % g.l);
        sector_for(p, 3, data_of(g, im, p / d, p % d));
        h[1] = 0;
        h[2] = g.l - 1;
    }
    return im;
}

static void test_runs_with_table(void)
{
    static const struct shape shapes[] = {
        {2, 3, 1}, {3, 2, 1}, {3, 5, 7}, {2, 64, 62}, {64, 2, 62},
        {8, 16, 90}, {8, 16, 104}, {4, 33, 95}, {4, 34, 98},
    };
    struct shape largest = {64, 64, 3968};

    for (size_t i = 0; i < sizeof shapes / sizeof shapes[0]; i++) {
        run_with_table(shapes[i], fresh(shapes[i]), 800, 5);
        run_with_table(shapes[i], packed(shapes[i], 3), 300, 5);
    }
    run_with_table(largest, packed(largest, 100), 60, 20);
}

static void test_tables(void)
{
    test_build_fresh((struct shape){2, 3, 1});
    test_build_fresh((struct shape){8, 16, 90});
    test_build_fresh((struct shape){64, 64, 3968});
    test_build_by_hand();
    test_build_largest();
    test_table_p6_p7_p8();
    test_table_p9();
    test_table_106_writes();
    test_table_moves();
    test_table_refusals();
    test_wrong_tables();
    test_tables_of_damaged_images();
    test_each_word_of_each_number();
    test_each_word_there_is();
    test_dead_of_the_same_number(LIVE);
    test_dead_of_the_same_number(PASSING);
    test_slots_behind_the_image();
    test_runs_with_table();
}

/* ---- Entries in passing, and slots taken for nothing -------------------- */

static void pour(struct shape g, uint32_t *im, uint32_t b, uint32_t s,
                 uint32_t fill)
{
    for (uint32_t i = 0; i < 128; i++)
        data_of(g, im, b, s)[i] = fill;
}

/* With a table built for it and without one. */
static bool reads_fill(struct shape g, uint32_t *im, uint32_t n, uint32_t fill)
{
    uint16_t *table = random_table(g.l);
    uint32_t got[SECTOR] = {0}, other[SECTOR] = {0};
    bool good = do_read(g, im, n, got) == 0 && all_are(got, 128, fill);

    good &= do_build(g, im, table) == 0 && is_right(g, im, table);
    good &= do_read_with(g, im, n, other, table) == 0;
    free(table);
    return good && all_are(other, 128, fill);
}

/* All calls, and the four with a table. */
static void refused_by_all(struct shape g, uint32_t *im, uint32_t n, int line)
{
    struct lent a = {g, im, len_of(g), n, 128};

    expect(a, g, 0, 4, 4, 4, 4, line);
    expect_with(a, g.l, g, (const uint32_t[]){4, 4, 4, 4}, line);
}

#define REFUSED_BY_ALL(n) refused_by_all(g, im, n, __LINE__)

/* The second write of 5 of P7, stored by hand word by word. */
static void test_words_of_a_write(void)
{
    struct shape g = {3, 5, 7};
    uint32_t *im = fresh(g);

    CHECK(do_fill(g, im, 5, 0x12345678) == 0);
    im[3] = 0xFFFFFFFC; /* (a) */
    CHECK(reads_fill(g, im, 5, 0x12345678));
    CHECK(report_is(g, im, 1, 10, 1, 0));
    im[4] = 0x80000005; /* (b) */
    for (uint32_t i = 0; i <= 128; i++) {
        VERDICT(0, 0);
        CHECK(reads_fill(g, im, 5, 0x12345678));
        CHECK(report_is(g, im, 1, 10, 1, 0));
        if (i < 128)
            im[256 + i] = 0; /* (c) */
    }
    im[5] = 0xE0000005; /* (d) */
    VERDICT(0, 0);
    CHECK(reads_fill(g, im, 5, 0x12345678));
    CHECK(report_is(g, im, 1, 10, 1, 0));
    im[5] = 0xC0000005; /* (e) */
    VERDICT(0, 8);
    REFUSED_BY_ALL(5);
    REFUSED_BY_ALL(0);
    im[4] = 5; /* (f) */
    VERDICT(0, 0);
    CHECK(reads_fill(g, im, 5, 0));
    CHECK(report_is(g, im, 1, 10, 1, 0));
    free(im);
}

/* Block 0 of (3,5,7): 5 in passing, a slot taken and half written, two free
 * ones. */
static uint32_t *half_way(struct shape g)
{
    uint32_t *im = fresh(g);

    seat(g, im, 0, 0, 0x80000005);
    pour(g, im, 0, 0, 0x12345678);
    seat(g, im, 0, 1, ONES);
    for (uint32_t i = 0; i < 64; i++)
        im[256 + i] = i;
    CHECK(broken(g, im) == 0 && report_is(g, im, 1, 10, 1, 0));
    return im;
}

static void test_write_over_passing(void)
{
    struct shape g = {3, 5, 7};
    uint32_t *im = half_way(g), *want = half_way(g);
    uint16_t *table = random_table(g.l);

    CHECK(do_build(g, im, table) == 0);
    CHECK(TABLE_IS(NONE, NONE, NONE, NONE, NONE, 0, NONE));
    CHECK(do_fill_with(g, im, 5, 9, table) == 0 && counts_are(133, 0));
    want[3] = 0xFFFFFFF8;
    want[4] = 0x00000005;
    want[6] = 0xC0000005;
    pour(g, want, 0, 2, 9);
    CHECK(same(g, im, want) && reads_fill(g, im, 5, 9));
    CHECK(TABLE_IS(NONE, NONE, NONE, NONE, NONE, 2, NONE));
    CHECK(report_is(g, im, 1, 9, 2, 0));

    /* The last slot of the block. */
    im[6] = want[6] = 0x80000005;
    CHECK(do_fill(g, im, 5, 8) == 0 && counts_are(135, 0));
    want[1] = want[2] = 5;
    want[3] = 0xFFFFFFF0;
    want[6] = 0x00000005;
    want[7] = 0xC0000005;
    pour(g, want, 0, 3, 8);
    CHECK(same(g, im, want) && report_is(g, im, 1, 8, 3, 0));

    /* From a full block to another one. */
    im[7] = want[7] = 0x80000005;
    CHECK(do_fill(g, im, 5, 7) == 0 && counts_are(133, 0));
    want[7] = 0x00000005;
    seat(g, want, 1, 0, 0xC0000005);
    pour(g, want, 1, 0, 7);
    CHECK(same(g, im, want) && report_is(g, im, 1, 7, 4, 0));
    free(im);
    free(want);
    free(table);
}

static void test_write_beside_passing(void)
{
    struct shape g = {3, 5, 7};
    uint32_t *im = half_way(g), *want = half_way(g);

    CHECK(do_fill(g, im, 6, 9) == 0 && counts_are(131, 0));
    want[3] = 0xFFFFFFF8;
    want[6] = 0xC0000006;
    pour(g, want, 0, 2, 9);
    CHECK(same(g, im, want));
    CHECK(reads_fill(g, im, 5, 0x12345678) && reads_fill(g, im, 6, 9));

    /* The range of the full block holds what is in passing too, but nothing
     * that is dead: 7 is no number here. */
    im[6] = want[6] = 0x80000007;
    CHECK(do_fill(g, im, 3, 8) == 0 && counts_are(133, 0));
    want[1] = 3;
    want[2] = 5;
    want[3] = 0xFFFFFFF0;
    want[7] = 0xC0000003;
    pour(g, want, 0, 3, 8);
    CHECK(same(g, im, want) && report_is(g, im, 2, 8, 2, 0));
    CHECK(reads_fill(g, im, 5, 0x12345678) && reads_fill(g, im, 3, 8));
    free(im);
    free(want);
}

static void test_release_passing(void)
{
    struct shape g = {3, 5, 7};
    uint32_t *im = half_way(g), *want = half_way(g);
    uint16_t *table = random_table(g.l);
    uint32_t got[SECTOR];

    CHECK(do_release(g, im, 5) == 0 && counts_are(1, 0));
    want[4] = 0x00000005;
    CHECK(same(g, im, want) && report_is(g, im, 0, 10, 2, 0));
    CHECK(do_release(g, im, 5) == 5 && do_read(g, im, 5, got) == 5);
    im[4] = 0x80000005;
    CHECK(do_build(g, im, table) == 0 && table[5] == 0);
    CHECK(do_release_with(g, im, 5, table) == 0 && counts_are(1, 0));
    CHECK(same(g, im, want) && is_right(g, im, table) && table[5] == NONE);
    CHECK(do_fill_with(g, im, 5, 1, table) == 0 && counts_are(131, 0));
    CHECK(im[4] == 0x00000005 && im[6] == 0xC0000005 && table[5] == 2);
    free(im);
    free(want);
    free(table);
}

/* Block and slot go through the image as one number. */
static void test_superseded_anywhere(void)
{
    struct shape g = {5, 4, 9};
    uint32_t d = d_of(g);

    for (uint32_t p = 0; p < g.b * d; p++)
        for (uint32_t q = 0; q < g.b * d; q++) {
            uint32_t *im = fresh(g);

            seat(g, im, p / d, p % d, PASSING + 8);
            pour(g, im, p / d, p % d, p);
            VERDICT(0, 0);
            CHECK(reads_fill(g, im, 8, p) && report_is(g, im, 1, 14, 0, 0));
            if (q != p) {
                seat(g, im, q / d, q % d, LIVE + 8);
                VERDICT(p / d, 8);
                REFUSED_BY_ALL(8);
                *entry_of(g, im, q / d, q % d) = LIVE + 7; /* another one */
                VERDICT(0, 0);
                *entry_of(g, im, q / d, q % d) = 0xE0000008; /* not complete */
                VERDICT(0, 0);
                *entry_of(g, im, q / d, q % d) = 0x40000008; /* released */
                VERDICT(0, 0);
                CHECK(reads_fill(g, im, 8, p));
                CHECK(report_is(g, im, 1, 13, 1, 0));
            }
            free(im);
        }
}

/* Two in passing, p before q, and then a third slot. */
static void test_two_in_passing(void)
{
    struct shape g = {5, 5, 9};
    uint32_t d = d_of(g);

    for (uint32_t q = 0; q < g.b * d; q++)
        for (uint32_t p = 0; p < q; p++) {
            uint32_t *im = fresh(g);

            seat(g, im, p / d, p % d, PASSING + 8);
            seat(g, im, q / d, q % d, PASSING + 8);
            VERDICT(q / d, 5);
            for (uint32_t r = 0; r < g.b * d; r += 1 + below(3)) {
                if (r == p || r == q)
                    continue;
                seat(g, im, r / d, r % d, LIVE + 8);
                VERDICT(p / d, 8); /* both are superseded, so not live */
                *entry_of(g, im, r / d, r % d) = ONES;
                *map_of(g, im, r / d, r % d) |= UINT32_C(1) << r % d;
            }
            VERDICT(q / d, 5);
            REFUSED_BY_ALL(8);
            free(im);
        }
}

/* Two complete, p before q, and one in passing that both supersede. */
static void test_two_complete_and_one_in_passing(void)
{
    struct shape g = {5, 5, 9};
    uint32_t d = d_of(g);

    for (uint32_t q = 0; q < g.b * d; q++)
        for (uint32_t i = 0; i < q * g.b * d; i++) {
            uint32_t p = i / (g.b * d), r = i % (g.b * d);
            uint32_t *im;

            if (r == p || r == q)
                continue;
            im = fresh(g);
            seat(g, im, p / d, p % d, LIVE + 8);
            seat(g, im, q / d, q % d, LIVE + 8);
            seat(g, im, r / d, r % d, PASSING + 8);
            CHECK(broken(g, im) == (1u << 5 | 1u << 8));
            if (r / d < q / d)
                NAMED(r / d, 8);
            else
                NAMED(q / d, 5);
            free(im);
        }
}

/* Nothing is live with a number of L or more. */
static void test_passing_of_no_number(void)
{
    static const uint32_t tails[] = {9, 10, 0x108, 0x10000, 0x10008,
                                     0x10000000, 0x10000008, 0x1FFFFFFF};
    struct shape g = {5, 4, 9};

    for (size_t i = 0; i < sizeof tails / sizeof tails[0]; i++) {
        uint32_t *im = fresh(g);
        uint16_t *table = random_table(g.l);

        seat(g, im, 0, 0, LIVE + 8);
        pour(g, im, 0, 0, 6);
        seat(g, im, 0, 2, PASSING + tails[i]);
        seat(g, im, 2, 1, PASSING + tails[i]);
        VERDICT(0, 0);
        CHECK(report_is(g, im, 1, 12, 2, 0) && reads_fill(g, im, 8, 6));
        CHECK(do_build(g, im, table) == 0);
        CHECK(TABLE_IS(NONE, NONE, NONE, NONE, NONE, NONE, NONE, NONE, 0));
        /* Nor is it superseded by what is a fault itself. */
        seat(g, im, 1, 1, LIVE + tails[i]);
        VERDICT(1, 4);
        REFUSED_BY_ALL(8);
        *entry_of(g, im, 2, 1) = PASSING + 7; /* live beside the fault */
        VERDICT(1, 4);
        *entry_of(g, im, 2, 1) = PASSING + 8;
        CHECK(broken(g, im) == (1u << 4 | 1u << 8));
        NAMED(1, 4);
        free(im);
        free(table);
    }
}

/* Rule 8 behind and before the others. */
static void test_r8_among_others(void)
{
    struct shape g = {4, 5, 9};
    uint32_t *im = fresh(g);
    uint32_t *h = head_of(g, im, 1);

    seat(g, im, 1, 1, PASSING + 1);
    seat(g, im, 2, 0, LIVE + 1);
    VERDICT(1, 8);
    head_of(g, im, 2)[0] = 1000001; /* in the block of the complete one */
    NAMED(1, 8);
    seat(g, im, 0, 0, 0);
    seat(g, im, 3, 0, 0);
    CHECK(broken(g, im) == (1u << 1 | 1u << 6 | 1u << 8));
    NAMED(1, 8); /* and no block blank */
    head_of(g, im, 2)[0] = 0;
    CHECK(broken(g, im) == (1u << 6 | 1u << 8));
    NAMED(1, 8);
    h[2] = 5;
    NAMED(1, 7);
    seat(g, im, 1, 2, LIVE + 5);
    seat(g, im, 1, 3, LIVE + 5);
    NAMED(1, 5);
    *entry_of(g, im, 1, 3) = LIVE + 9;
    NAMED(1, 4);
    data_of(g, im, 1, 0)[0] = 0;
    NAMED(1, 3);
    *map_of(g, im, 1, 3) |= 8;
    NAMED(1, 2);
    h[0] = ONES;
    NAMED(1, 1);
    head_of(g, im, 0)[1] = 0;
    NAMED(0, 7);
    free(im);
}

/* In a full block the number of a superseded slot is no part of the range. */
static void test_r8_in_a_full_block(void)
{
    struct shape g = {4, 5, 9};
    uint32_t *im = fresh(g);
    uint32_t *h = head_of(g, im, 1);

    seat(g, im, 1, 0, PASSING + 0);
    seat(g, im, 1, 1, LIVE + 3);
    seat(g, im, 1, 2, PASSING + 5);
    seat(g, im, 1, 3, PASSING + 8);
    h[1] = 0;
    h[2] = 8;
    VERDICT(0, 0);
    CHECK(report_is(g, im, 4, 12, 0, 0));
    h[1] = 3;
    VERDICT(1, 7);
    h[1] = 0;
    h[2] = 7;
    VERDICT(1, 7);
    seat(g, im, 3, 0, LIVE + 8);
    VERDICT(1, 8);
    h[1] = 3;
    CHECK(broken(g, im) == (1u << 7 | 1u << 8));
    NAMED(1, 7);
    seat(g, im, 0, 2, LIVE + 0);
    VERDICT(1, 8);
    h[2] = 5;
    VERDICT(1, 8);
    REFUSED_BY_ALL(5);
    h[2] = 4;
    NAMED(1, 7);
    h[2] = ONES;
    NAMED(1, 7);
    REFUSED_BY_ALL(5);
    free(im);
}

/* Taken without an entry: dead, and passed over by the choice of a slot. */
static void test_taken_for_nothing(struct shape g)
{
    uint32_t d = d_of(g), all = g.b * d;
    uint32_t *im = fresh(g);
    uint32_t *h = head_of(g, im, 1);

    for (uint32_t s = 0; s < d; s++) {
        seat(g, im, 1, s, ONES);
        for (uint32_t i = 0; i < 128; i++)
            data_of(g, im, 1, s)[i] = rnd();
        if (s + 1 < d) {
            VERDICT(0, 0);
        } else {
            VERDICT(1, 7);
            REFUSED_BY_ALL(0);
            h[1] = rnd() / 2;
            h[2] = rnd() / 2;
            VERDICT(0, 0);
        }
        CHECK(report_is(g, im, 0, all - s - 1, s + 1, 0));
        if (s + 2 == d) {
            uint32_t *own = copy_of(g, im);

            CHECK(do_fill(g, own, 1, 4) == 0 && counts_are(133, 0));
            CHECK(*entry_of(g, own, 1, d - 1) == LIVE + 1);
            CHECK(head_of(g, own, 1)[1] == 1 && head_of(g, own, 1)[2] == 1);
            CHECK(report_is(g, own, 1, all - d, d - 1, 0));
            free(own);
        } else if (s + 1 < d) {
            uint32_t *own = copy_of(g, im);

            CHECK(do_fill(g, own, 1, 4) == 0 && counts_are(131, 0));
            CHECK(*entry_of(g, own, 1, s + 1) == LIVE + 1);
            CHECK(*entry_of(g, own, 1, s) == ONES && reads_fill(g, own, 1, 4));
            free(own);
        }
    }
    free(im);
}

/* (3,3,2) with block 0 full of the two numbers and block 2 blank.  Block 1 is
 * open with its first slot taken, full with both. */
static void test_taken_and_the_choice(void)
{
    struct shape g = {3, 3, 2};
    uint32_t *im = fresh(g);

    seat(g, im, 0, 0, PASSING + 1);
    seat(g, im, 0, 1, LIVE + 0);
    head_of(g, im, 0)[1] = 0;
    head_of(g, im, 0)[2] = 1;
    pour(g, im, 0, 0, 11);
    seat(g, im, 1, 0, ONES);
    pour(g, im, 1, 0, 0);
    VERDICT(0, 0);
    CHECK(do_fill(g, im, 1, 12) == 0 && counts_are(135, 0));
    CHECK(*entry_of(g, im, 0, 0) == 1 && *entry_of(g, im, 1, 1) == LIVE + 1);
    CHECK(head_of(g, im, 1)[1] == 1 && head_of(g, im, 1)[2] == 1);
    CHECK(report_is(g, im, 2, 2, 2, 0) && reads_fill(g, im, 1, 12));

    *entry_of(g, im, 0, 0) = PASSING + 1;
    *entry_of(g, im, 1, 1) = ONES;
    head_of(g, im, 0)[0] = 7;
    CHECK(report_is(g, im, 2, 2, 2, 7) && reads_fill(g, im, 1, 11));
    head_of(g, im, 1)[0] = 1000000;
    CHECK(do_fill(g, im, 0, 13) == 6 && counts_are(0, 0));
    head_of(g, im, 1)[0] = 2;
    CHECK(do_fill(g, im, 0, 13) == 0 && counts_are(134, 1));
    CHECK(*entry_of(g, im, 2, 0) == LIVE && head_of(g, im, 1)[0] == 3);
    CHECK(all_are(head_of(g, im, 1) + 1, 383, ONES));
    CHECK(*entry_of(g, im, 0, 0) == PASSING + 1);
    CHECK(report_is(g, im, 2, 3, 1, 10) && reads_fill(g, im, 1, 11));
    free(im);
}

/* Two full blocks of (3,7,10), the first with three live slots of which two
 * are in passing, and with three dead ones of which one has a free entry. */
static uint32_t *two_full(struct shape g)
{
    static const uint32_t entries[12] = {
        ONES, PASSING + 3, LIVE + 1, PASSING + 10, 0xE0000009, PASSING + 0,
        LIVE + 2, PASSING + 4, LIVE + 5, LIVE + 6, LIVE + 7, PASSING + 8,
    };
    uint32_t *im = fresh(g);

    for (uint32_t p = 0; p < 12; p++) {
        seat(g, im, p / 6, p % 6, entries[p]);
        pour(g, im, p / 6, p % 6, 100 + p);
        head_of(g, im, p / 6)[1] = 0;
        head_of(g, im, p / 6)[2] = 9;
    }
    CHECK(broken(g, im) == 0 && report_is(g, im, 9, 6, 3, 0));
    return im;
}

static void test_reclaim_of_passing(void)
{
    struct shape g = {3, 7, 10};
    uint32_t *im = two_full(g);
    uint32_t *want = copy_of(g, im);
    uint16_t *table = random_table(g.l);

    CHECK(do_build(g, im, table) == 0);
    CHECK(TABLE_IS(5, 2, 6, 1, 7, 8, 9, 10, 11, NONE));
    CHECK(do_fill_with(g, im, 9, 77, table) == 0);
    CHECK(counts_are(3 * 133 + 1 + 131, 1));
    memset(want, 0xFF, 7 * 512);
    want[0] = 1;
    seat(g, want, 2, 0, LIVE + 3);
    pour(g, want, 2, 0, 101);
    seat(g, want, 2, 1, LIVE + 1);
    pour(g, want, 2, 1, 102);
    seat(g, want, 2, 2, LIVE + 0);
    pour(g, want, 2, 2, 105);
    seat(g, want, 2, 3, LIVE + 9);
    pour(g, want, 2, 3, 77);
    CHECK(same(g, im, want) && report_is(g, im, 10, 8, 0, 1));
    CHECK(TABLE_IS(14, 13, 6, 12, 7, 8, 9, 10, 11, 15));
    CHECK(reads_fill(g, im, 0, 105) && reads_fill(g, im, 4, 107));
    free(im);
    free(want);

    /* The number written is one that is moved, or one that stays. */
    im = two_full(g);
    CHECK(do_fill(g, im, 3, 77) == 0 && counts_are(3 * 133 + 1 + 133, 1));
    CHECK(*entry_of(g, im, 2, 0) == 3 && *entry_of(g, im, 2, 3) == LIVE + 3);
    CHECK(report_is(g, im, 9, 8, 1, 1) && reads_fill(g, im, 3, 77));
    free(im);
    im = two_full(g);
    CHECK(do_fill(g, im, 4, 77) == 0 && counts_are(3 * 133 + 1 + 133, 1));
    CHECK(*entry_of(g, im, 1, 1) == 4 && *entry_of(g, im, 2, 3) == LIVE + 4);
    CHECK(report_is(g, im, 9, 8, 1, 1) && reads_fill(g, im, 4, 77));
    free(im);
    free(table);
}

/* Most dead slots: those in passing are not among them, but a slot with a free
 * entry is. */
static void test_victim_by_kinds(void)
{
    struct shape g = {3, 4, 5};
    uint32_t *im = fresh(g);

    seat(g, im, 0, 0, PASSING + 0);
    seat(g, im, 0, 1, PASSING + 1);
    seat(g, im, 0, 2, PASSING + 5);
    seat(g, im, 1, 0, LIVE + 2);
    seat(g, im, 1, 1, 0x40000003);
    seat(g, im, 1, 2, ONES);
    for (uint32_t b = 0; b < 2; b++) {
        head_of(g, im, b)[1] = 0;
        head_of(g, im, b)[2] = 2;
    }
    VERDICT(0, 0);
    CHECK(report_is(g, im, 3, 3, 3, 0));
    CHECK(do_fill(g, im, 4, 1) == 0 && counts_are(133 + 1 + 131, 1));
    CHECK(head_of(g, im, 0)[0] == 0 && head_of(g, im, 1)[0] == 1);
    CHECK(*entry_of(g, im, 2, 0) == LIVE + 2);
    CHECK(*entry_of(g, im, 2, 1) == LIVE + 4);
    CHECK(report_is(g, im, 4, 4, 1, 1));
    free(im);
}

static void test_build_with_passing(void)
{
    struct shape g = {3, 5, 7};
    uint32_t *im = fresh(g);
    uint16_t *table = random_table(g.l);

    seat(g, im, 0, 0, PASSING + 7); /* no number here */
    seat(g, im, 0, 1, PASSING + 6);
    seat(g, im, 0, 2, 0x9FFFFFFF);
    for (uint32_t s = 0; s < 4; s++)
        seat(g, im, 2, s, s == 1 ? ONES : PASSING + s);
    head_of(g, im, 2)[1] = 0;
    head_of(g, im, 2)[2] = 3;
    CHECK(do_build(g, im, table) == 0);
    CHECK(TABLE_IS(8, NONE, 10, 11, NONE, NONE, 1));
    seat(g, im, 0, 3, LIVE + 2);
    head_of(g, im, 0)[1] = 2;
    head_of(g, im, 0)[2] = 6;
    CHECK(do_build(g, im, table) == 4 && bad_is((struct pair){2, 8}));
    CHECK(TABLE_IS(8, NONE, 10, 11, NONE, NONE, 1));
    *entry_of(g, im, 2, 2) = 2;
    CHECK(do_build(g, im, table) == 0);
    CHECK(TABLE_IS(8, NONE, 3, 11, NONE, NONE, 1));
    free(im);
    free(table);
}

/* ---- All images of the smallest shapes ---------------------------------- */

/* The states of a slot with L 1: each of these with its bit clear and set. */
static const uint32_t small_entries[] = {
    ONES, LIVE, PASSING, LIVE + 1, PASSING + 1, 0xE0000000, 0,
};

#define SMALL_STATES \
    (2 * (uint32_t)(sizeof small_entries / sizeof small_entries[0]))

/* Words 1 and 2 as they ought to be, but for a few; what is not free gets
 * contents of its own. */
static void small_image(struct shape g, uint32_t *im, uint32_t states)
{
    for (uint32_t b = 0; b < g.b; b++) {
        uint32_t *h = head_of(g, im, b);
        uint32_t range;

        h[3] = ONES;
        for (uint32_t s = 0; s < d_of(g); s++) {
            uint32_t *data = data_of(g, im, b, s);

            *entry_of(g, im, b, s) = small_entries[states / 2 %
                                                   (SMALL_STATES / 2)];
            h[3] -= states % 2 == 0 ? UINT32_C(1) << s : 0;
            states /= SMALL_STATES;
            data[0] = data[127] = kind_of(g, im, b, s) == FREE ? ONES : b + s;
        }
        range = count_kind(g, im, b, FREE) > 0 ? ONES : 0;
        h[1] = below(16) == 0 ? ~range : range;
        h[2] = below(16) == 0 ? ~range : range;
    }
}

static bool report_fits(struct shape g, uint32_t *im)
{
    uint32_t counts[3] = {0, 0, 0};

    for (uint32_t b = 0; b < g.b; b++) {
        counts[0] += count_kind(g, im, b, LIVING);
        counts[1] += count_kind(g, im, b, FREE);
        counts[2] += count_kind(g, im, b, DEAD);
    }
    return report_is(g, im, counts[0], counts[1], counts[2], 0);
}

/* What the calls do with a sound one, with a table that is right or wrong. */
static void try_small_image(struct shape g, const uint32_t *im)
{
    for (uint32_t i = 0; i < 3 * CALLS; i++) {
        struct lent a = {g, copy_of(g, im), len_of(g), 0, 128};
        uint32_t *model = copy_of(g, im);
        uint16_t *table = right_table(g, a.im);

        call_and_compare(g, a.im, model, 0);
        memcpy(a.im, im, len_of(g) * sizeof *im);
        if (i >= CALLS)
            table[0] = (uint16_t)below(g.b * d_of(g) + 1);
        call_both((enum call)(i % CALLS), a, table);
        free(a.im);
        free(model);
        free(table);
    }
}

static void test_small_images(struct shape g)
{
    uint32_t *im = fresh(g);
    uint32_t all = 1;
    uint32_t first_of[9] = {0};

    for (uint32_t p = 0; p < g.b * d_of(g); p++)
        all *= SMALL_STATES;
    for (uint32_t states = 0; states < all; states++) {
        struct pair first;

        small_image(g, im, states);
        first = first_fault(g, im);
        first_of[first.rule]++;
        CHECK(do_check(g, im) == (first.rule == 0 ? 0u : 4u));
        if (first.rule != 0)
            continue;
        CHECK(report_fits(g, im));
        try_small_image(g, im);
    }
    CHECK(first_of[0] > 50);
    for (uint32_t rule = 1; rule <= 8; rule++)
        CHECK(rule == 1 || rule == 3 || first_of[rule] > 10);
    free(im);
}

static void test_passing(void)
{
    test_words_of_a_write();
    test_write_over_passing();
    test_write_beside_passing();
    test_release_passing();
    test_superseded_anywhere();
    test_two_in_passing();
    test_two_complete_and_one_in_passing();
    test_passing_of_no_number();
    test_r8_among_others();
    test_r8_in_a_full_block();
    test_taken_for_nothing((struct shape){3, 5, 7});
    test_taken_for_nothing((struct shape){3, 34, 60});
    test_taken_for_nothing((struct shape){3, 64, 125});
    test_taken_and_the_choice();
    test_reclaim_of_passing();
    test_victim_by_kinds();
    test_build_with_passing();
    test_small_images((struct shape){3, 2, 1});
    test_small_images((struct shape){2, 3, 1});
}

/* ---- The steps of a call ------------------------------------------------ */

/* In place of a number. */
#define REPAIR ONES

/* A write of the data to n or, without data, a release of it, or a repair. */
struct order {
    struct shape g;
    uint32_t *im; /* as it is before the call */
    uint32_t n;
    const uint32_t *data;
};

static uint32_t ask(struct order o, uint32_t i)
{
    if (o.n == REPAIR)
        return do_repair_step(o.g, o.im, i);
    return o.data ? do_write_step(o.g, o.im, o.n, o.data, i)
                  : do_release_step(o.g, o.im, o.n, i);
}

static uint32_t take_first(struct order o, uint32_t *im, uint32_t most)
{
    if (o.n == REPAIR)
        return do_repair_first(o.g, im, most);
    return o.data ? do_write_first(o.g, im, o.n, o.data, most)
                  : do_release_first(o.g, im, o.n, most);
}

static uint32_t take_all(struct order o, uint32_t *im)
{
    if (o.n == REPAIR)
        return do_repair(o.g, im);
    return o.data ? do_write(o.g, im, o.n, o.data)
                  : do_release(o.g, im, o.n);
}

#define TOLD(i, kind, place, word) \
    CHECK(ask(o, i) == 0 && told_is((struct step){kind, place, word}))

/* Takes one step by hand.  False if it is none, or if the word does not come
 * out as it was asked for. */
static bool apply(struct shape g, uint32_t *im, struct step s)
{
    if (s.kind == ERASE && s.place < g.b && s.word == 0) {
        memset(head_of(g, im, s.place), 0xFF, (size_t)g.s * 512);
        return true;
    }
    if (s.kind != PROGRAM || s.place >= len_of(g))
        return false;
    im[s.place] &= s.word;
    return im[s.place] == s.word;
}

/* All of the row is told, and nothing behind it. */
static bool tells_row(struct order o)
{
    static const uint32_t behind[] = {0, 1, 2, 0xFFFF, 0x10000, 0x7FFFFFFF};
    bool good = true;

    for (uint32_t i = 0; i < row_length; i++)
        good &= ask(o, i) == 0 && told_is(row[i]);
    for (size_t i = 0; i < sizeof behind / sizeof behind[0]; i++)
        good &= ask(o, row_length + behind[i]) == 0 && told_is(no_step);
    return good && ask(o, ONES) == 0 && told_is(no_step);
}

static bool leaves(uint32_t answer, struct shape g, const uint32_t *im,
                   const uint32_t *want, uint32_t w, uint32_t e)
{
    return answer == 0 && counts_are(w, e) && same(g, im, want);
}

static bool stops_at(struct order o, uint32_t most, const uint32_t *want,
                     uint32_t w, uint32_t e)
{
    uint32_t *im = copy_of(o.g, o.im);
    bool good = leaves(take_first(o, im, most), o.g, im, want, w, e);

    free(im);
    return good;
}

/* Want is what the whole row leaves. */
static bool takes_whole(struct order o, const uint32_t *want, uint32_t w,
                        uint32_t e)
{
    uint32_t *im = copy_of(o.g, o.im);
    bool good = leaves(take_all(o, im), o.g, im, want, w, e);

    free(im);
    return good && stops_at(o, row_length, want, w, e) &&
           stops_at(o, row_length + 1, want, w, e) &&
           stops_at(o, ONES, want, w, e);
}

/* Each beginning of the row, or each whose length the stride divides, leaves
 * what the steps in it leave when they are taken by hand. */
static bool takes_row(struct order o, uint32_t stride)
{
    uint32_t *want = copy_of(o.g, o.im);
    uint32_t w = 0, e = 0;
    bool good = true;

    for (uint32_t j = 0; j < row_length; j++) {
        if (j % stride == 0)
            good &= stops_at(o, j, want, w, e);
        good &= apply(o.g, want, row[j]);
        w += row[j].kind == PROGRAM;
        e += row[j].kind == ERASE;
    }
    good &= takes_whole(o, want, w, e);
    free(want);
    return good;
}

static void expect_row(struct order o, uint32_t stride, int line)
{
    uint32_t *was = copy_of(o.g, o.im);

    check_at(tells_row(o), "the steps told", line);
    check_at(takes_row(o, stride), "the steps taken", line);
    check_at(same(o.g, o.im, was), "the image lent", line);
    free(was);
}

#define EXPECT_ROW(length) \
    (CHECK(row_length == (length)), expect_row(o, 1, __LINE__))

/* No two words alike, so that each shows its place. */
static void differing(uint32_t *data, uint32_t from)
{
    for (uint32_t i = 0; i < 128; i++)
        data[i] = from + i * 0x01010101;
}

/* ---- Rows written out by hand ------------------------------------------- */

static void test_row_of_first_write(void)
{
    struct shape g = {3, 5, 7};
    uint32_t data[SECTOR];
    struct order o = {g, fresh(g), 5, data};

    differing(data, 0x12345678);
    TOLD(0, 1, 3, 0xFFFFFFFE);
    TOLD(1, 1, 128, 0x12345678);
    TOLD(2, 1, 129, 0x13355779);
    TOLD(128, 1, 255, data[127]);
    TOLD(129, 1, 4, 0xE0000005);
    TOLD(130, 1, 4, 0xC0000005);
    TOLD(131, 0, 0, 0);

    row_length = 0;
    then_program(3, 0xFFFFFFFE);
    then_sector(128, data);
    then_program(4, 0xE0000005);
    then_program(4, 0xC0000005);
    EXPECT_ROW(131);
    free(o.im);
}

static void test_row_of_overwrite(void)
{
    struct shape g = {3, 5, 7};
    uint32_t data[SECTOR];
    struct order o = {g, fresh(g), 5, data};

    CHECK(do_fill(g, o.im, 5, 0x12345678) == 0);
    differing(data, 77);
    TOLD(0, 1, 3, 0xFFFFFFFC);
    TOLD(1, 1, 4, 0x80000005);
    TOLD(2, 1, 256, 77);
    TOLD(132, 1, 4, 0x00000005);
    TOLD(133, 0, 0, 0);

    row_length = 0;
    then_program(3, 0xFFFFFFFC);
    then_program(4, 0x80000005);
    then_sector(256, data);
    then_program(5, 0xE0000005);
    then_program(5, 0xC0000005);
    then_program(4, 0x00000005);
    EXPECT_ROW(133);
    free(o.im);
}

/* The last slot of a block with two numbers live and one dead, then the first
 * of the blank block with the lesser count. */
static void test_row_of_filling(void)
{
    struct shape g = {3, 5, 7};
    uint32_t data[SECTOR];
    struct order o = {g, fresh(g), 3, data};

    CHECK(do_fill(g, o.im, 6, 1) == 0 && do_fill(g, o.im, 5, 2) == 0);
    CHECK(do_fill(g, o.im, 2, 3) == 0 && do_release(g, o.im, 6) == 0);
    differing(data, 5);
    row_length = 0;
    then_program(3, 0xFFFFFFF0);
    then_sector(512, data);
    then_program(7, 0xE0000003);
    then_program(7, 0xC0000003);
    then_program(1, 2);
    then_program(2, 5);
    EXPECT_ROW(133);

    CHECK(take_all(o, o.im) == 0);
    o.im[640] = 3;
    o.im[1280] = 2;
    o.n = 2;
    row_length = 0;
    then_program(1283, 0xFFFFFFFE);
    then_program(6, 0x80000002);
    then_sector(1408, data);
    then_program(1284, 0xE0000002);
    then_program(1284, 0xC0000002);
    then_program(6, 0x00000002);
    EXPECT_ROW(133);
    free(o.im);
}

static void test_row_of_release(void)
{
    struct shape g = {3, 5, 7};
    struct order o = {g, fresh(g), 5, NULL};

    CHECK(ask(o, 0) == 5 && told_is(no_step));
    CHECK(do_fill(g, o.im, 5, 0x12345678) == 0);
    TOLD(0, 1, 4, 0x40000005);
    TOLD(1, 0, 0, 0);
    TOLD(ONES, 0, 0, 0);
    row_length = 0;
    then_program(4, 0x40000005);
    EXPECT_ROW(1);

    seat(g, o.im, 2, 3, 0xC0000006);
    o.n = 6;
    row_length = 0;
    then_program(1287, 0x40000006);
    EXPECT_ROW(1);
    free(o.im);
}

/* In an entry in passing there is nothing left for (b) to clear, but it has
 * its turn. */
static void test_rows_with_passing(void)
{
    struct shape g = {3, 5, 7};
    uint32_t data[SECTOR];
    struct order o = {g, half_way(g), 5, data};

    differing(data, 9);
    row_length = 0;
    then_program(3, 0xFFFFFFF8);
    then_program(4, 0x80000005);
    then_sector(384, data);
    then_program(6, 0xE0000005);
    then_program(6, 0xC0000005);
    then_program(4, 0x00000005);
    EXPECT_ROW(133);

    o.data = NULL;
    row_length = 0;
    then_program(4, 0x00000005);
    EXPECT_ROW(1);
    free(o.im);
}

/* The second and the third write of P9: a replacement that fills the block,
 * then a reclaim, where the number written is the one that was moved. */
static void test_rows_of_p9(void)
{
    struct shape g = {2, 3, 1};
    uint32_t old[SECTOR], data[SECTOR];
    struct order o = {g, fresh(g), 0, old};

    CHECK(do_fill(g, o.im, 0, 1) == 0);
    differing(old, 0x700);
    row_length = 0;
    then_program(3, 0xFFFFFFFC);
    then_program(4, 0x80000000);
    then_sector(256, old);
    then_program(5, 0xE0000000);
    then_program(5, 0xC0000000);
    then_program(4, 0);
    then_program(1, 0);
    then_program(2, 0);
    EXPECT_ROW(135);

    CHECK(take_all(o, o.im) == 0);
    o.data = data;
    differing(data, 0x900);
    TOLD(132, 1, 5, 0);
    TOLD(133, 2, 0, 0);
    TOLD(134, 1, 0, 1);
    TOLD(135, 1, 387, 0xFFFFFFFC);
    TOLD(269, 1, 386, 0);
    TOLD(270, 0, 0, 0);

    row_length = 0;
    then_program(387, 0xFFFFFFFE);
    then_program(5, 0x80000000);
    then_sector(512, old);
    then_program(388, 0xE0000000);
    then_program(388, 0xC0000000);
    then_program(5, 0);
    then_erase(0);
    then_program(0, 1);
    then_program(387, 0xFFFFFFFC);
    then_program(388, 0x80000000);
    then_sector(640, data);
    then_program(389, 0xE0000000);
    then_program(389, 0xC0000000);
    then_program(388, 0);
    then_program(385, 0);
    then_program(386, 0);
    EXPECT_ROW(269 + 1);
    free(o.im);
}

/* In (3,7,10), from a slot of block 0 to one of block 2, which is at 1792. */
static void then_copy(uint32_t from, uint32_t to, uint32_t map, uint32_t n,
                      uint32_t fill)
{
    then_program(1795, map);
    then_program(4 + from, PASSING + n);
    for (uint32_t i = 0; i < 128; i++)
        then_program(1920 + 128 * to + i, fill);
    then_program(1796 + to, 0xE0000000 + n);
    then_program(1796 + to, 0xC0000000 + n);
    then_program(4 + from, n);
}

static void then_reclaim_of_three(void)
{
    row_length = 0;
    then_copy(1, 0, 0xFFFFFFFE, 3, 101);
    then_copy(2, 1, 0xFFFFFFFC, 1, 102);
    then_copy(5, 2, 0xFFFFFFF8, 0, 105);
    then_erase(0);
    then_program(0, 8);
    then_program(1795, 0xFFFFFFF0);
}

/* Three copies, then a number that is mapped nowhere, one of the three that
 * were moved, and one that stays in block 1. */
static void test_rows_of_three_copies(void)
{
    static const struct { uint32_t n, old; } cases[] = {
        {9, 0}, {3, 1796}, {1, 1797}, {0, 1798}, {4, 901}, {2, 900},
    };
    struct shape g = {3, 7, 10};
    uint32_t data[SECTOR];
    struct order o = {g, two_full(g), 0, data};

    o.im[0] = 7;
    differing(data, 0xFEDCBA98);
    for (size_t i = 0; i < sizeof cases / sizeof cases[0]; i++) {
        o.n = cases[i].n;
        then_reclaim_of_three();
        if (cases[i].old != 0)
            then_program(cases[i].old, 0x80000000 + o.n);
        then_sector(2304, data);
        then_program(1799, 0xE0000000 + o.n);
        then_program(1799, 0xC0000000 + o.n);
        if (cases[i].old != 0)
            then_program(cases[i].old, o.n);
        EXPECT_ROW(3 * 133 + 2 + (cases[i].old == 0 ? 131u : 133u));
        TOLD(3 * 133, 2, 0, 0);
        TOLD(3 * 133 + 1, 1, 0, 8);
    }
    o.im[0] = 1000000;
    CHECK(ask(o, 0) == 6 && told_is(no_step));
    CHECK(take_first(o, o.im, 0) == 6 && counts_are(0, 0));
    free(o.im);
}

/* The 106th write of a number alone: the row begins with the erase, and what
 * follows goes to a block that was blank before. */
static void test_row_without_copies(void)
{
    struct shape g = {8, 16, 90};
    uint32_t data[SECTOR];
    struct order o = {g, fresh(g), 0, data};

    for (uint32_t i = 1; i <= 105; i++)
        CHECK(do_fill(g, o.im, 0, i) == 0);
    differing(data, 106);
    row_length = 0;
    then_erase(0);
    then_program(0, 1);
    then_program(14339, 0xFFFFFFFE);
    then_program(12306, 0x80000000);
    then_sector(14464, data);
    then_program(14340, 0xE0000000);
    then_program(14340, 0xC0000000);
    then_program(12306, 0);
    EXPECT_ROW(134 + 1);
    free(o.im);
}

/* Block 1 of (2,34,32), which lies at 4352: slot 7 is dead, the others hold
 * all numbers, the greatest first. */
static uint32_t *one_dead(struct shape g)
{
    uint32_t *im = fresh(g);

    for (uint32_t s = 0; s < 33; s++) {
        seat(g, im, 1, s, s == 7 ? 9 : LIVE + (s < 7 ? 31 - s : 32 - s));
        pour(g, im, 1, s, 1000 + s);
    }
    im[0] = 900;
    im[4352] = 41;
    im[4353] = 0;
    im[4354] = 31;
    CHECK(do_check(g, im) == 0);
    return im;
}

/* So many copies that the write after them goes by the second map word. */
static void test_row_over_two_map_words(void)
{
    struct shape g = {2, 34, 32};
    uint32_t data[SECTOR];
    struct order o = {g, one_dead(g), 9, data};

    differing(data, 3);
    row_length = 0;
    for (uint32_t m = 0; m < 32; m++) {
        uint32_t from = m < 7 ? m : m + 1;

        then_program(3, m < 31 ? ONES << (m + 1) : 0);
        then_program(4357 + from, 0x80000000 + 31 - m);
        for (uint32_t i = 0; i < 128; i++)
            then_program(128 * (m + 1) + i, 1000 + from);
        then_program(5 + m, 0xE0000000 + 31 - m);
        then_program(5 + m, 0xC0000000 + 31 - m);
        then_program(4357 + from, 31 - m);
    }
    then_erase(1);
    then_program(4352, 42);
    then_program(4, 0xFFFFFFFE);
    then_program(27, 0x80000009);
    then_sector(4224, data);
    then_program(37, 0xE0000009);
    then_program(37, 0xC0000009);
    then_program(27, 9);
    then_program(1, 0);
    then_program(2, 31);
    CHECK(row_length == 32 * 133 + 2 + 135);
    expect_row(o, 37, __LINE__);
    free(o.im);
}

/* ---- Where the first steps stop ----------------------------------------- */

static void test_most(void)
{
    static const struct { uint32_t most, words; } cases[] = {
        {0, 0}, {1, 1}, {2, 2}, {130, 130}, {131, 131}, {132, 131},
        {0x80000000, 131}, {0x80000001, 131}, {0xFFFFFFFF, 131},
    };
    struct shape g = {3, 5, 7};
    uint32_t *was = fresh(g), *im = lend(g);
    uint32_t data[SECTOR];

    differing(data, 0x12345678);
    for (size_t i = 0; i < sizeof cases / sizeof cases[0]; i++) {
        uint32_t w = cases[i].words;

        memcpy(im, was, len_of(g) * sizeof *im);
        CHECK(do_write_first(g, im, 5, data, cases[i].most) == 0);
        CHECK(counts_are(w, 0));
        CHECK(im[3] == (w == 0 ? ONES : 0xFFFFFFFE));
        CHECK(im[128] == (w < 2 ? ONES : 0x12345678));
        CHECK(im[255] == (w < 129 ? ONES : data[127]));
        CHECK(im[4] == (w < 130 ? ONES : w == 130 ? 0xE0000005 : 0xC0000005));
    }
    CHECK(do_release_first(g, im, 5, 0) == 0 && counts_are(0, 0));
    CHECK(im[4] == 0xC0000005);
    CHECK(do_release_first(g, im, 5, 1) == 0 && counts_are(1, 0));
    CHECK(im[4] == 0x40000005);
    CHECK(do_release_first(g, im, 5, 0) == 5 && counts_are(0, 0));
    im[4] = 0xC0000005;
    CHECK(do_release_first(g, im, 5, 2) == 0 && counts_are(1, 0));
    im[4] = 0xC0000005;
    CHECK(do_release_first(g, im, 5, ONES) == 0 && counts_are(1, 0));
    CHECK(im[4] == 0x40000005);
    free(was);
    free(im);
}

/* Around the erase of P9's third write. */
static void test_most_around_erase(void)
{
    struct shape g = {2, 3, 1};
    uint32_t *was = fresh(g), *im = lend(g);
    uint32_t data[SECTOR] = {3};

    CHECK(do_fill(g, was, 0, 1) == 0 && do_fill(g, was, 0, 2) == 0);
    memcpy(im, was, len_of(g) * sizeof *im);
    CHECK(do_write_first(g, im, 0, data, 133) == 0 && counts_are(133, 0));
    CHECK(im[0] == 0 && im[5] == 0 && all_are(im + 256, 128, 2));
    CHECK(do_check(g, im) == 4 && bad_is((struct pair){2, 6}));
    memcpy(im, was, len_of(g) * sizeof *im);
    CHECK(do_write_first(g, im, 0, data, 134) == 0 && counts_are(133, 1));
    CHECK(all_are(im, 384, ONES));
    CHECK(do_check(g, im) == 4 && bad_is((struct pair){0, 1}));
    memcpy(im, was, len_of(g) * sizeof *im);
    CHECK(do_write_first(g, im, 0, data, 135) == 0 && counts_are(134, 1));
    CHECK(im[0] == 1 && all_are(im + 1, 383, ONES));
    CHECK(reads_fill(g, im, 0, 2) && report_is(g, im, 1, 3, 0, 1));
    free(was);
    free(im);
}

/* Of an overwrite: the old contents up to (d), after (e) an image for which
 * every call refuses, after (f) the new contents. */
static void test_reads_between(void)
{
    struct shape g = {3, 5, 7};
    uint32_t *was = fresh(g), *im = lend(g);
    uint32_t data[SECTOR] = {0};

    CHECK(do_fill(g, was, 5, 0x12345678) == 0);
    for (uint32_t j = 0; j <= 133; j++) {
        memcpy(im, was, len_of(g) * sizeof *im);
        CHECK(do_write_first(g, im, 5, data, j) == 0 && counts_are(j, 0));
        if (j == 132) {
            VERDICT(0, 8);
            REFUSED_BY_ALL(5);
        } else {
            VERDICT(0, 0);
            CHECK(reads_fill(g, im, 5, j < 132 ? 0x12345678 : 0));
        }
    }
    free(was);
    free(im);
}

/* ---- Rows of drawn calls, against the second account -------------------- */

static uint32_t model_call(struct order o, uint32_t *im, uint32_t *w,
                           uint32_t *e)
{
    if (o.n == REPAIR)
        return model_repair(o.g, im, w, e);
    return o.data ? model_write(o.g, im, o.n, o.data, w, e)
                  : model_release(o.g, im, o.n, w, e);
}

static void refuses_parts(struct order o, uint32_t want)
{
    uint32_t *im = copy_of(o.g, o.im);

    CHECK(ask(o, some_number()) == want && told_is(no_step));
    CHECK(take_first(o, im, some_number()) == want && counts_are(0, 0));
    CHECK(same(o.g, im, o.im));
    free(im);
}

/* Gives the erasures of the call.  The image is taken on by the row, which is
 * then known to be the one told. */
static uint32_t call_by_steps(struct order o, uint32_t stride)
{
    uint32_t *model = copy_of(o.g, o.im);
    uint32_t w, e;
    uint32_t answer = model_call(o, model, &w, &e);

    if (answer != 0) {
        refuses_parts(o, answer);
    } else {
        CHECK(row_length == w + e);
        expect_row(o, stride, __LINE__);
        for (uint32_t i = 0; i < row_length; i++)
            CHECK(apply(o.g, o.im, row[i]));
    }
    CHECK(same(o.g, o.im, model));
    free(model);
    return e;
}

static uint32_t some_calls_by_steps(struct shape g, uint32_t *im,
                                    uint32_t calls)
{
    uint32_t data[SECTOR];
    uint32_t erased = 0;

    for (uint32_t i = 0; i < calls; i++) {
        struct order o = {g, im, below(g.l), below(4) ? data : NULL};

        for (uint32_t j = 0; j < 128; j++)
            data[j] = rnd();
        erased += call_by_steps(o, 23 + below(40));
    }
    return erased;
}

static void test_drawn_rows(void)
{
    static const struct shape shapes[] = {
        {2, 3, 1}, {3, 2, 1}, {3, 5, 7}, {4, 4, 8}, {4, 5, 6}, {6, 3, 9},
    };
    uint32_t erased = 0;

    for (uint32_t round = 0; round < 120; round++) {
        struct shape g = shapes[round % 6];
        uint32_t *im = lend(g);

        draw_image(g, im);
        erased += some_calls_by_steps(g, im, 3);
        free(im);
    }
    CHECK(erased > 50);
}

/* From a fresh image on, and all the way by steps. */
static void test_runs_by_steps(void)
{
    static const struct shape shapes[] = {{2, 3, 1}, {3, 2, 1}, {3, 5, 7}};

    for (size_t i = 0; i < sizeof shapes / sizeof shapes[0]; i++) {
        uint32_t *im = fresh(shapes[i]);

        CHECK(some_calls_by_steps(shapes[i], im, 50) > 0);
        free(im);
    }
}

/* The longest row there is.  Few of its steps are asked for: each call looks
 * at an image of two million bytes. */
static void test_longest_row(void)
{
    static const uint32_t some[] = {0, 1, 2, 132, 133, 8245, 8246, 8247, 8248,
                                    8249, 8380, 8381, 8382};
    struct shape g = {64, 64, 3968};
    uint32_t data[SECTOR];
    struct order o = {g, packed(g, 50), 1234, data};
    uint32_t *want = copy_of(g, o.im), *model = copy_of(g, o.im);
    uint32_t w, e, next = 0;

    differing(data, 1);
    CHECK(model_call(o, model, &w, &e) == 0 && w == 8382 && e == 1);
    CHECK(row_length == LONGEST_ROW && row[8246].kind == ERASE);
    for (uint32_t j = 0; j < row_length; j++) {
        if (j == some[next]) {
            CHECK(ask(o, j) == 0 && told_is(row[j]));
            CHECK(stops_at(o, j, want, j - (j > 8246), j > 8246));
            next++;
        }
        CHECK(apply(g, want, row[j]));
    }
    CHECK(ask(o, 8383) == 0 && told_is(no_step));
    CHECK(ask(o, ONES) == 0 && told_is(no_step));
    CHECK(takes_whole(o, model, 8382, 1) && same(g, want, model));
    free(o.im);
    free(want);
    free(model);
}

static void test_steps(void)
{
    test_row_of_first_write();
    test_row_of_overwrite();
    test_row_of_filling();
    test_row_of_release();
    test_rows_with_passing();
    test_rows_of_p9();
    test_rows_of_three_copies();
    test_row_without_copies();
    test_row_over_two_map_words();
    test_most();
    test_most_around_erase();
    test_reads_between();
    test_drawn_rows();
    test_runs_by_steps();
    test_longest_row();
}

/* ---- Repair: what it must keep, and how it is tried --------------------- */

/* The whole map: for each number how often it is live, and the contents. */
static uint32_t *map_now(struct shape g, uint32_t *im)
{
    uint32_t *map = calloc((size_t)g.l * 129, sizeof *map);

    if (!map)
        abort();
    for (uint32_t b = 0; b < g.b; b++)
        for (uint32_t s = 0; s < d_of(g); s++) {
            uint32_t n = number_of(*entry_of(g, im, b, s));

            if (!lives(g, im, b, s))
                continue;
            map[129 * n]++;
            memcpy(map + 129 * n + 1, data_of(g, im, b, s), 512);
        }
    return map;
}

static bool has_map(struct shape g, uint32_t *im, const uint32_t *want)
{
    uint32_t *map = map_now(g, im);
    bool good = memcmp(map, want, (size_t)g.l * 129 * sizeof *map) == 0;

    free(map);
    return good;
}

/* The map is the same after every step of the row that was written down. */
static bool keeps_map(struct order o)
{
    uint32_t *im = copy_of(o.g, o.im), *map = map_now(o.g, o.im);
    bool good = true;

    for (uint32_t i = 0; i < row_length; i++)
        good &= apply(o.g, im, row[i]) && has_map(o.g, im, map);
    free(im);
    free(map);
    return good;
}

/* The check names this fault and all other calls refuse the image, but a
 * repair takes the row that was written down.  The map is kept throughout, and
 * what is left, which the image then is, is sound. */
static void expect_mended(struct shape g, uint32_t *im, struct pair want,
                          uint32_t length, int line)
{
    struct order o = {g, im, REPAIR, NULL};

    check_at(row_length == length, "the row written down", line);
    check_at(do_check(g, im) == 4 && bad_is(want), "first fault", line);
    expect_row(o, 1, line);
    check_at(keeps_map(o), "the map", line);
    refused_by_all(g, im, 0, line); /* has another row written down */
    check_at(do_repair(g, im) == 0, "repair", line);
    check_at(broken(g, im) == 0 && do_check(g, im) == 0, "sound", line);
}

#define MENDED(block, rule, length) \
    expect_mended(g, im, (struct pair){block, rule}, length, __LINE__)

/* By all three calls, and with nothing changed. */
static void refuses_repair(struct shape g, uint32_t *im, uint32_t want,
                           struct pair first, int line)
{
    struct lent a = {g, im, len_of(g), 0, 128};
    uint32_t *was = copy_of(g, im);
    bool good = true;

    for (uint32_t i = 0; i < 4; i++)
        good &= repair_parts_answer(a, im, first, want);
    good &= repair_answers(a, im, first, want) && same(g, im, was);
    good &= bad_is(want == 4 ? first_fault(g, im) : no_fault);
    check_at(good, "repair refused", line);
    free(was);
}

#define UNMENDED(want, block, rule) \
    refuses_repair(g, im, want, (struct pair){block, rule}, __LINE__)

static void range(struct shape g, uint32_t *im, uint32_t b, uint32_t least,
                  uint32_t greatest)
{
    head_of(g, im, b)[1] = least;
    head_of(g, im, b)[2] = greatest;
}

/* The slots of a block from 0 on, each with a fill that tells them apart. */
static void seat_block(struct shape g, uint32_t *im, uint32_t b,
                       const uint32_t *entries, uint32_t so_many)
{
    for (uint32_t s = 0; s < so_many; s++) {
        seat(g, im, b, s, entries[s]);
        pour(g, im, b, s, 100 * b + s);
    }
}

#define SEAT(b, ...) \
    seat_block(g, im, b, (const uint32_t[]){__VA_ARGS__}, \
               sizeof (uint32_t[]){__VA_ARGS__} / sizeof(uint32_t))

/* ---- Repair: each of the four faults by hand ---------------------------- */

static void test_repair_of_sound(void)
{
    struct shape g = {3, 5, 7}, other = {3, 7, 10};
    struct order o = {g, fresh(g), REPAIR, NULL};

    row_length = 0;
    EXPECT_ROW(0);
    free(o.im);
    o.im = half_way(g);
    EXPECT_ROW(0);
    /* At the ceiling, but there is nothing to erase. */
    o.im[0] = o.im[640] = o.im[1280] = 1000000;
    EXPECT_ROW(0);
    free(o.im);
    o = (struct order){other, two_full(other), REPAIR, NULL};
    EXPECT_ROW(0);
    free(o.im);
}

/* Over two blocks; one of a number that has no other slot stays. */
static void test_mend_superseded(void)
{
    struct shape g = {3, 5, 7};
    uint32_t *im = fresh(g);

    seat(g, im, 0, 0, LIVE + 3);
    seat(g, im, 0, 1, PASSING + 5);
    seat(g, im, 0, 3, PASSING + 3);
    seat(g, im, 1, 0, PASSING + 3);
    seat(g, im, 1, 2, LIVE + 5);
    seat(g, im, 1, 3, PASSING + 6);
    row_length = 0;
    then_program(5, 5);
    then_program(7, 3);
    then_program(644, 3);
    MENDED(0, 8, 3);
    CHECK(im[647] == PASSING + 6 && report_is(g, im, 3, 6, 3, 0));
    free(im);
}

/* Left all ones are both words, the second, the second of a block where none
 * is live, and the first.  In block 0 what is superseded has the greatest
 * number, and what is in passing the least. */
static void test_mend_ranges(void)
{
    struct shape g = {5, 5, 9};
    uint32_t *im = fresh(g);

    SEAT(0, LIVE + 4, PASSING + 2, PASSING + 6, 0);
    SEAT(1, LIVE + 6, LIVE + 0, 0x40000001, ONES);
    SEAT(2, 0, ONES, 0xE0000003, PASSING + 9);
    SEAT(4, LIVE + 8, LIVE + 7, 3, LIVE + 5);
    range(g, im, 1, 0, ONES);
    range(g, im, 2, 9, ONES);
    range(g, im, 4, ONES, 0xFFFFFFFE);
    row_length = 0;
    then_program(6, 6);
    then_program(1, 2);
    then_program(2, 4);
    then_program(642, 6);
    then_program(1282, 0);
    then_program(2561, 5);
    MENDED(0, 7, 6);
    CHECK(im[641] == 0 && im[1281] == 9 && im[2562] == 0xFFFFFFFE);
    free(im);
}

/* None live: 0 in both, or in the first; and all ones where the block has a
 * free slot are as they should be. */
static void test_mend_ranges_of_none(void)
{
    struct shape g = {4, 3, 5};
    uint32_t *im = fresh(g);

    SEAT(0, 3, ONES);
    SEAT(1, ONES, ONES);
    SEAT(2, LIVE + 1);
    range(g, im, 1, ONES, 4);
    row_length = 0;
    then_program(1, 0);
    then_program(2, 0);
    then_program(385, 0);
    MENDED(0, 7, 3);
    CHECK(im[386] == 4 && im[769] == ONES && im[770] == ONES);
    free(im);
}

/* The one superseded slot of a block is the only one with a live look. */
static void test_mend_range_behind_superseded(void)
{
    struct shape g = {3, 3, 3};
    uint32_t *im = fresh(g);

    SEAT(0, PASSING + 2, 1);
    SEAT(1, LIVE + 2);
    row_length = 0;
    then_program(4, 2);
    then_program(1, 0);
    then_program(2, 0);
    MENDED(0, 7, 3);
    free(im);
}

static void test_mend_count(void)
{
    struct shape g = {3, 5, 7}, least = {2, 3, 1};

    for (uint32_t b = 0; b < 3; b++) {
        uint32_t *im = fresh(g);

        head_of(g, im, (b + 1) % 3)[0] = 7;
        head_of(g, im, (b + 2) % 3)[0] = b == 1 ? 1000000 : 9;
        SEAT((b + 1) % 3, LIVE + 3, 0);
        SEAT((b + 2) % 3, LIVE + 1, LIVE + 2, LIVE + 0, LIVE + 4);
        range(g, im, (b + 2) % 3, 0, 4);
        head_of(g, im, b)[0] = ONES;
        row_length = 0;
        then_program(640 * b, b == 1 ? 1000000 : 9);
        MENDED(b, 1, 1);
        free(im);
    }
    for (uint32_t b = 0; b < 2; b++) {
        uint32_t *im = fresh(least);

        g = least;
        im[384 * b] = ONES;
        row_length = 0;
        then_program(384 * b, 0);
        MENDED(b, 1, 1);
        free(im);
    }
}

/* In (3,5,7), from a slot of block 0 to one of block 1, which is at 640. */
static void then_move(uint32_t from, uint32_t to, uint32_t map, uint32_t n)
{
    then_program(643, map);
    then_program(4 + from, PASSING + n);
    for (uint32_t i = 0; i < 128; i++)
        then_program(768 + 128 * to + i, from);
    then_program(644 + to, 0xE0000000 + n);
    then_program(644 + to, 0xC0000000 + n);
    then_program(4 + from, n);
}

/* No block of (3,5,7) is blank.  Block 0 is full, with two live slots; block 1
 * has its free slots in the second and the last place; block 2 is open too and
 * has more of them. */
static uint32_t *none_blank(struct shape g)
{
    uint32_t *im = fresh(g);

    SEAT(0, LIVE + 1, 0, PASSING + 3, ONES);
    range(g, im, 0, 1, 3);
    im[0] = 4;
    seat(g, im, 1, 0, LIVE + 0);
    seat(g, im, 1, 2, 0x40000004);
    seat(g, im, 2, 3, LIVE + 5);
    im[640] = 2;
    CHECK(broken(g, im) == UINT32_C(1) << 6);
    return im;
}

/* The slots in odd places are taken in their order and the target fills. */
static void test_mend_blank(void)
{
    struct shape g = {3, 5, 7};
    uint32_t *im = none_blank(g);

    row_length = 0;
    then_move(0, 1, 0xFFFFFFF8, 1);
    then_move(2, 3, 0xFFFFFFF0, 3);
    then_program(641, 0);
    then_program(642, 3);
    then_erase(0);
    then_program(0, 5);
    MENDED(3, 6, 2 * 133 + 2 + 2);
    CHECK(all_are(im + 1, 639, ONES) && report_is(g, im, 4, 7, 1, 7));
    CHECK(reads_fill(g, im, 1, 0) && reads_fill(g, im, 3, 2));
    free(im);

    /* One more free slot, between the two: the target keeps one. */
    im = none_blank(g);
    im[643] |= 4;
    im[646] = ONES;
    row_length = 0;
    then_move(0, 1, 0xFFFFFFFC, 1);
    then_move(2, 2, 0xFFFFFFF8, 3);
    then_erase(0);
    then_program(0, 5);
    MENDED(3, 6, 2 * 133 + 2);
    CHECK(im[641] == ONES && im[642] == ONES && im[647] == ONES);
    free(im);
}

/* (ii) sees to the victim like to any full block, although it is to go. */
static void test_mend_range_of_victim(void)
{
    struct shape g = {3, 5, 7};
    uint32_t *im = none_blank(g);

    range(g, im, 0, ONES, ONES);
    row_length = 0;
    then_program(1, 1);
    then_program(2, 3);
    then_move(0, 1, 0xFFFFFFF8, 1);
    then_move(2, 3, 0xFFFFFFF0, 3);
    then_program(641, 0);
    then_program(642, 3);
    then_erase(0);
    then_program(0, 5);
    MENDED(0, 7, 2 + 2 * 133 + 2 + 2);
    free(im);
}

/* All are full, so there is nowhere to copy to, and nothing to copy: most dead
 * slots, then the least count, then the lowest number. */
static void test_mend_without_copies(void)
{
    static const struct { uint32_t counts[4], victim; } cases[] = {
        {{5, 0, 4, 4}, 2}, {{4, 0, 4, 4}, 0}, {{6, 9, 6, 5}, 3},
        {{999999, 0, 1000000, 1000000}, 0},
    };
    struct shape g = {4, 2, 2};

    for (size_t i = 0; i < sizeof cases / sizeof cases[0]; i++) {
        uint32_t *im = fresh(g), v = cases[i].victim;

        SEAT(0, 1);
        SEAT(1, LIVE + 1);
        SEAT(2, ONES);
        SEAT(3, 0xE0000001);
        for (uint32_t b = 0; b < 4; b++) {
            range(g, im, b, 1, 1);
            head_of(g, im, b)[0] = cases[i].counts[b];
        }
        row_length = 0;
        then_erase(v);
        then_program(256 * v, cases[i].counts[v] + 1);
        MENDED(4, 6, 2);
        CHECK(do_repair(g, im) == 0 && counts_are(0, 0));
        free(im);
    }
}

/* An open block beside a victim with nothing to copy stays as it is. */
static void test_mend_beside_open(void)
{
    struct shape g = {3, 3, 3};
    uint32_t *im = fresh(g);

    SEAT(0, LIVE + 1);
    SEAT(1, LIVE + 0, LIVE + 2);
    range(g, im, 1, 0, 2);
    SEAT(2, ONES, 1);
    range(g, im, 2, 7, 0);
    row_length = 0;
    then_erase(2);
    then_program(768, 1);
    MENDED(3, 6, 2);
    CHECK(im[3] == 0xFFFFFFFE && report_is(g, im, 3, 3, 0, 1));
    free(im);
}

/* Block 1 of (4,4,5) has two superseded slots.  Only with them dead is it the
 * victim; before, that would be block 0, which has more live slots than the
 * lowest open block, 2, has free ones. */
static uint32_t *victim_by_superseded(struct shape g)
{
    uint32_t *im = fresh(g);

    SEAT(0, LIVE + 0, 0, LIVE + 1);
    SEAT(1, PASSING + 2, PASSING + 3, LIVE + 4);
    SEAT(2, LIVE + 2, LIVE + 3);
    SEAT(3, 0);
    range(g, im, 0, 0, 1);
    range(g, im, 1, 2, 4);
    return im;
}

static void test_mend_victim_by_superseded(void)
{
    struct shape g = {4, 4, 5};
    uint32_t *im = victim_by_superseded(g);

    im[0] = 1000000; /* of no account: block 0 is not the victim */
    im[512] = 999999;
    row_length = 0;
    then_program(516, 2);
    then_program(517, 3);
    then_program(1027, 0xFFFFFFF8);
    then_program(518, 0x80000004);
    for (uint32_t i = 0; i < 128; i++)
        then_program(1408 + i, 102);
    then_program(1030, 0xE0000004);
    then_program(1030, 0xC0000004);
    then_program(518, 4);
    then_program(1025, 2);
    then_program(1026, 4);
    then_erase(1);
    then_program(512, 1000000);
    MENDED(1, 8, 2 + 133 + 2 + 2);
    free(im);

    im = victim_by_superseded(g);
    im[512] = 1000000;
    UNMENDED(6, 0, 0);
    /* With one dead slot in each, block 0 has the least count, and then there
     * is not the room. */
    im[516] = im[1028] = im[1029] = 2;
    im[517] = LIVE + 3;
    CHECK(broken(g, im) == UINT32_C(1) << 6);
    UNMENDED(10, 0, 0);
    free(im);
}

/* (i), (ii) and (iv), and then (i), (ii) and (iii), from the back of the image
 * to its front: the order is theirs and not that of the places. */
static void test_mend_in_order(void)
{
    struct shape g = {4, 3, 5};
    uint32_t *im = fresh(g);

    SEAT(0, 0, 0);             /* the victim, without a range */
    SEAT(1, PASSING + 1, 0);   /* and without a range too */
    SEAT(2, LIVE + 1, LIVE + 2);
    range(g, im, 2, 1, ONES);
    SEAT(3, PASSING + 2);
    row_length = 0;
    then_program(388, 1);
    then_program(1156, 2);
    then_program(1, 0);
    then_program(2, 0);
    then_program(385, 0);
    then_program(386, 0);
    then_program(770, 2);
    then_erase(0);
    then_program(0, 1);
    MENDED(0, 7, 9);
    free(im);

    im = fresh(g);
    im[0] = ONES;
    SEAT(1, LIVE + 1, LIVE + 2);
    SEAT(2, PASSING + 2, LIVE + 3);
    SEAT(3, PASSING + 1);
    im[384] = 6;
    im[768] = 8;
    row_length = 0;
    then_program(772, 2);
    then_program(1156, 1);
    then_program(385, 1);
    then_program(386, 2);
    then_program(769, 3);
    then_program(770, 3);
    then_program(0, 8);
    MENDED(0, 1, 7);
    free(im);
}

/* ---- Repair: refusals --------------------------------------------------- */

static void test_repair_10(void)
{
    struct shape g = {3, 5, 7};
    uint32_t *im = fresh(g);

    /* No block is full, whatever the counts and whatever (i) would do. */
    SEAT(0, LIVE + 1);
    SEAT(1, 0, PASSING + 1);
    SEAT(2, ONES, 0, 0);
    UNMENDED(10, 0, 0);
    im[0] = im[640] = im[1280] = 1000000;
    UNMENDED(10, 0, 0);
    free(im);

    /* Too few free slots in the lowest open block; the next has enough. */
    im = none_blank(g);
    seat(g, im, 1, 1, 0);
    UNMENDED(10, 0, 0);
    /* Before 6. */
    im[0] = 1000000;
    UNMENDED(10, 0, 0);
    im[0] = 4;
    /* It fits once one of the two live slots is dead, or superseded. */
    im[6] = 3;
    CHECK(do_repair_first(g, im, 0) == 0);
    im[6] = PASSING + 3;
    im[645] = LIVE + 3;
    CHECK(do_repair_step(g, im, 0) == 0);
    CHECK(told_is((struct step){PROGRAM, 6, 3}));
    free(im);

    /* None open and a live slot in each. */
    im = fresh(g);
    SEAT(0, LIVE + 1, 0, 0, 0);
    SEAT(1, LIVE + 2, 0, 0, 0);
    SEAT(2, LIVE + 3, LIVE + 4, 0, ONES);
    for (uint32_t b = 0; b < 3; b++)
        range(g, im, b, 0, 6);
    UNMENDED(10, 0, 0);
    range(g, im, 2, ONES, ONES);
    UNMENDED(10, 0, 0);
    im[0] = 1000000;
    UNMENDED(10, 0, 0);
    im[644] = 2;
    CHECK(do_repair(g, im) == 0 && counts_are(3, 1) && im[640] == 1);
    free(im);
}

static void test_repair_6(void)
{
    struct shape g = {3, 5, 7};
    uint32_t *im = none_blank(g);

    im[0] = 1000000;
    UNMENDED(6, 0, 0);
    range(g, im, 0, ONES, ONES); /* what (ii) could do is not done either */
    UNMENDED(6, 0, 0);
    im[0] = 999999;
    im[640] = im[1280] = 1000000;
    CHECK(do_repair(g, im) == 0 && im[0] == 1000000);
    free(im);
}

/* Word 0 all ones: in two blocks, in one that is not blank, or not quite. */
static void test_repair_4_of_counts(void)
{
    struct shape g = {3, 5, 7}, least = {2, 3, 1};
    uint32_t *im = fresh(g);

    im[0] = im[1280] = ONES;
    UNMENDED(4, 0, 1);
    im[640] = ONES;
    UNMENDED(4, 0, 1);
    im[0] = 0;
    UNMENDED(4, 1, 1);
    im[640] = 1000001;
    UNMENDED(4, 1, 1);
    im[1280] = 0;
    UNMENDED(4, 1, 1);
    im[640] = 0xFFFFFFFE;
    UNMENDED(4, 1, 1);
    im[640] = ONES;
    CHECK(do_repair_first(g, im, 0) == 0);
    seat(g, im, 1, 2, ONES);
    UNMENDED(4, 1, 1);
    SEAT(1, LIVE + 0, LIVE + 2, 0, ONES);
    range(g, im, 1, 0, 2);
    UNMENDED(4, 1, 1);
    im[640] = 0;
    CHECK(do_check(g, im) == 0);
    free(im);

    im = fresh(least);
    g = least;
    im[0] = im[384] = ONES;
    UNMENDED(4, 0, 1);
    free(im);
}

/* A blank block without a count that has some other fault. */
static void test_repair_4_beside_count(void)
{
    struct shape g = {3, 5, 7};
    uint32_t *im = fresh(g);

    im[640] = ONES;
    for (uint32_t i = 1; i <= 2; i++) {
        im[640 + i] = 0;
        UNMENDED(4, 1, 1);
        im[640 + i] = ONES;
    }
    im[643] = 0x7FFFFFFF;
    UNMENDED(4, 1, 1);
    im[643] = ONES;
    im[1279] = 0;
    UNMENDED(4, 1, 1);
    im[1279] = ONES;
    CHECK(do_repair(g, im) == 0 && counts_are(1, 0));
    free(im);
}

/* One word all ones, and the other wrong. */
static void test_repair_4_of_ranges(void)
{
    static const struct { uint32_t least, greatest, answer; } cases[] = {
        {ONES, ONES, 0}, {ONES, 5, 0}, {2, ONES, 0}, {0, ONES, 0},
        {ONES, 0xFFFFFFFE, 0}, {ONES, 4, 4}, {3, ONES, 4}, {6, ONES, 4},
        {0xFFFFFFFE, ONES, 4}, {ONES, 0, 4}, {3, 5, 4}, {2, 4, 4},
    };
    struct shape g = {3, 5, 7};
    uint32_t *im = fresh(g);

    /* 0 and 6 are superseded and lie outside whatever is asked. */
    SEAT(1, PASSING + 5, LIVE + 2, PASSING + 0, PASSING + 6);
    SEAT(2, LIVE + 0, LIVE + 6);
    for (size_t i = 0; i < sizeof cases / sizeof cases[0]; i++) {
        range(g, im, 1, cases[i].least, cases[i].greatest);
        if (cases[i].answer == 4)
            UNMENDED(4, 1, 7);
        else
            CHECK(do_repair_first(g, im, 0) == 0);
    }
    /* In a block with a free slot there is nothing to mend by (ii). */
    range(g, im, 1, ONES, ONES);
    im[1281] = 0;
    UNMENDED(4, 1, 7);
    im[1281] = ONES;
    im[1282] = 6;
    UNMENDED(4, 1, 7);
    im[1282] = ONES;
    CHECK(do_repair(g, im) == 0 && counts_are(4, 0));
    free(im);
}

/* Any other fault, in front of one that could be mended or behind it; named is
 * the first, and 4 comes before 10 and 6. */
static void test_repair_4_beside_others(void)
{
    struct shape g = {3, 5, 7};
    uint32_t *im = fresh(g);

    seat(g, im, 0, 0, PASSING + 3);
    seat(g, im, 1, 0, LIVE + 3);
    im[2 * 640 + 128] = 0;
    UNMENDED(4, 0, 8);
    im[2 * 640 + 128] = ONES;
    seat(g, im, 1, 1, LIVE + 7);
    UNMENDED(4, 0, 8);
    im[645] = LIVE + 3;
    UNMENDED(4, 0, 8);
    im[645] = 0;
    im[0] = 1000001;
    UNMENDED(4, 0, 1);
    im[0] = 0;
    im[3] |= 1;
    UNMENDED(4, 0, 2);
    im[3] &= ~UINT32_C(1);
    CHECK(do_repair_first(g, im, 0) == 0);
    free(im);

    im = none_blank(g);
    im[0] = 1000000;
    im[640] = 1000001;
    UNMENDED(4, 1, 1);
    im[640] = ONES;
    UNMENDED(4, 1, 1);
    im[640] = 0;
    im[644] = PASSING + 5; /* superseded */
    im[1283] = 0xEFFFFFF7;
    UNMENDED(4, 1, 8);
    im[1283] = 0xFFFFFFF7;
    seat(g, im, 1, 1, LIVE + 1);
    UNMENDED(4, 1, 5);
    im[645] = PASSING + 3; /* twice in passing, so both are live */
    UNMENDED(4, 1, 5);
    im[645] = 0;
    im[1] = 2;
    UNMENDED(4, 0, 7);
    im[1] = 1;
    UNMENDED(10, 0, 0);
    free(im);
}

/* ---- Repair: cuts ------------------------------------------------------- */

/* How often what is worth a test came about. */
static struct {
    uint32_t before, after; /* the map in the end, where the two differ */
    uint32_t cleared, ranged, counted, moved, filled, wiped_range;
    uint32_t nothing;       /* to be done by the last repair */
    uint32_t at_limit;      /* more cuts than one, and as many as g */
    uint32_t anew;          /* a cut behind an erasure by a cut repair */
    uint32_t answers[11];
} met;

static void tally(void)
{
    met.cleared += did.cleared > 0;
    met.ranged += did.ranged > 0;
    met.counted += did.counted > 0;
    met.moved += did.copied > 0;
    met.filled += did.filled;
    met.wiped_range += did.wiped_range;
    met.nothing += row_length == 0;
}

/* A number of steps of the row that was written down.  Most of the steps store
 * contents; from there it goes on, more often than not, to what follows. */
static uint32_t some_cut(struct shape g)
{
    uint32_t j = below(row_length + 1);

    if (below(4) == 0)
        return j;
    while (j > 0 && j < row_length && row[j - 1].kind == PROGRAM &&
           row[j - 1].place % (128 * g.s) >= 128)
        j++;
    j += below(5);
    return j < row_length ? j : row_length;
}

/* Cuts the repair that the image wants. */
static void cut_repair(struct shape g, uint32_t *im, uint32_t *cuts)
{
    uint32_t *model = copy_of(g, im);
    uint32_t w, e;

    CHECK(model_repair(g, model, &w, &e) == 0);
    CHECK(do_repair_first(g, im, some_cut(g)) == 0);
    /* The cut comes behind the erasure, so it is the first since then. */
    met.anew += *cuts > 1 && erasures > 0;
    *cuts = erasures > 0 ? 1 : *cuts + 1;
    free(model);
}

/* K4's demand: the call cut after j steps, repairs cut, g cuts at most since
 * the last erasure, then a repair that is not. */
static void cut_and_mend(struct order o, uint32_t j, const uint32_t *before,
                         const uint32_t *after)
{
    struct shape g = o.g;
    struct second_geometry x = {g.b, g.s, g.l};
    uint32_t *im = copy_of(g, o.im), *model;
    uint32_t cuts = 1, w, e;
    bool is_before, is_after;

    CHECK(take_first(o, im, j) == 0);
    for (uint32_t i = below(4); i > 0 && cuts < second_gain(x); i--)
        cut_repair(g, im, &cuts);
    met.at_limit += cuts > 1 && cuts == second_gain(x);

    model = copy_of(g, im);
    CHECK(model_repair(g, model, &w, &e) == 0);
    tally();
    CHECK(do_repair(g, im) == 0 && counts_are(w, e) && same(g, im, model));
    CHECK(broken(g, im) == 0 && do_check(g, im) == 0);
    is_before = has_map(g, im, before);
    is_after = has_map(g, im, after);
    CHECK(is_before || is_after);
    met.before += is_before && !is_after;
    met.after += is_after && !is_before;
    free(im);
    free(model);
}

#define TRIES 8

/* After each of its steps, or after some of them. */
static void cut_call(struct order o, bool each)
{
    uint32_t *model = copy_of(o.g, o.im);
    uint32_t *before = map_now(o.g, o.im), *after;
    uint32_t w, e, some[TRIES];
    uint32_t answer = model_call(o, model, &w, &e);
    uint32_t so_many = each ? row_length + 1 : TRIES;

    after = map_now(o.g, model);
    /* All drawn now: the row is another one after the first of them. */
    for (uint32_t i = 0; i < TRIES; i++)
        some[i] = some_cut(o.g);
    for (uint32_t i = 0; answer == 0 && i < so_many; i++)
        cut_and_mend(o, each ? i : some[i], before, after);
    met.answers[answer]++;
    free(model);
    free(before);
    free(after);
}

/* Full but for a blank block, so that a write must reclaim. */
static void draw_full_image(struct shape g, uint32_t *im)
{
    uint32_t next = 0, blank = below(g.b);

    CHECK(do_format(g, im) == 0);
    for (uint32_t b = 0; b < g.b; b++) {
        head_of(g, im, b)[0] = below(4) ? below(3) : 999999;
        if (b == blank)
            continue;
        for (uint32_t s = 0; s < d_of(g); s++) {
            seat(g, im, b, s, next < g.l && below(4)
                                  ? (below(4) ? LIVE : PASSING) + next++
                                  : dead_slot(g));
            for (uint32_t i = 0; i < 128; i++)
                data_of(g, im, b, s)[i] = rnd();
        }
        range(g, im, b, 0, g.l - 1);
    }
    CHECK(broken(g, im) == 0);
}

static void cut_drawn_call(struct shape g, bool full, bool each)
{
    uint32_t data[SECTOR];
    struct order o = {g, lend(g), below(g.l), below(6) ? data : NULL};

    for (uint32_t i = 0; i < 128; i++)
        data[i] = rnd();
    if (full)
        draw_full_image(g, o.im);
    else
        draw_image(g, o.im);
    cut_call(o, each);
    free(o.im);
}

static void test_cuts(void)
{
    static const struct shape shapes[] = {
        {2, 3, 1}, {3, 2, 1}, {3, 5, 7}, {4, 4, 8}, {4, 5, 6}, {6, 3, 9},
        {3, 6, 4}, {2, 8, 3}, {3, 7, 10}, {2, 7, 5},
    };

    memset(&met, 0, sizeof met);
    for (uint32_t round = 0; round < 20; round++)
        cut_drawn_call(shapes[round % 10], round < 10, true);
    for (uint32_t round = 0; round < 600; round++)
        cut_drawn_call(shapes[round % 10], below(3) > 0, false);
    cut_drawn_call((struct shape){2, 36, 34}, true, false);
    cut_drawn_call((struct shape){3, 64, 120}, true, false);
    CHECK(met.before > 500 && met.after > 500 && met.nothing > 500);
    CHECK(met.cleared > 100 && met.ranged > 100 && met.counted > 100);
    CHECK(met.moved > 500 && met.filled > 100 && met.at_limit > 100);
    CHECK(met.anew > 20 && met.answers[0] > 300);
}

/* The largest image, and the most that (iv) can have to copy after a cut: 30
 * copies are made, one slot is lost, and the other 32 just fit. */
static void test_cut_of_largest(void)
{
    struct shape g = {64, 64, 3968};
    uint32_t *im = packed(g, 50), *map = map_now(g, im);
    uint32_t data[SECTOR] = {0};
    struct order o = {g, im, REPAIR, NULL};

    CHECK(do_write_first(g, im, 1234, data, 30 * 133 + 10) == 0);
    CHECK(do_check(g, im) == 4 && bad_is((struct pair){64, 6}));
    CHECK(ask(o, 32 * 133 + 1) == 0 && told.place % 8192 == 2);
    CHECK(ask(o, 32 * 133 + 2) == 0 && told.kind == ERASE);
    CHECK(ask(o, 32 * 133 + 3) == 0 && told.word == 1);
    CHECK(ask(o, 32 * 133 + 4) == 0 && told_is(no_step));
    CHECK(do_repair_first(g, im, 32 * 133 + 3) == 0);
    CHECK(counts_are(32 * 133 + 2, 1));
    CHECK(do_repair(g, im) == 0 && counts_are(1, 0));
    CHECK(do_check(g, im) == 0 && has_map(g, im, map));
    free(im);
    free(map);
}

/* More cuts than g: the slots that they cost are then missing. */
static void test_cuts_beyond(void)
{
    struct shape g = {2, 5, 3};
    uint32_t *im = fresh(g);
    uint32_t data[SECTOR] = {0};

    SEAT(0, LIVE + 0, LIVE + 1, LIVE + 2, 0);
    range(g, im, 0, 0, 2);
    CHECK(do_write_first(g, im, 1, data, 1) == 0);
    CHECK(do_repair_step(g, im, 0) == 0);
    CHECK(told_is((struct step){PROGRAM, 643, 0xFFFFFFFC}));
    CHECK(do_repair_first(g, im, 1) == 0 && counts_are(1, 0));
    UNMENDED(10, 0, 0);
    free(im);
}

/* ---- Repair: drawn faults, against the second account ------------------- */

/* A slot of such a kind, drawn from all; false if there is none. */
static bool any_slot(struct shape g, uint32_t *im, enum kind want,
                     uint32_t *b, uint32_t *s)
{
    uint32_t all = g.b * d_of(g), from = below(all);

    for (uint32_t i = 0; i < all; i++) {
        *b = (from + i) % all / d_of(g);
        *s = (from + i) % all % d_of(g);
        if (kind_of(g, im, *b, *s) == want)
            return true;
    }
    return false;
}

/* Puts one in passing beside a number that is complete. */
static void supersede(struct shape g, uint32_t *im)
{
    uint32_t b, s, tb, ts;

    if (any_slot(g, im, LIVING, &b, &s) &&
        any_slot(g, im, below(2) ? DEAD : FREE, &tb, &ts)) {
        uint32_t *e = entry_of(g, im, b, s);

        *e |= UINT32_C(0x40000000);
        seat(g, im, tb, ts, PASSING + number_of(*e));
    }
}

static void take_blanks(struct shape g, uint32_t *im)
{
    for (uint32_t b = 0; b < g.b; b++)
        if (count_kind(g, im, b, FREE) == d_of(g))
            for (uint32_t i = 1 + below(d_of(g)); i > 0; i--)
                seat(g, im, b, below(d_of(g)), dead_slot(g));
}

/* In each full block the range is right, or all ones for one or both. */
static void upset_ranges(struct shape g, uint32_t *im)
{
    for (uint32_t b = 0; b < g.b; b++)
        if (count_kind(g, im, b, FREE) == 0)
            range(g, im, b, below(2) ? ONES : model_edge(g, im, b, false),
                  below(2) ? ONES : model_edge(g, im, b, true));
}

/* Mostly faults that can be mended, and now and then any others. */
static void upset(struct shape g, uint32_t *im)
{
    if (below(3) == 0)
        take_blanks(g, im);
    for (uint32_t i = below(4); i > 0; i--)
        supersede(g, im);
    upset_ranges(g, im);
    for (uint32_t b = 0; b < g.b; b++) {
        if (count_kind(g, im, b, FREE) == d_of(g) && below(3) == 0)
            head_of(g, im, b)[0] = ONES;
    }
    if (below(4) == 0)
        spoil(g, im);
}

/* All of a repair by steps, as for a write; then the whole of it is known to
 * be sound. */
static void repair_by_steps(struct order o, bool closely)
{
    uint32_t *model = copy_of(o.g, o.im), *im = copy_of(o.g, o.im);
    uint32_t w, e;
    uint32_t answer = model_repair(o.g, model, &w, &e);

    met.answers[answer]++;
    tally();
    CHECK(do_repair(o.g, im) == answer && counts_are(w, e));
    CHECK(same(o.g, im, model));
    if (answer != 0) {
        refuses_parts(o, answer);
    } else {
        CHECK(broken(o.g, im) == 0 && do_check(o.g, im) == 0);
        if (closely) {
            CHECK(keeps_map(o));
            expect_row(o, 1 + below(40), __LINE__);
        }
    }
    free(model);
    free(im);
}

static void test_drawn_repairs(void)
{
    static const struct shape shapes[] = {
        {2, 3, 1}, {3, 2, 1}, {3, 5, 7}, {4, 4, 8}, {4, 5, 6}, {6, 3, 9},
        {3, 6, 4}, {5, 4, 6}, {3, 34, 60},
    };

    memset(&met, 0, sizeof met);
    for (uint32_t round = 0; round < 2700; round++) {
        struct shape g = shapes[round % 9];
        struct order o = {g, lend(g), REPAIR, NULL};

        draw_image(g, o.im);
        upset(g, o.im);
        repair_by_steps(o, round % 9 == 8 ? round % 540 == 8
                                          : round % 9 == round / 9 % 9);
        free(o.im);
    }
    CHECK(met.answers[0] > 500 && met.answers[4] > 200);
    CHECK(met.answers[6] > 20 && met.answers[10] > 100);
    CHECK(met.cleared > 300 && met.ranged > 300 && met.counted > 100);
    CHECK(met.moved > 100 && met.filled > 50 && met.wiped_range > 100);
}

/* All of the smallest images, with counts drawn so that each of the four
 * faults comes up with the others. */
static void test_small_repairs(struct shape g)
{
    uint32_t *im = fresh(g), *model = lend(g);
    uint32_t all = 1, w, e;

    memset(&met, 0, sizeof met);
    for (uint32_t p = 0; p < g.b * d_of(g); p++)
        all *= SMALL_STATES;
    for (uint32_t states = 0; states < all; states++) {
        uint32_t answer;

        small_image(g, im, states);
        for (uint32_t b = 0; b < g.b; b++)
            head_of(g, im, b)[0] = below(4) ? below(2) : below(2) ? ONES
                                                                  : 1000000;
        memcpy(model, im, len_of(g) * sizeof *im);
        answer = model_repair(g, model, &w, &e);
        met.answers[answer]++;
        tally();
        CHECK(do_repair(g, im) == answer && counts_are(w, e));
        CHECK(same(g, im, model));
        CHECK(do_format(g, im) == 0);
    }
    CHECK(met.answers[0] > 100 && met.answers[4] > 1000);
    CHECK(met.cleared > 10 && met.ranged > 10 && met.counted > 5);
    /* With one slot to a block and one number none is open, and not all of
     * the slots can be live. */
    CHECK(d_of(g) == 1 || (met.answers[10] > 10 && met.answers[6] > 10 &&
                           met.moved > 10 && met.filled > 10));
    free(im);
    free(model);
}

static void test_repair(void)
{
    test_repair_of_sound();
    test_mend_superseded();
    test_mend_ranges();
    test_mend_ranges_of_none();
    test_mend_range_behind_superseded();
    test_mend_count();
    test_mend_blank();
    test_mend_range_of_victim();
    test_mend_without_copies();
    test_mend_beside_open();
    test_mend_victim_by_superseded();
    test_mend_in_order();
    test_repair_10();
    test_repair_6();
    test_repair_4_of_counts();
    test_repair_4_beside_count();
    test_repair_4_of_ranges();
    test_repair_4_beside_others();
    test_cuts();
    test_cut_of_largest();
    test_cuts_beyond();
    test_drawn_repairs();
    test_small_repairs((struct shape){3, 2, 1});
    test_small_repairs((struct shape){2, 3, 1});
}

int main(void)
{
    test_p1();
    test_p2_p3_p4();
    test_p5();
    test_p6_p7_p8();
    test_p9();
    test_106_writes();
    test_ceiling();
    test_victim();
    test_victim_by_number();
    test_choice_of_slot();
    test_unused_words();
    test_refusal_1();
    test_other_geometry();
    test_refusal_1_of_nothing();
    test_refusals_in_order();
    test_refusal_6_in_order();
    test_rules();
    test_first_faults();
    test_many_shapes();
    test_drawn_images();
    test_damaged_images();
    test_tables();
    test_passing();
    test_steps();
    test_repair();
    printf("%lu passed, %lu failed\n", passed, failed);
    return failed == 0 ? 0 : 1;
}

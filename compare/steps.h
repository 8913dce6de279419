/* The steps of a write, a release or a repair: which ones to ask for, and what each does to an image. Carrying them out is done here, by the two kinds of step
 * alone, so this is an opinion on a list of steps that neither implementation has a part in. */
#ifndef STEPS_H
#define STEPS_H

#include "calls.h"

/* What is told where the call has no such step, or is refused. */
static const struct step no_step = {SHELLWALTZ_DONE, 0, 0};

static bool are_same_steps(struct step x, struct step y)
{
    return x.kind == y.kind && x.place == y.place && x.word == y.word;
}

static bool is_in_image(struct geometry g, struct step s)
{
    return s.kind == SHELLWALTZ_ERASE ? s.place < g.blocks && s.word == 0 : s.kind == SHELLWALTZ_PROGRAM && s.place < words_of(g);
}

/* Carries out a step that is in the image. Whether it leaves what it asks for: a word whose bits are set where the old one's are not is not
 * left so. */
static bool carry_out(struct geometry g, uint32_t *image, struct step s)
{
    if (s.kind == SHELLWALTZ_ERASE) {
        memset(block_of(g, image, (uint32_t)s.place), 0xFF, words_of((struct geometry){1, g.sectors, 0}) * sizeof *image);
        return true;
    }
    image[s.place] &= s.word;
    return image[s.place] == s.word;
}

/* ---- Which step, and how many */

/* Of a call that has so many steps: 0 and small numbers, numbers on both sides of the end, those between and the same with one more bit above,
 * which who narrows a number does not see, the greatest ones, and any. */
static uint32_t some_step(uint32_t steps)
{
    switch (below(7)) {
    case 0: return 0;
    case 1: return below(one_in(2) ? 4 : 2 * SECTOR);
    case 2: return (steps < 2 ? 0 : steps - 2) + below(5);
    case 3: return below(steps + 1);
    case 4: return below(steps + 1) | 1u << (8 + below(24));
    case 5: return ONES - (one_in(2) ? 0 : below(3));
    default: return (uint32_t)chance() >> below(32);
    }
}

/* Where a number lies in the list of an accepted call: at its last step, at its end, beyond it, at all ones; and, of a list with more than one
 * step, at its first, or between. */
enum { AT_THE_LAST, AT_THE_END, BEYOND, AT_ALL_ONES, OF_A_RELEASE, AT_THE_FIRST = OF_A_RELEASE, BETWEEN, WHERES };

static unsigned long asked_at[CALLS][WHERES];

static int where_in_list(uint32_t step, uint32_t steps)
{
    return step == ONES        ? AT_ALL_ONES
           : step > steps      ? BEYOND
           : step == steps     ? AT_THE_END
           : step == steps - 1 ? AT_THE_LAST
           : step == 0         ? AT_THE_FIRST
                               : BETWEEN;
}

/* Prints how often each came about; whether all did. A release has one step. */
static bool show_where_asked(void)
{
    static const enum call calls[] = {WRITE_STEP, RELEASE_STEP, WRITE_FIRST, RELEASE_FIRST, REPAIR_STEP, REPAIR_FIRST};
    bool complete = true;
    printf("  by steps, at the last, the end, beyond, all ones, 0, between:");
    for (int i = 0; i < 6; i++) {
        printf("%s %s", i == 0 ? "" : ";", names[calls[i]]);
        complete &= show_counts("", asked_at[calls[i]], whole_call[calls[i]] == RELEASE ? OF_A_RELEASE : WHERES);
    }
    puts(complete ? "" : " <- a 0: steps that were never asked for");
    return complete;
}

#endif

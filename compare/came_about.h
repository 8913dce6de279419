/* How the planted faults of the images lay to one another: which of them were the answer, and how they were made, and which were hidden behind
 * it. */
#ifndef CAME_ABOUT_H
#define CAME_ABOUT_H

#include "counts.h"
#include "faults.h"

/* How the fault that was the answer lay to one that it hid: in one block with it; in a lower block, with a rule before the other's or
 * after it; or in a lower block with the same rule. */
enum { ONE_BLOCK, LOWER_BLOCK_AND_RULE, LOWER_BLOCK_HIGHER_RULE, SAME_RULE, RELATIONS };

static struct {
    unsigned long images, three;                   /* all, and those with three faults that are of a block */
    unsigned long answer[RULES + 1], hidden[RULES + 1];
    unsigned long relation[RELATIONS][2];          /* the answer planted first, and last */
    unsigned long behind[2][RULES + 1][RULES + 1]; /* in one block, and in two: the rule of the answer, and the one that it hid */
    unsigned long way[RULES + 1][MOST_WAYS];       /* how the rule was broken that was the answer */
    unsigned long across;                          /* R5 hidden by a fault in a block that is not below that of its earlier slot */
    unsigned long outside;                         /* R8 the answer, and words 1 and 2 of the full block do not bound the superseded number */
    unsigned long filled;                          /* a block made full by a taken slot, which breaks nothing */
} came_about;

static void count_hidden(const struct fault *answer, const struct fault *other)
{
    bool two_blocks = answer->block != other->block;
    came_about.hidden[other->rule]++;
    came_about.behind[two_blocks][answer->rule][other->rule]++;
    if (other->rule == 6)
        return;
    int relation = !two_blocks                   ? ONE_BLOCK
                   : answer->rule == other->rule ? SAME_RULE
                   : answer->rule < other->rule  ? LOWER_BLOCK_AND_RULE
                                                 : LOWER_BLOCK_HIGHER_RULE;
    came_about.relation[relation][answer > other]++;
    came_about.across += other->rule == 5 && two_blocks && answer->block >= other->earlier_block;
}

/* Who takes a superseded slot for a live one says R7 of such a block. */
static bool is_out_of_bounds(const struct planting *p, const struct fault *superseded)
{
    uint32_t *block = block_of(p->g, p->image, superseded->block), n = number_in(*entry_of(p, superseded->block, superseded->slot));
    return is_full(p, superseded->block) && (n < block[1] || n > block[2]);
}

static void count_faults(const struct planting *p)
{
    const struct fault *answer = first_fault(p);
    came_about.images++;
    came_about.three += p->count - is_listed(p, 6, p->g.blocks) == 3;
    came_about.filled += p->filled;
    came_about.answer[answer->rule]++;
    came_about.way[answer->rule][answer->way]++;
    if (answer->rule == 8)
        came_about.outside += is_out_of_bounds(p, answer);
    for (uint32_t i = 0; i < p->count; i++)
        if (&p->faults[i] != answer)
            count_hidden(answer, &p->faults[i]);
}

/* How often the pair of rules came about that came about least: in one block the lower rule hides the higher, in two blocks each rule
 * hides each, and R6 is in no block but is hidden by all others. */
static unsigned long rarest_pair(bool two_blocks)
{
    unsigned long least = came_about.images;
    for (int pair = 0; pair < RULES * RULES; pair++) {
        int answer = 1 + pair / RULES, other = 1 + pair % RULES;
        bool possible = answer != 6 && (two_blocks || (other != 6 && answer < other));
        if (possible && came_about.behind[two_blocks][answer][other] < least)
            least = came_about.behind[two_blocks][answer][other];
    }
    return least;
}

/* Prints how often each rule was the answer and was hidden, and how the faults lay; whether everything came about. */
static bool show_what_came_about(void)
{
    unsigned long rarest[2] = {rarest_pair(false), rarest_pair(true)};
    bool complete = show_counts("  planted: images", &came_about.images, 1);
    complete &= show_counts(", with three faults", &came_about.three, 1);
    complete &= show_counts("; rules 1 to 8 the answer", came_about.answer + 1, RULES);
    complete &= show_counts(", hidden", came_about.hidden + 1, RULES);
    complete &= show_counts("\n  the answer planted first, last: one block", came_about.relation[ONE_BLOCK], 2);
    complete &= show_counts(", lower rule in lower block", came_about.relation[LOWER_BLOCK_AND_RULE], 2);
    complete &= show_counts(", in higher", came_about.relation[LOWER_BLOCK_HIGHER_RULE], 2);
    complete &= show_counts(", same rule", came_about.relation[SAME_RULE], 2);
    complete &= show_counts("; the rarest pair", rarest, 2);
    complete &= show_counts("; R5 across the answer", &came_about.across, 1);
    complete &= show_counts("\n  the ways of the answer: R2", came_about.way[2], WAYS_OF_R2);
    complete &= show_counts(", R3", came_about.way[3], WAYS_OF_R3);
    complete &= show_counts(", R5", came_about.way[5], WAYS_OF_R5);
    complete &= show_counts(", R6", came_about.way[6], WAYS_OF_R6);
    complete &= show_counts(", R7", came_about.way[7], WAYS_OF_R7);
    complete &= show_counts(", R8", came_about.way[8], WAYS_OF_R8);
    complete &= show_counts("; out of bounds", &came_about.outside, 1);
    complete &= show_counts("; filled by a taken slot", &came_about.filled, 1);
    puts(complete ? "" : " <- a 0: faults that were never planted so");
    return complete;
}

#endif

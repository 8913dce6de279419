/* The driver is that of the examples, as it stands. With WRONG_ORDER it carries out two steps of a write in the wrong order, and a trial has to find that.
 *
 * In the placing of a number that is stored already, and in the first copy of a reclaim, (f), which makes the old entry invalid, changes places with the
 * first word of (c), the contents: for as long as the steps between them take, the sector is nowhere. */
#ifdef WRONG_ORDER
#include "shellwaltz.h"

static struct shellwaltz_step write_step_in_wrong_order(const struct shellwaltz_part *its, uint32_t number, const uint32_t *buffer, uint32_t step)
{
    enum { B = 1, FIRST_OF_C = 2, F = 132 };
    int replaces = shellwaltz_part_write_step(its, number, buffer, B).place == shellwaltz_part_write_step(its, number, buffer, F).place;
    if (replaces && (step == FIRST_OF_C || step == F))
        step = FIRST_OF_C + F - step;
    return shellwaltz_part_write_step(its, number, buffer, step);
}

#define shellwaltz_part_write_step write_step_in_wrong_order
#endif

#include "../examples/driver.c"

/* The driver of driver.h, for every part. Tried by tests/c-programs on array.c, and by emulated/run on an emulated part that is killed; compiled
 * as C++ too. */
#include "driver.h"

static const uint32_t ONES = 0xFFFFFFFFu;

static struct shellwaltz_step ask_for_step(struct request request, uint32_t step)
{
    switch (request.call) {
    case WRITE: return shellwaltz_part_write_step(&part, request.number, request.buffer, step);
    case RELEASE: return shellwaltz_part_release_step(&part, request.number, step);
    default: return shellwaltz_part_repair_step(&part, step);
    }
}

static struct shellwaltz_result do_on_mirror(struct request request)
{
    switch (request.call) {
    case WRITE: return shellwaltz_part_write(&part, request.number, request.buffer);
    case RELEASE: return shellwaltz_part_release(&part, request.number);
    default: return shellwaltz_part_repair(&part);
    }
}

int carry_out(struct request request, struct shellwaltz_result *result, uint32_t *steps)
{
    for (*steps = 0;; ++*steps) {
        /* Each question is about the mirror before the call: neither the mirror nor the buffer may change until the last step is done. */
        struct shellwaltz_step s = ask_for_step(request, *steps);
        if (s.answer != SHELLWALTZ_OK) {
            /* What is refused has no step, not even the first: nothing was done. (Later on, the mirror was damaged in the meantime.) */
            struct shellwaltz_result refusal = {s.answer, 0, 0, s.bad_block, s.bad_rule};
            *result = refusal;
            return *steps == 0 ? 0 : -1;
        }
        if (s.kind == SHELLWALTZ_DONE)
            break;
        /* A step that fails may be tried again: done twice, it leaves what it leaves once. If it fails for good, the part stands between two
         * steps, as after a cut of the supply. The mirror is as it was before the call, and reads so; but no other call may be carried out
         * on the part, which is not what the mirror says any more, before the driver has started up again. */
        if (s.kind == SHELLWALTZ_PROGRAM ? program_word(s.place, s.word) : erase_block(s.place))
            return -1;
    }
    *result = do_on_mirror(request);
    return 0;
}

static void load_mirror(void)
{
    for (size_t place = 0; place < part.image_words; place++)
        part.image[place] = read_word(place);
}

int start_up(struct shellwaltz_result *result, uint32_t *steps)
{
    struct request repair = {REPAIR, 0, NULL};
    load_mirror();
    *steps = 0;
    *result = shellwaltz_part_check(&part);
    if (result->answer != SHELLWALTZ_MALFORMED)
        return 0;
    return carry_out(repair, result, steps);
}

/* A format has no steps. Every block is erased, and the words of the fresh mirror that are not all ones are programmed. */
int format_part(void)
{
    if (shellwaltz_part_format(&part).answer != SHELLWALTZ_OK)
        return -1;
    for (size_t block = 0; block < part.blocks; block++)
        if (erase_block(block))
            return -1;
    for (size_t place = 0; place < part.image_words; place++)
        if (part.image[place] != ONES && program_word(place, part.image[place]))
            return -1;
    return 0;
}

size_t first_difference(void)
{
    for (size_t place = 0; place < part.image_words; place++)
        if (read_word(place) != part.image[place])
            return place;
    return part.image_words;
}

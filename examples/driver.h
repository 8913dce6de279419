/* A driver that takes a NOR part through each write, release and repair step by step: the library tells what to program and what to erase, the
 * driver does it on the part, and then lets the library change the mirror. And that comes back when the supply was cut on the way: at its
 * start it repairs the part, step by step as well. docs/USING.md, "Step by step" and "After a power cut", says what must stay as it is, and why.
 *
 * driver.c is for every part. What is above the line is yours to write; there are two examples: array.c, for a part that is an array, and
 * ../emulated, for one with the commands of a real part. */
#ifndef DRIVER_H
#define DRIVER_H

#include "shellwaltz.h"

#ifdef __cplusplus
extern "C" {
#endif

/* The part: its three numbers, and the mirror. */
extern const struct shellwaltz_part part;

/* Its commands. Places are those of the mirror, in words. Each comes back when the part has finished, and not before; the last two with 0 if
 * the part did what it was told. Programming clears bits and sets none; no step asks for a bit that is clear already, so the word must
 * read as it was asked for. */
uint32_t read_word(size_t place);
int program_word(size_t place, uint32_t word);
int erase_block(size_t block);

/* -------- */

/* What is done step by step: a write of the buffer under the number, a release of the number, or a repair. */
enum call { WRITE, RELEASE, REPAIR, CALLS };
struct request {
    enum call call;
    uint32_t number;
    const uint32_t *buffer;
};

/* Does what is requested on the part, and then on the mirror. Gives 0 where both have it, or neither as it was refused: *result says which.
 * Anything else says that the part failed, after *steps steps. Then no other call may be carried out before the driver has started up again. */
int carry_out(struct request request, struct shellwaltz_result *result, uint32_t *steps);

/* At every start, before the first call: the part may stand between two steps. Gives 0 where it had not to be repaired, where it was, or where the
 * repair was refused, and *result says which; anything else as above, and then start up again. It may be cut here too: the next start
 * goes on. (A lookup table is to be built after this.)
 *
 *   SHELLWALTZ_OK            Go on. Only the number of the call that was cut may read either as before the call or as after it.
 *   SHELLWALTZ_MALFORMED     No cut has left this: the part was never formatted, or with other numbers, or is damaged. *result names a block
 *                            and a rule. Keep a copy of the part before you format it.
 *   SHELLWALTZ_NO_ROOM       The supply was cut more often, one start after another, than a repair can mend; or the part is damaged. The
 *                            sectors are still there, but no call reads them. Keep a copy.
 *   SHELLWALTZ_WORN_OUT      A block would have to be erased that has been too often. The part has to be replaced. Keep a copy.
 *   SHELLWALTZ_BAD_GEOMETRY  A mistake in the program. */
int start_up(struct shellwaltz_result *result, uint32_t *steps);

/* On first use. Whatever the part held is gone, the erase counts too. Gives 0 where it is done; it is not safe against a cut. */
int format_part(void);

/* The first place where part and mirror differ; the length of the mirror where there is none, as it should be between any two calls. */
size_t first_difference(void);

#ifdef __cplusplus
}
#endif

#endif

/* What is on the image, in words. */
#ifndef WORDS_H
#define WORDS_H

#include <stdio.h>

#include "places.h"

/* The verdict, a table of the blocks, the totals, and what else is broken beside the first fault. */
void print_survey(FILE *out, const struct survey *s, struct shellwaltz_result check);

/* Where the logical sector is, and its bytes as xxd prints them; in each slot that is live for it, if the image is malformed. */
void print_sector(FILE *out, const struct survey *s, uint32_t number);

/* The names of the kinds, and of the rules that a block breaks: "R2 R5". */
const char *name_of_block_kind(enum block_kind kind);
const char *name_of_slot_kind(enum slot_kind kind);
struct sentence rules_broken_by(const struct survey *s, uint32_t block);

#endif

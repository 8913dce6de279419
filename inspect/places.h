/* Which rules of a well-formed image a block breaks, and in words the first place where it does. */
#ifndef PLACES_H
#define PLACES_H

#include "survey.h"

enum { RULES = 8, SENTENCE = 640 };

struct sentence {
    char text[SENTENCE];
};

/* Whether the block breaks the rule, and where: what is there, and what should be. Rule 6 is the whole image's, and is broken by the
 * block that K1 charges with it, one past the last; the other rules are never broken by that one. */
bool is_broken(const struct survey *s, uint32_t block, uint32_t rule, struct sentence *place);

/* The sentence for what a check gave of the image: that it is well formed, or which block breaks which rule, and where. */
struct sentence verdict_of(const struct survey *s, struct shellwaltz_result check);

/* "block 2", and of the one past the last that it is. */
struct sentence name_of_block(const struct survey *s, uint32_t block);

/* An erase count, or word 1 or 2: as a number, but for the word that erasing leaves. */
struct sentence word_in_words(uint32_t word);

#endif

/* What the words of an image say, block by block and slot by slot, whether the image is well formed or not. The names are those of
 * docs/FORMAT.md. Nothing here stops at a fault. */
#ifndef SURVEY_H
#define SURVEY_H

#include <stdbool.h>

#include "../include/shellwaltz.h"

enum { MOST_BLOCKS = 64, MOST_SECTORS = 64, MOST_SLOTS = MOST_SECTORS - 1, MOST_NUMBERS = SHELLWALTZ_MOST_LOGICAL(MOST_BLOCKS, MOST_SECTORS) };

/* The words of a block: its erase count, words 1 and 2, and the first of the free map, each of which has the bits of 32 slots. */
static const uint32_t COUNT_WORD = 0, LEAST_WORD = 1, GREATEST_WORD = 2, MAP_WORD = 3, MAP_BITS = 32;
_Static_assert(_Generic((uint32_t)0, unsigned: 1, default: 0), "words are printed with %u and %X");
static const uint32_t ALL_ONES = 0xFFFFFFFFu;

enum slot_kind { FREE, LIVE, DEAD, SUPERSEDED, FAULTY, SLOT_KINDS };
enum block_kind { BLANK, OPEN, FULL };

struct place {
    uint32_t block, slot;
};

struct slot {
    enum slot_kind kind;
    uint32_t entry;
    uint32_t number;        /* of a live, a superseded or a faulty slot */
    bool map_bit;           /* the slot's bit in the free map */
    uint32_t first_stain;   /* of a free slot: the first word of its contents that is not all ones, or SHELLWALTZ_SECTOR_WORDS */
    bool is_repeat;         /* of a live slot: an earlier slot is live for its number too */
    struct place first;     /* and the first one that is */
    bool is_repeated;       /* of a live slot: it is the first for its number, and not the only one */
    struct place next;      /* and the second one */
    struct place complete;  /* of a superseded slot: the first one with a complete entry for its number */
};

struct block {
    const uint32_t *words;
    enum block_kind kind;
    uint32_t count[SLOT_KINDS]; /* of its slots, by kind */
    struct slot slots[MOST_SLOTS];
};

struct survey {
    struct shellwaltz_part part;
    uint32_t slots, map_words; /* of a block: d and k */
    struct block blocks[MOST_BLOCKS];
    struct {
        bool is_live;          /* some slot is live for it */
        struct place first;    /* and the first one that is */
        bool has_complete;     /* some slot has a complete entry for it */
        struct place complete; /* and the first one that has */
    } numbers[MOST_NUMBERS];
};

/* Of a part whose geometry is within its limits and whose image has the words for it. */
void survey(struct survey *s, struct shellwaltz_part part);

/* What R2 and R3 forbid of a slot: a map bit that is set while its entry is in use; contents in a free slot. */
bool has_stale_map_bit(const struct slot *slot);
bool is_stained(const struct slot *slot);

/* What two kinds do not tell of a slot: of a live one, that its entry is in passing; of a dead one, that it was taken and its entry is free. */
bool is_live_in_passing(const struct slot *slot);
bool is_taken(const struct slot *slot);

/* Where the entry of a slot stands in its block, and the contents. */
uint32_t entry_word(const struct survey *s, uint32_t slot);
const uint32_t *contents_of(const struct survey *s, struct place at);

/* The offset of a word in the file, in bytes. */
unsigned long byte_of(const struct survey *s, const uint32_t *word);

uint32_t slots_of_kind(const struct survey *s, enum slot_kind kind);
uint32_t blocks_of_kind(const struct survey *s, enum block_kind kind);

/* The erase counts. One above the ceiling is no count, and would hide the wear of the others: those are counted apart. `least` and `greatest` are
 * the lowest blocks with those counts, and mean nothing if all are above. */
struct wear {
    uint32_t sum, above, least, greatest;
};

struct wear wear_of(const struct survey *s);

/* Whether the next write has to reclaim a block first: rule 3 of a write. */
bool is_full_part(const struct survey *s);

/* The block that it would reclaim then. */
uint32_t victim_of(const struct survey *s);

#endif

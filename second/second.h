/* NOR sector layer over a lent image of 32-bit words.
 *
 * The image, the sector buffer, the table and the places for what a call
 * tells beside its answer belong to the caller; nothing is kept between
 * calls.  A pointer must be good for the length handed in with it, those
 * places must be good, and no two of the regions may overlap.  The numbers
 * and the words of the regions may have any value.
 *
 * Every call answers 0 or the first refusal that applies.  A refused call
 * changes no word of the image, of the buffer or of the table and reports
 * zeros.
 *
 * A slot is free when its entry is all ones and its bit in the free map is
 * set; with the bit clear, a write took it and got no further, and it is dead.
 * Of the entries in use, one that is complete and current (bits 31 and 30 set,
 * bit 29 clear) is live if its number is below L, and else a fault by rule 4.
 * One that is complete but on its way out (bit 31 set, bits 30 and 29 clear)
 * and has a number below L is in passing: live as well, as long as no slot of
 * the image has a complete and current entry of that number.  Once one has,
 * the slot in passing is superseded, which is neither live nor dead nor free.
 * Whatever else is in use is dead.
 *
 * The calls that look at the image also name its first fault.  Beside the
 * answer 4, bad_rule is the rule that is broken, 1 to 8, and bad_block the
 * block charged with it.  That is the lowest block with a fault and, however
 * its faults lie in it, the lowest of the rules it breaks.  Rule 2 is broken
 * by a bit of the free map that is set over an entry in use, or clear where no
 * slot belongs to it; rule 7 also by all ones in word 1 or word 2 of a block
 * without a free slot; rule 8 by a superseded slot.  A number live in two
 * slots is charged to the block of the second.  Rule 6 is no single block's:
 * it is named when every block is faultless, and then bad_block is the number
 * of blocks.  Beside every other answer both are 0.
 *
 * The table has a 16-bit word for each logical number.  The slots count
 * through the image, block by block, and the word is how many come before the
 * one where the number is live, or SECOND_NO_SLOT while there is none.  The
 * calls that take a table differ from their namesakes in nothing that those
 * answer, report or leave behind, however wrong the table is; a right one
 * spares them the search for a live number.  second_build_table sets every
 * word.  A write sets the words of the number written and of those it had to
 * move, a release that of the number released, a read none; whatever the other
 * words hold is kept.  So a right table stays right as long as every write and
 * release is given it; after one that was not, and after a format, it wants
 * building again.
 *
 * A write or a release is a row of steps, counted from 0, each of which
 * programs a word or erases a block.  From an image as it stands before the
 * call, second_write_step and second_release_step tell one step of that row
 * and change nothing: its kind, its place and, for a word, what is asked of
 * it; bits that are 0 already stay 0 whatever is asked.  Behind the last step,
 * and beside a refusal, the kind is SECOND_DONE, and place and word are 0.
 * second_write_first and second_release_first take the steps in their order
 * but no more than `most` of them, count those, and leave the image as it is
 * then, which need not be a sound one.  All four refuse what the whole call
 * refuses, however few steps are asked for.
 *
 * second_repair is for an image that a call left unsound because it did not
 * come to its end.  It mends four faults, whoever made them, in this order:
 * superseded slots, which become dead; all ones in word 1 or word 2 of a block
 * without a free slot, where the word gets the least or the greatest number
 * live in the block, or 0 if none is; all ones as the erase count of a blank
 * block, which gets the largest count of the other blocks; and the lack of a
 * blank block.  For that it takes the victim that a write would take, once the
 * superseded slots are dead, moves what is live there to the lowest open block
 * and erases it.  Where no block is full, or that open block has not the room
 * (without an open one there is none), the answer is SECOND_NO_ROOM; else for
 * a victim that must not be erased any more SECOND_WORN_OUT.  With any fault
 * beside the four the answer is 4, and also if more than one block is without
 * a count; bad_block and bad_rule then name the image's first fault, be it one
 * of the four or not.  A sound image is accepted and left as it is.  A repair
 * is a row of steps too: second_repair_step and second_repair_first are to it
 * what the four above are to a write and a release.
 *
 * The calls that tell a step or take the first steps share a scratch image
 * with second_repair, so no two of these seven may run at the same time. */
#ifndef SECOND_H
#define SECOND_H

#include <stdbool.h>
#include <stddef.h>
#include <stdint.h>

#define SECOND_SECTOR_WORDS 128u
#define SECOND_LEAST_BLOCKS 2u
#define SECOND_MOST_BLOCKS 64u
#define SECOND_LEAST_SECTORS 2u
#define SECOND_MOST_SECTORS 64u
/* (64 - 1) * (64 - 1) - 1, the largest number of logical sectors. */
#define SECOND_MOST_LOGICAL 3968u
#define SECOND_CEILING 1000000u
/* In a table: the number is live nowhere. */
#define SECOND_NO_SLOT UINT16_C(0xFFFF)

#define SECOND_OK 0u
#define SECOND_BAD_GEOMETRY 1u
#define SECOND_BAD_BUFFER 2u /* or a table of another length */
#define SECOND_BAD_NUMBER 3u
#define SECOND_BAD_IMAGE 4u
#define SECOND_NOT_MAPPED 5u
#define SECOND_WORN_OUT 6u
#define SECOND_NO_ROOM 10u /* of a repair only */

/* The kinds of a step. */
#define SECOND_DONE 0u    /* there is no step i */
#define SECOND_PROGRAM 1u /* program `word` at place `place` of the image */
#define SECOND_ERASE 2u   /* erase block `place`; `word` is 0 */

struct second_geometry {
    uint32_t blocks;
    uint32_t sectors; /* per block, the block's header sector included */
    uint32_t logical;
};

/* True when the three numbers are within their limits. */
bool second_geometry_ok(struct second_geometry g);

/* Worked out from the three; only for a geometry within its limits. */
uint32_t second_slots(struct second_geometry g);     /* d */
uint32_t second_map_words(struct second_geometry g); /* k */
size_t second_image_words(struct second_geometry g);
uint32_t second_gain(struct second_geometry g);      /* g */

uint32_t second_format(uint32_t blocks, uint32_t sectors, uint32_t logical,
                       uint32_t *image, size_t image_words,
                       uint32_t *words, uint32_t *erasures);

uint32_t second_check(uint32_t blocks, uint32_t sectors, uint32_t logical,
                      const uint32_t *image, size_t image_words,
                      uint32_t *bad_block, uint32_t *bad_rule);

uint32_t second_report(uint32_t blocks, uint32_t sectors, uint32_t logical,
                       const uint32_t *image, size_t image_words,
                       uint32_t *mapped, uint32_t *free_slots,
                       uint32_t *dead, uint32_t *erase_sum,
                       uint32_t *bad_block, uint32_t *bad_rule);

uint32_t second_read(uint32_t blocks, uint32_t sectors, uint32_t logical,
                     const uint32_t *image, size_t image_words,
                     uint32_t number, uint32_t *buffer, size_t buffer_words,
                     uint32_t *bad_block, uint32_t *bad_rule);

uint32_t second_write(uint32_t blocks, uint32_t sectors, uint32_t logical,
                      uint32_t *image, size_t image_words,
                      uint32_t number, const uint32_t *buffer,
                      size_t buffer_words,
                      uint32_t *words, uint32_t *erasures,
                      uint32_t *bad_block, uint32_t *bad_rule);

uint32_t second_release(uint32_t blocks, uint32_t sectors, uint32_t logical,
                        uint32_t *image, size_t image_words,
                        uint32_t number,
                        uint32_t *words, uint32_t *erasures,
                        uint32_t *bad_block, uint32_t *bad_rule);

uint32_t second_write_step(uint32_t blocks, uint32_t sectors, uint32_t logical,
                           const uint32_t *image, size_t image_words,
                           uint32_t number, const uint32_t *buffer,
                           size_t buffer_words,
                           uint32_t step,
                           uint32_t *kind, uint32_t *place, uint32_t *word,
                           uint32_t *bad_block, uint32_t *bad_rule);

uint32_t second_release_step(uint32_t blocks, uint32_t sectors,
                             uint32_t logical,
                             const uint32_t *image, size_t image_words,
                             uint32_t number, uint32_t step,
                             uint32_t *kind, uint32_t *place, uint32_t *word,
                             uint32_t *bad_block, uint32_t *bad_rule);

uint32_t second_write_first(uint32_t blocks, uint32_t sectors,
                            uint32_t logical,
                            uint32_t *image, size_t image_words,
                            uint32_t number, const uint32_t *buffer,
                            size_t buffer_words,
                            uint32_t most,
                            uint32_t *words, uint32_t *erasures,
                            uint32_t *bad_block, uint32_t *bad_rule);

uint32_t second_release_first(uint32_t blocks, uint32_t sectors,
                              uint32_t logical,
                              uint32_t *image, size_t image_words,
                              uint32_t number, uint32_t most,
                              uint32_t *words, uint32_t *erasures,
                              uint32_t *bad_block, uint32_t *bad_rule);

uint32_t second_repair(uint32_t blocks, uint32_t sectors, uint32_t logical,
                       uint32_t *image, size_t image_words,
                       uint32_t *words, uint32_t *erasures,
                       uint32_t *bad_block, uint32_t *bad_rule);

uint32_t second_repair_step(uint32_t blocks, uint32_t sectors,
                            uint32_t logical,
                            const uint32_t *image, size_t image_words,
                            uint32_t step,
                            uint32_t *kind, uint32_t *place, uint32_t *word,
                            uint32_t *bad_block, uint32_t *bad_rule);

uint32_t second_repair_first(uint32_t blocks, uint32_t sectors,
                             uint32_t logical,
                             uint32_t *image, size_t image_words,
                             uint32_t most,
                             uint32_t *words, uint32_t *erasures,
                             uint32_t *bad_block, uint32_t *bad_rule);

uint32_t second_build_table(uint32_t blocks, uint32_t sectors,
                            uint32_t logical,
                            const uint32_t *image, size_t image_words,
                            uint16_t *table, size_t table_words,
                            uint32_t *bad_block, uint32_t *bad_rule);

uint32_t second_read_with_table(uint32_t blocks, uint32_t sectors,
                                uint32_t logical,
                                const uint32_t *image, size_t image_words,
                                uint32_t number, uint32_t *buffer,
                                size_t buffer_words,
                                const uint16_t *table, size_t table_words,
                                uint32_t *bad_block, uint32_t *bad_rule);

uint32_t second_write_with_table(uint32_t blocks, uint32_t sectors,
                                 uint32_t logical,
                                 uint32_t *image, size_t image_words,
                                 uint32_t number, const uint32_t *buffer,
                                 size_t buffer_words,
                                 uint16_t *table, size_t table_words,
                                 uint32_t *words, uint32_t *erasures,
                                 uint32_t *bad_block, uint32_t *bad_rule);

uint32_t second_release_with_table(uint32_t blocks, uint32_t sectors,
                                   uint32_t logical,
                                   uint32_t *image, size_t image_words,
                                   uint32_t number,
                                   uint16_t *table, size_t table_words,
                                   uint32_t *words, uint32_t *erasures,
                                   uint32_t *bad_block, uint32_t *bad_rule);

#endif

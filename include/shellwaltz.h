/* Shellwaltz: a sector layer for NOR flash, over an image of 32-bit words that the caller lends.
 *
 * The image holds `blocks` blocks of `sectors` sectors of 128 words; `logical` is how many sectors a caller can store, each of 128
 * words, by the numbers 0 to logical - 1. The three numbers go with every call: nothing is kept between calls. The library uses no
 * heap and no global state, calls nothing but memcpy and memset, and any number of images may be in use at once. A call uses less
 * than 4 KiB of stack.
 *
 * The image is memory, a mirror of the part. A call's contract fixes the image that the call leaves, and not the stores on the way, so a
 * store is not the programming of a word: of an accepted call the driver carries the changes over to the part (docs/USING.md). Of a write,
 * a release or a repair the step calls tell them, word by word and in their order. docs/FORMAT.md says what the words of an image mean and
 * what each call does.
 *
 * The header has two layers. First the proved functions, with every part of what they take and give as a parameter. Below them, and
 * shorter to call, functions over a struct for the part and results by value; they only pass on (see "The short calls").
 *
 * What is handed in: every number may have any value, and an image, a buffer or a table any length and contents. A pointer must be good for
 * the length handed in with it (also where that is 0), and a pointer to a single number for one of its type. What a call writes (an image,
 * buffer or table that is not const, and the numbers) must overlap with nothing else that is handed to it. Lengths are in words, not bytes.
 *
 * What comes back: SHELLWALTZ_OK, or the first refusal below that applies, in the order of their numbers; but a repair asks for 10 before
 * it asks for 6. A refused call changes no word of the image, none of the buffer and none of the table, and gives 0 for every count and no
 * step. So a call either does all of its work or none.
 *
 * SHELLWALTZ_MALFORMED comes with the block and the rule (1 to 8, docs/FORMAT.md) that fail first: blocks in ascending order, and within a
 * block its rules in the order of their numbers. A number that is stored in two slots is charged to the block of the later one. Rule 6, that
 * some block is blank, is the whole image's: it is named last, with `blocks` as the bad block. With every other answer, *bad_block and
 * *bad_rule are 0.
 *
 * The contract of each function of the first layer is proved for every input: crates/shellwaltz_c/src has it as equations, and so has
 * crates/shellwaltz_archive/src, whose functions, each a call of those, are the ones that are linked. */
#ifndef SHELLWALTZ_H
#define SHELLWALTZ_H

#include <stddef.h>
#include <stdint.h>

#ifdef __cplusplus
extern "C" {
#endif

/* The words of a sector, and so of a buffer. */
#define SHELLWALTZ_SECTOR_WORDS 128u

/* The words of an image, for numbers within their limits: blocks and sectors 2 to 64 each. */
#define SHELLWALTZ_IMAGE_WORDS(blocks, sectors) ((size_t)(blocks) * (size_t)(sectors) * SHELLWALTZ_SECTOR_WORDS)

/* The most logical sectors of a geometry: with fewer, a write erases more rarely. */
#define SHELLWALTZ_MOST_LOGICAL(blocks, sectors) (((blocks) - 1u) * ((sectors) - 1u) - 1u)

/* The erase count at which a block is not erased any more. */
#define SHELLWALTZ_CEILING 1000000u

/* The word of a lookup table for a number that is not stored. */
#define SHELLWALTZ_NOWHERE 0xFFFFu

/* The answers. */
#define SHELLWALTZ_OK 0u           /* the call did what it is for */
#define SHELLWALTZ_BAD_GEOMETRY 1u /* blocks or sectors not within 2 to 64, logical not within 1 to MOST_LOGICAL, or an image of another length */
#define SHELLWALTZ_BAD_BUFFER 2u   /* the buffer is not 128 words, or the lookup table not `logical` words */
#define SHELLWALTZ_BAD_NUMBER 3u   /* the number is not below `logical` */
#define SHELLWALTZ_MALFORMED 4u    /* the image breaks a rule of the format */
#define SHELLWALTZ_UNMAPPED 5u     /* nothing is stored under the number */
#define SHELLWALTZ_WORN_OUT 6u     /* the write or the repair would erase a block that is at the ceiling */
#define SHELLWALTZ_NO_ROOM 10u     /* the repair is to empty a block, and has none to empty or no room for what is stored there */

/* The kinds of step. */
#define SHELLWALTZ_DONE 0u    /* no step: the call has no more, or is refused */
#define SHELLWALTZ_PROGRAM 1u /* a word to program */
#define SHELLWALTZ_ERASE 2u   /* a block to erase */

/* Makes a fresh image of whatever the words held: nothing stored, every block counted as never erased. Refuses 1.
 * Sets *words and *erasures to 0: preparing a part is not counted. */
uint32_t shellwaltz_format(uint32_t blocks, uint32_t sectors, uint32_t logical, uint32_t *image, size_t image_words,
                           uint32_t *words, uint32_t *erasures);

/* Whether the image is well formed: SHELLWALTZ_OK exactly when every rule of the format holds. Refuses 1 and 4. Changes no word of the
 * image. */
uint32_t shellwaltz_check(uint32_t blocks, uint32_t sectors, uint32_t logical, const uint32_t *image, size_t image_words,
                          uint32_t *bad_block, uint32_t *bad_rule);

/* How many slots hold a stored sector (*mapped), are free (*free_slots) and are dead (*dead: replaced, released, or taken and never
 * finished; their room comes back when their block is erased), and the sum of all blocks' erase counts (*erase_sum). Refuses 1 and 4.
 * Changes no word of the image. */
uint32_t shellwaltz_report(uint32_t blocks, uint32_t sectors, uint32_t logical, const uint32_t *image, size_t image_words,
                           uint32_t *mapped, uint32_t *free_slots, uint32_t *dead, uint32_t *erase_sum,
                           uint32_t *bad_block, uint32_t *bad_rule);

/* Copies the sector stored under `number` to the buffer of 128 words. Refuses 1, 2, 3, 4 and 5. Changes no word of the image. */
uint32_t shellwaltz_read(uint32_t blocks, uint32_t sectors, uint32_t logical, const uint32_t *image, size_t image_words,
                         uint32_t number, uint32_t *buffer, size_t buffer_words, uint32_t *bad_block, uint32_t *bad_rule);

/* Stores the buffer of 128 words under `number`, in place of what was stored there. Refuses 1, 2, 3, 4 and 6. Gives the words that
 * it programmed and the blocks that it erased (0 or 1). Changes no word of the buffer, and what is stored under other numbers stays. */
uint32_t shellwaltz_write(uint32_t blocks, uint32_t sectors, uint32_t logical, uint32_t *image, size_t image_words,
                          uint32_t number, const uint32_t *buffer, size_t buffer_words, uint32_t *words, uint32_t *erasures,
                          uint32_t *bad_block, uint32_t *bad_rule);

/* Forgets what is stored under `number`. Refuses 1, 3, 4 and 5. Gives the words that it programmed (1) and the blocks that it erased (0). */
uint32_t shellwaltz_release(uint32_t blocks, uint32_t sectors, uint32_t logical, uint32_t *image, size_t image_words,
                            uint32_t number, uint32_t *words, uint32_t *erasures, uint32_t *bad_block, uint32_t *bad_rule);

/* Brings an image back into order that a cut of the supply has left between two steps of a write, a release or a repair. It makes superseded
 * slots dead, gives a full block its words 1 and 2 and a blank one its erase count, and where no block is blank it empties one into another
 * and erases it. What is stored stays as it is: under the number of a call that was cut, what was stored before it or what it was to leave.
 * A well-formed image is accepted and left as it is. Refuses 1, 4, 10 and 6, in this order: 4 where anything else is wrong with the image, with
 * the block and the rule that a check names; 10 where no block is full, or where the first block with some slots free and some not has fewer of
 * them than the block to be emptied has stored sectors. Gives the words that it programmed and the blocks that it erased (0 or 1).
 *
 * A write or a release of a well-formed image may be cut after any step, and the repairs after it too: as long as there were not more cuts
 * since the last erasure than dead slots that a victim has at least (g of docs/FORMAT.md, which is 1 or more), the next repair is accepted. */
uint32_t shellwaltz_repair(uint32_t blocks, uint32_t sectors, uint32_t logical, uint32_t *image, size_t image_words,
                           uint32_t *words, uint32_t *erasures, uint32_t *bad_block, uint32_t *bad_rule);

/* ---- The same with a lookup table, which spares a call the search for its sector. The caller lends `logical` words of 16 bits; for each
 * number the word is block * (sectors - 1) + slot, or SHELLWALTZ_NOWHERE. (A call still checks the whole image first; docs/BENCHMARKS.md
 * says what the search costs beside that.)
 *
 * Nothing is taken on trust: whatever the table holds, what a call answers, counts and leaves of image and buffer is what the call without a
 * table gives, and a table of another length than `logical` is refused with 2. Accepted calls keep a right table right. A wrong one costs time
 * and nothing else: an accepted write sets the words of its number and of those that it had to move, a release that of its number, and all
 * others stay. After a format or a repair, and after a write or a release without the table, build it anew. */

/* Builds the table, whatever it holds. Refuses 1, 2 and 4. Changes no word of the image. */
uint32_t shellwaltz_build_table(uint32_t blocks, uint32_t sectors, uint32_t logical, const uint32_t *image, size_t image_words,
                                uint16_t *table, size_t table_words, uint32_t *bad_block, uint32_t *bad_rule);

/* As shellwaltz_read. Refuses 1, 2, 3, 4 and 5. Changes no word of the table. */
uint32_t shellwaltz_read_with_table(uint32_t blocks, uint32_t sectors, uint32_t logical, const uint32_t *image, size_t image_words,
                                    uint32_t number, uint32_t *buffer, size_t buffer_words, const uint16_t *table, size_t table_words,
                                    uint32_t *bad_block, uint32_t *bad_rule);

/* As shellwaltz_write. Refuses 1, 2, 3, 4 and 6. */
uint32_t shellwaltz_write_with_table(uint32_t blocks, uint32_t sectors, uint32_t logical, uint32_t *image, size_t image_words,
                                     uint32_t number, const uint32_t *buffer, size_t buffer_words, uint16_t *table, size_t table_words,
                                     uint32_t *words, uint32_t *erasures, uint32_t *bad_block, uint32_t *bad_rule);

/* As shellwaltz_release. Refuses 1, 2, 3, 4 and 5. */
uint32_t shellwaltz_release_with_table(uint32_t blocks, uint32_t sectors, uint32_t logical, uint32_t *image, size_t image_words,
                                       uint32_t number, uint16_t *table, size_t table_words, uint32_t *words, uint32_t *erasures,
                                       uint32_t *bad_block, uint32_t *bad_rule);

/* ---- A write, a release and a repair step by step. Each is a list of steps, in a fixed order: a step programs a word, in which bits are
 * cleared and none is set, or erases a block, of which every word is all ones then. docs/FORMAT.md has the lists.
 *
 * A step call is for the driver: it tells one step of the call on this image, so that the call can be carried out on the part, one word or
 * block at a time, before it is done on the mirror. It changes nothing. Ask for step 0, 1, 2 and so on, with the same image, number and buffer,
 * do on the part what comes back, stop at SHELLWALTZ_DONE, and then make the whole call. *kind says what the step is:
 *
 *   SHELLWALTZ_PROGRAM  *place is the place of the word in the image, counted in words from 0, and *word is what the word is to hold
 *   SHELLWALTZ_ERASE    *place is the number of the block, and *word is 0
 *   SHELLWALTZ_DONE     there is no such step: the call has `step` steps or fewer; *place and *word are 0
 *
 * It refuses what the whole call refuses, by the same number, and a refused one has no step. Each step call checks the whole image anew. */

/* Step `step`, from 0, of shellwaltz_write. Refuses 1, 2, 3, 4 and 6. Changes no word of the image or of the buffer. */
uint32_t shellwaltz_write_step(uint32_t blocks, uint32_t sectors, uint32_t logical, const uint32_t *image, size_t image_words,
                               uint32_t number, const uint32_t *buffer, size_t buffer_words, uint32_t step,
                               uint32_t *kind, size_t *place, uint32_t *word, uint32_t *bad_block, uint32_t *bad_rule);

/* Step `step`, from 0, of shellwaltz_release. Refuses 1, 3, 4 and 5. Changes no word of the image. */
uint32_t shellwaltz_release_step(uint32_t blocks, uint32_t sectors, uint32_t logical, const uint32_t *image, size_t image_words,
                                 uint32_t number, uint32_t step, uint32_t *kind, size_t *place, uint32_t *word,
                                 uint32_t *bad_block, uint32_t *bad_rule);

/* Step `step`, from 0, of shellwaltz_repair. Refuses 1, 4, 10 and 6. Changes no word of the image. */
uint32_t shellwaltz_repair_step(uint32_t blocks, uint32_t sectors, uint32_t logical, const uint32_t *image, size_t image_words,
                                uint32_t step, uint32_t *kind, size_t *place, uint32_t *word, uint32_t *bad_block, uint32_t *bad_rule);

/* The calls for the first steps carry these out on the image: `most` of them, which may be any number, or all where there are fewer. They
 * refuse what the whole call refuses. *words and *erasures count what was done, and not what the whole call would do. After fewer than all
 * steps the image is that of a part whose supply was cut after the last of them, and it need not be well formed. They take no table: after one,
 * build it anew, which is refused with 4 while the image is not well formed. */

/* The first steps of shellwaltz_write. Refuses 1, 2, 3, 4 and 6. Changes no word of the buffer. */
uint32_t shellwaltz_write_first(uint32_t blocks, uint32_t sectors, uint32_t logical, uint32_t *image, size_t image_words,
                                uint32_t number, const uint32_t *buffer, size_t buffer_words, uint32_t most,
                                uint32_t *words, uint32_t *erasures, uint32_t *bad_block, uint32_t *bad_rule);

/* The first steps of shellwaltz_release. Refuses 1, 3, 4 and 5. */
uint32_t shellwaltz_release_first(uint32_t blocks, uint32_t sectors, uint32_t logical, uint32_t *image, size_t image_words,
                                  uint32_t number, uint32_t most, uint32_t *words, uint32_t *erasures,
                                  uint32_t *bad_block, uint32_t *bad_rule);

/* The first steps of shellwaltz_repair. Refuses 1, 4, 10 and 6. */
uint32_t shellwaltz_repair_first(uint32_t blocks, uint32_t sectors, uint32_t logical, uint32_t *image, size_t image_words,
                                 uint32_t most, uint32_t *words, uint32_t *erasures, uint32_t *bad_block, uint32_t *bad_rule);

/* ---- The short calls: each passes the part and its own arguments on to the proved function of the same name, and nothing else; a read, a
 * write or a release of a part that has a lookup table, to the one with a table. (Of a repair, and step by step, there is none: the table stays
 * as it is.)
 * A buffer is always 128 words here. What is said above of pointers holds of the part's image and table as well. */

/* A part: its geometry, the image that mirrors it, and its lookup table, if it has one (else `table` is a null pointer). SHELLWALTZ_PART
 * initialises one without a table and SHELLWALTZ_PART_WITH_TABLE one with a table of `logical` words, both with an image of the words that
 * the geometry says, in C and in C++; later versions may add fields, which they then set as well. */
struct shellwaltz_part {
    uint32_t blocks, sectors, logical;
    uint32_t *image;
    size_t image_words;
    uint16_t *table;
    size_t table_words;
};

#define SHELLWALTZ_PART_WITH_TABLE(blocks, sectors, logical, image, table) \
    {(blocks), (sectors), (logical), (image), SHELLWALTZ_IMAGE_WORDS(blocks, sectors), (table), (logical)}

#define SHELLWALTZ_PART(blocks, sectors, logical, image) \
    {(blocks), (sectors), (logical), (image), SHELLWALTZ_IMAGE_WORDS(blocks, sectors), (uint16_t *)0, 0}

/* What a call gave. `words` and `erasures` are 0 where the call has no such count; `bad_block` and `bad_rule` are those of
 * SHELLWALTZ_MALFORMED, and otherwise 0. */
struct shellwaltz_result {
    uint32_t answer, words, erasures, bad_block, bad_rule;
};

/* What a report gave. */
struct shellwaltz_totals {
    uint32_t answer, mapped, free_slots, dead, erase_sum, bad_block, bad_rule;
};

/* What a call for one step gave. */
struct shellwaltz_step {
    uint32_t answer, kind;
    size_t place;
    uint32_t word, bad_block, bad_rule;
};

static inline struct shellwaltz_result shellwaltz_part_format(const struct shellwaltz_part *part)
{
    struct shellwaltz_result r = {0, 0, 0, 0, 0};
    r.answer = shellwaltz_format(part->blocks, part->sectors, part->logical, part->image, part->image_words, &r.words, &r.erasures);
    return r;
}

static inline struct shellwaltz_result shellwaltz_part_check(const struct shellwaltz_part *part)
{
    struct shellwaltz_result r = {0, 0, 0, 0, 0};
    r.answer = shellwaltz_check(part->blocks, part->sectors, part->logical, part->image, part->image_words, &r.bad_block, &r.bad_rule);
    return r;
}

static inline struct shellwaltz_totals shellwaltz_part_report(const struct shellwaltz_part *part)
{
    struct shellwaltz_totals t = {0, 0, 0, 0, 0, 0, 0};
    t.answer = shellwaltz_report(part->blocks, part->sectors, part->logical, part->image, part->image_words, &t.mapped, &t.free_slots,
                                 &t.dead, &t.erase_sum, &t.bad_block, &t.bad_rule);
    return t;
}

/* Builds the part's table; of a part that has none it is refused, with 2 or with 1. */
static inline struct shellwaltz_result shellwaltz_part_build_table(const struct shellwaltz_part *part)
{
    struct shellwaltz_result r = {0, 0, 0, 0, 0};
    uint16_t none[1] = {SHELLWALTZ_NOWHERE};
    r.answer = shellwaltz_build_table(part->blocks, part->sectors, part->logical, part->image, part->image_words,
                                      part->table ? part->table : none, part->table ? part->table_words : 0, &r.bad_block, &r.bad_rule);
    return r;
}

/* To 128 words. */
static inline struct shellwaltz_result shellwaltz_part_read(const struct shellwaltz_part *part, uint32_t number, uint32_t *buffer)
{
    struct shellwaltz_result r = {0, 0, 0, 0, 0};
    if (part->table)
        r.answer = shellwaltz_read_with_table(part->blocks, part->sectors, part->logical, part->image, part->image_words, number, buffer,
                                              SHELLWALTZ_SECTOR_WORDS, part->table, part->table_words, &r.bad_block, &r.bad_rule);
    else
        r.answer = shellwaltz_read(part->blocks, part->sectors, part->logical, part->image, part->image_words, number, buffer,
                                   SHELLWALTZ_SECTOR_WORDS, &r.bad_block, &r.bad_rule);
    return r;
}

/* From 128 words. */
static inline struct shellwaltz_result shellwaltz_part_write(const struct shellwaltz_part *part, uint32_t number, const uint32_t *buffer)
{
    struct shellwaltz_result r = {0, 0, 0, 0, 0};
    if (part->table)
        r.answer = shellwaltz_write_with_table(part->blocks, part->sectors, part->logical, part->image, part->image_words, number, buffer,
                                               SHELLWALTZ_SECTOR_WORDS, part->table, part->table_words, &r.words, &r.erasures, &r.bad_block,
                                               &r.bad_rule);
    else
        r.answer = shellwaltz_write(part->blocks, part->sectors, part->logical, part->image, part->image_words, number, buffer,
                                    SHELLWALTZ_SECTOR_WORDS, &r.words, &r.erasures, &r.bad_block, &r.bad_rule);
    return r;
}

static inline struct shellwaltz_result shellwaltz_part_release(const struct shellwaltz_part *part, uint32_t number)
{
    struct shellwaltz_result r = {0, 0, 0, 0, 0};
    if (part->table)
        r.answer = shellwaltz_release_with_table(part->blocks, part->sectors, part->logical, part->image, part->image_words, number,
                                                 part->table, part->table_words, &r.words, &r.erasures, &r.bad_block, &r.bad_rule);
    else
        r.answer = shellwaltz_release(part->blocks, part->sectors, part->logical, part->image, part->image_words, number, &r.words,
                                      &r.erasures, &r.bad_block, &r.bad_rule);
    return r;
}

/* The part's table is to be built anew after it. */
static inline struct shellwaltz_result shellwaltz_part_repair(const struct shellwaltz_part *part)
{
    struct shellwaltz_result r = {0, 0, 0, 0, 0};
    r.answer = shellwaltz_repair(part->blocks, part->sectors, part->logical, part->image, part->image_words, &r.words, &r.erasures,
                                 &r.bad_block, &r.bad_rule);
    return r;
}

/* Of the write from these 128 words. */
static inline struct shellwaltz_step shellwaltz_part_write_step(const struct shellwaltz_part *part, uint32_t number, const uint32_t *buffer,
                                                                uint32_t step)
{
    struct shellwaltz_step s = {0, 0, 0, 0, 0, 0};
    s.answer = shellwaltz_write_step(part->blocks, part->sectors, part->logical, part->image, part->image_words, number, buffer,
                                     SHELLWALTZ_SECTOR_WORDS, step, &s.kind, &s.place, &s.word, &s.bad_block, &s.bad_rule);
    return s;
}

static inline struct shellwaltz_step shellwaltz_part_release_step(const struct shellwaltz_part *part, uint32_t number, uint32_t step)
{
    struct shellwaltz_step s = {0, 0, 0, 0, 0, 0};
    s.answer = shellwaltz_release_step(part->blocks, part->sectors, part->logical, part->image, part->image_words, number, step, &s.kind,
                                       &s.place, &s.word, &s.bad_block, &s.bad_rule);
    return s;
}

static inline struct shellwaltz_step shellwaltz_part_repair_step(const struct shellwaltz_part *part, uint32_t step)
{
    struct shellwaltz_step s = {0, 0, 0, 0, 0, 0};
    s.answer = shellwaltz_repair_step(part->blocks, part->sectors, part->logical, part->image, part->image_words, step, &s.kind, &s.place,
                                      &s.word, &s.bad_block, &s.bad_rule);
    return s;
}

/* Of the write from these 128 words. */
static inline struct shellwaltz_result shellwaltz_part_write_first(const struct shellwaltz_part *part, uint32_t number,
                                                                   const uint32_t *buffer, uint32_t most)
{
    struct shellwaltz_result r = {0, 0, 0, 0, 0};
    r.answer = shellwaltz_write_first(part->blocks, part->sectors, part->logical, part->image, part->image_words, number, buffer,
                                      SHELLWALTZ_SECTOR_WORDS, most, &r.words, &r.erasures, &r.bad_block, &r.bad_rule);
    return r;
}

static inline struct shellwaltz_result shellwaltz_part_release_first(const struct shellwaltz_part *part, uint32_t number, uint32_t most)
{
    struct shellwaltz_result r = {0, 0, 0, 0, 0};
    r.answer = shellwaltz_release_first(part->blocks, part->sectors, part->logical, part->image, part->image_words, number, most, &r.words,
                                        &r.erasures, &r.bad_block, &r.bad_rule);
    return r;
}

static inline struct shellwaltz_result shellwaltz_part_repair_first(const struct shellwaltz_part *part, uint32_t most)
{
    struct shellwaltz_result r = {0, 0, 0, 0, 0};
    r.answer = shellwaltz_repair_first(part->blocks, part->sectors, part->logical, part->image, part->image_words, most, &r.words,
                                       &r.erasures, &r.bad_block, &r.bad_rule);
    return r;
}

/* ---- For logs: a sentence for each number. */

static inline const char *shellwaltz_meaning(uint32_t answer)
{
    switch (answer) {
    case SHELLWALTZ_OK: return "The call did what it is for.";
    case SHELLWALTZ_BAD_GEOMETRY: return "The geometry is outside its limits, or the image has another length.";
    case SHELLWALTZ_BAD_BUFFER: return "The buffer is not 128 words, or the lookup table has not a word for each number.";
    case SHELLWALTZ_BAD_NUMBER: return "There is no logical sector of this number.";
    case SHELLWALTZ_MALFORMED: return "The image breaks a rule of the format.";
    case SHELLWALTZ_UNMAPPED: return "Nothing is stored under this number.";
    case SHELLWALTZ_WORN_OUT: return "The write or the repair would erase a block that has been erased 1000000 times.";
    case SHELLWALTZ_NO_ROOM: return "The repair is to empty a block, and no block is full or what is stored there finds no room.";
    default: return "This is not an answer of the library.";
    }
}

static inline const char *shellwaltz_rule_meaning(uint32_t rule)
{
    switch (rule) {
    case 0: return "No rule is named.";
    case 1: return "The erase count of the block is above 1000000.";
    case 2: return "The free map of the block shows a slot as free whose entry is in use, or has a bit clear that belongs to no slot.";
    case 3: return "A free slot of the block has contents that are not all ones.";
    case 4: return "An entry of the block is marked as stored, under a number that no logical sector has.";
    case 5: return "A number is stored in the block that is also stored in an earlier slot, of it or of a block before it.";
    case 6: return "No block is blank.";
    case 7:
        return "Word 1 or 2 of the block is programmed while a slot is free, or is all ones in a full block, or does not bound its numbers.";
    case 8: return "A slot of the block is about to be replaced by another slot that is complete already.";
    default: return "This is not a rule of the format.";
    }
}

#ifdef __cplusplus
}
#endif

#endif

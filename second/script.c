/* Runs a script from standard input over a freshly formatted image and prints
 * a line for each record and one for the whole.  A record may ask for a fresh
 * image with another L; the blocks and sectors are always the same. */
#include "second.h"

#include <inttypes.h>
#include <stdio.h>

#define BLOCKS 8u
#define SECTORS 16u
#define DEFAULT_LOGICAL 70u
#define IMAGE_WORDS (BLOCKS * SECTORS * SECOND_SECTOR_WORDS)
#define RECORD_BYTES 12u

#define OP_WRITE 1u
#define OP_READ 2u
#define OP_RELEASE 3u
#define OP_FORMAT 4u

#define ANSWER_UNKNOWN_OPERATION 7u
#define ANSWER_SHORT_RECORD 8u

struct record {
    uint32_t operation;
    uint32_t number;
    uint32_t fill;
};

/* All that one record leaves to the next.  L decides which entries of the
 * image are faults, so another L comes only with a fresh image. */
struct state {
    uint32_t logical;
    uint32_t image[IMAGE_WORDS];
};

struct line {
    char letter;
    uint32_t number;
    uint32_t answer;
    uint32_t words;
    uint32_t erasures;
    uint32_t first;
};

static uint32_t little_endian(const unsigned char *bytes)
{
    return (uint32_t)bytes[0] | (uint32_t)bytes[1] << 8 |
           (uint32_t)bytes[2] << 16 | (uint32_t)bytes[3] << 24;
}

static struct record decode(const unsigned char *bytes)
{
    return (struct record){little_endian(bytes), little_endian(bytes + 4),
                           little_endian(bytes + 8)};
}

static void print_line(struct line out)
{
    printf("%c %" PRIu32 " %" PRIu32 " %" PRIu32 " %" PRIu32 " %" PRIu32 "\n",
           out.letter, out.number, out.answer, out.words, out.erasures,
           out.first);
}

static uint32_t format(struct state *now, uint32_t logical)
{
    uint32_t words, erasures; /* always 0 */
    uint32_t answer = second_format(BLOCKS, SECTORS, logical, now->image,
                                    IMAGE_WORDS, &words, &erasures);

    /* A refused format has kept the image, so its L is kept too. */
    if (answer == SECOND_OK)
        now->logical = logical;
    return answer;
}

static void fill(uint32_t *sector, uint32_t word)
{
    for (uint32_t i = 0; i < SECOND_SECTOR_WORDS; i++)
        sector[i] = word;
}

static struct line run(struct state *now, struct record in)
{
    uint32_t sector[SECOND_SECTOR_WORDS];
    struct line out = {'X', in.number, ANSWER_UNKNOWN_OPERATION, 0, 0, 0};
    uint32_t bad_block, bad_rule; /* not printed */

    switch (in.operation) {
    case OP_WRITE:
        fill(sector, in.fill);
        out.letter = 'W';
        out.answer = second_write(BLOCKS, SECTORS, now->logical, now->image,
                                  IMAGE_WORDS, in.number, sector,
                                  SECOND_SECTOR_WORDS, &out.words,
                                  &out.erasures, &bad_block, &bad_rule);
        break;
    case OP_READ:
        /* A refused read leaves the buffer alone, and then 0 is printed. */
        sector[0] = 0;
        out.letter = 'R';
        out.answer = second_read(BLOCKS, SECTORS, now->logical, now->image,
                                 IMAGE_WORDS, in.number, sector,
                                 SECOND_SECTOR_WORDS, &bad_block, &bad_rule);
        out.first = sector[0];
        break;
    case OP_RELEASE:
        out.letter = 'D';
        out.answer = second_release(BLOCKS, SECTORS, now->logical, now->image,
                                    IMAGE_WORDS, in.number, &out.words,
                                    &out.erasures, &bad_block, &bad_rule);
        break;
    case OP_FORMAT:
        out.letter = 'L';
        out.answer = format(now, in.number);
        break;
    default:
        break;
    }
    return out;
}

static void run_all(struct state *now)
{
    unsigned char bytes[RECORD_BYTES];
    size_t got;

    while ((got = fread(bytes, 1, sizeof bytes, stdin)) == sizeof bytes)
        print_line(run(now, decode(bytes)));
    if (got > 0 && !ferror(stdin))
        print_line((struct line){'X', 0, ANSWER_SHORT_RECORD, 0, 0, 0});
}

int main(void)
{
    static struct state now; /* large for a stack */
    uint32_t mapped, free_slots, dead, erase_sum;
    uint32_t bad_block, bad_rule;

    if (format(&now, DEFAULT_LOGICAL) != SECOND_OK)
        return 1;
    run_all(&now);
    if (ferror(stdin)) {
        perror("standard input");
        return 1;
    }
    if (second_report(BLOCKS, SECTORS, now.logical, now.image, IMAGE_WORDS,
                      &mapped, &free_slots, &dead, &erase_sum, &bad_block,
                      &bad_rule) != SECOND_OK)
        return 1;
    printf("T %" PRIu32 " %" PRIu32 " %" PRIu32 " %" PRIu32 "\n", mapped,
           free_slots, dead, erase_sum);
    if (fflush(stdout) != 0 || ferror(stdout)) {
        perror("standard output");
        return 1;
    }
    return 0;
}

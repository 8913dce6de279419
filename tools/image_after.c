/* Carries out a script's records on a freshly formatted image of a geometry, by the linked library, and leaves the image on standard
 * output: its words little-endian, as a part is read out.
 *
 *     image_after BLOCKS SECTORS LOGICAL <RECORDS >IMAGE
 *
 * What a record asks for is in docs/FORMAT.md, "The script program". What it answers is not shown here, and a refused call changes no word. Where
 * a record of operation 4 sets another LOGICAL, standard error says which one it is at the end. */
#include <stdio.h>

#include "../include/shellwaltz.h"
#include "../inspect/little_endian.h"
#include "../inspect/number.h"

enum { WRITE = 1, RELEASE = 3, FORMAT = 4, RECORD = 12 };

static void carry_out(struct shellwaltz_part *part, const unsigned char *record)
{
    uint32_t operation = word_at(record), number = word_at(record + 4), buffer[SHELLWALTZ_SECTOR_WORDS];
    for (uint32_t i = 0; i < SHELLWALTZ_SECTOR_WORDS; i++)
        buffer[i] = word_at(record + 8);
    if (operation == WRITE)
        shellwaltz_part_write(part, number, buffer);
    if (operation == RELEASE)
        shellwaltz_part_release(part, number);
    if (operation == FORMAT) {
        struct shellwaltz_part afresh = SHELLWALTZ_PART(part->blocks, part->sectors, number, part->image);
        if (shellwaltz_part_format(&afresh).answer == SHELLWALTZ_OK)
            *part = afresh;
    }
}

static int leave(const struct shellwaltz_part *part)
{
    for (size_t byte = 0; byte < 4 * part->image_words; byte++)
        putchar(byte_in(part->image, byte));
    return fflush(stdout) != 0 || ferror(stdout) != 0;
}

int main(int argc, char **argv)
{
    static uint32_t image[SHELLWALTZ_IMAGE_WORDS(64, 64)];
    uint32_t blocks = 0, sectors = 0, logical = 0;
    unsigned char record[RECORD];
    if (argc != 4 || !number_of(argv[1], &blocks) || !number_of(argv[2], &sectors) || !number_of(argv[3], &logical)) {
        fputs("usage: image_after BLOCKS SECTORS LOGICAL <RECORDS >IMAGE\n", stderr);
        return 2;
    }
    struct shellwaltz_part part = SHELLWALTZ_PART(blocks, sectors, logical, image);
    struct shellwaltz_result formatted = shellwaltz_part_format(&part);
    if (formatted.answer != SHELLWALTZ_OK) {
        fprintf(stderr, "image_after: %s\n", shellwaltz_meaning(formatted.answer));
        return 2;
    }
    while (fread(record, 1, RECORD, stdin) == RECORD)
        carry_out(&part, record);
    if (part.logical != logical)
        fprintf(stderr, "image_after: LOGICAL is %u at the end\n", (unsigned)part.logical);
    return leave(&part);
}

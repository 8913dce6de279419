#include "inspect.h"

#include <stdarg.h>
#include <stdlib.h>
#include <string.h>

#include "files.h"
#include "number.h"
#include "picture.h"
#include "words.h"

enum { FILE_NAME, BLOCKS, SECTORS, LOGICAL, WANTED };

static const char usage[] = "usage: inspect FILE BLOCKS SECTORS LOGICAL [--svg OUT] [--sector N]\n";

/* What is asked for. */
struct request {
    const char *words[WANTED]; /* FILE, BLOCKS, SECTORS, LOGICAL as they were given */
    const char *svg, *sector;  /* or null */
    uint32_t blocks, sectors, logical, number;
};

/* Says what is wrong with the command, and answers false. */
static bool refuse(FILE *err, const char *format, ...)
{
    va_list values;
    va_start(values, format);
    fputs("inspect: ", err);
    vfprintf(err, format, values);
    fputs(".\n", err);
    fputs(usage, err);
    va_end(values);
    return false;
}

/* ---- The command */

static bool is_option(const char *word)
{
    return strncmp(word, "--", 2) == 0;
}

/* An option and its value; where the value goes, or null if there is no such option. */
static const char **option_of(struct request *r, const char *word)
{
    return strcmp(word, "--svg") == 0 ? &r->svg : strcmp(word, "--sector") == 0 ? &r->sector : NULL;
}

static bool split_command(int argc, char **argv, struct request *r, FILE *err)
{
    int words = 0;
    for (int i = 1; i < argc; i++) {
        const char **value = option_of(r, argv[i]);
        if (value && (*value || i + 1 == argc || is_option(argv[i + 1])))
            return refuse(err, *value ? "%s is there twice" : "%s wants a value after it", argv[i]);
        if (value)
            *value = argv[++i];
        else if (is_option(argv[i]))
            return refuse(err, "there is no option '%s'", argv[i]);
        else if (words == WANTED)
            return refuse(err, "'%s' is one word too many", argv[i]);
        else
            r->words[words++] = argv[i];
    }
    return words == WANTED || refuse(err, "FILE, BLOCKS, SECTORS and LOGICAL are wanted; words of these four that are there: %d", words);
}

static bool take_number(const char *name, const char *word, uint32_t least, uint32_t most, uint32_t *number, FILE *err)
{
    return (number_of(word, number) && *number >= least && *number <= most) ||
           refuse(err, "%s is a number from %u to %u, and not '%s'", name, least, most, word);
}

/* The most logical sectors and the greatest number follow from the numbers before them, so they go in this order. */
static bool take_numbers(struct request *r, FILE *err)
{
    if (!take_number("BLOCKS", r->words[BLOCKS], 2, MOST_BLOCKS, &r->blocks, err) ||
        !take_number("SECTORS", r->words[SECTORS], 2, MOST_SECTORS, &r->sectors, err))
        return false;
    uint32_t most = SHELLWALTZ_MOST_LOGICAL(r->blocks, r->sectors);
    if (most == 0)
        return refuse(err, "%u blocks of %u sectors are too few for a logical sector", r->blocks, r->sectors);
    return take_number("LOGICAL, with these blocks and sectors,", r->words[LOGICAL], 1, most, &r->logical, err) &&
           (!r->sector || take_number("N, with these logical sectors,", r->sector, 0, r->logical - 1, &r->number, err));
}

/* ---- The work */

static bool save_picture(const struct request *r, const struct survey *s, struct shellwaltz_result check, FILE *err)
{
    FILE *file = open_picture(r->svg, PICTURE_BEGINNING, err);
    if (!file)
        return false;
    print_picture(file, s, check, r->words[FILE_NAME]);
    bool is_written = !ferror(file);
    is_written = fclose(file) == 0 && is_written;
    if (!is_written)
        fprintf(err, "inspect: %s could not be written to its end.\n", r->svg);
    return is_written;
}

/* The picture first: who reads the words may be gone after the first of them, as `head` is. */
static bool show(const struct request *r, const struct survey *s, struct shellwaltz_result check, FILE *out, FILE *err)
{
    bool is_saved = !r->svg || save_picture(r, s, check, err);
    print_survey(out, s, check);
    if (r->sector)
        print_sector(out, s, r->number);
    bool is_printed = fflush(out) == 0 && !ferror(out);
    if (!is_printed)
        fputs("inspect: standard output could not be written to its end.\n", err);
    return is_saved && is_printed;
}

static enum inspect_status look_at(const struct request *r, uint32_t *image, FILE *out, FILE *err)
{
    static struct survey s;
    struct shellwaltz_part part = SHELLWALTZ_PART(r->blocks, r->sectors, r->logical, image);
    struct shellwaltz_result check = shellwaltz_part_check(&part);
    survey(&s, part);
    if (!show(r, &s, check, out, err))
        return INSPECT_NOT_DONE;
    return check.answer == SHELLWALTZ_OK ? INSPECT_SOUND : INSPECT_MALFORMED;
}

enum inspect_status inspect(int argc, char **argv, FILE *out, FILE *err)
{
    struct request r = {.svg = NULL};
    if (argc == 2 && strcmp(argv[1], "--help") == 0)
        return fputs(usage, out) < 0 ? INSPECT_NOT_DONE : INSPECT_SOUND;
    if (!split_command(argc, argv, &r, err) || !take_numbers(&r, err))
        return INSPECT_NOT_DONE;
    uint32_t *image = load_image(r.words[FILE_NAME], SHELLWALTZ_IMAGE_WORDS(r.blocks, r.sectors), err);
    if (!image)
        return INSPECT_NOT_DONE;
    enum inspect_status status = look_at(&r, image, out, err);
    free(image);
    return status;
}

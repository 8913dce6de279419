#include "files.h"

#include <errno.h>
#include <stdlib.h>
#include <string.h>

#include "little_endian.h"

/* The words of the file, up to as many as are wanted; how many bytes that were. */
static size_t read_words(FILE *file, uint32_t *image, size_t words)
{
    size_t bytes = 0, got = 4;
    for (size_t w = 0; w < words && got == 4; w++) {
        unsigned char b[4] = {0};
        got = fread(b, 1, 4, file);
        bytes += got;
        image[w] = word_at(b);
    }
    return bytes;
}

/* Whether the file has just the words that are wanted. */
static bool fills_image(FILE *file, const char *name, uint32_t *image, size_t words, FILE *err)
{
    size_t bytes = read_words(file, image, words);
    bool has_more = bytes == 4 * words && getc(file) != EOF;
    if (ferror(file))
        fprintf(err, "inspect: %s cannot be read: %s.\n", name, strerror(errno));
    else if (bytes < 4 * words)
        fprintf(err, "inspect: %s is too short: it has %zu bytes, and an image of this geometry has %zu.\n", name, bytes, 4 * words);
    else if (has_more)
        fprintf(err, "inspect: %s is too long: it has more than the %zu bytes of an image of this geometry.\n", name, 4 * words);
    return !ferror(file) && bytes == 4 * words && !has_more;
}

uint32_t *load_image(const char *name, size_t words, FILE *err)
{
    uint32_t *image = malloc(words * sizeof *image);
    FILE *file = image ? fopen(name, "rb") : NULL;
    bool is_whole = file && fills_image(file, name, image, words, err);
    if (!image)
        fprintf(err, "inspect: there is no memory for an image of %zu bytes.\n", 4 * words);
    else if (!file)
        fprintf(err, "inspect: %s cannot be opened: %s.\n", name, strerror(errno));
    if (file)
        fclose(file);
    if (is_whole)
        return image;
    free(image);
    return NULL;
}

/* Whether something is in the file: a pipe or a terminal has no length, and holds nothing that could be lost. A length that is too large to be told
 * is one. */
static bool has_contents(FILE *file)
{
    return fseek(file, 0, SEEK_END) == 0 && ftell(file) != 0;
}

static bool begins_with(FILE *file, const char *beginning)
{
    while (*beginning != '\0' && getc(file) == (unsigned char)*beginning)
        beginning++;
    return *beginning == '\0';
}

/* Opened so that nothing is lost, and emptied only when it is known to be a picture. A pipe is opened once, for writing alone, and so waits for its
 * reader. */
FILE *open_picture(const char *name, const char *beginning, FILE *err)
{
    FILE *file = fopen(name, "ab");
    if (file && has_contents(file)) {
        file = freopen(name, "rb", file);
        if (file && !begins_with(file, beginning)) {
            fprintf(err, "inspect: %s is there already and is not a picture of this tool; it is left as it is.\n", name);
            fclose(file);
            return NULL;
        }
        file = file ? freopen(name, "wb", file) : NULL;
    }
    if (!file)
        fprintf(err, "inspect: %s cannot be written: %s.\n", name, strerror(errno));
    return file;
}

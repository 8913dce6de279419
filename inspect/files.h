/* The files: an image to read, and a picture to write. */
#ifndef FILES_H
#define FILES_H

#include <stdbool.h>
#include <stdint.h>
#include <stdio.h>

/* The words of a file that has as many, little-endian; to be freed. NULL, after a sentence that says why, where it has not. */
uint32_t *load_image(const char *name, size_t words, FILE *err);

/* A file for a picture, open for writing: one that was not there, or an empty one, or one that begins as a picture does. NULL, after a
 * sentence, for another: a dump whose name was given by mistake is left as it is. */
FILE *open_picture(const char *name, const char *beginning, FILE *err);

#endif

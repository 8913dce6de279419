/* The image as a picture: one SVG that needs no other file. A row for each block and a cell for each slot. */
#ifndef PICTURE_H
#define PICTURE_H

#include <stdio.h>

#include "places.h"

/* How each of these pictures begins. */
#define PICTURE_BEGINNING "<svg class=\"shellwaltz-inspect\""

/* `path` is what the picture is of: the name of the file, as it was given. */
void print_picture(FILE *out, const struct survey *s, struct shellwaltz_result check, const char *path);

#endif

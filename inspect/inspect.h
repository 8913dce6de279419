/* Looks at an image that was read out of a part into a file. */
#ifndef INSPECT_H
#define INSPECT_H

#include <stdio.h>

enum inspect_status { INSPECT_SOUND = 0, INSPECT_MALFORMED = 1, INSPECT_NOT_DONE = 2 };

/* inspect FILE BLOCKS SECTORS LOGICAL [--svg OUT] [--sector N]: what main is, with its streams. */
enum inspect_status inspect(int argc, char **argv, FILE *out, FILE *err);

#endif

/* Turns a readable script on standard input into the records that the script program takes, on standard output.
 *
 *     write NUMBER FILL      stores a sector of FILL words under NUMBER
 *     read NUMBER
 *     release NUMBER
 *     format L               formats afresh, with L logical sectors from then on
 *     record OPERATION NUMBER FILL     any three numbers
 *
 * A line each, numbers in decimal or with 0x in hexadecimal; an empty line or one that begins with # says nothing. */
#include <stdio.h>
#include <stdlib.h>
#include <string.h>

#include "../inspect/little_endian.h"
#include "../inspect/number.h"

enum { MOST_WORDS = 4 };

static unsigned line_number;

static void refuse(const char *why)
{
    fprintf(stderr, "records: line %u: %s\n", line_number, why);
    exit(1);
}

static uint32_t number(const char *word)
{
    uint32_t value;
    if (!number_of(word, &value))
        refuse("a number from 0 to 4294967295 is wanted");
    return value;
}

static void put(uint32_t value)
{
    for (size_t i = 0; i < 4; i++)
        putchar(byte_in(&value, i));
}

/* The words of a line; their number. */
static int split(char *line, char **words)
{
    int n = 0;
    for (char *word = strtok(line, " \t\r\n"); word; word = strtok(NULL, " \t\r\n")) {
        if (n == MOST_WORDS)
            refuse("too many words");
        words[n++] = word;
    }
    return n;
}

static void record(uint32_t operation, const char *logical, const char *fill)
{
    put(operation);
    put(number(logical));
    put(fill ? number(fill) : 0);
}

int main(void)
{
    char line[256], *words[MOST_WORDS];
    for (line_number = 1; fgets(line, sizeof line, stdin); line_number++) {
        if (!strchr(line, '\n') && !feof(stdin))
            refuse("too long");
        int n = line[0] == '#' ? 0 : split(line, words);
        if (n == 0)
            continue;
        if (n == 3 && strcmp(words[0], "write") == 0)
            record(1, words[1], words[2]);
        else if (n == 2 && strcmp(words[0], "read") == 0)
            record(2, words[1], NULL);
        else if (n == 2 && strcmp(words[0], "release") == 0)
            record(3, words[1], NULL);
        else if (n == 2 && strcmp(words[0], "format") == 0)
            record(4, words[1], NULL);
        else if (n == 4 && strcmp(words[0], "record") == 0)
            record(number(words[1]), words[2], words[3]);
        else
            refuse("write NUMBER FILL, read NUMBER, release NUMBER, format L or record OPERATION NUMBER FILL is wanted");
    }
    return fflush(stdout) != 0 || ferror(stdout) != 0;
}

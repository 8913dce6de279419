/* Numbers as the tools take them: in decimal, or with 0x in hexadecimal. */
#ifndef NUMBER_H
#define NUMBER_H

#include <errno.h>
#include <stdbool.h>
#include <stdint.h>
#include <stdlib.h>
#include <string.h>

/* Whether the word is a number of 32 bits, and nothing else; and the number. */
static inline bool number_of(const char *word, uint32_t *number)
{
    bool in_hex = word[0] == '0' && (word[1] == 'x' || word[1] == 'X');
    const char *digits = in_hex ? word + 2 : word;
    if (*digits == '\0' || digits[strspn(digits, in_hex ? "0123456789abcdefABCDEF" : "0123456789")] != '\0')
        return false;
    errno = 0;
    unsigned long long value = strtoull(digits, NULL, in_hex ? 16 : 10);
    *number = (uint32_t)value;
    return errno == 0 && value <= UINT32_MAX;
}

#endif

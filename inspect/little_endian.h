/* Words as files have them: four bytes, the low one first, whatever the machine does. */
#ifndef LITTLE_ENDIAN_H
#define LITTLE_ENDIAN_H

#include <stddef.h>
#include <stdint.h>

static inline uint32_t word_at(const unsigned char *bytes)
{
    return bytes[0] | (uint32_t)bytes[1] << 8 | (uint32_t)bytes[2] << 16 | (uint32_t)bytes[3] << 24;
}

/* A byte of the words, counted from their first one. */
static inline unsigned char byte_in(const uint32_t *words, size_t byte)
{
    return (unsigned char)(words[byte / 4] >> 8 * (byte % 4));
}

#endif

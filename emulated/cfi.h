/* A NOR part with the Intel command set, as its CFI tables name it, mapped to memory. */
#ifndef CFI_H
#define CFI_H

#include <stddef.h>
#include <stdint.h>

enum { CFI_BLOCKS = 16, CFI_BLOCK_BYTES = 4096 };

/* Whether the part is there, with as many blocks of that length. */
int cfi_is_there(void);

/* Places are in words of 32 bits. The last two come back when the part has finished, with 0 if it did what it was told. */
uint32_t cfi_read(size_t place);
int cfi_program(size_t place, uint32_t word);
int cfi_erase(size_t block);

#endif

/* The part is the emulator's second flash device, which lies right below the first, the BIOS of 256 KiB, at the end of the first 4 GiB. It takes
 * commands of a byte, at any address of the block that is meant, and is memory to read while it has none. */
#include "cfi.h"

#define PART ((uintptr_t)0x100000000u - 0x40000u - CFI_BLOCKS * CFI_BLOCK_BYTES)
enum { QUERY = 0x98, PROGRAM = 0x40, ERASE = 0x20, CONFIRM = 0xD0, CLEAR_STATUS = 0x50, READ = 0xFF };
enum { IS_READY = 0x80, ERRORS = 0x3A }; /* of the status: erase, program, voltage and lock */

static volatile uint32_t *word_at(size_t place)
{
    return (volatile uint32_t *)PART + place;
}

static volatile uint8_t *command_at(size_t byte)
{
    return (volatile uint8_t *)PART + byte;
}

int cfi_is_there(void)
{
    *command_at(0x55) = QUERY;
    volatile uint8_t *table = command_at(0);
    int is_there = table[0x10] == 'Q' && table[0x11] == 'R' && table[0x12] == 'Y' && /* and of one kind of block: how many, less 1, and of what length */
                   table[0x2C] == 1 && table[0x2D] + 256 * table[0x2E] == CFI_BLOCKS - 1 &&
                   256 * (table[0x2F] + 256 * table[0x30]) == CFI_BLOCK_BYTES;
    *command_at(0) = READ;
    return is_there;
}

/* Waits until the part has finished, and leaves it as memory to read. (The emulator always finishes; set a limit of time for a part that may not.) */
static int finish(size_t byte)
{
    uint8_t status = 0;
    while (!(status & IS_READY))
        status = *command_at(byte);
    if (status & ERRORS)
        *command_at(byte) = CLEAR_STATUS;
    *command_at(byte) = READ;
    return status & ERRORS;
}

uint32_t cfi_read(size_t place)
{
    return *word_at(place);
}

/* A part clears bits and sets none; the emulator stores the word as it is. So a bit that would have to be set is refused here. The emulator takes
 * all 32 bits after one command: docs/EMULATED.md says what to mind where your part takes fewer. */
int cfi_program(size_t place, uint32_t word)
{
    if (word & ~cfi_read(place))
        return -1;
    *command_at(4 * place) = PROGRAM;
    *word_at(place) = word;
    return finish(4 * place) || cfi_read(place) != word;
}

int cfi_erase(size_t block)
{
    *command_at(CFI_BLOCK_BYTES * block) = ERASE;
    *command_at(CFI_BLOCK_BYTES * block) = CONFIRM;
    return finish(CFI_BLOCK_BYTES * block);
}

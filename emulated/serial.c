/* The first serial port of a PC. The emulator sends at any speed, so none is set. */
#include "serial.h"

enum { DATA = 0x3F8, LINE_STATUS = DATA + 5, IS_EMPTY = 0x20 };

static void out(uint16_t port, uint8_t byte)
{
    __asm__ volatile("outb %0, %1" : : "a"(byte), "Nd"(port));
}

static uint8_t in(uint16_t port)
{
    uint8_t byte;
    __asm__ volatile("inb %1, %0" : "=a"(byte) : "Nd"(port));
    return byte;
}

/* Comes back when the byte is out, so that what is logged before a step is in the log before the step is done. */
void put_char(char c)
{
    out(DATA, (uint8_t)c);
    while (!(in(LINE_STATUS) & IS_EMPTY))
        ;
}

void put_text(const char *text)
{
    for (; *text; text++)
        put_char(*text);
}

void put_number(uint32_t number)
{
    if (number >= 10)
        put_number(number / 10);
    put_char((char)('0' + number % 10));
}

void halt(void)
{
    for (;;)
        __asm__ volatile("cli; hlt");
}

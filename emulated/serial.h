/* The serial port, to which the program writes its log, and halting. */
#ifndef SERIAL_H
#define SERIAL_H

#include <stdint.h>

void put_char(char c);
void put_text(const char *text);
void put_number(uint32_t number);

/* For ever. */
_Noreturn void halt(void);

#endif

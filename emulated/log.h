/* What the program knows when it starts again. All that it has written to the serial port is its log; whoever starts it hands the log back, from the
 * last complete `held` line on, in memory. A line ends in " done" when what it names is done:
 *
 *   seed S                 whoever starts the program writes this one, before all others
 *   held N A0 A1 ..        the last call was number N, and sector n holds what call An wrote; 0: nothing
 *   format ..              the part is formatted
 *   start ..               the part is read, checked and, where need be, repaired
 *   write n N [reclaim] .. call N writes sector n; with `reclaim`, a block is reclaimed first
 *   release n N ..         call N releases sector n
 *   FAILED: ..             what the program did not expect, in words
 *
 * In place of the dots is a mark for each step of the call, written before the part is told: '.' for a word to program, '#' for an erasure. */
#ifndef LOG_H
#define LOG_H

#include <stdint.h>

/* The most for which a repair is sure to mend 3 cuts in a row, of a call and of the repairs after it (g of docs/FORMAT.md). */
enum { LOGICAL = 74 };

struct log {
    uint32_t lines; /* 1: there is the seed alone, and the part is new */
    uint32_t seed, last_call;
    uint32_t held[LOGICAL]; /* the call that wrote what the sector holds; 0: nothing */
    int is_cut;             /* the last call was not done: the sector `number` holds what it held, or what call `after` wrote; 0: nothing */
    uint32_t number, after;
};

struct log read_log(const char *text);

#endif

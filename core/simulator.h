/* The core of the gateway: a simulated PDP-11/40 (the program pdp11 of Debian's package simh), as the firmware sees it. */
#ifndef SIMULATOR_H
#define SIMULATOR_H

#include <stddef.h>
#include <stdint.h>

/* The nine words of a process, R0 to R5, SP, PC and PS, are kept as 18 bytes, low byte first, as in a report. These are the places of some. */
enum { CORE_R0 = 0, CORE_R1 = 2, CORE_R2 = 4, CORE_SP = 12, CORE_PC = 14, CORE_PS = 16, CORE_WORDS = 18 };

/* In PS: the condition codes, the T bit, which makes the core trap after one instruction, and user mode, in which a process runs. */
enum { PS_CODES = 017, PS_T = 020, PS_USER = 0170000 };

/* The vectors through which the core traps that the firmware tells apart; both BPT and the T bit trap through the second. */
enum { VECTOR_RESERVED = 010, VECTOR_BPT = 014 };

/* What core_run returns if the time of the process was up before it trapped. No trap has this vector. */
enum { TIME_UP = 0 };

/* Loads the words into the registers and lets the core execute the process, whose addresses 0 to size - 1 are these bytes, until it traps or
 * its time is up. What the process stores is then in the bytes and the registers are in the words, PC as the core pushed it. Returns the vector
 * of the trap, or TIME_UP. If the simulator does not do as it is told, says so and ends the program with status 1. */
unsigned core_run(uint8_t *bytes, size_t size, uint8_t *words);

/* A word of two bytes, low byte first. */
static inline uint16_t get_word(const uint8_t *at) { return (uint16_t)(at[0] | at[1] << 8); }

static inline void put_word(uint8_t *at, unsigned word) {
    at[0] = (uint8_t)(word & 255);
    at[1] = (uint8_t)(word >> 8);
}

#endif

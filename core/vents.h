/* The program of the story: the vents open five degrees further in each of ten turns, and each position goes into a log. */
#ifndef VENTS_H
#define VENTS_H

#include <stdint.h>

enum {
    VENTS_SIZE = 512,       /* bytes of the process */
    LOOP = 0400,            /* where the program begins */
    TURN = 0414,            /* where each turn begins */
    STORE = 0420,           /* the instruction under the breakpoint */
    AFTER = 0422,           /* and the one after it */
    BRANCH = 0424,
    END = 0430,             /* PC after the HALT */
    LOG = 0600,             /* a word for each turn */
    TURNS = 10,
    DEGREES = 5,
    STORE_WORD = 0010022,   /* the word at STORE */
    BPT_WORD = 0000003,     /* what a planted breakpoint puts there */
    PROGRAM_BYTES = END - LOOP,
    LOG_BYTES = 2 * TURNS
};

struct instruction {
    unsigned words;
    uint16_t word[2];
    const char *text;
};

enum { INSTRUCTIONS = 8 };

static const struct instruction vent_loop[INSTRUCTIONS] = {
    {2, {0012700, 0000000}, "MOV #0, R0       the vent is shut"},
    {2, {0012701, 0000012}, "MOV #12, R1      ten turns to go"},
    {2, {0012702, 0000600}, "MOV #600, R2     where the log begins"},
    {2, {0062700, 0000005}, "ADD #5, R0       each turn: five degrees more,"},
    {1, {STORE_WORD, 0},    "MOV R0, (R2)+    the position goes into the log,    <- the breakpoint"},
    {1, {0005301, 0},       "DEC R1           and one turn less to go"},
    {1, {0001373, 0},       "BNE 414"},
    {1, {0000000, 0},       "HALT"},
};

#endif

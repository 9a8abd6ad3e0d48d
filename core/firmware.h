/* The firmware's side of the stub, on the simulated core: what surrounds each call of the library. docs/EMBEDDING.md has it in words. */
#ifndef FIRMWARE_H
#define FIRMWARE_H

#include "palustrode.h"
#include "simulator.h"

extern uint8_t state[PALUSTRODE_STATE_BYTES];
extern uint8_t memory[PALUSTRODE_MEMORY_BYTES];

/* Starts the gateway with these processes and sizes, as palustrode_fresh_start does, and returns what it returned. */
int64_t firmware_start(uint64_t there, const uint16_t *sizes);

/* Answers a message from the network, as palustrode_request does, and returns what it returned; the reply buffer has 266 bytes. */
int64_t firmware_request(const uint8_t *message, size_t length, uint8_t *reply);

/* Answers a text line from the bench, as palustrode_line does, and returns what it returned; the line buffer has 35 bytes. */
int64_t firmware_line(const uint8_t *text, size_t length, uint8_t *line);

/* What came of a slice: whether a report was made, and then its kind and reason, what palustrode_report returned, the notice, and the line that
 * answers the text debugger. */
struct slice {
    int reported;
    unsigned kind, reason;
    int64_t result;
    uint8_t notice[PALUSTRODE_MESSAGE_BYTES];
    uint8_t line[PALUSTRODE_LINE_BYTES];
};

/* Lets process p have the core for one slice, if it is there and its run state lets it execute. */
void firmware_slice(unsigned p, struct slice *slice);

/* The nine words of process p as the firmware keeps them while it is not on the core. */
const uint8_t *firmware_words(unsigned p);

#endif

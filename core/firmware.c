/* The firmware's side of the stub. The gateway has one core; a process is on it during core_run and at no other time, so that no process executes
 * while a call of the library is under way. */
#include "firmware.h"
#include <stdio.h>
#include <string.h>

enum { HALT = 0000000, BPT = 0000003, NO_WORD = 0200000 };

uint8_t state[PALUSTRODE_STATE_BYTES];
uint8_t memory[PALUSTRODE_MEMORY_BYTES];

/* The registers of each process while it is not on the core. The vector in the state is older: it is that of the last report. */
static uint8_t kept[PALUSTRODE_PROCESSES][CORE_WORDS];

const uint8_t *firmware_words(unsigned p) { return kept[p]; }

/* Takes over part of a vector from the state. */
static void load_words(unsigned p, size_t from, size_t count) {
    memcpy(kept[p] + from, palustrode_process(state, p) + PALUSTRODE_VECTOR_AT + from, count);
}

int64_t firmware_start(uint64_t there, const uint16_t *sizes) {
    int64_t result = palustrode_fresh_start(there, sizes, PALUSTRODE_PROCESSES, PALUSTRODE_NO_DOOR, state, sizeof state);
    for (unsigned p = 0; result >= 0 && p < PALUSTRODE_PROCESSES; p++) load_words(p, 0, CORE_WORDS);
    return result;
}

/* A vector changes by two requests of messages: CREATE, whose reply has the number of the new process in PID, and DEPOSIT STATE VECTOR, which changes ARG2
 * bytes from ARG1 on. What else a request changed, run states and where processes lie, is read from the state before each slice. */
int64_t firmware_request(const uint8_t *message, size_t length, uint8_t *reply) {
    int64_t result =
        palustrode_request(state, sizeof state, memory, sizeof memory, message, length, reply, PALUSTRODE_MESSAGE_BYTES);
    uint16_t f[PALUSTRODE_FIELDS];
    if (result < 0) return result;
    palustrode_read_answer(reply, (size_t)result, f, PALUSTRODE_FIELDS);
    if (f[PALUSTRODE_CMD] == PALUSTRODE_CREATE) load_words(f[PALUSTRODE_PID], 0, CORE_WORDS);
    if (f[PALUSTRODE_CMD] == PALUSTRODE_DEPOSIT_VECTOR) load_words(f[PALUSTRODE_PID], f[PALUSTRODE_ARG1], f[PALUSTRODE_ARG2]);
    return result;
}

/* A vector changes by two letters of a text line: `R` writes the register in its third field, and `c` and `s` set PC if their third field is another
 * than 1. A line that is granted has at most 35 bytes and can be read. */
int64_t firmware_line(const uint8_t *text, size_t length, uint8_t *line) {
    int64_t result = palustrode_line(state, sizeof state, memory, sizeof memory, text, length, line, PALUSTRODE_LINE_BYTES);
    char copy[PALUSTRODE_LINE_BYTES + 1] = {0}, letter;
    unsigned p, address;
    if (result < 0) return result;
    memcpy(copy, text, length);
    if (sscanf(copy, "0x%x %c 0x%x", &p, &letter, &address) != 3) return result;
    if (letter == 'R') load_words(p, 2 * address, 2);
    if ((letter == 'c' || letter == 's') && address != 1) load_words(p, CORE_PC, 2);
    return result;
}

/* The word that the process has at an address; outside of it no word. */
static unsigned word_at(const uint8_t *bytes, size_t size, uint16_t address) {
    return address + 1u < size ? get_word(bytes + address) : NO_WORD;
}

/* Which report a trap becomes, `one` being whether the T bit was set. BPT and the T bit have one vector, and HALT in user mode is a reserved
 * instruction: the instruction that was executed tells them apart. A T bit that a process sets by itself is a TRAP. */
static unsigned kind_of(unsigned vector, unsigned executed, int one) {
    if (vector == VECTOR_BPT && executed == BPT) return PALUSTRODE_KIND_BPT;
    if (vector == VECTOR_BPT && one) return PALUSTRODE_KIND_TTRAP;
    return vector == VECTOR_RESERVED && executed == HALT ? PALUSTRODE_KIND_HALT : PALUSTRODE_KIND_TRAP;
}

/* Puts the process on the core, with the T bit set if it is to execute one instruction, until it traps or its time is up. Of PS the process and
 * the desk have the condition codes alone: mode, priority and the T bit are the firmware's. In a BPT report PC is stepped back to the BPT. */
static void execute(uint8_t *bytes, size_t size, uint8_t *words, int one, struct slice *slice) {
    unsigned first = word_at(bytes, size, get_word(words + CORE_PC));
    put_word(words + CORE_PS, PS_USER | (get_word(words + CORE_PS) & PS_CODES) | (one ? PS_T : 0));
    unsigned vector = core_run(bytes, size, words);
    put_word(words + CORE_PS, get_word(words + CORE_PS) & PS_CODES);
    slice->reported = vector != TIME_UP;
    if (!slice->reported) return;
    uint16_t before = (uint16_t)(get_word(words + CORE_PC) - 2);
    slice->kind = kind_of(vector, one ? first : word_at(bytes, size, before), one);
    slice->reason = slice->kind == PALUSTRODE_KIND_TRAP ? vector : 0;
    if (slice->kind == PALUSTRODE_KIND_BPT) put_word(words + CORE_PC, before);
}

/* Run state, place and size are read anew, since any request may have changed them. A trap is reported at once. */
void firmware_slice(unsigned p, struct slice *slice) {
    const uint8_t *process = palustrode_process(state, p);
    unsigned run_state = process[PALUSTRODE_RUN_STATE_AT];
    int one = run_state == PALUSTRODE_STEPPING || run_state == PALUSTRODE_PASSING;
    slice->reported = 0;
    if (!process[PALUSTRODE_THERE_AT] || (run_state != PALUSTRODE_RUNNING && !one)) return;
    execute(memory + palustrode_start(state, p), get_word(process + PALUSTRODE_SIZE_AT), kept[p], one, slice);
    if (!slice->reported) return;
    slice->result = palustrode_report(state, sizeof state, memory, sizeof memory, p, slice->kind, slice->reason, kept[p], CORE_WORDS,
                                      slice->notice, sizeof slice->notice, slice->line, sizeof slice->line);
}

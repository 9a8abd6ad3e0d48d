/* What `make core` tells of the text lines: the bench's debugger, host 253, in the vents, while a simulated PDP-11 executes them. It is a session of
 * the original debugger's kind: it loads the program with `D`, plants a breakpoint of its own with `I`, goes on, reads registers, puts the word back
 * and steps; then it has the gateway plant one. Each answer is checked, and one that is another ends the program with status 1. */
#include "firmware.h"
#include "vents.h"
#include <stdio.h>
#include <stdlib.h>
#include <string.h>

enum {
    HEATING = 0,          /* a process below the vents that nobody debugs, which branches to itself for ever; and its size */
    HEATING_SIZE = 2048,
    BRANCH_TO_SELF = 0000777,
    VENTS = 1,            /* the number that CREATE gives the vents */
    ROUNDS = 20           /* so many times each process gets the core; by then the vents must have trapped */
};

static void deviate(const char *what, const char *expected, const char *got) {
    fflush(stdout);
    fprintf(stderr, "core: NOT AS IT SHOULD BE: %s\nexpected: %s\ngot:      %s\n", what, expected, got);
    exit(1);
}

static void tell(const char *who, const char *what, const char *expected, const char *got) {
    if (strcmp(expected, got) != 0) deviate(what, expected, got);
    printf("%-9s%-30s%s\n", who, what, *got ? got : "-");
}

/* A line of so many bytes as a string, without its newline; the empty string if there is none. */
static void take_line(char *text, const uint8_t *line, size_t length) {
    memcpy(text, line, length);
    text[length] = 0;
    if (length == 0) return;
    if (text[length - 1] != '\n') deviate("a line", "a newline at its end", text);
    text[length - 1] = 0;
}

/* The bench types a line; it is answered by this one, or, if this is empty, by none at once. */
static void bench(const char *line, const char *expected) {
    uint8_t answer[PALUSTRODE_LINE_BYTES];
    char typed[PALUSTRODE_LINE_BYTES + 2], got[PALUSTRODE_LINE_BYTES + 1];
    int length = snprintf(typed, sizeof typed, "%s\n", line);
    int64_t result = firmware_line((const uint8_t *)typed, (size_t)length, answer);
    take_line(got, answer, palustrode_line_length(result, answer));
    tell("bench", line, expected, got);
}

/* A request of host 253 by a message, which is granted. */
static void message(const char *what, unsigned cmd, unsigned pid, unsigned arg1, unsigned arg2) {
    static const uint8_t no_string[1] = {0};
    uint8_t request[PALUSTRODE_MESSAGE_BYTES], reply[PALUSTRODE_MESSAGE_BYTES];
    int64_t length = palustrode_write_request(PALUSTRODE_TEXT_HOST, cmd, pid, arg1, arg2, no_string, 0, request, sizeof request);
    int64_t result = length < 0 ? length : firmware_request(request, (size_t)length, reply);
    tell("message", what, "granted", result < 0 ? "refused" : "granted");
}

/* The core executes until the vents trap; this line is sent then, or none. */
static void core(const char *trap, unsigned kind, unsigned pc, const char *expected) {
    struct slice slice;
    char got[PALUSTRODE_LINE_BYTES + 1], where[40];
    unsigned turns = 0;
    do {
        firmware_slice(turns % PALUSTRODE_PROCESSES, &slice);
    } while (!slice.reported && ++turns < ROUNDS * PALUSTRODE_PROCESSES);
    if (!slice.reported || slice.result < 0) deviate(trap, "a report that is granted", "none");
    snprintf(where, sizeof where, "kind %u at 0x%x", slice.kind, get_word(firmware_words(VENTS) + CORE_PC));
    if (slice.kind != kind || get_word(firmware_words(VENTS) + CORE_PC) != pc) deviate(trap, "this trap", where);
    take_line(got, slice.line, palustrode_report_line_length(slice.result));
    tell("core", trap, expected, got);
}

static void title(const char *text) { printf("\n%s\n\n", text); }

static void load_program(void) {
    title("The program goes into memory, four bytes a line; each answer is what stood there. Registers 6 and 7 are SP and PC.");
    message("CREATE of 512 bytes", PALUSTRODE_CREATE, 0, VENTS_SIZE, 0);
    bench("0x1 D 0x100 0x15c0", "0x1 D 0x0 0x0");
    bench("0x1 D 0x104 0xa15c1", "0x1 D 0x0 0x0");
    bench("0x1 D 0x108 0x18015c2", "0x1 D 0x0 0x0");
    bench("0x1 D 0x10c 0x565c0", "0x1 D 0x0 0x0");
    bench("0x1 D 0x110 0xac11012", "0x1 D 0x0 0x0");
    bench("0x1 D 0x114 0x2fb", "0x1 D 0x0 0x0");
    bench("0x1 R 0x6 0x200", "0x1 R 0x0 0x0");
    bench("0x1 R 0x7 0x100", "0x1 R 0x0 0x0");
    bench("0x1 r 0x7 0x0", "0x1 r 0x0 0x100");
}

static void own_breakpoint(void) {
    title("A breakpoint of the debugger's own: it writes the BPT word, 3, with `I`. `c` is answered when the core meets it.");
    bench("0x1 i 0x110 0x0", "0x1 i 0x0 0xac11012");
    bench("0x1 I 0x110 0xac10003", "0x1 I 0x0 0xac11012");
    bench("0x1 c 0x1 0x0", "");
    bench("0x1 r 0x0 0x0", "0x1 r 0xffffffff 0x10");
    core("BPT at 0x110", PALUSTRODE_KIND_BPT, 0x110, "0x1 c 0x0 0x57f");
    bench("0x1 r 0x7 0x0", "0x1 r 0x0 0x110");
    bench("0x1 r 0x0 0x0", "0x1 r 0x0 0x5");
    title("It puts the word back and steps: five degrees are in the log.");
    bench("0x1 I 0x110 0xac11012", "0x1 I 0x0 0xac10003");
    bench("0x1 s 0x1 0x0", "");
    core("TTRAP at 0x112", PALUSTRODE_KIND_TTRAP, 0x112, "0x1 s 0x0 0x57f");
    bench("0x1 d 0x180 0x0", "0x1 d 0x0 0x5");
}

static void planted_breakpoint(void) {
    title("A breakpoint of the gateway: `i` shows the program and not the BPT. At a breakpoint `c` lifts it for one instruction, silently.");
    message("BREAK 0x110", PALUSTRODE_BREAK, VENTS, STORE, 0);
    bench("0x1 i 0x110 0x0", "0x1 i 0x0 0xac11012");
    bench("0x1 c 0x1 0x0", "");
    core("BPT at 0x110", PALUSTRODE_KIND_BPT, 0x110, "0x1 c 0x0 0x57f");
    bench("0x1 c 0x1 0x0", "");
    core("TTRAP at 0x112", PALUSTRODE_KIND_TTRAP, 0x112, "");
    core("BPT at 0x110", PALUSTRODE_KIND_BPT, 0x110, "0x1 c 0x0 0x57f");
    bench("0x1 s 0x1 0x0", "");
    core("TTRAP at 0x112", PALUSTRODE_KIND_TTRAP, 0x112, "0x1 s 0x0 0x57f");
    bench("0x1 d 0x184 0x0", "0x1 d 0x0 0xf");
}

static void to_the_end(void) {
    title("STOP cancels an answer that is owed: this `c` is never answered. The next one goes on from 0x10c, with a turn more, to the HALT.");
    message("UNBREAK 0x110", PALUSTRODE_UNBREAK, VENTS, STORE, 0);
    bench("0x1 c 0x1 0x0", "");
    message("STOP", PALUSTRODE_STOP, VENTS, 0, 0);
    bench("0x1 c 0x10c 0x0", "");
    core("HALT, PC at 0x118", PALUSTRODE_KIND_HALT, END, "0x1 c 0x0 0x0");
    bench("0x1 r 0x0 0x0", "0x1 r 0x0 0x37");
}

static void refusals(void) {
    title("What is refused says why by the errno: 22 a wrong state, 14 an address, 1 no right, 3 no such process, 22 a line that cannot be read.");
    bench("0x1 c 0x1 0x0", "0x1 c 0xffffffff 0x16");
    bench("0x1 d 0x182 0x0", "0x1 d 0xffffffff 0xe");
    bench("0x0 d 0x0 0x0", "0x0 d 0xffffffff 0x1");
    bench("0x5 d 0x0 0x0", "0x5 d 0xffffffff 0x3");
    bench("0x1 d 0x0180 0x0", "0x1 d 0xffffffff 0x16");
}

int main(void) {
    static const uint16_t sizes[PALUSTRODE_PROCESSES] = {HEATING_SIZE};
    printf("The bench's text debugger in the vents, while a simulated PDP-11 executes them. Each line says what is typed at the bench, sent as a\n"
           "message or done by the core, and the line that answers it, if one does. Numbers are hexadecimal.\n");
    put_word(memory, BRANCH_TO_SELF);
    if (firmware_start(1 << HEATING, sizes) != 0) deviate("a fresh start", "granted", "refused");
    load_program();
    own_breakpoint();
    planted_breakpoint();
    to_the_end();
    refusals();
    printf("\nAll of it is as it should be.\n");
    return 0;
}

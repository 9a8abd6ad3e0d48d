/* Runs the simulator, once for each slice: the file slice.ini gets the commands that build the machine, load the process and let it run, and what
 * the simulator prints has the registers and the memory afterwards. So no slice depends on an earlier one, and none can hang: it ends after
 * SLICE instructions. The last slice.ini is left, for `pdp11 slice.ini`.
 *
 * The machine has two parts. The low 4,096 bytes are the firmware's, in kernel mode: the vectors, each of which leads to a HALT of its own, at
 * which the simulator stops, and one RTT, which takes PC and PS of the process off the stack. The process lies above them and runs in user mode,
 * in which its address 0 is that place and memory management lets it reach no byte past its own (to the next multiple of 64). All numbers in
 * slice.ini but that of steps are octal. */
#define _POSIX_C_SOURCE 200809L
#include "simulator.h"
#include <stdio.h>
#include <stdlib.h>
#include <string.h>

enum {
    SLICE = 1000,     /* instructions in a slice, the firmware's RTT included */
    HALTS = 01000,    /* the HALT of vector v is at HALTS + v */
    RTT_AT = 01600,   /* the firmware's one instruction */
    STACK = 01774,    /* PC of the process, and PS after it */
    PROCESS = 010000, /* where the process lies: a multiple of BLOCK */
    BLOCK = 64,       /* the unit of memory management, in bytes */
    RTT = 000006,
    KERNEL_PS = 0340,
    REGISTERS = 9,
    WHOLE_PAGE = 077406, /* 128 blocks that may be read and written */
    READ_WRITE = 06
};

static const unsigned vectors[] = {004, VECTOR_RESERVED, VECTOR_BPT, 020, 030, 034, 0250};

static void fail(const char *what, const char *detail) {
    fprintf(stderr, "core: the simulator %s%s\n", what, detail);
    exit(1);
}

static void deposit(FILE *commands, unsigned address, unsigned word) {
    if (word != 0) fprintf(commands, "deposit %o %o\n", address, word);
}

/* The machine without a process: memory is zero at first, so each HALT is there. */
static void build(FILE *commands, size_t size) {
    unsigned last_block = (unsigned)((size + BLOCK - 1) / BLOCK) - 1;
    fprintf(commands, "set cpu 11/40\n");
    for (size_t i = 0; i < sizeof vectors / sizeof *vectors; i++) {
        deposit(commands, vectors[i], HALTS + vectors[i]);
        deposit(commands, vectors[i] + 2, KERNEL_PS);
    }
    deposit(commands, RTT_AT, RTT);
    fprintf(commands, "deposit KIPAR0 0\ndeposit KIPDR0 %o\n", WHOLE_PAGE);
    fprintf(commands, "deposit UIPAR0 %o\ndeposit UIPDR0 %o\n", PROCESS / BLOCK, last_block << 8 | READ_WRITE);
    fprintf(commands, "deposit MMR0 1\n");
}

static void load(FILE *commands, const uint8_t *bytes, size_t size, const uint8_t *words) {
    for (unsigned a = 0; a < size; a += 2) deposit(commands, PROCESS + a, get_word(bytes + a));
    for (unsigned r = 0; r < 6; r++) fprintf(commands, "deposit R%u %o\n", r, get_word(words + 2 * r));
    fprintf(commands, "deposit USP %o\n", get_word(words + CORE_SP));
    deposit(commands, STACK, get_word(words + CORE_PC));
    deposit(commands, STACK + 2, get_word(words + CORE_PS));
    fprintf(commands, "deposit PSW %o\ndeposit SP %o\ndeposit PC %o\n", KERNEL_PS, STACK, RTT_AT);
}

/* Asks for REGISTERS registers, the two words that a trap pushes, and the words of the process. */
static void ask(FILE *commands, size_t size) {
    fprintf(commands, "examine PC,PSW,USP,R0,R1,R2,R3,R4,R5\n");
    fprintf(commands, "examine %o-%o\n", STACK, STACK + 2);
    fprintf(commands, "examine %o-%o\n", PROCESS, (unsigned)(PROCESS + size - 2));
}

/* What the simulator printed: a line for each register and each word, as `PC:` or `10420:`, a tab, and the number. */
static struct {
    unsigned pc, psw, usp, r[6], pushed[2];
    unsigned lines; /* of these and of the process's words */
} seen;

static void take(const char *name, unsigned value, uint8_t *bytes, size_t size) {
    unsigned address;
    char end;
    seen.lines++;
    if (strcmp(name, "PC") == 0) seen.pc = value;
    else if (strcmp(name, "PSW") == 0) seen.psw = value;
    else if (strcmp(name, "USP") == 0) seen.usp = value;
    else if (name[0] == 'R' && name[1] >= '0' && name[1] <= '5' && name[2] == 0) seen.r[name[1] - '0'] = value;
    else if (sscanf(name, "%o%c", &address, &end) != 1) seen.lines--;
    else if (address == STACK || address == STACK + 2) seen.pushed[(address - STACK) / 2] = value;
    else if (address >= PROCESS && address < PROCESS + size) put_word(bytes + (address - PROCESS), value);
}

static void simulate(uint8_t *bytes, size_t size) {
    char line[200], name[20];
    unsigned value;
    FILE *answers = popen("pdp11 slice.ini </dev/null", "r");
    if (answers == NULL) fail("does not start: ", "pdp11");
    seen.lines = 0;
    while (fgets(line, sizeof line, answers) != NULL) {
        if (strncmp(line, "slice.ini", 9) == 0) fail("refuses the command ", line);
        if (sscanf(line, "%19[^:]:\t%o", name, &value) == 2) take(name, value, bytes, size);
    }
    if (pclose(answers) != 0) fail("ends with an error", "");
    if (seen.lines != REGISTERS + 2 + size / 2) fail("does not say what was asked; see ", "slice.ini");
}

/* After a trap the core is at the HALT of its vector, in kernel mode, and has pushed PC and PS of the process; otherwise it is in the process. */
static unsigned trapped(uint8_t *words) {
    unsigned vector = seen.pc - HALTS - 2;
    if (seen.psw >> 14 == PS_USER >> 14) {
        put_word(words + CORE_PC, seen.pc);
        put_word(words + CORE_PS, seen.psw);
        return TIME_UP;
    }
    put_word(words + CORE_PC, seen.pushed[0]);
    put_word(words + CORE_PS, seen.pushed[1]);
    for (size_t i = 0; i < sizeof vectors / sizeof *vectors; i++)
        if (vectors[i] == vector) return vector;
    fail("stopped at no vector; see ", "slice.ini");
    return TIME_UP;
}

unsigned core_run(uint8_t *bytes, size_t size, uint8_t *words) {
    FILE *commands = fopen("slice.ini", "w");
    if (commands == NULL) fail("has no file ", "slice.ini");
    build(commands, size);
    load(commands, bytes, size, words);
    fprintf(commands, "step %u\n", SLICE);
    ask(commands, size);
    fprintf(commands, "quit\n");
    if (fclose(commands) != 0) fail("has no whole file ", "slice.ini");
    simulate(bytes, size);
    for (unsigned r = 0; r < 6; r++) put_word(words + 2 * r, seen.r[r]);
    put_word(words + CORE_SP, seen.usp);
    return trapped(words);
}

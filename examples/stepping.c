/* Firmware with one simulated process, and the desk that debugs it, in one program: a breakpoint in a loop is passed once in silence, met, stepped
 * over, met again and proceeded from. Each line says what was called and what came back; exit status 0 only if all was as docs/EMBEDDING.md says. */
#include "palustrode.h"
#include <stdio.h>

enum { PROCESS = 2, SIZE = 64, DESK = 5, STRANGER = 6 };                  /* the one process, and two hosts */
enum { INC = 05200, BR = 0400 };                                          /* instruction words */
enum { T_BIT = 020, CODES = 017, VECTOR_BAD = 010, VECTOR_T_BPT = 014 };  /* of the core: bits of PS, and vectors of traps */
enum { PC = PALUSTRODE_REGISTER_PC, PS = PALUSTRODE_REGISTER_PS, REGISTERS = PALUSTRODE_WORDS_BYTES / 2 };
enum { LOOP = 2, AT = 4, SLICE = 100, NONE = -1 };                        /* the loop, the breakpoint in it, instructions until the clock */

static uint8_t state[PALUSTRODE_STATE_BYTES], memory[PALUSTRODE_MEMORY_BYTES], line[PALUSTRODE_LINE_BYTES];
static uint8_t request[PALUSTRODE_MESSAGE_BYTES], reply[PALUSTRODE_MESSAGE_BYTES], notice[PALUSTRODE_MESSAGE_BYTES];
static uint16_t registers[REGISTERS], fields[PALUSTRODE_FIELDS];
static int executed, differences;

static const char *const op_codes[] = {"NOP", "DEBUG", "END DEBUG", "STOP", "DEPOSIT", "RESUME", "EXAMINE", "DEPOSIT STATE VECTOR", "BREAK",
                                       "UNBREAK", "SINGLE STEP", "PROCEED BPT", "CREATE", "DESTROY", "WATCH", "END WATCH", "STATUS"};
static const char *const kinds[] = {"TRAP", "HALT", "BPT", "TTRAP"};
static const char *const run_states[] = {"running", "stepping", "stopped", "at a breakpoint", "ended", "passing"};

static void check(const char *what, long came, long expected) {
    if (came == expected) return;
    printf("  DIFFERS: %s is %ld, expected %ld\n", what, came, expected);
    differences++;
}

static unsigned word_of(const uint8_t *bytes) { return bytes[0] + 256u * bytes[1]; }
static void put_word(uint8_t *bytes, unsigned word) { bytes[0] = (uint8_t)(word & 255); bytes[1] = (uint8_t)(word >> 8); }
static uint8_t *base(void) { return memory + palustrode_start(state, PROCESS); }
static unsigned run_state(void) { return palustrode_process(state, PROCESS)[PALUSTRODE_RUN_STATE_AT]; }

/* The core: executes one instruction where T is set in PS, else until a trap or the end of the slice. The vector of the trap, or 0. */
static unsigned core(const uint8_t *bytes, size_t limit) {
    for (executed = 0; executed < SLICE;) {
        unsigned word;
        if (registers[PC] + 2u > limit) return VECTOR_BAD;
        word = word_of(bytes + registers[PC]);
        registers[PC] = (uint16_t)(registers[PC] + 2);
        if (word == PALUSTRODE_BPT_WORD) return VECTOR_T_BPT;
        if ((word & ~7u) == INC && (word & 7) < PALUSTRODE_REGISTER_SP) registers[word & 7]++;
        else if ((word & ~255u) == BR) registers[PC] = (uint16_t)(registers[PC] + 2 * ((int)(word & 255) - ((word & 128) ? 256 : 0)));
        else return VECTOR_BAD;
        executed++;
        if (registers[PS] & T_BIT) return VECTOR_T_BPT;
    }
    return 0;
}

/* The firmware: lets the process go on once, as its run state says, and reports the trap. Expected are the kind of the trap, how many instructions were
 * executed before it, whether the desk is told, and the run state after it. */
static void go_on(int kind_expected, int executed_expected, int told_expected, unsigned next) {
    unsigned before = run_state(), vector, first = 0, reason = 0, i;
    int one = before == PALUSTRODE_STEPPING || before == PALUSTRODE_PASSING, kind;
    uint8_t words[PALUSTRODE_WORDS_BYTES];
    int64_t r;

    if (!palustrode_process(state, PROCESS)[PALUSTRODE_THERE_AT] || (before != PALUSTRODE_RUNNING && !one)) {
        printf("core: the process is %s and does not execute\n", run_states[before]);
        check("executes", 0, kind_expected != NONE);
        return;
    }
    if (registers[PC] + 2u <= palustrode_size(state, PROCESS)) first = word_of(base() + registers[PC]); /* before it executes, which may change it */
    registers[PS] = (uint16_t)((registers[PS] & CODES) | (one ? T_BIT : 0));
    vector = core(base(), palustrode_size(state, PROCESS));
    registers[PS] &= CODES;
    printf("core: the process was %s and executed %d instruction%s, ", run_states[before], executed, executed == 1 ? "" : "s");
    if (vector == 0) {
        printf("no trap: nothing to report, it is %s\n", run_states[run_state()]);
        check("instructions executed", executed, executed_expected);
        check("kind", NONE, kind_expected);
        check("run state", run_state(), next);
        return;
    }
    if (vector != VECTOR_T_BPT) { kind = PALUSTRODE_KIND_TRAP; reason = vector; }
    else if (one && first != PALUSTRODE_BPT_WORD) kind = PALUSTRODE_KIND_TTRAP;
    else kind = PALUSTRODE_KIND_BPT;
    if (kind == PALUSTRODE_KIND_BPT) registers[PC] = (uint16_t)(registers[PC] - 2);
    for (i = 0; i < REGISTERS; i++) put_word(words + 2 * i, registers[i]);

    r = palustrode_report(state, sizeof state, memory, sizeof memory, PROCESS, (uint64_t)kind, reason, words, sizeof words, notice, sizeof notice,
                          line, sizeof line);
    printf("report of %s with PC %u: %s, it is %s\n", kinds[kind], registers[PC],
           r < 0 ? "REFUSED" : palustrode_notice_length(r) ? "a notice" : "granted, nobody is told", run_states[run_state()]);
    check("instructions executed", executed, executed_expected);
    check("the report's result", (long)(r < 0 ? r : 0), 0);
    check("kind", kind, kind_expected);
    check("length of the notice", (long)palustrode_notice_length(r), told_expected ? PALUSTRODE_HEADER_BYTES + PALUSTRODE_WORDS_BYTES : 0);
    check("length of the line", (long)palustrode_report_line_length(r), 0);
    check("run state", run_state(), next);
    if (palustrode_notice_length(r) == 0) return;

    r = palustrode_read_answer(notice, palustrode_notice_length(r), fields, PALUSTRODE_FIELDS); /* this is the desk again */
    printf("desk: the notice read: to host %u, %s of process %u, registers", fields[PALUSTRODE_HOST],
           kinds[(fields[PALUSTRODE_CMD] - PALUSTRODE_NOTICE) & 3], fields[PALUSTRODE_PID]);
    for (i = 0; i < REGISTERS; i++) printf(" %u", word_of(notice + PALUSTRODE_HEADER_BYTES + 2 * i));
    printf(" (R0 to R5, SP, PC, PS)\n");
    check("length of the string", (long)r, PALUSTRODE_WORDS_BYTES);
    check("HOST", fields[PALUSTRODE_HOST], DESK);
    check("CMD", fields[PALUSTRODE_CMD], PALUSTRODE_NOTICE + kind_expected);
    check("PID", fields[PALUSTRODE_PID], PROCESS);
    for (i = 0; i < REGISTERS; i++) check("a register", word_of(notice + PALUSTRODE_HEADER_BYTES + 2 * i), registers[i]);
}

/* The desk asks and the gateway answers; expected is 0 for granted, or the number of the refusal, of which `why` then tells the first fact. */
static void ask(unsigned host, unsigned cmd, unsigned arg1, unsigned arg2, const uint8_t *string, size_t carried, int refusal, uint64_t fact) {
    int64_t length = palustrode_write_request(host, cmd, PROCESS, arg1, arg2, string, carried, request, sizeof request), r;
    check("the writer's result", (long)length, (long)(PALUSTRODE_HEADER_BYTES + carried));
    if (length < 0) return;
    r = palustrode_request(state, sizeof state, memory, sizeof memory, request, (size_t)length, reply, sizeof reply);
    carried = r < 0 ? 0 : (size_t)r - PALUSTRODE_HEADER_BYTES; /* the string of the reply */
    check("the reader's result", (long)palustrode_read_answer(reply, palustrode_reply_length(r), fields, PALUSTRODE_FIELDS), (long)carried);
    printf("host %u: %s %u %u: %s, the process is %s\n", host, op_codes[cmd], arg1, arg2, r < 0 ? "CAN'T" : "granted", run_states[run_state()]);
    check("the request's result", (long)(r < 0 ? r : 0), -refusal);
    check("HOST", fields[PALUSTRODE_HOST], (long)host);
    check("CMD", fields[PALUSTRODE_CMD], (long)(cmd + (refusal ? PALUSTRODE_CANT : 0)));
    check("PID", fields[PALUSTRODE_PID], PROCESS);
    if (r < 0) {
        uint64_t facts[PALUSTRODE_FACTS];
        int64_t why = palustrode_why(state, sizeof state, request, (size_t)length, facts, PALUSTRODE_FACTS);
        if (why == -PALUSTRODE_REFUSED_NO_RIGHT)
            printf("why: number %d, host %u has no right, as host %u debugs the process\n", (int)-why, host, (unsigned)facts[0]);
        else printf("why: number %d, facts %u and %u\n", (int)-why, (unsigned)facts[0], (unsigned)facts[1]);
        check("the number that why tells", (long)why, (long)r);
        check("the first fact", (long)facts[0], (long)fact);
    }
}

static void look(const char *when, unsigned raw) {
    printf("memory: %s the word at %d is %o (octal)\n", when, AT, word_of(base() + AT));
    check("the word in memory", (long)word_of(base() + AT), (long)raw);
}

static void seen(unsigned word) { /* after an EXAMINE of the word at the breakpoint */
    printf("desk: it sees %o (octal) there\n", word_of(reply + PALUSTRODE_HEADER_BYTES));
    check("the word seen", (long)word_of(reply + PALUSTRODE_HEADER_BYTES), (long)word);
}

int main(void) {
    static const uint16_t sizes[PALUSTRODE_PROCESSES] = {[PROCESS] = SIZE};
    static const uint16_t program[] = {INC + 5, INC + 0, INC + 1, INC + 3, BR + 256 - 4}; /* INC R5; loop: INC R0; INC R1; INC R3; BR loop */
    uint8_t word[2];
    unsigned i;

    check("the library's version", (long)palustrode_version(), PALUSTRODE_VERSION);
    check("the fresh start", (long)palustrode_fresh_start(1 << PROCESS, sizes, PALUSTRODE_PROCESSES, PALUSTRODE_NO_DOOR, state, sizeof state), 0);
    for (i = 0; i < sizeof program / sizeof *program; i++) put_word(base() + 2 * i, program[i]);
    for (i = 0; i < REGISTERS; i++) registers[i] = (uint16_t)word_of(palustrode_process(state, PROCESS) + PALUSTRODE_VECTOR_AT + 2 * i);
    printf("fresh start: process %d has %u bytes and is %s\n", PROCESS, (unsigned)palustrode_size(state, PROCESS), run_states[run_state()]);

    put_word(word, INC + 2);
    ask(DESK, PALUSTRODE_DEBUG, 0, 0, word, 0, 0, 0);
    ask(DESK, PALUSTRODE_DEPOSIT, AT, sizeof word, word, sizeof word, 0, 0); /* INC R2 in the place of INC R1 */
    ask(DESK, PALUSTRODE_BREAK, AT, 1, word, 0, 0, 0);                       /* ARG2: how often it is passed */
    look("with the breakpoint planted", PALUSTRODE_BPT_WORD);
    go_on(PALUSTRODE_KIND_BPT, 2, 0, PALUSTRODE_PASSING); /* the first meeting: silent */
    look("with the breakpoint lifted", INC + 2);
    go_on(PALUSTRODE_KIND_TTRAP, 1, 0, PALUSTRODE_RUNNING);
    look("with the breakpoint planted again", PALUSTRODE_BPT_WORD);
    go_on(PALUSTRODE_KIND_BPT, 3, 1, PALUSTRODE_AT_BREAKPOINT); /* the second meeting: INC R3, BR and INC R0 before it */
    ask(DESK, PALUSTRODE_EXAMINE, AT, sizeof word, word, 0, 0, 0);
    seen(INC + 2);
    go_on(NONE, 0, 0, PALUSTRODE_AT_BREAKPOINT);
    ask(STRANGER, PALUSTRODE_EXAMINE, AT, sizeof word, word, 0, PALUSTRODE_REFUSED_NO_RIGHT, DESK);

    ask(DESK, PALUSTRODE_SINGLE_STEP, 0, 0, word, 0, 0, 0);
    go_on(PALUSTRODE_KIND_TTRAP, 1, 1, PALUSTRODE_STOPPED); /* stopped, and the breakpoint planted again */
    look("after the step", PALUSTRODE_BPT_WORD);
    ask(DESK, PALUSTRODE_RESUME, 0, 0, word, 0, 0, 0);
    go_on(PALUSTRODE_KIND_BPT, 3, 1, PALUSTRODE_AT_BREAKPOINT); /* with the count used up every meeting stops it */
    ask(DESK, PALUSTRODE_PROCEED, 0, 0, word, 0, 0, 0);
    go_on(PALUSTRODE_KIND_TTRAP, 1, 0, PALUSTRODE_RUNNING);
    ask(DESK, PALUSTRODE_STATUS, 0, 0, word, 0, 0, 0);
    printf("desk: %u breakpoint, %s\n", fields[PALUSTRODE_ARG1], run_states[fields[PALUSTRODE_ARG2]]);
    check("breakpoints set", fields[PALUSTRODE_ARG1], 1);
    check("run state in STATUS", fields[PALUSTRODE_ARG2], PALUSTRODE_RUNNING);

    ask(DESK, PALUSTRODE_END_DEBUG, 0, 0, word, 0, 0, 0);
    look("after END DEBUG", INC + 2);          /* the breakpoint is taken away, and the process runs on */
    go_on(NONE, SLICE, 0, PALUSTRODE_RUNNING); /* nothing is met any more */
    printf(differences ? "%d things differed\n" : "all as expected\n", differences);
    return differences != 0;
}

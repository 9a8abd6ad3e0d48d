/* What `make core` tells: a breakpoint in the vent loop, while a simulated PDP-11 executes the loop. */
#include "telling.h"
#include "vents.h"
#include <stdio.h>
#include <string.h>

enum {
    HEATING = 0,           /* a process below the vents, which branches to itself for ever; and its size */
    HEATING_SIZE = 2048,
    BRANCH_TO_SELF = 0000777,
    NO_SUCH_MEMORY = 0250, /* the vector of a store outside of the process's memory */
    NO_RIGHT = 8,          /* the numbers of refusals */
    WRONG_RUN_STATE = 9,
    ANOTHER_SET_IT = 16
};

/* The reports of the story, by what they are to the reader. */
static void met_and_told(unsigned turn, const char *told) {
    core(PALUSTRODE_KIND_BPT, 0, STORE, turn * DEGREES, PALUSTRODE_AT_BREAKPOINT, BPT_WORD, told);
}

static void met(unsigned turn) { met_and_told(turn, "the desk"); }

static void lifted_silently(unsigned turn, unsigned run_state) {
    core(PALUSTRODE_KIND_BPT, 0, STORE, turn * DEGREES, run_state, STORE_WORD, "nobody");
}

static void passed(unsigned turn) { core(PALUSTRODE_KIND_TTRAP, 0, AFTER, turn * DEGREES, PALUSTRODE_RUNNING, BPT_WORD, "nobody"); }

static void stepped_to(unsigned pc, unsigned turn) {
    core(PALUSTRODE_KIND_TTRAP, 0, pc, turn * DEGREES, PALUSTRODE_STOPPED, BPT_WORD, "the desk");
}

/* The requests of the story. */
static void desk(const char *what, unsigned cmd, unsigned arg1, unsigned arg2, unsigned run_state, unsigned word) {
    granted(DESK, what, cmd, arg1, arg2, run_state, word);
}

static void owner(const char *what, unsigned cmd, unsigned arg1, unsigned run_state, unsigned word) {
    granted(OWNER, what, cmd, arg1, 0, run_state, word);
}

static void proceed(void) { desk("PROCEED BPT", PALUSTRODE_PROCEED, 0, 0, PALUSTRODE_PASSING, STORE_WORD); }
static void resume(unsigned word) { desk("RESUME", PALUSTRODE_RESUME, 0, 0, PALUSTRODE_RUNNING, word); }
static void step(unsigned word) { desk("SINGLE STEP", PALUSTRODE_SINGLE_STEP, 0, 0, PALUSTRODE_STEPPING, word); }

/* The log has the positions of so many turns, each once, and zeros after them: in memory, and as the desk sees it. */
static void log_has(unsigned turns) {
    uint8_t log[LOG_BYTES] = {0};
    for (unsigned i = 0; i < turns; i++) put_word(log + 2 * i, (i + 1) * DEGREES);
    require(memcmp(of_vents(LOG), log, LOG_BYTES) == 0 && sees(DESK, LOG, log, LOG_BYTES), "a log with each turn so far, once");
}

static void ended(unsigned word, const char *told) {
    core(PALUSTRODE_KIND_HALT, 0, END, TURNS * DEGREES, PALUSTRODE_ENDED, word, told);
    log_has(TURNS);
    printf("      The log has");
    for (unsigned i = 0; i < TURNS; i++) printf(" %u", get_word(of_vents(LOG + 2 * i)));
    printf(".\n");
}

/* A new process with the program in it, stopped at its beginning with SP at its end. */
static void create(void) {
    uint8_t sp_and_pc[4];
    put_word(sp_and_pc, VENTS_SIZE);
    put_word(sp_and_pc + 2, LOOP);
    require(ask(PALUSTRODE_CREATE, 0, VENTS_SIZE, 0, deposited, 0) >= 0, "CREATED");
    vents = fields[PALUSTRODE_PID];
    require(ask(PALUSTRODE_DEPOSIT, vents, LOOP, PROGRAM_BYTES, deposited, PROGRAM_BYTES) >= 0, "DEPOSITED");
    require(ask(PALUSTRODE_DEPOSIT_VECTOR, vents, CORE_SP, sizeof sp_and_pc, sp_and_pc, sizeof sp_and_pc) >= 0, "DEPOSITED STATE VECTOR");
}

/* The same, and the desk's breakpoint with this count. */
static void load(unsigned count, const char *what) {
    create();
    desk(what, PALUSTRODE_BREAK, STORE, count, PALUSTRODE_STOPPED, BPT_WORD);
}

static void unload(void) { require(ask(PALUSTRODE_DESTROY, vents, 0, 0, deposited, 0) >= 0, "DESTROYED"); }

static void ten_turns(void) {
    chapter("1. A breakpoint in a loop of ten turns is met ten times.",
            "PROCEED BPT lifts it for one instruction. The TTRAP after that plants it again, and nobody is told.");
    load(0, "BREAK 000420, count 0");
    resume(BPT_WORD);
    for (unsigned turn = 1; turn <= TURNS; turn++) {
        met(turn);
        log_has(turn - 1);
        proceed();
        passed(turn);
        log_has(turn);
    }
    ended(BPT_WORD, "the desk");
    unload();
}

static void count_of_three(void) {
    chapter("2. With count 3 it is passed three times silently, and told in the fourth turn.",
            "A silent pass is a BPT, which lifts it, and a TTRAP, which plants it again. Nobody is told of either.");
    load(3, "BREAK 000420, count 3");
    resume(BPT_WORD);
    for (unsigned turn = 1; turn <= 3; turn++) {
        lifted_silently(turn, PALUSTRODE_PASSING);
        passed(turn);
    }
    met(4);
    log_has(3);
    proceed();
    passed(4);
    met(5);
    desk("UNBREAK 000420", PALUSTRODE_UNBREAK, STORE, 0, PALUSTRODE_AT_BREAKPOINT, STORE_WORD);
    resume(STORE_WORD);
    ended(STORE_WORD, "the desk");
    unload();
}

/* From stopped at the breakpoint in its second turn, with a count of 1. */
static void step_with_count(void) {
    desk("BREAK 000420, count 1", PALUSTRODE_BREAK, STORE, 1, PALUSTRODE_STOPPED, BPT_WORD);
    step(BPT_WORD);
    lifted_silently(2, PALUSTRODE_STEPPING);
    stepped_to(AFTER, 2);
    log_has(2);
}

static void single_steps(void) {
    static const unsigned first[] = {LOOP + 4, LOOP + 8, TURN}, second[] = {BRANCH, TURN};
    chapter("3. Single steps go through it.",
            "A step onto it arrives by TTRAP, the next executes the BPT word and is told as BPT, and the third lifts it and goes on.\n"
            "With count 1 a single step passes it: nobody is told of its BPT, and the desk of the TTRAP after one more instruction.");
    load(0, "BREAK 000420, count 0");
    for (unsigned i = 0; i < sizeof first / sizeof *first; i++) {
        step(BPT_WORD);
        stepped_to(first[i], 0);
    }
    step(BPT_WORD);
    stepped_to(STORE, 1);
    step(BPT_WORD);
    met(1);
    log_has(0);
    step(STORE_WORD);
    stepped_to(AFTER, 1);
    log_has(1);
    for (unsigned i = 0; i < sizeof second / sizeof *second; i++) {
        step(BPT_WORD);
        stepped_to(second[i], 1);
    }
    step(BPT_WORD);
    stepped_to(STORE, 2);
    step_with_count();
    resume(BPT_WORD);
    met(3);
    unload();
}

/* The vents, which lay above the heating, then lie where it was. */
static void destroy_heating(void) {
    require(palustrode_start(state, vents) == HEATING_SIZE, "the vents above the heating");
    require(ask(PALUSTRODE_DEBUG, HEATING, 0, 0, deposited, 0) >= 0, "DEBUG of the heating");
    require(ask(PALUSTRODE_DESTROY, HEATING, 0, 0, deposited, 0) >= 0, "DESTROYED");
    require(palustrode_start(state, vents) == 0, "the vents at the beginning of memory");
    printf("      The desk destroys the heating: the vents move from byte %d of memory to byte 0.\n", HEATING_SIZE);
}

static void while_passing(void) {
    chapter("4. Between PROCEED BPT and its one instruction.",
            "STOP plants it again, so that it is met a second time in this turn. That the vents moved in memory makes no difference.");
    load(0, "BREAK 000420, count 0");
    resume(BPT_WORD);
    met(1);
    destroy_heating();
    proceed();
    passed(1);
    met(2);
    proceed();
    refused(DESK, WRONG_RUN_STATE, "RESUME", PALUSTRODE_RESUME, 0, PALUSTRODE_PASSING, STORE_WORD);
    refused(DESK, WRONG_RUN_STATE, "SINGLE STEP", PALUSTRODE_SINGLE_STEP, 0, PALUSTRODE_PASSING, STORE_WORD);
    refused(DESK, WRONG_RUN_STATE, "PROCEED BPT", PALUSTRODE_PROCEED, 0, PALUSTRODE_PASSING, STORE_WORD);
    desk("STOP", PALUSTRODE_STOP, 0, 0, PALUSTRODE_STOPPED, BPT_WORD);
    resume(BPT_WORD);
    met(2);
    log_has(1);
    proceed();
    passed(2);
    met(3);
    log_has(2);
}

/* Of the rest of the process all is zero, as it was created, but the log. */
static void require_program(void) {
    uint8_t whole[VENTS_SIZE] = {0};
    memcpy(whole + LOOP, deposited, PROGRAM_BYTES);
    memcpy(whole + LOG, of_vents(LOG), LOG_BYTES);
    require(memcmp(of_vents(0), whole, VENTS_SIZE) == 0, "the program as it was deposited, and nothing else but the log");
    printf("      The program in memory is what was deposited, byte for byte.\n");
}

static void end_debug(void) {
    chapter("5. After END DEBUG the loop runs to its end.", "No breakpoint is left, and nobody is told.");
    proceed();
    desk("END DEBUG", PALUSTRODE_END_DEBUG, 0, 0, PALUSTRODE_RUNNING, STORE_WORD);
    ended(STORE_WORD, "nobody");
    require_program();
    require(ask(PALUSTRODE_DEBUG, vents, 0, 0, deposited, 0) >= 0, "DEBUG of the vents");
    unload();
}

static void trap_while_passing(void) {
    uint8_t outside[2];
    put_word(outside, VENTS_SIZE);
    chapter("6. The one instruction traps by itself.",
            "The desk sets R2 to 001000, past the last byte of the vents. TRAP comes in place of TTRAP, and plants the breakpoint again.");
    load(0, "BREAK 000420, count 0");
    resume(BPT_WORD);
    met(1);
    require(ask(PALUSTRODE_DEPOSIT_VECTOR, vents, CORE_R2, sizeof outside, outside, sizeof outside) >= 0, "DEPOSITED STATE VECTOR");
    proceed();
    core(PALUSTRODE_KIND_TRAP, NO_SUCH_MEMORY, AFTER, DEGREES, PALUSTRODE_STOPPED, BPT_WORD, "the desk");
    log_has(0);
    unload();
}

/* END WATCH comes while the desk lets the vents execute the one instruction. */
static void end_watch(void) {
    proceed();
    owner("END WATCH", PALUSTRODE_END_WATCH, 0, PALUSTRODE_PASSING, STORE_WORD);
    require(ask_as(OWNER, PALUSTRODE_EXAMINE, vents, LOOP, PROGRAM_BYTES, deposited, 0) == -NO_RIGHT, "an owner that may no longer look");
    core(PALUSTRODE_KIND_TTRAP, 0, AFTER, 2 * DEGREES, PALUSTRODE_RUNNING, STORE_WORD, "nobody");
    log_has(2);
}

static void owner_watches(void) {
    chapter("7. The owner watches, and its breakpoint stops the vents.",
            "The notice goes to the owner, host 7, who set it. Only the owner can remove it, and only the desk can let the vents go on.\n"
            "END WATCH takes it away, here while it is lifted.");
    create();
    owner("WATCH", PALUSTRODE_WATCH, 0, PALUSTRODE_STOPPED, STORE_WORD);
    require(ask_as(OWNER, PALUSTRODE_EXAMINE, vents, LOOP, PROGRAM_BYTES, deposited, 0) >= 0, "an owner that may look");
    owner("BREAK 000420, count 0", PALUSTRODE_BREAK, STORE, PALUSTRODE_STOPPED, BPT_WORD);
    resume(BPT_WORD);
    met_and_told(1, "the owner");
    refused(OWNER, NO_RIGHT, "PROCEED BPT", PALUSTRODE_PROCEED, 0, PALUSTRODE_AT_BREAKPOINT, BPT_WORD);
    refused(DESK, ANOTHER_SET_IT, "UNBREAK 000420", PALUSTRODE_UNBREAK, STORE, PALUSTRODE_AT_BREAKPOINT, BPT_WORD);
    proceed();
    passed(1);
    met_and_told(2, "the owner");
    log_has(1);
    end_watch();
    ended(STORE_WORD, "the desk");
    unload();
}

/* Shows the program, and puts its words together as they are deposited. */
static void show_program(void) {
    unsigned at = LOOP;
    for (unsigned i = 0; i < INSTRUCTIONS; i++) {
        const struct instruction *it = &vent_loop[i];
        printf("      %06o  %06o ", at, it->word[0]);
        printf(it->words == 2 ? "%06o" : "      ", it->word[1]);
        printf("   %s\n", it->text);
        for (unsigned w = 0; w < it->words; w++, at += 2) put_word(deposited + (at - LOOP), it->word[w]);
    }
    require(at == END, "a program of the length that is deposited");
}

int main(void) {
    static const uint16_t sizes[PALUSTRODE_PROCESSES] = {HEATING_SIZE};
    printf("A simulated PDP-11 executes the vent loop, with the words that the gateway plants in it. The desk, host 5, creates the process\n"
           "anew in each chapter but the fifth, deposits this program and sets PC to its beginning. Below it in memory lies the heating,\n"
           "which runs beside it. Numbers of six digits are octal.\n\n");
    show_program();
    printf("\nEach line says what the desk or the owner asks or how the core traps, and then how the vents are, which word memory holds at 000420,\n"
           "whatever the two see there, and who is told of the trap.\n");
    put_word(memory, BRANCH_TO_SELF);
    require(firmware_start(1 << HEATING, sizes) == 0, "a fresh start");
    ten_turns();
    count_of_three();
    single_steps();
    while_passing();
    end_debug();
    trap_while_passing();
    owner_watches();
    printf("\nAll of it is as it should be.\n");
    return 0;
}

#include "telling.h"
#include "vents.h"
#include <stdio.h>
#include <stdlib.h>
#include <string.h>

enum {
    LINE = 160,
    ROUNDS = 20 /* so many times each process gets the core; by then the vents must have trapped */
};

static const char *const kinds[] = {"TRAP", "HALT", "BPT", "TTRAP"};
static const char *const run_states[] = {"running", "stepping", "stopped", "at a breakpoint", "ended", "passing"};

unsigned vents;
uint8_t deposited[PROGRAM_BYTES];
uint16_t fields[PALUSTRODE_FIELDS];
static uint8_t reply[PALUSTRODE_MESSAGE_BYTES];

static void deviate(const char *expected, const char *got) {
    fflush(stdout);
    fprintf(stderr, "core: NOT AS IT SHOULD BE\nexpected: %s\ngot:      %s\n", expected, got);
    exit(1);
}

void require(int holds, const char *expected) {
    if (!holds) deviate(expected, "something else");
}

const uint8_t *of_vents(unsigned address) { return memory + palustrode_start(state, vents) + address; }

int64_t ask_as(unsigned host, unsigned cmd, unsigned pid, unsigned arg1, unsigned arg2, const uint8_t *string, size_t length) {
    uint8_t message[PALUSTRODE_MESSAGE_BYTES];
    int64_t written = palustrode_write_request(host, cmd, pid, arg1, arg2, string, length, message, sizeof message);
    require(written > 0, "a request that can be written");
    int64_t result = firmware_request(message, (size_t)written, reply);
    require(result >= 0 || palustrode_reply_length(result) > 0, "a reply or a CAN'T");
    int64_t carried = palustrode_read_answer(reply, palustrode_reply_length(result), fields, PALUSTRODE_FIELDS);
    require(carried >= 0 && fields[PALUSTRODE_HOST] == host, "an answer to the host that asked");
    require(fields[PALUSTRODE_CMD] == (result < 0 ? cmd + PALUSTRODE_CANT : cmd), "a CAN'T if it is refused, else a reply");
    return result;
}

int64_t ask(unsigned cmd, unsigned pid, unsigned arg1, unsigned arg2, const uint8_t *string, size_t length) {
    return ask_as(DESK, cmd, pid, arg1, arg2, string, length);
}

int sees(unsigned host, unsigned address, const uint8_t *bytes, unsigned count) {
    int64_t result = ask_as(host, PALUSTRODE_EXAMINE, vents, address, count, bytes, 0);
    return result == -PALUSTRODE_REFUSED_NO_RIGHT || (result == PALUSTRODE_HEADER_BYTES + count && memcmp(reply + PALUSTRODE_HEADER_BYTES, bytes, count) == 0);
}

static void format(char *line, const char *who, const char *what, const char *degrees, unsigned run_state, unsigned word, const char *told) {
    const char *now = run_state < sizeof run_states / sizeof *run_states ? run_states[run_state] : "in no run state";
    int length = snprintf(line, LINE, "%-6s%-33s%4s   %-17s%06o    %s", who, what, degrees, now, word, told);
    while (length > 0 && line[length - 1] == ' ') line[--length] = 0;
}

/* The same of the vents as they are. */
static void format_now(char *line, const char *who, const char *what, const char *degrees, const char *told) {
    format(line, who, what, degrees, palustrode_process(state, vents)[PALUSTRODE_RUN_STATE_AT], get_word(of_vents(STORE)), told);
}

/* A line as it should be, and as it is. Whatever stands in memory, the desk and the owner see the program that the desk deposited. */
static void tell(const char *expected, const char *got) {
    if (strcmp(expected, got) != 0) deviate(expected, got);
    if (!sees(DESK, LOOP, deposited, PROGRAM_BYTES)) deviate("the desk sees the program that it deposited", got);
    if (!sees(OWNER, LOOP, deposited, PROGRAM_BYTES)) deviate("the owner sees the program that the desk deposited", got);
    printf("%s\n", got);
}

static const char *name_of(unsigned host) { return host == DESK ? "desk" : "owner"; }

/* A request, refused with this number or, if it is 0, granted. */
static void tell_request(unsigned host, const char *what, int64_t result, unsigned number, unsigned run_state, unsigned word) {
    char expected[LINE], got[LINE], otherwise[LINE];
    snprintf(otherwise, sizeof otherwise, "refused with %d", (int)-result);
    format(expected, name_of(host), what, "", run_state, word, number == 0 ? "" : "CAN'T");
    format_now(got, name_of(host), what, "", result >= 0 ? "" : result == -(int64_t)number ? "CAN'T" : otherwise);
    tell(expected, got);
}

void granted(unsigned host, const char *what, unsigned cmd, unsigned arg1, unsigned arg2, unsigned run_state, unsigned word) {
    tell_request(host, what, ask_as(host, cmd, vents, arg1, arg2, deposited, 0), 0, run_state, word);
}

void refused(unsigned host, unsigned number, const char *what, unsigned cmd, unsigned arg1, unsigned run_state, unsigned word) {
    tell_request(host, what, ask_as(host, cmd, vents, arg1, 0, deposited, 0), number, run_state, word);
}

/* Who was told of a report: nobody, or the desk or the owner, by a notice of its kind and reason and with the vents' nine words. */
static const char *who_was_told(const struct slice *slice) {
    if (slice->result == 0) return "nobody";
    if (slice->result < 0) return "the report was refused";
    int64_t carried = palustrode_read_answer(slice->notice, palustrode_notice_length(slice->result), fields, PALUSTRODE_FIELDS);
    unsigned host = fields[PALUSTRODE_HOST];
    int right = carried == CORE_WORDS && (host == DESK || host == OWNER) && fields[PALUSTRODE_CMD] == PALUSTRODE_NOTICE + slice->kind &&
                fields[PALUSTRODE_PID] == vents && fields[PALUSTRODE_ARG1] == slice->reason &&
                memcmp(slice->notice + PALUSTRODE_HEADER_BYTES, firmware_words(vents), CORE_WORDS) == 0;
    return !right ? "a wrong notice" : host == DESK ? "the desk" : "the owner";
}

/* All processes get the core in turn until the vents trap. */
static void run_until_trap(struct slice *slice) {
    for (unsigned i = 0; i < ROUNDS * PALUSTRODE_PROCESSES; i++) {
        unsigned p = i % PALUSTRODE_PROCESSES;
        firmware_slice(p, slice);
        if (!slice->reported) continue;
        if (p != vents) deviate("a trap of the vents", "a trap of another process");
        return;
    }
    deviate("a trap of the vents", "none: they do not run, or run on and on");
}

static void format_trap(char *what, unsigned kind, unsigned reason, unsigned pc) {
    int length = snprintf(what, LINE, "%s at %06o", kinds[kind], pc);
    if (reason != 0) snprintf(what + length, (size_t)(LINE - length), ", reason %06o", reason);
}

void core(unsigned kind, unsigned reason, unsigned pc, unsigned degrees, unsigned run_state, unsigned word, const char *told) {
    char expected[LINE], got[LINE], what[LINE], position[20];
    struct slice slice;
    run_until_trap(&slice);
    format_trap(what, kind, reason, pc);
    snprintf(position, sizeof position, "%u", degrees);
    format(expected, "core", what, position, run_state, word, told);
    format_trap(what, slice.kind, slice.reason, get_word(firmware_words(vents) + CORE_PC));
    snprintf(position, sizeof position, "%u", get_word(firmware_words(vents) + CORE_R0));
    format_now(got, "core", what, position, who_was_told(&slice));
    tell(expected, got);
}

void chapter(const char *title, const char *remark) {
    printf("\n%s\n%s\n\n", title, remark);
    printf("%-6s%-33s%4s   %-17s%06o    %s\n", "", "", "R0", "the vents are", STORE, "told");
}

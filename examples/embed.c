/* A gateway in C over the stub, and the desk that asks it: host 5 debugs process 2, which has 1,536 bytes, and host 6 is refused and told why. Process 0,
 * which lies below it in memory, is destroyed, so that process 2 moves; others are created until there is no room. Then process 2 passes a
 * breakpoint, which is planted again after one instruction, and stops at it the next time. Last, after another fresh start, a grower's console
 * asks for process 2 by Pup packets. */
#include "palustrode.h"
#include <stdio.h>
#include <string.h>

enum {
    LOWER = 2048, /* the size of process 0 */
    SIZE = 1536   /* and of process 2 */
};

static uint8_t state[PALUSTRODE_STATE_BYTES];
static uint8_t memory[PALUSTRODE_MEMORY_BYTES];
static uint8_t out[PALUSTRODE_MESSAGE_BYTES];
static uint8_t line[PALUSTRODE_LINE_BYTES];

static uint8_t *process(unsigned p) { return state + p * PALUSTRODE_PROCESS_BYTES; }

static void show(const char *what, int64_t result, size_t written) {
    printf("%-28s %4lld%s", what, (long long)result, written > 0 ? " " : "");
    for (size_t i = 0; i < written; i++) printf(" %02x", out[i]);
    printf("\n");
}

/* A word of process 2 as it stands in memory. Where the process begins is read each time, since a DESTROY may have moved it. */
static void show_word(const char *what, int address) {
    const uint8_t *word = memory + palustrode_start(state, 2) + address;
    printf("%-28s       %02x %02x\n", what, word[0], word[1]);
}

/* Where the processes that are there begin in memory. */
static void show_starts(const char *what) {
    const char *before = "      ";
    printf("%-28s", what);
    for (unsigned p = 0; p < PALUSTRODE_PROCESSES; p++) {
        if (!process(p)[PALUSTRODE_THERE_AT]) continue;
        printf("%s %u at %u", before, p, (unsigned)palustrode_start(state, p));
        before = ",";
    }
    printf("\n");
}

/* A fresh start with these sizes, and without a Pup door; those of processes that are not to be there are passed over. */
static void start(const char *what, uint64_t there, const uint16_t *sizes, size_t count) {
    show(what, palustrode_fresh_start(there, sizes, count, PALUSTRODE_NO_DOOR, state, sizeof state), 0);
}

/* Why a message would be refused: the number, and its two facts. */
static void why(const char *what, const uint8_t *message, size_t length) {
    uint64_t facts[PALUSTRODE_FACTS];
    int64_t r = palustrode_why(state, sizeof state, message, length, facts, PALUSTRODE_FACTS);
    printf("%-28s %4lld  %llu %llu\n", what, (long long)r, (unsigned long long)facts[0], (unsigned long long)facts[1]);
}

/* Returns the length of the answer to send. */
static size_t ask(const char *what, const uint8_t *message, size_t length) {
    int64_t r = palustrode_request(state, sizeof state, memory, sizeof memory, message, length, out, sizeof out);
    size_t written = palustrode_reply_length(r);
    show(what, r, written);
    return written;
}

static void report(const char *what, uint64_t process, uint64_t kind, uint16_t pc) {
    uint8_t words[PALUSTRODE_WORDS_BYTES] = {0};
    words[2 * PALUSTRODE_REGISTER_PC] = (uint8_t)(pc & 255);
    words[2 * PALUSTRODE_REGISTER_PC + 1] = (uint8_t)(pc >> 8);
    int64_t r = palustrode_report(state, sizeof state, memory, sizeof memory, process, kind, 0, words, sizeof words, out,
                                  sizeof out, line, sizeof line);
    show(what, r, palustrode_notice_length(r));
}

/* The desk's end: host 5 writes a request, to process 2 unless it is a CREATE, the gateway answers it, and the desk reads the answer. */
static void desk(const char *what, uint64_t cmd, uint64_t arg1, uint64_t arg2, const uint8_t *string, size_t length) {
    static uint8_t request[PALUSTRODE_MESSAGE_BYTES];
    uint16_t f[PALUSTRODE_FIELDS] = {0};
    uint64_t pid = cmd == PALUSTRODE_CREATE ? 0 : 2;
    int64_t written = palustrode_write_request(5, cmd, pid, arg1, arg2, string, length, request, sizeof request);
    if (written < 0) {
        show(what, written, 0);
        return;
    }
    size_t answered = ask(what, request, (size_t)written);
    int64_t carried = palustrode_read_answer(out, answered, f, PALUSTRODE_FIELDS);
    printf("%-28s %4lld  host %d, CMD %d, process %d, %d, %d", "  which the desk reads as", (long long)carried, f[PALUSTRODE_HOST],
           f[PALUSTRODE_CMD], f[PALUSTRODE_PID], f[PALUSTRODE_ARG1], f[PALUSTRODE_ARG2]);
    for (int64_t i = 0; i < carried; i++) printf("%s %02x", i == 0 ? ":" : "", out[PALUSTRODE_HEADER_BYTES + i]);
    printf("\n");
}

/* A request while one byte of the state is wrong, and whether it left everything as it was; then the byte is put right. */
static void ask_on_wrong(const char *what, uint8_t *byte, uint8_t wrong, const uint8_t *message, size_t length) {
    static uint8_t state_was[sizeof state], memory_was[sizeof memory], out_was[sizeof out];
    uint8_t right = *byte;
    *byte = wrong;
    memcpy(state_was, state, sizeof state);
    memcpy(memory_was, memory, sizeof memory);
    memcpy(out_was, out, sizeof out);
    ask(what, message, length);
    int same = memcmp(state_was, state, sizeof state) == 0 && memcmp(memory_was, memory, sizeof memory) == 0 &&
               memcmp(out_was, out, sizeof out) == 0;
    printf("%-28s       %s\n", "state, memory and output", same ? "as before" : "changed");
    *byte = right;
}

/* Process 0 goes, and process 2 moves down; then come new processes, each last, until the free bytes are too few. */
static void destroy_and_create(const uint8_t *word) {
    static const uint8_t debug[] = {0, 5, 255, 0, PALUSTRODE_DEBUG, 0, 0, 0, 0, 0};
    static const uint8_t destroy[] = {0, 5, 255, 0, PALUSTRODE_DESTROY, 0, 0, 0, 0, 0};
    static const uint8_t create[] = {0, 5, 255, 0, PALUSTRODE_CREATE, 0, 0, 0, 0, 0};

    ask("host 5 debugs process 0", debug, sizeof debug);
    ask("and destroys it", destroy, sizeof destroy);
    show_starts("process 2 moved down");
    show_word("with its planted word", 256);
    desk("and what is seen is the same", PALUSTRODE_EXAMINE, 256, 2, word, 0);
    desk("a process of 1,023 bytes", PALUSTRODE_CREATE, 1023, 0, word, 0);
    desk("a process of 1,024 bytes", PALUSTRODE_CREATE, 1024, 0, word, 0);
    show_starts("it lies last");
    for (int i = 0; i < 4; i++) ask("one of 4,096 bytes", create, sizeof create);
    show_starts("1,536 bytes are free");
}

/* A packet as it comes from the network, and the words of its acknowledgement. */
static void packet(const char *what, uint64_t type, uint64_t id, const uint16_t *words, size_t count) {
    static uint16_t ack[PALUSTRODE_ACK_WORDS];
    int64_t r = palustrode_packet(state, sizeof state, memory, sizeof memory, type, id, words, count, ack, PALUSTRODE_ACK_WORDS);
    printf("%-28s %4lld%s", what, (long long)r, palustrode_acknowledged(r, type) ? "  acknowledged" : "");
    for (int64_t i = 0; i < r; i++) printf(" %04x", ack[i]);
    printf("\n");
}

/* So many tenths of a second pass; then, what the process at the door does, and whether a Go waits. */
static void wait_for(const char *what, int tenths) {
    int64_t r = 0;
    for (int i = 0; i < tenths && r == 0; i++) r = palustrode_tick(state, sizeof state);
    const uint8_t *at_door = palustrode_process(state, palustrode_door(state));
    printf("%-28s %4lld  %s", what, (long long)r, at_door[PALUSTRODE_RUN_STATE_AT] == PALUSTRODE_RUNNING ? "it runs" : "it does not run");
    if (at_door[PALUSTRODE_GO_WAITS_AT]) printf(", a Go waits since %d ticks", at_door[PALUSTRODE_GO_TICKS_AT]);
    printf("\n");
}

/* A grower's console, which is host 254, at the Pup door of process 2. It debugs and stops the process by messages, as every host does; then it looks
 * and stores by packets, a word at a time, with the four words around it. Its Go is acknowledged, but the acknowledgement is lost at first, so the Go
 * comes again; then the GoReply is lost. Ten seconds after the first Go the process runs all the same. The second time the GoReply comes. */
static void console(const uint16_t *sizes, uint64_t there) {
    static const uint8_t debug[] = {0, PALUSTRODE_PUP_HOST, 255, 0, PALUSTRODE_DEBUG, 2, 0, 0, 0, 0};
    static const uint8_t stop[] = {0, PALUSTRODE_PUP_HOST, 255, 0, PALUSTRODE_STOP, 2, 0, 0, 0, 0};
    static const uint8_t deposit[] = {0, PALUSTRODE_PUP_HOST, 255, 0, PALUSTRODE_DEPOSIT, 2, 1, 0, 0, 8, 1, 2, 3, 4, 5, 6, 7, 8};
    static const uint8_t plant[] = {0, PALUSTRODE_PUP_HOST, 255, 0, PALUSTRODE_BREAK, 2, 1, 2, 0, 0}; /* at 258, word 129 */
    static const uint16_t fetch[] = {128, 0, 4};
    static const uint16_t fetch_one[] = {129};
    static const uint16_t store[] = {129, 0x1234, 4};
    static const uint16_t past[] = {SIZE / 2};
    static const uint64_t id = 0xffffffff; /* 0 follows */

    packet("a Fetch, and no door", PALUSTRODE_FETCH, 1, fetch, 3);
    show("fresh start, a door at 2", palustrode_fresh_start(there, sizes, PALUSTRODE_PROCESSES, 2, state, sizeof state), 0);
    packet("a Fetch by a stranger", PALUSTRODE_FETCH, 2, fetch, 3);
    ask("host 254 debugs process 2", debug, sizeof debug);
    ask("stops it", stop, sizeof stop);
    ask("deposits 1 to 8", deposit, sizeof deposit);
    ask("and sets a breakpoint", plant, sizeof plant);
    packet("a Fetch, with four words", PALUSTRODE_FETCH, 3, fetch, 3);
    packet("a Store, with four words", PALUSTRODE_STORE, 4, store, 3);
    show_word("memory holds", 258);
    packet("a Fetch of one word", PALUSTRODE_FETCH, 5, fetch_one, 1);
    packet("a word past the size", PALUSTRODE_FETCH, 6, past, 1);
    packet("a Go", PALUSTRODE_GO, id, fetch, 0);
    wait_for("five seconds", 50);
    packet("the same Go again", PALUSTRODE_GO, id, fetch, 0);
    wait_for("almost five more", 49);
    wait_for("and a tenth", 1);
    ask("it is stopped once more", stop, sizeof stop);
    packet("a Go", PALUSTRODE_GO, id, fetch, 0);
    packet("and its GoReply", PALUSTRODE_GO_REPLY, (id + 1) & 0xffffffff, fetch, 0);
    wait_for("no more than a tenth", 1);
}

int main(void) {
    static const uint16_t sizes[PALUSTRODE_PROCESSES] = {LOWER, 0, SIZE};
    static const uint16_t odd[PALUSTRODE_PROCESSES] = {LOWER, 0, SIZE - 1};
    static const uint16_t greatest[PALUSTRODE_PROCESSES] = {4096, 4096, 4096, 4096, 4096, 4096, 4096, 4096};
    static const uint64_t both = 1 << 0 | 1 << 2;
    static const uint8_t debug5[] = {0, 5, 255, 0, PALUSTRODE_DEBUG, 2, 0, 0, 0, 0};
    static const uint8_t debug6[] = {0, 6, 255, 0, PALUSTRODE_DEBUG, 2, 0, 0, 0, 0};
    static const uint8_t watch6[] = {0, 6, 255, 0, PALUSTRODE_WATCH, 2, 0, 0, 0, 0};
    static const uint8_t past5[] = {0, 5, 255, 0, PALUSTRODE_EXAMINE, 2, (SIZE - 6) / 256, (SIZE - 6) % 256, 0, 16};
    static const uint8_t word[] = {18, 52};
    static const uint8_t end[] = {0, 5, 255, 0, PALUSTRODE_END_DEBUG, 2, 0, 0, 0, 0};

    uint16_t fields[PALUSTRODE_FIELDS];

    printf("%-28s       %s\n", "library and header", palustrode_version() == PALUSTRODE_VERSION ? "of one version" : "of two versions");
    start("fresh start, process 8", 1 << 8, sizes, PALUSTRODE_PROCESSES);
    start("process 2 of 1,535 bytes", both, odd, PALUSTRODE_PROCESSES);
    start("five of 4,096 bytes", 31, greatest, PALUSTRODE_PROCESSES);
    start("0 and 2, and seven sizes", both, sizes, PALUSTRODE_PROCESSES - 1);
    start("0 and 2, and eight sizes", both, sizes, PALUSTRODE_PROCESSES);
    show_starts("they begin in memory");
    ask("host 5 debugs process 2", debug5, sizeof debug5);
    ask("host 6 asks for it", debug6, sizeof debug6);
    why("  why? host 5 debugs it", debug6, sizeof debug6);
    why("  how about a watch?", watch6, sizeof watch6);
    why("host 5: 16 bytes at 1530", past5, sizeof past5);
    desk("the desk deposits 18, 52", PALUSTRODE_DEPOSIT, 256, sizeof word, word, sizeof word);
    desk("breakpoint there, count 1", PALUSTRODE_BREAK, 256, 1, word, 0);
    show_word("memory holds", 256);
    desk("the desk examines it", PALUSTRODE_EXAMINE, 256, 2, word, 0);
    desk("an address over 65,535", PALUSTRODE_EXAMINE, 65536 + 256, 2, word, 0);
    desk("its last two bytes", PALUSTRODE_EXAMINE, SIZE - 2, 2, word, 0);
    desk("a byte past its size", PALUSTRODE_EXAMINE, SIZE - 1, 2, word, 0);
    destroy_and_create(word);
    report("BPT there, passed silently", 2, PALUSTRODE_KIND_BPT, 256);
    show_word("memory holds", 256);
    report("TTRAP, one instruction later", 2, PALUSTRODE_KIND_TTRAP, 258);
    show_word("memory holds", 256);
    report("process 258 has a BPT", 258, PALUSTRODE_KIND_BPT, 256);
    report("process 2 has kind 258", 2, 258, 256);
    report("BPT there, and a notice", 2, PALUSTRODE_KIND_BPT, 256);
    printf("%-28s %4lld\n", "  of which the desk reads",
           (long long)palustrode_read_answer(out, PALUSTRODE_HEADER_BYTES + PALUSTRODE_WORDS_BYTES, fields, PALUSTRODE_FIELDS));
    ask("a message of no bytes", debug5, 0);
    ask_on_wrong("flag of a breakpoint is 7", process(2) + PALUSTRODE_ENTRIES_AT, 7, debug5, sizeof debug5);
    ask_on_wrong("absent process with a host", process(7) + PALUSTRODE_HOST_AT, 6, debug5, sizeof debug5);
    ask_on_wrong("process 2 begins at byte 2", state + PALUSTRODE_STARTS_AT + 2 + 2, 2, debug5, sizeof debug5);
    ask("END DEBUG", end, sizeof end);
    show_word("memory holds", 256);
    ask("host 6 debugs it", debug6, sizeof debug6);
    console(sizes, both);
    return 0;
}

/* The debugging stub for firmware in C, with a door for the text debugger of the bench and one for the Pup packets of the growers' consoles, and the
 * desk's end of its protocol. docs/EMBEDDING.md says what each byte means. */
#ifndef PALUSTRODE_H
#define PALUSTRODE_H

#include <stddef.h>
#include <stdint.h>

/* The version of this header, as three numbers, as one that grows from version to version (0.8.0 is 800) and as text. palustrode_version returns that
 * of the library that is linked: a program is right where both numbers are the same. */
#define PALUSTRODE_VERSION_MAJOR 0
#define PALUSTRODE_VERSION_MINOR 8
#define PALUSTRODE_VERSION_PATCH 0
#define PALUSTRODE_VERSION 800
#define PALUSTRODE_VERSION_TEXT "0.8.0"

/* A state is eight processes of 96 bytes, the last 64 of which are eight breakpoint entries of 8 bytes; then, from byte 768 on, where each
 * process begins in memory, two bytes each, low byte first; and last the number of the process that the Pup door is at. All processes lie in one
 * memory of 16,384 bytes, one after the other without gaps, each with as many bytes as its size says; free bytes follow the last. */
#define PALUSTRODE_STATE_BYTES 785
#define PALUSTRODE_PROCESS_BYTES 96
#define PALUSTRODE_ENTRY_BYTES 8
#define PALUSTRODE_STARTS_AT 768
#define PALUSTRODE_DOOR_AT 784
#define PALUSTRODE_MEMORY_BYTES 16384

/* The number of processes, and of their sizes; and the least and the greatest size in bytes, which is even. In ARG1 of a CREATE 0 stands for
 * the greatest. */
#define PALUSTRODE_PROCESSES 8
#define PALUSTRODE_SIZE_MIN 2
#define PALUSTRODE_SIZE_MAX 4096

/* The nine words of a report are the registers R0 to R5, SP, PC and PS, two bytes each, low byte first; the last three by their places among the
 * nine. */
#define PALUSTRODE_WORDS_BYTES 18
#define PALUSTRODE_REGISTER_SP 6
#define PALUSTRODE_REGISTER_PC 7
#define PALUSTRODE_REGISTER_PS 8

/* The instruction that stands in memory where a breakpoint is planted, as a word. */
#define PALUSTRODE_BPT_WORD 3

/* The longest message, which is the least room for any that is written; of it, the bytes before its string. */
#define PALUSTRODE_MESSAGE_BYTES 266
#define PALUSTRODE_HEADER_BYTES 10

/* The longest line of text, its newline included, which is the least room for one that is written; and the host as which the text debugger asks. */
#define PALUSTRODE_LINE_BYTES 35
#define PALUSTRODE_TEXT_HOST 253

/* The most 16-bit words that the acknowledgement of a packet has, which is the least room for one; the host as which a console asks by packets; and,
 * at a fresh start, the number that puts the Pup door at no process (every other number over 7 does so too). */
#define PALUSTRODE_ACK_WORDS 35
#define PALUSTRODE_PUP_HOST 254
#define PALUSTRODE_NO_DOOR 255

/* The types of packets, which the TeleSwat memo has in octal, 200 to 204. The last is that of every acknowledgement. */
#define PALUSTRODE_STORE 128
#define PALUSTRODE_FETCH 129
#define PALUSTRODE_GO 130
#define PALUSTRODE_GO_REPLY 131
#define PALUSTRODE_ACK 132

/* The stack that a call needs, in bytes, what it calls included: 1,824 were measured on x86-64 (docs/EMBEDDING.md says how). */
#define PALUSTRODE_STACK_BYTES 1936

/* The op codes of requests, in CMD. A CAN'T has PALUSTRODE_CANT added. */
#define PALUSTRODE_NOP 0
#define PALUSTRODE_DEBUG 1
#define PALUSTRODE_END_DEBUG 2
#define PALUSTRODE_STOP 3
#define PALUSTRODE_DEPOSIT 4
#define PALUSTRODE_RESUME 5
#define PALUSTRODE_EXAMINE 6
#define PALUSTRODE_DEPOSIT_VECTOR 7
#define PALUSTRODE_BREAK 8
#define PALUSTRODE_UNBREAK 9
#define PALUSTRODE_SINGLE_STEP 10
#define PALUSTRODE_PROCEED 11
#define PALUSTRODE_CREATE 12
#define PALUSTRODE_DESTROY 13
#define PALUSTRODE_WATCH 14
#define PALUSTRODE_END_WATCH 15
#define PALUSTRODE_STATUS 16
#define PALUSTRODE_CANT 128

/* The kinds of machine report. A notice has its kind and PALUSTRODE_NOTICE in CMD. */
#define PALUSTRODE_KIND_TRAP 0
#define PALUSTRODE_KIND_HALT 1
#define PALUSTRODE_KIND_BPT 2
#define PALUSTRODE_KIND_TTRAP 3
#define PALUSTRODE_NOTICE 64

/* Of a process's bytes in the state, those that the firmware acts on: 1 if it is there, its run state, its size, which answer is owed to the text
 * debugger (0 none, 1 to a `c`, 2 to an `s`), and its nine words; and some that it need not look at: the host that debugs it, or 0, how many breakpoints
 * are set in it, 0 to 8, the host that watches it, or 0, and of a Go of the Pup door whether one waits, 0 or 1, how many ticks were counted since, 0 to
 * 99, and its ID, four bytes, low byte first; and where its eight breakpoint entries begin. */
#define PALUSTRODE_THERE_AT 0
#define PALUSTRODE_HOST_AT 1
#define PALUSTRODE_RUN_STATE_AT 2
#define PALUSTRODE_SIZE_AT 3
#define PALUSTRODE_SET_AT 5
#define PALUSTRODE_OWED_AT 6
#define PALUSTRODE_WATCHER_AT 7
#define PALUSTRODE_GO_WAITS_AT 8
#define PALUSTRODE_GO_TICKS_AT 9
#define PALUSTRODE_GO_ID_AT 10
#define PALUSTRODE_VECTOR_AT 14
#define PALUSTRODE_ENTRIES_AT 32

/* Of an entry's bytes, for a screen that lists breakpoints: 1 if it is lifted at the moment, the host that set it, 0 where the entry is free, and, two
 * bytes each, low byte first, its address, how many times it is still to be passed silently, and the word of the program that it stands in for.
 * The firmware may read them and writes none. */
#define PALUSTRODE_ENTRIES 8
#define PALUSTRODE_ENTRY_LIFTED_AT 0
#define PALUSTRODE_ENTRY_SETTER_AT 1
#define PALUSTRODE_ENTRY_ADDRESS_AT 2
#define PALUSTRODE_ENTRY_COUNT_AT 4
#define PALUSTRODE_ENTRY_SAVED_AT 6

/* The run states, which ARG2 of a reply to STATUS tells too. A process executes only while it is there and running, stepping or passing, and one
 * instruction only while stepping or passing (docs/EMBEDDING.md, "What the firmware does around the calls"). */
#define PALUSTRODE_RUNNING 0
#define PALUSTRODE_STEPPING 1
#define PALUSTRODE_STOPPED 2
#define PALUSTRODE_AT_BREAKPOINT 3
#define PALUSTRODE_ENDED 4
#define PALUSTRODE_PASSING 5

/* The numbers of the refusals: a call that is refused returns minus one of them, the first whose test fails. What each says of a request; in brackets, of
 * other calls, as far as it is another thing there. */
#define PALUSTRODE_REFUSED_BUFFER 1         /* a lent buffer has a wrong length */
#define PALUSTRODE_REFUSED_STATE 2          /* the state is not sound [fresh start: a size is wrong, or all together are over 16,384] */
#define PALUSTRODE_REFUSED_LENGTH 3         /* under 10 or over 266 bytes [packet: too few words] */
#define PALUSTRODE_REFUSED_HEADER 4         /* TYPE, LINK or STYPE is wrong, or HOST is 0 */
#define PALUSTRODE_REFUSED_UNKNOWN 5        /* CMD is no op code [packet: no such type] */
#define PALUSTRODE_REFUSED_FORM 6           /* an unused field is not 0, the string has a wrong length, or the size of a CREATE is odd or over 4,096
                                             * [line: PID or REQUEST cannot be read] */
#define PALUSTRODE_REFUSED_NO_PROCESS 7     /* the process is not there, or its number is over 7 */
#define PALUSTRODE_REFUSED_NO_RIGHT 8       /* the asker does not debug the process, nor watch it where that is enough; DEBUG: another host debugs it;
                                             * WATCH: nobody debugs it, or the asker does itself */
#define PALUSTRODE_REFUSED_RUN_STATE 9      /* not in this run state */
#define PALUSTRODE_REFUSED_OUTSIDE 10       /* outside of the process or of its vector, an EXAMINE of over 256 bytes, or a BREAK at an odd address
                                             * or past the last one */
#define PALUSTRODE_REFUSED_NO_ENTRY 11      /* no room for a breakpoint more */
#define PALUSTRODE_REFUSED_NO_BREAKPOINT 12 /* there is no breakpoint at that address */
#define PALUSTRODE_REFUSED_FULL 13          /* CREATE: all eight processes are there, or fewer bytes are free than the size */
#define PALUSTRODE_REFUSED_REPORT 14        /* [report: no such kind, or a reason that does not go with it] */
#define PALUSTRODE_REFUSED_WATCHED 15       /* WATCH: another host watches it */
#define PALUSTRODE_REFUSED_NOT_YOURS 16     /* the breakpoint was set by the other host */

/* The same of a line whose PID and REQUEST could be read: 100 and the error number that the line which answers it carries. */
#define PALUSTRODE_LINE_REFUSED_NO_RIGHT 101   /* host 253 does not debug the process; if it watches it, all but `i` and `d` */
#define PALUSTRODE_LINE_REFUSED_NO_PROCESS 103 /* the process is not there, or its number is over 7 */
#define PALUSTRODE_LINE_REFUSED_OUTSIDE 114    /* a word outside of the process or at an address that 4 does not divide, a register over 8, a wrong PC */
#define PALUSTRODE_LINE_REFUSED_OWED 116       /* an answer is owed to an earlier `c` or `s` */
#define PALUSTRODE_LINE_REFUSED_INVALID 122    /* not readable, not in this run state, or a register value over 65,535 */

/* Which limit palustrode_why says is passed: the end of the process, or of the vector; the 256 bytes of an EXAMINE; the last address of a BREAK. */
#define PALUSTRODE_LIMIT_END 0
#define PALUSTRODE_LIMIT_COUNT 1
#define PALUSTRODE_LIMIT_LAST 2

/* The numbers that palustrode_why hands over beside the number of the test. */
#define PALUSTRODE_FACTS 2

/* The fields of an answer that was read, by their places among the five. */
#define PALUSTRODE_FIELDS 5
#define PALUSTRODE_HOST 0
#define PALUSTRODE_CMD 1
#define PALUSTRODE_PID 2
#define PALUSTRODE_ARG1 3
#define PALUSTRODE_ARG2 4

#ifdef __cplusplus
extern "C" {
#endif

/* Each call returns the length granted, 0 or more (a report two lengths in one number, a packet a number of words), or minus the number of the
 * refusal. Any bytes in the buffers are safe, and any lengths. Numbers are 64 bits wide, so that none is cut on its way in: one that its field has no
 * room for is refused, with the number named below; only the process of the Pup door may be any at a fresh start.
 *
 * What a caller must see to, since no call can test it:
 * - each pointer is valid for the number that follows it: of bytes, for the sizes, the five fields, the words of a packet and those of its
 *   acknowledgement of 16-bit words, and for the facts of 64-bit numbers. Nothing is promised of NULL, even with a length of 0;
 * - the buffers lent in one call do not overlap, least of all the reply and the message, or the acknowledgement and the words of the packet;
 * - one call at a time on a state and on its memory: no second thread, and no interrupt that calls while a call is under way. The clock's is none
 *   either: it notes the tick, and palustrode_tick is called when no other call is under way;
 * - the machine stores nothing into memory during a call, and nobody writes into a lent buffer; between calls the machine may store, and
 *   nobody else: each process only within its own bytes, as many as its size says from palustrode_start on;
 * - PALUSTRODE_STACK_BYTES of stack are left at a call;
 * - the first call on a state is a fresh start, or the state is one that such calls left: any other sound state is taken for what it says.
 *
 * Buffers of bytes may lie at any address; sizes, fields and the words of a packet and of its acknowledgement are aligned as uint16_t is, facts as
 * uint64_t, and are numbers as the processor keeps them: which byte of a word the network sends first is the caller's to know. No call keeps a pointer, allocates or
 * uses other memory than the stack and what it is lent, so calls on different states with different memories may be made at the same time. */

/* A fresh start: process p is there where bit p of `there` is set, running, with no host and with sizes[p] bytes, and the others are not; their
 * sizes are passed over. In memory they lie one after the other in the order of their numbers, from byte 0 on. The Pup door is at process `door`,
 * which need not be there yet, until the next fresh start; any number over 7 puts it at none, and one over 255 is kept as 255. Every byte of the
 * state is written, whatever it held; memory is not touched, and stays as it is. 0; or, with nothing written, -1 where not eight sizes are lent or
 * the state has not its 785 bytes, else -2 where the size of a process that is to be there is odd, 0 or over 4,096 or all these sizes together are
 * more than 16,384, and else -7 where a bit above the eighth is set. */
int64_t palustrode_fresh_start(uint64_t there, const uint16_t *sizes, size_t sizes_count, uint64_t door, uint8_t *state,
                               size_t state_length);

/* A request: any message, and the buffer for its reply. A CAN'T of ten bytes is written where -16 to -7 is returned. After a granted CREATE a
 * new process lies last; after a granted DESTROY those that lay above the one that went have moved down with their bytes, and the bytes that
 * are free in addition are zero: read the starts anew. */
int64_t palustrode_request(uint8_t *state, size_t state_length, uint8_t *memory, size_t memory_length,
                           const uint8_t *message, size_t message_length, uint8_t *reply, size_t reply_length);

/* A machine report of one of the four kinds; the nine words R0 to R5, SP, PC, PS as 18 bytes, low byte first. Two things may come of it, each in a
 * buffer of its own: a notice of 28 bytes, which goes to the host in its second byte (the one that debugs the process, or the one that watches it and
 * set the breakpoint), and a line that answers the `c` or `s` with which the text debugger let the process go on. Granted, it
 * returns the length of the notice (0 or 28) plus 256 times the length of the line (0 to 35): palustrode_notice_length and
 * palustrode_report_line_length below tell them apart. Another length of the words, and a line buffer under 35 bytes, are refused with -1; a kind
 * over 3, a reason not 0 with another kind than TRAP, and a reason over 65,535 with -14; a process that is not there, or over 7, with -7; a process
 * that does not execute, or a TTRAP while it is running, with -9; a state that is not sound with -2. A refused report writes nothing. */
int64_t palustrode_report(uint8_t *state, size_t state_length, uint8_t *memory, size_t memory_length, uint64_t process,
                          uint64_t kind, uint64_t reason, const uint8_t *words, size_t words_length, uint8_t *notice,
                          size_t notice_length, uint8_t *line, size_t line_length);

/* A line of the text debugger, which asks as host 253: any bytes, and the buffer for the line that answers. A line is `PID REQUEST ADDR DATA` and a
 * newline, as in "0x2 i 0x100 0x0\n"; it is answered by `PID REQUEST ERRFLG RESPONSE` and a newline. Granted, it returns the length of the line
 * written, or 0 where nothing is written yet: a `c` or `s` is answered by a later report. Refused with -101 (no right), -103 (no such process), -114
 * (outside or not aligned), -116 (an answer is owed) or -122 (not readable, wrong run state, or a register value over 65,535), it has written a line
 * with 0xffffffff and the number less 100; palustrode_line_length below finds its length. Refused with -1 (also where the line buffer is under 35
 * bytes), -2 or -6 (PID or request cannot be read), it has written nothing. */
int64_t palustrode_line(uint8_t *state, size_t state_length, uint8_t *memory, size_t memory_length, const uint8_t *text,
                        size_t text_length, uint8_t *line, size_t line_length);

/* A Pup packet of a console, which asks as host 254 and always about the process of the Pup door: its type, its ID, its data words, and the buffer
 * for the data words of the acknowledgement. Addresses count words: word a is the process's bytes 2a and 2a + 1, as seen, low byte first.
 * - A Store has the address, the word to store and, if it likes, the length of a block; its acknowledgement has the address and 0.
 * - A Fetch has the address, a word that is passed over and, if it likes, the length of a block; its acknowledgement has the address and the word
 *   there.
 * - Where the length is 1, 2, 4 .. 256, the acknowledgement goes on with the length n that is sent, at most 32 and halved until the block ends within
 *   the process, and with the n words of the block that begins at the address rounded down to a multiple of n, after the store. Any other length
 *   asks for no block.
 * - A Go is acknowledged without words, and the process does not run yet: the Go waits. It runs, as after a RESUME, at a GoReply with the next ID
 *   (0 follows 4,294,967,295) or at the hundredth tick since the Go. The same Go again is acknowledged again, and the ticks count on. Any other
 *   packet that is granted abandons the Go, a GoReply with another ID too, and so do END DEBUG and DESTROY; a Go with another ID takes its place.
 * - A GoReply is not acknowledged, and is granted too where nothing waits for it.
 * Granted, it returns how many words the acknowledgement has: 2, or 3 + n, of a Store or Fetch, and 0 of a Go and a GoReply; palustrode_acknowledged
 * below tells these apart. The acknowledgement has the type PALUSTRODE_ACK and the ID of the packet, and goes to where the packet came from. Words
 * past those written are not touched; those that a packet has beyond the ones named here are passed over. Refused, it has written nothing, and is
 * not acknowledged: -1 (under 35 words of room, or a memory of another length), -2, -3 (a Store of under 2 words, a Fetch of none), -5 (another
 * type, or an ID over 32 bits), -7 (the process is not there, or the door is at none), -8 (host 254 does not debug it; for a Fetch, it does not
 * watch it either), -9 (a Go where RESUME would be refused with 9) or -10 (the word is outside of the process). */
int64_t palustrode_packet(uint8_t *state, size_t state_length, uint8_t *memory, size_t memory_length, uint64_t type, uint64_t id,
                          const uint16_t *words, size_t words_count, uint16_t *ack, size_t ack_count);

/* A tenth of a second has passed. Call it ten times a second, whether a Go waits or not. At the hundredth tick of a Go the process runs, unless it
 * does already or has ended: then the Go just ends. So look at the run state after it. 0, or -2; no buffer is needed. */
int64_t palustrode_tick(uint8_t *state, size_t state_length);

/* Why was I refused? For a tool at the gateway: says what palustrode_request would come to for this message, memory and reply buffer being right, and
 * changes nothing. Anybody may ask, about a message of any sender. 0 where it would be granted, or minus the number of the first test that fails, the
 * very one that palustrode_request returns; and two facts, 0 where there is none:
 * -  -3: the length of the message;
 * -  -8: the host that debugs the process, 0 for nobody, of WATCH and END WATCH too;
 * -  -9: its run state;
 * - -10: which limit is passed, the first of PALUSTRODE_LIMIT_END, _COUNT and _LAST, and by how many bytes; 0 where the address of a BREAK is only odd;
 * - -11: 8 where all eight breakpoints are set, else 4: the process is watched, and the asker has four or more;
 * - -15: the host that watches the process;
 * - -16: the host that set the breakpoint;
 * every other number has none. What it says may go to the host in the second byte of the message: of a process that this host neither debugs nor
 * watches it tells only who does. -1, with nothing written, where not two facts are lent. No memory is needed. */
int64_t palustrode_why(const uint8_t *state, size_t state_length, const uint8_t *message, size_t message_length, uint64_t *facts,
                       size_t facts_count);

/* The desk writes a request with these fields and this string: its length, or -1 (under 266 bytes of room), -3 (a string over 256 bytes),
 * -4 (a host that is not 1 to 255), -5 (no op code) or -6 (an unused field is not 0, a PID over 255, an argument over 65,535, a CREATE with a
 * size in ARG1 that is odd or over 4,096, or a string of another length than the op code carries). Needs no state. */
int64_t palustrode_write_request(uint64_t host, uint64_t cmd, uint64_t pid, uint64_t arg1, uint64_t arg2, const uint8_t *string,
                                 size_t string_length, uint8_t *request, size_t request_length);

/* The desk reads a reply or notice: the length of its string, which stands in the message from its eleventh byte on, and the five fields; or
 * -1 (not five fields are lent), -3, -4, -5 or -6, the last also for a size in ARG1 of CREATED or CAN'T CREATE that is odd or over 4,096.
 * Needs no state. */
int64_t palustrode_read_answer(const uint8_t *message, size_t message_length, uint16_t *fields, size_t fields_count);

/* The version of the library, as one number: PALUSTRODE_VERSION of the header that it was made with. It is never refused, and needs no state. */
int64_t palustrode_version(void);

#ifdef __cplusplus
}
#endif

/* The 96 bytes of process p, 0 to 7, in a state; found by a table, since the core has no multiply instruction. */
static inline const uint8_t *palustrode_process(const uint8_t *state, unsigned p) {
    static const uint16_t at[PALUSTRODE_PROCESSES] = {0 * PALUSTRODE_PROCESS_BYTES, 1 * PALUSTRODE_PROCESS_BYTES,
                                                      2 * PALUSTRODE_PROCESS_BYTES, 3 * PALUSTRODE_PROCESS_BYTES,
                                                      4 * PALUSTRODE_PROCESS_BYTES, 5 * PALUSTRODE_PROCESS_BYTES,
                                                      6 * PALUSTRODE_PROCESS_BYTES, 7 * PALUSTRODE_PROCESS_BYTES};
    return state + at[p];
}

/* The 8 bytes of entry e, 0 to 7, of the breakpoints of process p, 0 to 7, in a state. */
static inline const uint8_t *palustrode_entry(const uint8_t *state, unsigned p, unsigned e) {
    return palustrode_process(state, p) + PALUSTRODE_ENTRIES_AT + (e << 3);
}

/* How many bytes process p, 0 to 7, has, read from the 785 bytes of a state. Of a process that is not there it says nothing. */
static inline size_t palustrode_size(const uint8_t *state, unsigned p) {
    const uint8_t *size = palustrode_process(state, p) + PALUSTRODE_SIZE_AT;
    return size[0] + 256u * size[1];
}

/* Where process p, 0 to 7, begins in memory, read from the 785 bytes of a state: its bytes are memory[start] to memory[start + size - 1]. Of a
 * process that is not there it says nothing. Read it anew after each fresh start and each granted CREATE or DESTROY, of any process; nothing
 * else moves one. */
static inline size_t palustrode_start(const uint8_t *state, unsigned p) {
    const uint8_t *start = state + PALUSTRODE_STARTS_AT + p + p;
    return start[0] + 256u * start[1];
}

/* The process that the Pup door is at, read from the 785 bytes of a state: 0 to 7, there or not; any greater number is none. Nothing but a fresh
 * start changes it. */
static inline unsigned palustrode_door(const uint8_t *state) { return state[PALUSTRODE_DOOR_AT]; }

/* The length of the reply to send after palustrode_request returned r: that of the reply granted, or ten bytes for a CAN'T; 0 where nothing was
 * written, since a message that is no request gets no reply. */
static inline size_t palustrode_reply_length(int64_t r) {
    if (r >= 0) return (size_t)r;
    return r <= -PALUSTRODE_REFUSED_NO_PROCESS ? PALUSTRODE_HEADER_BYTES : 0;
}

/* Whether to send an acknowledgement, of as many words as were returned, after a packet of this type that returned r. */
static inline int palustrode_acknowledged(int64_t r, uint64_t type) { return r >= 0 && type != PALUSTRODE_GO_REPLY; }

/* The length of the notice to send after a report that returned r: 0 where there is none, or the report was refused. */
static inline size_t palustrode_notice_length(int64_t r) { return r < 0 ? 0 : (size_t)(r & 255); }

/* The length of the line to send after a report that returned r: 0 where there is none, or the report was refused. */
static inline size_t palustrode_report_line_length(int64_t r) { return r < 0 ? 0 : (size_t)(r >> 8); }

/* The length of the line to send after palustrode_line returned r: that of the line granted, or, where it was refused with 100 or more, up to and
 * with the newline; 0 where nothing was written. */
static inline size_t palustrode_line_length(int64_t r, const uint8_t *line) {
    size_t length = 0;
    if (r >= 0) return (size_t)r;
    if (r > -100) return 0;
    while (line[length] != '\n') length++;
    return length + 1;
}

#endif

/* The lines of the story: what the desk or the owner asks and what the core does. Each is checked and printed with what came of it: how the vents
 * are, which word stands in memory under the breakpoint, and who was told. One that comes out otherwise ends the program with status 1. */
#ifndef TELLING_H
#define TELLING_H

#include "firmware.h"

enum { DESK = 5, OWNER = 7 }; /* the host that debugs, and the one that watches in the last chapter */

/* The number of the vents' process, and their program as it is deposited, low bytes first. */
extern unsigned vents;
extern uint8_t deposited[];

/* The vents' byte at this address, as it stands in memory. */
const uint8_t *of_vents(unsigned address);

/* The last answer that was read. */
extern uint16_t fields[PALUSTRODE_FIELDS];

/* Ends the program with status 1 and this text, unless it holds. */
void require(int holds, const char *expected);

/* The host writes a request, the gateway answers it, and the host reads the answer; `ask` is the desk's. Returns what the gateway's call returned. */
int64_t ask_as(unsigned host, unsigned cmd, unsigned pid, unsigned arg1, unsigned arg2, const uint8_t *string, size_t length);
int64_t ask(unsigned cmd, unsigned pid, unsigned arg1, unsigned arg2, const uint8_t *string, size_t length);

/* Whether the host sees these bytes in the vents; true also if it neither debugs nor watches them, and so may not look. */
int sees(unsigned host, unsigned address, const uint8_t *bytes, unsigned count);

/* A request about the vents that is granted, or refused with this number; then the vents are in this run state, with this word. */
void granted(unsigned host, const char *what, unsigned cmd, unsigned arg1, unsigned arg2, unsigned run_state, unsigned word);
void refused(unsigned host, unsigned number, const char *what, unsigned cmd, unsigned arg1, unsigned run_state, unsigned word);

/* The core executes until the vents trap: the report has this kind, reason and PC, R0 is this position, and this is who is told. */
void core(unsigned kind, unsigned reason, unsigned pc, unsigned degrees, unsigned run_state, unsigned word, const char *told);

/* A title, a remark and the head of the table. */
void chapter(const char *title, const char *remark);

#endif

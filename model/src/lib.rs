//! A model of the gateway end and the desk end, written from document 01 ("the
//! paper") and the change requests of document 02 alone.
//!
//! Each rule stands under the sentence of the paper that gives it, in quotes; one
//! of a change request stands after its number, as in K2: "Each process gets a size".
//! Everything is done in place: the state, the memory and the output buffer
//! are changed where they lie, and only once no test is left that could fail.

#![forbid(unsafe_code)]

mod blocks;
mod bytes;
#[cfg(test)]
mod cases;
mod desk;
mod goes;
mod layout;
mod line_text;
mod lines;
mod packets;
mod reports;
mod requests;
mod runs;
mod soundness;
mod watches;
mod why;

pub use blocks::{block, ACK_WORDS, LONGEST_ASKED, LONGEST_BLOCK};
pub use bytes::*;
pub use desk::{read_answer, write_request, FIELDS};
pub use goes::{tick, Go, GO_TICKS};
pub use layout::{asked_size, free_bytes, used_bytes};
pub use line_text::{read_line, write_line, LineRead, LETTERS, LONGEST_LINE};
pub use lines::{line, Owed, TEXT_HOST};
pub use packets::{packet, ACK, FETCH, GO, GO_REPLY, NO_DOOR, PUP_HOST, STORE};
pub use reports::{answered_length, notice_length, report};
pub use requests::request;
pub use runs::Run;
pub use soundness::{right_size, sound};
pub use watches::WATCHED_LIMIT;
pub use why::{why, Limit, Reason, FACTS};

use bytes::vector_from;
use goes::NO_GO;
use layout::{create, destroy, layout_sound, size_fits};
use requests::{fields_fit, named, run_state_fits, Asked};

// ---------------------------------------------------------------- sizes

/// "processes 0 to 7, each there or not"
pub const PROCESSES: usize = 8;
/// K2: "a size, even, 2 to 4,096"; K9: "up to 4,096, 0 meaning 4,096"
pub const LARGEST: u16 = 4096;
/// K2: "a size, even, 2 to 4,096"
pub const SMALLEST: u16 = 2;
/// K9: "The small gateway, the only one from now on, has 16,384 bytes."
pub const MEMORY: usize = 16_384;
/// "8 breakpoints a process"
pub const BREAKPOINTS: usize = 8;
/// "hosts 1 to 255, 0 meaning nobody"
pub const NOBODY: u8 = 0;
/// "the nine words R0 to R5, SP, PC, PS"
pub const WORDS: usize = 9;
/// The place of PC among the nine words.
pub const PC: usize = 7;
/// "18 bytes, low byte first"
pub const VECTOR: usize = 18;
/// "One byte each: TYPE 0, HOST, LINK 255, STYPE 0, CMD, PID; then ARG1 and
/// ARG2, two bytes each"
pub const HEAD: usize = 10;
/// "then a string of 0 to 256 bytes"
pub const LONGEST_STRING: usize = 256;
/// The longest message, and the shortest reply or notice buffer.
pub const LONGEST: usize = HEAD + LONGEST_STRING;
/// "a notice of 28 bytes"
pub const NOTICE: usize = HEAD + VECTOR;
/// "stores 3, 0 (PDP-11 BPT)"
pub const BPT_WORD: [u8; 2] = [3, 0];
/// The bytes of the word under a breakpoint.
const WORD: u16 = 2;

// ---------------------------------------------------------------- op codes

// "The table of fourteen op codes (decimal)", K5's two and K6's one
pub const NOP: u8 = 0;
pub const DEBUG: u8 = 1;
pub const END_DEBUG: u8 = 2;
pub const STOP: u8 = 3;
pub const DEPOSIT: u8 = 4;
pub const RESUME: u8 = 5;
pub const EXAMINE: u8 = 6;
pub const DEPOSIT_STATE_VECTOR: u8 = 7;
pub const BREAK: u8 = 8;
pub const UNBREAK: u8 = 9;
pub const SINGLE_STEP: u8 = 10;
pub const PROCEED_BPT: u8 = 11;
pub const CREATE_PROCESS: u8 = 12;
pub const DESTROY_PROCESS: u8 = 13;
pub const WATCH: u8 = 14;
pub const END_WATCH: u8 = 15;
pub const STATUS: u8 = 16;

/// The fields that an op code uses, and whether it carries a string.
struct Uses {
    pid: bool,
    arg1: bool,
    arg2: bool,
    string: bool,
}

const fn uses(pid: bool, arg1: bool, arg2: bool, string: bool) -> Uses {
    Uses { pid, arg1, arg2, string }
}

/// "Used fields: all but 0 and 12 use PID, and only those name a process;
/// 4, 6, 7, 8 use ARG1 and ARG2; 9 uses ARG1." "Only 4 and 7 carry a string"
/// K9: "CREATE takes an even size in ARG1". K5: "Op 14 WATCH (process)"; "op 15 END WATCH
/// (process)". K6: "op 16 STATUS (process)"
const USES: [Uses; 17] = [
    uses(false, false, false, false), // 0 NOP
    uses(true, false, false, false),  // 1 DEBUG
    uses(true, false, false, false),  // 2 END DEBUG
    uses(true, false, false, false),  // 3 STOP
    uses(true, true, true, true),     // 4 DEPOSIT
    uses(true, false, false, false),  // 5 RESUME
    uses(true, true, true, false),    // 6 EXAMINE
    uses(true, true, true, true),     // 7 DEPOSIT STATE VECTOR
    uses(true, true, true, false),    // 8 BREAK
    uses(true, true, false, false),   // 9 UNBREAK
    uses(true, false, false, false),  // 10 SINGLE STEP
    uses(true, false, false, false),  // 11 PROCEED BPT
    uses(false, true, false, false),  // 12 CREATE PROCESS
    uses(true, false, false, false),  // 13 DESTROY PROCESS
    uses(true, false, false, false),  // 14 WATCH
    uses(true, false, false, false),  // 15 END WATCH
    uses(true, false, false, false),  // 16 STATUS
];

/// "CAN'T adds 128 to CMD."
const CANT: u8 = 128;

// "kind 0 to 3 (TRAP, HALT, BPT, TTRAP)"
pub const TRAP: u8 = 0;
pub const HALT: u8 = 1;
pub const BPT: u8 = 2;
pub const TTRAP: u8 = 3;
/// "Notice: CMD 64 TRAP (reason in ARG1), 65 HALT, 66 BPT, 67 TTRAP"
const NOTICE_CMD: u8 = 64;

// ---------------------------------------------------------------- refusals

/// The number of a refusal, as in the paper's table.
pub type Refusal = i64;

/// 1: "reply or notice buffer under 266"; K9: "1 asks 16,384 here", of the memory; K7:
/// "1 asks 35 bytes of line buffer (a report's too)"; K1: "1 asks 35 output words, not 266
/// bytes"
pub const WRONG_BUFFER: Refusal = 1;
/// 2: "state not sound"; K2: "2 covers a bad size (at fresh start too, of a
/// process then there) or a breakpoint past it"; K9: "2 also more than that at fresh
/// start", the 16,384 bytes; K6: "2 covers a wrong stored number"; K1: "sound includes this"
pub const NOT_SOUND: Refusal = 2;
/// 3: "message under 10 or over 266 bytes"; K1: "3 too few data words"
pub const WRONG_LENGTH: Refusal = 3;
/// 4: "TYPE, LINK or STYPE wrong, or HOST 0"
pub const WRONG_HEAD: Refusal = 4;
/// 5: "CMD not a known op code"; K1: "5 another type"
pub const UNKNOWN_CMD: Refusal = 5;
/// 6: "unused field not zero, or string of wrong length"; K9: "6, at the desk too, an
/// odd or greater size"; K7: "6 a PID or request that cannot be read"
pub const WRONG_FIELDS: Refusal = 6;
/// 7: "named process absent, or number over 7"
pub const ABSENT: Refusal = 7;
/// 8: "asker is not debugging it; for DEBUG, another host is"; K5: "8 for a watcher's other
/// requests, END WATCH by any other host, and WATCH with no debugging host or by that host"
pub const NO_RIGHT: Refusal = 8;
/// 9: "wrong run state"
pub const WRONG_RUN: Refusal = 9;
/// 10: "outside memory or vector, EXAMINE over 256, or BREAK address odd or
/// over 4,094"; K2: "10 reads against the size; BREAK at most size − 2"
pub const OUTSIDE: Refusal = 10;
/// 11: "eight breakpoints and a ninth asked"; K5: "11 also a fifth while watched"
pub const NINTH: Refusal = 11;
/// 12: "no breakpoint at that address"
pub const NO_BREAKPOINT: Refusal = 12;
/// 13, K9: "exactly when all numbers are taken or free bytes are fewer than the size"
pub const NO_ROOM: Refusal = 13;
/// 14: "report of kind over 3, or a reason not 0 with a kind that isn't TRAP"
pub const WRONG_REPORT: Refusal = 14;
/// 15, K5: "15, after 8, another watcher present"
pub const WATCHED: Refusal = 15;
/// 16, K5: "16, after 12, the breakpoint is the other's"
pub const THE_OTHERS: Refusal = 16;

// ---------------------------------------------------------------- records

/// "up to 8 breakpoints, each with address, remaining count, saved word and
/// whether it is lifted"; K5: "Each breakpoint records who set it"
#[derive(Clone, Copy, PartialEq, Eq, Debug)]
pub struct Breakpoint {
    pub lifted: bool,
    /// The host that set it; nobody where the entry is free.
    pub setter: u8,
    pub address: u16,
    pub remaining: u16,
    /// The two bytes as they stood in memory.
    pub saved: [u8; 2],
}

/// "A process record holds: there or not; host debugging it; run state [..];
/// vector; up to 8 breakpoints". K2: "Each process gets a size". K9: "Starts and sizes
/// are public": where it begins in memory is kept too. K7: "an owed answer". K5: "the one
/// watcher of a process", if it has one. K6: "Each process record keeps its number of
/// breakpoints". K1: "the waiting Go", if there is one.
#[derive(Clone, Copy, PartialEq, Eq, Debug)]
pub struct Process {
    pub there: bool,
    pub host: u8,
    pub run: Run,
    pub size: u16,
    pub begin: u16,
    /// How many breakpoints it has, planted or lifted, of both hosts.
    pub set: u8,
    pub owed: Owed,
    pub watcher: u8,
    pub go: Go,
    pub vector: [u16; WORDS],
    pub breakpoints: [Breakpoint; BREAKPOINTS],
}

/// The eight process records, and K1's "one process set at start".
#[derive(Clone, PartialEq, Eq, Debug)]
pub struct State {
    pub processes: [Process; PROCESSES],
    /// The process of the Pup door; a number over 7 is none.
    pub door: u8,
}

/// "a freed entry is all zero"
const FREE: Breakpoint =
    Breakpoint { lifted: false, setter: NOBODY, address: 0, remaining: 0, saved: [0, 0] };

/// "cleared (absent, running, all else zero)"; K2: "CREATE and a cleared record
/// give 4,096." It has no bytes in memory all the same.
const CLEARED: Process = Process {
    there: false,
    host: NOBODY,
    run: Run::Running,
    size: LARGEST,
    begin: 0,
    set: 0,
    owed: Owed::Nothing,
    watcher: NOBODY,
    go: NO_GO,
    vector: [0; WORDS],
    breakpoints: [FREE; BREAKPOINTS],
};

/// A state in which no process is there, and none has the Pup door.
pub const NONE_THERE: State = State { processes: [CLEARED; PROCESSES], door: NO_DOOR };

/// "At a fresh start a given set of processes is there, running, with no host
/// and zero vectors; every other record is cleared". K2: "Each process gets a
/// size [..] set at fresh start"; "2 covers a bad size (at fresh start too, of a
/// process then there)". K9: "Processes lie without gaps, at fresh start in number
/// order"; "2 also more than that at fresh start". K1: the Pup door is "on one process set
/// at start", there or not.
pub fn fresh_start(there: u8, sizes: &[u16; PROCESSES], door: u8) -> Result<State, Refusal> {
    let mut state = State { door, ..NONE_THERE };
    let mut end = 0;
    for (p, process) in state.processes.iter_mut().enumerate() {
        if there >> p & 1 == 0 {
            continue;
        }
        if !right_size(sizes[p]) {
            return Err(NOT_SOUND);
        }
        *process = Process { there: true, size: sizes[p], begin: end, ..CLEARED };
        end += sizes[p];
    }
    if used_bytes(&state) > MEMORY {
        return Err(NOT_SOUND);
    }
    Ok(state)
}

// ---------------------------------------------------------------- memory

// `space` is the process's own bytes of the memory throughout.

/// The two bytes of a process's memory under a breakpoint.
fn word(space: &mut [u8], address: u16) -> &mut [u8] {
    let a = usize::from(address);
    &mut space[a..a + usize::from(WORD)]
}

/// "outside memory or vector": added in more than 16 bits, since "Adding ARG1
/// and ARG2 in 16 bits, so that 65,535 and 2 fit" is an error.
fn within(first: u16, count: u16, size: usize) -> bool {
    usize::from(first) + usize::from(count) <= size
}

impl Breakpoint {
    /// Whether the entry is a breakpoint: somebody set it. What else a free one holds is
    /// never looked at.
    pub fn used(&self) -> bool {
        self.setter != NOBODY
    }

    /// "planted (not lifted)"
    pub fn planted(&self) -> bool {
        self.used() && !self.lifted
    }

    /// "Planting saves the word and stores 3, 0"
    fn plant(&mut self, space: &mut [u8]) {
        let word = word(space, self.address);
        self.saved.copy_from_slice(word);
        word.copy_from_slice(&BPT_WORD);
        self.lifted = false;
    }

    /// "Lifting puts the saved word back in memory."
    fn lift(&mut self, space: &mut [u8]) {
        word(space, self.address).copy_from_slice(&self.saved);
        self.lifted = true;
    }

    /// "puts the word back if it is planted", and "a freed entry is all zero".
    fn free(&mut self, space: &mut [u8]) {
        if self.planted() {
            word(space, self.address).copy_from_slice(&self.saved);
        }
        *self = FREE;
    }
}

impl Process {
    /// The breakpoint at an address, if there is one.
    fn at(&mut self, address: u16) -> Option<&mut Breakpoint> {
        self.breakpoints.iter_mut().find(|b| b.used() && b.address == address)
    }

    /// "lifts the breakpoint at PC, if there is one"; says whether there is.
    fn lift_at_pc(&mut self, space: &mut [u8]) -> bool {
        let breakpoint = self.at(self.vector[PC]);
        breakpoint.map(|breakpoint| breakpoint.lift(space)).is_some()
    }

    /// "a lifted breakpoint is planted again"
    fn plant_lifted(&mut self, space: &mut [u8]) {
        for breakpoint in &mut self.breakpoints {
            if breakpoint.used() && breakpoint.lifted {
                breakpoint.plant(space);
            }
        }
    }

    /// "The seen memory of a process is its memory with the saved word in place
    /// of each planted (not lifted) breakpoint." Exchanging the saved words
    /// with the words in memory makes the memory the seen memory; exchanging
    /// them once more undoes it.
    fn exchange_planted(&mut self, space: &mut [u8]) {
        for breakpoint in &mut self.breakpoints {
            if breakpoint.planted() {
                breakpoint.saved.swap_with_slice(word(space, breakpoint.address));
            }
        }
    }
}

// ---------------------------------------------------------------- buffers and messages

/// 1: "reply or notice buffer under 266"; K9: "1 asks 16,384 here"
fn lent(memory: &[u8], output: &[u8]) -> Result<(), Refusal> {
    if memory.len() != MEMORY || output.len() < LONGEST {
        return Err(WRONG_BUFFER);
    }
    Ok(())
}

/// "One byte each: TYPE 0, HOST, LINK 255, STYPE 0, CMD, PID; then ARG1 and
/// ARG2, two bytes each, high byte first"
fn write_head(head: &mut [u8], host: u8, cmd: u8, pid: u8, arg1: u16, arg2: u16) {
    let [a, b] = arg1.to_be_bytes();
    let [c, d] = arg2.to_be_bytes();
    head.copy_from_slice(&[0, host, 255, 0, cmd, pid, a, b, c, d]);
}

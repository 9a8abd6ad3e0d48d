//! Makes the calls that `perf/run` measures.
//!
//!     driver rows              the rows: name, tab, what it does
//!     driver check ROW TURNS   the row on all sides: answers, state, memory, output, line, acknowledgement and facts are the same, and the
//!                              answers those expected
//!     driver stack SIDE ROW    the deepest stack of the row's calls, in bytes
//!     driver SIDE ROW TURNS    the row on one side, and nothing printed
//!
//! SIDE is `library`, `typed` (the model on a state kept as a struct), `bytes` (the model on the 785 bytes of a state) or `empty` (no call
//! is made; what is left is the harness).
#![no_main]

use library::*;
use model::{
    State, ACK_WORDS, BEGINS_AT, FACTS, FIELDS, GO_ID_AT, GO_TICKS_AT, GO_WAITS_AT, LONGEST,
    LONGEST_LINE, MEMORY, OWED_AT, PROCESSES, RECORD_BYTES, STATE_BYTES, VECTOR, VECTOR_AT,
};
use rows::{rows, to, Row, Start, Step, DOOR};
use std::arch::asm;
use std::ffi::{c_char, c_int, CStr};
use std::hint::black_box;

#[path = "../model/compare/library.rs"]
mod library;
mod rows;

// ---------------------------------------------------------------- sides

/// A gateway: its state, and the buffers lent to it.
struct Gate<S> {
    state: S,
    memory: Vec<u8>,
    output: Vec<u8>,
    line: Vec<u8>,
    fields: [u16; FIELDS],
    ack: [u16; ACK_WORDS],
    facts: [u64; FACTS],
}

impl<S> Gate<S> {
    fn new(state: S) -> Self {
        let memory = (0..MEMORY).map(|i| (i % 251) as u8).collect();
        let (output, line) = (vec![0; LONGEST], vec![0; LONGEST_LINE]);
        let (fields, ack, facts) = ([0; FIELDS], [0; ACK_WORDS], [0; FACTS]);
        Gate { state, memory, output, line, fields, ack, facts }
    }
}

type Seen<'a> = (Vec<u8>, &'a [u8], &'a [u8], &'a [u8], &'a [u16], &'a [u64]);

trait Side {
    fn make(&mut self, step: &Step) -> i64;
    /// State bytes, memory, output, line, acknowledgement and facts.
    fn seen(&self) -> Seen<'_>;

    fn start(&mut self, row: &Row) {
        self.make(&to(model::DEBUG, 0, 0));
        for step in &row.before {
            self.make(step);
        }
    }

    fn turns(&mut self, row: &Row, turns: usize) -> i64 {
        let mut answers = 0;
        for _ in 0..turns {
            for step in &row.turn {
                answers += self.make(black_box(step));
            }
        }
        answers
    }
}

struct Library(Gate<[u8; STATE_BYTES]>);
struct Bytes(Gate<[u8; STATE_BYTES]>);
struct Typed(Gate<State>);
struct Empty(Gate<[u8; STATE_BYTES]>);

/// Sets a state's bytes back by a few stores, where a step is no call.
fn set_back(state: &mut [u8; STATE_BYTES], step: &Step) {
    match step {
        Step::Put { pid, run, owed } => {
            let record = RECORD_BYTES * usize::from(*pid);
            state[record + 2] = *run as u8;
            state[record + OWED_AT] = *owed as u8;
        }
        Step::PutGo(run, go) => {
            let record = RECORD_BYTES * usize::from(DOOR);
            state[record + 2] = *run as u8;
            state[record + GO_WAITS_AT] = u8::from(go.waits);
            state[record + GO_TICKS_AT] = go.ticks;
            state[record + GO_ID_AT..record + VECTOR_AT].copy_from_slice(&go.id.to_le_bytes());
        }
        Step::Back { pid, there, host, begins } => {
            let record = RECORD_BYTES * usize::from(*pid);
            state[record] = u8::from(*there);
            state[record + 1] = *host;
            for (pair, begin) in state[BEGINS_AT..].chunks_exact_mut(2).zip(begins) {
                pair.copy_from_slice(&begin.to_le_bytes());
            }
        }
        _ => {}
    }
}

impl Gate<[u8; STATE_BYTES]> {
    /// A report to the library, with the reason 0.
    fn report(&mut self, pid: u8, kind: u8, words: &[u8; VECTOR]) -> i64 {
        let (s, m) = (self.state.as_mut_ptr(), self.memory.as_mut_ptr());
        let (o, l) = (self.output.as_mut_ptr(), self.line.as_mut_ptr());
        let (p, k, w) = (pid.into(), kind.into(), words.as_ptr());
        let (s_len, room) = (STATE_BYTES, LONGEST_LINE);
        unsafe { palustrode_report(s, s_len, m, MEMORY, p, k, 0, w, VECTOR, o, LONGEST, l, room) }
    }
}

impl Side for Library {
    fn make(&mut self, step: &Step) -> i64 {
        let Gate { state, memory, output, line, fields, ack, facts } = &mut self.0;
        let (s, m, o) = (state.as_mut_ptr(), memory.as_mut_ptr(), output.as_mut_ptr());
        let l = line.as_mut_ptr();
        match step {
            Step::Request(a) => unsafe {
                palustrode_request(s, STATE_BYTES, m, MEMORY, a.as_ptr(), a.len(), o, LONGEST)
            },
            Step::Report { pid, kind, bytes, .. } => self.0.report(*pid, *kind, bytes),
            Step::Line(a) => unsafe {
                palustrode_line(s, STATE_BYTES, m, MEMORY, a.as_ptr(), a.len(), l, LONGEST_LINE)
            },
            Step::Packet(kind, id, words) => unsafe {
                let (kind, id) = ((*kind).into(), (*id).into());
                let (w, count, a) = (words.as_ptr(), words.len(), ack.as_mut_ptr());
                palustrode_packet(s, STATE_BYTES, m, MEMORY, kind, id, w, count, a, ACK_WORDS)
            },
            Step::Tick => unsafe { palustrode_tick(s, STATE_BYTES) },
            Step::Why(a) => unsafe {
                palustrode_why(s, STATE_BYTES, a.as_ptr(), a.len(), facts.as_mut_ptr(), FACTS)
            },
            Step::Write([host, cmd, pid, arg1, arg2], string) => unsafe {
                let (string, length) = (string.as_ptr(), string.len());
                palustrode_write_request(
                    *host, *cmd, *pid, *arg1, *arg2, string, length, o, LONGEST,
                )
            },
            Step::Read(a) => unsafe {
                palustrode_read_answer(a.as_ptr(), a.len(), fields.as_mut_ptr(), FIELDS)
            },
            Step::Put { .. } | Step::PutGo(..) | Step::Back { .. } => {
                set_back(state, step);
                0
            }
        }
    }

    fn seen(&self) -> Seen<'_> {
        let Gate { state, memory, output, line, ack, facts, .. } = &self.0;
        (state.to_vec(), memory, output, line, ack, facts)
    }
}

/// The desk's calls by the model, which need no state.
fn by_desk(step: &Step, output: &mut [u8], fields: &mut [u16]) -> i64 {
    match step {
        Step::Write([host, cmd, pid, arg1, arg2], string) => {
            model::write_request(*host, *cmd, *pid, *arg1, *arg2, string, output)
        }
        Step::Read(message) => model::read_answer(message, fields),
        _ => 0,
    }
}

impl Side for Bytes {
    fn make(&mut self, step: &Step) -> i64 {
        let Gate { state, memory, output, line, fields, ack, facts } = &mut self.0;
        match step {
            Step::Request(message) => model::request_bytes(state, memory, message, output),
            Step::Report { pid, kind, bytes, .. } => {
                let (pid, kind) = ((*pid).into(), (*kind).into());
                model::report_bytes(state, memory, pid, kind, 0, bytes, output, line)
            }
            Step::Line(text) => model::line_bytes(state, memory, text, line),
            Step::Packet(kind, id, words) => {
                let (kind, id) = ((*kind).into(), (*id).into());
                model::packet_bytes(state, memory, kind, id, words, ack)
            }
            Step::Tick => model::tick_bytes(state),
            Step::Why(message) => model::why_bytes(state, message, facts),
            Step::Write(..) | Step::Read(..) => by_desk(step, output, fields),
            Step::Put { .. } | Step::PutGo(..) | Step::Back { .. } => {
                set_back(state, step);
                0
            }
        }
    }

    fn seen(&self) -> Seen<'_> {
        let Gate { state, memory, output, line, ack, facts, .. } = &self.0;
        (state.to_vec(), memory, output, line, ack, facts)
    }
}

impl Side for Typed {
    fn make(&mut self, step: &Step) -> i64 {
        let Gate { state, memory, output, line, fields, ack, facts } = &mut self.0;
        match step {
            Step::Request(message) => model::request(state, memory, message, output),
            Step::Report { pid, kind, words, .. } => {
                let (pid, kind) = ((*pid).into(), (*kind).into());
                model::report(state, memory, pid, kind, 0, words, output, line)
            }
            Step::Line(text) => model::line(state, memory, text, line),
            Step::Packet(kind, id, words) => {
                let (kind, id) = ((*kind).into(), (*id).into());
                model::packet(state, memory, kind, id, words, ack)
            }
            Step::Tick => model::tick(state),
            Step::Why(message) => {
                let reason = model::why(state, message);
                *facts = reason.facts();
                -reason.number()
            }
            Step::Write(..) | Step::Read(..) => by_desk(step, output, fields),
            Step::Put { pid, run, owed } => {
                let process = &mut state.processes[usize::from(*pid)];
                (process.run, process.owed) = (*run, *owed);
                0
            }
            Step::PutGo(run, go) => {
                let process = &mut state.processes[usize::from(DOOR)];
                (process.run, process.go) = (*run, *go);
                0
            }
            Step::Back { pid, there, host, begins } => {
                let process = &mut state.processes[usize::from(*pid)];
                (process.there, process.host) = (*there, *host);
                for (process, begin) in state.processes.iter_mut().zip(begins) {
                    process.begin = *begin;
                }
                0
            }
        }
    }

    fn seen(&self) -> Seen<'_> {
        let Gate { state, memory, output, line, ack, facts, .. } = &self.0;
        (model::encode(state).to_vec(), memory, output, line, ack, facts)
    }
}

impl Side for Empty {
    fn make(&mut self, step: &Step) -> i64 {
        match step {
            Step::Request(text) | Step::Line(text) | Step::Why(text) => {
                black_box(text.len()) as i64
            }
            Step::Report { kind, .. } => i64::from(black_box(*kind)),
            Step::Write(_, string) => black_box(string.len()) as i64,
            Step::Read(message) => black_box(message.len()) as i64,
            Step::Packet(_, _, words) => black_box(words.len()) as i64,
            Step::Tick => black_box(0),
            Step::Put { .. } | Step::PutGo(..) | Step::Back { .. } => {
                set_back(&mut self.0.state, step);
                0
            }
        }
    }

    fn seen(&self) -> Seen<'_> {
        let Gate { state, memory, output, line, ack, facts, .. } = &self.0;
        (state.to_vec(), memory, output, line, ack, facts)
    }
}

fn fresh_bytes(start: Start) -> [u8; STATE_BYTES] {
    let mut state = [0; STATE_BYTES];
    let (sizes, bytes) = (start.sizes.as_ptr(), state.as_mut_ptr());
    let (there, door) = (start.there.into(), DOOR.into());
    let answer =
        unsafe { palustrode_fresh_start(there, sizes, PROCESSES, door, bytes, STATE_BYTES) };
    assert_eq!(answer, 0);
    state
}

fn side(name: &str, start: Start) -> Option<Box<dyn Side>> {
    let bytes = || Gate::new(fresh_bytes(start));
    Some(match name {
        "library" => Box::new(Library(bytes())),
        "bytes" => Box::new(Bytes(bytes())),
        "typed" => {
            let state = model::fresh_start(start.there, &start.sizes, DOOR);
            Box::new(Typed(Gate::new(state.expect("the library has started with these"))))
        }
        "empty" => Box::new(Empty(bytes())),
        _ => return None,
    })
}

// ---------------------------------------------------------------- commands

/// Whether the three sides answer alike, and as expected.
fn check(row: &Row, turns: usize) -> bool {
    let mut sides = ["library", "typed", "bytes"].map(|name| side(name, row.start).unwrap());
    for side in &mut sides {
        side.start(row);
        if side.turns(row, turns) != row.answers * turns as i64 {
            return false;
        }
    }
    sides[0].seen() == sides[1].seen() && sides[0].seen() == sides[2].seen()
}

const STACK: usize = 1 << 20;
const PAINT: u8 = 0xa5;

extern "C" fn trampoline(work: &mut &mut dyn FnMut()) {
    work()
}

/// Does the work on a stack of its own, painted before; how far from its top the paint is gone, in whole words.
fn depth(work: &mut dyn FnMut()) -> usize {
    let mut stack = vec![PAINT; STACK + 16];
    let unused = stack.as_ptr().align_offset(16);
    let top = unsafe { stack.as_mut_ptr().add(unused + STACK) };
    let mut work = work;
    unsafe {
        asm!(
            "mov r12, rsp",
            "mov rsp, {top}",
            "call {run}",
            "mov rsp, r12",
            top = in(reg) top,
            run = sym trampoline,
            in("rdi") &mut work,
            out("r12") _,
            clobber_abi("C"),
        );
    }
    let stack = black_box(&stack);
    let painted = stack[unused..].iter().take_while(|&&b| b == PAINT).count();
    (STACK - painted).next_multiple_of(8)
}

/// The deepest stack of a row's calls, without that of the harness.
fn stack(name: &str, row: &Row) -> Option<usize> {
    let measure = |name: &str| {
        let mut side = side(name, row.start)?;
        side.start(row);
        Some(depth(&mut || {
            side.turns(row, 2);
        }))
    };
    Some(measure(name)? - measure("empty")?)
}

fn obey(words: &[&str]) -> Option<bool> {
    let rows = rows();
    let find = |name: &str| rows.iter().find(|row| row.name == name);
    match words {
        ["rows"] => rows.iter().for_each(|row| println!("{}\t{}", row.name, row.what)),
        ["check", row, turns] => return Some(check(find(row)?, turns.parse().ok()?)),
        ["stack", side, row] => println!("{}", stack(side, find(row)?)?),
        [name, row, turns] => {
            let row = find(row)?;
            let mut side = side(name, row.start)?;
            side.start(row);
            black_box(side.turns(row, turns.parse().ok()?));
        }
        _ => return None,
    }
    Some(true)
}

#[no_mangle]
pub extern "C" fn main(argc: c_int, argv: *const *const c_char) -> c_int {
    let word = |i: c_int| unsafe { CStr::from_ptr(*argv.add(i as usize)) }.to_str().unwrap_or("");
    let words: Vec<&str> = (1..argc).map(word).collect();
    match obey(&words) {
        Some(true) => 0,
        Some(false) => 1,
        None => {
            eprintln!("driver: rows | check ROW TURNS | stack SIDE ROW | SIDE ROW TURNS");
            2
        }
    }
}

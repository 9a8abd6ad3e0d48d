//! Values that no list of telling ones has, numbers that have no room in their
//! field, buffers of any length and at any address: whether each was met.

use crate::calls::{EDGES, HOSTS};
use crate::damage::STATE_LENGTHS;
use crate::layout::last_word;
use crate::lent::Lent;
use crate::sides::{Call, Side};
use crate::sizes::SIZES;
use crate::values_layout::LAYOUT_VALUES;
use crate::values_lines::LINE_VALUES;
use crate::values_packets::PACKET_VALUES;
use crate::values_passing::PASSING_VALUES;
use crate::values_status::STATUS_VALUES;
use crate::values_watches::WATCH_VALUES;
use model::*;

/// A value of one kind, met in a call that got this answer: 0 for granted, or the
/// refusal's number.
pub struct Value {
    name: &'static str,
    by: i64,
    test: fn(&Call, &Side) -> bool,
}

pub const fn value(by: i64, name: &'static str, test: fn(&Call, &Side) -> bool) -> Value {
    Value { name, by, test }
}

const VALUES: &[Value] = &[
    // the fields of a request
    value(0, "request of a host that is in no list", |c, _| request(c, |m| other_host(m[1]))),
    value(NO_RIGHT, "request of a host that is in no list", |c, _| {
        request(c, |m| other_host(m[1]))
    }),
    value(0, "request, host over 127", |c, _| request(c, |m| m[1] > 127)),
    value(WRONG_HEAD, "request, TYPE alone wrong", |c, _| head(c, 0)),
    value(WRONG_HEAD, "request, LINK alone wrong", |c, _| head(c, 2)),
    value(WRONG_HEAD, "request, STYPE alone wrong", |c, _| head(c, 3)),
    value(UNKNOWN_CMD, "request, CMD 17 to 63", |c, _| request(c, |m| (17..64).contains(&m[4]))),
    value(UNKNOWN_CMD, "request, CMD 64 to 127", |c, _| request(c, |m| (64..128).contains(&m[4]))),
    value(UNKNOWN_CMD, "request, CMD 128 to 255", |c, _| request(c, |m| m[4] > 127)),
    value(ABSENT, "request, PID over 15", |c, _| request(c, |m| m[5] > 15)),
    value(OUTSIDE, "EXAMINE of 258 to 4096", |c, _| {
        asks(c, EXAMINE, |_, count| (258..=4096).contains(&count))
    }),
    value(OUTSIDE, "EXAMINE of more than 4096", |c, _| asks(c, EXAMINE, |_, count| count > 4096)),
    value(0, "EXAMINE at an address that is in no list", |c, _| {
        asks(c, EXAMINE, |first, _| first > 48 && !EDGES.contains(&first))
    }),
    value(0, "BREAK with a count that is in no list", |c, _| {
        asks(c, BREAK, |_, count| count > 3 && !EDGES.contains(&count))
    }),
    value(OUTSIDE, "BREAK over 4097", |c, _| asks(c, BREAK, |first, _| first > 4097)),
    value(NO_BREAKPOINT, "UNBREAK over 4097", |c, _| asks(c, UNBREAK, |first, _| first > 4097)),
    value(
        WRONG_LENGTH,
        "a message of more than 300 bytes",
        |c, _| matches!(c, Call::Request { message } if message.len() > 300),
    ),
    // the fields of a report
    value(0, "notice to a host that is in no list", |c, s| {
        matches!(c, Call::Report { .. }) && noticed(s).is_some_and(other_host)
    }),
    value(0, "TRAP with a reason that is in no list", |c, _| {
        report(c, |_, kind, reason| kind == 0 && reason > 257 && reason != 4660 && reason < 65_535)
    }),
    value(WRONG_REPORT, "kind 4 to 255", |c, _| report(c, |_, kind, _| (4..256).contains(&kind))),
    value(WRONG_REPORT, "kind over 255, as a byte 0 to 3", |c, _| {
        report(c, |_, kind, reason| kind > 255 && kind % 256 < 4 && reason == 0)
    }),
    value(WRONG_REPORT, "kind over 4,294,967,295", |c, _| report(c, |_, kind, _| kind >> 32 != 0)),
    value(WRONG_REPORT, "TRAP with a reason over 65,535", |c, _| {
        report(c, |_, kind, reason| kind == 0 && reason > 65_535)
    }),
    value(WRONG_REPORT, "a reason over 65,535 and another kind, as a word 0", |c, _| {
        report(c, |_, kind, reason| (1..4).contains(&kind) && reason > 0 && reason % 65_536 == 0)
    }),
    value(ABSENT, "process 8 to 255", |c, _| report(c, |p, _, _| (8..256).contains(&p))),
    value(ABSENT, "process over 255, as a byte 0 to 7", |c, _| {
        report(c, |p, _, _| p > 255 && p % 256 < 8)
    }),
    value(ABSENT, "process over 4,294,967,295", |c, _| report(c, |p, _, _| p >> 32 != 0)),
    value(
        ABSENT,
        "fresh start with a process over 7",
        |c, _| matches!(c, Call::FreshStart { there, .. } if *there > 255),
    ),
    // sizes in a fresh start
    value(0, "fresh start of a process of 2 bytes", |c, _| starts(c, |size| size == 2)),
    value(0, "fresh start of a process of 1,536 bytes", |c, _| starts(c, |size| size == 1536)),
    value(0, "fresh start of a process of 4,094 bytes", |c, _| starts(c, |size| size == 4094)),
    value(0, "fresh start of a process of a size in no list", |c, _| {
        starts(c, |size| !SIZES.contains(&size))
    }),
    value(NOT_SOUND, "fresh start, size 0", |c, _| starts(c, |size| size == 0)),
    value(NOT_SOUND, "fresh start, an odd size", |c, _| starts(c, |size| odd(size))),
    value(NOT_SOUND, "fresh start, size 4,098", |c, _| starts(c, |size| size == 4098)),
    value(NOT_SOUND, "fresh start, size 65,535", |c, _| starts(c, |size| size == 65_535)),
    value(
        NOT_SOUND,
        "fresh start, a wrong size and a process over 7",
        |c, _| matches!(c, Call::FreshStart { there, .. } if *there > 255),
    ),
    value(0, "fresh start, a wrong size of an absent process", |c, _| wrong_absent(c)),
    value(ABSENT, "fresh start, a process over 7, a wrong size of an absent one", |c, _| {
        wrong_absent(c)
    }),
    value(WRONG_BUFFER, "fresh start, seven sizes and all else right", |c, s| {
        sizes_alone(c, s, |count| count == 7)
    }),
    value(WRONG_BUFFER, "fresh start, any other number of sizes and all else right", |c, s| {
        sizes_alone(c, s, |count| ![0, 1, 7, 9, 16].contains(&count))
    }),
    // sizes in a state, each being all that is not sound
    value(NOT_SOUND, "state, size 0", |c, s| sized(c, s, |p| p.there && p.size == 0)),
    value(NOT_SOUND, "state, an odd size", |c, s| sized(c, s, |p| p.there && odd(p.size))),
    value(NOT_SOUND, "state, size 4,098", |c, s| sized(c, s, |p| p.there && p.size == 4098)),
    value(NOT_SOUND, "state, size 65,535", |c, s| sized(c, s, |p| p.there && p.size == 65_535)),
    value(NOT_SOUND, "state, size 0 of an absent process", |c, s| {
        sized(c, s, |p| !p.there && p.size == 0)
    }),
    value(NOT_SOUND, "state, an odd size of an absent process", |c, s| {
        sized(c, s, |p| !p.there && odd(p.size))
    }),
    value(NOT_SOUND, "state, size over 4,096 of an absent process", |c, s| {
        sized(c, s, |p| !p.there && p.size > 4096)
    }),
    value(NOT_SOUND, "state, a breakpoint at the size", |c, s| {
        sized(c, s, |p| right_size(p.size) && last_word(p) == Some(p.size))
    }),
    value(NOT_SOUND, "state, a breakpoint past the size", |c, s| {
        sized(c, s, |p| right_size(p.size) && last_word(p) > Some(p.size))
    }),
    value(0, "state, a breakpoint at size - 2", |c, s| {
        on_state(c) && processes(s).iter().any(|p| last_word(p) == Some(p.size - 2))
    }),
    value(0, "state, an absent process of another size", |c, s| {
        on_state(c) && processes(s).iter().any(|p| !p.there && p.size != LARGEST)
    }),
    // lengths
    value(WRONG_BUFFER, "memory of any shorter length", |c, s| {
        on_state(c) && s.memory.bytes().len() % 4096 > 1 && s.memory.bytes().len() < 16_383
    }),
    value(WRONG_BUFFER, "memory of any longer length", |c, s| {
        on_state(c) && s.memory.bytes().len() % 4096 > 1 && s.memory.bytes().len() > 16_385
    }),
    value(WRONG_BUFFER, "output of 29 to 264 bytes", |c, s| {
        not_line(c) && (29..265).contains(&s.output.bytes().len())
    }),
    value(0, "output of 700 to 4,000 bytes", |c, s| {
        not_line(c) && (700..4000).contains(&s.output.bytes().len())
    }),
    value(0, "output over 8,192 bytes", |c, s| not_line(c) && s.output.bytes().len() > 8192),
    value(NOT_SOUND, "state of any other length", |c, s| on_state(c) && other_length(s)),
    value(WRONG_BUFFER, "fresh start, state of any other length", |c, s| {
        matches!(c, Call::FreshStart { .. }) && other_length(s)
    }),
    value(
        WRONG_BUFFER,
        "words of any other length",
        |c, _| matches!(c, Call::Report { words, .. } if ![0, 1, 16, 17, 18, 19, 20, 36].contains(&words.len())),
    ),
    // the desk's end
    value(WRONG_HEAD, "write, HOST over 255", |c, _| wide(c, 0)),
    value(UNKNOWN_CMD, "write, CMD over 255, as a byte an op code", |c, _| {
        wide(c, 1) && matches!(c, Call::Write { fields, .. } if fields[1] % 256 < 17)
    }),
    value(WRONG_FIELDS, "write, PID alone too wide", |c, _| wide(c, 2)),
    value(WRONG_FIELDS, "write, ARG1 alone too wide", |c, _| wide(c, 3)),
    value(WRONG_FIELDS, "write, ARG2 alone too wide", |c, _| wide(c, 4)),
    value(
        0,
        "write of 266 bytes",
        |c, _| matches!(c, Call::Write { string, .. } if string.len() == 256),
    ),
    value(
        WRONG_LENGTH,
        "write, a string of more than 300 bytes",
        |c, _| matches!(c, Call::Write { string, .. } if string.len() > 300),
    ),
    value(
        0,
        "read of 266 bytes",
        |c, _| matches!(c, Call::Read { message } if message.len() == 266),
    ),
    value(
        0,
        "read of a CAN'T EXAMINE of more than 256",
        |c, _| matches!(c, Call::Read { message: m } if m.len() == 10 && m[4] == 134 && m[8] > 1),
    ),
    value(WRONG_BUFFER, "read, any other number of fields", |c, s| {
        matches!(c, Call::Read { .. }) && s.output.bytes().len() > 20
    }),
];

fn odd(size: u16) -> bool {
    size % 2 == 1
}

/// Whether a process then there has such a size.
pub fn starts(call: &Call, test: impl Fn(u16) -> bool) -> bool {
    let Call::FreshStart { there, sizes, .. } = call else { return false };
    sizes.iter().take(PROCESSES).enumerate().any(|(p, &size)| there >> p & 1 == 1 && test(size))
}

/// Whether a process that is then not there has a wrong size.
fn wrong_absent(call: &Call) -> bool {
    let Call::FreshStart { there, sizes, .. } = call else { return false };
    let absent = |p: usize| there >> p & 1 == 0;
    sizes.iter().take(PROCESSES).enumerate().any(|(p, &size)| absent(p) && !right_size(size))
}

/// Whether there are so many sizes in a fresh start in which that alone is wrong.
fn sizes_alone(call: &Call, side: &Side, test: impl Fn(usize) -> bool) -> bool {
    let Call::FreshStart { there, sizes, .. } = call else { return false };
    let right = side.state.bytes().len() == STATE_BYTES && *there < 256;
    right && !starts(call, |size| !right_size(size)) && test(sizes.len())
}

/// The processes of the state after a call; none where its bytes are no state.
fn processes(side: &Side) -> Vec<Process> {
    decode(side.state.bytes()).map_or_else(Vec::new, |state| state.processes.to_vec())
}

/// Whether there is such a process in a state of which nothing but its size is not
/// sound: with the least that its breakpoints need it would be.
fn sized(call: &Call, side: &Side, test: impl Fn(&Process) -> bool) -> bool {
    let Some(mut state) = decode(side.state.bytes()) else { return false };
    let Some(p) = state.processes.iter().position(test) else { return false };
    let needed = last_word(&state.processes[p]).map_or(SMALLEST, |a| a.saturating_add(2));
    state.processes[p].size = needed;
    on_state(call) && sound(&state)
}

/// Whether the state has a wrong length that is in no list.
fn other_length(side: &Side) -> bool {
    let length = side.state.bytes().len();
    length != STATE_BYTES && !STATE_LENGTHS.contains(&length)
}

fn other_host(host: u8) -> bool {
    !HOSTS.contains(&host) && ![0, 1, 4, 8, 254, 255].contains(&host)
}

pub fn request(call: &Call, test: impl Fn(&[u8]) -> bool) -> bool {
    matches!(call, Call::Request { message } if message.len() >= HEAD && test(message))
}

/// Whether this byte alone of TYPE, HOST, LINK and STYPE is wrong.
fn head(call: &Call, at: usize) -> bool {
    request(call, |m| {
        let right = [m[0] == 0, m[1] != NOBODY, m[2] == 255, m[3] == 0];
        (0..4).all(|i| right[i] == (i != at)) && ![1, 2, 4, 127, 128, 254, 255].contains(&m[at])
    })
}

fn asks(call: &Call, cmd: u8, test: impl Fn(u16, u16) -> bool) -> bool {
    let word = |m: &[u8], at: usize| u16::from_be_bytes([m[at], m[at + 1]]);
    request(call, |m| m[4] == cmd && test(word(m, 6), word(m, 8)))
}

fn report(call: &Call, test: impl Fn(u64, u64, u64) -> bool) -> bool {
    matches!(*call, Call::Report { process, kind, reason, .. } if test(process, kind, reason))
}

/// Whether a call on a state has an output buffer.
fn not_line(call: &Call) -> bool {
    matches!(call, Call::Request { .. } | Call::Report { .. })
}

pub fn on_state(call: &Call) -> bool {
    call.on_state()
}

/// The host of a notice, after the call.
fn noticed(side: &Side) -> Option<u8> {
    let notice = side.output.bytes();
    (notice.len() >= NOTICE && (64..68).contains(&notice[4])).then(|| notice[1])
}

/// Whether this field alone of a written request has no room for its number.
fn wide(call: &Call, field: usize) -> bool {
    let Call::Write { fields, .. } = call else { return false };
    (0..FIELDS).all(|i| (fields[i] >> crate::desk::BITS[i] != 0) == (i == field))
}

// ---------------------------------------------------------------- counting

/// Every value, in the order in which they are counted.
fn every() -> impl Iterator<Item = &'static Value> {
    let later = PASSING_VALUES.iter().chain(LINE_VALUES).chain(WATCH_VALUES).chain(STATUS_VALUES);
    VALUES.iter().chain(LAYOUT_VALUES).chain(later).chain(PACKET_VALUES)
}

/// What is read in a call.
const INPUT: &str = "message, words or string";

/// How often each value was met, and each buffer at each offset modulo 8.
pub struct Values {
    counts: Vec<u64>,
    offsets: [[u64; 8]; BUFFERS.len()],
}

const BUFFERS: [&str; 9] = [
    "state",
    "memory",
    INPUT,
    "output",
    "line",
    "fields",
    "sizes",
    "data words",
    "acknowledgement",
];

/// Whether a buffer is one of words, which are never at an odd address.
fn of_words(buffer: &str) -> bool {
    matches!(buffer, "fields" | "sizes" | "data words" | "acknowledgement")
}

impl Values {
    pub fn new() -> Values {
        Values { counts: vec![0; every().count()], offsets: [[0; 8]; BUFFERS.len()] }
    }

    /// Counts a call, with the side as it is after it.
    pub fn count(&mut self, call: &Call, side: &Side, answer: i64) {
        let by = answer.min(0).abs();
        for (value, n) in every().zip(&mut self.counts) {
            *n += u64::from(value.by == by && (value.test)(call, side));
        }
        let Side { state, memory, input, output, line, ack, .. } = side;
        let lent: &[(&str, &Lent)] = match call {
            Call::FreshStart { .. } => &[("state", state), ("sizes", input)],
            Call::Request { .. } | Call::Report { .. } => {
                &[("state", state), ("memory", memory), (INPUT, input), ("output", output)]
            }
            Call::Line { .. } => {
                &[("state", state), ("memory", memory), (INPUT, input), ("line", line)]
            }
            Call::Packet { .. } => {
                let words = ("data words", input);
                &[("state", state), ("memory", memory), words, ("acknowledgement", ack)]
            }
            Call::Why { .. } => &[("state", state), (INPUT, input)],
            Call::Tick => &[("state", state)],
            Call::Write { .. } => &[(INPUT, input), ("output", output)],
            Call::Read { .. } => &[(INPUT, input), ("fields", output)],
        };
        for (name, lent) in lent {
            let buffer = BUFFERS.iter().position(|buffer| buffer == name).expect("a buffer");
            self.offsets[buffer][lent.offset() % 8] += 1;
        }
    }

    pub fn print(&self) {
        println!("\nvalues of any size, wherever they stand");
        for (value, n) in every().zip(&self.counts) {
            let by = match value.by {
                0 => String::new(),
                number => format!(", refused by {number}"),
            };
            println!("{n:>8}  {}{by}", value.name);
        }
        println!("\nbuffers at an address of which the remainder by 8 is");
        let cells = |row: &[u64; 8]| row.map(|n| format!("{n:>8}")).concat();
        println!("{:>26}{}", "", cells(&std::array::from_fn(|i| i as u64)));
        for (name, row) in BUFFERS.iter().zip(&self.offsets) {
            println!("{name:>26}{}", cells(row));
        }
    }

    /// The values never met.
    pub fn wrong(&self) -> Vec<String> {
        let values = every().zip(&self.counts).filter(|(_, &n)| n == 0);
        let mut wrong: Vec<String> = values.map(|(value, _)| value.name.to_string()).collect();
        for (name, row) in BUFFERS.iter().zip(&self.offsets) {
            let every = if of_words(name) { 2 } else { 1 };
            if row.iter().step_by(every).any(|&n| n == 0) {
                wrong.push(format!("{name} at every address"));
            }
        }
        wrong
    }
}

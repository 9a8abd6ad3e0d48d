//! Wrong libraries that go wrong by where processes lie: a fresh start, soundness, and what
//! a DESTROY moves.

use crate::layout::{close_gaps, fault, out_of_order, Fault};
use crate::made::{lengths, Made};
use crate::wrong::Wrong;
use model::*;

/// Each is the model's answer, but for one error.
pub const WRONG_LAYOUT: &[Wrong] = &[
    // lengths
    Wrong {
        name: "memory of 32,768 bytes is accepted",
        answer: |mut made| match &mut made {
            Made::Request { state, memory, message, reply } if memory.len() == 32_768 => {
                request_bytes(state, &mut memory[..MEMORY], message, reply)
            }
            made => made.right(),
        },
    },
    Wrong {
        name: "a fresh start into 768 bytes is accepted",
        answer: |mut made| match &made {
            Made::Start { sizes: &[_, _, _, _, _, _, _, _], state, .. } if state.len() == 768 => 0,
            _ => made.right(),
        },
    },
    // fresh start
    Wrong {
        name: "a fresh start takes more than 16,384 bytes",
        answer: |mut made| match started(&made, false) {
            Some(16_385..) if !wrong_sizes(&made) => made.instead(-2, 0),
            _ => made.right(),
        },
    },
    Wrong {
        name: "a fresh start of just 16,384 bytes is refused",
        answer: |mut made| match started(&made, false) {
            Some(MEMORY) if !wrong_sizes(&made) => -2,
            _ => made.right(),
        },
    },
    Wrong {
        name: "a fresh start counts the sizes of absent processes",
        answer: |mut made| match started(&made, true) {
            Some(16_385..) => -2,
            _ => made.right(),
        },
    },
    Wrong {
        name: "a fresh start tests the bits above the eighth before the sum",
        answer: |mut made| match (&made, started(&made, false)) {
            (Made::Start { there: 256.., .. }, Some(16_385..)) if !wrong_sizes(&made) => -7,
            _ => made.right(),
        },
    },
    Wrong {
        name: "a fresh start lays process p at 4,096 x p",
        answer: |made| begun(made, |p, process, _| if process.there { 4096 * p } else { 0 }),
    },
    Wrong {
        name: "a fresh start leaves the begins of absent processes",
        answer: |made| {
            begun(made, |_, process, old| if process.there { process.begin } else { old })
        },
    },
    Wrong {
        name: "a fresh start lays absent processes beside the others",
        answer: |mut made| {
            let answer = made.right();
            if let (Made::Start { state, .. }, 0) = (made, answer) {
                let mut records = decode(state).unwrap_or(NONE_THERE);
                for p in 1..PROCESSES {
                    let before = records.processes[p - 1];
                    let size = if before.there { before.size } else { 0 };
                    records.processes[p].begin = before.begin + size;
                }
                state.copy_from_slice(&encode(&records));
            }
            answer
        },
    },
    Wrong {
        name: "begins are kept with their high byte first",
        answer: |mut made| {
            let answer = made.right();
            if let (Made::Start { state, .. }, 0) = (made, answer) {
                state[BEGINS_AT..].chunks_exact_mut(2).for_each(|begin| begin.swap(0, 1));
            }
            answer
        },
    },
    // soundness
    Wrong { name: "two with one begin are sound", answer: |made| sound_too(made, Fault::OneBegin) },
    Wrong { name: "a gap is sound", answer: |made| sound_too(made, Fault::Gap) },
    Wrong {
        name: "one that begins in another is sound",
        answer: |made| sound_too(made, Fault::Overlap),
    },
    Wrong {
        name: "the lowest may begin anywhere",
        answer: |made| sound_too(made, Fault::NotAtZero),
    },
    Wrong { name: "an end past 16,384 is sound", answer: |made| sound_too(made, Fault::PastEnd) },
    Wrong {
        name: "an end at 16,384 is not sound",
        answer: |made| unsound_too(made, |state| used_bytes(state) == MEMORY),
    },
    Wrong {
        name: "sound asks for the order of numbers",
        answer: |made| unsound_too(made, out_of_order),
    },
    Wrong {
        name: "an absent process has to begin at 0",
        answer: |made| unsound_too(made, |state| absent(state, |begin| begin > 0)),
    },
    Wrong {
        name: "an absent process has to begin inside the memory",
        answer: |made| unsound_too(made, |state| absent(state, |begin| begin > 16_384)),
    },
    // begins that are not used
    Wrong {
        name: "the begin of process 7 is not written",
        answer: |mut made| match made.byte(4) {
            Some(cmd @ (CREATE_PROCESS | DESTROY_PROCESS)) => {
                after(made, cmd, |c| c.new.processes[7].begin = c.old.processes[7].begin)
            }
            _ => made.right(),
        },
    },
    Wrong {
        name: "EXAMINE looks from 4,096 x p on",
        answer: |mut made| {
            let answer = made.right();
            if let (Made::Request { memory, message, reply, .. }, 11..) = (made, answer) {
                let p = usize::from(message[5]);
                let first = 4096 * p + usize::from(u16::from_be_bytes([message[6], message[7]]));
                let bytes = memory.get(first..).unwrap_or(&[]);
                let count = (answer as usize - HEAD).min(bytes.len());
                reply[HEAD..HEAD + count].copy_from_slice(&bytes[..count]);
            }
            answer
        },
    },
    // what a DESTROY does to memory
    Wrong {
        name: "DESTROY zeroes nothing",
        answer: |made| {
            destroyed(made, |c| {
                let freed = used_bytes(c.new)..used_bytes(c.old);
                c.memory[freed.clone()].copy_from_slice(&c.old_memory[freed]);
            })
        },
    },
    Wrong {
        name: "DESTROY zeroes the whole free end",
        answer: |made| destroyed(made, |c| c.memory[used_bytes(c.new)..].fill(0)),
    },
    Wrong {
        name: "DESTROY moves the free end down too",
        answer: |made| {
            destroyed(made, |c| {
                let gone = c.old.processes[c.p].place();
                c.memory.copy_from_slice(c.old_memory);
                c.memory.copy_within(gone.end.., gone.start);
                c.memory[MEMORY - gone.len()..].fill(0);
            })
        },
    },
    Wrong {
        name: "DESTROY moves nothing and zeroes the process",
        answer: |made| {
            destroyed(made, |c| {
                c.memory.copy_from_slice(c.old_memory);
                c.memory[c.old.processes[c.p].place()].fill(0);
            })
        },
    },
    Wrong {
        name: "DESTROY moves no more than 4,096 bytes",
        answer: |made| {
            destroyed(made, |c| {
                let gone = c.old.processes[c.p].place();
                let kept = (gone.start + 4096).min(used_bytes(c.new))..used_bytes(c.new);
                c.memory[kept.clone()].copy_from_slice(&c.old_memory[kept]);
            })
        },
    },
    Wrong {
        name: "DESTROY moves from the top down",
        answer: |made| {
            destroyed(made, |c| {
                let gone = c.old.processes[c.p].place();
                c.memory.copy_from_slice(c.old_memory);
                for at in (gone.start..used_bytes(c.new)).rev() {
                    c.memory[at] = c.memory[at + gone.len()];
                }
                c.memory[used_bytes(c.new)..used_bytes(c.old)].fill(0);
            })
        },
    },
    Wrong {
        name: "DESTROY puts back the words of those that it moves",
        answer: |made| destroyed(made, |c| replant(c, |b| b.saved)),
    },
    Wrong {
        name: "DESTROY plants again the words of those that it moves",
        answer: |made| destroyed(made, |c| replant(c, |_| BPT_WORD)),
    },
    // what it does to the begins
    Wrong {
        name: "DESTROY leaves the begin of its record",
        answer: |made| destroyed(made, |c| c.new.processes[c.p].begin = c.old.processes[c.p].begin),
    },
    Wrong {
        name: "DESTROY lowers by 4,096",
        answer: |made| relaid(made, |m| Some(m.old.begin.saturating_sub(4096))),
    },
    Wrong {
        name: "DESTROY lowers each by its own size",
        answer: |made| relaid(made, |m| Some(m.old.begin.saturating_sub(m.old.size))),
    },
    Wrong {
        name: "DESTROY lowers only the next one above",
        answer: |made| relaid(made, |m| (m.old.begin > m.end).then_some(m.old.begin)),
    },
    Wrong {
        name: "DESTROY lowers only higher numbers",
        answer: |made| relaid(made, |m| (m.p < m.gone).then_some(m.old.begin)),
    },
    Wrong {
        name: "DESTROY lowers the begins of absent processes",
        answer: |made| lowered(made, |gone, other| !other.there && other.begin > gone.begin),
    },
    Wrong {
        name: "DESTROY lowers the begins of lower ones",
        answer: |made| lowered(made, |gone, other| other.there && other.begin < gone.begin),
    },
];

// ---------------------------------------------------------------- fresh starts

/// The bytes that a fresh start asks for, of those that are there or of all eight.
fn started(made: &Made, all: bool) -> Option<usize> {
    let Made::Start { there, sizes, state, .. } = made else { return None };
    let meant = |p: &usize| all || there >> p & 1 == 1;
    let lengths = sizes.len() == PROCESSES && state.len() == STATE_BYTES;
    lengths.then(|| (0..PROCESSES).filter(meant).map(|p| usize::from(sizes[p])).sum())
}

/// Whether one that is there has a wrong size.
fn wrong_sizes(made: &Made) -> bool {
    let Made::Start { there, sizes, .. } = made else { return false };
    sizes.iter().enumerate().any(|(p, &size)| there >> p.min(63) & 1 == 1 && !right_size(size))
}

/// A fresh start after which the begins are changed; the one in the bytes before it is
/// given too.
fn begun(mut made: Made, begin: fn(u16, &Process, u16) -> u16) -> i64 {
    let before = match &made {
        Made::Start { state, .. } => state.to_vec(),
        _ => return made.right(),
    };
    let answer = made.right();
    if let (Made::Start { state, .. }, 0) = (made, answer) {
        let mut records = decode(state).unwrap_or(NONE_THERE);
        for (p, process) in records.processes.iter_mut().enumerate() {
            let at = BEGINS_AT + 2 * p;
            let old = u16::from_le_bytes([before[at], before[at + 1]]);
            process.begin = begin(p as u16, process, old);
        }
        state.copy_from_slice(&encode(&records));
    }
    answer
}

// ---------------------------------------------------------------- soundness

/// An answer that takes such a layout for sound: the model's to the state with its gaps
/// closed, of which nothing is written; so is one in which none is past the end.
fn sound_too(mut made: Made, too: Fault) -> i64 {
    let Some(mut records) = made.records().filter(|records| fault(records) == Some(too)) else {
        return made.right();
    };
    if too == Fault::PastEnd {
        records.processes.iter_mut().for_each(|process| process.there &= process.host != NOBODY);
    }
    close_gaps(&mut records);
    made.on_other(&records)
}

/// An answer that takes such a sound state for one that is not.
pub fn unsound_too(mut made: Made, test: impl Fn(&State) -> bool) -> i64 {
    let unsound = made.records().is_some_and(|records| sound(&records) && test(&records));
    match (&made, lengths(&made)) {
        (Made::Request { .. }, Some((MEMORY, LONGEST..))) if unsound => -2,
        _ => made.right(),
    }
}

fn absent(state: &State, test: impl Fn(u16) -> bool) -> bool {
    state.processes.iter().any(|process| !process.there && test(process.begin))
}

// ---------------------------------------------------------------- after a granted request

/// A granted request: the process, and records and memory before it and after it.
pub struct Change<'a> {
    pub p: usize,
    pub old: &'a State,
    pub old_memory: &'a [u8],
    pub new: &'a mut State,
    pub memory: &'a mut [u8],
}

/// The model's answer, after which records and memory are changed where it was granted.
pub fn after(mut made: Made, cmd: u8, change: impl Fn(Change)) -> i64 {
    let (Some(old), true) = (made.records(), made.byte(4) == Some(cmd)) else {
        return made.right();
    };
    let old_memory = match &made {
        Made::Request { memory, .. } => memory.to_vec(),
        _ => return made.right(),
    };
    let answer = made.right();
    if let (Made::Request { state, memory, message, reply }, 0..) = (made, answer) {
        let p = if cmd == CREATE_PROCESS { reply[5] } else { message[5] };
        let mut new = decode(state).unwrap_or(NONE_THERE);
        let (p, old, old_memory) = (p.into(), &old, &old_memory[..]);
        change(Change { p, old, old_memory, new: &mut new, memory });
        state.copy_from_slice(&encode(&new));
    }
    answer
}

fn destroyed(made: Made, change: impl Fn(Change)) -> i64 {
    after(made, DESTROY_PROCESS, change)
}

/// A DESTROY that stores such a word at each planted breakpoint of those that it moved.
fn replant(c: Change, word: impl Fn(&Breakpoint) -> [u8; 2]) {
    for (process, old) in c.new.processes.iter().zip(&c.old.processes) {
        if process.there && process.begin != old.begin {
            for b in process.breakpoints.iter().filter(|b| b.planted()) {
                let at = process.place().start + usize::from(b.address);
                c.memory[at..at + 2].copy_from_slice(&word(b));
            }
        }
    }
}

/// One that a DESTROY moves: its number, its record before, and the number and the end of
/// the one that is gone.
struct Moved<'a> {
    p: usize,
    old: &'a Process,
    gone: usize,
    end: u16,
}

/// A DESTROY that gives those that it moves another begin, where there is one.
fn relaid(made: Made, begin: impl Fn(Moved) -> Option<u16>) -> i64 {
    destroyed(made, |c| {
        let (gone, end) = (c.p, c.old.processes[c.p].place().end as u16);
        for (p, process) in c.new.processes.iter_mut().enumerate() {
            let old = &c.old.processes[p];
            if process.there && process.begin != old.begin {
                process.begin = begin(Moved { p, old, gone, end }).unwrap_or(process.begin);
            }
        }
    })
}

/// A DESTROY that lowers the begins of others too, by its size.
fn lowered(made: Made, too: impl Fn(&Process, &Process) -> bool) -> i64 {
    destroyed(made, |c| {
        let gone = &c.old.processes[c.p];
        for (p, old) in c.old.processes.iter().enumerate() {
            if p != c.p && too(gone, old) {
                let begin = &mut c.new.processes[p].begin;
                *begin = begin.saturating_sub(gone.size);
            }
        }
    })
}

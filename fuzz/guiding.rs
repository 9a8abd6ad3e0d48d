//! What guides the fuzzer beside the model's coverage: which call met which answer, and what it found.

use crate::layout::out_of_order;
use crate::reading::word;
use crate::sides::{Call, Side};
use crate::why::facts;
use model::*;

/// The library is not instrumented. The fuzzer also counts as new what it answers to which call in which condition of the process.
/// After the calls come CREATE and DESTROY once more, in the layout that they find, STATUS by what it tells, then the letters of lines, and lines with
/// none, the types of packets, another type and a tick, and these six once more by the Go that they find, asking why, and what is told then or before a
/// request.
const CALLS: usize = REASONS + 1;
const REASONS: usize = WHYS + 1;
const WHYS: usize = GOES + PACKETS_AND_TICKS;
const GOES: usize = PACKETS + PACKETS_AND_TICKS;
const PACKETS: usize = LINES + LETTERS.len() + 1;
const PACKETS_AND_TICKS: usize = 6;
const CREATES: usize = 26;
const DESTROYS: usize = CREATES + 1;
const STATUSES: usize = DESTROYS + 1;
const LINES: usize = STATUSES + 1;
const ANSWERS: usize = 19;
/// Six run states with three conditions of breakpoints, three of what is owed and three of who watches; those of a layout are fewer.
const CONDITIONS: usize = 6 * 3 * 3 * 3;

#[link_section = "__libfuzzer_extra_counters"]
static mut SEEN: [u8; CALLS * ANSWERS * CONDITIONS] = [0; CALLS * ANSWERS * CONDITIONS];

/// Run state, whether there is no breakpoint, none lifted, or one lifted, what is owed, and whether nobody watches, one without breakpoints, or one with
/// some.
fn condition(state: &[u8], p: u8) -> usize {
    let at = RECORD_BYTES * (usize::from(p) % PROCESSES);
    let Some(record) = state.get(at..at + RECORD_BYTES) else { return 0 };
    let entries = || record[ENTRIES_AT..].chunks_exact(ENTRY_BYTES).filter(|e| e[1] != NOBODY);
    let lifted = entries().any(|e| e[0] != 0);
    let breaks = if lifted { 2 } else { usize::from(entries().next().is_some()) };
    let watch = match record[WATCHER_AT] {
        NOBODY => 0,
        watcher => 1 + usize::from(entries().any(|e| e[1] == watcher)),
    };
    let found = usize::from(record[2]).min(5) * 3 + breaks;
    (found * 3 + usize::from(record[OWED_AT]).min(2)) * 3 + watch
}

/// The condition of the process that a call names.
pub fn condition_for(call: &Call, state: &[u8]) -> usize {
    match call {
        Call::Request { message } | Call::Why { message } => {
            condition(state, message.get(5).copied().unwrap_or(0))
        }
        Call::Report { process, .. } => condition(state, *process as u8),
        Call::Line { text } => condition(state, read_line(text).map_or(0, |line| line.pid as u8)),
        Call::Packet { .. } | Call::Tick => {
            condition(state, state.get(DOOR_AT).copied().unwrap_or(0))
        }
        _ => 0,
    }
}

/// The place of a packet's type among the four, of any other, or of a tick.
fn kind_of(call: &Call) -> Option<usize> {
    match call {
        Call::Packet { kind: kind @ 128..=131, .. } => Some(*kind as usize - 128),
        Call::Packet { .. } => Some(4),
        Call::Tick => Some(5),
        _ => None,
    }
}

/// The Go that a packet or tick finds: the run state, whether it waits, for how long, and whether the ID is the same, the next or another.
fn go_found(call: &Call, state: &[u8]) -> Option<(usize, usize)> {
    let kind = kind_of(call)?;
    let state = decode(state).filter(sound)?;
    let process = state.processes.get(usize::from(state.door))?;
    let relation = match call {
        Call::Packet { id, .. } if *id == process.go.id.into() => 1,
        Call::Packet { id, .. } if *id == process.go.id.wrapping_add(1).into() => 2,
        _ => 0,
    };
    let ticks = match process.go.ticks {
        0 => 0,
        1..=97 => 1,
        98 => 2,
        _ => 3,
    };
    let found = process.run as usize * 2 + usize::from(process.go.waits);
    Some((GOES + kind, (found * 4 + ticks) * 3 + relation))
}

/// What a CREATE or a DESTROY finds: of CREATE, whether it asks for fewer bytes than are free, just them or more, and whether a number is
/// free, below another or not; of DESTROY, whether it moves none, one or more, and breakpoints among them. And what a STATUS tells: how many are
/// set, and the run state.
pub fn found_by(call: &Call, state: &[u8]) -> Option<(usize, usize)> {
    let Call::Request { message: m } = call else { return go_found(call, state) };
    let state = decode(state).filter(|state| m.len() >= HEAD && sound(state))?;
    let there = |p: usize| state.processes[p].there;
    match m[4] {
        CREATE_PROCESS => {
            let asked = usize::from(asked_size(word(m[6], m[7]))?);
            let room = asked.cmp(&free_bytes(&state)) as i8 + 1;
            let number = match (0..PROCESSES).find(|&p| !there(p)) {
                None => 0,
                Some(new) => 1 + usize::from((new..PROCESSES).any(there)),
            };
            Some((CREATES, 3 * room as usize + number))
        }
        DESTROY_PROCESS => {
            let gone = state.processes.get(usize::from(m[5]))?;
            let above = |p: &&Process| p.there && p.begin > gone.begin;
            let moved = state.processes.iter().filter(above);
            let points = moved.clone().flat_map(|p| &p.breakpoints).filter(|b| b.used());
            let kinds = points.map(|b| 1 + usize::from(b.lifted)).max().unwrap_or(0);
            let order = usize::from(out_of_order(&state));
            Some((DESTROYS, moved.count().min(2) * 3 + kinds + 9 * order))
        }
        STATUS => {
            let process = state.processes.get(usize::from(m[5]))?;
            Some((STATUSES, usize::from(process.set) * Run::ALL.len() + process.run as usize))
        }
        _ => None,
    }
}

/// What was told to one who asked why, or before a request: which fact, or of which order of size it is.
pub fn told_by(call: &Call, side: &Side, answer: i64) -> Option<(usize, usize)> {
    let (Call::Request { message } | Call::Why { message }) = call else { return None };
    if answer == -WRONG_BUFFER {
        return None;
    }
    let [first, second] = facts(side);
    let order = |n: u64| match n {
        0..=2 => n as usize,
        3..=255 => 3,
        256..=65_535 => 4,
        _ => 5,
    };
    let found = match -answer {
        OUTSIDE => 6 * first as usize % 18 + order(second),
        WRONG_LENGTH => order(first),
        NO_RIGHT | WATCHED | THE_OTHERS => {
            usize::from(first == 0) + 2 * usize::from(first == u64::from(message[1]))
        }
        WRONG_RUN | NINTH => first as usize % 9,
        _ => 0,
    };
    Some((REASONS, found))
}

/// Counts an answer in the condition of the process, and in what else was found.
pub fn note(call: &Call, found: usize, others: [Option<(usize, usize)>; 2], answer: i64) {
    let what = match call {
        Call::Request { message: m } if m.len() >= HEAD => usize::from(m[4]).min(17),
        Call::Request { .. } => 18,
        Call::Report { kind, .. } => 19 + (*kind).min(3) as usize,
        Call::Write { .. } => 23,
        Call::Read { .. } => 24,
        Call::FreshStart { .. } => 25,
        Call::Line { text } => LINES + letter_of(text),
        Call::Packet { .. } | Call::Tick => PACKETS + kind_of(call).unwrap_or(0),
        Call::Why { .. } => WHYS,
    };
    let answered = match answer {
        // of a report, with a line
        256.. if matches!(call, Call::Report { .. }) => 18,
        // of a packet, with a block of 1 to 32 words
        3.. if matches!(call, Call::Packet { .. }) => 12 + (answer as usize - 3).ilog2() as usize,
        1.. => 0,
        0 => 1,
        -99.. => 1 + (-answer).min(16) as usize,
        // of a line: 101, 103, 114, 116, 122
        _ => 8 + (-answer - 100) as usize / 3,
    };
    for (what, found) in others.into_iter().flatten().chain([(what, found)]) {
        let index = (what * ANSWERS + answered) * CONDITIONS + found;
        unsafe { SEEN[index] = 1 };
    }
}

/// The place of a line's letter among all, or the one after the last.
fn letter_of(text: &[u8]) -> usize {
    let place = |line: LineRead| LETTERS.iter().position(|&letter| letter == line.request);
    read_line(text).and_then(place).unwrap_or(LETTERS.len())
}

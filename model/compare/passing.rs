//! What K3 says of every granted call, and what a report leaves as it was. The fuzzer
//! uses this too.

use crate::layout::changed;
use crate::sides::{Call, Side};
use model::*;

/// What K3 says of the process that a granted call changes, should both sides break it.
pub fn broken_passing(call: &Call, before: &Side, after: &Side) -> Option<&'static str> {
    let p = changed(call, after)?;
    let was = decode(before.state.bytes())?.processes[p];
    let is = decode(after.state.bytes())?.processes[p];
    let lifted = is.breakpoints.iter().any(|b| b.used() && b.lifted);
    if is.run == Run::Passing && was.run != Run::Passing && !lifted {
        return Some("both: passing is entered, and no breakpoint was lifted");
    }
    if was.run == Run::Passing && is.run != Run::Passing && !leaves(call) {
        return Some("both: passing is left by a call that does not end it");
    }
    let keeps = match call {
        Call::Request { message } => RUNS.contains(&message[4]),
        Call::Line { text } => !read_line(text).is_some_and(|line| stores(line.request)),
        Call::Packet { kind, .. } => *kind != STORE.into(),
        _ => true,
    };
    let (old, new) = (before.memory.bytes(), after.memory.bytes());
    if keeps && seen(&was, old) != seen(&is, new) {
        return Some("both: a call that stores nothing changes what is seen");
    }
    None
}

/// The requests that store nothing: those that change the run state alone, and lift or
/// plant for that, K5's two and K6's one.
const RUNS: [u8; 7] = [STOP, RESUME, SINGLE_STEP, PROCEED_BPT, WATCH, END_WATCH, STATUS];

/// The letters of lines that store a word.
fn stores(request: u8) -> bool {
    matches!(request, b'I' | b'D')
}

/// "STOP makes it stopped, END DEBUG running"; a report may end it too, and so do CREATE
/// and DESTROY, which write a new record.
fn leaves(call: &Call) -> bool {
    match call {
        Call::Request { message } => {
            matches!(message[4], STOP | END_DEBUG | CREATE_PROCESS | DESTROY_PROCESS)
        }
        Call::Report { .. } => true,
        _ => false,
    }
}

/// "The seen memory of a process is its memory with the saved word in place of each
/// planted (not lifted) breakpoint."
fn seen(process: &Process, memory: &[u8]) -> Vec<u8> {
    let mut seen = memory[process.place()].to_vec();
    for b in process.breakpoints.iter().filter(|b| b.planted()) {
        let at = usize::from(b.address);
        seen[at..at + 2].copy_from_slice(&b.saved);
    }
    seen
}

//! Values of K9 in states, in fresh starts and at the desk: whether each was met.

use crate::layout::{fault, fault_alone, out_of_order, Fault};
use crate::sides::{Call, Side};
use crate::values::{on_state, starts, value, Value};
use model::*;

pub const LAYOUT_VALUES: &[Value] = &[
    // the layout of a state, being all that is not sound
    value(NOT_SOUND, "state, the lowest process not at byte 0", |c, s| {
        unsound(c, s, Fault::NotAtZero)
    }),
    value(NOT_SOUND, "state, a gap", |c, s| unsound(c, s, Fault::Gap)),
    value(NOT_SOUND, "state, two processes with one begin", |c, s| unsound(c, s, Fault::OneBegin)),
    value(NOT_SOUND, "state, one process begins in another", |c, s| unsound(c, s, Fault::Overlap)),
    value(NOT_SOUND, "state, an end past 16,384", |c, s| unsound(c, s, Fault::PastEnd)),
    value(NOT_SOUND, "state, an end at 16,386", |c, s| {
        unsound(c, s, Fault::PastEnd) && used(s) == Some(MEMORY + 2)
    }),
    value(NOT_SOUND, "state, a begin at 16,384 and over, of one alone", |c, s| {
        let far = |state: &State| state.processes.iter().any(|p| p.there && p.begin >= 16_384);
        unsound(c, s, Fault::Gap) && records(s).is_some_and(|state| far(&state))
    }),
    // sound layouts that a fresh start does not give
    value(0, "state, an end at 16,384", |c, s| on_state(c) && used(s) == Some(MEMORY)),
    value(0, "state, out of number order", |c, s| {
        on_state(c) && records(s).is_some_and(|state| out_of_order(&state))
    }),
    value(0, "state, an absent process with another begin", |c, s| absent_begin(c, s, |b| b > 0)),
    value(0, "state, an absent process with a begin over 16,384", |c, s| {
        absent_begin(c, s, |begin| begin > 16_384)
    }),
    value(0, "state, an absent process with an odd begin", |c, s| {
        absent_begin(c, s, |begin| begin % 2 == 1)
    }),
    // fresh starts
    value(0, "fresh start that fills the memory", |c, _| started(c) == Some(MEMORY)),
    value(
        0,
        "fresh start of eight of 2,048 bytes",
        |c, _| matches!(c, Call::FreshStart { there: 255, sizes, .. } if *sizes == [2048; PROCESSES]),
    ),
    value(
        0,
        "fresh start, all eight sizes more than the memory, those there not",
        |c, _| matches!(c, Call::FreshStart { sizes, .. } if total(sizes) > MEMORY),
    ),
    value(NOT_SOUND, "fresh start of 16,386 bytes", |c, _| {
        started(c) == Some(MEMORY + 2) && right_starts(c)
    }),
    value(NOT_SOUND, "fresh start of more bytes", |c, _| {
        started(c) > Some(MEMORY + 2) && right_starts(c)
    }),
    value(NOT_SOUND, "fresh start of too many bytes and a process over 7", |c, _| {
        let over = matches!(c, Call::FreshStart { there, .. } if *there > 255);
        over && started(c) > Some(MEMORY) && right_starts(c)
    }),
    // the lengths of before
    value(WRONG_BUFFER, "fresh start, state of 768 bytes", |c, s| {
        matches!(c, Call::FreshStart { .. }) && s.state.bytes().len() == 768
    }),
    value(NOT_SOUND, "state of 768 bytes", |c, s| on_state(c) && s.state.bytes().len() == 768),
    value(WRONG_BUFFER, "memory of 32,768 bytes", |c, s| {
        on_state(c) && s.memory.bytes().len() == 32_768 && s.output.bytes().len() >= LONGEST
    }),
    // the desk
    value(0, "write of CREATE with a size", |c, _| writes(c, |size| size > 0)),
    value(0, "write of CREATE of 0", |c, _| writes(c, |size| size == 0)),
    value(WRONG_FIELDS, "write of CREATE, an odd size", |c, _| {
        writes(c, |size| size < 4096 && size % 2 == 1)
    }),
    value(WRONG_FIELDS, "write of CREATE, a greater size", |c, _| {
        writes(c, |size| (4098..65_536).contains(&size) && size % 2 == 0)
    }),
    value(0, "read of CREATED with a size", |c, _| reads(c, 12, |size| size > 0)),
    value(0, "read of CREATED of 0", |c, _| reads(c, 12, |size| size == 0)),
    value(WRONG_FIELDS, "read of CREATED, an odd size", |c, _| {
        reads(c, 12, |size| size < 4096 && size % 2 == 1)
    }),
    value(WRONG_FIELDS, "read of CREATED, a greater size", |c, _| {
        reads(c, 12, |size| size > 4096 && size % 2 == 0)
    }),
    value(0, "read of CAN'T CREATE with a size", |c, _| reads(c, 140, |size| size > 0)),
    value(WRONG_FIELDS, "read of CAN'T CREATE, an odd size", |c, _| {
        reads(c, 140, |size| size < 4096 && size % 2 == 1)
    }),
    value(WRONG_FIELDS, "read of CAN'T CREATE, a greater size", |c, _| {
        reads(c, 140, |size| size > 4096 && size % 2 == 0)
    }),
];

fn records(side: &Side) -> Option<State> {
    decode(side.state.bytes())
}

fn used(side: &Side) -> Option<usize> {
    Some(used_bytes(&records(side)?))
}

/// Whether this is wrong with the layout, and nothing else with the state.
fn unsound(call: &Call, side: &Side, wrong: Fault) -> bool {
    let is = |state: &State| fault(state) == Some(wrong) && fault_alone(state);
    on_state(call) && records(side).is_some_and(|state| is(&state))
}

fn absent_begin(call: &Call, side: &Side, test: impl Fn(u16) -> bool) -> bool {
    let is = |state: &State| state.processes.iter().any(|p| !p.there && test(p.begin));
    on_state(call) && records(side).is_some_and(|state| is(&state))
}

fn total(sizes: &[u16]) -> usize {
    sizes.iter().map(|&size| usize::from(size)).sum()
}

/// The bytes of those that a fresh start of eight sizes names.
fn started(call: &Call) -> Option<usize> {
    let Call::FreshStart { there, sizes, .. } = call else { return None };
    let named = |p: &usize| there >> p & 1 == 1;
    let sum = (0..sizes.len()).filter(named).map(|p| usize::from(sizes[p])).sum();
    (sizes.len() == PROCESSES).then_some(sum)
}

/// Whether each of them is right.
fn right_starts(call: &Call) -> bool {
    !starts(call, |size| !right_size(size))
}

/// Whether a CREATE of such a size is written, all else being right.
fn writes(call: &Call, test: impl Fn(u64) -> bool) -> bool {
    let Call::Write { fields: [1..=255, 12, 0, size, 0], string } = call else { return false };
    string.is_empty() && test(*size)
}

/// Whether an answer to a CREATE with such a size is read, all else being right.
fn reads(call: &Call, cmd: u8, test: impl Fn(u16) -> bool) -> bool {
    let Call::Read { message: m } = call else { return false };
    if m.len() != HEAD {
        return false;
    }
    let right = [m[0], m[2], m[3], m[4], m[8], m[9]] == [0, 255, 0, cmd, 0, 0];
    let pid = m[5] == 0 || cmd == CREATE_PROCESS;
    right && m[1] != NOBODY && pid && test(u16::from_be_bytes([m[6], m[7]]))
}

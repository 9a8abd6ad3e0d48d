//! Values of K6 in states and at the desk: numbers of breakpoints that are not true, and
//! what the desk writes and reads of STATUS.

use crate::sides::{Call, Side};
use crate::values::{on_state, value, Value};
use model::*;

pub const STATUS_VALUES: &[Value] = &[
    // a number that is not true, being all that is not sound
    value(NOT_SOUND, "state, a number one too great", |c, s| {
        wrong(c, s, |p| usize::from(p.set) == count(p) + 1)
    }),
    value(NOT_SOUND, "state, a number one too small", |c, s| {
        wrong(c, s, |p| usize::from(p.set) + 1 == count(p))
    }),
    value(NOT_SOUND, "state, the number 0 where some are set", |c, s| wrong(c, s, |p| p.set == 0)),
    value(NOT_SOUND, "state, the number 8 where fewer are set", |c, s| wrong(c, s, |p| p.set == 8)),
    value(NOT_SOUND, "state, a number of 9 to 127", |c, s| {
        wrong(c, s, |p| (9..128).contains(&p.set))
    }),
    value(NOT_SOUND, "state, a number over 127", |c, s| wrong(c, s, |p| p.set > 127)),
    value(NOT_SOUND, "state, a number eight too great", |c, s| {
        wrong(c, s, |p| usize::from(p.set) == count(p) + 8)
    }),
    value(NOT_SOUND, "state, the number of the planted ones", |c, s| {
        wrong(c, s, |p| p.host != NOBODY && usize::from(p.set) == of(p, Breakpoint::planted))
    }),
    value(NOT_SOUND, "state, the number of the debugging host's", |c, s| {
        let his = |p: &Process| of(p, |b| b.setter == p.host);
        wrong(c, s, |p| p.watcher != NOBODY && usize::from(p.set) == his(p))
    }),
    value(NOT_SOUND, "state, the number of the watcher's", |c, s| {
        let his = |p: &Process| of(p, |b| b.setter == p.watcher);
        wrong(c, s, |p| p.watcher != NOBODY && usize::from(p.set) == his(p))
    }),
    value(NOT_SOUND, "state, a free entry with bytes is counted", |c, s| {
        let filled = |b: &&Breakpoint| b.used() || b.address != 0;
        wrong(c, s, |p| usize::from(p.set) == p.breakpoints.iter().filter(filled).count())
    }),
    value(NOT_SOUND, "state, a number of an absent process", |c, s| wrong(c, s, |p| !p.there)),
    value(NOT_SOUND, "state, a number of a process that nobody debugs", |c, s| {
        wrong(c, s, |p| p.there && p.host == NOBODY)
    }),
    value(NOT_SOUND, "state, a wrong number of process 0", |c, s| wrong_at(c, s, 0)),
    value(NOT_SOUND, "state, a wrong number of process 7", |c, s| wrong_at(c, s, 7)),
    value(NOT_SOUND, "request, a wrong number of another process", |c, s| {
        let named = |m: &[u8]| usize::from(m[5]);
        let Call::Request { message } = c else { return false };
        message.len() >= HEAD && (0..PROCESSES).any(|p| p != named(message) && wrong_at(c, s, p))
    }),
    value(NOT_SOUND, "report, a wrong number", |c, s| {
        matches!(c, Call::Report { .. }) && wrong(c, s, |_| true)
    }),
    value(NOT_SOUND, "line, a wrong number", |c, s| {
        matches!(c, Call::Line { .. }) && wrong(c, s, |_| true)
    }),
    // the desk
    value(WRONG_FIELDS, "write, STATUS with ARG1 alone", |c, _| {
        writes(c, |fields| fields[3] != 0 && fields[4] == 0)
    }),
    value(WRONG_FIELDS, "write, STATUS with ARG2 alone", |c, _| {
        writes(c, |fields| fields[3] == 0 && fields[4] != 0)
    }),
    value(0, "read, STATUS with ARG1 over 8", |c, _| {
        reads(c, STATUS, |arg1, arg2| arg1 > 8 && arg2 < 6)
    }),
    value(0, "read, STATUS with ARG2 over 5", |c, _| {
        reads(c, STATUS, |arg1, arg2| arg1 < 9 && arg2 > 5)
    }),
    value(0, "read, STATUS of none, running", |c, _| reads(c, STATUS, |n, run| n == 0 && run == 0)),
    value(WRONG_FIELDS, "read, CAN'T STATUS with ARG1 alone", |c, _| {
        reads(c, STATUS + 128, |arg1, arg2| arg1 != 0 && arg2 == 0)
    }),
    value(WRONG_FIELDS, "read, CAN'T STATUS with ARG2 alone", |c, _| {
        reads(c, STATUS + 128, |arg1, arg2| arg1 == 0 && arg2 != 0)
    }),
];

/// How many such breakpoints a process has.
fn of(process: &Process, test: impl Fn(&Breakpoint) -> bool) -> usize {
    process.breakpoints.iter().filter(|b| b.used() && test(b)).count()
}

fn count(process: &Process) -> usize {
    of(process, |_| true)
}

/// The state of a call in which the number of this process alone is not sound.
fn wrong_number(call: &Call, side: &Side, p: usize) -> Option<Process> {
    let mut state = decode(side.state.bytes()).filter(|_| on_state(call))?;
    let process = state.processes[p];
    state.processes[p].set = count(&process) as u8;
    (process.set != state.processes[p].set && sound(&state)).then_some(process)
}

fn wrong_at(call: &Call, side: &Side, p: usize) -> bool {
    wrong_number(call, side, p).is_some()
}

/// Whether there is such a process in a state of which nothing but its number is not sound.
fn wrong(call: &Call, side: &Side, test: impl Fn(&Process) -> bool) -> bool {
    (0..PROCESSES).any(|p| wrong_number(call, side, p).is_some_and(|process| test(&process)))
}

/// Whether the desk writes STATUS with such fields, and without a string.
fn writes(call: &Call, test: impl Fn(&[u64; FIELDS]) -> bool) -> bool {
    matches!(call, Call::Write { fields, string } if fields[1] == STATUS.into() && string.is_empty() && test(fields))
}

/// Whether the desk reads ten bytes of this CMD with such arguments.
fn reads(call: &Call, cmd: u8, test: impl Fn(u16, u16) -> bool) -> bool {
    let word = |m: &[u8], at: usize| u16::from_be_bytes([m[at], m[at + 1]]);
    matches!(call, Call::Read { message: m } if m.len() == HEAD && m[4] == cmd && test(word(m, 6), word(m, 8)))
}

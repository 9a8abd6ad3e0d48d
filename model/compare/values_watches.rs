//! Values of K5 in states: who watches, who set a breakpoint, and the first byte of an entry.

use crate::sides::{is_sound, Call, Side};
use crate::values::{on_state, value, Value};
use model::*;

pub const WATCH_VALUES: &[Value] = &[
    // a watcher that may not be, being all that is not sound
    value(NOT_SOUND, "state, the debugging host watches", |c, s| {
        wrong_watcher(c, s, |p| p.host != NOBODY && p.watcher == p.host)
    }),
    value(NOT_SOUND, "state, a watcher of a process that nobody debugs", |c, s| {
        wrong_watcher(c, s, |p| p.there && p.host == NOBODY && p.watcher != NOBODY)
    }),
    value(NOT_SOUND, "state, a watcher of an absent process", |c, s| {
        wrong_watcher(c, s, |p| !p.there && p.watcher != NOBODY)
    }),
    // who set a breakpoint, being all that is not sound
    value(NOT_SOUND, "state, a third set a breakpoint, not watched", |c, s| {
        wrong_setter(c, s, |p, _| p.watcher == NOBODY)
    }),
    value(NOT_SOUND, "state, a third set a breakpoint while watched", |c, s| {
        wrong_setter(c, s, |p, _| p.watcher != NOBODY)
    }),
    value(NOT_SOUND, "state, a third set a lifted breakpoint", |c, s| {
        wrong_setter(c, s, |p, setter| p.breakpoints.iter().any(|b| b.lifted && b.setter == setter))
    }),
    // sound ones
    value(0, "state, a watcher", |c, s| any(c, s, |p| p.watcher != NOBODY)),
    value(0, "state, watched with no breakpoint", |c, s| {
        any(c, s, |p| p.watcher != NOBODY && p.breakpoints.iter().all(|b| !b.used()))
    }),
    value(0, "state, five and more of the watcher's", |c, s| {
        any(c, s, |p| p.watcher != NOBODY && count(p, p.watcher) > 4)
    }),
    value(0, "state, eight of the watcher's", |c, s| {
        any(c, s, |p| p.watcher != NOBODY && count(p, p.watcher) == 8)
    }),
    value(0, "state, five and more of the debugging host's while watched", |c, s| {
        any(c, s, |p| p.watcher != NOBODY && count(p, p.host) > 4)
    }),
    value(0, "state, four of each", |c, s| {
        any(c, s, |p| p.watcher != NOBODY && count(p, p.host) == 4 && count(p, p.watcher) == 4)
    }),
    value(0, "state, a free entry that says it is lifted", |c, s| {
        any(c, s, |p| p.breakpoints.iter().any(|b| !b.used() && b.lifted))
    }),
    value(0, "state, one lifted and a free entry that says so too", |c, s| {
        let both = |p: &Process, used| p.breakpoints.iter().any(|b| b.lifted && b.used() == used);
        any(c, s, |p| both(p, true) && both(p, false))
    }),
    value(0, "state, a free entry with the address of a breakpoint", |c, s| {
        any(c, s, |p| pairs(p).any(|(free, b)| free.address == b.address))
    }),
    value(0, "state, a free entry with an odd address", |c, s| {
        any(c, s, |p| p.host != NOBODY && pairs(p).any(|(free, _)| free.address % 2 == 1))
    }),
    value(0, "state, a free entry that says it is lifted, with no host", |c, s| {
        any(c, s, |p| p.host == NOBODY && p.breakpoints.iter().any(|b| b.lifted))
    }),
    value(0, "state, host 253 watches", |c, s| any(c, s, |p| p.watcher == TEXT_HOST)),
    value(0, "state, host 255 watches", |c, s| any(c, s, |p| p.watcher == 255)),
    value(0, "state, three processes that are watched", |c, s| {
        on_state(c) && processes(s).iter().filter(|p| p.watcher != NOBODY).count() > 2
    }),
    // neither lifted nor not, being all that is wrong
    value(NOT_SOUND, "state, 2 for lifted", |c, s| unformed(c, s, |entry| entry[0] == 2)),
    value(NOT_SOUND, "state, 3 for lifted", |c, s| unformed(c, s, |entry| entry[0] == 3)),
    value(NOT_SOUND, "state, 4 to 127 for lifted", |c, s| {
        unformed(c, s, |entry| entry[0] > 3 && entry[0] < 128)
    }),
    value(NOT_SOUND, "state, over 127 for lifted", |c, s| unformed(c, s, |entry| entry[0] > 127)),
    value(NOT_SOUND, "state, over 1 for lifted in a free entry", |c, s| {
        unformed(c, s, |entry| entry[1] == NOBODY)
    }),
    value(NOT_SOUND, "state, over 1 for lifted in a breakpoint", |c, s| {
        unformed(c, s, |entry| entry[1] != NOBODY)
    }),
];

fn processes(side: &Side) -> Vec<Process> {
    decode(side.state.bytes()).map_or_else(Vec::new, |state| state.processes.to_vec())
}

fn any(call: &Call, side: &Side, test: impl Fn(&Process) -> bool) -> bool {
    on_state(call) && processes(side).iter().any(test)
}

fn count(process: &Process, host: u8) -> usize {
    process.breakpoints.iter().filter(|b| b.used() && b.setter == host).count()
}

/// Each free entry beside each breakpoint of a process.
fn pairs(process: &Process) -> impl Iterator<Item = (Breakpoint, Breakpoint)> {
    let (used, free): (Vec<_>, Vec<_>) = process.breakpoints.iter().partition(|b| b.used());
    free.into_iter().flat_map(move |free| used.clone().into_iter().map(move |b| (free, b)))
}

fn known(process: &Process, host: u8) -> bool {
    host != NOBODY && (host == process.host || host == process.watcher)
}

/// Whether there is such a process, and all would be sound if nobody watched it.
fn wrong_watcher(call: &Call, side: &Side, test: impl Fn(&Process) -> bool) -> bool {
    let Some(mut state) = decode(side.state.bytes()) else { return false };
    let wrong = state.processes.iter_mut().find(|p| test(p));
    wrong.map(|p| p.watcher = NOBODY).is_some() && on_state(call) && sound(&state)
}

/// Whether one who neither debugs nor watches a process set a breakpoint of it, such a one,
/// and all would be sound if its host had set it.
fn wrong_setter(call: &Call, side: &Side, test: impl Fn(&Process, u8) -> bool) -> bool {
    let Some(mut state) = decode(side.state.bytes()) else { return false };
    let mut found = false;
    for process in state.processes.iter_mut().filter(|p| p.host != NOBODY) {
        let was = *process;
        let wrong = process.breakpoints.iter_mut().filter(|b| b.used() && !known(&was, b.setter));
        for b in wrong {
            found |= test(&was, b.setter);
            b.setter = was.host;
        }
    }
    found && on_state(call) && sound(&state)
}

/// Whether such an entry is neither lifted nor not, in bytes that are those of a sound state
/// otherwise.
fn unformed(call: &Call, side: &Side, test: impl Fn(&[u8]) -> bool) -> bool {
    let mut bytes = side.state.bytes().to_vec();
    if bytes.len() != STATE_BYTES || !on_state(call) {
        return false;
    }
    let entries = (0..PROCESSES * BREAKPOINTS)
        .map(|e| RECORD_BYTES * (e / BREAKPOINTS) + ENTRIES_AT + ENTRY_BYTES * (e % BREAKPOINTS));
    let Some(at) = entries.into_iter().find(|&at| bytes[at] > 1) else { return false };
    if !test(&bytes[at..at + ENTRY_BYTES]) {
        return false;
    }
    bytes[at] = 0;
    is_sound(&bytes)
}

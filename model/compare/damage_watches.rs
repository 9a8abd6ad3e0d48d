//! Changes to who watches a process and who set its breakpoints.

use crate::calls::{new_host, HOSTS};
use crate::damage_places::*;
use crate::random::Random;
use model::*;

/// A host that does not debug the process.
fn other_host(random: &mut Random, state: &[u8], record: usize) -> u8 {
    let other = match random.below(8) {
        0 => random.pick(&[1, 252, 254, 255]),
        _ => new_host(random),
    };
    if other == state[record + 1] {
        return other % 255 + 1;
    }
    other
}

/// The entries in use of a record.
fn used<'a>(state: &'a mut [u8], record: usize) -> impl Iterator<Item = &'a mut [u8]> {
    let entries = &mut state[record + ENTRIES_AT..record + RECORD_BYTES];
    entries.chunks_exact_mut(ENTRY_BYTES).filter(|entry| in_use(entry))
}

/// Sound: a watcher, and some of the breakpoints are his.
pub fn a_watcher(random: &mut Random, state: &mut [u8]) {
    let record = some_debugged(random, state);
    let both = [state[record + 1], other_host(random, state, record)];
    state[record + WATCHER_AT] = both[1];
    for entry in used(state, record) {
        entry[1] = random.pick(&both);
    }
}

/// The host that debugs a process watches it.
pub fn watcher_is_the_host(random: &mut Random, state: &mut [u8]) {
    let record = some_debugged(random, state);
    let host = state[record + 1];
    state[record + WATCHER_AT] = host;
    used(state, record).for_each(|entry| entry[1] = host);
}

/// A watcher of a process that nobody debugs, there or not.
pub fn watcher_with_no_host(random: &mut Random, state: &mut [u8]) {
    let record = if random.one_in(2) { some_there(random, state) } else { some_record(random) };
    state[record + 1] = NOBODY;
    state[record + OWED_AT] = 0;
    state[record + WATCHER_AT] = new_host(random);
    used(state, record).for_each(|entry| entry.fill(0));
    if random.one_in(4) {
        state[record] = 0;
    }
}

/// Another watcher, or none: sound where the one before set no breakpoint.
pub fn another_watcher(random: &mut Random, state: &mut [u8]) {
    let records = (0..PROCESSES).map(|p| RECORD_BYTES * p);
    let watched: Vec<usize> = records.filter(|&at| state[at + WATCHER_AT] != NOBODY).collect();
    if watched.is_empty() {
        return a_watcher(random, state);
    }
    let record = random.pick(&watched);
    let other = other_host(random, state, record);
    state[record + WATCHER_AT] = random.pick(&[NOBODY, other]);
}

/// A breakpoint that another set, of a process that is watched or not: one who does neither,
/// or one of the two or nobody, which are sound; nobody makes the entry free.
pub fn another_setter(random: &mut Random, state: &mut [u8]) {
    let record = some_debugged(random, state);
    if random.one_in(2) {
        state[record + WATCHER_AT] = NOBODY;
        let host = state[record + 1];
        used(state, record).for_each(|entry| entry[1] = host);
    }
    let third = other_host(random, state, record);
    let both = [state[record + 1], state[record + WATCHER_AT]];
    let any = random.pick(&HOSTS);
    let setter = random.pick(&[NOBODY, third, third, both[0], both[1], any]);
    if used(state, record).next().is_none() {
        put_entry(state, some_entry(random, record), 0, 0);
    }
    let count = used(state, record).count();
    let chosen = random.below(count);
    if let Some(entry) = used(state, record).nth(chosen) {
        entry[1] = setter;
    }
}

/// Sound: all breakpoints of a process that is watched are one host's, up to eight of them.
pub fn many_of_one(random: &mut Random, state: &mut [u8]) {
    let record = some_debugged(random, state);
    let both = [state[record + 1], other_host(random, state, record)];
    state[record + WATCHER_AT] = both[1];
    let many = 4 + random.below(5);
    let words = usize::from(size_of(state, record)) / 2;
    for e in 0..many.min(words) {
        put_entry(state, record + ENTRIES_AT + ENTRY_BYTES * e, 0, 2 * e as u16);
    }
    for entry in state[record + ENTRIES_AT..record + RECORD_BYTES]
        .chunks_exact_mut(ENTRY_BYTES)
        .skip(many.min(words))
    {
        entry.fill(0);
    }
    let setter = random.pick(&both);
    used(state, record).for_each(|entry| entry[1] = setter);
}

//! Places in a state's bytes, and what is put there.

use crate::calls::new_host;
use crate::layout::order;
use crate::random::Random;
use model::*;

/// Where some process's record begins in a state's bytes.
pub fn some_record(random: &mut Random) -> usize {
    RECORD_BYTES * random.below(PROCESSES)
}

/// Where one of a record's entries begins.
pub fn some_entry(random: &mut Random, record: usize) -> usize {
    record + ENTRIES_AT + ENTRY_BYTES * random.below(BREAKPOINTS)
}

/// Where the record of a process that is there begins, if any is.
pub fn some_there(random: &mut Random, state: &[u8]) -> usize {
    let records = (0..PROCESSES).map(|p| RECORD_BYTES * p);
    let there: Vec<usize> = records.filter(|&record| state[record] == 1).collect();
    if there.is_empty() {
        return some_record(random);
    }
    random.pick(&there)
}

/// That of the one that lies last.
pub fn last_there(state: &[u8]) -> usize {
    let last = decode(state).and_then(|records| order(&records).last().copied());
    RECORD_BYTES * last.unwrap_or(0)
}

/// Makes a process there, if it is not; with few bytes, so that there mostly is room.
pub fn make_there(random: &mut Random, state: &mut [u8], record: usize) {
    if state[record] != 1 {
        state[record] = 1;
        put_size(state, record, 2 * (1 + random.below(64) as u16));
    }
}

/// A record, after its process is made there and debugged.
pub fn some_debugged(random: &mut Random, state: &mut [u8]) -> usize {
    let record = if random.one_in(4) { some_record(random) } else { some_there(random, state) };
    make_there(random, state, record);
    if state[record + 1] == NOBODY {
        put_host(state, record, new_host(random));
    }
    record
}

/// Where the begin of a record's process stands in a state's bytes.
pub fn begin_at(record: usize) -> usize {
    BEGINS_AT + 2 * (record / RECORD_BYTES)
}

pub fn begin_of(state: &[u8], record: usize) -> u16 {
    let at = begin_at(record);
    u16::from_le_bytes([state[at], state[at + 1]])
}

pub fn put_begin(state: &mut [u8], record: usize, begin: u16) {
    let at = begin_at(record);
    state[at..at + 2].copy_from_slice(&begin.to_le_bytes());
}

pub fn size_of(state: &[u8], record: usize) -> u16 {
    u16::from_le_bytes([state[record + SIZE_AT], state[record + SIZE_AT + 1]])
}

pub fn put_size(state: &mut [u8], record: usize, size: u16) {
    state[record + SIZE_AT..record + SET_AT].copy_from_slice(&size.to_le_bytes());
}

/// Makes an entry a breakpoint that the debugging host set.
pub fn put_entry(state: &mut [u8], entry: usize, lifted: u8, address: u16) {
    let [low, high] = address.to_le_bytes();
    let host = state[entry / RECORD_BYTES * RECORD_BYTES + 1];
    state[entry..entry + ENTRY_BYTES].copy_from_slice(&[lifted, host, low, high, 1, 0, 65, 66]);
}

/// Whether an entry is a breakpoint: somebody set it.
pub fn in_use(entry: &[u8]) -> bool {
    entry[1] != NOBODY
}

/// How many such breakpoints a record has.
pub fn count(record: &[u8], test: impl Fn(&[u8]) -> bool) -> usize {
    let entries = record[ENTRIES_AT..RECORD_BYTES].chunks_exact(ENTRY_BYTES);
    entries.filter(|entry| in_use(entry) && test(entry)).count()
}

/// Makes another host debug a process; what the one before set is his then, and so is what
/// he set while he watched.
pub fn put_host(state: &mut [u8], record: usize, host: u8) {
    let before = std::mem::replace(&mut state[record + 1], host);
    if state[record + WATCHER_AT] == host {
        state[record + WATCHER_AT] = NOBODY;
    }
    let entries = &mut state[record + ENTRIES_AT..record + RECORD_BYTES];
    for entry in entries.chunks_exact_mut(ENTRY_BYTES).filter(|e| in_use(e)) {
        if entry[1] == before {
            entry[1] = host;
        }
    }
}

pub fn has_lifted(state: &[u8], record: usize) -> bool {
    let entries = &state[record + ENTRIES_AT..record + RECORD_BYTES];
    entries.chunks_exact(ENTRY_BYTES).any(|entry| in_use(entry) && entry[0] == 1)
}

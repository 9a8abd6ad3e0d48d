//! The bytes of a state, and the calls over them.

use super::*;

/// Bytes of a process record: there, host, run state, size, number of breakpoints, what is
/// owed, watcher, a waiting Go, nine words, 8 entries.
pub const RECORD_BYTES: usize = ENTRIES_AT + BREAKPOINTS * ENTRY_BYTES;
/// Bytes of a breakpoint entry: whether it is lifted, who set it, address, count, saved word.
pub const ENTRY_BYTES: usize = 8;
/// Where the size, low byte first, stands in a record.
pub const SIZE_AT: usize = 3;
/// Where a record says how many breakpoints it has.
pub const SET_AT: usize = SIZE_AT + 2;
/// Where a record says what is owed.
pub const OWED_AT: usize = SET_AT + 1;
/// Where a record says who watches.
pub const WATCHER_AT: usize = OWED_AT + 1;
/// Where a record says whether a Go waits.
pub const GO_WAITS_AT: usize = WATCHER_AT + 1;
/// Where its ticks stand.
pub const GO_TICKS_AT: usize = GO_WAITS_AT + 1;
/// Where its ID stands, four bytes, low byte first.
pub const GO_ID_AT: usize = GO_TICKS_AT + 1;
/// Where the nine words begin in a record.
pub const VECTOR_AT: usize = GO_ID_AT + 4;
/// Where the entries begin in a record.
pub const ENTRIES_AT: usize = VECTOR_AT + VECTOR;
/// Where the eight begins stand in a state, two bytes each, low byte first.
pub const BEGINS_AT: usize = PROCESSES * RECORD_BYTES;
/// Where a state says which process has the Pup door.
pub const DOOR_AT: usize = BEGINS_AT + PROCESSES * 2;
/// Bytes of a state.
pub const STATE_BYTES: usize = DOOR_AT + 1;

/// "the nine words [..], 18 bytes, low byte first"
pub fn vector_bytes(words: &[u16; WORDS]) -> [u8; VECTOR] {
    let mut bytes = [0; VECTOR];
    for (pair, word) in bytes.chunks_exact_mut(2).zip(words) {
        pair.copy_from_slice(&word.to_le_bytes());
    }
    bytes
}

/// The nine words of 18 bytes, low byte first.
pub(super) fn vector_from(bytes: &[u8]) -> [u16; WORDS] {
    let mut words = [0; WORDS];
    for (word, pair) in words.iter_mut().zip(bytes.chunks_exact(2)) {
        *word = u16::from_le_bytes([pair[0], pair[1]]);
    }
    words
}

fn flag(byte: u8) -> Option<bool> {
    match byte {
        0 => Some(false),
        1 => Some(true),
        _ => None,
    }
}

fn run_from(byte: u8) -> Option<Run> {
    Run::ALL.get(usize::from(byte)).copied()
}

fn owed_from(byte: u8) -> Option<Owed> {
    Owed::ALL.get(usize::from(byte)).copied()
}

/// Whether a Go waits, its ticks and its ID. What the last two say where none waits means
/// nothing, and is kept.
fn go_from(bytes: &[u8]) -> Option<Go> {
    let id = u32::from_le_bytes([bytes[2], bytes[3], bytes[4], bytes[5]]);
    Some(Go { waits: flag(bytes[0])?, ticks: bytes[1], id })
}

/// The state of 785 bytes; nothing where the length, a flag, a run state or what is owed
/// is none that `encode` gives.
pub fn decode(bytes: &[u8]) -> Option<State> {
    if bytes.len() != STATE_BYTES {
        return None;
    }
    let mut state = NONE_THERE;
    let (records, begins) = bytes[..DOOR_AT].split_at(BEGINS_AT);
    state.door = bytes[DOOR_AT];
    for (process, begin) in state.processes.iter_mut().zip(begins.chunks_exact(2)) {
        process.begin = u16::from_le_bytes([begin[0], begin[1]]);
    }
    for (process, record) in state.processes.iter_mut().zip(records.chunks_exact(RECORD_BYTES)) {
        process.there = flag(record[0])?;
        process.host = record[1];
        process.run = run_from(record[2])?;
        process.size = u16::from_le_bytes([record[SIZE_AT], record[SIZE_AT + 1]]);
        process.set = record[SET_AT];
        process.owed = owed_from(record[OWED_AT])?;
        process.watcher = record[WATCHER_AT];
        process.go = go_from(&record[GO_WAITS_AT..VECTOR_AT])?;
        process.vector = vector_from(&record[VECTOR_AT..ENTRIES_AT]);
        let entries = record[ENTRIES_AT..].chunks_exact(ENTRY_BYTES);
        for (breakpoint, entry) in process.breakpoints.iter_mut().zip(entries) {
            *breakpoint = Breakpoint {
                lifted: flag(entry[0])?,
                setter: entry[1],
                address: u16::from_le_bytes([entry[2], entry[3]]),
                remaining: u16::from_le_bytes([entry[4], entry[5]]),
                saved: [entry[6], entry[7]],
            };
        }
    }
    Some(state)
}

/// The 785 bytes of a state.
pub fn encode(state: &State) -> [u8; STATE_BYTES] {
    let mut bytes = [0; STATE_BYTES];
    bytes[DOOR_AT] = state.door;
    let (records, begins) = bytes[..DOOR_AT].split_at_mut(BEGINS_AT);
    for (begin, process) in begins.chunks_exact_mut(2).zip(&state.processes) {
        begin.copy_from_slice(&process.begin.to_le_bytes());
    }
    for (record, process) in records.chunks_exact_mut(RECORD_BYTES).zip(&state.processes) {
        record[0] = u8::from(process.there);
        record[1] = process.host;
        record[2] = process.run as u8;
        record[SIZE_AT..SET_AT].copy_from_slice(&process.size.to_le_bytes());
        record[SET_AT] = process.set;
        record[OWED_AT] = process.owed as u8;
        record[WATCHER_AT] = process.watcher;
        record[GO_WAITS_AT] = u8::from(process.go.waits);
        record[GO_TICKS_AT] = process.go.ticks;
        record[GO_ID_AT..VECTOR_AT].copy_from_slice(&process.go.id.to_le_bytes());
        record[VECTOR_AT..ENTRIES_AT].copy_from_slice(&vector_bytes(&process.vector));
        let entries = record[ENTRIES_AT..].chunks_exact_mut(ENTRY_BYTES);
        for (entry, b) in entries.zip(&process.breakpoints) {
            let [address_low, address_high] = b.address.to_le_bytes();
            let [count_low, count_high] = b.remaining.to_le_bytes();
            entry.copy_from_slice(&[
                u8::from(b.lifted),
                b.setter,
                address_low,
                address_high,
                count_low,
                count_high,
                b.saved[0],
                b.saved[1],
            ]);
        }
    }
    bytes
}

/// `request` over the bytes of a state. Bytes that are no state are refused
/// like a state that is not sound.
pub fn request_bytes(state: &mut [u8], memory: &mut [u8], message: &[u8], reply: &mut [u8]) -> i64 {
    if let Err(number) = lent(memory, reply) {
        return -number;
    }
    let Some(mut records) = decode(state) else {
        return -NOT_SOUND;
    };
    let answer = request(&mut records, memory, message, reply);
    write_back(&records, answer, state);
    answer
}

/// `report` over the bytes of a state, with the nine words as 18 bytes.
pub fn report_bytes(
    state: &mut [u8],
    memory: &mut [u8],
    process: u64,
    kind: u64,
    reason: u64,
    words: &[u8],
    notice: &mut [u8],
    line: &mut [u8],
) -> i64 {
    if let Err(number) = lent(memory, notice) {
        return -number;
    }
    if words.len() != VECTOR || line.len() < LONGEST_LINE {
        return -WRONG_BUFFER;
    }
    let Some(mut records) = decode(state) else {
        return -NOT_SOUND;
    };
    let words = vector_from(words);
    let answer = report(&mut records, memory, process, kind, reason, &words, notice, line);
    write_back(&records, answer, state);
    answer
}

/// `line` over the bytes of a state.
pub fn line_bytes(state: &mut [u8], memory: &mut [u8], text: &[u8], buffer: &mut [u8]) -> i64 {
    if memory.len() != MEMORY || buffer.len() < LONGEST_LINE {
        return -WRONG_BUFFER;
    }
    let Some(mut records) = decode(state) else {
        return -NOT_SOUND;
    };
    let answer = line(&mut records, memory, text, buffer);
    write_back(&records, answer, state);
    answer
}

/// `packet` over the bytes of a state.
pub fn packet_bytes(
    state: &mut [u8],
    memory: &mut [u8],
    kind: u64,
    id: u64,
    words: &[u16],
    ack: &mut [u16],
) -> i64 {
    if memory.len() != MEMORY || ack.len() < ACK_WORDS {
        return -WRONG_BUFFER;
    }
    let Some(mut records) = decode(state) else {
        return -NOT_SOUND;
    };
    let answer = packet(&mut records, memory, kind, id, words, ack);
    write_back(&records, answer, state);
    answer
}

/// `tick` over the bytes of a state.
pub fn tick_bytes(state: &mut [u8]) -> i64 {
    let Some(mut records) = decode(state) else {
        return -NOT_SOUND;
    };
    let answer = tick(&mut records);
    write_back(&records, answer, state);
    answer
}

/// `why` over the bytes of a state: 0, or minus the number of the first test that fails, with
/// its facts in both numbers; minus 1 where not two are lent, and then nothing is written.
/// Bytes that are no state are refused like a state that is not sound.
pub fn why_bytes(state: &[u8], message: &[u8], facts: &mut [u64]) -> i64 {
    let Ok(facts) = <&mut [u64; FACTS]>::try_from(facts) else {
        return -WRONG_BUFFER;
    };
    let reason = match decode(state) {
        Some(records) => why(&records, message),
        None => Reason::Other(NOT_SOUND),
    };
    *facts = reason.facts();
    -reason.number()
}

/// "State and memory are unchanged by a refusal"
fn write_back(records: &State, answer: i64, state: &mut [u8]) {
    if answer >= 0 {
        state.copy_from_slice(&encode(records));
    }
}

/// `fresh_start` into 785 bytes: 0, or minus 1 where the buffer has not 785 or the
/// sizes are not eight, or minus 2 where a process then there has a bad size or they
/// are more than the memory, or minus 7 where a bit above the eighth is set: "number over 7". "The
/// lowest-numbered test that fails gives the answer". A door over 255 is no process.
pub fn fresh_start_bytes(there: u64, sizes: &[u16], door: u64, state: &mut [u8]) -> i64 {
    let Ok(sizes) = sizes.try_into() else {
        return -WRONG_BUFFER;
    };
    if state.len() != STATE_BYTES {
        return -WRONG_BUFFER;
    }
    let door = u8::try_from(door).unwrap_or(NO_DOOR);
    let started = match fresh_start(there as u8, sizes, door) {
        Ok(started) => started,
        Err(number) => return -number,
    };
    if there > u64::from(u8::MAX) {
        return -ABSENT;
    }
    state.copy_from_slice(&encode(&started));
    0
}

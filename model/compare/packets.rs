//! Random packets and ticks of the Pup door, most of them such as are granted in the state at
//! hand.

use crate::calls::{some_address, used_address};
use crate::random::Random;
use crate::sides::Call;
use model::*;

/// IDs at the edges of 32 bits.
const IDS: [u32; 12] =
    [0, 1, 1, 255, 256, 65_535, 65_536, 0x7fff_ffff, 0x8000_0000, u32::MAX - 1, u32::MAX, u32::MAX];

/// Lengths of a block that are none, or hardly one.
const NO_BLOCKS: [u16; 18] =
    [0, 3, 5, 6, 7, 12, 24, 31, 33, 48, 96, 127, 129, 255, 257, 512, 1024, 32_768];

/// Types beside the four, and such as are one of them if they are cut to a byte.
const OTHER_KINDS: [u64; 10] = [0, 1, 64, 127, 132, 133, 192, 255, 256 + 128, 65_536 + 129];

/// The process of the door, if it is there.
pub fn at_door(state: &State) -> Option<&Process> {
    state.processes.get(usize::from(state.door)).filter(|process| process.there)
}

/// Whether a Go waits at the door.
pub fn waiting(state: &State) -> bool {
    at_door(state).is_some_and(|process| process.go.waits)
}

/// Where a fresh start puts the door: mostly at a process that is there.
pub fn some_door(random: &mut Random, there: u8) -> u64 {
    let fit: Vec<u64> = (0..8).filter(|p| there >> p & 1 == 1).collect();
    let any = random.below(8) as u64;
    match random.below(32) {
        0 => random.pick(&[8, 9, 15, 128, 253, 254, 255]),
        1 => random.pick(&[256, 257, 65_536, 1 << 32, u64::MAX]),
        2 => random.free(64),
        3 => random.beyond(8, any),
        4 => any,
        _ if fit.is_empty() => any,
        _ => random.pick(&fit),
    }
}

/// A packet, or now and then a tick; patient, it seldom abandons a Go that waits.
pub fn make_packet(random: &mut Random, state: &State, patient: bool) -> Call {
    if random.one_in(12) {
        return Call::Tick;
    }
    let process = at_door(state).unwrap_or(&state.processes[usize::from(state.door) % PROCESSES]);
    let kind = some_kind(random, process, patient);
    let id = some_id(random, process, kind, patient);
    let mut words = match kind {
        STORE | FETCH => some_words(random, process, kind),
        _ if random.one_in(8) => words_from(random, process, 3),
        _ => Vec::new(),
    };
    if random.one_in(16) {
        let more = random.length(&[0, 1, 2, 3, 4, 64], 64);
        words.resize_with(more, || random.word());
    }
    let (mut kind, mut id) = (u64::from(kind), u64::from(id));
    match random.below(48) {
        0 => kind = random.beyond(8, kind),
        1 => kind = random.pick(&OTHER_KINDS),
        2 => kind = random.free_byte().into(),
        3 if random.one_in(2) => kind = random.free(64),
        4 => {
            (kind, id) = (random.beyond(8, kind), random.beyond(32, id));
        }
        5..=7 => id = random.beyond(32, id),
        8 if random.one_in(4) => id = random.free(64),
        _ => {}
    }
    Call::Packet { kind, id, words }
}

fn some_kind(random: &mut Random, process: &Process, patient: bool) -> u8 {
    let weights = match (process.go.waits, process.run.waits()) {
        (true, _) if patient && !random.one_in(8) => [0, 0, 1, 0],
        (true, true) => [2, 2, 6, 8],
        (true, false) => [2, 2, 3, 8],
        // what is left of one that waits no more
        (false, true) if process.go.id != 0 => [2, 2, 3, 5],
        (false, true) if patient => [1, 1, 12, 1],
        (false, true) => [4, 5, 6, 1],
        (false, false) => [6, 7, 1, 1],
    };
    [STORE, FETCH, GO, GO_REPLY][random.weighted(&weights)]
}

/// Mostly the ID that is waited for, at times one beside it.
fn some_id(random: &mut Random, process: &Process, kind: u8, patient: bool) -> u32 {
    let waits = process.go.waits;
    let beside = random.pick(&[0, 0, 1, 2, 3, u32::MAX, 257, 65_537, 0x8000_0001]);
    let near = process.go.id.wrapping_add(beside);
    match kind {
        GO if waits && !random.one_in(if patient && process.run.waits() { 8 } else { 3 }) => {
            process.go.id
        }
        GO_REPLY if waits && !random.one_in(3) => process.go.id.wrapping_add(1),
        _ if waits && !random.one_in(4) => near,
        GO if process.go.id != 0 && random.one_in(2) => process.go.id,
        GO_REPLY if process.go.id != 0 && random.one_in(2) => process.go.id.wrapping_add(1),
        _ if random.one_in(2) => random.pick(&IDS),
        _ => random.free(32) as u32,
    }
}

/// As many as a Store or Fetch needs, with a block or without; now and then too few.
fn some_words(random: &mut Random, process: &Process, kind: u8) -> Vec<u16> {
    let fewest = if kind == STORE { 2 } else { 1 };
    let count = match random.below(24) {
        0 => random.below(fewest),
        1 => 4,
        2 => 3 + random.below(62),
        3..=6 => fewest,
        7 | 8 => 2,
        _ => 3,
    };
    words_from(random, process, count)
}

fn words_from(random: &mut Random, process: &Process, count: usize) -> Vec<u16> {
    let mut words = vec![word_address(random, process), some_value(random), some_third(random)];
    words.resize_with(count.max(3), || random.word());
    words.truncate(count);
    words
}

/// A word's address: at a breakpoint, near the end of the process, small, or any.
fn word_address(random: &mut Random, process: &Process) -> u16 {
    let words = (process.size / 2).max(1);
    match random.below(16) {
        0 => random.pick(&[2047, 2048, 4095, 4096, 32_767, 32_768, 32_769, 65_535]),
        1 => random.free_word(),
        // if it is doubled in 16 bits it is inside
        2 => (random.below(usize::from(words)) as u16) | 0x8000,
        3 => words,
        4 => words - 1,
        5..=7 => words.wrapping_sub(random.below(66) as u16).wrapping_add(1),
        8..=11 => {
            let near = used_address(random, process) / 2;
            near.wrapping_add(random.pick(&[0, 0, 0, 0, 1, 2, u16::MAX])) % words
        }
        12 => some_address(random, process),
        13 => random.below(usize::from(words)) as u16,
        _ => random.below(48) as u16 % words,
    }
}

fn some_value(random: &mut Random) -> u16 {
    match random.below(4) {
        0 => random.pick(&[0, 3, 0x0300, 255, 256, 65_535]),
        _ => random.word(),
    }
}

/// The length of a block: mostly a power of two up to 256.
fn some_third(random: &mut Random) -> u16 {
    match random.below(16) {
        0 => random.pick(&NO_BLOCKS),
        1 => random.pick(&[0, 0, 257]),
        2 => random.free_word(),
        3..=6 => 32,
        _ => 1 << random.below(9),
    }
}

/// A buffer for an acknowledgement with random bytes in it, often longer than it need be.
pub fn some_ack(random: &mut Random) -> Vec<u8> {
    let more = match random.below(8) {
        0 | 1 => 1,
        2 => random.below(6),
        3 if random.one_in(4) => random.below(2000),
        _ => 0,
    };
    random.bytes(2 * (ACK_WORDS + more))
}

//! Changes to a Go that waits, to what is left of one, and to the door.

use crate::calls::new_host;
use crate::damage_places::*;
use crate::pup::GO_BYTES;
use crate::random::Random;
use crate::states::some_run;
use model::*;

/// Ticks that a Go may have counted, at the edges.
const TICKS: [u8; 8] = [0, 1, 50, 97, 98, 99, 99, 99];

/// Makes host 254 debug a process, which owes nothing then.
fn some_of_254(random: &mut Random, state: &mut [u8]) -> usize {
    let door = RECORD_BYTES * (usize::from(state[DOOR_AT]) % PROCESSES);
    let record = some_debugged(random, state);
    let record = if state[door + 1] != NOBODY && random.one_in(2) { door } else { record };
    put_host(state, record, PUP_HOST);
    state[record + OWED_AT] = 0;
    record
}

fn put_go(random: &mut Random, state: &mut [u8], record: usize, ticks: u8) {
    let any = random.free(32) as u32;
    let id = random.pick(&[0, 1, u32::MAX - 1, u32::MAX, u32::MAX, 256, any, any, any]);
    state[record + GO_WAITS_AT] = 1;
    state[record + GO_TICKS_AT] = ticks;
    state[record + GO_ID_AT..record + VECTOR_AT].copy_from_slice(&id.to_le_bytes());
}

/// Sound: a Go waits, in any run state, mostly at the door.
pub fn a_go(random: &mut Random, state: &mut [u8]) {
    let record = some_of_254(random, state);
    let any = random.below(GO_TICKS.into()) as u8;
    let ticks = if random.one_in(3) { any } else { random.pick(&TICKS) };
    put_go(random, state, record, ticks);
    if !has_lifted(state, record) && random.one_in(2) {
        state[record + 2] = some_run(random) as u8;
    }
    if !random.one_in(4) {
        state[DOOR_AT] = (record / RECORD_BYTES) as u8;
    }
}

/// Sound: more ticks, or fewer, of a Go that waits, if one does.
pub fn another_tick(random: &mut Random, state: &mut [u8]) {
    let records = (0..PROCESSES).map(|p| RECORD_BYTES * p);
    let waiting: Vec<usize> = records.filter(|&at| state[at + GO_WAITS_AT] == 1).collect();
    if waiting.is_empty() {
        return a_go(random, state);
    }
    state[random.pick(&waiting) + GO_TICKS_AT] = random.pick(&TICKS);
}

/// A Go that neither waits nor does not.
pub fn wrong_go_flag(random: &mut Random, state: &mut [u8]) {
    let record = match random.below(4) {
        0 => some_record(random),
        1 => some_debugged(random, state),
        _ => some_of_254(random, state),
    };
    let any = random.free_byte().max(2);
    state[record + GO_WAITS_AT] = random.pick(&[2, 2, 3, 128, 254, 255, any, any]);
}

/// A hundred ticks and more.
pub fn too_many_ticks(random: &mut Random, state: &mut [u8]) {
    let record = some_of_254(random, state);
    let any = random.free_byte().max(GO_TICKS);
    let ticks = random.pick(&[100, 100, 100, 101, 127, 128, 255, any, any]);
    put_go(random, state, record, ticks);
}

/// A Go waits where another host debugs, or nobody, or in an absent process.
pub fn go_of_another(random: &mut Random, state: &mut [u8]) {
    let record = some_debugged(random, state);
    let any = random.free_byte();
    put_host(state, record, random.pick(&[state[record + 1], NOBODY, 253, 255, 5, 126, any]));
    state[record + OWED_AT] = 0;
    if state[record + 1] == NOBODY {
        state[record] = random.below(2) as u8;
        state[record + WATCHER_AT] = NOBODY;
        state[record + ENTRIES_AT..record + RECORD_BYTES].fill(0);
    } else if state[record + 1] != PUP_HOST && random.one_in(4) {
        // it is the one that watches who is host 254
        state[record + WATCHER_AT] = PUP_HOST;
    }
    let ticks = random.pick(&TICKS);
    put_go(random, state, record, ticks);
}

/// Another host debugs a process in which a Go waits, if there is one.
pub fn another_host_of_one_that_waits(random: &mut Random, state: &mut [u8]) {
    let records = (0..PROCESSES).map(|p| RECORD_BYTES * p);
    let waiting: Vec<usize> = records.filter(|&at| state[at + GO_WAITS_AT] == 1).collect();
    if !waiting.is_empty() {
        put_host(state, random.pick(&waiting), new_host(random));
    }
}

/// Sound: no Go waits, and bytes are left of one, in a process that is there or not; at
/// times those of one that was in another process.
pub fn old_go(random: &mut Random, state: &mut [u8]) {
    let record = match random.below(3) {
        0 => some_record(random),
        1 => some_of_254(random, state),
        _ => some_there(random, state),
    };
    let like = some_record(random);
    state[record + GO_WAITS_AT] = 0;
    random.fill(&mut state[record + GO_TICKS_AT..record + GO_BYTES.end]);
    match random.below(4) {
        0 => state[record + GO_TICKS_AT] = 99,
        1 => state.copy_within(like + GO_TICKS_AT..like + GO_BYTES.end, record + GO_TICKS_AT),
        _ => {}
    }
}

/// Sound: the door is elsewhere.
pub fn another_door(random: &mut Random, state: &mut [u8]) {
    let there = some_there(random, state) / RECORD_BYTES;
    let any = random.free_byte();
    let near = random.below(PROCESSES + 1) as u8;
    state[DOOR_AT] = random.pick(&[there as u8, there as u8, near, 255, any]);
}

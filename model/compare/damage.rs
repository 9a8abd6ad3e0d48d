//! Changes to a state's bytes, after which they are sound, not sound, or no state at all.

use crate::calls::new_host;
use crate::damage_packets::*;
use crate::damage_places::*;
use crate::damage_watches::*;
use crate::layout::close_gaps;
use crate::random::Random;
use crate::sizes::{shared, some_size, wrong_size};
use crate::states::{lay_in_any_order, some_run};
use crate::status::count_again;
use model::*;

/// A kind of damage, done to the bytes of a state.
type Damage = fn(&mut Random, &mut [u8]);

/// Every kind, and how often it is done.
const DAMAGES: [(usize, Damage); 44] = [
    (4, some_bytes),
    (2, another_begin),
    (1, same_begin),
    (1, gap),
    (1, overlap),
    (2, past_the_end),
    (3, another_order),
    (2, absent_begin),
    (2, bad_size),
    (2, another_size),
    (1, size_under_a_breakpoint),
    (1, wrong_run),
    (1, wrong_flag),
    (1, absent_with_host),
    (1, breakpoint_with_no_host),
    (1, wrong_address),
    (1, same_address),
    (1, one_or_two_lifted),
    (2, another_run),
    (1, passing_with_none_lifted),
    (3, no_host),
    (3, old_bytes),
    (1, another_host),
    (1, one_more_breakpoint),
    (1, wrong_owed),
    (2, owed_to_another),
    (2, owed),
    (1, another_host_of_one_that_owes),
    (3, a_watcher),
    (1, watcher_is_the_host),
    (1, watcher_with_no_host),
    (1, another_watcher),
    (2, another_setter),
    (1, many_of_one),
    (4, a_go),
    (1, another_tick),
    (1, wrong_go_flag),
    (1, too_many_ticks),
    (2, go_of_another),
    (1, another_host_of_one_that_waits),
    (2, old_go),
    (1, another_door),
    (3, another_number),
    (1, number_with_no_host),
];

/// The first so many of these touch the layout, and it is left as they leave it.
const LAYOUT_DAMAGES: usize = 8;

/// The last so many touch the numbers of breakpoints; after the others these are mostly made
/// true again.
const NUMBER_DAMAGES: usize = 2;

/// Wrong lengths of a state's bytes. Without the door there would be 784, without the begins
/// too 768, and without door and Gos 736.
pub const STATE_LENGTHS: [usize; 9] = [0, 1, 96, 736, 737, 768, 784, 786, 1570];

/// Changes a state's bytes by one kind of damage, or their number. Where that opens a gap,
/// since a size is another or a process is there or not, it is mostly closed again.
pub fn damage_state(random: &mut Random, state: &mut Vec<u8>) {
    if random.one_in(20) {
        return state.resize(random.length(&STATE_LENGTHS, 2000), 0);
    }
    let kind = random.weighted(&DAMAGES.map(|(weight, _)| weight));
    DAMAGES[kind].1(random, state);
    if kind < DAMAGES.len() - NUMBER_DAMAGES && !random.one_in(8) {
        count_again(state);
    }
    if kind >= LAYOUT_DAMAGES && !random.one_in(8) {
        change(state, close_gaps);
    }
}

/// Changes the records that the bytes are, if they are those of a state.
fn change(state: &mut [u8], change: impl FnOnce(&mut State)) {
    if let Some(mut records) = decode(state) {
        change(&mut records);
        state.copy_from_slice(&encode(&records));
    }
}

/// Some bits or bytes anywhere.
fn some_bytes(random: &mut Random, state: &mut [u8]) {
    for _ in 0..=random.below(3) {
        let at = random.below(state.len());
        let flipped = state[at] ^ 1 << random.below(8);
        state[at] = if random.one_in(2) { random.byte() } else { flipped };
    }
}

/// A begin that is another's, near another's or any, of a process that is there or not.
fn another_begin(random: &mut Random, state: &mut [u8]) {
    let other = RECORD_BYTES * random.below(PROCESSES);
    let end = begin_of(state, other).wrapping_add(size_of(state, other));
    let near = end.wrapping_add(random.pick(&[0, 0, 1, 2, u16::MAX - 1, u16::MAX]));
    let any = random.free_word();
    let begin = random.pick(&[0, 1, 2, 4096, 16_382, 16_384, 65_535, near, near, any, any]);
    put_begin(state, some_record(random), begin);
}

/// Two that are there begin at the same byte, if there are two.
fn same_begin(random: &mut Random, state: &mut [u8]) {
    let (a, b) = (some_there(random, state), some_there(random, state));
    put_begin(state, a, begin_of(state, b));
}

/// Those from one on lie some bytes further up.
fn gap(random: &mut Random, state: &mut [u8]) {
    let by = random.pick(&[1, 2, 2, 4, 100, 4096, 49_152]);
    shift(random, state, by);
}

/// Those from one on lie some bytes further down.
fn overlap(random: &mut Random, state: &mut [u8]) {
    let by = random.pick(&[1, 2, 2, 4, 100, 4096]);
    shift(random, state, 0u16.wrapping_sub(by));
}

fn shift(random: &mut Random, state: &mut [u8], by: u16) {
    let from = begin_of(state, some_there(random, state));
    change(state, |records| {
        for process in records.processes.iter_mut().filter(|p| p.there && p.begin >= from) {
            process.begin = process.begin.wrapping_add(by);
        }
    });
}

/// Without gaps, but with more bytes than memory has, two more at times; or with just as
/// many, which alone is sound.
fn past_the_end(random: &mut Random, state: &mut [u8]) {
    let total = MEMORY + random.pick(&[0, 2, 2, 4, 4096, MEMORY]);
    change(state, |records| {
        for process in &mut records.processes {
            process.there |= random.one_in(2);
            process.size = if process.there { LARGEST } else { process.size };
        }
        let there = (0..8).filter(|&p| records.processes[p].there).map(|p| 1u8 << p).sum();
        let sizes = shared(total, there, &records.processes.map(|process| process.size));
        for (process, size) in records.processes.iter_mut().zip(sizes) {
            process.size = size;
        }
        close_gaps(records);
    });
}

/// Sound: those there lie in another order.
fn another_order(random: &mut Random, state: &mut [u8]) {
    change(state, |records| lay_in_any_order(random, records));
}

/// Sound: the begins of absent processes are any.
fn absent_begin(random: &mut Random, state: &mut [u8]) {
    change(state, |records| {
        for process in records.processes.iter_mut().filter(|process| !process.there) {
            process.begin = random.free_word();
        }
    });
}

/// A size that no process may have, of one that is there or not, often of the last one.
fn bad_size(random: &mut Random, state: &mut [u8]) {
    let record = if random.one_in(2) { last_there(state) } else { some_record(random) };
    put_size(state, record, wrong_size(random));
}

/// Sound where no breakpoint is past the size: another size, of a process that is
/// there or not.
fn another_size(random: &mut Random, state: &mut [u8]) {
    put_size(state, some_record(random), some_size(random));
}

/// A breakpoint, and a size that ends before it, in its middle, or after it, which
/// alone is sound.
fn size_under_a_breakpoint(random: &mut Random, state: &mut [u8]) {
    let record = some_debugged(random, state);
    let address = 2 * random.below(usize::from(LARGEST) / 2) as u16;
    put_entry(state, some_entry(random, record), 0, address);
    put_size(state, record, (address + random.pick(&[0, 0, 1, 2])).max(SMALLEST));
}

/// A run state that there is not.
fn wrong_run(random: &mut Random, state: &mut [u8]) {
    let any = random.free_byte().max(6);
    state[some_record(random) + 2] = random.pick(&[6, 6, 7, 128, 255, any, any]);
}

/// A process that is neither there nor not, or an entry, free or in use, that is neither
/// lifted nor not.
fn wrong_flag(random: &mut Random, state: &mut [u8]) {
    let record = some_record(random);
    let entry = some_entry(random, record);
    let any = random.free_byte();
    match random.below(3) {
        0 => state[record] = random.pick(&[2, 3, 128, 255, any.max(2)]),
        _ => state[entry] = random.pick(&[2, 3, 128, 255, any.max(2), any.max(2)]),
    }
}

fn absent_with_host(random: &mut Random, state: &mut [u8]) {
    let record = some_record(random);
    state[record..record + 2].copy_from_slice(&[0, new_host(random)]);
}

/// A breakpoint of an absent process, or of one with no host.
fn breakpoint_with_no_host(random: &mut Random, state: &mut [u8]) {
    let record = some_record(random);
    state[record..record + 2].copy_from_slice(&[random.below(2) as u8, NOBODY]);
    put_entry(state, some_entry(random, record), 0, 0);
    state[record + WATCHER_AT] = NOBODY;
}

fn wrong_address(random: &mut Random, state: &mut [u8]) {
    let record = some_debugged(random, state);
    let size = size_of(state, record);
    let any = random.free_word() | random.pick(&[1, 4096]);
    let past = [size - 1, size, size, size + 1, size + 2];
    let wrong = [1, 7, 4093, 4095, 4096, 4097, 4098, 8192, 65534, 65535, any, any, any, any];
    let address = if random.one_in(2) { random.pick(&past) } else { random.pick(&wrong) };
    put_entry(state, some_entry(random, record), 0, address);
}

/// The same address twice, unless both are the same entry.
fn same_address(random: &mut Random, state: &mut [u8]) {
    let record = some_debugged(random, state);
    let size = size_of(state, record);
    let address = random.pick(&[0, size - 2, size - 2]);
    put_entry(state, some_entry(random, record), 0, address);
    put_entry(state, some_entry(random, record), 0, address);
}

/// One lifted or two, in any run state.
fn one_or_two_lifted(random: &mut Random, state: &mut [u8]) {
    let record = some_debugged(random, state);
    state[record + 2] = some_run(random) as u8;
    let last = size_of(state, record) - 2;
    put_entry(state, some_entry(random, record), 1, 0);
    put_entry(state, some_entry(random, record), random.below(2) as u8, last);
}

/// A process with one lifted in any run state, often running, in which none may be.
fn another_run(random: &mut Random, state: &mut [u8]) {
    let records = (0..PROCESSES).map(|p| RECORD_BYTES * p);
    let lifted: Vec<usize> = records.filter(|&record| has_lifted(state, record)).collect();
    let record = if lifted.is_empty() {
        let record = some_debugged(random, state);
        put_entry(state, some_entry(random, record), 1, 0);
        record
    } else {
        random.pick(&lifted)
    };
    let run = if random.one_in(2) { some_run(random) } else { Run::Running };
    state[record + 2] = run as u8;
}

/// Sound: the process passes, and its lifted breakpoint is gone or planted.
fn passing_with_none_lifted(random: &mut Random, state: &mut [u8]) {
    let record = some_debugged(random, state);
    state[record + 2] = Run::Passing as u8;
    let gone = random.one_in(2);
    let entries = &mut state[record + ENTRIES_AT..record + RECORD_BYTES];
    for entry in entries.chunks_exact_mut(ENTRY_BYTES).filter(|e| in_use(e) && e[0] == 1) {
        entry[0] = 0;
        entry[1] = if gone { NOBODY } else { entry[1] };
    }
}

/// Sound: a process with no host in any run state, or an absent one with a run
/// state and a vector.
fn no_host(random: &mut Random, state: &mut [u8]) {
    let record = some_record(random);
    let any = some_run(random);
    let run = random.pick(&[any, Run::Stepping, Run::Passing]);
    make_there(random, state, record);
    let there = u8::from(!random.one_in(4));
    state[record..record + 3].copy_from_slice(&[there, NOBODY, run as u8]);
    state[record + OWED_AT] = 0;
    state[record + WATCHER_AT] = NOBODY;
    state[record + GO_WAITS_AT] = 0;
    random.fill(&mut state[record + VECTOR_AT..record + ENTRIES_AT]);
    state[record + ENTRIES_AT..record + RECORD_BYTES].fill(0);
}

/// Sound: bytes in the free entries of a process, but none of who set them; at times the
/// address and the count of a breakpoint.
fn old_bytes(random: &mut Random, state: &mut [u8]) {
    let record = some_record(random);
    let entries = &mut state[record + ENTRIES_AT..record + RECORD_BYTES];
    for entry in entries.chunks_exact_mut(ENTRY_BYTES).filter(|entry| !in_use(entry)) {
        entry[0] = random.below(2) as u8;
        random.fill(&mut entry[2..]);
    }
    let (free, like) = (some_entry(random, record), some_entry(random, record));
    if !in_use(&state[free..]) {
        state.copy_within(like + 2..like + ENTRY_BYTES, free + 2);
    }
}

/// Sound where the process is there; at times without what he set.
fn another_host(random: &mut Random, state: &mut [u8]) {
    let (record, host) = (some_record(random), new_host(random));
    match random.one_in(4) {
        true => state[record + 1] = host,
        false => put_host(state, record, host),
    }
}

/// Mostly sound: a planted breakpoint more.
fn one_more_breakpoint(random: &mut Random, state: &mut [u8]) {
    let record = some_debugged(random, state);
    let address = 2 * random.below(usize::from(size_of(state, record)) / 2) as u16;
    put_entry(state, some_entry(random, record), 0, address);
}

/// Another number of breakpoints than there are, or the true one, which alone is sound: one
/// more, one less, those of one of both, those that are planted, or any.
fn another_number(random: &mut Random, state: &mut [u8]) {
    let at = some_debugged(random, state);
    if count(&state[at..], |_| true) == 0 {
        put_entry(state, some_entry(random, at), 0, 0);
    }
    let record = &mut state[at..at + RECORD_BYTES];
    let (host, watcher) = (record[1], record[WATCHER_AT]);
    let right = count(record, |_| true);
    let mut told = vec![right, right + 1, right - 1, 0, BREAKPOINTS, right + BREAKPOINTS];
    told.push(count(record, |entry| entry[0] == 0));
    told.extend([host, watcher].map(|host| count(record, |entry| entry[1] == host)));
    let entries = record[ENTRIES_AT..].chunks_exact(ENTRY_BYTES);
    told.push(entries.filter(|entry| entry.iter().any(|&byte| byte != 0)).count());
    told.push(random.free_byte().into());
    record[SET_AT] = random.pick(&told) as u8;
}

/// A number of breakpoints of a process that nobody debugs, there or not.
fn number_with_no_host(random: &mut Random, state: &mut [u8]) {
    let records = (0..PROCESSES).map(|p| RECORD_BYTES * p);
    let free: Vec<usize> = records.filter(|&record| state[record + 1] == NOBODY).collect();
    if free.is_empty() {
        return another_number(random, state);
    }
    let any = random.free_byte();
    state[random.pick(&free) + SET_AT] = random.pick(&[1, 1, 2, 8, 255, any]);
}

/// What is owed is none that there is.
fn wrong_owed(random: &mut Random, state: &mut [u8]) {
    let record = some_debugged(random, state);
    put_host(state, record, random.pick(&[state[record + 1], TEXT_HOST]));
    let any = random.free_byte().max(3);
    state[record + OWED_AT] = random.pick(&[3, 3, 4, 99, 115, 128, 255, any, any]);
}

/// An answer is owed to another host than 253, or to nobody, or by an absent process.
fn owed_to_another(random: &mut Random, state: &mut [u8]) {
    let record = some_debugged(random, state);
    let any = random.free_byte();
    put_host(state, record, random.pick(&[state[record + 1], NOBODY, 252, 254, 255, 5, any]));
    if state[record + 1] == NOBODY {
        state[record] = random.below(2) as u8;
        state[record + WATCHER_AT] = NOBODY;
        state[record + ENTRIES_AT..record + RECORD_BYTES].fill(0);
    }
    state[record + OWED_AT] = random.pick(&[1, 2]);
}

/// Sound: host 253 debugs the process, and an answer is owed or not, in any run state.
fn owed(random: &mut Random, state: &mut [u8]) {
    let record = some_debugged(random, state);
    put_host(state, record, TEXT_HOST);
    state[record + OWED_AT] = random.pick(&[0, 1, 1, 2, 2]);
    if !has_lifted(state, record) && random.one_in(2) {
        state[record + 2] = some_run(random) as u8;
    }
}

/// Another host debugs a process that owes an answer, if there is one.
fn another_host_of_one_that_owes(random: &mut Random, state: &mut [u8]) {
    let records = (0..PROCESSES).map(|p| RECORD_BYTES * p);
    let owing: Vec<usize> = records.filter(|&record| state[record + OWED_AT] != 0).collect();
    if !owing.is_empty() {
        put_host(state, random.pick(&owing), new_host(random));
    }
}

//! Random calls, most of them such as can be granted in the state at hand.

use crate::lines::make_line;
use crate::moods::Mood;
use crate::packets::{at_door, make_packet, waiting};
use crate::random::Random;
use crate::reports::{any_telling, make_report};
use crate::sides::Call;
use crate::sizes::size_to_create;
use crate::watchers::{asker, fits_watch, lifted_of_watcher};
use model::*;

/// Hosts that meet at the same processes.
pub const HOSTS: [u8; 5] = [5, 6, 7, TEXT_HOST, PUP_HOST];

/// Numbers at the edges of the paper's ranges.
pub const EDGES: [u16; 18] =
    [0, 1, 2, 16, 17, 18, 255, 256, 257, 4092, 4093, 4094, 4095, 4096, 4097, 32768, 65534, 65535];

/// Ranges of a process's memory, how far before its end the first byte is (in the
/// last, one after it) and the count, at the edges of what is granted. A DEPOSIT of
/// 257 bytes is a message of 267.
const LAST_RANGES: [(u16, u16); 10] =
    [(4, 4), (4, 4), (3, 4), (3, 4), (2, 2), (0, 0), (0, 1), (256, 256), (257, 257), (u16::MAX, 0)];

/// The same at the edges that are the same for every size.
const RANGES: [(u16, u16); 3] = [(65535, 2), (0, 256), (0, 257)];

/// The same of the vector.
const VECTOR_RANGES: [(u16, u16); 6] = [(0, 18), (16, 2), (17, 2), (18, 0), (18, 1), (65535, 2)];

pub fn make_call(random: &mut Random, state: &State, mood: &Mood) -> Call {
    if waiting(state) && random.below(64) < mood.patience {
        return Call::Tick;
    }
    // a machine has little to report before breakpoints are set
    let reports = if mood.machine && !any_telling(state) { 2 } else { mood.reports };
    if random.below(16) < reports {
        return make_report(random, state, mood.machine);
    }
    if random.below(16 - reports) < mood.lines {
        return make_line(random, state);
    }
    if random.below(16 - reports - mood.lines) < mood.packets || random.one_in(48) {
        return make_packet(random, state, mood.patience > 32);
    }
    let mut message = make_request(random, state, mood);
    let mut spoil = random.one_in(8);
    while spoil {
        spoil_message(random, &mut message);
        spoil = random.one_in(3);
    }
    if random.one_in(200) {
        let length = random.below(300);
        message = random.bytes(length);
    }
    Call::Request { message }
}

/// Mostly a process that the test picks out, else any number, at times over 7.
pub fn some_process(random: &mut Random, state: &State, test: impl Fn(&Process) -> bool) -> u8 {
    let fit: Vec<u8> = (0..8).filter(|&p| test(&state.processes[usize::from(p)])).collect();
    if !fit.is_empty() && !random.one_in(8) {
        return random.pick(&fit);
    }
    match random.below(16) {
        0 => random.pick(&[8, 9, 10, 15, 16, 127, 128, 254, 255]),
        1 => random.free_byte(),
        _ => random.below(8) as u8,
    }
}

/// A process to which the request fits; at times, one that has a lifted breakpoint, or is
/// passing and has none any more.
fn process_for(random: &mut Random, state: &State, cmd: u8, mood: &Mood) -> u8 {
    if mood.packets > 0 && at_door(state).is_some() && cmd != DESTROY_PROCESS {
        if !random.one_in(3) {
            return state.door;
        }
    }
    let any_is = |test: &dyn Fn(&Process) -> bool| state.processes.iter().any(test);
    if any_is(&passing_bare) && random.one_in(2) {
        return some_process(random, state, passing_bare);
    }
    let seldom = match cmd {
        END_WATCH => 1,
        END_DEBUG => 2,
        _ => 8,
    };
    if any_is(&lifted_of_watcher) && random.one_in(seldom) {
        return some_process(random, state, lifted_of_watcher);
    }
    if cmd == WATCH && any_is(&crowded) && random.one_in(2) {
        return some_process(random, state, crowded);
    }
    if matches!(cmd, WATCH | END_WATCH) && random.one_in(2) {
        return some_process(random, state, |p| fits_watch(p, cmd));
    }
    if any_is(&has_lifted) && (random.one_in(2) || cmd == UNBREAK) {
        return some_process(random, state, has_lifted);
    }
    if cmd == PROCEED_BPT && any_is(&lifts) && !random.one_in(4) {
        return some_process(random, state, lifts);
    }
    let any_destroyed = random.one_in(2);
    let named = |p: &Process| p.there && (p.host != NOBODY || cmd == DEBUG);
    let fits = |p: &Process| match cmd {
        DEBUG => p.there && p.host == NOBODY,
        STOP => named(p) && p.run.goes(),
        RESUME | SINGLE_STEP => named(p) && p.run.waits(),
        PROCEED_BPT => named(p) && p.run == Run::AtBreakpoint,
        DESTROY_PROCESS => named(p) && (any_destroyed || p.run == Run::Ended),
        WATCH | END_WATCH => fits_watch(p, cmd),
        BREAK | UNBREAK | EXAMINE | DEPOSIT => p.breakpoints.iter().any(|b| b.used()),
        _ => named(p),
    };
    match any_is(&fits) && !random.one_in(4) {
        true => some_process(random, state, fits),
        false => some_process(random, state, named),
    }
}

fn has_lifted(process: &Process) -> bool {
    process.breakpoints.iter().any(|b| b.used() && b.lifted)
}

/// Whether seven are set in a process that nobody watches.
fn crowded(process: &Process) -> bool {
    process.watcher == NOBODY && process.breakpoints.iter().filter(|b| b.used()).count() == 7
}

/// Whether a process passes a breakpoint that is gone.
pub fn passing_bare(process: &Process) -> bool {
    process.there && process.run == Run::Passing && !has_lifted(process)
}

/// Whether PROCEED BPT would lift a breakpoint.
fn lifts(process: &Process) -> bool {
    let at_pc = |b: &Breakpoint| b.used() && b.address == process.vector[PC];
    process.run == Run::AtBreakpoint && process.breakpoints.iter().any(at_pc)
}

/// A well-formed request, mostly one that can be granted.
pub fn make_request(random: &mut Random, state: &State, mood: &Mood) -> Vec<u8> {
    // a watch seldom ends just then, a process that passes nothing seldom stops, and a
    // breakpoint seldom goes while an answer is owed
    let any_is = |test: fn(&Process) -> bool| state.processes.iter().any(test);
    let cmd = match random.below(20) {
        0 | 1 if any_is(lifted_of_watcher) => {
            random.pick(&[END_WATCH, END_WATCH, END_WATCH, END_DEBUG])
        }
        2 if any_is(passing_bare) => random.pick(&[STOP, END_DEBUG]),
        3 if any_is(|p| p.owed != Owed::Nothing && has_lifted(p)) => UNBREAK,
        4..=9 if mood.packets > 0 && at_door(state).is_some_and(|p| p.host == NOBODY) => DEBUG,
        _ => random.weighted(&mood.weights) as u8,
    };
    let pid = match cmd {
        NOP | CREATE_PROCESS => 0,
        _ => process_for(random, state, cmd, mood),
    };
    let process = &state.processes[usize::from(pid) % PROCESSES];
    let host = asker(random, process, cmd, mood);
    let (arg1, arg2, string) = match cmd {
        CREATE_PROCESS => (size_to_create(random, state), 0, Vec::new()),
        _ => make_arguments(random, process, cmd),
    };
    let mut message = vec![0, host, 255, 0, cmd, pid];
    message.extend_from_slice(&arg1.to_be_bytes());
    message.extend_from_slice(&arg2.to_be_bytes());
    message.extend_from_slice(&string);
    message
}

/// Mostly the host that debugs the process.
pub fn some_host(random: &mut Random, debugging: u8) -> u8 {
    match random.below(24) {
        0 => random.pick(&[0, 1, 4, 8, 254, 255]),
        1 => random.free_byte(),
        2..=5 => random.pick(&HOSTS),
        _ if debugging != NOBODY => debugging,
        _ => new_host(random),
    }
}

/// A host for a process that nobody debugs: one of a few, so that they meet, or
/// any but nobody.
pub fn new_host(random: &mut Random) -> u8 {
    match random.below(4) {
        0 => random.free_byte().max(1),
        _ => random.pick(&HOSTS),
    }
}

fn make_arguments(random: &mut Random, process: &Process, cmd: u8) -> (u16, u16, Vec<u8>) {
    match cmd {
        DEPOSIT => {
            let (first, count) = some_range(random, process);
            (first, count, some_string(random, count))
        }
        EXAMINE => {
            let (first, count) = some_range(random, process);
            (first, count, Vec::new())
        }
        DEPOSIT_STATE_VECTOR => vector_arguments(random, process),
        BREAK => {
            let address = breakpoint_address(random, process);
            let count = match random.below(8) {
                0 => random.free_word(),
                _ => random.pick(&[0, 0, 1, 1, 2, 3, 256, 65535]),
            };
            (address, count, Vec::new())
        }
        UNBREAK if has_lifted(process) && !random.one_in(4) => {
            // mostly the lifted one, at times one beside it
            let lifted = !random.one_in(6);
            let found = process.breakpoints.iter().find(|b| b.used() && b.lifted == lifted);
            (found.map_or(0, |b| b.address), 0, Vec::new())
        }
        UNBREAK if !random.one_in(3) => (used_address(random, process), 0, Vec::new()),
        UNBREAK if random.one_in(3) => (some_edge(random, process), 0, Vec::new()),
        UNBREAK => (some_address(random, process), 0, Vec::new()),
        _ => (0, 0, Vec::new()),
    }
}

fn some_range(random: &mut Random, process: &Process) -> (u16, u16) {
    // all of a process of a few bytes is near its end
    if process.size <= 8 && random.one_in(2) {
        let past = usize::from(process.size) + 2;
        if random.one_in(4) {
            return (0, process.size);
        }
        return (random.below(past) as u16, random.below(past) as u16);
    }
    if process.size == LARGEST - 2 && random.one_in(8) {
        return (process.size - 4, 4);
    }
    match random.below(20) {
        0 => return random.pick(&RANGES),
        1..=6 => {
            let (before, count) = random.pick(&LAST_RANGES);
            return (some_end(random, process).wrapping_sub(before), count);
        }
        _ => {}
    }
    let count = some_count(random);
    (some_first(random, process, count), count)
}

/// The end of the process's memory; at times of the largest, and of the feed process.
fn some_end(random: &mut Random, process: &Process) -> u16 {
    match random.below(8) {
        0 => LARGEST,
        1 => 1536,
        _ => process.size,
    }
}

/// As many bytes as the count says; of a count over 257, no more than a message
/// can have.
fn some_string(random: &mut Random, count: u16) -> Vec<u8> {
    let length = if count == 257 { 257 } else { usize::from(count).min(LONGEST_STRING) };
    random.bytes(length)
}

/// Mostly one that a string can have.
fn some_count(random: &mut Random) -> u16 {
    match random.below(8) {
        0 => random.pick(&EDGES),
        1 => random.free_word(),
        2 | 3 => random.below(257) as u16,
        _ => random.pick(&[0, 1, 1, 2, 2, 3, 4, 8, 64, 255, 256]),
    }
}

/// The first byte of a range: near a breakpoint, or so that the range ends
/// near the end of the process, or any.
fn some_first(random: &mut Random, process: &Process, count: u16) -> u16 {
    match random.below(4) {
        0 => {
            let end = some_end(random, process).wrapping_sub(count);
            end.wrapping_add(random.pick(&[u16::MAX, 0, 0, 1, 2]))
        }
        1 => {
            let inside = random.below(usize::from(count) + 1) as u16;
            some_address(random, process).wrapping_sub(inside)
        }
        _ => some_address(random, process),
    }
}

fn vector_arguments(random: &mut Random, process: &Process) -> (u16, u16, Vec<u8>) {
    // PC set to a breakpoint
    if random.one_in(4) {
        let pc = used_address(random, process);
        return (2 * PC as u16, 2, pc.to_le_bytes().to_vec());
    }
    let (first, count) = some_vector_range(random);
    (first, count, some_string(random, count))
}

fn some_vector_range(random: &mut Random) -> (u16, u16) {
    if random.one_in(4) {
        return random.pick(&VECTOR_RANGES);
    }
    let first = match random.below(4) {
        0 => random.pick(&EDGES),
        _ => random.below(20) as u16,
    };
    let count = match random.below(4) {
        0 => random.pick(&[0, 1, 2, 16, 17, 18, 19, 255, 256]),
        1 => 18u16.wrapping_sub(first).wrapping_add(random.pick(&[0, 0, 1])),
        _ => random.below(4) as u16,
    };
    (first, count)
}

/// The address of one of the process's breakpoints, if it has any; often of
/// the lifted one.
pub fn used_address(random: &mut Random, process: &Process) -> u16 {
    let addresses = |test: &dyn Fn(&Breakpoint) -> bool| -> Vec<u16> {
        process.breakpoints.iter().filter(|b| b.used() && test(b)).map(|b| b.address).collect()
    };
    let (used, lifted) = (addresses(&|_| true), addresses(&|b| b.lifted));
    if used.is_empty() {
        return 2 * random.below(24) as u16;
    }
    if !lifted.is_empty() && random.one_in(2) {
        return lifted[0];
    }
    random.pick(&used)
}

/// An edge that every process has, or one at the end of this one.
fn some_edge(random: &mut Random, process: &Process) -> u16 {
    if random.one_in(2) {
        return random.pick(&EDGES);
    }
    let end = some_end(random, process);
    (end + 2).wrapping_sub(random.pick(&[0, 1, 2, 3, 4, 4, 5, 6]))
}

/// An address at or beside a breakpoint, in a small range, or at an edge.
pub fn some_address(random: &mut Random, process: &Process) -> u16 {
    match random.below(8) {
        0 => some_edge(random, process),
        1 => random.free_word(),
        2..=4 => {
            let address = used_address(random, process);
            address.wrapping_add(random.pick(&[0, 0, 0, 1, 1, 2, u16::MAX]))
        }
        5 => random.below(LARGEST.into()) as u16,
        _ => random.below(48) as u16,
    }
}

/// Mostly an even address in a small range, so that breakpoints lie side by
/// side and ranges run over several of them.
pub fn breakpoint_address(random: &mut Random, process: &Process) -> u16 {
    match random.below(8) {
        0 => used_address(random, process),
        1 => some_edge(random, process),
        2 => random.free_word(),
        3 if random.one_in(2) => 2 * random.below(usize::from(LARGEST) / 2) as u16,
        3 => 2 * random.below(usize::from(process.size) / 2 + 2) as u16,
        4 if random.one_in(2) => process.size.wrapping_sub(2),
        _ => 2 * random.below(24) as u16,
    }
}

/// Breaks the layout of a message in one place, by a telling value or by any.
pub fn spoil_message(random: &mut Random, message: &mut Vec<u8>) {
    let choice = random.below(14);
    if message.len() < HEAD {
        return;
    }
    let mut byte = |telling: &[u8]| match random.below(2) {
        0 => random.pick(telling),
        _ => random.free_byte(),
    };
    match choice {
        0 => message.truncate(random.below(HEAD)),
        1 => message.resize(LONGEST + random.length(&[0, 1, 2, 34, 1000], 2000), 1),
        2 => message[0] = byte(&[1, 4, 128, 255]),
        3 => message[1] = byte(&[0]),
        4 => message[2] = byte(&[0, 1, 127, 254]),
        5 => message[3] = byte(&[1, 2, 128, 255]),
        6 => message[4] = byte(&[17, 18, 19, 63, 64, 66, 127, 128, 129, 144, 145, 255]),
        7 => message[4] = random.below(17) as u8,
        8 => message[5] = byte(&[0, 1, 7, 8, 255]),
        9 | 10 => {
            let at = if choice == 9 { 6 } else { 8 };
            let word = if random.one_in(2) { random.pick(&EDGES) } else { random.free_word() };
            message[at..at + 2].copy_from_slice(&word.to_be_bytes());
        }
        11 => message.push(random.byte()),
        12 => message.resize(random.below(LONGEST + 1), 2),
        _ => message.truncate(HEAD.max(message.len() - 1)),
    }
}

/// An output buffer with random bytes in it, often longer than it need be.
pub fn some_output(random: &mut Random) -> Vec<u8> {
    let more = match random.below(16) {
        0..=3 => random.below(400),
        4..=7 => 1,
        8 => random.length(&[1000, 4096], 4000),
        9 if random.one_in(8) => random.below(70_000),
        _ => 0,
    };
    random.bytes(LONGEST + more)
}

//! Random machine reports: of any kind, or such as a machine makes.

use crate::calls::{passing_bare, some_address, some_process, used_address};
use crate::random::Random;
use crate::sides::Call;
use model::*;

/// A report, mostly one that can be granted in the state at hand; of a machine, mostly
/// one that the run state makes likely.
pub fn make_report(random: &mut Random, state: &State, machine: bool) -> Call {
    let (process, kind) = match machine && !random.one_in(8) {
        true => by_run_state(random, state),
        false => by_kind(random, state),
    };
    let reason = match kind {
        BPT | TTRAP if machine && !random.one_in(8) => 0,
        TRAP if random.one_in(2) => random.free_word(),
        TRAP => random.pick(&[0, 1, 4, 255, 256, 257, 4660, 65535]),
        _ if random.one_in(10) => random.pick(&[1, 256, 65535]),
        _ if random.one_in(10) => random.free_word(),
        _ => 0,
    };
    let mut words = [0; WORDS];
    words.fill_with(|| random.word());
    words[PC] = report_pc(random, &state.processes[usize::from(process) % PROCESSES], kind);
    let (mut process, mut kind, mut reason) = (process.into(), kind.into(), reason.into());
    // at times a number that has no room in its field, or any number
    match random.below(48) {
        0 => process = random.beyond(8, process),
        1 => process = random.free(64),
        2 => kind = random.beyond(8, kind),
        3 => kind = random.free(64),
        4 => reason = random.beyond(16, reason),
        5 => reason = random.free(64),
        _ => {}
    }
    Call::Report { process, kind, reason, words: vector_bytes(&words).to_vec() }
}

/// A kind, and a process that can report it; rather one with breakpoints than any.
fn by_kind(random: &mut Random, state: &State) -> (u8, u8) {
    let kind = match random.below(32) {
        0 if random.one_in(2) => random.pick(&[4, 5, 64, 66, 128, 255]),
        0 => random.free_byte(),
        1..=4 => TRAP,
        5 | 6 => HALT,
        7..=24 => BPT,
        _ => TTRAP,
    };
    let narrow = random.one_in(2);
    let process = some_process(random, state, |p| {
        let fits = p.run.accepts(kind);
        p.there && fits && (!narrow || p.breakpoints.iter().any(|b| b.used()))
    });
    (process, kind)
}

/// Whether a process runs and can come to a breakpoint, or is passing one, or owes an
/// answer.
fn telling(process: &Process) -> bool {
    let broken = process.breakpoints.iter().any(|b| b.used());
    let owes = process.owed != Owed::Nothing;
    process.there && process.run.goes() && (broken || process.run == Run::Passing || owes)
}

pub fn any_telling(state: &State) -> bool {
    state.processes.iter().any(telling)
}

/// A process that runs, and what it comes to next: mostly the end of its one instruction
/// while stepping or passing, and else a breakpoint. Few end, so that a loop has many
/// turns.
fn by_run_state(random: &mut Random, state: &State) -> (u8, u8) {
    let goes = |p: &Process| p.there && p.run.goes();
    let process = match any_telling(state) && !random.one_in(8) {
        true => some_process(random, state, telling),
        false => some_process(random, state, goes),
    };
    let reporting = &state.processes[usize::from(process) % PROCESSES];
    if passing_bare(reporting) {
        return (process, random.pick(&[TRAP, HALT, BPT, BPT, TTRAP, TTRAP]));
    }
    let kind = match random.below(32) {
        0 => HALT,
        1 | 2 => TRAP,
        3 | 4 if reporting.owed != Owed::Nothing => TRAP,
        3..=18 if reporting.run != Run::Running => TTRAP,
        3 | 5 => TTRAP,
        _ => BPT,
    };
    (process, kind)
}

/// Mostly the address of a breakpoint; after one instruction, often of the next one.
fn report_pc(random: &mut Random, process: &Process, kind: u8) -> u16 {
    let eighth = process.breakpoints[BREAKPOINTS - 1];
    let used = match eighth.used() && random.one_in(4) {
        true => eighth.address,
        false => used_address(random, process),
    };
    match random.below(4) {
        0 => some_address(random, process),
        1 if kind == TTRAP => used.wrapping_add(2),
        _ => used,
    }
}

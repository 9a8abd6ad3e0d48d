//! Sound states that no fresh start need lead to.

use crate::calls::{breakpoint_address, new_host};
use crate::layout::{lay_out, order};
use crate::packets::some_door;
use crate::random::Random;
use crate::sizes::sizes_with_room;
use model::*;

/// A sound state that need not be one that calls lead to from a fresh start.
pub fn some_sound_state(random: &mut Random) -> State {
    let mut state = NONE_THERE;
    let there = random.byte() | random.byte();
    let sizes = sizes_with_room(random, there);
    for (p, process) in state.processes.iter_mut().enumerate() {
        (process.there, process.size) = (there >> p & 1 == 1, sizes[p]);
        process.begin = random.free_word();
        *process = some_sound_process(random, *process);
    }
    lay_in_any_order(random, &mut state);
    state.door = some_door(random, there).min(255) as u8;
    state
}

/// Lays those there without gaps, in any order.
pub fn lay_in_any_order(random: &mut Random, state: &mut State) {
    let mut order = order(state);
    for i in (1..order.len()).rev() {
        order.swap(i, random.below(i + 1));
    }
    lay_out(state, &order);
}

fn some_sound_process(random: &mut Random, cleared: Process) -> Process {
    let mut process = Process { run: some_run(random), ..cleared };
    process.vector.fill_with(|| random.word());
    process.go = old_go(random);
    if !process.there || random.one_in(4) {
        return process;
    }
    process.host = new_host(random);
    let watcher = new_host(random);
    if watcher != process.host && random.one_in(2) {
        process.watcher = watcher;
    }
    if process.host == TEXT_HOST {
        process.owed = random.pick(&Owed::ALL);
    }
    if process.host == PUP_HOST && random.one_in(2) {
        process.go.waits = true;
        process.go.ticks %= GO_TICKS;
    }
    let most = random.below(BREAKPOINTS + 1);
    for e in 0..BREAKPOINTS {
        add_breakpoint(random, &mut process, e, most);
    }
    process.set = process.breakpoints.iter().filter(|b| b.used()).count() as u8;
    let e = random.below(BREAKPOINTS);
    process.breakpoints[e].lifted = process.breakpoints[e].used() && process.run.allows_lifted();
    process
}

/// A planted breakpoint in entry e, as often as `most` of eight, unless there is
/// one at its address.
fn add_breakpoint(random: &mut Random, process: &mut Process, e: usize, most: usize) {
    let address = breakpoint_address(random, process) % process.size & !1;
    let taken = process.breakpoints.iter().any(|b| b.used() && b.address == address);
    if taken || random.below(BREAKPOINTS) >= most {
        return;
    }
    let remaining =
        if random.one_in(4) { random.free_word() } else { random.pick(&[0, 1, 2, 65535]) };
    let saved = [random.byte(), random.byte()];
    let setter = match process.watcher {
        NOBODY => process.host,
        watcher => random.pick(&[process.host, watcher]),
    };
    process.breakpoints[e] = Breakpoint { lifted: false, setter, address, remaining, saved };
}

/// No Go waits, and bytes may be left of one.
fn old_go(random: &mut Random) -> Go {
    let any = random.free(32) as u32;
    match random.below(3) {
        0 => Go { waits: false, ticks: random.byte(), id: any },
        1 => Go { waits: false, ticks: 99, id: random.pick(&[0, u32::MAX, any]) },
        _ => NONE_THERE.processes[0].go,
    }
}

pub fn some_run(random: &mut Random) -> Run {
    random.pick(&Run::ALL)
}

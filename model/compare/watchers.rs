//! Who asks: the host that debugs a process, the one that watches it, or another.

use crate::calls::{some_host, HOSTS};
use crate::moods::Mood;
use crate::random::Random;
use model::*;

/// Whether WATCH or END WATCH of a process can be granted.
pub fn fits_watch(process: &Process, cmd: u8) -> bool {
    let watched = process.watcher != NOBODY;
    process.host != NOBODY && watched == (cmd == END_WATCH)
}

/// Whether a breakpoint that the watcher set is lifted.
pub fn lifted_of_watcher(process: &Process) -> bool {
    let his = |b: &Breakpoint| b.used() && b.lifted && b.setter == process.watcher;
    process.breakpoints.iter().any(his)
}

/// Whether the process is at a breakpoint that the watcher set.
pub fn at_his(process: &Process) -> bool {
    let his = |b: &Breakpoint| b.used() && b.setter == process.watcher;
    let at_pc = |b: &Breakpoint| his(b) && b.address == process.vector[PC];
    process.run == Run::AtBreakpoint && process.breakpoints.iter().any(at_pc)
}

/// Mostly a host with a right to what is asked.
pub fn asker(random: &mut Random, process: &Process, cmd: u8, mood: &Mood) -> u8 {
    if mood.console != NOBODY && !mood.guest && process.host == NOBODY && !random.one_in(4) {
        return mood.console;
    }
    let shares = matches!(cmd, EXAMINE | BREAK | UNBREAK | STATUS);
    match cmd {
        WATCH => some_watcher(random, process, mood),
        END_WATCH if process.watcher != NOBODY && !random.one_in(4) => process.watcher,
        _ if process.watcher == NOBODY => some_host(random, process.host),
        _ if shares && random.one_in(2) || random.one_in(6) => process.watcher,
        _ => some_host(random, process.host),
    }
}

/// Mostly another than the one who debugs the process; at times the one who watches it.
fn some_watcher(random: &mut Random, process: &Process, mood: &Mood) -> u8 {
    let other = random.pick(&HOSTS);
    match random.below(16) {
        0 => process.host.max(1),
        1 => random.pick(&[1, 254, 255]),
        2 => random.free_byte(),
        3 | 4 if process.watcher != NOBODY => process.watcher,
        _ if mood.console != NOBODY && process.host != mood.console => mood.console,
        _ if other == process.host => some_host(random, NOBODY),
        _ => other,
    }
}

//! What lists tend to.

use model::*;

/// What a list tends to: the weights of the seventeen op codes, how many of sixteen
/// calls are reports, how many lines and how many packets, and whether the reports are such
/// as a machine makes in the run state at hand.
pub struct Mood {
    pub weights: [usize; 17],
    pub reports: usize,
    pub lines: usize,
    pub packets: usize,
    /// While a Go waits, how many of 64 calls are ticks.
    pub patience: usize,
    pub machine: bool,
    /// Host 253 or 254, if it asks rather than another.
    pub console: u8,
    /// Whether it watches rather than debugs.
    pub guest: bool,
}

/// A list without lines, and with few packets.
const fn mood(weights: [usize; 17], reports: usize, machine: bool) -> Mood {
    let (console, guest, patience) = (NOBODY, false, 16);
    Mood { weights, reports, lines: 0, packets: 0, patience, machine, console, guest }
}

/// A list of host 253, with so many lines.
const fn bench(weights: [usize; 17], reports: usize, lines: usize) -> Mood {
    Mood { lines, console: TEXT_HOST, ..mood(weights, reports, true) }
}

/// A list of host 254, with so many packets.
const fn pup(weights: [usize; 17], reports: usize, packets: usize, patience: usize) -> Mood {
    Mood { packets, patience, console: PUP_HOST, ..mood(weights, reports, true) }
}

pub const MOODS: [Mood; 16] = [
    // a little of everything
    mood([1, 6, 2, 2, 4, 3, 4, 2, 5, 2, 3, 3, 2, 2, 3, 2, 3], 4, false),
    // all eight breakpoints of a process
    mood([1, 6, 0, 1, 3, 2, 3, 1, 26, 2, 1, 9, 1, 1, 1, 0, 3], 5, true),
    // all eight processes
    mood([1, 2, 1, 1, 1, 1, 1, 1, 1, 1, 1, 1, 5, 2, 1, 1, 2], 2, false),
    // running, stepping, proceeding
    mood([1, 6, 1, 4, 3, 9, 3, 2, 8, 2, 9, 9, 2, 2, 1, 1, 2], 8, false),
    // processes come and go, with breakpoints
    mood([1, 5, 1, 1, 2, 3, 2, 1, 9, 1, 2, 3, 14, 9, 3, 1, 2], 3, false),
    // breakpoints in loops
    mood([1, 6, 1, 3, 3, 6, 3, 2, 8, 3, 5, 14, 2, 1, 1, 1, 2], 9, true),
    // and such as are taken away while a process passes them
    mood([1, 6, 8, 9, 2, 6, 2, 2, 12, 18, 4, 14, 1, 1, 0, 0, 3], 8, true),
    // a little of everything, and lines
    Mood { lines: 3, ..mood([1, 6, 2, 2, 4, 3, 4, 2, 5, 2, 3, 3, 2, 2, 3, 2, 2], 4, false) },
    // the bench's text debugger: continuing and stepping
    bench([1, 8, 1, 4, 1, 1, 1, 1, 8, 1, 1, 1, 1, 1, 1, 0, 1], 6, 7),
    // looking and storing, breakpoints planted
    bench([1, 6, 1, 3, 2, 1, 2, 2, 9, 2, 1, 1, 2, 1, 1, 1, 1], 3, 10),
    // and answers that are owed are cancelled, and breakpoints taken away
    bench([1, 8, 8, 9, 1, 4, 1, 2, 14, 18, 2, 12, 2, 4, 0, 0, 2], 6, 4),
    // two hosts at a process, each with as many breakpoints as he may have
    mood([1, 5, 1, 1, 2, 3, 3, 1, 30, 3, 1, 6, 1, 1, 6, 1, 4], 4, true),
    // watches come and go, with breakpoints planted and lifted
    mood([1, 6, 2, 2, 2, 5, 3, 1, 20, 5, 6, 12, 1, 2, 8, 9, 3], 7, true),
    // both at breakpoints in loops
    mood([1, 6, 1, 2, 2, 6, 2, 1, 12, 3, 4, 14, 1, 1, 5, 1, 3], 9, true),
    // and the bench's text debugger is one of the two, more often the one who debugs
    bench([1, 8, 1, 3, 1, 1, 1, 1, 16, 2, 1, 1, 1, 1, 8, 2, 3], 5, 5),
    bench([1, 8, 0, 1, 1, 1, 1, 1, 18, 1, 1, 2, 1, 0, 10, 1, 3], 6, 5),
];

/// Those of lists at the Pup door.
pub const PUP_MOODS: [Mood; 5] = [
    // a grower's console: looking and storing, breakpoints planted
    pup([1, 6, 1, 3, 1, 1, 1, 1, 9, 2, 1, 1, 1, 1, 1, 1, 1], 3, 10, 8),
    // it goes, and waits for its replies
    pup([1, 8, 1, 8, 1, 3, 1, 1, 4, 1, 1, 3, 1, 1, 1, 1, 1], 3, 9, 16),
    // it goes, and its replies are lost: many ticks
    pup([1, 8, 1, 9, 1, 3, 1, 1, 4, 1, 2, 3, 0, 0, 1, 1, 1], 3, 4, 60),
    pup([1, 8, 0, 9, 1, 5, 1, 1, 8, 1, 4, 6, 0, 0, 2, 1, 1], 7, 3, 60),
    // it watches
    Mood { guest: true, ..pup([1, 8, 1, 3, 1, 1, 1, 1, 9, 2, 1, 1, 1, 1, 9, 1, 1], 3, 7, 16) },
];

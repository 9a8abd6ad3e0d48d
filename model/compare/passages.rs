//! Rare ways through the rules and the edges of their ranges, and how often a
//! call took each of them.

use crate::about::{has_bytes, old, About};
use crate::passages_go::GO_PASSAGES;
use crate::passages_layout::LAYOUT_PASSAGES;
use crate::passages_lines::LINE_PASSAGES;
use crate::passages_owed::OWED_PASSAGES;
use crate::passages_packets::PACKET_PASSAGES;
use crate::passages_passing::PASSING_PASSAGES;
use crate::passages_status::STATUS_PASSAGES;
use crate::passages_watches::WATCH_PASSAGES;
use crate::passages_watching::WATCHING_PASSAGES;
use crate::sides::Call;
use model::*;

/// A way through the rules: a call takes it if the test holds before the call
/// and the answer is the one named, 0 for granted or the refusal's number.
pub struct Passage {
    name: &'static str,
    by: i64,
    /// Whether calls from a fresh start can take it, or damaged states alone.
    damaged_alone: bool,
    test: fn(&About) -> bool,
}

pub const fn granted(name: &'static str, test: fn(&About) -> bool) -> Passage {
    Passage { name, by: 0, damaged_alone: false, test }
}

pub const fn refused(by: i64, name: &'static str, test: fn(&About) -> bool) -> Passage {
    Passage { name, by, damaged_alone: false, test }
}

pub const fn damaged(name: &'static str, test: fn(&About) -> bool) -> Passage {
    Passage { name, by: 0, damaged_alone: true, test }
}

const PASSAGES: &[Passage] = &[
    // the edges of memory, of a string, of the vector and of a message
    granted("EXAMINE at 4092 of 4", |a| a.asks(EXAMINE, 4092, 4)),
    refused(OUTSIDE, "EXAMINE at 4093 of 4", |a| a.asks(EXAMINE, 4093, 4)),
    granted("EXAMINE at 4096 of 0", |a| a.asks(EXAMINE, 4096, 0)),
    refused(OUTSIDE, "EXAMINE at 4096 of 1", |a| a.asks(EXAMINE, 4096, 1)),
    refused(OUTSIDE, "EXAMINE at 65535 of 2", |a| a.asks(EXAMINE, 65535, 2)),
    granted("EXAMINE of 256", |a| a.is(EXAMINE) && a.count == 256),
    refused(OUTSIDE, "EXAMINE of 257, inside memory", |a| {
        a.is(EXAMINE) && a.count == 257 && a.end() <= a.size()
    }),
    granted("DEPOSIT at 4092 of 4", |a| a.asks(DEPOSIT, 4092, 4)),
    refused(OUTSIDE, "DEPOSIT at 4093 of 4", |a| a.asks(DEPOSIT, 4093, 4)),
    granted("DEPOSIT at 4096 of 0", |a| a.asks(DEPOSIT, 4096, 0)),
    refused(OUTSIDE, "DEPOSIT at 4096 of 1", |a| a.asks(DEPOSIT, 4096, 1)),
    refused(OUTSIDE, "DEPOSIT at 65535 of 2", |a| a.asks(DEPOSIT, 65535, 2)),
    granted("DEPOSIT of 256, a message of 266 bytes", |a| a.is(DEPOSIT) && a.length == 266),
    refused(WRONG_LENGTH, "a message of 267 bytes", |a| a.length == 267),
    granted("DEPOSIT VECTOR at 16 of 2", |a| a.asks(DEPOSIT_STATE_VECTOR, 16, 2)),
    refused(OUTSIDE, "DEPOSIT VECTOR at 17 of 2", |a| a.asks(DEPOSIT_STATE_VECTOR, 17, 2)),
    refused(OUTSIDE, "DEPOSIT VECTOR at 65535 of 2", |a| a.asks(DEPOSIT_STATE_VECTOR, 65535, 2)),
    granted("BREAK at 4094", |a| a.is(BREAK) && a.first == 4094),
    refused(OUTSIDE, "BREAK at 4095", |a| a.is(BREAK) && a.first == 4095),
    refused(OUTSIDE, "BREAK at 4096", |a| a.is(BREAK) && a.first == 4096),
    refused(NO_BREAKPOINT, "UNBREAK at an odd address", |a| a.is(UNBREAK) && a.first % 2 == 1),
    // the edges of a smaller process, and of the feed process in numbers
    granted("EXAMINE to the size", |a| a.small_asks(EXAMINE, 0) && a.count > 0),
    refused(OUTSIDE, "EXAMINE to 1 past the size", |a| a.small_asks(EXAMINE, 1)),
    granted("EXAMINE of 0 at the size", |a| a.small_asks(EXAMINE, 0) && a.count == 0),
    refused(OUTSIDE, "EXAMINE of 0 after the size", |a| a.small_asks(EXAMINE, 1) && a.count == 0),
    refused(OUTSIDE, "EXAMINE past the size, inside 4,096", |a| {
        a.small(EXAMINE) && a.first >= a.size() && a.end() <= 4096
    }),
    granted("EXAMINE of 256 in a smaller process", |a| a.small(EXAMINE) && a.count == 256),
    granted("EXAMINE at 1532 of 4, of 1,536", |a| a.feed() && a.asks(EXAMINE, 1532, 4)),
    refused(OUTSIDE, "EXAMINE at 1533 of 4, of 1,536", |a| a.feed() && a.asks(EXAMINE, 1533, 4)),
    granted("DEPOSIT to the size", |a| a.small_asks(DEPOSIT, 0) && a.count > 0),
    refused(OUTSIDE, "DEPOSIT to 1 past the size", |a| a.small_asks(DEPOSIT, 1)),
    granted("DEPOSIT of 0 at the size", |a| a.small_asks(DEPOSIT, 0) && a.count == 0),
    refused(OUTSIDE, "DEPOSIT of 0 after the size", |a| a.small_asks(DEPOSIT, 1) && a.count == 0),
    refused(OUTSIDE, "DEPOSIT past the size, inside 4,096", |a| {
        a.small(DEPOSIT) && a.first >= a.size() && a.end() <= 4096
    }),
    granted("BREAK at size - 2", |a| a.small(BREAK) && a.first + 2 == a.size()),
    refused(OUTSIDE, "BREAK at size - 1", |a| a.small(BREAK) && a.first + 1 == a.size()),
    refused(OUTSIDE, "BREAK at the size", |a| a.small(BREAK) && a.first == a.size()),
    refused(OUTSIDE, "BREAK past the size, inside 4,096", |a| {
        a.small(BREAK) && a.first > a.size() && a.first < 4096 && a.first % 2 == 0
    }),
    refused(OUTSIDE, "BREAK past the size with eight set", |a| {
        a.small(BREAK) && a.first >= a.size() && a.used() == 8
    }),
    refused(NO_BREAKPOINT, "UNBREAK at the size", |a| a.small(UNBREAK) && a.first == a.size()),
    refused(NO_RIGHT, "stranger past the size", |a| a.small(EXAMINE) && a.end() > a.size()),
    granted("BPT with PC past the size", |a| {
        a.bpt() && usize::from(a.pc) >= a.size() && a.pc < 4096
    }),
    granted("BPT passed at size - 2", |a| a.passes() && usize::from(a.pc) + 2 == a.size()),
    granted("EXAMINE of a whole process of 2 bytes", |a| {
        a.is(EXAMINE) && a.size() == 2 && a.count == 2
    }),
    granted("EXAMINE of a whole process of 4 bytes", |a| {
        a.is(EXAMINE) && a.size() == 4 && a.count == 4
    }),
    granted("EXAMINE at 4090 of 4, of 4,094", |a| a.asks(EXAMINE, 4090, 4) && a.size() == 4094),
    granted("END DEBUG of a smaller process", |a| a.small(END_DEBUG)),
    granted("DESTROY of a smaller process", |a| a.small(DESTROY_PROCESS)),
    damaged("CREATE over a record with another size", |a| {
        a.is(CREATE_PROCESS) && a.created().is_some_and(|p| a.state.processes[p].size != LARGEST)
    }),
    // setting and removing breakpoints
    granted("BREAK plants", |a| a.is(BREAK) && !a.known()),
    granted("BREAK plants the eighth", |a| a.is(BREAK) && !a.known() && a.used() == 7),
    granted("BREAK, new count for a planted one", |a| a.is(BREAK) && a.here(Breakpoint::planted)),
    granted("BREAK, new count for a lifted one", |a| a.is(BREAK) && a.here(|b| b.lifted)),
    granted("BREAK, new count for one of eight", |a| a.is(BREAK) && a.known() && a.used() == 8),
    granted("BREAK into a freed entry before others", |a| a.is(BREAK) && a.gap() && !a.known()),
    granted("UNBREAK of a planted one", |a| a.is(UNBREAK) && a.here(Breakpoint::planted)),
    granted("UNBREAK of one written over", |a| a.is(UNBREAK) && a.here(|b| a.written_over(b))),
    granted("UNBREAK of a lifted one", |a| a.is(UNBREAK) && a.here(|b| b.lifted)),
    // reports
    granted("BPT passed in silence", |a| a.passes()),
    granted("BPT passed at the lifted one itself", |a| a.passes() && a.lifted_at_pc()),
    granted("BPT passed while another is lifted", |a| {
        a.passes() && a.lifted() && !a.lifted_at_pc()
    }),
    granted("BPT passed while stepping", |a| a.passes() && a.process.run == Run::Stepping),
    granted("BPT at a breakpoint with count 0", |a| a.bpt() && a.at_pc() && !a.passes()),
    granted("BPT where there is no breakpoint", |a| a.bpt() && !a.at_pc()),
    granted("stopping report plants the lifted one", |a| {
        a.kind.is_some() && a.lifted() && !a.passes()
    }),
    // the run state
    granted("STOP plants the lifted one", |a| a.is(STOP) && a.lifted()),
    granted("PROCEED BPT lifts", |a| a.is(PROCEED_BPT) && a.at_pc()),
    granted("PROCEED BPT with none at PC", |a| a.is(PROCEED_BPT) && !a.at_pc()),
    granted("SINGLE STEP lifts", |a| {
        a.is(SINGLE_STEP) && a.at_pc() && a.process.run == Run::AtBreakpoint
    }),
    granted("SINGLE STEP from stopped, one at PC", |a| {
        a.is(SINGLE_STEP) && a.at_pc() && a.process.run == Run::Stopped
    }),
    granted("RESUME with one at PC", |a| a.is(RESUME) && a.at_pc()),
    // memory under breakpoints
    granted("EXAMINE of a planted word", |a| a.is(EXAMINE) && a.over(2, Breakpoint::planted)),
    granted("EXAMINE of half a planted word", |a| a.is(EXAMINE) && a.over(1, Breakpoint::planted)),
    granted("EXAMINE of one written over", |a| a.is(EXAMINE) && a.over(2, |b| a.written_over(b))),
    granted("EXAMINE of a lifted word", |a| a.is(EXAMINE) && a.over(2, |b| b.lifted)),
    granted("DEPOSIT into a planted word", |a| a.is(DEPOSIT) && a.over(2, Breakpoint::planted)),
    granted("DEPOSIT into half a planted word", |a| {
        a.is(DEPOSIT) && a.over(1, Breakpoint::planted)
    }),
    granted("DEPOSIT into one written over", |a| a.is(DEPOSIT) && a.over(2, |b| a.written_over(b))),
    granted("DEPOSIT into a lifted word", |a| a.is(DEPOSIT) && a.over(2, |b| b.lifted)),
    // ends and beginnings
    granted("END DEBUG with a planted one", |a| a.is(END_DEBUG) && a.some(Breakpoint::planted)),
    granted("END DEBUG with one written over", |a| {
        a.is(END_DEBUG) && a.some(|b| a.written_over(b))
    }),
    granted("END DEBUG with a lifted one", |a| a.is(END_DEBUG) && a.lifted()),
    granted("END DEBUG while stepping", |a| a.is(END_DEBUG) && a.process.run == Run::Stepping),
    granted("END DEBUG when ended", |a| a.is(END_DEBUG) && a.process.run == Run::Ended),
    damaged("END DEBUG with bytes in a free entry", |a| a.is(END_DEBUG) && old(a.process)),
    granted("DESTROY with a planted one", |a| a.is(DESTROY_PROCESS) && a.some(Breakpoint::planted)),
    granted("DESTROY with a lifted one", |a| a.is(DESTROY_PROCESS) && a.lifted()),
    damaged("DESTROY with bytes in a free entry", |a| a.is(DESTROY_PROCESS) && old(a.process)),
    granted("CREATE below a process that is there", |a| {
        a.is(CREATE_PROCESS)
            && a.created().is_some_and(|p| a.state.processes[p..].iter().any(|q| q.there))
    }),
    granted("CREATE where memory is not zero", |a| {
        a.is(CREATE_PROCESS) && a.new_place().iter().any(|&b| b != 0)
    }),
    damaged("CREATE over a record with a vector", |a| {
        a.is(CREATE_PROCESS)
            && a.created().is_some_and(|p| a.state.processes[p].vector != [0; WORDS])
    }),
    damaged("CREATE over a record with bytes in an entry", |a| {
        a.is(CREATE_PROCESS) && a.created().is_some_and(|p| old(&a.state.processes[p]))
    }),
    damaged("BREAK into an entry with bytes in it", |a| {
        a.is(BREAK) && !a.known() && a.lowest_free().is_some_and(has_bytes)
    }),
];

// ---------------------------------------------------------------- counting

/// Every passage, in the order in which they are counted.
fn every() -> impl Iterator<Item = &'static Passage> {
    let lines = LINE_PASSAGES.iter().chain(OWED_PASSAGES);
    let watches = WATCH_PASSAGES.iter().chain(WATCHING_PASSAGES).chain(STATUS_PASSAGES);
    let packets = PACKET_PASSAGES.iter().chain(GO_PASSAGES);
    let later = PASSING_PASSAGES.iter().chain(lines).chain(watches).chain(packets);
    PASSAGES.iter().chain(LAYOUT_PASSAGES).chain(later)
}

/// The passages whose test holds before a call.
pub struct Open(Vec<bool>);

pub fn open(state: &State, memory: &[u8], call: &Call) -> Open {
    let about = About::new(state, memory, call);
    Open(every().map(|passage| (passage.test)(&about)).collect())
}

/// How often each passage was taken.
pub struct Passages(Vec<u64>);

impl Passages {
    pub fn new() -> Passages {
        Passages(vec![0; every().count()])
    }

    pub fn count(&mut self, open: &Open, answer: i64) {
        let by = answer.min(0).abs();
        for ((n, passage), open) in self.0.iter_mut().zip(every()).zip(&open.0) {
            *n += u64::from(*open && passage.by == by);
        }
    }
}

/// Prints how often each was taken on states that a fresh start leads to, and
/// on damaged ones.
pub fn print(fresh: &Passages, damaged: &Passages) {
    for (i, passage) in every().enumerate() {
        let by = match passage.by {
            0 => String::new(),
            number => format!(", refused by {number}"),
        };
        let fresh = match fresh.0[i] {
            0 if passage.damaged_alone => ".".to_string(),
            n => n.to_string(),
        };
        println!("{fresh:>8} {:>8}  {}{by}", damaged.0[i], passage.name);
    }
}

/// The passages never taken that can be.
pub fn wrong(fresh: &Passages, damaged: &Passages) -> Vec<String> {
    let met =
        |i: usize, passage: &Passage| (fresh.0[i] > 0 || passage.damaged_alone) && damaged.0[i] > 0;
    let missed = every().enumerate().filter(|(i, passage)| !met(*i, passage));
    missed.map(|(_, passage)| passage.name.to_string()).collect()
}

//! Rare ways through K5's rules of breakpoints: whose they are, how many each may set, and
//! who is told.

use crate::about::{has_bytes, About};
use crate::passages::{damaged, granted, refused, Passage};
use model::*;

pub const WATCHING_PASSAGES: &[Passage] = &[
    // what a watcher may
    granted("EXAMINE by the watcher", |a| a.is(EXAMINE) && a.watcher()),
    granted("EXAMINE by the watcher, of a word that the other planted", |a| {
        a.is(EXAMINE) && a.watcher() && a.over(2, |b| b.planted() && !a.sets(b))
    }),
    granted("EXAMINE by the debugging host, of a word that the watcher planted", |a| {
        a.is(EXAMINE) && a.owner() && a.over(2, |b| b.planted() && !a.sets(b))
    }),
    granted("DEPOSIT into a word that the watcher planted", |a| {
        a.is(DEPOSIT) && a.over(2, |b| b.planted() && !a.sets(b))
    }),
    granted("BREAK by the watcher plants", |a| a.plants() && a.watcher()),
    granted("BREAK by the watcher plants his fourth", |a| {
        a.plants() && a.watcher() && a.his() == 3
    }),
    granted("BREAK by the watcher plants the eighth", |a| {
        a.plants() && a.watcher() && a.used() == 7
    }),
    granted("BREAK by the debugging host plants his fourth while watched", |a| {
        a.plants() && a.owner() && a.watched() && a.his() == 3
    }),
    granted("BREAK by the debugging host plants the eighth while watched", |a| {
        a.plants() && a.owner() && a.watched() && a.used() == 7
    }),
    granted("BREAK by the debugging host plants a fifth, not watched", |a| {
        a.plants() && !a.watched() && a.his() == 4
    }),
    granted("BREAK by the watcher into a freed entry before others", |a| {
        a.plants() && a.watcher() && a.gap()
    }),
    damaged("BREAK by the watcher into an entry with bytes in it", |a| {
        a.plants() && a.watcher() && a.lowest_free().is_some_and(has_bytes)
    }),
    granted("BREAK by the watcher, new count for his own", |a| {
        a.is(BREAK) && a.watcher() && a.here(|b| a.sets(b))
    }),
    granted("BREAK by the watcher, new count for one of his four", |a| {
        a.is(BREAK) && a.watcher() && a.known() && a.his() == 4
    }),
    granted("BREAK by the watcher, new count for his lifted one", |a| {
        a.is(BREAK) && a.watcher() && a.here(|b| b.lifted)
    }),
    granted("BREAK, new count for one of more than four while watched", |a| {
        a.is(BREAK) && a.owner() && a.watched() && a.known() && a.his() > 4
    }),
    granted("UNBREAK by the watcher of a planted one", |a| {
        a.is(UNBREAK) && a.watcher() && a.here(Breakpoint::planted)
    }),
    granted("UNBREAK by the watcher of one written over", |a| {
        a.is(UNBREAK) && a.watcher() && a.here(|b| a.written_over(b))
    }),
    granted("UNBREAK by the watcher of his lifted one while passing", |a| {
        a.is(UNBREAK) && a.watcher() && a.passing() && a.here(|b| b.lifted)
    }),
    granted("UNBREAK by the debugging host of his own while watched", |a| {
        a.is(UNBREAK) && a.owner() && a.watched()
    }),
    granted("UNBREAK by the debugging host of one of more than four while watched", |a| {
        a.is(UNBREAK) && a.owner() && a.watched() && a.his() > 4
    }),
    // 10 and 12 of a watcher
    refused(OUTSIDE, "EXAMINE by the watcher, outside", |a| a.is(EXAMINE) && a.watcher()),
    refused(OUTSIDE, "BREAK by the watcher, odd", |a| {
        a.is(BREAK) && a.watcher() && a.first % 2 == 1
    }),
    refused(OUTSIDE, "BREAK by the watcher at the size", |a| {
        a.is(BREAK) && a.watcher() && a.first == a.size()
    }),
    refused(OUTSIDE, "BREAK by one with four of his own, outside", |a| {
        a.is(BREAK) && a.watched() && a.his() > 3
    }),
    refused(NO_BREAKPOINT, "UNBREAK by the watcher where none is", |a| {
        a.is(UNBREAK) && a.watcher()
    }),
    refused(NO_BREAKPOINT, "UNBREAK by the debugging host where none is, watched", |a| {
        a.is(UNBREAK) && a.owner() && a.watched()
    }),
    // 11
    refused(NINTH, "BREAK by the watcher, a fifth with entries free", |a| {
        a.watcher() && a.his() == 4 && a.used() < 8
    }),
    refused(NINTH, "BREAK by the debugging host, a fifth with entries free", |a| {
        a.owner() && a.watched() && a.his() == 4 && a.used() < 8
    }),
    refused(NINTH, "BREAK by the debugging host, a sixth with five from before", |a| {
        a.owner() && a.watched() && a.his() == 5 && a.used() < 8
    }),
    refused(NINTH, "BREAK by the debugging host, an eighth with seven from before", |a| {
        a.owner() && a.watched() && a.his() == 7 && a.used() < 8
    }),
    refused(NINTH, "BREAK by the watcher, a ninth and his fifth", |a| {
        a.watcher() && a.his() == 4 && a.used() == 8
    }),
    refused(NINTH, "BREAK by the debugging host, a ninth and his fifth", |a| {
        a.owner() && a.watched() && a.his() == 4 && a.used() == 8
    }),
    refused(NINTH, "BREAK by the watcher, a ninth and not his fifth", |a| {
        a.watcher() && a.his() < 4 && a.used() == 8
    }),
    refused(NINTH, "BREAK by the watcher, a ninth and his first", |a| {
        a.watcher() && a.his() == 0 && a.used() == 8
    }),
    damaged("BREAK by the debugging host, his fourth, with four and more of the watcher's", |a| {
        a.plants() && a.owner() && a.watched() && a.his() < 4 && a.used() > a.his() + 4
    }),
    // 16
    refused(THE_OTHERS, "BREAK by the watcher at the other's", |a| a.is(BREAK) && a.watcher()),
    refused(THE_OTHERS, "BREAK by the debugging host at the watcher's", |a| {
        a.is(BREAK) && a.owner()
    }),
    refused(THE_OTHERS, "BREAK at the other's with eight used", |a| a.is(BREAK) && a.used() == 8),
    refused(THE_OTHERS, "BREAK by the watcher at the other's with four of his own", |a| {
        a.is(BREAK) && a.watcher() && a.his() == 4
    }),
    refused(THE_OTHERS, "BREAK by the debugging host at the watcher's with four of his own", |a| {
        a.is(BREAK) && a.owner() && a.his() == 4 && a.used() < 8
    }),
    refused(THE_OTHERS, "BREAK at the other's lifted one", |a| a.is(BREAK) && a.here(|b| b.lifted)),
    refused(THE_OTHERS, "BREAK at the other's with the count that it has", |a| {
        a.is(BREAK) && a.here(|b| usize::from(b.remaining) == a.count)
    }),
    refused(THE_OTHERS, "UNBREAK by the watcher of the other's", |a| a.is(UNBREAK) && a.watcher()),
    refused(THE_OTHERS, "UNBREAK by the debugging host of the watcher's", |a| {
        a.is(UNBREAK) && a.owner()
    }),
    refused(THE_OTHERS, "UNBREAK of the other's lifted one", |a| {
        a.is(UNBREAK) && a.here(|b| b.lifted)
    }),
    refused(THE_OTHERS, "UNBREAK of the other's one written over", |a| {
        a.is(UNBREAK) && a.here(|b| a.written_over(b))
    }),
    // who is told
    granted("BPT at the watcher's breakpoint", |a| a.stops() && a.at_watchers()),
    granted("BPT at the watcher's breakpoint while stepping", |a| {
        a.stops() && a.at_watchers() && a.runs(Run::Stepping)
    }),
    granted("BPT at the watcher's breakpoint while passing", |a| {
        a.stops() && a.at_watchers() && a.passing()
    }),
    granted("BPT at the watcher's breakpoint in the eighth entry", |a| {
        let eighth = a.process.breakpoints[BREAKPOINTS - 1];
        a.stops() && a.at_watchers() && eighth.used() && eighth.address == a.pc
    }),
    granted("BPT at host 253's breakpoint, who watches", |a| {
        a.stops() && a.at_watchers() && a.process.watcher == TEXT_HOST
    }),
    granted("BPT at the debugging host's breakpoint while watched", |a| {
        a.stops() && a.watched() && a.at_pc() && !a.at_watchers()
    }),
    granted("BPT where there is no breakpoint while watched", |a| {
        a.stops() && a.watched() && !a.at_pc()
    }),
    granted("TRAP at the watcher's breakpoint", |a| a.kind == Some(TRAP) && a.at_watchers()),
    granted("HALT at the watcher's breakpoint", |a| a.kind == Some(HALT) && a.at_watchers()),
    granted("TTRAP at the watcher's breakpoint while stepping", |a| {
        a.ttrap() && a.at_watchers() && a.runs(Run::Stepping)
    }),
    granted("TTRAP at the watcher's breakpoint while passing", |a| {
        a.ttrap() && a.at_watchers() && a.passing()
    }),
    granted("BPT passed at the watcher's breakpoint", |a| a.passes() && a.at_watchers()),
    granted("BPT passed at the watcher's breakpoint while stepping", |a| {
        a.passes() && a.at_watchers() && a.runs(Run::Stepping)
    }),
    granted("BPT passed at the watcher's breakpoint, the other's lifted", |a| {
        a.passes() && a.at_watchers() && a.some(|b| b.lifted && b.setter == a.process.host)
    }),
    granted("a report plants the watcher's lifted one", |a| {
        a.kind.is_some() && a.watchers_lifted() && !a.passes()
    }),
    granted("BPT at the watcher's breakpoint answers c", |a| {
        a.stops() && a.at_watchers() && a.process.owed == Owed::Continue
    }),
    granted("BPT at the watcher's breakpoint answers s", |a| {
        a.stops() && a.at_watchers() && a.process.owed == Owed::Step
    }),
    granted("BPT passed at the watcher's breakpoint while an answer is owed", |a| {
        a.passes() && a.at_watchers() && a.process.owed != Owed::Nothing
    }),
    // the debugging host goes on at the watcher's breakpoint
    granted("PROCEED BPT lifts the watcher's", |a| a.is(PROCEED_BPT) && a.at_watchers()),
    granted("SINGLE STEP lifts the watcher's", |a| {
        a.is(SINGLE_STEP) && a.at_watchers() && a.runs(Run::AtBreakpoint)
    }),
    granted("RESUME with the watcher's at PC", |a| a.is(RESUME) && a.at_watchers()),
    granted("STOP plants the watcher's lifted one", |a| a.is(STOP) && a.watchers_lifted()),
    granted("c at the watcher's breakpoint lifts", |a| {
        a.says(b"c") && a.first == 1 && a.runs(Run::AtBreakpoint) && a.at_watchers()
    }),
    granted("s at the watcher's breakpoint lifts", |a| {
        a.says(b"s") && a.first == 1 && a.runs(Run::AtBreakpoint) && a.at_watchers()
    }),
    granted("I into a word that the watcher planted", |a| {
        a.says(b"ID") && a.over(2, |b| b.planted() && !a.sets(b))
    }),
];

impl About<'_> {
    /// Whether the asker set a breakpoint.
    fn sets(&self, b: &Breakpoint) -> bool {
        b.setter == self.asker
    }

    /// Whether BREAK asks for a new breakpoint.
    fn plants(&self) -> bool {
        self.is(BREAK) && !self.known()
    }

    /// Whether a breakpoint of the watcher is lifted.
    fn watchers_lifted(&self) -> bool {
        self.watched() && self.some(|b| b.lifted && b.setter == self.process.watcher)
    }
}

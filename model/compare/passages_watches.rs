//! Rare ways through K5's rules of watches: who may watch, what a watcher may, and what ends
//! a watch.

use crate::about::{old, About};
use crate::passages::{damaged, granted, refused, Passage};
use model::*;

/// The numbers of a line that is refused.
const NO_RIGHT_TO: i64 = 101;
const BAD_ADDRESS: i64 = 114;
const INVALID: i64 = 122;

pub const WATCH_PASSAGES: &[Passage] = &[
    // WATCH
    granted("WATCH", |a| a.is(WATCH) && !a.watched()),
    granted("WATCH again by the same", |a| a.is(WATCH) && a.watched()),
    granted("WATCH again by the same, with breakpoints of his", |a| a.is(WATCH) && a.his() > 0),
    granted("WATCH by host 253", |a| a.is(WATCH) && a.asker == TEXT_HOST),
    granted("WATCH by host 254", |a| a.is(WATCH) && a.asker == 254),
    granted("WATCH by host 255", |a| a.is(WATCH) && a.asker == 255),
    granted("WATCH by host 1", |a| a.is(WATCH) && a.asker == 1),
    granted("WATCH of one that host 253 debugs", |a| a.is(WATCH) && a.process.host == TEXT_HOST),
    granted("WATCH while running", |a| a.is(WATCH) && a.runs(Run::Running)),
    granted("WATCH while stepping", |a| a.is(WATCH) && a.runs(Run::Stepping)),
    granted("WATCH while stopped", |a| a.is(WATCH) && a.runs(Run::Stopped)),
    granted("WATCH at a breakpoint", |a| a.is(WATCH) && a.runs(Run::AtBreakpoint)),
    granted("WATCH when ended", |a| a.is(WATCH) && a.runs(Run::Ended)),
    granted("WATCH while passing", |a| a.is(WATCH) && a.passing() && a.lifted()),
    granted("WATCH with four set", |a| a.is(WATCH) && !a.watched() && a.used() == 4),
    granted("WATCH with five set", |a| a.is(WATCH) && !a.watched() && a.used() == 5),
    granted("WATCH with eight set", |a| a.is(WATCH) && !a.watched() && a.used() == 8),
    granted("WATCH while an answer is owed", |a| a.is(WATCH) && a.process.owed != Owed::Nothing),
    refused(WATCHED, "WATCH while another watches", |a| a.is(WATCH)),
    refused(WATCHED, "WATCH by host 253 while another watches", |a| {
        a.is(WATCH) && a.asker == TEXT_HOST
    }),
    refused(WATCHED, "WATCH while host 253 watches", |a| {
        a.is(WATCH) && a.process.watcher == TEXT_HOST
    }),
    refused(WATCHED, "WATCH while host 255 watches", |a| a.is(WATCH) && a.process.watcher == 255),
    refused(NO_RIGHT, "WATCH with no debugging host", |a| a.is(WATCH) && a.hostless()),
    refused(NO_RIGHT, "WATCH by the debugging host", |a| a.is(WATCH) && a.owner() && !a.watched()),
    refused(NO_RIGHT, "WATCH by the debugging host while another watches", |a| {
        a.is(WATCH) && a.owner() && a.watched()
    }),
    // END WATCH
    granted("END WATCH with none of his", |a| a.is(END_WATCH) && a.used() == 0),
    granted("END WATCH with one planted", |a| a.is(END_WATCH) && a.his() == 1 && !a.lifted()),
    granted("END WATCH with several", |a| a.is(END_WATCH) && a.his() > 1),
    granted("END WATCH with four of his and four of the other's", |a| {
        a.is(END_WATCH) && a.his() == 4 && a.used() == 8
    }),
    granted("END WATCH with the other's alone", |a| {
        a.is(END_WATCH) && a.his() == 0 && a.used() > 0
    }),
    granted("END WATCH with one of his before one of the other's", |a| {
        let his = |b: &Breakpoint| b.used() && b.setter == a.asker;
        let pairs = a.process.breakpoints.windows(2);
        a.is(END_WATCH) && pairs.into_iter().any(|w| his(&w[0]) && w[1].used() && !his(&w[1]))
    }),
    granted("END WATCH with his lifted one while passing", |a| {
        a.is(END_WATCH) && a.passing() && a.some(|b| b.lifted && b.setter == a.asker)
    }),
    granted("END WATCH with his lifted one while stepping", |a| {
        a.is(END_WATCH) && a.runs(Run::Stepping) && a.some(|b| b.lifted && b.setter == a.asker)
    }),
    granted("END WATCH with his lifted one, its word changed meanwhile", |a| {
        let changed = |b: &Breakpoint| b.setter == a.asker && a.changed_while_lifted(b);
        a.is(END_WATCH) && a.some(|b| b.lifted && changed(b))
    }),
    granted("END WATCH with the other's lifted one", |a| {
        a.is(END_WATCH) && a.some(|b| b.lifted && b.setter != a.asker)
    }),
    granted("END WATCH with one of his written over", |a| {
        a.is(END_WATCH) && a.some(|b| b.setter == a.asker && a.written_over(b))
    }),
    granted("END WATCH with one of the other's written over", |a| {
        a.is(END_WATCH) && a.some(|b| b.setter != a.asker && a.written_over(b))
    }),
    granted("END WATCH with his at the last word", |a| {
        a.is(END_WATCH) && a.some(|b| b.setter == a.asker && b.address + 2 == a.process.size)
    }),
    granted("END WATCH when ended", |a| a.is(END_WATCH) && a.runs(Run::Ended)),
    granted("END WATCH at a breakpoint of his", |a| {
        a.is(END_WATCH) && a.runs(Run::AtBreakpoint) && a.at_watchers()
    }),
    granted("END WATCH while an answer is owed", |a| {
        a.is(END_WATCH) && a.process.owed != Owed::Nothing
    }),
    granted("END WATCH by host 253", |a| a.is(END_WATCH) && a.asker == TEXT_HOST),
    damaged("END WATCH with bytes in a free entry", |a| a.is(END_WATCH) && old(a.process)),
    damaged("END WATCH with more than four of his", |a| a.is(END_WATCH) && a.his() > 4),
    refused(NO_RIGHT, "END WATCH by the debugging host", |a| {
        a.is(END_WATCH) && a.owner() && a.watched()
    }),
    refused(NO_RIGHT, "END WATCH by a third", |a| a.is(END_WATCH) && !a.owner() && a.watched()),
    refused(NO_RIGHT, "END WATCH when nobody watches", |a| {
        a.is(END_WATCH) && !a.hostless() && !a.watched()
    }),
    refused(NO_RIGHT, "END WATCH when nobody debugs", |a| a.is(END_WATCH) && a.hostless()),
    // a watcher's other requests
    refused(NO_RIGHT, "DEBUG by the watcher", |a| a.is(DEBUG) && a.watcher()),
    refused(NO_RIGHT, "END DEBUG by the watcher", |a| a.is(END_DEBUG) && a.watcher()),
    refused(NO_RIGHT, "STOP by the watcher", |a| a.is(STOP) && a.watcher()),
    refused(NO_RIGHT, "DEPOSIT by the watcher", |a| a.is(DEPOSIT) && a.watcher()),
    refused(NO_RIGHT, "DEPOSIT by the watcher, outside", |a| {
        a.is(DEPOSIT) && a.watcher() && a.end() > a.size()
    }),
    refused(NO_RIGHT, "RESUME by the watcher", |a| {
        a.is(RESUME) && a.watcher() && a.process.run.waits()
    }),
    refused(NO_RIGHT, "RESUME by the watcher in a wrong state", |a| {
        a.is(RESUME) && a.watcher() && !a.process.run.waits()
    }),
    refused(NO_RIGHT, "DEPOSIT VECTOR by the watcher", |a| {
        a.is(DEPOSIT_STATE_VECTOR) && a.watcher()
    }),
    refused(NO_RIGHT, "SINGLE STEP by the watcher", |a| {
        a.is(SINGLE_STEP) && a.watcher() && a.process.run.waits()
    }),
    refused(NO_RIGHT, "PROCEED BPT by the watcher, at his breakpoint", |a| {
        a.is(PROCEED_BPT) && a.watcher() && a.runs(Run::AtBreakpoint) && a.at_watchers()
    }),
    refused(NO_RIGHT, "DESTROY by the watcher", |a| a.is(DESTROY_PROCESS) && a.watcher()),
    granted("CREATE by one who watches another", |a| {
        let watches = |p: &Process| p.watcher == a.asker;
        a.is(CREATE_PROCESS) && a.state.processes.iter().any(watches)
    }),
    refused(NO_RIGHT, "EXAMINE by a third while watched", |a| a.is(EXAMINE) && a.watched()),
    refused(NO_RIGHT, "BREAK by a third while watched", |a| a.is(BREAK) && a.watched()),
    refused(NO_RIGHT, "UNBREAK by a third while watched, of one that is set", |a| {
        a.is(UNBREAK) && a.watched() && a.known()
    }),
    // what ends a watch
    granted("END DEBUG while watched", |a| a.is(END_DEBUG) && a.watched() && a.used() == 0),
    granted("END DEBUG with the watcher's planted", |a| {
        a.is(END_DEBUG) && a.some(|b| b.planted() && b.setter == a.process.watcher)
    }),
    granted("END DEBUG with the watcher's lifted", |a| {
        a.is(END_DEBUG) && a.some(|b| b.lifted && b.setter == a.process.watcher)
    }),
    granted("END DEBUG with both hosts' planted", |a| {
        a.is(END_DEBUG)
            && a.some(|b| b.planted() && b.setter == a.process.watcher)
            && a.some(|b| b.planted() && b.setter == a.process.host)
    }),
    granted("DESTROY while watched", |a| a.is(DESTROY_PROCESS) && a.watched()),
    granted("DESTROY with the watcher's planted", |a| {
        a.is(DESTROY_PROCESS) && a.some(|b| b.planted() && b.setter == a.process.watcher)
    }),
    granted("DESTROY that moves one that is watched", |a| {
        let watched = |&p: &usize| a.state.processes[p].watcher != NOBODY;
        a.is(DESTROY_PROCESS) && a.above().iter().any(watched)
    }),
    granted("DESTROY that moves a watcher's planted word", |a| {
        a.moves(|p, b| b.planted() && b.setter == p.watcher)
    }),
    granted("DEBUG again while watched", |a| a.is(DEBUG) && a.watched()),
    granted("STOP while watched", |a| a.is(STOP) && a.watched()),
    granted("one watches two processes", |a| {
        let his = |p: &&Process| p.watcher == a.asker;
        a.is(WATCH) && !a.watched() && a.state.processes.iter().filter(his).count() > 0
    }),
    // lines of host 253 as a watcher
    granted("i by the watcher", |a| a.says(b"i") && a.watcher()),
    granted("d by the watcher", |a| a.says(b"d") && a.watcher()),
    granted("i by the watcher, of a word that the other planted", |a| {
        a.says(b"id") && a.watcher() && a.over(2, |b| b.planted() && b.setter != a.asker)
    }),
    granted("i by the watcher, of a word that he planted", |a| {
        a.says(b"id") && a.watcher() && a.over(2, |b| b.planted() && b.setter == a.asker)
    }),
    refused(NO_RIGHT_TO, "I by the watcher", |a| a.says(b"I") && a.watcher()),
    refused(NO_RIGHT_TO, "D by the watcher", |a| a.says(b"D") && a.watcher()),
    refused(NO_RIGHT_TO, "r by the watcher", |a| a.says(b"r") && a.watcher()),
    refused(NO_RIGHT_TO, "R by the watcher", |a| a.says(b"R") && a.watcher()),
    refused(NO_RIGHT_TO, "c by the watcher", |a| {
        a.says(b"c") && a.watcher() && a.process.run.waits()
    }),
    refused(NO_RIGHT_TO, "s by the watcher", |a| {
        a.says(b"s") && a.watcher() && a.process.run.waits()
    }),
    refused(BAD_ADDRESS, "i by the watcher, outside", |a| {
        a.says(b"id") && a.watcher() && a.end() > a.size()
    }),
    refused(BAD_ADDRESS, "i by the watcher, not aligned", |a| {
        a.says(b"id") && a.watcher() && a.first % 4 != 0
    }),
    refused(INVALID, "an unreadable line by the watcher", |a| {
        a.line.is_some_and(|line| line.arguments.is_none()) && a.watcher()
    }),
    granted("i of host 253's process while another watches", |a| {
        a.says(b"id") && a.owner() && a.watched()
    }),
    granted("c of host 253's process while another watches", |a| {
        a.says(b"c") && a.owner() && a.watched()
    }),
    granted("s of host 253's process while another watches", |a| {
        a.says(b"s") && a.owner() && a.watched()
    }),
    refused(NO_RIGHT_TO, "i of a process that another than host 253 watches", |a| {
        a.says(b"id") && a.watched() && !a.owner()
    }),
];

impl About<'_> {
    pub fn watched(&self) -> bool {
        self.process.watcher != NOBODY
    }

    /// Whether the asker watches the process.
    pub fn watcher(&self) -> bool {
        self.watched() && self.process.watcher == self.asker
    }

    /// Whether the asker debugs the process.
    pub fn owner(&self) -> bool {
        self.asker != NOBODY && self.process.host == self.asker
    }

    /// How many breakpoints are the asker's.
    pub fn his(&self) -> usize {
        self.process.breakpoints.iter().filter(|b| b.used() && b.setter == self.asker).count()
    }

    /// Whether a breakpoint of the watcher is at PC.
    pub fn at_watchers(&self) -> bool {
        self.watched() && self.some(|b| b.address == self.pc && b.setter == self.process.watcher)
    }
}

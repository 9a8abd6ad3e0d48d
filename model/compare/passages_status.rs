//! Rare ways through K6: who asks for STATUS, in which run state and of how many breakpoints;
//! and how the number falls.

use crate::about::{old, About};
use crate::passages::{damaged, granted, refused, Passage};
use model::*;

pub const STATUS_PASSAGES: &[Passage] = &[
    // each run state, by both who may ask
    granted("STATUS, running", |a| a.status(Run::Running) && a.owner()),
    granted("STATUS, stepping", |a| a.status(Run::Stepping) && a.owner()),
    granted("STATUS, stopped", |a| a.status(Run::Stopped) && a.owner()),
    granted("STATUS, at a breakpoint", |a| a.status(Run::AtBreakpoint) && a.owner()),
    granted("STATUS, ended", |a| a.status(Run::Ended) && a.owner()),
    granted("STATUS, passing", |a| a.status(Run::Passing) && a.owner()),
    granted("STATUS by the watcher, running", |a| a.status(Run::Running) && a.watcher()),
    granted("STATUS by the watcher, stepping", |a| a.status(Run::Stepping) && a.watcher()),
    granted("STATUS by the watcher, stopped", |a| a.status(Run::Stopped) && a.watcher()),
    granted("STATUS by the watcher, at a breakpoint", |a| {
        a.status(Run::AtBreakpoint) && a.watcher()
    }),
    granted("STATUS by the watcher, ended", |a| a.status(Run::Ended) && a.watcher()),
    granted("STATUS by the watcher, passing", |a| a.status(Run::Passing) && a.watcher()),
    // each number
    granted("STATUS, none set", |a| a.is(STATUS) && a.used() == 0),
    granted("STATUS, one set", |a| a.is(STATUS) && a.used() == 1),
    granted("STATUS, two set", |a| a.is(STATUS) && a.used() == 2),
    granted("STATUS, three set", |a| a.is(STATUS) && a.used() == 3),
    granted("STATUS, four set", |a| a.is(STATUS) && a.used() == 4),
    granted("STATUS, five set", |a| a.is(STATUS) && a.used() == 5),
    granted("STATUS, six set", |a| a.is(STATUS) && a.used() == 6),
    granted("STATUS, seven set", |a| a.is(STATUS) && a.used() == 7),
    granted("STATUS, eight set", |a| a.is(STATUS) && a.used() == 8),
    // planted and lifted, and whose they are
    granted("STATUS, the only one lifted", |a| a.is(STATUS) && a.lifted() && a.used() == 1),
    granted("STATUS, one lifted and others planted", |a| {
        a.is(STATUS) && a.lifted() && a.used() > 1
    }),
    granted("STATUS, passing with none lifted", |a| a.status(Run::Passing) && !a.lifted()),
    granted("STATUS by the debugging host, the watcher's alone", |a| {
        a.is(STATUS) && a.owner() && a.his() == 0 && a.used() > 0
    }),
    granted("STATUS by the watcher, the other's alone", |a| {
        a.is(STATUS) && a.watcher() && a.his() == 0 && a.used() > 0
    }),
    granted("STATUS by the debugging host, both have some", |a| {
        a.is(STATUS) && a.owner() && a.his() > 0 && a.used() > a.his()
    }),
    granted("STATUS by the watcher, both have some", |a| {
        a.is(STATUS) && a.watcher() && a.his() > 0 && a.used() > a.his()
    }),
    granted("STATUS, four of each", |a| a.is(STATUS) && a.his() == 4 && a.used() == 8),
    granted("STATUS, a free entry before others", |a| a.is(STATUS) && a.gap()),
    damaged("STATUS with bytes in a free entry", |a| a.is(STATUS) && old(a.process)),
    // who asks
    granted("STATUS by host 253", |a| a.is(STATUS) && a.asker == TEXT_HOST && a.owner()),
    granted("STATUS by host 253, which watches", |a| {
        a.is(STATUS) && a.asker == TEXT_HOST && a.watcher()
    }),
    granted("STATUS while an answer is owed", |a| a.is(STATUS) && a.process.owed != Owed::Nothing),
    granted("STATUS by host 255", |a| a.is(STATUS) && a.asker == 255),
    granted("STATUS of process 0", |a| a.is(STATUS) && a.pid == 0),
    granted("STATUS of process 7", |a| a.is(STATUS) && a.pid == 7),
    granted("STATUS of a process that was moved", |a| {
        a.is(STATUS) && a.process.begin > 0 && (0..a.p).any(|p| !a.state.processes[p].there)
    }),
    refused(NO_RIGHT, "STATUS by a third", |a| a.is(STATUS) && !a.hostless() && !a.watched()),
    refused(NO_RIGHT, "STATUS by a third while watched", |a| a.is(STATUS) && a.watched()),
    refused(NO_RIGHT, "STATUS by a third, some set", |a| a.is(STATUS) && a.used() > 0),
    refused(NO_RIGHT, "STATUS by a third, not running", |a| {
        a.is(STATUS) && !a.hostless() && !a.runs(Run::Running)
    }),
    refused(NO_RIGHT, "STATUS of a process that nobody debugs", |a| a.is(STATUS) && a.hostless()),
    refused(NO_RIGHT, "STATUS of one that nobody debugs, not running", |a| {
        a.is(STATUS) && a.hostless() && !a.runs(Run::Running)
    }),
    refused(NO_RIGHT, "STATUS by one who debugs another", |a| {
        let debugs = |p: &Process| p.host == a.asker;
        a.is(STATUS) && a.state.processes.iter().any(debugs)
    }),
    refused(ABSENT, "STATUS of an absent process", |a| a.is(STATUS) && a.pid < 8),
    refused(ABSENT, "STATUS of a process over 7", |a| a.is(STATUS) && a.pid > 7),
    refused(WRONG_FIELDS, "STATUS with ARG1 alone", |a| {
        a.is(STATUS) && a.length == HEAD && a.first != 0 && a.count == 0
    }),
    refused(WRONG_FIELDS, "STATUS with ARG2 alone", |a| {
        a.is(STATUS) && a.length == HEAD && a.first == 0 && a.count != 0
    }),
    refused(WRONG_FIELDS, "STATUS with a string", |a| {
        a.is(STATUS) && a.length > HEAD && a.first == 0 && a.count == 0
    }),
    // how the number falls
    granted("UNBREAK of the only one", |a| a.is(UNBREAK) && a.used() == 1),
    granted("UNBREAK of one of eight", |a| a.is(UNBREAK) && a.used() == 8),
    granted("UNBREAK of the lifted one beside others", |a| {
        a.is(UNBREAK) && a.here(|b| b.lifted) && a.used() > 1
    }),
    granted("END WATCH, both have some", |a| a.is(END_WATCH) && a.his() > 0 && a.used() > a.his()),
    granted("END WATCH, a lifted and a planted one of his", |a| {
        a.is(END_WATCH) && a.his() > 1 && a.some(|b| b.lifted && b.setter == a.asker)
    }),
    granted("END DEBUG with eight set", |a| a.is(END_DEBUG) && a.used() == 8),
    granted("END DEBUG, one lifted and others planted", |a| {
        a.is(END_DEBUG) && a.lifted() && a.used() > 1
    }),
    granted("DESTROY with eight set", |a| a.is(DESTROY_PROCESS) && a.used() == 8),
    granted("DESTROY that moves one with eight set", |a| {
        let eight = |p: &usize| a.state.processes[*p].breakpoints.iter().all(|b| b.used());
        a.is(DESTROY_PROCESS) && a.above().iter().any(eight)
    }),
];

impl About<'_> {
    /// Whether this is STATUS of a process in this run state.
    fn status(&self, run: Run) -> bool {
        self.is(STATUS) && self.runs(run)
    }
}

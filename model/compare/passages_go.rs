//! Rare ways through K1's Go: how one comes to wait, what it waits through, and each way in
//! which it ends.

use crate::about::About;
use crate::passages::{damaged, granted, refused, Passage};
use model::*;

pub const GO_PASSAGES: &[Passage] = &[
    // a Go
    granted("Go, stopped", |a| a.goes() && !a.waits() && a.runs(Run::Stopped)),
    granted("Go, at a breakpoint", |a| a.goes() && !a.waits() && a.runs(Run::AtBreakpoint)),
    granted("Go, a breakpoint at PC", |a| a.goes() && a.at_pc() && a.runs(Run::AtBreakpoint)),
    granted("Go while another watches", |a| a.goes() && a.watched()),
    granted("Go with ID 0", |a| a.goes() && a.id() == 0),
    granted("Go with ID 4,294,967,295", |a| a.goes() && a.id() == u32::MAX),
    granted("Go again, no tick yet", |a| a.goes_again() && a.ticks() == 0),
    granted("Go again, some ticks counted", |a| a.goes_again() && a.ticks() > 0),
    granted("Go again, 50 ticks and more counted", |a| a.goes_again() && a.ticks() > 49),
    damaged("Go again, 99 ticks counted", |a| a.goes_again() && a.ticks() == 99),
    granted("Go of another ID in its place", |a| a.goes() && a.waits() && !a.goes_again()),
    granted("Go of another ID, some ticks counted", |a| {
        a.goes() && a.waits() && !a.goes_again() && a.ticks() > 0
    }),
    granted("Go of the next ID", |a| a.goes() && a.answered()),
    damaged("Go with the ID that is left of another", |a| {
        a.goes() && !a.waits() && a.left() && a.id() == a.process.go.id
    }),
    damaged("Go over what is left of another", |a| a.goes() && !a.waits() && a.left()),
    refused(WRONG_RUN, "Go, running", |a| a.goes() && a.runs(Run::Running)),
    refused(WRONG_RUN, "Go, stepping", |a| a.goes() && a.runs(Run::Stepping)),
    refused(WRONG_RUN, "Go, ended", |a| a.goes() && a.runs(Run::Ended)),
    refused(WRONG_RUN, "Go, passing", |a| a.goes() && a.runs(Run::Passing)),
    // resumed by a GoReply
    granted("GoReply resumes, stopped", |a| a.replies() && a.runs(Run::Stopped)),
    granted("GoReply resumes, at a breakpoint", |a| a.replies() && a.runs(Run::AtBreakpoint)),
    granted("GoReply resumes, a breakpoint at PC", |a| {
        a.replies() && a.runs(Run::AtBreakpoint) && a.at_pc()
    }),
    granted("GoReply resumes, no tick yet", |a| a.replies() && a.ticks() == 0 && a.resumes()),
    granted("GoReply resumes, some ticks counted", |a| a.replies() && a.ticks() > 0 && a.resumes()),
    damaged("GoReply resumes, 99 ticks counted", |a| a.replies() && a.ticks() == 99 && a.resumes()),
    granted("GoReply with ID 0 resumes after 4,294,967,295", |a| {
        a.replies() && a.id() == 0 && a.resumes()
    }),
    granted("GoReply with ID 4,294,967,295 resumes", |a| {
        a.replies() && a.id() == u32::MAX && a.resumes()
    }),
    granted("GoReply resumes while another watches", |a| a.replies() && a.resumes() && a.watched()),
    // ended, since RESUME would be refused
    granted("GoReply while running ends the Go", |a| a.replies() && a.runs(Run::Running)),
    granted("GoReply while stepping ends the Go", |a| a.replies() && a.runs(Run::Stepping)),
    damaged("GoReply while passing ends the Go", |a| a.replies() && a.runs(Run::Passing)),
    damaged("GoReply when ended ends the Go", |a| a.replies() && a.runs(Run::Ended)),
    // abandoned
    granted("GoReply of the Go's own ID abandons it", |a| {
        a.replies_wrong() && a.id() == a.process.go.id
    }),
    granted("GoReply of the ID after the next abandons it", |a| {
        a.replies_wrong() && a.id() == a.process.go.id.wrapping_add(2)
    }),
    granted("GoReply of the ID before abandons it", |a| {
        a.replies_wrong() && a.id() == a.process.go.id.wrapping_sub(1)
    }),
    granted("GoReply of another ID abandons it", |a| a.replies_wrong()),
    granted("Store abandons a Go", |a| a.sends(STORE) && a.waits()),
    granted("Fetch abandons a Go", |a| a.sends(FETCH) && a.waits()),
    granted("Store with a block abandons a Go, some ticks counted", |a| {
        a.sends(STORE) && a.waits() && a.ticks() > 0
    }),
    granted("END DEBUG abandons a Go", |a| a.is(END_DEBUG) && a.waits()),
    granted("DESTROY abandons a Go", |a| a.is(DESTROY_PROCESS) && a.waits()),
    // a GoReply where none waits
    granted("GoReply with none waiting, stopped", |a| {
        a.sends(GO_REPLY) && !a.waits() && a.process.run.waits()
    }),
    granted("GoReply with none waiting, running", |a| {
        a.sends(GO_REPLY) && !a.waits() && a.runs(Run::Running)
    }),
    granted("GoReply with ID 1 and none waiting, stopped", |a| {
        a.sends(GO_REPLY) && !a.waits() && a.id() == 1 && a.process.run.waits()
    }),
    damaged("GoReply with the ID after what is left of a Go, stopped", |a| {
        let next = a.process.go.id.wrapping_add(1);
        a.sends(GO_REPLY) && !a.waits() && a.left() && a.id() == next && a.process.run.waits()
    }),
    damaged("Fetch clears what is left of a Go", |a| a.sends(FETCH) && !a.waits() && a.left()),
    damaged("Store clears what is left of a Go", |a| a.sends(STORE) && !a.waits() && a.left()),
    damaged("END DEBUG clears what is left of a Go", |a| a.is(END_DEBUG) && !a.waits() && a.left()),
    damaged("DESTROY clears what is left of a Go", |a| {
        a.is(DESTROY_PROCESS) && !a.waits() && a.left()
    }),
    damaged("CREATE over what is left of a Go", |a| {
        let left = |p: usize| leftover(&a.state.processes[p]);
        a.is(CREATE_PROCESS) && a.created().is_some_and(left)
    }),
    // refused packets leave it
    refused(OUTSIDE, "Store outside while a Go waits", |a| a.sends(STORE) && a.waits()),
    refused(OUTSIDE, "Fetch outside while a Go waits", |a| a.sends(FETCH) && a.waits()),
    refused(WRONG_RUN, "Go again while running", |a| a.goes_again()),
    refused(WRONG_RUN, "Go of another ID while running", |a| {
        a.goes() && a.waits() && !a.goes_again()
    }),
    refused(WRONG_LENGTH, "too few words while a Go waits", |a| a.packet() && a.waits()),
    // what it waits through
    granted("RESUME while a Go waits", |a| a.asked_waiting(RESUME)),
    granted("SINGLE STEP while a Go waits", |a| a.asked_waiting(SINGLE_STEP)),
    granted("PROCEED BPT while a Go waits", |a| a.asked_waiting(PROCEED_BPT)),
    granted("STOP while a Go waits", |a| a.asked_waiting(STOP)),
    granted("DEBUG again while a Go waits", |a| a.asked_waiting(DEBUG)),
    granted("DEPOSIT while a Go waits", |a| a.asked_waiting(DEPOSIT)),
    granted("EXAMINE while a Go waits", |a| a.asked_waiting(EXAMINE)),
    granted("DEPOSIT VECTOR while a Go waits", |a| a.asked_waiting(DEPOSIT_STATE_VECTOR)),
    granted("BREAK while a Go waits", |a| a.asked_waiting(BREAK)),
    granted("WATCH while a Go waits", |a| a.asked_waiting(WATCH)),
    granted("END WATCH while a Go waits", |a| a.asked_waiting(END_WATCH)),
    granted("STATUS while a Go waits", |a| a.asked_waiting(STATUS)),
    granted("a report while a Go waits", |a| a.kind.is_some() && a.waits()),
    refused(NO_RIGHT, "END DEBUG by another while a Go waits", |a| a.is(END_DEBUG) && a.waits()),
    granted("DESTROY that moves a process in which a Go waits", |a| {
        let waits = |p: &usize| a.state.processes[*p].go.waits;
        a.is(DESTROY_PROCESS) && a.above().iter().any(waits)
    }),
    // ticks
    granted("a tick, the door at none", |a| a.tick && a.pid > 7),
    granted("a tick, the door's process absent", |a| a.tick && a.pid < 8 && a.nowhere()),
    granted("a tick with none waiting, stopped", |a| {
        a.tick && !a.nowhere() && !a.waits() && a.process.run.waits()
    }),
    granted("a tick with none waiting, running", |a| {
        a.tick && !a.nowhere() && !a.waits() && a.runs(Run::Running)
    }),
    damaged("a tick with 99 left of a Go, stopped", |a| {
        a.tick && !a.nowhere() && !a.waits() && a.ticks() == 99 && a.process.run.waits()
    }),
    damaged("a tick, the door over 7, as three bits at a Go", |a| {
        a.tick && a.pid > 7 && a.process.go.waits
    }),
    damaged("a tick while a Go waits in another process", |a| {
        let elsewhere = |p: usize| p != a.p && a.state.processes[p].go.waits;
        a.tick && (0..PROCESSES).any(elsewhere)
    }),
    granted("the first tick", |a| a.tick && a.waits() && a.ticks() == 0),
    granted("the second tick", |a| a.tick && a.waits() && a.ticks() == 1),
    granted("the ninety-eighth tick", |a| a.tick && a.waits() && a.ticks() == 97),
    granted("the ninety-ninth tick", |a| a.tick && a.waits() && a.ticks() == 98),
    granted("the hundredth tick resumes, stopped", |a| a.hundredth(Run::Stopped)),
    granted("the hundredth tick resumes, at a breakpoint", |a| a.hundredth(Run::AtBreakpoint)),
    granted("the hundredth tick resumes, a breakpoint at PC", |a| {
        a.hundredth(Run::AtBreakpoint) && a.at_pc()
    }),
    granted("the hundredth tick while running ends the Go", |a| a.hundredth(Run::Running)),
    granted("the hundredth tick while stepping ends the Go", |a| a.hundredth(Run::Stepping)),
    damaged("the hundredth tick while passing ends the Go", |a| a.hundredth(Run::Passing)),
    damaged("the hundredth tick when ended ends the Go", |a| a.hundredth(Run::Ended)),
    granted("the hundredth tick, ID 4,294,967,295", |a| {
        a.tick && a.waits() && a.ticks() == 99 && a.process.go.id == u32::MAX
    }),
];

/// Whether no Go waits and bytes of one are left.
fn leftover(process: &Process) -> bool {
    !process.go.waits && (process.go.ticks != 0 || process.go.id != 0)
}

impl About<'_> {
    fn goes(&self) -> bool {
        self.sends(GO) && !self.nowhere()
    }

    fn goes_again(&self) -> bool {
        self.goes() && self.waits() && self.id() == self.process.go.id
    }

    fn replies(&self) -> bool {
        self.sends(GO_REPLY) && self.answered()
    }

    fn replies_wrong(&self) -> bool {
        self.sends(GO_REPLY) && self.waits() && !self.answered()
    }

    fn resumes(&self) -> bool {
        self.process.run.waits()
    }

    fn ticks(&self) -> u8 {
        self.process.go.ticks
    }

    fn left(&self) -> bool {
        self.pid < 8 && leftover(self.process)
    }

    fn asked_waiting(&self, cmd: u8) -> bool {
        self.is(cmd) && self.waits()
    }

    fn hundredth(&self, run: Run) -> bool {
        self.tick && self.waits() && self.ticks() == 99 && self.runs(run)
    }
}

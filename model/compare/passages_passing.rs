//! Rare ways through K3's rules: how passing is entered, what comes in it, and how it is
//! left.

use crate::about::About;
use crate::layout::out_of_order;
use crate::passages::{damaged, granted, refused, Passage};
use model::*;

pub const PASSING_PASSAGES: &[Passage] = &[
    // entering it
    granted("BPT passed from running", |a| a.passes() && a.runs(Run::Running)),
    granted("BPT passed from running, the last of the count", |a| {
        a.bpt() && a.runs(Run::Running) && a.some(|b| b.address == a.pc && b.remaining == 1)
    }),
    granted("BPT passed from running with count 65,535", |a| {
        a.bpt() && a.runs(Run::Running) && a.some(|b| b.address == a.pc && b.remaining == 65_535)
    }),
    granted("BPT passed from running in the eighth entry", |a| {
        a.passes() && a.runs(Run::Running) && a.eighth_at_pc()
    }),
    granted("PROCEED BPT lifts one with a count", |a| {
        a.is(PROCEED_BPT) && a.some(|b| b.address == a.pc && b.remaining > 0)
    }),
    granted("PROCEED BPT lifts one written over", |a| {
        a.is(PROCEED_BPT) && a.some(|b| b.address == a.pc && a.written_over(b))
    }),
    granted("PROCEED BPT lifts in the eighth entry", |a| a.is(PROCEED_BPT) && a.eighth_at_pc()),
    granted("PROCEED BPT with others, none at PC", |a| {
        a.is(PROCEED_BPT) && !a.at_pc() && a.used() > 0
    }),
    granted("PROCEED BPT with PC odd or outside", |a| {
        a.is(PROCEED_BPT) && (a.pc % 2 == 1 || usize::from(a.pc) >= a.size())
    }),
    // the one instruction is done
    granted("TTRAP while passing plants", |a| a.ttrap() && a.passing() && a.lifted()),
    granted("TTRAP while passing, PC at the lifted one", |a| {
        a.ttrap() && a.passing() && a.lifted_at_pc()
    }),
    granted("TTRAP while passing, PC at another with a count", |a| {
        let counted = |b: &Breakpoint| b.address == a.pc && !b.lifted && b.remaining > 0;
        a.ttrap() && a.passing() && a.some(counted)
    }),
    granted("TTRAP while passing, PC at none", |a| a.ttrap() && a.passing() && !a.at_pc()),
    granted("TTRAP while passing, the lifted word changed meanwhile", |a| {
        a.ttrap() && a.passing() && a.some(|b| b.lifted && a.changed_while_lifted(b))
    }),
    granted("TTRAP while passing with eight set", |a| a.ttrap() && a.passing() && a.used() == 8),
    granted("TTRAP while passing, the lifted one at size - 2", |a| {
        a.ttrap() && a.passing() && a.some(|b| b.lifted && usize::from(b.address) + 2 == a.size())
    }),
    granted("TTRAP while passing and out of number order", |a| {
        a.ttrap() && a.passing() && a.lifted() && out_of_order(a.state)
    }),
    granted("TTRAP while passing, none lifted", |a| a.ttrap() && a.passing() && !a.lifted()),
    granted("TTRAP while passing, none lifted and others planted", |a| {
        a.ttrap() && a.passing() && !a.lifted() && a.used() > 0
    }),
    refused(WRONG_REPORT, "TTRAP with a reason while passing", |a| a.ttrap() && a.passing()),
    damaged("TTRAP while passing with no host", |a| a.ttrap() && a.passing() && a.hostless()),
    // TTRAP in the other run states
    granted("TTRAP while stepping, one lifted", |a| {
        a.ttrap() && a.runs(Run::Stepping) && a.lifted()
    }),
    granted("TTRAP while stepping, none lifted", |a| {
        a.ttrap() && a.runs(Run::Stepping) && !a.lifted()
    }),
    refused(WRONG_RUN, "TTRAP while running", |a| a.ttrap() && a.runs(Run::Running)),
    refused(WRONG_RUN, "TTRAP while running, one at PC", |a| {
        a.ttrap() && a.runs(Run::Running) && a.at_pc()
    }),
    refused(WRONG_RUN, "TTRAP while stopped", |a| a.ttrap() && a.runs(Run::Stopped)),
    refused(WRONG_RUN, "TTRAP at a breakpoint", |a| a.ttrap() && a.runs(Run::AtBreakpoint)),
    refused(WRONG_RUN, "TTRAP when ended", |a| a.ttrap() && a.runs(Run::Ended)),
    // other reports in it
    granted("TRAP while passing", |a| a.kind == Some(TRAP) && a.passing() && a.lifted()),
    granted("HALT while passing", |a| a.kind == Some(HALT) && a.passing() && a.lifted()),
    granted("TRAP while passing, none lifted", |a| {
        a.kind == Some(TRAP) && a.passing() && !a.lifted()
    }),
    granted("HALT while passing, none lifted", |a| {
        a.kind == Some(HALT) && a.passing() && !a.lifted()
    }),
    granted("BPT passed while passing, at the lifted one", |a| {
        a.passes() && a.passing() && a.lifted_at_pc()
    }),
    granted("BPT passed while passing, at another", |a| {
        a.passes() && a.passing() && a.lifted() && !a.lifted_at_pc()
    }),
    granted("BPT passed while passing, none lifted", |a| a.passes() && a.passing() && !a.lifted()),
    granted("BPT stops while passing, at the lifted one", |a| {
        a.stops() && a.passing() && a.lifted_at_pc()
    }),
    granted("BPT stops while passing, at another", |a| {
        a.stops() && a.passing() && a.lifted() && a.at_pc() && !a.lifted_at_pc()
    }),
    granted("BPT stops while passing, where none is", |a| {
        a.stops() && a.passing() && a.lifted() && !a.at_pc()
    }),
    granted("BPT stops while passing, none lifted", |a| a.stops() && a.passing() && !a.lifted()),
    damaged("another report while passing with no host", |a| {
        a.kind.is_some() && !a.ttrap() && a.passing() && a.hostless()
    }),
    granted("BPT passed while stepping, at the lifted one", |a| {
        a.passes() && a.runs(Run::Stepping) && a.lifted_at_pc()
    }),
    granted("BPT passed while stepping, none lifted", |a| {
        a.passes() && a.runs(Run::Stepping) && !a.lifted()
    }),
    // requests that change the run state
    granted("STOP while passing", |a| a.is(STOP) && a.passing() && a.lifted()),
    granted("STOP while passing, the lifted word changed meanwhile", |a| {
        a.is(STOP) && a.passing() && a.some(|b| b.lifted && a.changed_while_lifted(b))
    }),
    granted("STOP while passing, none lifted", |a| a.is(STOP) && a.passing() && !a.lifted()),
    granted("END DEBUG while passing", |a| a.is(END_DEBUG) && a.passing() && a.lifted()),
    granted("END DEBUG while passing, none lifted", |a| {
        a.is(END_DEBUG) && a.passing() && !a.lifted()
    }),
    refused(WRONG_RUN, "RESUME while passing", |a| a.is(RESUME) && a.passing()),
    refused(WRONG_RUN, "SINGLE STEP while passing", |a| a.is(SINGLE_STEP) && a.passing()),
    refused(WRONG_RUN, "PROCEED BPT while passing", |a| a.is(PROCEED_BPT) && a.passing()),
    refused(WRONG_RUN, "PROCEED BPT while passing, none lifted", |a| {
        a.is(PROCEED_BPT) && a.passing() && !a.lifted()
    }),
    refused(NO_RIGHT, "stranger's PROCEED BPT while passing", |a| a.is(PROCEED_BPT) && a.passing()),
    refused(NO_RIGHT, "stranger's STOP while passing", |a| a.is(STOP) && a.passing()),
    // requests that leave it
    granted("DEBUG again while passing", |a| a.is(DEBUG) && a.passing() && !a.hostless()),
    damaged("DEBUG of one that is passing with no host", |a| {
        a.is(DEBUG) && a.passing() && a.hostless()
    }),
    granted("UNBREAK of the lifted one while passing", |a| {
        a.is(UNBREAK) && a.passing() && a.here(|b| b.lifted)
    }),
    granted("UNBREAK of it, its word changed meanwhile", |a| {
        a.is(UNBREAK) && a.passing() && a.here(|b| b.lifted && a.changed_while_lifted(b))
    }),
    granted("UNBREAK of another while passing", |a| {
        a.is(UNBREAK) && a.passing() && a.lifted() && a.here(Breakpoint::planted)
    }),
    granted("BREAK plants while passing", |a| a.is(BREAK) && a.passing() && !a.known()),
    granted("BREAK, new count for the lifted one while passing", |a| {
        a.is(BREAK) && a.passing() && a.here(|b| b.lifted)
    }),
    granted("DEPOSIT VECTOR while passing", |a| a.is(DEPOSIT_STATE_VECTOR) && a.passing()),
    granted("DEPOSIT into the lifted word while passing", |a| {
        a.is(DEPOSIT) && a.passing() && a.over(2, |b| b.lifted)
    }),
    granted("EXAMINE of the lifted word while passing", |a| {
        a.is(EXAMINE) && a.passing() && a.over(2, |b| b.lifted)
    }),
    // those that come and go
    granted("DESTROY while passing", |a| a.is(DESTROY_PROCESS) && a.passing()),
    granted("DESTROY that moves one that is passing", |a| {
        let passing = |&p: &usize| a.state.processes[p].run == Run::Passing;
        a.is(DESTROY_PROCESS) && a.above().iter().any(passing)
    }),
    damaged("CREATE over a record that is passing", |a| {
        let passing = |p: usize| a.state.processes[p].run == Run::Passing;
        a.is(CREATE_PROCESS) && a.created().is_some_and(passing)
    }),
];

impl About<'_> {
    pub fn runs(&self, run: Run) -> bool {
        self.process.run == run
    }

    pub fn passing(&self) -> bool {
        self.runs(Run::Passing)
    }

    pub fn hostless(&self) -> bool {
        self.process.host == NOBODY
    }

    pub fn ttrap(&self) -> bool {
        self.kind == Some(TTRAP)
    }

    /// Whether a BPT report stops the process.
    pub fn stops(&self) -> bool {
        self.bpt() && !self.passes()
    }

    fn eighth_at_pc(&self) -> bool {
        let b = self.process.breakpoints[BREAKPOINTS - 1];
        b.used() && b.address == self.pc
    }

    /// Whether memory holds another word than the one that was put back by lifting.
    pub fn changed_while_lifted(&self, b: &Breakpoint) -> bool {
        let at = usize::from(b.address);
        self.memory[self.process.place()][at..at + 2] != b.saved
    }
}

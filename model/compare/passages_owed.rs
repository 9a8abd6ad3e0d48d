//! Rare ways through K7's rules of an answer that is owed: which reports give it, which
//! leave it, and what cancels it.

use crate::about::About;
use crate::passages::{damaged, granted, refused, Passage};
use model::*;

pub const OWED_PASSAGES: &[Passage] = &[
    // answered
    granted("TRAP answers c", |a| a.told(TRAP) && a.owes(b'c')),
    granted("TRAP answers s", |a| a.told(TRAP) && a.owes(b's')),
    granted("HALT answers c", |a| a.told(HALT) && a.owes(b'c')),
    granted("HALT answers s", |a| a.told(HALT) && a.owes(b's')),
    granted("BPT answers c", |a| a.stops() && a.owes(b'c')),
    granted("BPT answers s", |a| a.stops() && a.owes(b's')),
    granted("BPT where there is no breakpoint answers c", |a| {
        a.stops() && !a.at_pc() && a.owes(b'c')
    }),
    granted("TTRAP answers s", |a| a.told(TTRAP) && a.owes(b's') && a.runs(Run::Stepping)),
    granted("TTRAP answers s, one lifted", |a| {
        a.told(TTRAP) && a.owes(b's') && a.runs(Run::Stepping) && a.lifted()
    }),
    granted("a report while passing answers c", |a| {
        !a.told(TTRAP) && a.kind.is_some() && !a.passes() && a.passing() && a.owes(b'c')
    }),
    damaged("TTRAP answers c", |a| a.told(TTRAP) && a.owes(b'c') && a.runs(Run::Stepping)),
    damaged("TRAP answers s while running", |a| {
        a.told(TRAP) && a.owes(b's') && a.runs(Run::Running)
    }),
    // by each process, whose number is in the line
    granted("process 0 answers", |a| a.answers(0)),
    granted("process 1 answers", |a| a.answers(1)),
    granted("process 2 answers", |a| a.answers(2)),
    granted("process 3 answers", |a| a.answers(3)),
    granted("process 4 answers", |a| a.answers(4)),
    granted("process 5 answers", |a| a.answers(5)),
    granted("process 6 answers", |a| a.answers(6)),
    granted("process 7 answers", |a| a.answers(7)),
    granted("TRAP with a reason answers", |a| a.told(TRAP) && a.owing()),
    granted("one of two that owe answers", |a| {
        a.answers(a.p) && a.state.processes.iter().filter(|p| p.owed != Owed::Nothing).count() > 1
    }),
    // not yet
    granted("BPT passed while c is owed", |a| a.passes() && a.owes(b'c') && a.runs(Run::Running)),
    granted("BPT passed while s is owed", |a| a.passes() && a.owes(b's')),
    granted("BPT passed while passing and c is owed", |a| {
        a.passes() && a.owes(b'c') && a.passing()
    }),
    granted("TTRAP while passing and c is owed", |a| a.told(TTRAP) && a.passing() && a.owes(b'c')),
    granted("TTRAP while passing and c is owed, none lifted", |a| {
        a.told(TTRAP) && a.passing() && a.owes(b'c') && !a.lifted()
    }),
    damaged("TTRAP while passing and s is owed", |a| a.told(TTRAP) && a.passing() && a.owes(b's')),
    refused(WRONG_RUN, "TTRAP while running and c is owed", |a| {
        a.told(TTRAP) && a.owes(b'c') && a.runs(Run::Running)
    }),
    refused(WRONG_REPORT, "a report with a wrong reason while an answer is owed", |a| {
        a.kind.is_some() && a.owing()
    }),
    // a report of one that owes nothing, though host 253 debugs it
    granted("a report of host 253's process that owes nothing", |a| {
        a.kind.is_some() && !a.passes() && a.process.host == TEXT_HOST && !a.owing()
    }),
    // cancelled
    granted("STOP while running and c is owed", |a| {
        a.is(STOP) && a.owes(b'c') && a.runs(Run::Running)
    }),
    granted("STOP while passing and c is owed", |a| a.is(STOP) && a.owes(b'c') && a.passing()),
    granted("STOP while stepping and s is owed", |a| {
        a.is(STOP) && a.owes(b's') && a.runs(Run::Stepping)
    }),
    damaged("STOP while an answer is owed in another run state", |a| {
        a.is(STOP) && a.owing() && !a.process.run.goes()
    }),
    granted("END DEBUG while c is owed", |a| a.is(END_DEBUG) && a.owes(b'c')),
    granted("END DEBUG while s is owed", |a| a.is(END_DEBUG) && a.owes(b's')),
    damaged("END DEBUG when ended and an answer is owed", |a| {
        a.is(END_DEBUG) && a.owing() && a.runs(Run::Ended)
    }),
    granted("DESTROY while c is owed", |a| a.is(DESTROY_PROCESS) && a.owes(b'c')),
    granted("DESTROY while s is owed", |a| a.is(DESTROY_PROCESS) && a.owes(b's')),
    // not cancelled
    refused(NO_RIGHT, "stranger's STOP while an answer is owed", |a| a.is(STOP) && a.owing()),
    refused(NO_RIGHT, "stranger's END DEBUG while an answer is owed", |a| {
        a.is(END_DEBUG) && a.owing()
    }),
    refused(NO_RIGHT, "stranger's DEBUG while an answer is owed", |a| a.is(DEBUG) && a.owing()),
    granted("DEBUG again while an answer is owed", |a| a.is(DEBUG) && a.owing()),
    granted("DEPOSIT while an answer is owed", |a| a.is(DEPOSIT) && a.owing()),
    granted("EXAMINE while an answer is owed", |a| a.is(EXAMINE) && a.owing()),
    granted("DEPOSIT VECTOR while an answer is owed", |a| a.is(DEPOSIT_STATE_VECTOR) && a.owing()),
    granted("BREAK while an answer is owed", |a| a.is(BREAK) && a.owing()),
    granted("UNBREAK while an answer is owed", |a| a.is(UNBREAK) && a.owing()),
    refused(WRONG_RUN, "RESUME while an answer is owed", |a| a.is(RESUME) && a.owing()),
    refused(WRONG_RUN, "SINGLE STEP while an answer is owed", |a| a.is(SINGLE_STEP) && a.owing()),
    refused(WRONG_RUN, "PROCEED BPT while an answer is owed", |a| a.is(PROCEED_BPT) && a.owing()),
    damaged("RESUME from stopped while an answer is owed", |a| a.is(RESUME) && a.owing()),
    damaged("SINGLE STEP while an answer is owed, granted", |a| a.is(SINGLE_STEP) && a.owing()),
    damaged("PROCEED BPT while an answer is owed, granted", |a| a.is(PROCEED_BPT) && a.owing()),
    granted("DESTROY that moves one that owes an answer", |a| {
        a.is(DESTROY_PROCESS)
            && a.above().iter().any(|&p| a.state.processes[p].owed != Owed::Nothing)
    }),
    granted("CREATE while another owes an answer", |a| {
        a.is(CREATE_PROCESS) && a.state.processes.iter().any(|p| p.owed != Owed::Nothing)
    }),
    granted("a line to one process while another owes an answer", |a| {
        a.line.is_some() && a.state.processes.iter().any(|p| p.owed != Owed::Nothing)
    }),
];

impl About<'_> {
    fn told(&self, kind: u8) -> bool {
        self.kind == Some(kind)
    }

    /// Whether the process owes the answer to such a request.
    fn owes(&self, letter: u8) -> bool {
        self.process.owed.letter() == Some(letter)
    }

    fn owing(&self) -> bool {
        self.process.owed != Owed::Nothing
    }

    /// Whether a report of this process gives the answer that it owes.
    fn answers(&self, p: usize) -> bool {
        let silent = self.passes() || self.ttrap() && self.passing();
        self.kind.is_some() && self.p == p && self.owing() && !silent
    }
}

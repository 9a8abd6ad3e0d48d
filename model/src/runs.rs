//! The run states, and what each of them allows.

/// "run state (running, stepping, stopped, at a breakpoint, ended)"; K3: "A sixth run
/// state, passing, is entered only where a breakpoint was lifted".
#[derive(Clone, Copy, PartialEq, Eq, Debug)]
pub enum Run {
    Running = 0,
    Stepping = 1,
    Stopped = 2,
    AtBreakpoint = 3,
    Ended = 4,
    Passing = 5,
}

impl Run {
    /// Every run state, in the order of its number in a state's bytes.
    pub const ALL: [Run; 6] =
        [Run::Running, Run::Stepping, Run::Stopped, Run::AtBreakpoint, Run::Ended, Run::Passing];

    /// "while running or stepping"; K3: passing too, since "STOP makes it stopped" and "9
    /// no longer for a report while passing".
    pub fn goes(self) -> bool {
        matches!(self, Run::Running | Run::Stepping | Run::Passing)
    }

    /// "from stopped or at a breakpoint"; K3: from passing "RESUME, SINGLE STEP and PROCEED
    /// BPT give 9".
    pub fn waits(self) -> bool {
        matches!(self, Run::Stopped | Run::AtBreakpoint)
    }

    /// K3: "Sound now allows a lifted one only while stepping or passing."
    pub fn allows_lifted(self) -> bool {
        matches!(self, Run::Stepping | Run::Passing)
    }

    /// "Accepted while running or stepping; TTRAP only while stepping." K3: "9 no longer for
    /// a report while passing, TTRAP included."
    pub fn accepts(self, kind: u8) -> bool {
        self.goes() && (kind != super::TTRAP || self != Run::Running)
    }

    /// The run state after a breakpoint is lifted in a process that runs from then on.
    /// K3: "After PROCEED BPT or a silent pass the machine executes one instruction and
    /// reports TTRAP"; "A stepping process that passes silently stays stepping".
    pub fn after_lift(self) -> Run {
        match self {
            Run::Stepping => Run::Stepping,
            _ => Run::Passing,
        }
    }
}

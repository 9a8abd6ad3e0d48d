//! K1, "A Pup door": the Go that waits, and the ticks that it waits.

use super::*;

/// "at the hundredth tenth-second tick from the first Go of that ID"
pub const GO_TICKS: u8 = 100;

/// "the waiting Go": whether one waits, the ticks since the first of its ID, and the ID.
#[derive(Clone, Copy, PartialEq, Eq, Debug)]
pub struct Go {
    pub waits: bool,
    /// Mean nothing where none waits, as the ID does.
    pub ticks: u8,
    pub id: u32,
}

/// No Go waits, and nothing is left of one that did.
pub(super) const NO_GO: Go = Go { waits: false, ticks: 0, id: 0 };

/// A tick of a tenth of a second, at the process of the door: 0, or minus the refusal's
/// number. "a tick only 2, else granted without output"
pub fn tick(state: &mut State) -> i64 {
    if !sound(state) {
        return -NOT_SOUND;
    }
    let door = state.door;
    // Where the door's process is absent, or none, nothing waits.
    if let Ok(process) = named(state, door) {
        process.tick();
    }
    0
}

impl Process {
    /// "A Go waits only while host 254 debugs the process, with at most 99 ticks counted"
    pub(super) fn go_sound(&self) -> bool {
        !self.go.waits || self.host == PUP_HOST && self.go.ticks < GO_TICKS
    }

    /// A granted Go: another one of the waiting ID leaves its ticks, since they count "from
    /// the first Go of that ID"; "one of another ID counts afresh".
    pub(super) fn await_reply(&mut self, id: u32) {
        if !self.go.waits || self.go.id != id {
            self.go = Go { waits: true, ticks: 0, id };
        }
    }

    /// "The process resumes on a GoReply with the next ID (wrapping at 32 bits) after the
    /// waiting Go"; one of another ID is "any other granted packet" and "abandons the Go".
    pub(super) fn go_reply(&mut self, id: u32) {
        if self.go.waits && id == self.go.id.wrapping_add(1) {
            self.resume();
        }
        self.go = NO_GO;
    }

    /// "or at the hundredth tenth-second tick"
    fn tick(&mut self) {
        if !self.go.waits {
            return;
        }
        self.go.ticks += 1;
        if self.go.ticks == GO_TICKS {
            self.resume();
            self.go = NO_GO;
        }
    }

    /// "If RESUME would then be refused, the Go just ends." Host 254 debugs the process, so
    /// its run state alone decides; RESUME lifts no breakpoint.
    fn resume(&mut self) {
        if run_state_fits(self, RESUME).is_ok() {
            self.run = Run::Running;
        }
    }
}

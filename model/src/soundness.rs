//! Which states are sound.

use super::*;

/// "A state is sound when: [..]" each of its eight records is; K9: "sound includes the
/// layout".
pub fn sound(state: &State) -> bool {
    state.processes.iter().all(Process::sound) && layout_sound(state)
}

impl Process {
    fn sound(&self) -> bool {
        // K2: "2 covers a bad size", there or not: "Each process gets a size"
        if !right_size(self.size) {
            return false;
        }
        // K6: "2 covers a wrong stored number", there or not: "Each process record keeps"
        // one
        if usize::from(self.set) != self.breakpoints.iter().filter(|b| b.used()).count() {
            return false;
        }
        // K7: "none is owed unless host 253 debugs it"
        if self.owed != Owed::Nothing && self.host != TEXT_HOST {
            return false;
        }
        // K1: "A Go waits only while host 254 debugs the process, with at most 99 ticks
        // counted; sound includes this", there or not
        if !self.go_sound() {
            return false;
        }
        // K5: "Sound includes these facts"
        if !self.watch_sound() {
            return false;
        }
        // "an absent process has no host"
        if !self.there && self.host != NOBODY {
            return false;
        }
        // "and no breakpoints; a process with no host has none either"
        if self.host == NOBODY {
            return self.breakpoints.iter().all(|b| !b.used());
        }
        self.addresses_sound() && self.lifting_sound()
    }

    /// "addresses within a process are different, even"; K2: "or a breakpoint past
    /// it", the size
    fn addresses_sound(&self) -> bool {
        self.breakpoints.iter().enumerate().all(|(i, b)| {
            let earlier = &self.breakpoints[..i];
            !b.used()
                || self.takes_breakpoint(b.address)
                    && !earlier.iter().any(|e| e.used() && e.address == b.address)
        })
    }

    /// "at most one is lifted"; K3: "Sound now allows a lifted one only while stepping or
    /// passing."
    fn lifting_sound(&self) -> bool {
        match self.breakpoints.iter().filter(|b| b.used() && b.lifted).count() {
            0 => true,
            1 => self.run.allows_lifted(),
            _ => false,
        }
    }

    /// "BREAK address odd"; K2: "BREAK at most size − 2"
    pub(super) fn takes_breakpoint(&self, address: u16) -> bool {
        address & 1 == 0 && within(address, WORD, self.size.into())
    }
}

/// K2: "a size, even, 2 to 4,096"
pub fn right_size(size: u16) -> bool {
    size & 1 == 0 && (SMALLEST..=LARGEST).contains(&size)
}

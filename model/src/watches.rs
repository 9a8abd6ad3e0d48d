//! K5, "Owner and installer together": the one watcher of a process, and whose a breakpoint
//! is.

use super::*;

/// "While watched, neither may set one that makes his more than 4"
pub const WATCHED_LIMIT: usize = 4;

impl Process {
    /// "Sound includes these facts, the limit of 4 aside, and that who set a breakpoint
    /// debugs or watches its process": a watcher is there only where "another host debugs"
    /// the process.
    pub(super) fn watch_sound(&self) -> bool {
        let other = self.host != NOBODY && self.host != self.watcher;
        (self.watcher == NOBODY || other)
            && self.breakpoints.iter().all(|b| !b.used() || self.knows(b.setter))
    }

    /// Whether a host debugs or watches the process.
    fn knows(&self, host: u8) -> bool {
        host != NOBODY && (host == self.host || host == self.watcher)
    }

    /// 8: "asker is not debugging it; for DEBUG, another host is"; "8 for a watcher's other
    /// requests, END WATCH by any other host, and WATCH with no debugging host or by that
    /// host".
    pub(super) fn has_right(&self, asker: u8, cmd: u8) -> Result<(), Refusal> {
        let right = match cmd {
            DEBUG => self.host == NOBODY || self.host == asker,
            // "makes the asker the one watcher of a process another host debugs"
            WATCH => self.host != NOBODY && self.host != asker,
            END_WATCH => self.watcher == asker,
            // "A watcher may EXAMINE, Fetch, BREAK and UNBREAK." K6, of STATUS: "Debugging
            // host or watcher only."
            EXAMINE | BREAK | UNBREAK | STATUS => self.knows(asker),
            _ => self.host == asker,
        };
        if right {
            return Ok(());
        }
        Err(NO_RIGHT)
    }

    /// "15, after 8, another watcher present (the same is granted again)"
    pub(super) fn unwatched_by_others(&self, asker: u8, cmd: u8) -> Result<(), Refusal> {
        if cmd != WATCH || self.watcher == NOBODY || self.watcher == asker {
            return Ok(());
        }
        Err(WATCHED)
    }

    /// "op 15 END WATCH (process) ends it"; "END WATCH removes the watcher's breakpoints."
    /// A lifted one has its word in memory already; the run state stays.
    pub(super) fn end_watch(&mut self, space: &mut [u8]) {
        let watcher = std::mem::replace(&mut self.watcher, NOBODY);
        for breakpoint in &mut self.breakpoints {
            if breakpoint.used() && breakpoint.setter == watcher {
                breakpoint.free(space);
                self.set -= 1;
            }
        }
    }

    /// Whether a host may set one more: "While watched, neither may set one that makes his
    /// more than 4; those already there stay, and all share the eight entries." All that he
    /// set are counted, those from before the watch too.
    pub(super) fn room_for(&self, host: u8) -> bool {
        let his = self.breakpoints.iter().filter(|b| b.used() && b.setter == host).count();
        self.watcher == NOBODY || his < WATCHED_LIMIT
    }

    /// Who is told of a report that stops or ends the process: "A BPT notice at a breakpoint
    /// goes to the one who set it, other notices to the debugging host."
    pub(super) fn host_to_tell(&mut self, kind: u8) -> u8 {
        let host = self.host;
        match self.at(self.vector[PC]) {
            Some(breakpoint) if kind == BPT => breakpoint.setter,
            _ => host,
        }
    }
}

impl Breakpoint {
    /// 16: "only he may change or remove it"; "16, after 12, the breakpoint is the other's".
    pub(super) fn set_by(&self, asker: u8) -> Result<(), Refusal> {
        if self.setter == asker {
            return Ok(());
        }
        Err(THE_OTHERS)
    }
}

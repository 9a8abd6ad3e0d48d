//! STATUS by every host in every run state, with every number of breakpoints of both hosts,
//! planted and lifted; every number in a state; and STATUS after each call that changes it.

use crate::sides::Call;
use crate::sweeps::{message, Sweep, OWNER, P};
use crate::sweeps_watches::{by, line, told, AT, HIS, THIRD, WATCHER};
use model::*;

impl Sweep<'_> {
    pub fn statuses(&mut self) -> Result<(), String> {
        self.make(&by(WATCHER, WATCH, 0, 0))?;
        let base = self.rebase();
        for owners in 0..=BREAKPOINTS {
            for watchers in 0..=BREAKPOINTS - owners {
                self.each_status(owners, watchers)?;
            }
        }
        self.each_number()?;
        self.restore(base);
        for (owners, watchers) in (0..=8).flat_map(|n| (0..=4).map(move |m| (n, m))) {
            self.number_comes_and_goes(owners, watchers)?;
            for pass in [AT, HIS] {
                self.lifted_one_goes(owners, watchers, pass)?;
            }
        }
        self.processes_come_and_go()
    }

    /// Sets the entries of process 2: so many are the debugging host's, so many more the
    /// watcher's, from this entry on, and the others are free; one of them is lifted or none.
    pub fn put_entries(&mut self, counts: [usize; 2], first: usize, lifted: Option<usize>) {
        let setters = [vec![OWNER; counts[0]], vec![WATCHER; counts[1]]].concat();
        for e in 0..BREAKPOINTS {
            let setter = setters.get(e).copied().unwrap_or(NOBODY);
            let bytes = match setter {
                NOBODY => [0; ENTRY_BYTES],
                _ => [u8::from(lifted == Some(e)), setter, 2 * e as u8, 1, 0, 0, 65, 66],
            };
            let at = ENTRIES_AT + ENTRY_BYTES * ((first + e) % BREAKPOINTS);
            for (i, byte) in bytes.into_iter().enumerate() {
                self.put_byte(at + i, byte);
            }
        }
        self.count_again();
    }

    /// STATUS by each host in each run state, and in some that there are not.
    fn each_status(&mut self, owners: usize, watchers: usize) -> Result<(), String> {
        let last = (owners + watchers).checked_sub(1);
        for lifted in [None, Some(0), last] {
            for run in 0..8 {
                self.put_entries([owners, watchers], owners, lifted);
                self.put_byte(2, run);
                let base = self.rebase();
                for host in 0..=255 {
                    self.apart(by(host, STATUS, 0, 0))?;
                }
                self.restore(base);
            }
        }
        Ok(())
    }

    /// Each number of each process, there and absent, with breakpoints and with none, before
    /// calls of each kind.
    fn each_number(&mut self) -> Result<(), String> {
        let calls = || {
            [
                by(OWNER, STATUS, 0, 0),
                by(THIRD, STATUS, 0, 0),
                by(OWNER, BREAK, HIS, 0),
                by(OWNER, END_DEBUG, 0, 0),
                told(TRAP, AT),
                line(b'i', AT.into()),
            ]
        };
        for (counts, lifted) in [([0, 0], None), ([2, 1], Some(1)), ([3, 5], None)] {
            self.put_entries(counts, 0, lifted);
            if lifted.is_some() {
                self.put_byte(2, Run::Passing as u8);
            }
            let base = self.rebase();
            for p in 0..PROCESSES {
                let at = RECORD_BYTES * p + SET_AT;
                for number in 0..=255 {
                    for call in calls() {
                        self.pair.change(|side| side.state.change()[at] = number);
                        self.apart(call)?;
                    }
                }
            }
            self.restore(base);
        }
        Ok(())
    }

    /// STATUS by both after a call, and by a third.
    fn with_status(&mut self, call: Call) -> Result<(), String> {
        self.make(&call)?;
        for host in [OWNER, WATCHER, THIRD] {
            self.make(&by(host, STATUS, 0, 0))?;
        }
        Ok(())
    }

    /// The debugging host sets so many, another watches and sets so many more.
    fn set_both(&mut self, owners: u16, watchers: u16) -> Result<(), String> {
        self.with_status(by(OWNER, UNBREAK, AT, 0))?;
        for n in 0..owners {
            self.with_status(by(OWNER, BREAK, AT + 2 * n, 1))?;
        }
        self.with_status(by(WATCHER, WATCH, 0, 0))?;
        for n in 0..watchers {
            self.with_status(by(WATCHER, BREAK, HIS + 2 * n, 1))?;
        }
        Ok(())
    }

    /// Each number comes by BREAK and goes by UNBREAK of one after the other, by END WATCH,
    /// by END DEBUG and by DESTROY; new counts and refused calls leave it.
    fn number_comes_and_goes(&mut self, owners: u16, watchers: u16) -> Result<(), String> {
        for end in [END_WATCH, END_DEBUG, DESTROY_PROCESS] {
            self.set_both(owners, watchers)?;
            for host in [OWNER, WATCHER, THIRD] {
                for address in [AT, HIS, AT + 1, 2048] {
                    self.with_status(by(host, BREAK, address, 7))?;
                }
                self.with_status(by(host, UNBREAK, 2050, 0))?;
            }
            let host = if end == END_WATCH { WATCHER } else { OWNER };
            self.with_status(by(host, end, 0, 0))?;
            self.with_status(by(OWNER, DEBUG, 0, 0))?;
            self.with_status(by(OWNER, BREAK, AT, 7))?;
            self.back();
        }
        self.set_both(owners, watchers)?;
        for n in 0..8 {
            self.with_status(by(OWNER, UNBREAK, AT + 2 * n, 0))?;
            self.with_status(by(WATCHER, UNBREAK, HIS + 2 * n, 0))?;
        }
        self.back();
        Ok(())
    }

    /// A breakpoint is passed, and goes while it is lifted, or is planted again.
    fn lifted_one_goes(&mut self, owners: u16, watchers: u16, pc: u16) -> Result<(), String> {
        for call in [
            by(OWNER, UNBREAK, pc, 0),
            by(WATCHER, UNBREAK, pc, 0),
            by(WATCHER, END_WATCH, 0, 0),
            by(OWNER, END_DEBUG, 0, 0),
            by(OWNER, STOP, 0, 0),
            told(TTRAP, pc + 2),
            told(BPT, pc),
        ] {
            self.set_both(owners, watchers)?;
            self.with_status(told(BPT, pc))?;
            self.with_status(call)?;
            self.with_status(told(TTRAP, pc + 2))?;
            self.back();
        }
        Ok(())
    }

    /// Processes with each number are destroyed, and others created in their place.
    fn processes_come_and_go(&mut self) -> Result<(), String> {
        for n in 0..=8 {
            let to = |cmd: u8, pid: u8, arg1: u16| Call::Request {
                message: message(OWNER, cmd, pid, arg1, 0, 0),
            };
            self.set_both(n, 0)?;
            for pid in [3, P] {
                self.with_status(to(DESTROY_PROCESS, pid, 0))?;
                self.with_status(to(CREATE_PROCESS, 0, 64))?;
                for p in 0..8 {
                    self.make(&to(STATUS, p, 0))?;
                }
            }
            self.back();
        }
        Ok(())
    }
}

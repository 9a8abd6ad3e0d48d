//! Both sides are asked why: with every number of facts lent, every length of message and of
//! state, every debugging host, watcher and run state, every number of breakpoints of both
//! hosts, and ranges around the end of processes of each kind of size.

use crate::layout::close_gaps;
use crate::lent::Lent;
use crate::sides::Call;
use crate::sweeps::{message, Sweep, OWNER, P};
use crate::sweeps_watches::{by, told, AT, HIS, THIRD, WATCHER};
use model::*;

/// Asks why such a request to process 2 is refused, with the string that it carries.
fn why(host: u8, cmd: u8, arg1: u16, arg2: u16) -> Call {
    let carries = matches!(cmd, DEPOSIT | DEPOSIT_STATE_VECTOR);
    let string = if carries { arg2.min(256).into() } else { 0 };
    Call::Why { message: message(host, cmd, P, arg1, arg2, string) }
}

fn why_create(size: u16) -> Call {
    Call::Why { message: message(OWNER, CREATE_PROCESS, 0, size, 0, 0) }
}

impl Sweep<'_> {
    pub fn whys(&mut self) -> Result<(), String> {
        for call in [by(WATCHER, WATCH, 0, 0), by(WATCHER, BREAK, HIS, 1)] {
            self.make(&call)?;
        }
        let base = self.rebase();
        self.facts_lent()?;
        self.messages_asked()?;
        self.states_asked()?;
        self.hosts_asked()?;
        self.runs_asked()?;
        self.numbers_asked()?;
        self.ranges_asked()?;
        self.creates_asked()?;
        self.restore(base);
        Ok(())
    }

    /// Changes the records, and lays the processes without gaps.
    fn put_records(&mut self, change: impl Fn(&mut [Process; PROCESSES])) {
        let Some(mut records) = decode(self.pair.model.state.bytes()) else { return };
        change(&mut records.processes);
        close_gaps(&mut records);
        self.pair.change(|side| side.state.change().copy_from_slice(&encode(&records)));
    }

    /// Each number of facts, before what is granted and what is refused.
    fn facts_lent(&mut self) -> Result<(), String> {
        for count in (0..64).chain([512, 8192]) {
            for length in [STATE_BYTES, STATE_BYTES - 1] {
                for call in [
                    why(OWNER, EXAMINE, AT, 2),
                    why(OWNER, EXAMINE, 65_535, 65_535),
                    Call::Why { message: vec![] },
                ] {
                    self.pair.change(|side| {
                        side.facts = Lent::new(&vec![0x77; 8 * count], 8 * (count % 8));
                        side.state = side.state.resized(length);
                    });
                    self.apart(call)?;
                }
            }
        }
        Ok(())
    }

    /// Each length of a message that is right but for it, and of one of zeros, and each op
    /// code of each process.
    fn messages_asked(&mut self) -> Result<(), String> {
        for length in (0..=300).chain([1000, 4096, 65_535, 65_536, 65_546, 70_000]) {
            self.apart(Call::Why { message: vec![0; length] })?;
            let mut message = message(OWNER, DEPOSIT, P, 0, length.min(266).max(10) as u16 - 10, 0);
            message.resize(length, 7);
            self.apart(Call::Why { message })?;
        }
        for (cmd, pid) in (0..=255).flat_map(|cmd| (0..10).map(move |pid| (cmd, pid))) {
            for host in [NOBODY, OWNER, WATCHER, THIRD] {
                for arg1 in [0, AT, HIS, 65_535] {
                    self.make(&Call::Why { message: message(host, cmd, pid, arg1, 0, 0) })?;
                }
            }
        }
        self.back();
        Ok(())
    }

    /// Each length of a state, and each value of some of its bytes, with messages that are
    /// right and wrong.
    fn states_asked(&mut self) -> Result<(), String> {
        let calls =
            || [why(OWNER, STATUS, 0, 0), Call::Why { message: vec![0; 267] }, why(0, 99, 1, 1)];
        for length in 0..1600 {
            for call in calls() {
                self.pair.change(|side| side.state = side.state.resized(length));
                self.apart(call)?;
            }
        }
        for at in [0, 1, 2, SIZE_AT, SET_AT, OWED_AT, WATCHER_AT, GO_WAITS_AT, ENTRIES_AT] {
            for byte in 0..=255 {
                for call in calls() {
                    self.put_byte(at, byte);
                    self.apart(call)?;
                }
            }
        }
        Ok(())
    }

    /// Each host that debugs and each that watches, before what a stranger and both ask.
    fn hosts_asked(&mut self) -> Result<(), String> {
        for host in 1..=255 {
            for watcher in [NOBODY, host % 255 + 1, WATCHER, OWNER] {
                self.put_records(|processes| {
                    let process = &mut processes[usize::from(P)];
                    (process.host, process.watcher) = (host, watcher);
                    process.breakpoints[0].setter = host;
                    process.breakpoints[1].setter = if watcher == 0 { host } else { watcher };
                });
                for asker in [host, watcher, OWNER, WATCHER, THIRD] {
                    for cmd in [DEBUG, DEPOSIT, EXAMINE, RESUME, WATCH, END_WATCH, STATUS] {
                        self.make(&why(asker, cmd, 0, 0))?;
                    }
                    for (cmd, at) in [(BREAK, AT), (UNBREAK, AT), (BREAK, HIS), (UNBREAK, HIS)] {
                        self.make(&why(asker, cmd, at, 0))?;
                    }
                    self.make(&why(asker, UNBREAK, 2, 0))?;
                }
                self.back();
            }
        }
        // nobody debugs process 0
        for cmd in 0..=STATUS {
            self.make(&Call::Why { message: message(THIRD, cmd, 0, 0, 0, 0) })?;
        }
        self.back();
        Ok(())
    }

    /// Each run state, a breakpoint of the watcher's lifted or not, before each op code of
    /// both hosts and a third.
    fn runs_asked(&mut self) -> Result<(), String> {
        for (run, lifted) in (0..8).flat_map(|run| [0, 1].map(|lifted| (run, lifted))) {
            self.put_byte(2, run);
            self.put_byte(ENTRIES_AT + ENTRY_BYTES, lifted);
            for host in [OWNER, WATCHER, THIRD] {
                for cmd in 0..=STATUS {
                    for arg1 in [0, AT, HIS] {
                        self.make(&why(host, cmd, arg1, 0))?;
                    }
                }
            }
            self.back();
        }
        // passing, as the machine comes to it
        self.make(&told(BPT, HIS))?;
        for cmd in [RESUME, SINGLE_STEP, PROCEED_BPT] {
            self.make(&why(OWNER, cmd, 0, 0))?;
        }
        self.back();
        Ok(())
    }

    /// Each number of breakpoints of both hosts, watched or not, with the free entries at the
    /// end or at the beginning, before BREAK and UNBREAK at new, known and wrong addresses.
    fn numbers_asked(&mut self) -> Result<(), String> {
        for (owners, watchers) in (0..=8).flat_map(|n| (0..=8 - n).map(move |m| (n, m))) {
            for first in [0, BREAKPOINTS - owners - watchers] {
                self.put_entries([owners, watchers], first, None);
                if watchers == 0 && first == 0 {
                    self.put_byte(WATCHER_AT, NOBODY);
                }
                for host in [OWNER, WATCHER, THIRD] {
                    // the first of either, the last, and such as nobody set
                    let his = AT + 2 * owners as u16;
                    for address in [AT, his, AT + 14, AT + 16, AT + 17, 4095, 4096] {
                        self.make(&why(host, BREAK, address, 1))?;
                        self.make(&why(host, UNBREAK, address, 0))?;
                    }
                }
                self.back();
            }
        }
        Ok(())
    }

    /// Ranges and addresses around the end of the process and the 256 of an EXAMINE, and the
    /// greatest there are, with each kind of size.
    fn ranges_asked(&mut self) -> Result<(), String> {
        for size in [2, 4, 18, 256, 258, 1536, 4094, 4096] {
            self.put_records(|processes| {
                let process = &mut processes[usize::from(P)];
                *process = Process { size, set: 0, ..*process };
                process.breakpoints = NONE_THERE.processes[0].breakpoints;
            });
            let edges = [0, 1, 2, 16, 17, 18, 19, 255, 256, 257, 65_279, 65_280, 65_534, 65_535];
            let near = (0..=6).map(|n| (size + 3).wrapping_sub(n));
            let near = near.chain((0..=4).map(|n| (size + 2).wrapping_sub(n + 256)));
            let numbers: Vec<u16> = edges.into_iter().chain(near).collect();
            for &first in &numbers {
                for host in [OWNER, WATCHER, THIRD] {
                    self.make(&why(host, BREAK, first, 1))?;
                }
                for &count in &numbers {
                    for cmd in [EXAMINE, DEPOSIT, DEPOSIT_STATE_VECTOR] {
                        self.make(&why(OWNER, cmd, first, count))?;
                    }
                    self.make(&why(WATCHER, EXAMINE, first, count))?;
                }
            }
            self.back();
        }
        // more than 16 bits have room for
        for count in 0..=u16::MAX {
            self.make(&why(OWNER, EXAMINE, u16::MAX, count))?;
        }
        Ok(())
    }

    /// CREATE with each number of processes there, and with sizes around the free bytes.
    fn creates_asked(&mut self) -> Result<(), String> {
        for there in 0..=PROCESSES {
            for size in [2, 2048, 2340, LARGEST] {
                self.put_records(|processes| {
                    *processes = NONE_THERE.processes;
                    for process in &mut processes[..there] {
                        *process = Process { there: true, size, ..*process };
                    }
                });
                let free = MEMORY.saturating_sub(there * usize::from(size)).min(4096) as u16;
                for asked in [0, 1, 2, 2048, 4096, 4098, free, free + 2, free.saturating_sub(2)] {
                    self.make(&why_create(asked))?;
                }
                self.back();
            }
        }
        Ok(())
    }
}

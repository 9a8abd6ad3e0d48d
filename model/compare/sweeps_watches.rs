//! Every host as a watcher, every watcher and every setter of an entry in a state, every
//! first byte of an entry, and both hosts with every number of breakpoints of their own.

use crate::lines::printed;
use crate::sides::Call;
use crate::status::count_again;
use crate::sweeps::{message, report_at, Sweep, OWNER, P};
use model::*;

/// The one who watches process 2, and a third.
pub const WATCHER: u8 = 78;
pub const THIRD: u8 = 79;
/// The breakpoint of the debugging host, in the first entry, and where the watcher's are.
pub const AT: u16 = 256;
pub const HIS: u16 = 512;

pub fn by(host: u8, cmd: u8, arg1: u16, arg2: u16) -> Call {
    let string = if matches!(cmd, DEPOSIT | DEPOSIT_STATE_VECTOR) { arg2.into() } else { 0 };
    Call::Request { message: message(host, cmd, P, arg1, arg2, string) }
}

pub fn told(kind: u8, pc: u16) -> Call {
    report_at(P.into(), kind.into(), 0, pc)
}

pub fn line(request: u8, addr: u32) -> Call {
    Call::Line { text: printed(P.into(), request, addr, 0) }
}

impl Sweep<'_> {
    pub fn watches(&mut self) -> Result<(), String> {
        self.each_watcher()?;
        for call in [by(WATCHER, WATCH, 0, 0), by(WATCHER, BREAK, HIS, 1)] {
            self.make(&call)?;
        }
        let base = self.rebase();
        self.watch_bytes()?;
        self.each_asker()?;
        self.each_address()?;
        self.both_in_run_states()?;
        self.restore(base);
        self.both_with_many()
    }

    /// Each host watches process 2, looks at it, sets a breakpoint, is told of it, and ends;
    /// and the same with each host debugging it and another watching.
    fn each_watcher(&mut self) -> Result<(), String> {
        for host in 0..=255 {
            let calls = [
                by(host, WATCH, 0, 0),
                by(host, EXAMINE, AT, 4),
                by(host, BREAK, HIS, 0),
                by(OWNER, BREAK, HIS, 3),
                line(b'i', AT.into()),
                line(b'r', 0),
                told(BPT, HIS),
                by(OWNER, PROCEED_BPT, 0, 0),
                told(TTRAP, AT),
                told(BPT, AT),
                by(host, UNBREAK, AT, 0),
                by(THIRD, WATCH, 0, 0),
                by(host, END_WATCH, 0, 0),
            ];
            for call in calls {
                self.make(&call)?;
            }
            self.back();
            let calls = [by(OWNER, END_DEBUG, 0, 0), by(host, DEBUG, 0, 0), by(host, BREAK, AT, 0)];
            for call in calls {
                self.make(&call)?;
            }
            let ends = [by(WATCHER, WATCH, 0, 0), by(WATCHER, BREAK, HIS, 0), told(BPT, HIS)];
            for call in ends.into_iter().chain([by(host, END_DEBUG, 0, 0)]) {
                self.make(&call)?;
            }
            self.back();
        }
        Ok(())
    }

    /// Makes the numbers of breakpoints true, after bytes are put.
    pub fn count_again(&mut self) {
        self.pair.change(|side| count_again(side.state.change()));
    }

    /// Puts a byte into the record of process 2.
    pub fn put_byte(&mut self, at: usize, byte: u8) {
        let at = RECORD_BYTES * usize::from(P) + at;
        self.pair.change(|side| side.state.change()[at] = byte);
    }

    /// Each watcher, and each setter and each first byte of both breakpoints and of a free
    /// entry, before calls that look at them.
    fn watch_bytes(&mut self) -> Result<(), String> {
        let places =
            [WATCHER_AT, ENTRIES_AT, ENTRIES_AT + ENTRY_BYTES, ENTRIES_AT + 2 * ENTRY_BYTES];
        for byte in 0..=255 {
            for place in places.into_iter().chain(places[1..].iter().map(|at| at + 1)) {
                for call in [
                    by(OWNER, EXAMINE, AT, 2),
                    by(WATCHER, UNBREAK, HIS, 0),
                    by(WATCHER, END_WATCH, 0, 0),
                    by(OWNER, END_DEBUG, 0, 0),
                    told(BPT, AT),
                    told(TRAP, HIS),
                    line(b'i', AT.into()),
                ] {
                    self.put_byte(place, byte);
                    self.count_again();
                    self.apart(call)?;
                }
            }
            // a watcher alone, with no breakpoint of his
            self.make(&by(WATCHER, UNBREAK, HIS, 0))?;
            self.put_byte(WATCHER_AT, byte);
            self.make(&by(WATCHER, EXAMINE, AT, 2))?;
            self.make(&by(byte, EXAMINE, AT, 2))?;
            self.back();
            // and of a process that nobody debugs, there and not; so its first entry
            for at in [0, 7].map(|p| RECORD_BYTES * p) {
                for place in [WATCHER_AT, ENTRIES_AT, ENTRIES_AT + 1] {
                    self.pair.change(|side| side.state.change()[at + place] = byte);
                    self.count_again();
                    self.apart(by(OWNER, EXAMINE, AT, 2))?;
                }
            }
        }
        Ok(())
    }

    /// Each op code of each host.
    fn each_asker(&mut self) -> Result<(), String> {
        for host in 0..=255 {
            for cmd in 0..=STATUS {
                for (arg1, arg2) in [(0, 0), (AT, 0), (HIS, 0), (AT, 2), (HIS, 2)] {
                    let mut message = message(host, cmd, P, arg1, arg2, 0);
                    if matches!(cmd, DEPOSIT | DEPOSIT_STATE_VECTOR) {
                        message.resize(HEAD + usize::from(arg2), 7);
                    }
                    self.apart(Call::Request { message })?;
                }
            }
        }
        Ok(())
    }

    /// Each address and count of both hosts' breakpoints, and each PC of a report.
    fn each_address(&mut self) -> Result<(), String> {
        for n in 0..=u16::MAX {
            for host in [OWNER, WATCHER] {
                self.apart(by(host, BREAK, n, 1))?;
                self.apart(by(host, UNBREAK, n, 0))?;
                self.apart(by(host, BREAK, HIS, n))?;
            }
            self.apart(by(WATCHER, EXAMINE, n, 2))?;
            self.make(&by(WATCHER, BREAK, HIS, 0))?;
            self.make(&told(BPT, n))?;
            self.back();
        }
        Ok(())
    }

    /// Each run state, with the watcher's breakpoint planted or lifted and of each count,
    /// before what both may ask and each report; one more report follows.
    fn both_in_run_states(&mut self) -> Result<(), String> {
        for (run, lifted) in (0..7).flat_map(|run| [0, 1].map(|lifted| (run, lifted))) {
            for count in [0, 1] {
                for call in both_ask() {
                    self.put_byte(2, run);
                    self.put_byte(ENTRIES_AT + ENTRY_BYTES, lifted);
                    self.put_byte(ENTRIES_AT + ENTRY_BYTES + 4, count);
                    let [low, high] = HIS.to_le_bytes();
                    self.put_byte(VECTOR_AT + 2 * PC, low);
                    self.put_byte(VECTOR_AT + 2 * PC + 1, high);
                    for call in [call, told(TTRAP, HIS + 2), told(BPT, HIS), told(TRAP, HIS)] {
                        self.make(&call)?;
                    }
                    self.back();
                }
            }
        }
        Ok(())
    }

    /// The debugging host sets so many, another watches and sets so many more, each asks for
    /// one more and changes one of both; then the watch ends, and so many may be set again.
    fn both_with_many(&mut self) -> Result<(), String> {
        for (owners, watchers) in (0..=8).flat_map(|n| (0..=5).map(move |m| (n, m))) {
            self.make(&by(OWNER, UNBREAK, AT, 0))?;
            for n in 0..owners {
                self.make(&by(OWNER, BREAK, AT + 2 * n, 0))?;
            }
            self.make(&by(WATCHER, WATCH, 0, 0))?;
            for n in 0..watchers {
                self.make(&by(WATCHER, BREAK, HIS + 2 * n, 0))?;
            }
            for host in [OWNER, WATCHER, THIRD] {
                for address in [AT, HIS, AT + 1] {
                    self.make(&by(host, BREAK, address, 5))?;
                }
            }
            for host in [WATCHER, OWNER, WATCHER, OWNER] {
                self.make(&by(host, BREAK, 1024 + u16::from(host), 0))?;
                self.make(&by(host, BREAK, 1000 + 2 * u16::from(host), 0))?;
            }
            self.make(&by(WATCHER, END_WATCH, 0, 0))?;
            for n in 0..9 {
                self.make(&by(OWNER, BREAK, 2048 + 2 * n, 0))?;
            }
            self.back();
        }
        Ok(())
    }
}

/// What the debugging host, the watcher, host 253 and the machine may ask and tell.
fn both_ask() -> Vec<Call> {
    let plain = [
        DEBUG,
        END_DEBUG,
        STOP,
        RESUME,
        SINGLE_STEP,
        PROCEED_BPT,
        DESTROY_PROCESS,
        WATCH,
        END_WATCH,
        STATUS,
    ];
    let mut calls = Vec::new();
    for host in [OWNER, WATCHER, THIRD] {
        calls.extend(plain.map(|cmd| by(host, cmd, 0, 0)));
        for at in [AT, HIS] {
            let asked = [(EXAMINE, 2), (DEPOSIT, 2), (BREAK, 3), (UNBREAK, 0)];
            calls.extend(asked.map(|(cmd, arg2)| by(host, cmd, at, arg2)));
        }
    }
    for pc in [AT, HIS, HIS + 2] {
        calls.extend([TRAP, HALT, BPT, TTRAP].map(|kind| told(kind, pc)));
    }
    calls
}

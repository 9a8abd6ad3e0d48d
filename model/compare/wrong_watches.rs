//! Wrong libraries that go wrong by watches: who may watch, and what a watcher may.

use crate::changes::{after, Cause::*};
use crate::lined::{on_changed, refuse};
use crate::made::Made;
use crate::watched::{as_if_asked_by, asked, cant, ended, on_records, Asked};
use crate::wrong::Wrong;
use crate::wrong_lines::lend;
use model::*;

/// Each is the model's answer, but for one error.
pub const WRONG_WATCHES: &[Wrong] = &[
    // who may watch
    Wrong {
        name: "WATCH of one's own process is granted",
        answer: |made| cant_but(made, WATCH, -8, |a| a.owner()),
    },
    Wrong {
        name: "WATCH of a process that nobody debugs is granted",
        answer: |made| cant_but(made, WATCH, -8, |a| a.process.host == NOBODY),
    },
    Wrong {
        name: "WATCH while another watches is granted",
        answer: |made| on_records(made, WATCH, -15, |_, p| p.watcher = NOBODY),
    },
    Wrong {
        name: "15 before 8",
        answer: |made| cant(made, 15, |a, answer| a.is(WATCH) && answer == -8 && a.watched()),
    },
    Wrong {
        name: "WATCH again by the same is refused with 15",
        answer: |made| cant(made, 15, |a, answer| a.is(WATCH) && answer > 0 && a.watched()),
    },
    Wrong {
        name: "WATCH again by the same removes his breakpoints",
        answer: |made| {
            after(made, |c| {
                if c.cause == Asked(WATCH) && c.old.watcher != NOBODY {
                    ended(c.new, c.bytes, c.old.watcher);
                }
            })
        },
    },
    Wrong {
        name: "another watcher is 8",
        answer: |made| cant(made, 8, |a, answer| a.is(WATCH) && answer == -15),
    },
    Wrong {
        name: "WATCH by host 253 is refused",
        answer: |made| cant(made, 8, |a, answer| a.is(WATCH) && answer > 0 && a.host == TEXT_HOST),
    },
    Wrong {
        name: "WATCH by host 254 is refused",
        answer: |made| cant(made, 8, |a, answer| a.is(WATCH) && answer > 0 && a.host == 254),
    },
    Wrong {
        name: "WATCH of an ended process is refused",
        answer: |made| {
            cant(made, 9, |a, answer| a.is(WATCH) && answer > 0 && a.process.run == Run::Ended)
        },
    },
    Wrong {
        name: "WATCH with eight breakpoints set is refused",
        answer: |made| cant(made, 11, |a, answer| a.is(WATCH) && answer > 0 && a.used() == 8),
    },
    Wrong {
        name: "WATCH is granted and watches nothing",
        answer: |made| {
            after(made, |c| {
                if c.cause == Asked(WATCH) {
                    c.new.watcher = c.old.watcher;
                }
            })
        },
    },
    Wrong {
        name: "WATCH removes those of the debugging host past his fourth",
        answer: |made| {
            after(made, |c| {
                if c.cause == Asked(WATCH) && c.old.watcher == NOBODY {
                    let (host, mut his) = (c.old.host, 0);
                    for b in c.new.breakpoints.iter_mut().filter(|b| b.used() && b.setter == host) {
                        his += 1;
                        if his > 4 {
                            take_away(b, c.bytes);
                        }
                    }
                }
            })
        },
    },
    Wrong {
        name: "WATCH cancels an owed answer",
        answer: |made| {
            after(made, |c| {
                if c.cause == Asked(WATCH) {
                    c.new.owed = Owed::Nothing;
                }
            })
        },
    },
    // what a watcher may
    Wrong {
        name: "a watcher's DEPOSIT is granted",
        answer: |made| as_if_asked_by(made, &[DEPOSIT], |a| a.watcher()),
    },
    Wrong {
        name: "a watcher's DEPOSIT VECTOR is granted",
        answer: |made| as_if_asked_by(made, &[DEPOSIT_STATE_VECTOR], |a| a.watcher()),
    },
    Wrong {
        name: "a watcher's STOP is granted",
        answer: |made| as_if_asked_by(made, &[STOP], |a| a.watcher()),
    },
    Wrong {
        name: "a watcher's RESUME is granted",
        answer: |made| as_if_asked_by(made, &[RESUME], |a| a.watcher()),
    },
    Wrong {
        name: "a watcher's SINGLE STEP is granted",
        answer: |made| as_if_asked_by(made, &[SINGLE_STEP], |a| a.watcher()),
    },
    Wrong {
        name: "a watcher's PROCEED BPT is granted",
        answer: |made| as_if_asked_by(made, &[PROCEED_BPT], |a| a.watcher()),
    },
    Wrong {
        name: "a watcher's END DEBUG is granted",
        answer: |made| as_if_asked_by(made, &[END_DEBUG], |a| a.watcher()),
    },
    Wrong {
        name: "a watcher's DESTROY is granted",
        answer: |made| as_if_asked_by(made, &[DESTROY_PROCESS], |a| a.watcher()),
    },
    Wrong {
        name: "a watcher's DEBUG is granted and changes nothing",
        answer: |made| as_if_asked_by(made, &[DEBUG], |a| a.watcher()),
    },
    Wrong {
        name: "a third may EXAMINE while a process is watched",
        answer: |made| as_if_asked_by(made, &[EXAMINE], |a| a.watched() && !a.knows()),
    },
    Wrong {
        name: "a watcher's EXAMINE is refused",
        answer: |made| cant(made, 8, |a, answer| a.is(EXAMINE) && answer > 0 && a.watcher()),
    },
    Wrong {
        name: "a watcher's BREAK is refused",
        answer: |made| cant(made, 8, |a, answer| a.is(BREAK) && answer > 0 && a.watcher()),
    },
    Wrong {
        name: "a watcher's UNBREAK is refused",
        answer: |made| cant(made, 8, |a, answer| a.is(UNBREAK) && answer > 0 && a.watcher()),
    },
    Wrong {
        name: "a watcher's right is tested after the address",
        answer: |made| {
            cant(made, 10, |a, answer| a.is(DEPOSIT) && answer == -8 && a.watcher() && a.outside())
        },
    },
    Wrong {
        name: "a watcher's right is tested after the run state",
        answer: |made| {
            cant(made, 9, |a, answer| {
                a.is(RESUME) && answer == -8 && a.watcher() && !a.process.run.waits()
            })
        },
    },
    // lines of a watcher
    Wrong {
        name: "r by the watcher is granted",
        answer: |made| on_changed(made, |a, p| a.is(b"r") && p.watcher == TEXT_HOST && lend(p)),
    },
    Wrong {
        name: "R by the watcher is granted",
        answer: |made| on_changed(made, |a, p| a.is(b"R") && p.watcher == TEXT_HOST && lend(p)),
    },
    Wrong {
        name: "I by the watcher is granted",
        answer: |made| on_changed(made, |a, p| a.is(b"I") && p.watcher == TEXT_HOST && lend(p)),
    },
    Wrong {
        name: "D by the watcher is granted",
        answer: |made| on_changed(made, |a, p| a.is(b"D") && p.watcher == TEXT_HOST && lend(p)),
    },
    Wrong {
        name: "c by the watcher is granted",
        answer: |made| on_changed(made, |a, p| a.is(b"c") && p.watcher == TEXT_HOST && lend(p)),
    },
    Wrong {
        name: "i by the watcher is refused",
        answer: |made| {
            let ours = |p: Process| p.watcher == TEXT_HOST;
            refuse(made, 101, |a, answer| answer > 0 && a.is(b"i") && a.process.is_some_and(ours))
        },
    },
    Wrong {
        name: "d by the watcher is refused",
        answer: |made| {
            let ours = |p: Process| p.watcher == TEXT_HOST;
            refuse(made, 101, |a, answer| answer > 0 && a.is(b"d") && a.process.is_some_and(ours))
        },
    },
    Wrong {
        name: "any watcher's process may be asked by lines",
        answer: |made| on_changed(made, |a, p| a.is(b"id") && p.watcher != NOBODY && lend(p)),
    },
];

/// A free entry.
pub const FREE: Breakpoint = NONE_THERE.processes[0].breakpoints[0];

/// Removes a breakpoint as UNBREAK does.
fn take_away(b: &mut Breakpoint, bytes: &mut [u8]) {
    if b.planted() {
        bytes[usize::from(b.address)..][..2].copy_from_slice(&b.saved);
    }
    *b = FREE;
}

/// A request that is refused with this number is granted where this holds, and changes
/// nothing.
fn cant_but(made: Made, cmd: u8, number: i64, test: impl Fn(&Asked) -> bool) -> i64 {
    let mut made = made;
    let meant = asked(&mut made).is_some_and(|a| a.is(cmd) && test(&a));
    let answer = made.right();
    if answer != number || !meant {
        return answer;
    }
    if let Made::Request { reply, .. } = made {
        reply[4] -= 128;
    }
    10
}

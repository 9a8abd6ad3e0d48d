//! Wrong libraries that go wrong by whose a breakpoint is: who may change it, and how many
//! each may set.

use crate::changes::{after, Cause::*};
use crate::made::Made;
use crate::watched::{as_if_asked_by, asked, cant, on_records, Asked};
use crate::wrong::Wrong;
use model::*;

/// Each is the model's answer, but for one error.
pub const WRONG_SETTERS: &[Wrong] = &[
    // who set it
    Wrong {
        name: "who set it is lost when it is planted again by a report",
        answer: |made| {
            after(made, |c| {
                if matches!(c.cause, Told(_)) {
                    lose(c.old, c.new, |old, new| old.lifted && !new.lifted);
                }
            })
        },
    },
    Wrong {
        name: "who set it is lost when it is planted again by STOP",
        answer: |made| {
            after(made, |c| {
                if c.cause == Asked(STOP) {
                    lose(c.old, c.new, |old, new| old.lifted && !new.lifted);
                }
            })
        },
    },
    Wrong {
        name: "who set it is lost when it is lifted",
        answer: |made| after(made, |c| lose(c.old, c.new, |old, new| !old.lifted && new.lifted)),
    },
    Wrong {
        name: "a new breakpoint is the debugging host's",
        answer: |made| after(made, |c| lose(c.old, c.new, |old, _| !old.used())),
    },
    Wrong {
        name: "a changed count makes it the debugging host's",
        answer: |made| {
            after(made, |c| {
                if c.cause == Asked(BREAK) {
                    lose(c.old, c.new, |old, new| old.used() && old.remaining != new.remaining);
                }
            })
        },
    },
    Wrong {
        name: "the watcher's are in the entries from the fifth on",
        answer: |made| {
            after(made, |c| {
                let new =
                    (0..4).find(|&e| !c.old.breakpoints[e].used() && c.new.breakpoints[e].used());
                let free = (4..BREAKPOINTS).find(|&e| !c.old.breakpoints[e].used());
                if let (Some(new), Some(free)) = (new, free) {
                    if c.new.breakpoints[new].setter != c.old.host {
                        c.new.breakpoints.swap(new, free);
                    }
                }
            })
        },
    },
    // the other's
    Wrong {
        name: "the count of the other's is changed",
        answer: |made| on_records(made, BREAK, -16, |a, p| hand_over(a, p)),
    },
    Wrong {
        name: "the watcher may remove the other's",
        answer: |made| {
            if_watcher(made, |made| on_records(made, UNBREAK, -16, |a, p| hand_over(a, p)))
        },
    },
    Wrong {
        name: "the debugging host may remove the watcher's",
        answer: |mut made| match asked(&mut made).is_some_and(|a| a.owner()) {
            true => on_records(made, UNBREAK, -16, |a, p| hand_over(a, p)),
            false => made.right(),
        },
    },
    Wrong {
        name: "UNBREAK of the other's says 12",
        answer: |made| cant(made, 12, |a, answer| a.is(UNBREAK) && answer == -16),
    },
    Wrong {
        name: "BREAK at the other's says 11",
        answer: |made| cant(made, 11, |a, answer| a.is(BREAK) && answer == -16),
    },
    Wrong {
        name: "BREAK at the other's with eight used is 11",
        answer: |made| cant(made, 11, |a, answer| a.is(BREAK) && answer == -16 && a.used() == 8),
    },
    Wrong {
        name: "BREAK at the other's with four of his own is 11",
        answer: |made| cant(made, 11, |a, answer| a.is(BREAK) && answer == -16 && a.his() > 3),
    },
    Wrong {
        name: "16 before 12: UNBREAK where none is, of a watched process",
        answer: |made| cant(made, 16, |a, answer| a.is(UNBREAK) && answer == -12 && a.watched()),
    },
    Wrong {
        name: "16 before 11: a fifth while the other has one",
        answer: |made| {
            cant(made, 16, |a, answer| a.is(BREAK) && answer == -11 && a.used() > a.his())
        },
    },
    Wrong {
        name: "16 before 8: a third's UNBREAK of one that is set",
        answer: |made| {
            cant(made, 16, |a, answer| a.is(UNBREAK) && answer == -8 && a.here().is_some())
        },
    },
    Wrong { name: "15 writes no CAN'T", answer: |made| silent(made, -15) },
    Wrong { name: "16 writes no CAN'T", answer: |made| silent(made, -16) },
    // how many
    Wrong { name: "a fifth of the watcher's is granted", answer: |made| if_watcher(made, fifth) },
    Wrong {
        name: "a fifth of the debugging host's is granted while watched",
        answer: |mut made| match asked(&mut made).is_some_and(|a| a.owner()) {
            true => fifth(made),
            false => made.right(),
        },
    },
    Wrong {
        name: "a sixth is granted, since five are from before the watch",
        answer: |mut made| match asked(&mut made).is_some_and(|a| a.his() > 4) {
            true => fifth(made),
            false => made.right(),
        },
    },
    Wrong {
        name: "a fourth is refused while watched",
        answer: |made| cant(made, 11, |a, answer| plants(a, answer) && a.watched() && a.his() == 3),
    },
    Wrong {
        name: "a fifth of both together is refused",
        answer: |made| cant(made, 11, |a, answer| plants(a, answer) && a.watched() && a.used() > 3),
    },
    Wrong {
        name: "a fifth is refused though nobody watches",
        answer: |made| {
            cant(made, 11, |a, answer| plants(a, answer) && !a.watched() && a.his() == 4)
        },
    },
    Wrong {
        name: "a new count for one of four is refused",
        answer: |made| {
            cant(made, 11, |a, answer| {
                a.is(BREAK) && answer > 0 && a.here().is_some() && a.watched() && a.his() > 3
            })
        },
    },
    Wrong {
        name: "the limit counts the other's for the watcher",
        answer: |made| {
            cant(made, 11, |a, answer| plants(a, answer) && a.watcher() && a.used() - a.his() > 3)
        },
    },
    Wrong {
        name: "a third may set one while a process is watched",
        answer: |made| as_if_asked_by(made, &[BREAK], |a| a.watched() && !a.knows()),
    },
];

/// Makes those breakpoints the debugging host's of which this holds, before and after.
fn lose(old: &Process, new: &mut Process, test: impl Fn(&Breakpoint, &Breakpoint) -> bool) {
    let host = new.host;
    for (old, new) in old.breakpoints.iter().zip(&mut new.breakpoints) {
        if new.used() && test(old, new) {
            new.setter = host;
        }
    }
}

/// Makes the breakpoint at ARG1 the asker's.
fn hand_over(a: &Asked, process: &mut Process) {
    for b in process.breakpoints.iter_mut().filter(|b| b.used() && b.address == a.arg1) {
        b.setter = a.host;
    }
}

fn if_watcher(mut made: Made, wrong: impl Fn(Made) -> i64) -> i64 {
    match asked(&mut made).is_some_and(|a| a.watcher()) {
        true => wrong(made),
        false => made.right(),
    }
}

/// A BREAK that is refused for the limit of 4 alone is granted.
fn fifth(mut made: Made) -> i64 {
    let meant = asked(&mut made).filter(|a| a.is(BREAK) && a.used() < 8 && a.his() > 3);
    let (Some(a), Some(old)) = (meant, made.records()) else { return made.right() };
    let other = if a.owner() { a.process.watcher } else { a.process.host };
    let mut records = old.clone();
    // his are the other's while it is asked
    let his: Vec<usize> = (0..BREAKPOINTS)
        .filter(|&e| a.process.breakpoints[e].used() && a.process.breakpoints[e].setter == a.host)
        .filter(|&e| a.process.breakpoints[e].address != a.arg1)
        .collect();
    his.iter().for_each(|&e| records.processes[a.p].breakpoints[e].setter = other);
    made.put(&records);
    let answer = made.right();
    match made.records().filter(|_| answer > 0) {
        None => made.put(&old),
        Some(mut records) => {
            his.iter().for_each(|&e| records.processes[a.p].breakpoints[e].setter = a.host);
            made.put(&records);
        }
    }
    answer
}

/// Whether a new breakpoint is set.
fn plants(a: &Asked, answer: i64) -> bool {
    a.is(BREAK) && answer > 0 && a.here().is_none()
}

/// A refusal that writes nothing.
fn silent(mut made: Made, number: i64) -> i64 {
    let before = match &made {
        Made::Request { reply, .. } => reply.to_vec(),
        _ => Vec::new(),
    };
    let answer = made.right();
    if let (Made::Request { reply, .. }, true) = (made, answer == number) {
        reply.copy_from_slice(&before);
    }
    answer
}

//! Wrong libraries that go wrong by K6's number of breakpoints, as a record keeps it: when it
//! rises and falls, and which number is sound.

use crate::changes::{after, Cause::*};
use crate::made::Made;
use crate::watched::asked;
use crate::wrong::Wrong;
use crate::wrong_told::repaired;
use model::*;

/// Each is the model's answer, but for one error.
pub const WRONG_NUMBERS: &[Wrong] = &[
    // the number that is kept
    Wrong { name: "the number does not rise at BREAK", answer: |made| stays(made, BREAK) },
    Wrong { name: "the number does not fall at UNBREAK", answer: |made| stays(made, UNBREAK) },
    Wrong { name: "the number does not fall at END WATCH", answer: |made| stays(made, END_WATCH) },
    Wrong { name: "the number does not fall at END DEBUG", answer: |made| stays(made, END_DEBUG) },
    Wrong {
        name: "the number does not fall at DESTROY",
        answer: |mut made| {
            let number = asked(&mut made)
                .filter(|a| a.is(DESTROY_PROCESS))
                .map(|a| (a.p, counted(&a.process)));
            let answer = made.right();
            if let (Some((p, number)), Some(mut records), 1..) = (number, made.records(), answer) {
                records.processes[p].set = number;
                made.put(&records);
            }
            answer
        },
    },
    Wrong {
        name: "CREATE leaves the number 1",
        answer: |mut made| {
            let creates = made.byte(4) == Some(CREATE_PROCESS);
            let answer = made.right();
            let new = match &made {
                Made::Request { reply, .. } if creates && answer > 0 => Some(usize::from(reply[5])),
                _ => None,
            };
            if let (Some(p), Some(mut records)) = (new, made.records()) {
                records.processes[p].set = 1;
                made.put(&records);
            }
            answer
        },
    },
    Wrong {
        name: "a fresh start leaves the numbers as they were",
        answer: |mut made| {
            let before = match &made {
                Made::Start { state, .. } => state.to_vec(),
                _ => Vec::new(),
            };
            let answer = made.right();
            if let (Made::Start { state, .. }, 0) = (made, answer) {
                for at in (0..PROCESSES).map(|p| RECORD_BYTES * p + SET_AT) {
                    state[at] = before[at];
                }
            }
            answer
        },
    },
    Wrong {
        name: "a new count makes the number one more",
        answer: |made| {
            after(made, |c| {
                if c.cause == Asked(BREAK) && c.new.set == c.old.set {
                    c.new.set += 1;
                }
            })
        },
    },
    Wrong {
        name: "END WATCH makes the number one less, however many go",
        answer: |made| {
            after(made, |c| {
                if c.cause == Asked(END_WATCH) && c.new.set < c.old.set {
                    c.new.set = c.old.set - 1;
                }
            })
        },
    },
    Wrong {
        name: "END WATCH takes the planted ones alone from the number",
        answer: |made| {
            after(made, |c| {
                if c.cause == Asked(END_WATCH) {
                    let lifted = |b: &&Breakpoint| b.lifted && b.setter == c.old.watcher;
                    c.new.set += c.old.breakpoints.iter().filter(lifted).count() as u8;
                }
            })
        },
    },
    Wrong {
        name: "UNBREAK of a lifted one leaves the number",
        answer: |made| {
            after(made, |c| {
                if c.cause == Asked(UNBREAK) && lifted(c.old) && !lifted(c.new) {
                    c.new.set = c.old.set;
                }
            })
        },
    },
    Wrong {
        name: "END DEBUG leaves the number of the watcher's",
        answer: |made| {
            after(made, |c| {
                if c.cause == Asked(END_DEBUG) {
                    let his = |b: &&Breakpoint| b.used() && b.setter != c.old.host;
                    c.new.set = c.old.breakpoints.iter().filter(his).count() as u8;
                }
            })
        },
    },
    Wrong {
        name: "the number that is kept is that of the planted ones",
        answer: |made| {
            after(made, |c| {
                c.new.set = c.new.breakpoints.iter().filter(|b| b.planted()).count() as u8;
            })
        },
    },
    Wrong {
        name: "a report that plants again makes the number one more",
        answer: |made| {
            after(made, |c| {
                if matches!(c.cause, Told(_)) && lifted(c.old) && !lifted(c.new) {
                    c.new.set += 1;
                }
            })
        },
    },
    Wrong {
        name: "WATCH makes the number 0",
        answer: |made| {
            after(made, |c| {
                if c.cause == Asked(WATCH) {
                    c.new.set = 0;
                }
            })
        },
    },
    Wrong { name: "the number has three bits", answer: |made| after(made, |c| c.new.set &= 7) },
    // sound states
    Wrong { name: "a wrong number is accepted", answer: |made| accepted(made, |_| true) },
    Wrong {
        name: "a number that is too great is accepted",
        answer: |made| accepted(made, |p| p.set > counted(p)),
    },
    Wrong {
        name: "a number that is too small is accepted",
        answer: |made| accepted(made, |p| p.set < counted(p)),
    },
    Wrong {
        name: "a number of an absent process is accepted",
        answer: |made| accepted(made, |p| !p.there),
    },
    Wrong {
        name: "a number of a process that nobody debugs is accepted",
        answer: |made| accepted(made, |p| p.there && p.host == NOBODY),
    },
    Wrong {
        name: "a number is compared by its three lowest bits",
        answer: |made| accepted(made, |p| p.set % 8 == counted(p) % 8),
    },
    Wrong { name: "a number of 255 is accepted", answer: |made| accepted(made, |p| p.set == 255) },
    Wrong {
        name: "the number of the planted ones is accepted",
        answer: |made| {
            let planted = |p: &Process| p.breakpoints.iter().filter(|b| b.planted()).count();
            accepted(made, |p| usize::from(p.set) == planted(p))
        },
    },
    Wrong {
        name: "the number of process 7 is not asked",
        answer: |mut made| match made.records() {
            Some(records) if sound(&records) => made.right(),
            Some(records) => {
                let seventh = records.processes[7];
                accepted(made, |p| *p == seventh)
            }
            None => made.right(),
        },
    },
    Wrong {
        name: "a wrong number is accepted in reports",
        answer: |mut made| match made {
            Made::Report { .. } => accepted(made, |_| true),
            _ => made.right(),
        },
    },
    Wrong {
        name: "a wrong number is accepted in lines",
        answer: |mut made| match made {
            Made::Line { .. } => accepted(made, |_| true),
            _ => made.right(),
        },
    },
    Wrong {
        name: "a wrong number is made right",
        answer: |made| repaired(made, |p| p.set = counted(p)),
    },
];

/// How many breakpoints a process has.
fn counted(process: &Process) -> u8 {
    process.breakpoints.iter().filter(|b| b.used()).count() as u8
}

pub fn lifted(process: &Process) -> bool {
    process.breakpoints.iter().any(|b| b.used() && b.lifted)
}

/// The number stays as it was at such a request.
fn stays(made: Made, cmd: u8) -> i64 {
    after(made, |c| {
        if c.cause == Asked(cmd) {
            c.new.set = c.old.set;
        }
    })
}

/// A wrong number of such a process is taken for a right one, and stays unless it changes.
fn accepted(mut made: Made, test: impl Fn(&Process) -> bool) -> i64 {
    let Some(old) = made.records().filter(|state| !sound(state)) else { return made.right() };
    let mut records = old.clone();
    for process in records.processes.iter_mut().filter(|process| test(process)) {
        process.set = counted(process);
    }
    if !sound(&records) {
        return made.right();
    }
    made.put(&records);
    let answer = made.right();
    match made.records().filter(|_| answer >= 0) {
        None => made.put(&old),
        Some(mut after) => {
            for p in 0..PROCESSES {
                let (was, is) = (records.processes[p].set, after.processes[p].set);
                let changed = is.wrapping_sub(was);
                after.processes[p].set = old.processes[p].set.wrapping_add(changed);
            }
            made.put(&after);
        }
    }
    answer
}

//! Wrong libraries that go wrong by an answer that is owed: what owes it, when it is given,
//! and what cancels it.

use crate::changes::after;
use crate::changes::Cause::{Asked, Line, Told};
use crate::made::Made;
use crate::wrong::Wrong;
use model::*;

/// Each is the model's answer, but for one error.
pub const WRONG_OWED: &[Wrong] = &[
    // what cancels it
    Wrong {
        name: "STOP does not cancel an owed answer",
        answer: |made| kept(made, STOP, |_| true),
    },
    Wrong {
        name: "STOP of one that is passing does not cancel",
        answer: |made| kept(made, STOP, |p| p.run == Run::Passing),
    },
    Wrong {
        name: "STOP of one that is stepping does not cancel",
        answer: |made| kept(made, STOP, |p| p.run == Run::Stepping),
    },
    Wrong {
        name: "STOP cancels only where it stops",
        answer: |made| kept(made, STOP, |p| !p.run.goes()),
    },
    Wrong {
        name: "END DEBUG does not cancel an owed answer",
        answer: |made| kept(made, END_DEBUG, |_| true),
    },
    Wrong { name: "DESTROY does not cancel an owed answer", answer: destroyed_and_owed },
    Wrong { name: "DEBUG again cancels", answer: |made| cancelled(made, DEBUG) },
    Wrong { name: "EXAMINE cancels", answer: |made| cancelled(made, EXAMINE) },
    Wrong { name: "DEPOSIT cancels", answer: |made| cancelled(made, DEPOSIT) },
    Wrong { name: "DEPOSIT VECTOR cancels", answer: |made| cancelled(made, DEPOSIT_STATE_VECTOR) },
    Wrong { name: "BREAK cancels", answer: |made| cancelled(made, BREAK) },
    Wrong { name: "UNBREAK cancels", answer: |made| cancelled(made, UNBREAK) },
    Wrong { name: "RESUME cancels", answer: |made| cancelled(made, RESUME) },
    Wrong {
        name: "a stranger's STOP cancels",
        answer: |mut made| {
            let named = made.byte(5).filter(|_| made.byte(4) == Some(STOP));
            let answer = made.right();
            if let (Some(mut records), Some(p), -8) = (made.records(), named, answer) {
                records.processes[usize::from(p)].owed = Owed::Nothing;
                made.put(&records);
            }
            answer
        },
    },
    Wrong {
        name: "another's c cancels",
        answer: |made| {
            let mut made = made;
            let go = match &made {
                Made::Line { text, .. } => read_line(text).filter(|line| line.request == b'c'),
                _ => None,
            };
            let answer = made.right();
            if let (Some(mut records), Some(line), 0) = (made.records(), go, answer) {
                let others = records.processes.iter_mut().enumerate();
                for (_, process) in others.filter(|(p, _)| *p != line.pid as usize) {
                    process.owed = Owed::Nothing;
                }
                made.put(&records);
            }
            answer
        },
    },
    // what is owed
    Wrong {
        name: "c is owed as s",
        answer: |made| {
            after(made, |c| {
                if c.cause == Line(b'c') {
                    c.new.owed = Owed::Step;
                }
            })
        },
    },
    Wrong {
        name: "s is owed as c",
        answer: |made| {
            after(made, |c| {
                if c.cause == Line(b's') {
                    c.new.owed = Owed::Continue;
                }
            })
        },
    },
    Wrong {
        name: "c owes nothing",
        answer: |made| {
            after(made, |c| {
                if c.cause == Line(b'c') {
                    c.new.owed = Owed::Nothing;
                }
            })
        },
    },
    Wrong {
        name: "RESUME by host 253 owes an answer",
        answer: |made| {
            after(made, |c| {
                if c.cause == Asked(RESUME) && c.new.host == TEXT_HOST {
                    c.new.owed = Owed::Continue;
                }
            })
        },
    },
    Wrong {
        name: "i owes an answer",
        answer: |made| {
            after(made, |c| {
                if c.cause == Line(b'i') {
                    c.new.owed = Owed::Continue;
                }
            })
        },
    },
    // when it is given
    Wrong {
        name: "an owed answer is given at a silent pass",
        answer: |made| early(made, |kind, process| kind == BPT && process.run != Run::Stepping),
    },
    Wrong {
        name: "an owed answer is given at a silent pass while stepping",
        answer: |made| early(made, |kind, process| kind == BPT && process.run == Run::Stepping),
    },
    Wrong {
        name: "an owed answer is given at the TTRAP that ends passing",
        answer: |made| early(made, |kind, _| kind == TTRAP),
    },
    Wrong {
        name: "a silent pass forgets what is owed",
        answer: |made| {
            after(made, |c| {
                if c.cause == Told(BPT) && c.new.run.goes() {
                    c.new.owed = Owed::Nothing;
                }
            })
        },
    },
    Wrong {
        name: "the TTRAP that ends passing forgets what is owed",
        answer: |made| {
            after(made, |c| {
                if c.cause == Told(TTRAP) && c.new.run.goes() {
                    c.new.owed = Owed::Nothing;
                }
            })
        },
    },
    Wrong {
        name: "an answer that was given is owed still",
        answer: |made| {
            after(made, |c| {
                if matches!(c.cause, Told(_)) {
                    c.new.owed = c.old.owed;
                }
            })
        },
    },
    Wrong {
        name: "an s that was answered is owed still",
        answer: |made| {
            after(made, |c| {
                if matches!(c.cause, Told(_)) && c.old.owed == Owed::Step {
                    c.new.owed = c.old.owed;
                }
            })
        },
    },
    Wrong { name: "no answer is given", answer: |made| unanswered(made, |_, _| true) },
    Wrong { name: "HALT gives no answer", answer: |made| unanswered(made, |kind, _| kind == HALT) },
    Wrong { name: "TRAP gives no answer", answer: |made| unanswered(made, |kind, _| kind == TRAP) },
    Wrong {
        name: "TTRAP gives no answer",
        answer: |made| unanswered(made, |kind, _| kind == TTRAP),
    },
    Wrong {
        name: "a report while passing gives no answer",
        answer: |made| unanswered(made, |_, process| process.run == Run::Passing),
    },
    Wrong {
        name: "an answer that is not owed is given",
        answer: |mut made| {
            let reported = reported(&mut made);
            let answer = made.right();
            match (made, reported) {
                (Made::Report { line, .. }, Some((p, _, old)))
                    if answer == 28 && old.host == TEXT_HOST =>
                {
                    let length = write_line(p as u32, b'c', 0, 0x57f, line);
                    answer + 256 * length as i64
                }
                _ => answer,
            }
        },
    },
];

/// A request of this op code that does not cancel, where this holds of the process.
fn kept(made: Made, cmd: u8, test: impl Fn(&Process) -> bool) -> i64 {
    after(made, |c| {
        if c.cause == Asked(cmd) && test(c.old) {
            c.new.owed = c.old.owed;
        }
    })
}

fn destroyed_and_owed(made: Made) -> i64 {
    crate::wrong_layout::after(made, DESTROY_PROCESS, |c| {
        c.new.processes[c.p].owed = c.old.processes[c.p].owed;
    })
}

/// One that cancels.
fn cancelled(made: Made, cmd: u8) -> i64 {
    after(made, |c| {
        if c.cause == Asked(cmd) {
            c.new.owed = Owed::Nothing;
        }
    })
}

/// The process that a report is about, its kind, and the process's record before.
pub fn reported(made: &mut Made) -> Option<(usize, u8, Process)> {
    let records = made.records()?;
    let Made::Report { numbers: [p, kind @ 0..=3, _], .. } = made else { return None };
    let old = records.processes.get(*p as usize)?;
    Some((*p as usize, *kind as u8, *old))
}

/// A silent report that gives the owed answer, where this holds.
fn early(mut made: Made, test: impl Fn(u8, &Process) -> bool) -> i64 {
    let reported = reported(&mut made);
    let answer = made.right();
    let (Some((p, kind, old)), 0) = (reported, answer) else { return answer };
    let Some(letter) = old.owed.letter().filter(|_| test(kind, &old)) else { return answer };
    let Some(mut records) = made.records() else { return answer };
    records.processes[p].owed = Owed::Nothing;
    made.put(&records);
    let Made::Report { line, .. } = made else { return answer };
    256 * write_line(p as u32, letter, 0, 0x57f, line) as i64
}

/// A report that gives no answer, where this holds, and forgets it.
fn unanswered(mut made: Made, test: impl Fn(u8, &Process) -> bool) -> i64 {
    let reported = reported(&mut made);
    let before = match &made {
        Made::Report { line, .. } => line.to_vec(),
        _ => Vec::new(),
    };
    let answer = made.right();
    match (made, reported) {
        (Made::Report { line, .. }, Some((_, kind, old))) if answer > 255 && test(kind, &old) => {
            line.copy_from_slice(&before);
            notice_length(answer) as i64
        }
        _ => answer,
    }
}

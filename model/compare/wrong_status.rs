//! Wrong libraries that go wrong by K6's STATUS: what it answers and to whom, and what it
//! leaves as it was.

use crate::about::has_bytes;
use crate::changes::{after, Cause::*};
use crate::made::Made;
use crate::watched::{as_if_asked_by, asked, cant, tried, Asked};
use crate::wrong::Wrong;
use crate::wrong_numbers::lifted;
use model::*;

/// Each is the model's answer, but for one error.
pub const WRONG_STATUS: &[Wrong] = &[
    // what is answered
    Wrong {
        name: "STATUS counts the planted ones alone",
        answer: |made| answered(made, |a, [_, run]| [of(a, Breakpoint::planted), run]),
    },
    Wrong {
        name: "STATUS counts the asker's alone",
        answer: |made| answered(made, |a, [_, run]| [of(a, |b| b.setter == a.host), run]),
    },
    Wrong {
        name: "STATUS counts the debugging host's alone",
        answer: |made| answered(made, |a, [_, run]| [of(a, |b| b.setter == a.process.host), run]),
    },
    Wrong {
        name: "STATUS counts the other's alone",
        answer: |made| answered(made, |a, [_, run]| [of(a, |b| b.setter != a.host), run]),
    },
    Wrong {
        name: "STATUS counts a free entry that has bytes",
        answer: |made| {
            answered(made, |a, [_, run]| {
                let filled = |b: &&Breakpoint| b.used() || has_bytes(b);
                [a.process.breakpoints.iter().filter(filled).count() as u16, run]
            })
        },
    },
    Wrong {
        name: "STATUS counts up to the first free entry",
        answer: |made| {
            answered(made, |a, [_, run]| {
                [a.process.breakpoints.iter().take_while(|b| b.used()).count() as u16, run]
            })
        },
    },
    Wrong {
        name: "STATUS tells how many are free",
        answer: |made| answered(made, |_, [number, run]| [8 - number, run]),
    },
    Wrong {
        name: "STATUS tells eight as 0",
        answer: |made| answered(made, |_, [number, run]| [number % 8, run]),
    },
    Wrong {
        name: "STATUS tells passing as running",
        answer: |made| answered(made, |_, [number, run]| [number, run % 5]),
    },
    Wrong {
        name: "STATUS tells passing as stepping",
        answer: |made| answered(made, |_, [number, run]| [number, if run == 5 { 1 } else { run }]),
    },
    Wrong {
        name: "STATUS tells passing with none lifted as running",
        answer: |made| {
            answered(made, |a, [number, run]| {
                [number, if run == 5 && !lifted(&a.process) { 0 } else { run }]
            })
        },
    },
    Wrong {
        name: "STATUS tells at a breakpoint as stopped",
        answer: |made| answered(made, |_, [number, run]| [number, if run == 3 { 2 } else { run }]),
    },
    Wrong {
        name: "STATUS tells the run states from 1 on",
        answer: |made| answered(made, |_, [number, run]| [number, run + 1]),
    },
    Wrong {
        name: "STATUS exchanges ARG1 and ARG2",
        answer: |made| answered(made, |_, [number, run]| [run, number]),
    },
    Wrong {
        name: "STATUS has the low byte of ARG1 first",
        answer: |made| answered(made, |_, [number, run]| [number.swap_bytes(), run]),
    },
    Wrong {
        name: "STATUS has the low byte of ARG2 first",
        answer: |made| answered(made, |_, [number, run]| [number, run.swap_bytes()]),
    },
    Wrong {
        name: "STATUS answers ARG1 and ARG2 as asked",
        answer: |made| answered(made, |_, _| [0, 0]),
    },
    Wrong {
        name: "STATUS answers the watcher without the run state",
        answer: |made| {
            answered(made, |a, [number, run]| [number, if a.watcher() { 0 } else { run }])
        },
    },
    Wrong {
        name: "STATUS tells of the process before",
        answer: |mut made| {
            let before = made.records();
            answered(made, |a, told| match &before {
                Some(state) if a.p > 0 => {
                    let other = &state.processes[a.p - 1];
                    [other.set.into(), other.run as u16]
                }
                _ => told,
            })
        },
    },
    Wrong {
        name: "STATUS has a string of two bytes",
        answer: |mut made| {
            let meant = made.byte(4) == Some(STATUS);
            match (made.right(), made) {
                (10, Made::Request { reply, .. }) if meant => {
                    reply[10..12].fill(0);
                    12
                }
                (answer, _) => answer,
            }
        },
    },
    // who may ask
    Wrong {
        name: "STATUS is granted to a stranger",
        answer: |made| as_if_asked_by(made, &[STATUS], |a| !a.knows() && a.process.host != NOBODY),
    },
    Wrong {
        name: "STATUS is granted to a stranger while nobody watches",
        answer: |made| {
            as_if_asked_by(made, &[STATUS], |a| {
                !a.knows() && a.process.host != NOBODY && !a.watched()
            })
        },
    },
    Wrong {
        name: "STATUS of a process that nobody debugs is granted",
        answer: |mut made| {
            let meant = asked(&mut made).filter(|a| a.is(STATUS) && a.process.host == NOBODY);
            let answer = made.right();
            match (meant, made) {
                (Some(a), Made::Request { reply, .. }) if answer == -8 => {
                    reply[4] = STATUS;
                    reply[9] = a.process.run as u8;
                    10
                }
                _ => answer,
            }
        },
    },
    Wrong {
        name: "STATUS is refused to the watcher",
        answer: |made| cant(made, 8, |a, answer| a.is(STATUS) && answer > 0 && a.watcher()),
    },
    Wrong {
        name: "STATUS is refused to the debugging host while another watches",
        answer: |made| {
            cant(made, 8, |a, answer| a.is(STATUS) && answer > 0 && a.owner() && a.watched())
        },
    },
    Wrong {
        name: "STATUS is refused with 9 when ended",
        answer: |made| {
            cant(made, 9, |a, answer| a.is(STATUS) && answer > 0 && a.process.run == Run::Ended)
        },
    },
    Wrong {
        name: "STATUS is refused with 9 while passing",
        answer: |made| {
            cant(made, 9, |a, answer| a.is(STATUS) && answer > 0 && a.process.run == Run::Passing)
        },
    },
    Wrong {
        name: "STATUS is refused with 12 where none is set",
        answer: |made| cant(made, 12, |a, answer| a.is(STATUS) && answer > 0 && a.used() == 0),
    },
    Wrong {
        name: "STATUS passes over ARG1",
        answer: |made| {
            made.changed(|m, _| {
                if m.len() >= HEAD && m[4] == STATUS {
                    m[6..8].fill(0);
                }
            })
        },
    },
    Wrong {
        name: "STATUS passes over ARG2",
        answer: |made| {
            made.changed(|m, _| {
                if m.len() >= HEAD && m[4] == STATUS {
                    m[8..10].fill(0);
                }
            })
        },
    },
    Wrong {
        name: "STATUS is no known op code",
        answer: |mut made| match made.byte(4) {
            Some(STATUS) => made.changed(|m, _| m[4] = 17),
            _ => made.right(),
        },
    },
    Wrong {
        name: "CMD 17 is taken for STATUS",
        answer: |mut made| match made.byte(4) {
            Some(17) => made.changed(|m, _| m[4] = STATUS),
            _ => made.right(),
        },
    },
    // a CAN'T
    Wrong {
        name: "CAN'T STATUS has the number in it",
        answer: |made| refused(made, |p| [p.set.into(), 0]),
    },
    Wrong {
        name: "CAN'T STATUS has the run state in it",
        answer: |made| refused(made, |p| [0, p.run as u16]),
    },
    Wrong {
        name: "CAN'T STATUS has 65,535 in ARG1 where the process is absent",
        answer: |mut made| {
            let meant = made.byte(4) == Some(STATUS);
            let answer = made.right();
            if let (Made::Request { reply, .. }, true) = (made, meant && answer == -7) {
                reply[6..8].fill(255);
            }
            answer
        },
    },
    Wrong {
        name: "CAN'T STATUS is not written",
        answer: |mut made| {
            let meant = made.byte(4) == Some(STATUS) && (-16..=-7).contains(&tried(&made));
            match made {
                Made::Request { state, memory, message, reply } if meant => {
                    request_bytes(state, memory, message, &mut reply.to_vec())
                }
                _ => made.right(),
            }
        },
    },
    // STATUS changes something
    Wrong {
        name: "STATUS stops the process",
        answer: |made| at_status(made, |p| p.run = if p.run.goes() { Run::Stopped } else { p.run }),
    },
    Wrong {
        name: "STATUS ends passing",
        answer: |made| {
            at_status(made, |p| {
                if p.run == Run::Passing && !lifted(p) {
                    p.run = Run::Running;
                }
            })
        },
    },
    Wrong {
        name: "STATUS cancels an owed answer",
        answer: |made| at_status(made, |p| p.owed = Owed::Nothing),
    },
    Wrong { name: "STATUS makes the number 0", answer: |made| at_status(made, |p| p.set = 0) },
    Wrong {
        name: "STATUS clears free entries",
        answer: |made| {
            at_status(made, |p| {
                for b in p.breakpoints.iter_mut().filter(|b| !b.used()) {
                    *b = NONE_THERE.processes[0].breakpoints[0];
                }
            })
        },
    },
    Wrong {
        name: "STATUS takes one from the count of each breakpoint",
        answer: |made| {
            at_status(made, |p| {
                p.breakpoints.iter_mut().for_each(|b| b.remaining = b.remaining.saturating_sub(1));
            })
        },
    },
];

/// How many such breakpoints the process has that is asked for.
fn of(a: &Asked, test: impl Fn(&Breakpoint) -> bool) -> u16 {
    a.process.breakpoints.iter().filter(|b| b.used() && test(b)).count() as u16
}

/// Changes the process at a granted STATUS.
fn at_status(made: Made, change: impl Fn(&mut Process)) -> i64 {
    after(made, |c| {
        if c.cause == Asked(STATUS) {
            change(c.new);
        }
    })
}

fn put_words(reply: &mut [u8], words: [u16; 2]) {
    reply[6..8].copy_from_slice(&words[0].to_be_bytes());
    reply[8..10].copy_from_slice(&words[1].to_be_bytes());
}

/// A granted STATUS has another ARG1 and ARG2.
fn answered(mut made: Made, told: impl Fn(&Asked, [u16; 2]) -> [u16; 2]) -> i64 {
    let meant = asked(&mut made).filter(|a| a.is(STATUS));
    let answer = made.right();
    if let (Some(a), Made::Request { reply, .. }, 1..) = (meant, made, answer) {
        put_words(reply, told(&a, [a.process.set.into(), a.process.run as u16]));
    }
    answer
}

/// A STATUS that is refused with 8 tells something of the process.
fn refused(mut made: Made, told: impl Fn(&Process) -> [u16; 2]) -> i64 {
    let meant = asked(&mut made).filter(|a| a.is(STATUS));
    let answer = made.right();
    if let (Some(a), Made::Request { reply, .. }, -8) = (meant, made, answer) {
        put_words(reply, told(&a.process));
    }
    answer
}

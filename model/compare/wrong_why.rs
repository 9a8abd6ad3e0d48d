//! Wrong libraries that tell the right number to one who asks why, and wrong facts.

use crate::made::Made;
use crate::told_why::{facts_of, left, told};
use crate::wrong::Wrong;
use model::*;

/// Each is the model's answer, but for one error.
pub const WRONG_WHY: &[Wrong] = &[
    // 3
    Wrong { name: "why, 3: no length", answer: |m| facts_of(m, WRONG_LENGTH, |_, f| f[0] = 0) },
    Wrong {
        name: "why, 3: the length of the string",
        answer: |m| facts_of(m, WRONG_LENGTH, |_, f| f[0] = f[0].saturating_sub(10)),
    },
    Wrong {
        name: "why, 3: the length in 16 bits",
        answer: |m| facts_of(m, WRONG_LENGTH, |_, f| f[0] %= 65_536),
    },
    Wrong {
        name: "why, 3: the length in 8 bits",
        answer: |m| facts_of(m, WRONG_LENGTH, |_, f| f[0] %= 256),
    },
    Wrong {
        name: "why, 3: the length up to 267",
        answer: |m| facts_of(m, WRONG_LENGTH, |_, f| f[0] = f[0].min(267)),
    },
    Wrong {
        name: "why, 3: by how much it is too long",
        answer: |m| facts_of(m, WRONG_LENGTH, |_, f| f[1] = f[0].saturating_sub(266)),
    },
    Wrong { name: "why, 3: 300 is 299", answer: |m| told_as(m, WRONG_LENGTH, 300, 299) },
    // 8
    Wrong {
        name: "why, 8: the asker",
        answer: |m| facts_of(m, NO_RIGHT, |a, f| f[0] = a.host.into()),
    },
    Wrong { name: "why, 8: nobody", answer: |m| facts_of(m, NO_RIGHT, |_, f| f[0] = 0) },
    Wrong {
        name: "why, 8: the watcher, where one watches",
        answer: |m| {
            facts_of(m, NO_RIGHT, |a, f| f[0] = if a.watched() { a.watcher().into() } else { f[0] })
        },
    },
    Wrong {
        name: "why, 8: the watcher to END WATCH",
        answer: |m| {
            facts_of(m, NO_RIGHT, |a, f| {
                f[0] = if a.is(END_WATCH) { a.watcher().into() } else { f[0] }
            })
        },
    },
    Wrong {
        name: "why, 8: nobody to the debugging host's own WATCH",
        answer: |m| {
            facts_of(m, NO_RIGHT, |a, f| {
                f[0] = if a.is(WATCH) && a.host == a.debugger() { 0 } else { f[0] }
            })
        },
    },
    Wrong {
        name: "why, 8: nobody to DEBUG",
        answer: |m| facts_of(m, NO_RIGHT, |a, f| f[0] = if a.is(DEBUG) { 0 } else { f[0] }),
    },
    Wrong {
        name: "why, 8: nobody to the watcher",
        answer: |m| {
            facts_of(m, NO_RIGHT, |a, f| f[0] = if a.host == a.watcher() { 0 } else { f[0] })
        },
    },
    Wrong {
        name: "why, 8: who debugs process 0",
        answer: |m| {
            facts_of(m, NO_RIGHT, |a, f| {
                f[0] = a.records.as_ref().map_or(0, |records| records.processes[0].host.into())
            })
        },
    },
    Wrong {
        name: "why, 8: the host in seven bits",
        answer: |m| facts_of(m, NO_RIGHT, |_, f| f[0] %= 128),
    },
    Wrong {
        name: "why, 8: the run state to a stranger",
        answer: |m| facts_of(m, NO_RIGHT, |a, f| f[1] = a.run()),
    },
    Wrong {
        name: "why, 8: the run state to a stranger's RESUME",
        answer: |m| facts_of(m, NO_RIGHT, |a, f| f[1] = if a.is(RESUME) { a.run() } else { 0 }),
    },
    Wrong {
        name: "why, 8: the excess to a stranger",
        answer: |m| {
            facts_of(m, NO_RIGHT, |a, f| {
                f[1] = if a.outside() { a.end() - a.size() } else { 0 };
            })
        },
    },
    Wrong { name: "why, 8: host 200 is nobody", answer: |m| told_as(m, NO_RIGHT, 200, 0) },
    // 9
    Wrong {
        name: "why, 9: the run states from 1 on",
        answer: |m| facts_of(m, WRONG_RUN, |_, f| f[0] += 1),
    },
    Wrong { name: "why, 9: passing is running", answer: |m| run_told(m, Run::Passing, 0) },
    Wrong { name: "why, 9: passing is stepping", answer: |m| run_told(m, Run::Passing, 1) },
    Wrong { name: "why, 9: stepping is running", answer: |m| run_told(m, Run::Stepping, 0) },
    Wrong { name: "why, 9: ended is stopped", answer: |m| run_told(m, Run::Ended, 2) },
    Wrong { name: "why, 9: stopped is at a breakpoint", answer: |m| run_told(m, Run::Stopped, 3) },
    Wrong {
        name: "why, 9: the number of breakpoints too",
        answer: |m| facts_of(m, WRONG_RUN, |a, f| f[1] = a.count(|_| true)),
    },
    Wrong { name: "why, 9: no run state", answer: |m| facts_of(m, WRONG_RUN, |_, f| f[0] = 0) },
    // 11
    Wrong {
        name: "why, 11: 4 where all eight are used",
        answer: |m| {
            facts_of(m, NINTH, |a, f| f[0] = if a.watched() && a.his() >= 4 { 4 } else { f[0] })
        },
    },
    Wrong {
        name: "why, 11: 4 wherever one watches",
        answer: |m| facts_of(m, NINTH, |a, f| f[0] = if a.watched() { 4 } else { f[0] }),
    },
    Wrong { name: "why, 11: always 8", answer: |m| facts_of(m, NINTH, |_, f| f[0] = 8) },
    Wrong {
        name: "why, 11: 8 to the watcher",
        answer: |m| facts_of(m, NINTH, |a, f| f[0] = if a.host == a.watcher() { 8 } else { f[0] }),
    },
    Wrong {
        name: "why, 11: how many are set",
        answer: |m| facts_of(m, NINTH, |a, f| f[0] = a.count(|_| true)),
    },
    Wrong {
        name: "why, 11: how many are his",
        answer: |m| facts_of(m, NINTH, |a, f| f[0] = a.his()),
    },
    // 15
    Wrong {
        name: "why, 15: the debugging host",
        answer: |m| facts_of(m, WATCHED, |a, f| f[0] = a.debugger().into()),
    },
    Wrong {
        name: "why, 15: the asker",
        answer: |m| facts_of(m, WATCHED, |a, f| f[0] = a.host.into()),
    },
    Wrong { name: "why, 15: nobody", answer: |m| facts_of(m, WATCHED, |_, f| f[0] = 0) },
    Wrong {
        name: "why, 15: the watcher as the second fact",
        answer: |m| facts_of(m, WATCHED, |_, f| *f = [0, f[0]]),
    },
    Wrong { name: "why, 15: host 199 is 198", answer: |m| told_as(m, WATCHED, 199, 198) },
    // 16
    Wrong {
        name: "why, 16: the debugging host",
        answer: |m| facts_of(m, THE_OTHERS, |a, f| f[0] = a.debugger().into()),
    },
    Wrong {
        name: "why, 16: the watcher",
        answer: |m| facts_of(m, THE_OTHERS, |a, f| f[0] = a.watcher().into()),
    },
    Wrong {
        name: "why, 16: the asker",
        answer: |m| facts_of(m, THE_OTHERS, |a, f| f[0] = a.host.into()),
    },
    Wrong {
        name: "why, 16: nobody to BREAK",
        answer: |m| facts_of(m, THE_OTHERS, |a, f| f[0] = if a.is(BREAK) { 0 } else { f[0] }),
    },
    Wrong {
        name: "why, 16: who set the first one",
        answer: |m| {
            facts_of(m, THE_OTHERS, |a, f| {
                let points = a.process.iter().flat_map(|process| &process.breakpoints);
                f[0] = points.map(|b| b.setter.into()).find(|&setter| setter != 0).unwrap_or(0);
            })
        },
    },
    Wrong {
        name: "why, 16: the count that is left",
        answer: |m| {
            facts_of(m, THE_OTHERS, |a, f| {
                let points = a.process.iter().flat_map(|process| &process.breakpoints);
                let here = points.filter(|b| b.used() && u64::from(b.address) == a.arg1);
                f[1] = here.map(|b| b.remaining.into()).next().unwrap_or(0);
            })
        },
    },
    Wrong { name: "why, 16: host 130 is 2", answer: |m| told_as(m, THE_OTHERS, 130, 2) },
    // the others, and granted
    Wrong {
        name: "why, 4: the host",
        answer: |m| facts_of(m, WRONG_HEAD, |a, f| f[0] = a.host.into()),
    },
    Wrong {
        name: "why, 5: the CMD",
        answer: |m| facts_of(m, UNKNOWN_CMD, |a, f| f[0] = a.cmd.into()),
    },
    Wrong {
        name: "why, 6: the length of the string",
        answer: |m| facts_of(m, WRONG_FIELDS, |a, f| f[0] = a.length as u64 - 10),
    },
    Wrong { name: "why, 7: the PID", answer: |m| facts_of(m, ABSENT, |a, f| f[0] = a.pid.into()) },
    Wrong {
        name: "why, 12: the address",
        answer: |m| facts_of(m, NO_BREAKPOINT, |a, f| f[0] = a.arg1),
    },
    Wrong {
        name: "why, 13: the free bytes",
        answer: |m| {
            facts_of(m, NO_ROOM, |a, f| {
                f[0] = a.records.as_ref().map_or(0, |records| free_bytes(records) as u64)
            })
        },
    },
    Wrong {
        name: "why, granted: the length of the reply",
        answer: |m| facts_of(m, 0, |_, f| f[0] = 10),
    },
    Wrong {
        name: "why, granted: who debugs it",
        answer: |m| facts_of(m, 0, |a, f| f[0] = a.debugger().into()),
    },
    // how the facts are written
    Wrong { name: "why, facts are not written", answer: |m| left(m, |_| true, &[0, 1]) },
    Wrong { name: "why, granted writes no facts", answer: |m| left(m, |n| n == 0, &[0, 1]) },
    Wrong { name: "why, 2 writes no facts", answer: |m| left(m, |n| n == NOT_SOUND, &[0, 1]) },
    Wrong { name: "why, 4 to 7 write no facts", answer: |m| left(m, |n| n > 3 && n < 8, &[0, 1]) },
    Wrong { name: "why, 12 writes no facts", answer: |m| left(m, |n| n == 12, &[0, 1]) },
    Wrong { name: "why, 13 writes no facts", answer: |m| left(m, |n| n == 13, &[0, 1]) },
    Wrong { name: "why, the second fact is left over", answer: |m| left(m, |n| n != 10, &[1]) },
    Wrong { name: "why, the second fact of 3 is left over", answer: |m| left(m, |n| n == 3, &[1]) },
    Wrong { name: "why, 8 of nobody is not written", answer: left_where_nobody },
    Wrong { name: "why, the facts are exchanged", answer: |m| told(m, |_, _, f| f.swap(0, 1)) },
];

/// One first fact that goes with a number is told as another.
fn told_as(made: Made, by: i64, fact: u64, told: u64) -> i64 {
    facts_of(made, by, |_, f| f[0] = if f[0] == fact { told } else { f[0] })
}

/// This run state is told as another.
fn run_told(made: Made, run: Run, told: u64) -> i64 {
    told_as(made, WRONG_RUN, run as u64, told)
}

/// The first fact of an 8 is left where nobody debugs the process.
fn left_where_nobody(made: Made) -> i64 {
    let nobody = match &made {
        Made::Why { state, message, .. } if message.len() >= HEAD => {
            let at = RECORD_BYTES * usize::from(message[5]) + 1;
            state.get(at) == Some(&NOBODY)
        }
        _ => false,
    };
    left(made, |number| number == NO_RIGHT && nobody, &[0])
}

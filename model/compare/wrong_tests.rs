//! Wrong libraries that name another test to one who asks why.

use crate::made::Made;
use crate::status::count_again;
use crate::told_why::{instead, on_others, on_records, told, Asked};
use crate::wrong::Wrong;
use model::*;

/// Each is the model's answer, but for one error.
pub const WRONG_TESTS: &[Wrong] = &[
    // 2
    Wrong {
        name: "why, 2 comes before 1",
        answer: |mut made| match (made.right(), &made) {
            (-1, Made::Why { state, .. }) if decode(state).is_none() => -2,
            (answer, _) => answer,
        },
    },
    Wrong {
        name: "why, a state of another length is 1",
        answer: |mut made| match &made {
            Made::Why { state, .. } if state.len() != STATE_BYTES => -1,
            _ => made.right(),
        },
    },
    Wrong {
        name: "why, a longer state is accepted",
        answer: |m| on_others(m, |state, _| state.truncate(STATE_BYTES)),
    },
    Wrong {
        name: "why, a shorter state is filled up",
        answer: |m| on_others(m, |state, _| state.resize(STATE_BYTES.max(state.len()), 0)),
    },
    Wrong { name: "why, a wrong number of breakpoints is passed over", answer: counted },
    Wrong {
        name: "why, a layout with gaps is passed over",
        answer: |m| on_records(m, crate::layout::close_gaps),
    },
    Wrong {
        name: "why, who watches is not part of sound",
        answer: |m| on_records(m, |state| state.processes.iter_mut().for_each(unwatched_by_host)),
    },
    Wrong {
        name: "why, 3 comes before 2",
        answer: |m| {
            told(m, |a, number, facts| {
                if *number == NOT_SOUND && !(HEAD..=LONGEST).contains(&a.length) {
                    (*number, *facts) = (WRONG_LENGTH, [a.length as u64, 0]);
                }
            })
        },
    },
    // 3 to 7
    Wrong {
        name: "why, a message of 267 bytes is cut",
        answer: |m| on_others(m, |_, message| message.truncate(LONGEST)),
    },
    Wrong {
        name: "why, a message of 9 bytes is filled up",
        answer: |m| {
            on_others(m, |_, text| text.resize(text.len() + usize::from(text.len() == 9), 0))
        },
    },
    Wrong {
        name: "why, a message of 266 bytes is too long",
        answer: |m| {
            told(m, |a, number, facts| {
                if a.length == LONGEST && *number != NOT_SOUND {
                    (*number, *facts) = (WRONG_LENGTH, [a.length as u64, 0]);
                }
            })
        },
    },
    Wrong {
        name: "why, STYPE is not looked at",
        answer: |m| on_others(m, |_, text| text.iter_mut().skip(3).take(1).for_each(|b| *b = 0)),
    },
    Wrong {
        name: "why, CMD 17 is 6",
        answer: |m| instead(m, UNKNOWN_CMD, WRONG_FIELDS, |a| a.cmd == 17),
    },
    Wrong {
        name: "why, the string is not looked at",
        answer: |m| instead(m, WRONG_FIELDS, 0, |a| a.is(NOP) && a.pid == 0 && a.end() == 0),
    },
    Wrong {
        name: "why, CREATE of a wrong size is 13",
        answer: |m| instead(m, WRONG_FIELDS, NO_ROOM, |a| a.is(CREATE_PROCESS) && a.arg1 > 4096),
    },
    Wrong {
        name: "why, an absent process is 8",
        answer: |m| instead(m, ABSENT, NO_RIGHT, |a| a.pid < 8),
    },
    Wrong {
        name: "why, process 8 is 6",
        answer: |m| instead(m, ABSENT, WRONG_FIELDS, |a| a.pid == 8),
    },
    // 8, 15 and what comes before them
    Wrong {
        name: "why, 8 of nobody is told as 7",
        answer: |m| instead(m, NO_RIGHT, ABSENT, |a| a.debugger() == NOBODY),
    },
    Wrong {
        name: "why, 9 comes before 8",
        answer: |m| {
            told(m, |a, number, facts| {
                if *number == NO_RIGHT && a.is(RESUME) && !a.of(|p| p.run.waits()) {
                    (*number, *facts) = (WRONG_RUN, [a.run(), 0]);
                }
            })
        },
    },
    Wrong {
        name: "why, 10 comes before 8",
        answer: |m| {
            told(m, |a, number, facts| {
                if *number == NO_RIGHT && a.outside() {
                    (*number, *facts) = (OUTSIDE, [0, a.end() - a.size()]);
                }
            })
        },
    },
    Wrong {
        name: "why, 12 comes before 8",
        answer: |m| instead(m, NO_RIGHT, NO_BREAKPOINT, |a| a.is(UNBREAK) && !a.here(|_| true)),
    },
    Wrong {
        name: "why, 16 comes before 8",
        answer: |m| {
            told(m, |a, number, facts| {
                if *number == NO_RIGHT && a.is(UNBREAK) && a.here(|_| true) {
                    (*number, *facts) = (THE_OTHERS, [a.debugger().into(), 0]);
                }
            })
        },
    },
    Wrong {
        name: "why, 15 comes before 8",
        answer: |m| {
            told(m, |a, number, facts| {
                if *number == NO_RIGHT && a.is(WATCH) && a.watched() {
                    (*number, *facts) = (WATCHED, [a.watcher().into(), 0]);
                }
            })
        },
    },
    Wrong {
        name: "why, 15 is told to the watcher",
        answer: |m| {
            told(m, |a, number, facts| {
                if *number == 0 && a.is(WATCH) && a.watched() {
                    (*number, *facts) = (WATCHED, [a.watcher().into(), 0]);
                }
            })
        },
    },
    Wrong { name: "why, 15 is told as 8", answer: |m| instead(m, WATCHED, NO_RIGHT, |_| true) },
    Wrong {
        name: "why, 15 is told as 14",
        answer: |m| instead(m, WATCHED, WRONG_REPORT, |_| true),
    },
    Wrong {
        name: "why, the watcher has no right to EXAMINE",
        answer: |m| refused_watcher(m, EXAMINE),
    },
    Wrong {
        name: "why, the watcher has no right to STATUS",
        answer: |m| refused_watcher(m, STATUS),
    },
    Wrong {
        name: "why, host 254 has every right",
        answer: |m| instead(m, NO_RIGHT, 0, |a| a.host == PUP_HOST),
    },
    // 9 and 10
    Wrong {
        name: "why, RESUME is granted while passing",
        answer: |m| instead(m, WRONG_RUN, 0, |a| a.is(RESUME) && a.run() == 5),
    },
    Wrong {
        name: "why, PROCEED BPT is granted when stopped",
        answer: |m| instead(m, WRONG_RUN, 0, |a| a.is(PROCEED_BPT) && a.run() == 2),
    },
    Wrong {
        name: "why, a range is added in 16 bits",
        answer: |m| instead(m, OUTSIDE, 0, |a| !a.is(BREAK) && a.end() % 65_536 < 3),
    },
    Wrong {
        name: "why, EXAMINE of 257 is granted",
        answer: |m| instead(m, OUTSIDE, 0, |a| a.is(EXAMINE) && a.arg2 == 257 && !a.outside()),
    },
    Wrong { name: "why, no bytes at the end are past it", answer: empty_at_end },
    Wrong {
        name: "why, BREAK at size - 1 is granted",
        answer: |m| instead(m, OUTSIDE, 0, |a| a.is(BREAK) && a.arg1 + 1 == a.size()),
    },
    Wrong {
        name: "why, UNBREAK at an odd address is 10",
        answer: |m| instead(m, NO_BREAKPOINT, OUTSIDE, |a| a.arg1 % 2 == 1),
    },
    Wrong {
        name: "why, UNBREAK past the end is 10",
        answer: |m| {
            told(m, |a, number, facts| {
                if *number == NO_BREAKPOINT && a.arg1 + 2 > a.size() {
                    (*number, *facts) = (OUTSIDE, [2, a.arg1 + 2 - a.size()]);
                }
            })
        },
    },
    // 11, 12, 13 and 16
    Wrong {
        name: "why, 11 comes before 10",
        answer: |m| {
            told(m, |a, number, facts| {
                if *number == OUTSIDE && a.is(BREAK) && a.count(|_| true) == 8 {
                    (*number, *facts) = (NINTH, [8, 0]);
                }
            })
        },
    },
    Wrong {
        name: "why, 11 comes before 16",
        answer: |m| {
            told(m, |a, number, facts| {
                if *number == THE_OTHERS && a.is(BREAK) && a.count(|_| true) == 8 {
                    (*number, *facts) = (NINTH, [8, 0]);
                }
            })
        },
    },
    Wrong {
        name: "why, 11 of four comes before 16",
        answer: |m| {
            told(m, |a, number, facts| {
                if *number == THE_OTHERS && a.is(BREAK) && a.his() >= 4 {
                    (*number, *facts) = (NINTH, [4, 0]);
                }
            })
        },
    },
    Wrong {
        name: "why, a fifth is granted to the watcher",
        answer: |m| {
            told(m, |a, number, facts| {
                if *number == NINTH && a.host == a.watcher() && facts[0] == 4 {
                    (*number, *facts) = (0, [0, 0]);
                }
            })
        },
    },
    Wrong {
        name: "why, the planted ones alone make four",
        answer: |m| {
            told(m, |a, number, facts| {
                let planted = a.count(|b| b.planted() && b.setter == a.host);
                if *number == NINTH && facts[0] == 4 && planted < 4 {
                    (*number, *facts) = (0, [0, 0]);
                }
            })
        },
    },
    Wrong {
        name: "why, a new count for one of eight is 11",
        answer: |m| {
            told(m, |a, number, facts| {
                if *number == 0 && a.is(BREAK) && a.count(|_| true) == 8 {
                    (*number, *facts) = (NINTH, [8, 0]);
                }
            })
        },
    },
    Wrong {
        name: "why, UNBREAK does not find the lifted one",
        answer: |m| {
            told(m, |a, number, _| {
                if *number == 0 && a.is(UNBREAK) && a.here(|b| b.lifted) {
                    *number = NO_BREAKPOINT;
                }
            })
        },
    },
    Wrong {
        name: "why, 16 is told as 12",
        answer: |m| instead(m, THE_OTHERS, 12, |a| a.is(UNBREAK)),
    },
    Wrong {
        name: "why, 13 is about numbers alone",
        answer: |m| instead(m, NO_ROOM, 0, |a| there(a) < PROCESSES),
    },
    Wrong {
        name: "why, 13 is about bytes alone",
        answer: |m| {
            instead(m, NO_ROOM, 0, |a| {
                let free = a.records.as_ref().map_or(0, free_bytes);
                free >= if a.arg1 == 0 { 4096 } else { a.arg1 as usize }
            })
        },
    },
    Wrong {
        name: "why, CREATE of 0 asks for no bytes",
        answer: |m| instead(m, NO_ROOM, 0, |a| a.arg1 == 0 && there(a) < PROCESSES),
    },
];

fn counted(made: Made) -> i64 {
    on_others(made, |state, _| {
        if state.len() == STATE_BYTES {
            count_again(state);
        }
    })
}

/// Nobody watches where the debugging host would.
fn unwatched_by_host(process: &mut Process) {
    if process.watcher == process.host {
        process.watcher = NOBODY;
    }
}

fn refused_watcher(made: Made, cmd: u8) -> i64 {
    told(made, |a, number, facts| {
        if *number == 0 && a.is(cmd) && a.host == a.watcher() {
            (*number, *facts) = (NO_RIGHT, [a.debugger().into(), 0]);
        }
    })
}

fn empty_at_end(made: Made) -> i64 {
    told(made, |a, number, facts| {
        let at_end = a.arg2 == 0 && a.arg1 == a.size();
        if *number == 0 && matches!(a.cmd, EXAMINE | DEPOSIT) && at_end {
            (*number, *facts) = (OUTSIDE, [0, 0]);
        }
    })
}

/// How many processes are there.
fn there(asked: &Asked) -> usize {
    let there = |records: &State| records.processes.iter().filter(|p| p.there).count();
    asked.records.as_ref().map_or(0, there)
}

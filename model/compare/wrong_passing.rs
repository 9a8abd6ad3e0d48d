//! Wrong libraries that go wrong by the run state passing.

use crate::changes::Cause::{Asked, Told};
use crate::changes::{after, as_if, noticed, refused, unnoticed};
use crate::made::Made;
use crate::wrong::Wrong;
use crate::wrong_layout::unsound_too;
use model::*;

/// Each is the model's answer, but for one error.
pub const WRONG_PASSING: &[Wrong] = &[
    // PROCEED BPT
    Wrong {
        name: "PROCEED BPT runs, the word left lifted",
        answer: |made| after(made, |c| c.if_entered(Asked(PROCEED_BPT), |c| c.new.run = RUNNING)),
    },
    Wrong {
        name: "PROCEED BPT runs, the word planted",
        answer: |made| {
            after(made, |c| {
                c.if_entered(Asked(PROCEED_BPT), |c| {
                    c.put_back();
                    c.new.run = RUNNING;
                })
            })
        },
    },
    Wrong {
        name: "PROCEED BPT passes with no breakpoint at PC",
        answer: |made| {
            after(made, |c| {
                if c.cause == Asked(PROCEED_BPT) {
                    c.new.run = Run::Passing;
                }
            })
        },
    },
    Wrong {
        name: "PROCEED BPT passes with PC 40,000",
        answer: |made| {
            after(made, |c| {
                if c.cause == Asked(PROCEED_BPT) && c.old.vector[PC] == 40_000 {
                    c.new.run = Run::Passing;
                }
            })
        },
    },
    Wrong {
        name: "PROCEED BPT steps",
        answer: |made| {
            after(made, |c| c.if_entered(Asked(PROCEED_BPT), |c| c.new.run = Run::Stepping))
        },
    },
    Wrong {
        name: "PROCEED BPT at the eighth breakpoint runs",
        answer: |made| {
            after(made, |c| {
                if c.cause == Asked(PROCEED_BPT) && c.new.breakpoints[7].lifted {
                    c.new.run = RUNNING;
                }
            })
        },
    },
    // silent passes
    Wrong {
        name: "a silent pass from running runs",
        answer: |made| after(made, |c| c.if_entered(Told(BPT), |c| c.new.run = RUNNING)),
    },
    Wrong {
        name: "a silent pass with a count of 300 runs",
        answer: |made| {
            after(made, |c| {
                if c.old.breakpoints[0].remaining == 300 {
                    c.if_entered(Told(BPT), |c| c.new.run = RUNNING);
                }
            })
        },
    },
    Wrong {
        name: "a silent pass from stepping passes",
        answer: |made| {
            after(made, |c| {
                if c.cause == Told(BPT) && c.new.run == Run::Stepping {
                    c.new.run = Run::Passing;
                }
            })
        },
    },
    Wrong {
        name: "a silent pass from passing runs",
        answer: |made| {
            after(made, |c| {
                if c.cause == Told(BPT) && c.old.run == Run::Passing && c.new.run == c.old.run {
                    c.new.run = RUNNING;
                }
            })
        },
    },
    Wrong {
        name: "a silent pass from passing leaves the first lifted too",
        answer: |made| {
            after(made, |c| {
                if c.cause == Told(BPT) && c.old.run == Run::Passing && c.new.run == c.old.run {
                    for (new, old) in c.new.breakpoints.iter_mut().zip(&c.old.breakpoints) {
                        new.lifted |= old.lifted;
                    }
                }
            })
        },
    },
    Wrong {
        name: "SINGLE STEP at a breakpoint passes",
        answer: |made| {
            after(made, |c| {
                if c.cause == Asked(SINGLE_STEP) && lifted(c.new) {
                    c.new.run = Run::Passing;
                }
            })
        },
    },
    // the silent TTRAP
    Wrong {
        name: "TTRAP while passing sends a notice",
        answer: |made| noticed(made, |process| process.run == Run::Passing),
    },
    Wrong {
        name: "TTRAP while passing with none lifted sends a notice",
        answer: |made| noticed(made, |p| p.run == Run::Passing && !lifted(p)),
    },
    Wrong {
        name: "TTRAP while passing stops",
        answer: |made| after(made, |c| c.if_silent_ttrap(|c| c.new.run = Run::Stopped)),
    },
    Wrong {
        name: "TTRAP while passing goes on passing",
        answer: |made| after(made, |c| c.if_silent_ttrap(|c| c.new.run = Run::Passing)),
    },
    Wrong {
        name: "TTRAP while passing with none lifted goes on passing",
        answer: |made| {
            after(made, |c| {
                if !lifted(c.old) {
                    c.if_silent_ttrap(|c| c.new.run = Run::Passing);
                }
            })
        },
    },
    Wrong {
        name: "TTRAP while passing leaves the word lifted",
        answer: |made| {
            after(made, |c| {
                c.if_silent_ttrap(|c| {
                    c.bytes.copy_from_slice(c.old_bytes);
                    c.new.breakpoints = c.old.breakpoints;
                })
            })
        },
    },
    Wrong {
        name: "TTRAP while passing takes the mark away and plants nothing",
        answer: |made| after(made, |c| c.if_silent_ttrap(|c| c.bytes.copy_from_slice(c.old_bytes))),
    },
    Wrong {
        name: "TTRAP while passing keeps the word that was saved before",
        answer: |made| {
            after(made, |c| {
                c.if_silent_ttrap(|c| {
                    for (new, old) in c.new.breakpoints.iter_mut().zip(&c.old.breakpoints) {
                        new.saved = old.saved;
                    }
                })
            })
        },
    },
    Wrong {
        name: "TTRAP while passing stores no vector",
        answer: |made| after(made, |c| c.if_silent_ttrap(|c| c.new.vector = c.old.vector)),
    },
    Wrong {
        name: "TTRAP while passing with PC 1,000 stores no PC",
        answer: |made| {
            after(made, |c| {
                if c.new.vector[PC] == 1000 {
                    c.if_silent_ttrap(|c| c.new.vector[PC] = c.old.vector[PC]);
                }
            })
        },
    },
    Wrong {
        name: "TTRAP while passing counts",
        answer: |made| {
            after(made, |c| {
                c.if_silent_ttrap(|c| {
                    for (new, old) in c.new.breakpoints.iter_mut().zip(&c.old.breakpoints) {
                        new.remaining -= u16::from(old.lifted && old.remaining > 0);
                    }
                })
            })
        },
    },
    Wrong {
        name: "TTRAP while stepping with one lifted is silent",
        answer: |made| {
            unnoticed(made, |cause, p| cause == Told(TTRAP) && p.run == Run::Stepping && lifted(p))
        },
    },
    // which reports are accepted
    Wrong {
        name: "TTRAP while running is accepted as while stepping",
        answer: |made| as_if(made, Told(TTRAP), RUNNING, Run::Stepping),
    },
    Wrong {
        name: "TTRAP while running is accepted as while passing",
        answer: |made| as_if(made, Told(TTRAP), RUNNING, Run::Passing),
    },
    Wrong {
        name: "TTRAP while stopped is accepted",
        answer: |made| as_if(made, Told(TTRAP), Run::Stopped, Run::Passing),
    },
    Wrong {
        name: "TTRAP while passing is refused with 9",
        answer: |made| refused(made, |cause, _| cause == Told(TTRAP)),
    },
    Wrong {
        name: "TTRAP while passing with none lifted is refused with 9",
        answer: |made| refused(made, |cause, p| cause == Told(TTRAP) && !lifted(p)),
    },
    Wrong {
        name: "BPT while passing is refused with 9",
        answer: |made| refused(made, |cause, _| cause == Told(BPT)),
    },
    Wrong {
        name: "TRAP while passing is refused with 9",
        answer: |made| refused(made, |cause, _| cause == Told(TRAP)),
    },
    Wrong {
        name: "HALT while passing is refused with 9",
        answer: |made| refused(made, |cause, _| cause == Told(HALT)),
    },
    Wrong {
        name: "TRAP while passing sends no notice",
        answer: |made| unnoticed(made, |cause, p| cause == Told(TRAP) && p.run == Run::Passing),
    },
    Wrong {
        name: "HALT while passing leaves the word lifted",
        answer: |made| {
            after(made, |c| {
                if c.cause == Told(HALT) && c.old.run == Run::Passing {
                    c.bytes.copy_from_slice(c.old_bytes);
                    c.new.breakpoints = c.old.breakpoints;
                }
            })
        },
    },
    // requests while passing
    Wrong {
        name: "STOP leaves passing",
        answer: |made| after(made, |c| c.if_passing(Asked(STOP), |c| c.put_back())),
    },
    Wrong {
        name: "STOP plants and leaves passing",
        answer: |made| after(made, |c| c.if_passing(Asked(STOP), |c| c.new.run = Run::Passing)),
    },
    Wrong {
        name: "STOP of one that is passing leaves the word lifted",
        answer: |made| {
            after(made, |c| {
                c.if_passing(Asked(STOP), |c| {
                    c.put_back();
                    c.new.run = Run::Stopped;
                })
            })
        },
    },
    Wrong {
        name: "END DEBUG leaves passing",
        answer: |made| {
            after(made, |c| c.if_passing(Asked(END_DEBUG), |c| c.new.run = Run::Passing))
        },
    },
    Wrong {
        name: "RESUME while passing is granted",
        answer: |made| as_if(made, Asked(RESUME), Run::Passing, Run::Stopped),
    },
    Wrong {
        name: "SINGLE STEP while passing is granted",
        answer: |made| as_if(made, Asked(SINGLE_STEP), Run::Passing, Run::Stopped),
    },
    Wrong {
        name: "PROCEED BPT while passing is granted",
        answer: |made| as_if(made, Asked(PROCEED_BPT), Run::Passing, Run::AtBreakpoint),
    },
    Wrong {
        name: "UNBREAK of the lifted one while passing runs",
        answer: |made| {
            after(made, |c| {
                c.if_passing(Asked(UNBREAK), |c| {
                    if lifted(c.old) && !lifted(c.new) {
                        c.new.run = RUNNING;
                    }
                })
            })
        },
    },
    Wrong {
        name: "UNBREAK of the lifted one puts the saved word back",
        answer: |made| {
            after(made, |c| {
                for b in c.old.breakpoints.iter().filter(|b| b.used() && b.lifted) {
                    if c.cause == Asked(UNBREAK) && !lifted(c.new) {
                        word_at(c.bytes, b).copy_from_slice(&b.saved);
                    }
                }
            })
        },
    },
    // soundness, and the bytes of a state
    Wrong { name: "a lifted one while running is sound", answer: |made| sound_too(made, RUNNING) },
    Wrong {
        name: "a lifted one while stopped is sound",
        answer: |made| sound_too(made, Run::Stopped),
    },
    Wrong {
        name: "a lifted one while passing is not sound",
        answer: |made| any_unsound(made, |p| p.run == Run::Passing && lifted(p)),
    },
    Wrong {
        name: "passing with none lifted is not sound",
        answer: |made| any_unsound(made, |p| p.run == Run::Passing && p.there && !lifted(p)),
    },
    Wrong {
        name: "passing with no host is not sound",
        answer: |made| any_unsound(made, |p| p.run == Run::Passing && p.there && p.host == NOBODY),
    },
    Wrong {
        name: "passing is not sound in an absent process",
        answer: |made| any_unsound(made, |p| p.run == Run::Passing && !p.there),
    },
    Wrong {
        name: "run state 5 is no run state",
        answer: |made| any_unsound(made, |p| p.run == Run::Passing),
    },
    Wrong { name: "run state 6 is taken for 5", answer: six_for_five },
];

const RUNNING: Run = Run::Running;

fn lifted(process: &Process) -> bool {
    process.breakpoints.iter().any(|b| b.used() && b.lifted)
}

fn word_at<'a>(bytes: &'a mut [u8], b: &Breakpoint) -> &'a mut [u8] {
    &mut bytes[usize::from(b.address)..][..2]
}

/// An answer that takes a lifted breakpoint in this run state for sound: the model's as if
/// the process were passing, of which nothing is written.
fn sound_too(mut made: Made, run: Run) -> i64 {
    let Some(mut records) = made.records() else { return made.right() };
    let wrong = |p: &&mut Process| p.run == run && lifted(p);
    if records.processes.iter_mut().filter(wrong).map(|p| p.run = Run::Passing).count() == 0 {
        return made.right();
    }
    made.on_other(&records)
}

/// An answer that takes a sound state with such a process for one that is not.
fn any_unsound(made: Made, test: impl Fn(&Process) -> bool) -> i64 {
    unsound_too(made, |state| state.processes.iter().any(&test))
}

fn six_for_five(mut made: Made) -> i64 {
    let (Made::Request { state, .. } | Made::Report { state, .. }) = &made else {
        return made.right();
    };
    let mut bytes = state.to_vec();
    let runs = bytes.chunks_exact_mut(RECORD_BYTES).take(PROCESSES).map(|record| &mut record[2]);
    runs.filter(|run| **run == 6).for_each(|run| *run = 5);
    match decode(&bytes) {
        Some(records) if bytes != *state => made.on_other(&records),
        _ => made.right(),
    }
}

//! Wrong libraries that go wrong by K1's ticks.

use crate::made::Made;
use crate::pupped::*;
use crate::wrong::Wrong;
use crate::wrong_go::{resume, NO_GO};
use model::*;

/// Each is the model's answer, but for one error.
pub const WRONG_TICKS: &[Wrong] = &[
    // how many
    Wrong { name: "resumed at the ninety-eighth tick", answer: |made| resumed_at(made, 98) },
    Wrong { name: "resumed at the ninety-ninth tick", answer: |made| resumed_at(made, 99) },
    Wrong {
        name: "resumed at the hundred-and-first tick",
        answer: |made| {
            ticked_at_door(made, |old, new| {
                if hundredth(old) {
                    (new.run, new.go) = (old.run, Go { ticks: 100, ..old.go });
                }
            })
        },
    },
    Wrong { name: "resumed at the first tick", answer: |made| resumed_at(made, 1) },
    Wrong {
        name: "ticks stay at 99",
        answer: |made| {
            ticked_at_door(made, |old, new| {
                if hundredth(old) {
                    (new.run, new.go) = (old.run, old.go);
                }
            })
        },
    },
    Wrong {
        name: "a tick counts two",
        answer: |made| {
            ticked_at_door(made, |old, new| {
                if old.go.waits && old.go.ticks < 98 {
                    new.go.ticks += 1;
                }
            })
        },
    },
    Wrong {
        name: "the first tick is not counted",
        answer: |made| {
            ticked_at_door(made, |old, new| {
                if old.go.waits && old.go.ticks == 0 {
                    new.go.ticks = 0;
                }
            })
        },
    },
    // at the hundredth
    Wrong {
        name: "the hundredth tick abandons the Go",
        answer: |made| ticked_at_door(made, |old, new| new.run = old.run),
    },
    Wrong {
        name: "the hundredth tick resumes from stopped alone",
        answer: |made| {
            ticked_at_door(made, |old, new| {
                if old.run == Run::AtBreakpoint {
                    new.run = old.run;
                }
            })
        },
    },
    Wrong {
        name: "the hundredth tick resumes although stepping",
        answer: |made| resumed_from(made, Run::Stepping),
    },
    Wrong {
        name: "the hundredth tick resumes although passing",
        answer: |made| resumed_from(made, Run::Passing),
    },
    Wrong {
        name: "the hundredth tick resumes when ended",
        answer: |made| resumed_from(made, Run::Ended),
    },
    Wrong {
        name: "the hundredth tick of a process that runs leaves the Go",
        answer: |made| {
            ticked_at_door(made, |old, new| {
                if hundredth(old) && !old.run.waits() {
                    new.go = old.go;
                }
            })
        },
    },
    Wrong {
        name: "the hundredth tick leaves ticks and ID",
        answer: |made| {
            ticked_at_door(made, |old, new| {
                if hundredth(old) {
                    new.go = Go { waits: false, ..old.go };
                }
            })
        },
    },
    Wrong {
        name: "the hundredth tick steps",
        answer: |made| {
            ticked_at_door(made, |old, new| {
                if new.run != old.run {
                    new.run = Run::Stepping;
                }
            })
        },
    },
    Wrong {
        name: "the hundredth tick at a breakpoint passes",
        answer: |made| {
            ticked_at_door(made, |old, new| {
                if new.run != old.run && old.run == Run::AtBreakpoint {
                    new.run = Run::Passing;
                }
            })
        },
    },
    // when they are counted
    Wrong {
        name: "ticks are counted only while stopped or at a breakpoint",
        answer: |made| {
            ticked_at_door(made, |old, new| {
                if old.go.waits && !old.run.waits() {
                    new.go = old.go;
                }
            })
        },
    },
    Wrong {
        name: "a tick of a process that runs ends the Go",
        answer: |made| {
            ticked_at_door(made, |old, new| {
                if old.go.waits && old.run == Run::Running {
                    new.go = NO_GO;
                }
            })
        },
    },
    Wrong {
        name: "a tick is counted where no Go waits",
        answer: |made| {
            ticked_at_door(made, |old, new| {
                if !old.go.waits {
                    new.go.ticks = new.go.ticks.saturating_add(1);
                }
            })
        },
    },
    Wrong {
        name: "a tick resumes after what is left of a Go",
        answer: |made| {
            ticked_at_door(made, |old, new| {
                if !old.go.waits && old.go.ticks == 99 {
                    resume(new);
                    new.go = NO_GO;
                }
            })
        },
    },
    Wrong {
        name: "a tick clears what is left of a Go",
        answer: |made| {
            ticked_at_door(made, |old, new| {
                if !old.go.waits {
                    new.go = NO_GO;
                }
            })
        },
    },
    Wrong {
        name: "a tick counts in every process",
        answer: |made| {
            ticked(made, |old, new| {
                for (p, process) in new.processes.iter_mut().enumerate() {
                    if p != usize::from(old.door) && process.go.waits && process.go.ticks < 99 {
                        process.go.ticks += 1;
                    }
                }
            })
        },
    },
    Wrong {
        name: "a tick finds the door by three bits",
        answer: |mut made| {
            let (Some(old), Made::Tick { .. }) = (made.records(), &made) else {
                return made.right();
            };
            made.put(&State { door: old.door % 8, ..old.clone() });
            let answer = made.right();
            if let Some(new) = made.records() {
                made.put(&State { door: old.door, ..new });
            }
            answer
        },
    },
    // its answer
    Wrong {
        name: "a tick is refused with 7 where the process is absent",
        answer: |made| refused_tick(made, 7, |process| !process.is_some_and(|p| p.there)),
    },
    Wrong {
        name: "a tick is refused with 7 where the door is at none",
        answer: |made| refused_tick(made, 7, |process| process.is_none()),
    },
    Wrong {
        name: "a tick is refused with 8 where host 254 does not debug",
        answer: |made| {
            refused_tick(made, 8, |process| process.is_some_and(|p| p.there && p.host != PUP_HOST))
        },
    },
    Wrong {
        name: "a tick is refused with 9 where the process runs",
        answer: |made| {
            refused_tick(made, 9, |process| process.is_some_and(|p| p.go.waits && !p.run.waits()))
        },
    },
    Wrong {
        name: "a tick answers 1 where it resumes",
        answer: |mut made| {
            let (Some(old), Made::Tick { .. }) = (made.records(), &made) else {
                return made.right();
            };
            match (made.right(), made.records()) {
                (0, Some(new)) if new.processes != old.processes && resumes(&old, &new) => 1,
                (answer, _) => answer,
            }
        },
    },
    Wrong {
        name: "a tick takes a state of another length",
        answer: |mut made| match &made {
            Made::Tick { state } if state.len() != STATE_BYTES => 0,
            _ => made.right(),
        },
    },
    Wrong {
        name: "a tick does not ask whether the state is sound",
        answer: |mut made| match (&made, made_sound(&made)) {
            (Made::Tick { .. }, Some(false)) => 0,
            _ => made.right(),
        },
    },
];

/// Whether the next tick is the hundredth of a Go.
fn hundredth(process: &Process) -> bool {
    process.go.waits && process.go.ticks == 99
}

/// The tick of this number resumes.
fn resumed_at(made: Made, number: u8) -> i64 {
    ticked_at_door(made, |old, new| {
        if old.go.waits && old.go.ticks + 1 == number {
            resume(new);
            new.go = NO_GO;
        }
    })
}

fn resumed_from(made: Made, run: Run) -> i64 {
    ticked_at_door(made, |old, new| {
        if hundredth(old) && old.run == run {
            new.run = Run::Running;
        }
    })
}

fn resumes(old: &State, new: &State) -> bool {
    old.processes.iter().zip(&new.processes).any(|(old, new)| old.run != new.run)
}

/// A tick that is granted is refused with this number where this holds of the door's process.
fn refused_tick(mut made: Made, number: i64, test: impl Fn(Option<&Process>) -> bool) -> i64 {
    let state = made.records().filter(sound);
    match (state, &made) {
        (Some(state), Made::Tick { .. }) if test(state.processes.get(usize::from(state.door))) => {
            -number
        }
        _ => made.right(),
    }
}

/// Whether the bytes of a tick are a state's, and a sound one's.
fn made_sound(made: &Made) -> Option<bool> {
    let Made::Tick { state } = made else { return None };
    Some(sound(&decode(state)?))
}

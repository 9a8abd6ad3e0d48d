//! Wrong libraries that go wrong by what abandons K1's Go, and what it waits through.

use crate::changes::{self, Cause};
use crate::made::Made;
use crate::pupped::*;
use crate::wrong::Wrong;
use crate::wrong_go::NO_GO;
use model::*;

/// Each is the model's answer, but for one error.
pub const WRONG_ABANDON: &[Wrong] = &[
    // what abandons it
    Wrong { name: "a Fetch does not abandon a Go", answer: |made| kept(made, |a| a.is(FETCH)) },
    Wrong { name: "a Store does not abandon a Go", answer: |made| kept(made, |a| a.is(STORE)) },
    Wrong {
        name: "a GoReply of a wrong ID does not abandon a Go",
        answer: |made| {
            kept(made, |a| a.is(GO_REPLY) && a.of(|p| u64::from(p.go.id.wrapping_add(1)) != a.id))
        },
    },
    Wrong {
        name: "a Fetch leaves what is left of a Go",
        answer: |made| {
            after(made, |a, g| {
                if a.is(FETCH) && !g.old.go.waits {
                    g.new.go = g.old.go
                }
            })
        },
    },
    Wrong {
        name: "a Fetch of a watcher leaves what is left of a Go",
        answer: |made| {
            after(made, |a, g| {
                if a.is(FETCH) && !a.owner() {
                    g.new.go = g.old.go
                }
            })
        },
    },
    Wrong {
        name: "a Store leaves ticks and ID",
        answer: |made| {
            after(made, |a, g| {
                if a.is(STORE) {
                    g.new.go = Go { waits: false, ..g.old.go };
                }
            })
        },
    },
    Wrong { name: "a word outside abandons a Go", answer: |made| abandoned(made, 10) },
    Wrong {
        name: "a Go that is refused with 9 abandons the first",
        answer: |made| abandoned(made, 9),
    },
    Wrong { name: "another type abandons a Go", answer: |made| abandoned(made, 5) },
    Wrong { name: "a packet of too few words abandons a Go", answer: |made| abandoned(made, 3) },
    Wrong {
        name: "a Go that is refused with 9 begins to wait",
        answer: |made| {
            after_refusal(made, |a, number, process| {
                if number == 9 && !process.go.waits {
                    process.go = Go { waits: true, ticks: 0, id: a.id as u32 };
                }
            })
        },
    },
    // requests and reports
    Wrong { name: "a Go outlives END DEBUG", answer: |made| outlives(made, END_DEBUG, |go| go) },
    Wrong {
        name: "END DEBUG leaves ticks and ID of a Go",
        answer: |made| outlives(made, END_DEBUG, |go| Go { waits: false, ..go }),
    },
    Wrong {
        name: "a Go outlives DESTROY",
        answer: |made| outlives(made, DESTROY_PROCESS, |go| go),
    },
    Wrong {
        name: "DESTROY leaves ticks and ID of a Go",
        answer: |made| outlives(made, DESTROY_PROCESS, |go| Go { waits: false, ..go }),
    },
    Wrong { name: "CREATE leaves what is left of a Go", answer: left_by_create },
    Wrong { name: "RESUME ends a Go", answer: |made| ended_by(made, Cause::Asked(RESUME)) },
    Wrong {
        name: "SINGLE STEP ends a Go",
        answer: |made| ended_by(made, Cause::Asked(SINGLE_STEP)),
    },
    Wrong { name: "STOP ends a Go", answer: |made| ended_by(made, Cause::Asked(STOP)) },
    Wrong { name: "DEBUG again ends a Go", answer: |made| ended_by(made, Cause::Asked(DEBUG)) },
    Wrong { name: "DEPOSIT ends a Go", answer: |made| ended_by(made, Cause::Asked(DEPOSIT)) },
    Wrong { name: "EXAMINE ends a Go", answer: |made| ended_by(made, Cause::Asked(EXAMINE)) },
    Wrong { name: "WATCH ends a Go", answer: |made| ended_by(made, Cause::Asked(WATCH)) },
    Wrong { name: "a HALT report ends a Go", answer: |made| ended_by(made, Cause::Told(HALT)) },
    Wrong { name: "a TRAP report ends a Go", answer: |made| ended_by(made, Cause::Told(TRAP)) },
];

/// A granted packet leaves a Go that waits.
fn kept(made: Made, test: impl Fn(&Asked) -> bool) -> i64 {
    after(made, |a, g| {
        if g.old.go.waits && test(a) {
            g.new.go = g.old.go;
        }
    })
}

/// A packet that is refused with this number abandons a Go that waits.
fn abandoned(made: Made, by: i64) -> i64 {
    after_refusal(made, |a, number, process| {
        if number == by && a.waits() {
            process.go = NO_GO;
        }
    })
}

/// This request leaves of a Go what is said here.
fn outlives(mut made: Made, cmd: u8, left: impl Fn(Go) -> Go) -> i64 {
    let meant = made.byte(4) == Some(cmd);
    let (p, old) = (made.byte(5).map_or(0, usize::from), made.records());
    let answer = made.right();
    if let (true, 0.., Some(old), Some(mut records)) = (meant, answer, old, made.records()) {
        records.processes[p].go = left(old.processes[p].go);
        made.put(&records);
    }
    answer
}

fn left_by_create(mut made: Made) -> i64 {
    let (meant, old) = (made.byte(4) == Some(CREATE_PROCESS), made.records());
    let answer = made.right();
    if let (true, 0.., Some(old), Some(mut records)) = (meant, answer, old, made.records()) {
        for (new, old) in records.processes.iter_mut().zip(&old.processes) {
            if new.there && !old.there {
                new.go = old.go;
            }
        }
        made.put(&records);
    }
    answer
}

/// Such a call ends a Go that waits.
fn ended_by(made: Made, cause: Cause) -> i64 {
    changes::after(made, |c| {
        if c.cause == cause && c.old.go.waits {
            c.new.go = NO_GO;
        }
    })
}

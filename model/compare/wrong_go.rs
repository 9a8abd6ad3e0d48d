//! Wrong libraries that go wrong by K1's Go and GoReply: where a Go is granted, which reply it
//! waits for, and what comes of that.

use crate::made::Made;
use crate::pupped::*;
use crate::wrong::Wrong;
use model::*;

/// Each is the model's answer, but for one error.
pub const WRONG_GO: &[Wrong] = &[
    // a Go
    Wrong {
        name: "a Go resumes at once",
        answer: |made| {
            after(made, |a, g| {
                if a.is(GO) {
                    resume(g.new)
                }
            })
        },
    },
    Wrong { name: "a Go is granted while running", answer: |made| go_from(made, Run::Running) },
    Wrong { name: "a Go is granted while stepping", answer: |made| go_from(made, Run::Stepping) },
    Wrong { name: "a Go is granted when ended", answer: |made| go_from(made, Run::Ended) },
    Wrong { name: "a Go is granted while passing", answer: |made| go_from(made, Run::Passing) },
    Wrong {
        name: "a Go again is granted while running",
        answer: |mut made| match (asked(&mut made), made.right()) {
            (Some(a), -9) if a.waits() && a.of(|p| u64::from(p.go.id) == a.id) => 0,
            (_, answer) => answer,
        },
    },
    Wrong {
        name: "a Go is refused with 9 at a breakpoint",
        answer: |made| {
            refuse(made, 9, |a, right| right >= 0 && a.is(GO) && a.runs(Run::AtBreakpoint))
        },
    },
    Wrong {
        name: "a Go is refused with 9 while one waits",
        answer: |made| refuse(made, 9, |a, right| right >= 0 && a.is(GO) && a.waits()),
    },
    Wrong {
        name: "a Go lifts the breakpoint at PC",
        answer: |made| {
            after(made, |a, g| {
                if a.is(GO) {
                    lift_at_pc(g)
                }
            })
        },
    },
    Wrong {
        name: "a Go is acknowledged with two words",
        answer: |mut made| match (asked(&mut made), made.right(), made) {
            (Some(a), 0, Made::Packet { ack, .. }) if a.is(GO) => {
                ack[..2].fill(0);
                2
            }
            (_, answer, _) => answer,
        },
    },
    Wrong {
        name: "a GoReply is acknowledged with its ID",
        answer: |mut made| match (asked(&mut made), made.right(), made) {
            (Some(a), 0, Made::Packet { ack, .. }) if a.is(GO_REPLY) => {
                ack[..2].copy_from_slice(&[a.id as u16, (a.id >> 16) as u16]);
                2
            }
            (_, answer, _) => answer,
        },
    },
    Wrong {
        name: "a Go of another ID is passed over while one waits",
        answer: |made| {
            after(made, |a, g| {
                if a.is(GO) && g.old.go.waits {
                    g.new.go = g.old.go
                }
            })
        },
    },
    Wrong {
        name: "a Go of another ID takes over the ticks",
        answer: |made| {
            after(made, |a, g| {
                if a.is(GO) && g.old.go.waits {
                    g.new.go.ticks = g.old.go.ticks;
                }
            })
        },
    },
    Wrong {
        name: "a repeated Go counts its ticks afresh",
        answer: |made| {
            after(made, |a, g| {
                if a.is(GO) {
                    g.new.go.ticks = 0
                }
            })
        },
    },
    Wrong {
        name: "a repeated Go counts its ticks afresh from the fiftieth on",
        answer: |made| {
            after(made, |a, g| {
                if a.is(GO) && g.old.go.ticks > 49 {
                    g.new.go.ticks = 0
                }
            })
        },
    },
    Wrong {
        name: "a repeated Go abandons the first",
        answer: |made| {
            after(made, |a, g| {
                if a.is(GO) && g.old.go.waits && g.old.go.id == g.new.go.id {
                    g.new.go = NO_GO;
                }
            })
        },
    },
    Wrong {
        name: "a Go takes up the ticks that are left of another of its ID",
        answer: |made| {
            after(made, |a, g| {
                if a.is(GO) && !g.old.go.waits && g.old.go.id == g.new.go.id {
                    g.new.go.ticks = g.old.go.ticks.min(99);
                }
            })
        },
    },
    Wrong {
        name: "the ID is kept with its high byte first",
        answer: |made| {
            after(made, |a, g| {
                if a.is(GO) && g.new.go != g.old.go {
                    g.new.go.id = g.new.go.id.swap_bytes();
                }
            })
        },
    },
    Wrong {
        name: "16 bits of the ID are kept",
        answer: |made| {
            after(made, |a, g| {
                if a.is(GO) {
                    g.new.go.id &= 0xffff
                }
            })
        },
    },
    // the reply
    Wrong {
        name: "a GoReply of the Go's own ID is accepted",
        answer: |made| reply(made, |id, go| id == go),
    },
    Wrong { name: "a GoReply of any ID is accepted", answer: |made| reply(made, |_, _| true) },
    Wrong {
        name: "a GoReply of a greater ID is accepted",
        answer: |made| reply(made, |id, go| id > go),
    },
    Wrong {
        name: "a GoReply of the ID after the next is accepted",
        answer: |made| reply(made, |id, go| id == go.wrapping_add(2)),
    },
    Wrong {
        name: "16 bits of a GoReply's ID are looked at",
        answer: |made| reply(made, |id, go| id as u16 == go.wrapping_add(1) as u16),
    },
    Wrong {
        name: "the highest bit of a GoReply's ID is passed over",
        answer: |made| reply(made, |id, go| id << 1 == go.wrapping_add(1) << 1),
    },
    Wrong {
        name: "an ID does not wrap",
        answer: |made| {
            after(made, |a, g| {
                if a.is(GO_REPLY) && a.id == 0 && g.old.go.waits {
                    g.new.run = g.old.run;
                }
            })
        },
    },
    Wrong {
        name: "an ID wraps to 1",
        answer: |made| reply(made, |id, go| go == u32::MAX && id == 1),
    },
    Wrong {
        name: "a GoReply with none waiting resumes",
        answer: |made| {
            after(made, |a, g| {
                if a.is(GO_REPLY) && !g.old.go.waits {
                    resume(g.new)
                }
            })
        },
    },
    Wrong {
        name: "a GoReply to what is left of a Go resumes",
        answer: |made| {
            after(made, |a, g| {
                let next = u64::from(g.old.go.id.wrapping_add(1));
                if a.is(GO_REPLY) && !g.old.go.waits && g.old.go.id != 0 && a.id == next {
                    resume(g.new);
                }
            })
        },
    },
    Wrong {
        name: "a GoReply with none waiting is refused with 9",
        answer: |made| refuse(made, 9, |a, right| right == 0 && a.is(GO_REPLY) && !a.waits()),
    },
    Wrong {
        name: "a GoReply while running is refused with 9",
        answer: |made| {
            refuse(made, 9, |a, right| right == 0 && a.is(GO_REPLY) && a.runs(Run::Running))
        },
    },
    Wrong {
        name: "a GoReply that would resume a process that runs leaves the Go",
        answer: |made| {
            after(made, |a, g| {
                let next = u64::from(g.old.go.id.wrapping_add(1));
                if a.is(GO_REPLY) && a.id == next && !g.old.run.waits() {
                    g.new.go = g.old.go;
                }
            })
        },
    },
    Wrong {
        name: "a GoReply resumes although stepping",
        answer: |made| replied_from(made, Run::Stepping),
    },
    Wrong {
        name: "a GoReply resumes although passing",
        answer: |made| replied_from(made, Run::Passing),
    },
    Wrong { name: "a GoReply resumes when ended", answer: |made| replied_from(made, Run::Ended) },
    Wrong {
        name: "a GoReply resumes from stopped alone",
        answer: |made| {
            after(made, |_, g| {
                if g.old.run == Run::AtBreakpoint {
                    g.new.run = g.old.run
                }
            })
        },
    },
    Wrong {
        name: "a GoReply at a breakpoint acts as PROCEED BPT",
        answer: |made| {
            after(made, |a, g| {
                if a.is(GO_REPLY) && g.old.run != g.new.run && at_pc(g.new).is_some() {
                    lift_at_pc(g);
                    g.new.run = Run::Passing;
                }
            })
        },
    },
    Wrong {
        name: "a GoReply that resumes leaves ticks and ID",
        answer: |made| {
            after(made, |a, g| {
                if a.is(GO_REPLY) && g.old.run != g.new.run {
                    g.new.go = Go { waits: false, ..g.old.go };
                }
            })
        },
    },
];

pub const NO_GO: Go = Go { waits: false, ticks: 0, id: 0 };

pub fn resume(process: &mut Process) {
    if process.run.waits() {
        process.run = Run::Running;
    }
}

fn at_pc(process: &mut Process) -> Option<&mut Breakpoint> {
    let pc = process.vector[PC];
    process.breakpoints.iter_mut().find(|b| b.planted() && b.address == pc)
}

/// Lifts the breakpoint at PC, in a process that may have a lifted one then or not.
pub fn lift_at_pc(g: &mut Granted) {
    if let Some(b) = at_pc(g.new) {
        g.bytes[usize::from(b.address)..][..2].copy_from_slice(&b.saved);
        b.lifted = true;
    }
}

/// A Go is granted from this run state too.
fn go_from(made: Made, run: Run) -> i64 {
    let change = |a: &Asked, process: &mut Process| {
        let meant = a.is(GO) && process.run == run;
        if meant {
            process.run = Run::Stopped;
            process.breakpoints.iter_mut().for_each(|b| b.lifted = false);
        }
        meant
    };
    on_changed(made, change, |old, new| (new.run, new.breakpoints) = (old.run, old.breakpoints))
}

/// A GoReply of such an ID resumes too, while a Go of the other ID waits.
fn reply(made: Made, test: impl Fn(u32, u32) -> bool) -> i64 {
    after(made, |a, g| {
        if a.is(GO_REPLY) && g.old.go.waits && test(a.id as u32, g.old.go.id) {
            resume(g.new);
        }
    })
}

/// A GoReply of the next ID resumes from this run state too.
fn replied_from(made: Made, run: Run) -> i64 {
    after(made, |a, g| {
        let next = g.old.go.waits && a.id == u64::from(g.old.go.id.wrapping_add(1));
        if a.is(GO_REPLY) && next && g.old.run == run {
            g.new.run = Run::Running;
        }
    })
}

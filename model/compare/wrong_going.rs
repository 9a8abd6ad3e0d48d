//! Wrong libraries that go wrong by how a process goes on after `c` and `s`.

use crate::lined::{on_changed, refuse, Asked, Granted};
use crate::made::Made;
use crate::wrong::Wrong;
use crate::wrong_lines::{changed, put_back, retried};
use model::*;

/// Each is the model's answer, but for one error.
pub const WRONG_GOING: &[Wrong] = &[
    Wrong {
        name: "c at a breakpoint acts as RESUME",
        answer: |made| {
            changed(made, b"c", |c| {
                let pc = c.new.vector[PC];
                put_back(c);
                c.new.vector[PC] = pc;
                (c.new.run, c.new.owed) = (Run::Running, Owed::Continue);
            })
        },
    },
    Wrong {
        name: "c from stopped acts as PROCEED BPT",
        answer: |made| {
            changed(made, b"c", |c| {
                if c.old.run == Run::Stopped && lift(c, c.new.vector[PC]) {
                    c.new.run = Run::Passing;
                }
            })
        },
    },
    Wrong {
        name: "s at a breakpoint lifts nothing",
        answer: |made| {
            changed(made, b"s", |c| {
                c.new.breakpoints = c.old.breakpoints;
                c.bytes.copy_from_slice(c.old_bytes);
            })
        },
    },
    Wrong {
        name: "s from stopped lifts",
        answer: |made| {
            changed(made, b"s", |c| {
                if c.old.run == Run::Stopped {
                    lift(c, c.new.vector[PC]);
                }
            })
        },
    },
    Wrong {
        name: "s runs",
        answer: |made| {
            changed(made, b"s", |c| {
                if !c.new.breakpoints.iter().any(|b| b.used() && b.lifted) {
                    c.new.run = Run::Running;
                }
            })
        },
    },
    Wrong { name: "c lifts the one at the old PC", answer: |made| lifts_the_old(made, b"c") },
    Wrong { name: "s lifts the one at the old PC", answer: |made| lifts_the_old(made, b"s") },
    Wrong {
        name: "c sets no PC",
        answer: |made| changed(made, b"c", |c| c.new.vector[PC] = c.old.vector[PC]),
    },
    Wrong {
        name: "s sets no PC",
        answer: |made| changed(made, b"s", |c| c.new.vector[PC] = c.old.vector[PC]),
    },
    Wrong {
        name: "address 1 becomes the PC",
        answer: |made| {
            changed(made, b"cs", |c| {
                if c.asked.addr == 1 {
                    c.new.vector[PC] = 1;
                }
            })
        },
    },
    Wrong {
        name: "address 0 leaves PC",
        answer: |made| retried(made, |a| a.is(b"cs") && a.addr == 0, |a| a.addr = 1),
    },
    Wrong {
        name: "a new PC may be odd",
        answer: |made| {
            let odd = |a: &Asked| a.is(b"cs") && a.addr % 2 == 1 && a.addr != 1;
            let answer = |a: &mut Asked| a.addr -= 1;
            retried(made, odd, answer)
        },
    },
    Wrong {
        name: "a new PC may be the size",
        answer: |made| {
            let size = |a: &Asked| a.is(b"cs") && a.of_ours(|p| a.addr == u32::from(p.size));
            retried(made, size, |a| a.addr -= 2)
        },
    },
    Wrong {
        name: "a new PC may be any even address under 4,096",
        answer: |made| {
            let size = |a: &Asked| a.is(b"cs") && a.addr % 2 == 0 && a.addr < 4096;
            retried(made, size, |a| {
                if a.of_ours(|p| a.addr > u32::from(p.size)) {
                    a.addr = 0;
                }
            })
        },
    },
    Wrong {
        name: "a new PC is cut to 16 bits",
        answer: |made| retried(made, |a| a.is(b"cs"), |a| a.addr %= 65_536),
    },
    Wrong {
        name: "a new PC of size - 2 is refused",
        answer: |made| {
            refuse(made, 114, |a, answer| {
                answer == 0 && a.is(b"cs") && a.of_ours(|p| a.addr + 2 == u32::from(p.size))
            })
        },
    },
    Wrong {
        name: "a PC that stays is tested too",
        answer: |made| {
            refuse(made, 114, |a, answer| {
                answer == 0 && a.addr == 1 && a.of_ours(|p| p.vector[PC] % 2 == 1)
            })
        },
    },
    Wrong {
        name: "c of an ended process is granted",
        answer: |made| waits_too(made, b"c", Run::Ended),
    },
    Wrong {
        name: "s of a running process is granted",
        answer: |made| waits_too(made, b"s", Run::Running),
    },
    Wrong {
        name: "c of a running process is granted",
        answer: |made| waits_too(made, b"c", Run::Running),
    },
    Wrong {
        name: "s at a breakpoint is refused",
        answer: |made| {
            refuse(made, 122, |a, answer| {
                answer == 0 && a.is(b"s") && a.of_ours(|p| p.run == Run::AtBreakpoint)
            })
        },
    },
    Wrong {
        name: "a c that is refused sets the PC",
        answer: |mut made| {
            let asked = match &made {
                Made::Line { text, .. } => read_line(text),
                _ => None,
            };
            let answer = made.right();
            let Some(LineRead { pid, request: b'c', arguments: Some((addr, _)) }) = asked else {
                return answer;
            };
            if let (Some(mut records), -114) = (made.records(), answer) {
                records.processes[pid as usize].vector[PC] = addr as u16;
                made.put(&records);
            }
            answer
        },
    },
];

/// An answer to c or s as if a process in this run state were stopped.
fn waits_too(made: Made, letters: &[u8], run: Run) -> i64 {
    on_changed(made, |a, process| {
        let too = a.is(letters) && process.run == run;
        if too {
            process.run = Run::Stopped;
        }
        too
    })
}

/// Lifts the breakpoint at an address; says whether there is one.
fn lift(c: &mut Granted, pc: u16) -> bool {
    let at_pc = c.new.breakpoints.iter_mut().find(|b| b.planted() && b.address == pc);
    let Some(b) = at_pc else { return false };
    c.bytes[usize::from(b.address)..][..2].copy_from_slice(&b.saved);
    b.lifted = true;
    true
}

/// Lifts the breakpoint at the PC as it was, and sets PC then.
fn lifts_the_old(made: Made, letters: &[u8]) -> i64 {
    changed(made, letters, |c| {
        if c.old.run != Run::AtBreakpoint {
            return;
        }
        let (pc, owed) = (c.new.vector[PC], c.new.owed);
        put_back(c);
        let lifted = lift(c, c.old.vector[PC]);
        c.new.vector[PC] = pc;
        c.new.owed = owed;
        c.new.run = match (c.asked.request, lifted) {
            (b's', _) => Run::Stepping,
            (_, true) => Run::Passing,
            _ => Run::Running,
        };
    })
}

//! Wrong libraries that go wrong by who is told of a breakpoint, and by what K5 says of a
//! sound state and of the desk.

use crate::about::has_bytes;
use crate::changes::{after, Cause::*};
use crate::made::Made;
use crate::wrong::Wrong;
use crate::wrong_owed::reported;
use model::*;

/// Each is the model's answer, but for one error.
pub const WRONG_TOLD: &[Wrong] = &[
    // who is told
    Wrong {
        name: "a notice at the watcher's breakpoint goes to the debugging host",
        answer: |made| told_to(made, |_, to, p| if to == p.watcher { p.host } else { to }),
    },
    Wrong {
        name: "a notice at any breakpoint goes to the watcher, if there is one",
        answer: |made| {
            told_to(made, |kind, to, p| match (kind, p.watcher) {
                (BPT, NOBODY) => to,
                (BPT, watcher) => watcher,
                _ => to,
            })
        },
    },
    Wrong {
        name: "TRAP at the watcher's breakpoint is told to him",
        answer: |made| told_to(made, |kind, to, p| setter_for(TRAP, kind, to, p)),
    },
    Wrong {
        name: "HALT at the watcher's breakpoint is told to him",
        answer: |made| told_to(made, |kind, to, p| setter_for(HALT, kind, to, p)),
    },
    Wrong {
        name: "TTRAP at the watcher's breakpoint is told to him",
        answer: |made| told_to(made, |kind, to, p| setter_for(TTRAP, kind, to, p)),
    },
    Wrong {
        name: "a BPT where no breakpoint is goes to the watcher",
        answer: |made| {
            told_to(made, |kind, to, p| match at_pc(p) {
                None if kind == BPT && p.watcher != NOBODY => p.watcher,
                _ => to,
            })
        },
    },
    Wrong {
        name: "the watcher's breakpoint is not told",
        answer: |mut made| {
            let before = match &made {
                Made::Report { notice, .. } => notice.to_vec(),
                _ => Vec::new(),
            };
            let old = reported(&mut made);
            let answer = made.right();
            match (made, old) {
                (Made::Report { notice, .. }, Some((_, _, old)))
                    if notice_length(answer) > 0 && notice[1] != old.host =>
                {
                    notice.copy_from_slice(&before);
                    answer - 28
                }
                _ => answer,
            }
        },
    },
    Wrong {
        name: "no line is answered beside a notice to the watcher",
        answer: |mut made| {
            let before = match &made {
                Made::Report { line, .. } => line.to_vec(),
                _ => Vec::new(),
            };
            let old = reported(&mut made);
            let answer = made.right();
            match (made, old) {
                (Made::Report { notice, line, .. }, Some((_, _, old)))
                    if answered_length(answer) > 0 && notice[1] != old.host =>
                {
                    line.copy_from_slice(&before);
                    notice_length(answer) as i64
                }
                _ => answer,
            }
        },
    },
    Wrong {
        name: "a silent pass at the watcher's breakpoint leaves the count",
        answer: |made| {
            after(made, |c| {
                if c.cause == Told(BPT) && c.new.run.goes() {
                    for (old, new) in c.old.breakpoints.iter().zip(&mut c.new.breakpoints) {
                        if new.used() && new.setter != c.old.host {
                            new.remaining = old.remaining;
                        }
                    }
                }
            })
        },
    },
    // sound states
    Wrong {
        name: "the debugging host may watch in a state",
        answer: |made| {
            repaired(made, |p| {
                if p.host != NOBODY && p.watcher == p.host {
                    p.watcher = NOBODY;
                }
            })
        },
    },
    Wrong {
        name: "a watcher with no debugging host is sound",
        answer: |made| {
            repaired(made, |p| {
                if p.there && p.host == NOBODY {
                    p.watcher = NOBODY;
                }
            })
        },
    },
    Wrong {
        name: "a watcher of an absent process is sound",
        answer: |made| {
            repaired(made, |p| {
                if !p.there {
                    p.watcher = NOBODY;
                }
            })
        },
    },
    Wrong {
        name: "a breakpoint that a third set is sound while nobody watches",
        answer: |made| {
            repaired(made, |p| {
                let (host, watcher) = (p.host, p.watcher);
                for b in p.breakpoints.iter_mut().filter(|_| watcher == NOBODY) {
                    if host != NOBODY && b.setter != NOBODY && b.setter != host {
                        b.setter = host;
                    }
                }
            })
        },
    },
    Wrong {
        name: "a breakpoint that a third set is sound while watched",
        answer: |made| {
            repaired(made, |p| {
                let (host, watcher) = (p.host, p.watcher);
                for b in p.breakpoints.iter_mut().filter(|_| watcher != NOBODY) {
                    if b.setter != NOBODY && b.setter != host && b.setter != watcher {
                        b.setter = host;
                    }
                }
            })
        },
    },
    Wrong {
        name: "the limit of 4 is part of sound",
        answer: |made| {
            unsound(made, |p| {
                let his = |b: &&Breakpoint, host: u8| b.used() && b.setter == host;
                let count = |host| p.breakpoints.iter().filter(|b| his(b, host)).count();
                p.watcher != NOBODY && (count(p.host) > 4 || count(p.watcher) > 4)
            })
        },
    },
    // free entries, and whether an entry is lifted
    Wrong {
        name: "a free entry has to be all zero",
        answer: |made| unsound(made, |p| p.breakpoints.iter().any(|b| !b.used() && has_bytes(b))),
    },
    Wrong {
        name: "the address of a free entry is asked too",
        answer: |made| {
            unsound(made, |p| {
                let wrong = |b: &Breakpoint| b.address % 2 == 1 || b.address >= p.size;
                p.breakpoints.iter().any(|b| !b.used() && wrong(b))
            })
        },
    },
    Wrong {
        name: "a free entry may not have the address of a breakpoint",
        answer: |made| {
            unsound(made, |p| {
                let at = |address| p.breakpoints.iter().any(|b| b.used() && b.address == address);
                p.breakpoints.iter().any(|b| !b.used() && has_bytes(b) && at(b.address))
            })
        },
    },
    Wrong {
        name: "a free entry that says it is lifted is asked for the run state",
        answer: |made| {
            unsound(made, |p| {
                p.host != NOBODY && !p.run.allows_lifted() && p.breakpoints.iter().any(|b| b.lifted)
            })
        },
    },
    Wrong {
        name: "a free entry that says it is lifted counts beside a lifted one",
        answer: |made| {
            unsound(made, |p| {
                let some = |used| p.breakpoints.iter().any(|b| b.lifted && b.used() == used);
                some(true) && some(false)
            })
        },
    },
    Wrong {
        name: "a new breakpoint is lifted where the free entry said so",
        answer: |made| {
            after(made, |c| {
                for (old, new) in c.old.breakpoints.iter().zip(&mut c.new.breakpoints) {
                    if !old.used() && new.used() {
                        new.lifted = old.lifted;
                    }
                }
            })
        },
    },
    Wrong {
        name: "over 1 for lifted is cut to its lowest bit",
        answer: |made| on_entries(made, |entry| entry[0] &= 1),
    },
    Wrong {
        name: "over 1 for lifted is lifted",
        answer: |made| on_entries(made, |entry| entry[0] = entry[0].min(1)),
    },
    Wrong {
        name: "the two lowest bits may be set for lifted",
        answer: |made| {
            on_entries(made, |entry| {
                entry[0] = [0, 1, 0, 1].get(usize::from(entry[0])).copied().unwrap_or(entry[0])
            })
        },
    },
    Wrong {
        name: "the first byte of a free entry is not asked",
        answer: |made| {
            on_entries(made, |entry| {
                if entry[1] == NOBODY {
                    entry[0] = 0;
                }
            })
        },
    },
    // the desk
    Wrong { name: "the desk does not write WATCH", answer: |made| unwritten(made, WATCH) },
    Wrong { name: "the desk does not write END WATCH", answer: |made| unwritten(made, END_WATCH) },
    Wrong { name: "the desk does not read WATCHED", answer: |made| unread(made, 14) },
    Wrong { name: "the desk does not read END WATCH", answer: |made| unread(made, 15) },
    Wrong { name: "the desk does not read CAN'T WATCH", answer: |made| unread(made, 142) },
    Wrong { name: "the desk does not read CAN'T END WATCH", answer: |made| unread(made, 143) },
    Wrong {
        name: "the desk reads CMD 145",
        answer: |mut made| match made {
            Made::Read { message, fields } if message.get(4) == Some(&145) => {
                let mut message = message.to_vec();
                message[4] = 143;
                read_answer(&message, fields)
            }
            _ => made.right(),
        },
    },
    Wrong {
        name: "the desk writes WATCH with an ARG1",
        answer: |mut made| match made {
            Made::Write { fields: [host, 14, pid, _, arg2], string, request } => {
                write_request(host, 14, pid, 0, arg2, string, request)
            }
            _ => made.right(),
        },
    },
];

/// The model's answer to a report, of which the notice goes to another host: that for a kind,
/// the host told, and the process after it.
fn told_to(mut made: Made, host: impl Fn(u8, u8, &Process) -> u8) -> i64 {
    let about = reported(&mut made);
    let answer = made.right();
    let (Some((p, kind, _)), Some(records)) = (about, made.records()) else { return answer };
    if let Made::Report { notice, .. } = made {
        if notice_length(answer) > 0 {
            notice[1] = host(kind, notice[1], &records.processes[p]);
        }
    }
    answer
}

/// The breakpoint at PC.
fn at_pc(process: &Process) -> Option<&Breakpoint> {
    process.breakpoints.iter().find(|b| b.used() && b.address == process.vector[PC])
}

/// Who set the breakpoint at PC, for a report of this kind, else the host told.
fn setter_for(meant: u8, kind: u8, to: u8, process: &Process) -> u8 {
    match at_pc(process) {
        Some(b) if kind == meant => b.setter,
        _ => to,
    }
}

/// The model's answer on records that are repaired first where they are not sound; of a
/// refusal they are put back.
pub fn repaired(mut made: Made, repair: impl Fn(&mut Process)) -> i64 {
    let Some(old) = made.records().filter(|state| !sound(state)) else { return made.right() };
    let mut records = old.clone();
    records.processes.iter_mut().for_each(repair);
    if !sound(&records) {
        return made.right();
    }
    made.put(&records);
    let answer = made.right();
    if answer < 0 {
        made.put(&old);
    }
    answer
}

/// A state with such a process is not sound.
fn unsound(mut made: Made, test: impl Fn(&Process) -> bool) -> i64 {
    match made.records().filter(|state| state.processes.iter().any(test)) {
        None => made.right(),
        Some(records) => match made.on_other(&records) {
            -1 => -1,
            _ => -2,
        },
    }
}

/// The model's answer to a request on bytes of which the entries are changed first.
fn on_entries(mut made: Made, change: impl Fn(&mut [u8])) -> i64 {
    match &mut made {
        Made::Request { state, memory, message, reply } if state.len() == STATE_BYTES => {
            if decode(state).is_some() {
                return made.right();
            }
            let mut changed = state.to_vec();
            for record in changed[..BEGINS_AT].chunks_exact_mut(RECORD_BYTES) {
                record[ENTRIES_AT..].chunks_exact_mut(ENTRY_BYTES).for_each(&change);
            }
            let answer = request_bytes(&mut changed, memory, message, reply);
            if answer > 0 {
                state.copy_from_slice(&changed);
            }
            answer
        }
        _ => made.right(),
    }
}

/// The desk refuses to write this op code.
pub fn unwritten(mut made: Made, cmd: u8) -> i64 {
    match &made {
        Made::Write { fields, request, .. } if fields[1] == u64::from(cmd) => {
            let known = request.len() >= LONGEST && (1..256).contains(&fields[0]);
            if known {
                -5
            } else {
                made.right()
            }
        }
        _ => made.right(),
    }
}

/// The desk refuses to read this one.
pub fn unread(mut made: Made, cmd: u8) -> i64 {
    let meant = matches!(&made, Made::Read { message, .. } if message.get(4) == Some(&cmd));
    let before = match &made {
        Made::Read { fields, .. } => fields.to_vec(),
        _ => Vec::new(),
    };
    let answer = made.right();
    match made {
        Made::Read { fields, .. } if meant && answer >= 0 => {
            fields.copy_from_slice(&before);
            -5
        }
        _ => answer,
    }
}

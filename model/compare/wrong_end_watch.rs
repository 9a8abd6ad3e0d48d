//! Wrong libraries that go wrong by what ends a watch, and by what goes with it.

use crate::changes::{after, Cause::*};
use crate::made::Made;
use crate::watched::{asked, ended, Asked};
use crate::wrong::Wrong;
use crate::wrong_watches::FREE;
use model::*;

/// Each is the model's answer, but for one error.
pub const WRONG_END_WATCH: &[Wrong] = &[
    Wrong {
        name: "END WATCH by the debugging host is granted",
        answer: |made| end_watch_by(made, |a| a.owner() && a.watched()),
    },
    Wrong {
        name: "END WATCH by a third is granted",
        answer: |made| end_watch_by(made, |a| !a.owner() && a.watched()),
    },
    Wrong {
        name: "END WATCH when nobody watches is granted",
        answer: |made| end_watch_by(made, |a| !a.watched()),
    },
    Wrong {
        name: "END WATCH leaves the watcher",
        answer: |made| {
            after(made, |c| {
                if c.cause == Asked(END_WATCH) {
                    c.new.watcher = c.old.watcher;
                }
            })
        },
    },
    Wrong {
        name: "END WATCH leaves his breakpoints, as the debugging host's",
        answer: |made| {
            after(made, |c| {
                if c.cause == Asked(END_WATCH) {
                    c.put_back();
                    c.new.watcher = NOBODY;
                    c.new
                        .breakpoints
                        .iter_mut()
                        .filter(|b| b.used())
                        .for_each(|b| b.setter = c.old.host);
                }
            })
        },
    },
    Wrong {
        name: "END WATCH leaves a planted word",
        answer: |made| {
            after(made, |c| {
                if c.cause == Asked(END_WATCH) {
                    c.bytes.copy_from_slice(c.old_bytes);
                }
            })
        },
    },
    Wrong {
        name: "END WATCH puts the word of a lifted one back",
        answer: |made| {
            after(made, |c| {
                if c.cause == Asked(END_WATCH) {
                    for b in c.old.breakpoints.iter().filter(|b| b.used() && b.lifted) {
                        let his = b.setter == c.old.watcher;
                        let word = &mut c.bytes[usize::from(b.address)..][..2];
                        if his {
                            word.copy_from_slice(&b.saved);
                        }
                    }
                }
            })
        },
    },
    Wrong {
        name: "END WATCH of a lifted one makes it running",
        answer: |made| {
            after(made, |c| {
                let his = |b: &Breakpoint| b.used() && b.lifted && b.setter == c.old.watcher;
                if c.cause == Asked(END_WATCH) && c.old.breakpoints.iter().any(his) {
                    c.new.run = Run::Running;
                }
            })
        },
    },
    Wrong {
        name: "END WATCH leaves the lifted one",
        answer: |made| {
            after(made, |c| {
                if c.cause == Asked(END_WATCH) {
                    for (old, new) in c.old.breakpoints.iter().zip(&mut c.new.breakpoints) {
                        if old.used() && old.lifted {
                            *new = Breakpoint { setter: c.old.host, ..*old };
                        }
                    }
                }
            })
        },
    },
    Wrong {
        name: "END WATCH removes the first of his alone",
        answer: |made| {
            after(made, |c| {
                if c.cause == Asked(END_WATCH) {
                    let mut first = true;
                    for e in 0..BREAKPOINTS {
                        let old = c.old.breakpoints[e];
                        if !old.used() || old.setter != c.old.watcher {
                            continue;
                        }
                        if !std::mem::replace(&mut first, false) {
                            c.new.breakpoints[e] = Breakpoint { setter: c.old.host, ..old };
                            let at = usize::from(old.address)..usize::from(old.address) + 2;
                            c.bytes[at.clone()].copy_from_slice(&c.old_bytes[at]);
                        }
                    }
                }
            })
        },
    },
    Wrong {
        name: "END WATCH removes the other's too",
        answer: |made| {
            after(made, |c| {
                if c.cause == Asked(END_WATCH) {
                    ended(c.new, c.bytes, c.old.host);
                }
            })
        },
    },
    Wrong {
        name: "END WATCH clears all eight entries that are free",
        answer: |made| {
            after(made, |c| {
                if c.cause == Asked(END_WATCH) {
                    for b in c.new.breakpoints.iter_mut().filter(|b| !b.used()) {
                        *b = FREE;
                    }
                }
            })
        },
    },
    Wrong {
        name: "a freed entry keeps who set it",
        answer: |made| {
            after(made, |c| {
                if matches!(c.cause, Asked(END_WATCH | UNBREAK | END_DEBUG)) {
                    for (old, new) in c.old.breakpoints.iter().zip(&mut c.new.breakpoints) {
                        if old.used() && !new.used() {
                            new.setter = old.setter;
                        }
                    }
                }
            })
        },
    },
    Wrong {
        name: "END DEBUG makes the watcher the debugging host",
        answer: |made| {
            after(made, |c| {
                if c.cause == Asked(END_DEBUG) && c.old.watcher != NOBODY {
                    c.new.host = c.old.watcher;
                }
            })
        },
    },
    Wrong {
        name: "a watch outlives END DEBUG",
        answer: |made| {
            after(made, |c| {
                if c.cause == Asked(END_DEBUG) {
                    c.new.watcher = c.old.watcher;
                }
            })
        },
    },
    Wrong {
        name: "a watch outlives DESTROY",
        answer: |made| {
            crate::wrong_layout::after(made, DESTROY_PROCESS, |c| {
                c.new.processes[c.p].watcher = c.old.processes[c.p].watcher;
            })
        },
    },
    Wrong {
        name: "END DEBUG leaves the watcher's planted words",
        answer: |made| {
            after(made, |c| {
                if c.cause == Asked(END_DEBUG) {
                    for b in c.old.breakpoints.iter().filter(|b| b.planted()) {
                        let at = usize::from(b.address)..usize::from(b.address) + 2;
                        if b.setter != c.old.host {
                            c.bytes[at.clone()].copy_from_slice(&c.old_bytes[at]);
                        }
                    }
                }
            })
        },
    },
    Wrong {
        name: "STOP ends the watch",
        answer: |made| {
            after(made, |c| {
                if c.cause == Asked(STOP) && !c.old.breakpoints.iter().any(|b| b.used()) {
                    c.new.watcher = NOBODY;
                }
            })
        },
    },
    Wrong {
        name: "HALT ends the watch",
        answer: |made| {
            after(made, |c| {
                if c.cause == Told(HALT) && !c.old.breakpoints.iter().any(|b| b.used()) {
                    c.new.watcher = NOBODY;
                }
            })
        },
    },
];

/// END WATCH by another, where this holds, ends the watch.
fn end_watch_by(mut made: Made, test: impl Fn(&Asked) -> bool) -> i64 {
    let meant = asked(&mut made).filter(|a| a.is(END_WATCH) && test(a));
    let answer = made.right();
    let (Some(a), -8) = (meant, answer) else { return answer };
    let Some(mut records) = made.records() else { return answer };
    let process = &mut records.processes[a.p];
    process.watcher = NOBODY;
    let place = process.place();
    if let Some(memory) = made.memory() {
        ended(process, &mut memory[place], a.process.watcher);
    }
    made.put(&records);
    if let Made::Request { reply, .. } = made {
        reply[4] -= 128;
    }
    10
}

//! Wrong libraries that tell one who asks why the wrong limit of a 10, or a wrong excess.

use crate::made::Made;
use crate::told_why::{facts_of, Asked};
use crate::wrong::Wrong;
use model::*;

/// Each is the model's answer, but for one error.
pub const WRONG_LIMITS: &[Wrong] = &[
    // the end
    Wrong {
        name: "why, the end is passed by one less",
        answer: |m| at_limit(m, Limit::End, |_, f| f[1] -= 1),
    },
    Wrong {
        name: "why, the end is passed by one more",
        answer: |m| at_limit(m, Limit::End, |_, f| f[1] += 1),
    },
    Wrong {
        name: "why, the excess has 16 bits",
        answer: |m| at_limit(m, Limit::End, |_, f| f[1] %= 65_536),
    },
    Wrong {
        name: "why, the excess is at most 65,535",
        answer: |m| at_limit(m, Limit::End, |_, f| f[1] = f[1].min(65_535)),
    },
    Wrong {
        name: "why, the excess of the address alone",
        answer: |m| {
            at_limit(m, Limit::End, |a, f| {
                f[1] = if a.arg1 > a.size() { a.arg1 - a.size() } else { f[1] }
            })
        },
    },
    Wrong {
        name: "why, the excess of no bytes is 0",
        answer: |m| at_limit(m, Limit::End, |a, f| f[1] = if a.arg2 == 0 { 0 } else { f[1] }),
    },
    Wrong {
        name: "why, the excess is over 4,096",
        answer: |m| {
            at_limit(m, Limit::End, |a, f| {
                f[1] = if a.is(DEPOSIT_STATE_VECTOR) { f[1] } else { a.end().saturating_sub(4096) }
            })
        },
    },
    Wrong {
        name: "why, the excess of a DEPOSIT is over 4,096",
        answer: |m| {
            at_limit(m, Limit::End, |a, f| {
                f[1] = if a.is(DEPOSIT) { a.end().saturating_sub(4096) } else { f[1] }
            })
        },
    },
    Wrong {
        name: "why, the excess of a vector is over the size",
        answer: |m| {
            at_limit(m, Limit::End, |a, f| {
                let over = a.end().saturating_sub(a.size());
                f[1] = if a.is(DEPOSIT_STATE_VECTOR) { over } else { f[1] }
            })
        },
    },
    Wrong {
        name: "why, a vector's end is another limit",
        answer: |m| {
            at_limit(m, Limit::End, |a, f| f[0] = if a.is(DEPOSIT_STATE_VECTOR) { 1 } else { 0 })
        },
    },
    Wrong {
        name: "why, the excess is how many bytes are outside",
        answer: |m| at_limit(m, Limit::End, |a, f| f[1] = f[1].min(a.arg2)),
    },
    Wrong { name: "why, the end by 1,000 is by 1,001", answer: |m| one_more(m, Limit::End, 1000) },
    Wrong {
        name: "why, the end by 123,456 is by 123,457",
        answer: |m| one_more(m, Limit::End, 123_456),
    },
    // the 256 of an EXAMINE
    Wrong { name: "why, 256 by 777 is by 778", answer: |m| one_more(m, Limit::Count, 777) },
    Wrong {
        name: "why, 256 comes before the end",
        answer: |m| {
            at_limit(m, Limit::End, |a, f| {
                if a.is(EXAMINE) && a.arg2 > 256 {
                    *f = [1, a.arg2 - 256];
                }
            })
        },
    },
    Wrong {
        name: "why, 256 comes before the end where both are passed by as much",
        answer: |m| {
            at_limit(m, Limit::End, |a, f| {
                if a.is(EXAMINE) && a.arg2 == 256 + f[1] {
                    f[0] = 1;
                }
            })
        },
    },
    Wrong {
        name: "why, 256 is told as the end",
        answer: |m| at_limit(m, Limit::Count, |_, f| f[0] = 0),
    },
    Wrong {
        name: "why, 256 is passed by the count",
        answer: |m| at_limit(m, Limit::Count, |a, f| f[1] = a.arg2),
    },
    Wrong {
        name: "why, 256 is passed by one less",
        answer: |m| at_limit(m, Limit::Count, |_, f| f[1] -= 1),
    },
    Wrong {
        name: "why, 256 is passed by 255 at most",
        answer: |m| at_limit(m, Limit::Count, |_, f| f[1] = f[1].min(255)),
    },
    Wrong {
        name: "why, 266 is the limit of an EXAMINE",
        answer: |m| at_limit(m, Limit::Count, |_, f| f[1] = f[1].saturating_sub(10)),
    },
    // BREAK's last address
    Wrong {
        name: "why, BREAK's last address is the end",
        answer: |m| at_limit(m, Limit::Last, |_, f| f[0] = 0),
    },
    Wrong {
        name: "why, BREAK past the size is the end",
        answer: |m| {
            at_limit(m, Limit::Last, |a, f| {
                if a.arg1 >= a.size() {
                    *f = [0, a.arg1 + 2 - a.size()];
                }
            })
        },
    },
    Wrong {
        name: "why, BREAK's last address is off by two",
        answer: |m| at_limit(m, Limit::Last, |_, f| f[1] = f[1].saturating_sub(2)),
    },
    Wrong {
        name: "why, BREAK's last address is off by one",
        answer: |m| at_limit(m, Limit::Last, |_, f| f[1] = f[1].saturating_sub(1)),
    },
    Wrong {
        name: "why, BREAK's last address is 4,094",
        answer: |m| at_limit(m, Limit::Last, |a, f| f[1] = a.arg1.saturating_sub(4094)),
    },
    Wrong {
        name: "why, BREAK odd and past the last is only odd",
        answer: |m| at_limit(m, Limit::Last, |a, f| f[1] *= 1 - a.arg1 % 2),
    },
    Wrong {
        name: "why, BREAK only odd is passed by 1",
        answer: |m| at_limit(m, Limit::Last, |_, f| f[1] = f[1].max(1)),
    },
    Wrong {
        name: "why, BREAK only odd is the end",
        answer: |m| at_limit(m, Limit::Last, |_, f| f[0] = if f[1] == 0 { 0 } else { f[0] }),
    },
    Wrong {
        name: "why, BREAK's count is added to its address",
        answer: |m| {
            at_limit(m, Limit::Last, |a, f| f[1] = if f[1] == 0 { 0 } else { f[1] + a.arg2 })
        },
    },
    Wrong {
        name: "why, BREAK's last address is passed by words",
        answer: |m| at_limit(m, Limit::Last, |_, f| f[1] = f[1].div_ceil(2)),
    },
    Wrong {
        name: "why, the last by 4,321 is by 4,322",
        answer: |m| one_more(m, Limit::Last, 4321),
    },
    // all of them
    Wrong { name: "why, limits count from 1", answer: |m| facts_of(m, OUTSIDE, |_, f| f[0] += 1) },
    Wrong { name: "why, no excess is told", answer: |m| facts_of(m, OUTSIDE, |_, f| f[1] = 0) },
    Wrong {
        name: "why, the limit itself is told, and not which",
        answer: |m| {
            facts_of(m, OUTSIDE, |a, f| f[0] = [a.size(), 256, a.size() - 2][f[0] as usize % 3])
        },
    },
    Wrong {
        name: "why, the watcher is told no excess",
        answer: |m| {
            facts_of(m, OUTSIDE, |a, f| f[1] = if a.host == a.watcher() { 0 } else { f[1] })
        },
    },
];

/// Changes the facts of a 10 that names this limit.
fn at_limit(made: Made, limit: Limit, change: impl Fn(&Asked, &mut [u64; FACTS])) -> i64 {
    facts_of(made, OUTSIDE, |asked, facts| {
        if facts[0] == limit as u64 {
            change(asked, facts);
        }
    })
}

/// One excess over this limit is told as one more.
fn one_more(made: Made, limit: Limit, excess: u64) -> i64 {
    at_limit(made, limit, |_, f| f[1] += u64::from(f[1] == excess))
}

//! Wrong libraries that go wrong by what an owed answer says, by the two lengths of a
//! report, and by what is owed in a state.

use crate::lined::rewritten;
use crate::made::Made;
use crate::wrong::Wrong;
use crate::wrong_layout::unsound_too;
use crate::wrong_owed::reported;
use model::*;

/// Each is the model's answer, but for one error.
pub const WRONG_ANSWERS: &[Wrong] = &[
    // what it says
    Wrong {
        name: "HALT is answered with 127",
        answer: |made| told(made, |w| if w == 0 { 127 } else { w }),
    },
    Wrong {
        name: "HALT is answered with 0x57f",
        answer: |made| told(made, |w| if w == 0 { 0x57f } else { w }),
    },
    Wrong {
        name: "the signals of BPT and TRAP are exchanged",
        answer: |made| {
            told(made, |w| match w {
                0x57f => 0x47f,
                0x47f => 0x57f,
                _ => w,
            })
        },
    },
    Wrong {
        name: "the signal stands in the low byte",
        answer: |made| told(made, |w| w.swap_bytes() >> 16),
    },
    Wrong { name: "the signal alone is answered", answer: |made| told(made, |w| w >> 8) },
    Wrong {
        name: "TTRAP has the signal of TRAP",
        answer: |made| match &made {
            Made::Report { numbers: [_, 3, _], .. } => told(made, |_| 0x47f),
            _ => told(made, |w| w),
        },
    },
    Wrong {
        name: "an s is answered as c",
        answer: |made| match &made {
            Made::Report { .. } => rewritten(made, |w| w.request = b'c'),
            _ => rewritten(made, |_| ()),
        },
    },
    Wrong {
        name: "process 7 answers as process 0",
        answer: |made| match &made {
            Made::Report { .. } => rewritten(made, |w| w.pid %= 7),
            _ => rewritten(made, |_| ()),
        },
    },
    Wrong {
        name: "an owed answer has the flag 0xffffffff",
        answer: |made| match &made {
            Made::Report { .. } => rewritten(made, |w| w.flag = u32::MAX),
            _ => rewritten(made, |_| ()),
        },
    },
    // both lengths
    Wrong {
        name: "the lengths of notice and line are exchanged",
        answer: |mut made| {
            let answer = made.right();
            match made {
                Made::Report { .. } if answer > 0 => {
                    (256 * notice_length(answer) + answered_length(answer)) as i64
                }
                _ => answer,
            }
        },
    },
    Wrong {
        name: "the length of the line is not told",
        answer: |mut made| {
            let answer = made.right();
            match made {
                Made::Report { .. } if answer > 0 => notice_length(answer) as i64,
                _ => answer,
            }
        },
    },
    Wrong {
        name: "no notice goes out beside a line",
        answer: |mut made| {
            let before = match &made {
                Made::Report { notice, .. } => notice.to_vec(),
                _ => Vec::new(),
            };
            let answer = made.right();
            match made {
                Made::Report { notice, .. } if answer > 255 => {
                    notice.copy_from_slice(&before);
                    answer - 28
                }
                _ => answer,
            }
        },
    },
    Wrong {
        name: "a report without an owed answer writes into the line buffer",
        answer: |mut made| {
            let answer = made.right();
            if let (Made::Report { line, .. }, 0..=255) = (made, answer) {
                line[0] = 0;
            }
            answer
        },
    },
    Wrong {
        name: "a byte past the answered line is touched",
        answer: |mut made| {
            let answer = made.right();
            if let (Made::Report { line, .. }, 256..) = (made, answer) {
                line[answered_length(answer)] ^= 1;
            }
            answer
        },
    },
    Wrong {
        name: "a report asks no line buffer",
        answer: |mut made| match &mut made {
            Made::Report { state, memory, numbers: [p, k, r], words, notice, line }
                if line.len() < LONGEST_LINE =>
            {
                report_bytes(state, memory, *p, *k, *r, words, notice, &mut [0; LONGEST_LINE])
            }
            made => made.right(),
        },
    },
    Wrong {
        name: "a report asks a line buffer where an answer is owed alone",
        answer: |mut made| {
            let owes = reported(&mut made).is_some_and(|(_, _, old)| old.owed != Owed::Nothing);
            match &mut made {
                Made::Report { state, memory, numbers: [p, k, r], words, notice, line }
                    if line.len() < LONGEST_LINE && !owes =>
                {
                    report_bytes(state, memory, *p, *k, *r, words, notice, &mut [0; LONGEST_LINE])
                }
                made => made.right(),
            }
        },
    },
    Wrong {
        name: "a report asks 36 bytes of line buffer",
        answer: |mut made| match &made {
            Made::Report { line, .. } if line.len() < 36 => -1,
            _ => made.right(),
        },
    },
    // soundness, and the bytes of a state
    Wrong {
        name: "an answer owed to another host is sound",
        answer: |made| sound_too(made, |p| p.host != NOBODY),
    },
    Wrong {
        name: "an answer owed to nobody is sound",
        answer: |made| sound_too(made, |p| p.host == NOBODY && p.there),
    },
    Wrong {
        name: "an answer owed by an absent process is sound",
        answer: |made| sound_too(made, |p| !p.there),
    },
    Wrong {
        name: "an owed s is sound with any host",
        answer: |made| sound_too(made, |p| p.owed == Owed::Step),
    },
    Wrong {
        name: "an owed answer is not sound while stopped",
        answer: |made| any_unsound(made, |p| p.owed != Owed::Nothing && p.run == Run::Stopped),
    },
    Wrong {
        name: "an owed answer is not sound when ended",
        answer: |made| any_unsound(made, |p| p.owed != Owed::Nothing && p.run == Run::Ended),
    },
    Wrong {
        name: "an owed s is not sound while running",
        answer: |made| any_unsound(made, |p| p.owed == Owed::Step && p.run == Run::Running),
    },
    Wrong { name: "owed 3 is taken for 2", answer: |made| formed(made, |byte| byte == 3, 2) },
    Wrong { name: "owed over 2 is taken for 0", answer: |made| formed(made, |byte| byte > 2, 0) },
    Wrong {
        name: "the letter is kept in the state",
        answer: |mut made| {
            let answer = made.right();
            if let (Made::Line { state, .. }, 0) = (made, answer) {
                let records = state[..BEGINS_AT].chunks_exact_mut(RECORD_BYTES);
                records.filter(|r| r[OWED_AT] == 1).for_each(|r| r[OWED_AT] = b'c');
            }
            answer
        },
    },
    Wrong {
        name: "a fresh start leaves what is owed",
        answer: |mut made| {
            let before = match &made {
                Made::Start { state, .. } => state.to_vec(),
                _ => Vec::new(),
            };
            let answer = made.right();
            if let (Made::Start { state, .. }, 0) = (made, answer) {
                for at in (0..PROCESSES).map(|p| RECORD_BYTES * p + OWED_AT) {
                    state[at] = before[at];
                }
            }
            answer
        },
    },
];

/// Another response in the line that a report answers.
fn told(mut made: Made, change: impl Fn(u32) -> u32) -> i64 {
    match made {
        Made::Report { .. } => rewritten(made, |w| w.response = change(w.response)),
        _ => made.right(),
    }
}

/// An answer that takes such a process that wrongly owes for sound: the model's as if it
/// owed nothing, of which nothing is written.
fn sound_too(mut made: Made, test: impl Fn(&Process) -> bool) -> i64 {
    let Some(mut records) = made.records() else { return made.right() };
    let wrong = |p: &&mut Process| p.owed != Owed::Nothing && p.host != TEXT_HOST && test(p);
    if records.processes.iter_mut().filter(wrong).map(|p| p.owed = Owed::Nothing).count() == 0 {
        return made.right();
    }
    made.on_other(&records)
}

/// An answer that takes a sound state with such a process for one that is not.
fn any_unsound(made: Made, test: impl Fn(&Process) -> bool) -> i64 {
    unsound_too(made, |state| state.processes.iter().any(&test))
}

/// An answer that takes such a byte of what is owed for another.
fn formed(mut made: Made, test: impl Fn(u8) -> bool, instead: u8) -> i64 {
    let state = match &made {
        Made::Request { state, .. } | Made::Report { state, .. } | Made::Line { state, .. } => {
            state
        }
        _ => return made.right(),
    };
    let mut bytes = state.to_vec();
    let owed = bytes.chunks_exact_mut(RECORD_BYTES).take(PROCESSES).map(|r| &mut r[OWED_AT]);
    owed.filter(|byte| test(**byte)).for_each(|byte| *byte = instead);
    match decode(&bytes) {
        Some(records) if bytes != *state => made.on_other(&records),
        _ => made.right(),
    }
}

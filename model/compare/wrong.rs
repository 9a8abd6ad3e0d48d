//! Wrong libraries: the model with one error each. The comparison has to see every
//! one of them.

use crate::made::{lengths, Made};
use crate::run::Comparison;
use crate::wrong_abandon::WRONG_ABANDON;
use crate::wrong_answers::WRONG_ANSWERS;
use crate::wrong_asking::WRONG_ASKING;
use crate::wrong_blocks::WRONG_BLOCKS;
use crate::wrong_create::WRONG_CREATE;
use crate::wrong_end_watch::WRONG_END_WATCH;
use crate::wrong_go::WRONG_GO;
use crate::wrong_go_sound::WRONG_GO_SOUND;
use crate::wrong_going::WRONG_GOING;
use crate::wrong_layout::WRONG_LAYOUT;
use crate::wrong_limits::WRONG_LIMITS;
use crate::wrong_lines::WRONG_LINES;
use crate::wrong_numbers::WRONG_NUMBERS;
use crate::wrong_owed::WRONG_OWED;
use crate::wrong_packets::WRONG_PACKETS;
use crate::wrong_passing::WRONG_PASSING;
use crate::wrong_setters::WRONG_SETTERS;
use crate::wrong_sizes::WRONG_SIZES;
use crate::wrong_status::WRONG_STATUS;
use crate::wrong_status_desk::WRONG_STATUS_DESK;
use crate::wrong_tests::WRONG_TESTS;
use crate::wrong_text::WRONG_TEXT;
use crate::wrong_ticks::WRONG_TICKS;
use crate::wrong_told::WRONG_TOLD;
use crate::wrong_watches::WRONG_WATCHES;
use crate::wrong_why::WRONG_WHY;
use crate::wrong_words::WRONG_WORDS;
use model::*;
use std::sync::atomic::{AtomicUsize, Ordering};

/// A right answer, on a memory or an output buffer that has the right length.
fn with_lengths(made: Made, memory_length: usize, output_length: usize) -> i64 {
    let lend = |memory: &[u8], output: &[u8]| {
        let (mut memory, mut output) = (memory.to_vec(), output.to_vec());
        memory.resize(memory_length, 0);
        output.resize(output_length, 0);
        (memory, output)
    };
    match made {
        Made::Request { state, memory, message, reply } => {
            let (mut m, mut o) = lend(memory, reply);
            request_bytes(state, &mut m, message, &mut o)
        }
        Made::Report { state, memory, numbers: [p, k, r], words, notice, line } => {
            let (mut m, mut o) = lend(memory, notice);
            report_bytes(state, &mut m, p, k, r, words, &mut o, line)
        }
        mut made => made.right(),
    }
}

pub struct Wrong {
    pub name: &'static str,
    pub answer: fn(Made) -> i64,
}

/// Every wrong library.
fn every() -> impl Iterator<Item = &'static Wrong> {
    let lines = WRONG_TEXT.iter().chain(WRONG_LINES).chain(WRONG_GOING);
    let lines = lines.chain(WRONG_OWED).chain(WRONG_ANSWERS);
    let layout = WRONG_LAYOUT.iter().chain(WRONG_CREATE);
    let watches =
        WRONG_WATCHES.iter().chain(WRONG_END_WATCH).chain(WRONG_SETTERS).chain(WRONG_TOLD);
    let status = WRONG_NUMBERS.iter().chain(WRONG_STATUS).chain(WRONG_STATUS_DESK);
    let packets = WRONG_PACKETS.iter().chain(WRONG_WORDS).chain(WRONG_BLOCKS);
    let goes = WRONG_GO.iter().chain(WRONG_ABANDON).chain(WRONG_TICKS).chain(WRONG_GO_SOUND);
    let whys = WRONG_WHY.iter().chain(WRONG_LIMITS).chain(WRONG_TESTS).chain(WRONG_ASKING);
    let later = lines.chain(watches).chain(status).chain(packets).chain(goes).chain(whys);
    WRONG.iter().chain(WRONG_SIZES).chain(layout).chain(WRONG_PASSING).chain(later)
}

/// Each is the model's answer, but for one error.
const WRONG: &[Wrong] = &[
    Wrong { name: "no right for HOST 200", answer: no_right_for_200 },
    Wrong { name: "no notice to HOST 77", answer: no_notice_to_77 },
    Wrong {
        name: "kind 6 is accepted as BPT",
        answer: |made| match made {
            Made::Report { numbers: [_, 6, _], .. } => made.changed(|_, n| n[1] = 2),
            mut made => made.right(),
        },
    },
    Wrong {
        name: "LINK 253 is accepted",
        answer: |mut made| match made.byte(2) {
            Some(253) => made.changed(|m, _| m[2] = 255),
            _ => made.right(),
        },
    },
    Wrong {
        name: "TYPE 2 is accepted",
        answer: |mut made| match made.byte(0) {
            Some(2) => made.changed(|m, _| m[0] = 0),
            _ => made.right(),
        },
    },
    Wrong {
        name: "CMD 200 is refused with 6",
        answer: |mut made| match made.byte(4) {
            Some(200) => made.instead(-5, -6),
            _ => made.right(),
        },
    },
    Wrong {
        name: "EXAMINE of 300 is refused with 6",
        answer: |mut made| match (made.byte(4), made.word(8)) {
            (Some(EXAMINE), Some(300)) => made.instead(-10, -6),
            _ => made.right(),
        },
    },
    Wrong {
        name: "the reason 512 of a TRAP is lost",
        answer: |made| match made {
            Made::Report { numbers: [_, 0, 512], .. } => made.changed(|_, n| n[2] = 0),
            mut made => made.right(),
        },
    },
    Wrong {
        name: "memory of 40,000 bytes is accepted",
        answer: |mut made| match lengths(&made) {
            Some((40_000, output)) => with_lengths(made, MEMORY, output),
            _ => made.right(),
        },
    },
    Wrong {
        name: "an output buffer of 200 bytes is accepted",
        answer: |mut made| match lengths(&made) {
            Some((memory, 200)) => with_lengths(made, memory, LONGEST),
            _ => made.right(),
        },
    },
    Wrong {
        name: "an output buffer over 700 bytes is refused",
        answer: |mut made| match lengths(&made) {
            Some((_, 701..)) => -1,
            _ => made.right(),
        },
    },
    Wrong { name: "process 258 is taken for 2", answer: |made| made.changed(|_, n| n[0] %= 256) },
    Wrong { name: "kind 257 is taken for 1", answer: |made| made.changed(|_, n| n[1] %= 256) },
    Wrong {
        name: "a reason is cut to 16 bits",
        answer: |made| made.changed(|_, n| n[2] %= 65_536),
    },
    Wrong {
        name: "a process is cut to 32 bits",
        answer: |made| made.changed(|_, n| n[0] &= 0xffff_ffff),
    },
    Wrong {
        name: "a fresh start passes over bits above the eighth",
        answer: |mut made| match &mut made {
            Made::Start { there, sizes, door, state } => {
                fresh_start_bytes(*there % 256, sizes, *door, state)
            }
            made => made.right(),
        },
    },
    Wrong {
        name: "the desk writes HOST 300 as 44",
        answer: |made| written(made, |fields| fields[0] %= 256),
    },
    Wrong {
        name: "the desk cuts PID to a byte",
        answer: |made| written(made, |fields| fields[2] %= 256),
    },
    Wrong {
        name: "the desk cuts ARG1 to a word",
        answer: |made| written(made, |fields| fields[3] %= 65_536),
    },
    Wrong {
        name: "the desk writes ARG2 201 as 200",
        answer: |made| {
            written(made, |fields| fields[4] = if fields[4] == 201 { 200 } else { fields[4] })
        },
    },
    Wrong {
        name: "the desk reads CMD 128",
        answer: |mut made| match made {
            Made::Read { message, fields } if message.get(4) == Some(&128) => {
                let mut message = message.to_vec();
                message[4] = 0;
                read_answer(&message, fields)
            }
            _ => made.right(),
        },
    },
    Wrong {
        name: "the desk reads a CAN'T CREATE with a PID",
        answer: |mut made| match made {
            Made::Read { message, fields } if message.get(4) == Some(&140) => {
                let mut message = message.to_vec();
                message.iter_mut().skip(5).take(1).for_each(|pid| *pid = 0);
                read_answer(&message, fields)
            }
            _ => made.right(),
        },
    },
    Wrong {
        name: "the desk loses the high byte of ARG1 500",
        answer: |mut made| {
            let answer = made.right();
            if let Made::Read { fields, .. } = made {
                if answer >= 0 && fields[3] == 500 {
                    fields[3] = 244;
                }
            }
            answer
        },
    },
    Wrong {
        name: "the desk reads into four fields",
        answer: |mut made| match &mut made {
            Made::Read { message, fields } if fields.len() == 4 => {
                let mut five = [0; FIELDS];
                let answer = read_answer(message, &mut five);
                if answer >= 0 {
                    fields.copy_from_slice(&five[..4]);
                }
                answer
            }
            made => made.right(),
        },
    },
    Wrong {
        name: "a reply buffer at an address with the remainder 5 by 8 is left",
        answer: |mut made| {
            let before = match &made {
                Made::Request { reply, .. } => reply.to_vec(),
                _ => Vec::new(),
            };
            let answer = made.right();
            if let Made::Request { reply, .. } = made {
                if reply.as_ptr() as usize % 8 == 5 {
                    reply.copy_from_slice(&before);
                }
            }
            answer
        },
    },
    Wrong {
        name: "the byte after the reply buffer is written",
        answer: |mut made| {
            let answer = made.right();
            if let Made::Request { reply, .. } = made {
                // the guard bytes follow the buffer
                unsafe { *reply.as_mut_ptr().add(reply.len()) = 0 };
            }
            answer
        },
    },
    Wrong {
        name: "a byte past the notice is touched",
        answer: |mut made| {
            let answer = made.right();
            if let Made::Report { notice, .. } = made {
                if answer > 0 {
                    notice[notice_length(answer)] ^= 1;
                }
            }
            answer
        },
    },
    Wrong {
        name: "a report that is refused with 9 stores its words",
        answer: |mut made| {
            let answer = made.right();
            if let Made::Report { state, numbers: [p, ..], words, .. } = made {
                if answer == -9 {
                    let at = RECORD_BYTES * p as usize + VECTOR_AT;
                    state[at..at + VECTOR].copy_from_slice(words);
                }
            }
            answer
        },
    },
];

/// A request of host 200 to a process is refused as a stranger's.
fn no_right_for_200(mut made: Made) -> i64 {
    let named = !matches!(made.byte(4), Some(NOP | CREATE_PROCESS));
    if made.byte(1) != Some(200) || !named {
        return made.right();
    }
    let Made::Request { state, memory, message, reply } = made else { return 0 };
    let answer = request_bytes(&mut state.to_vec(), &mut memory.to_vec(), message, reply);
    if answer < 0 {
        return answer;
    }
    reply[4] += 128;
    -8
}

fn no_notice_to_77(mut made: Made) -> i64 {
    let Made::Report { notice, .. } = &made else { return made.right() };
    let before = notice.to_vec();
    let answer = made.right();
    let Made::Report { notice, .. } = made else { return answer };
    if answer <= 0 || notice[1] != 77 {
        return answer;
    }
    notice.copy_from_slice(&before);
    0
}

/// The model's answer to fields that were changed first.
fn written(made: Made, change: impl Fn(&mut [u64; FIELDS])) -> i64 {
    match made {
        Made::Write { mut fields, string, request } => {
            change(&mut fields);
            let [host, cmd, pid, arg1, arg2] = fields;
            write_request(host, cmd, pid, arg1, arg2, string, request)
        }
        mut made => made.right(),
    }
}

// ---------------------------------------------------------------- which one is at hand

/// The number of the wrong library that is at hand; with any other the stand-in is
/// right.
static AT_HAND: AtomicUsize = AtomicUsize::new(usize::MAX);

pub fn answer(mut made: Made) -> i64 {
    match every().nth(AT_HAND.load(Ordering::Relaxed)) {
        Some(wrong) => (wrong.answer)(made),
        None => made.right(),
    }
}

/// Compares each wrong library in whose name this stands with the model, by so many calls:
/// whether each was seen.
pub fn all_seen(limit: u64, seed: u64, part: &str) -> bool {
    let (mut seen, mut tried) = (0, 0);
    for (i, wrong) in every().enumerate().filter(|(_, wrong)| wrong.name.contains(part)) {
        tried += 1;
        AT_HAND.store(i, Ordering::Relaxed);
        let mut comparison = Comparison::new(seed, false);
        match comparison.run(limit) {
            Err(_) => {
                seen += 1;
                println!("{:>8}  {}", comparison.calls, wrong.name);
            }
            Ok(()) => println!("NOT SEEN  {}", wrong.name),
        }
    }
    println!("{seen} of {tried} wrong libraries seen, each at the call named");
    seen == tried
}

//! Wrong libraries that take another number of facts from one who asks why, answer by another
//! number than that of the test, or change something.

use crate::made::Made;
use crate::told_why::told;
use crate::wrong::Wrong;
use model::*;

/// Each is the model's answer, but for one error.
pub const WRONG_ASKING: &[Wrong] = &[
    // how many facts are lent
    Wrong { name: "why, one fact is enough", answer: |m| accepted(m, |lent| lent == 1) },
    Wrong { name: "why, three facts are accepted", answer: |m| accepted(m, |lent| lent == 3) },
    Wrong { name: "why, more than two facts are accepted", answer: |m| accepted(m, |n| n > 2) },
    Wrong { name: "why, no fact has to be lent", answer: |m| accepted(m, |lent| lent == 0) },
    Wrong { name: "why, 1 clears the facts", answer: clears },
    // the answer itself, and what may not change
    Wrong {
        name: "why, granted is 10",
        answer: |m| told(m, |_, number, _| *number = if *number == 0 { -10 } else { *number }),
    },
    Wrong {
        name: "why, the number is positive",
        answer: |m| told(m, |_, number, _| *number = -*number),
    },
    Wrong { name: "why, the state is changed where it is granted", answer: obeys },
    Wrong { name: "why, the host is noted in the state", answer: |m| noted(m, 1) },
    Wrong { name: "why, the run state is changed", answer: |m| noted(m, 2) },
    Wrong { name: "why, the message becomes a CAN'T", answer: becomes_cant },
    Wrong { name: "why, the byte after the facts is written", answer: past_facts },
];

/// The model's answer where this number of facts is lent, as if two were.
fn accepted(mut made: Made, test: impl Fn(usize) -> bool) -> i64 {
    let Made::Why { state, message, facts } = &mut made else { return made.right() };
    if facts.len() == FACTS || !test(facts.len()) {
        return why_bytes(state, message, facts);
    }
    let mut two = [0; FACTS];
    let answer = why_bytes(state, message, &mut two);
    facts.iter_mut().zip(two).for_each(|(to, from)| *to = from);
    answer
}

fn clears(mut made: Made) -> i64 {
    let answer = made.right();
    if let (-1, Made::Why { facts, .. }) = (answer, made) {
        facts.fill(0);
    }
    answer
}

/// A request that would be granted is made.
fn obeys(mut made: Made) -> i64 {
    let answer = made.right();
    if let (0, Made::Why { state, message, .. }) = (answer, made) {
        request_bytes(state, &mut [0; MEMORY], message, &mut [0; LONGEST]);
    }
    answer
}

/// A byte of the named process is changed where it is refused with 8.
fn noted(mut made: Made, at: usize) -> i64 {
    let answer = made.right();
    if let (-8, Made::Why { state, message, .. }) = (answer, made) {
        state[RECORD_BYTES * usize::from(message[5]) + at] ^= 1;
    }
    answer
}

fn becomes_cant(mut made: Made) -> i64 {
    let answer = made.right();
    if let (-16..=-7, Made::Why { message, .. }) = (answer, made) {
        message[4] += 128;
    }
    answer
}

fn past_facts(mut made: Made) -> i64 {
    let answer = made.right();
    if let (-16..=-2, Made::Why { facts, .. }) = (answer, made) {
        // the guard bytes follow the buffer
        unsafe { *facts.as_mut_ptr().add(facts.len()).cast::<u8>() = 0 };
    }
    answer
}

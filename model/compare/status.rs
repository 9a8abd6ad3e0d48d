//! What K6 says of every call: the number of breakpoints that each record keeps, and what
//! STATUS answers. It looks at the bytes alone. The fuzzer uses this too.

use crate::sides::{Call, Side};
use model::*;

/// The record of a process in a state's bytes.
fn record(side: &Side, p: usize) -> Option<&[u8]> {
    side.state.bytes()[..BEGINS_AT].chunks_exact(RECORD_BYTES).nth(p)
}

/// How many entries of a record somebody set.
fn count(record: &[u8]) -> usize {
    record[ENTRIES_AT..].chunks_exact(ENTRY_BYTES).filter(|entry| entry[1] != NOBODY).count()
}

/// Makes the number of breakpoints of every process true, in a state's bytes.
pub fn count_again(state: &mut [u8]) {
    for record in state[..BEGINS_AT].chunks_exact_mut(RECORD_BYTES) {
        record[SET_AT] = count(record) as u8;
    }
}

/// "Each process record keeps its number of breakpoints, true after every operation", should
/// both sides break it in a granted call.
pub fn broken_numbers(call: &Call, after: &Side) -> Option<&'static str> {
    if matches!(call, Call::Write { .. } | Call::Read { .. }) {
        return None;
    }
    let right = |record: &[u8]| usize::from(record[SET_AT]) == count(record);
    let all = (0..PROCESSES).all(|p| record(after, p).is_some_and(right));
    (!all).then_some("both: a number of breakpoints is not true after a granted call")
}

/// "op 16 STATUS (process) answers it in ARG1, the run state in ARG2"; "Debugging host or
/// watcher only. A CAN'T has zeros." Should both sides break it.
pub fn broken_status(
    call: &Call,
    answer: i64,
    before: &Side,
    after: &Side,
) -> Option<&'static str> {
    let message = match call {
        Call::Request { message } if message.len() == HEAD && message[4] == STATUS => message,
        _ => return None,
    };
    let mut expected: Vec<u8> = message[..6].to_vec();
    match answer {
        0.. => {
            let record = record(before, message[5].into())?;
            if ![record[1], record[WATCHER_AT]].contains(&message[1]) {
                return Some("both: STATUS is granted to a stranger");
            }
            if before.state != after.state || before.memory != after.memory {
                return Some("both: STATUS changes the state or the memory");
            }
            expected.extend([0, count(record) as u8, 0, record[2]]);
        }
        -16..=-7 => {
            expected[4] = STATUS + 128;
            expected.extend([0; 4]);
        }
        _ => return None,
    }
    (after.output.bytes()[..HEAD] != expected[..]).then_some("both: STATUS is answered wrongly")
}

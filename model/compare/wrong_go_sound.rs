//! Wrong libraries that go wrong by what is sound of K1's Go, and of the door.

use crate::made::Made;
use crate::wrong::Wrong;
use crate::wrong_go::NO_GO;
use model::*;

/// Each is the model's answer, but for one error.
pub const WRONG_GO_SOUND: &[Wrong] = &[
    // what is sound
    Wrong {
        name: "a Go with 100 ticks is sound",
        answer: |made| as_sound(made, |p| p.go.ticks = p.go.ticks.min(99), |p| p.go.ticks == 100),
    },
    Wrong {
        name: "a Go with any number of ticks is sound",
        answer: |made| as_sound(made, |p| p.go.ticks = p.go.ticks.min(99), |p| p.go.ticks > 99),
    },
    Wrong {
        name: "a Go with 99 ticks is not sound",
        answer: |made| unsound(made, |p| p.go.waits && p.go.ticks == 99),
    },
    Wrong {
        name: "a Go of host 253 is sound",
        answer: |made| as_sound(made, |p| p.go = NO_GO, |p| p.host == 253 && p.go.ticks < 100),
    },
    Wrong {
        name: "a Go is sound where host 254 watches",
        answer: |made| as_sound(made, |p| p.go = NO_GO, |p| p.watcher == 254 && p.go.ticks < 100),
    },
    Wrong {
        name: "a Go of a process that nobody debugs is sound",
        answer: |made| {
            as_sound(made, |p| p.go = NO_GO, |p| p.there && p.host == NOBODY && p.go.ticks < 100)
        },
    },
    Wrong {
        name: "a Go of an absent process is sound",
        answer: |made| as_sound(made, |p| p.go = NO_GO, |p| !p.there && p.go.ticks < 100),
    },
    Wrong {
        name: "ticks over 99 that are left of a Go are not sound",
        answer: |made| unsound(made, |p| !p.go.waits && p.go.ticks > 99),
    },
    Wrong {
        name: "an ID that is left of a Go is not sound",
        answer: |made| unsound(made, |p| !p.go.waits && p.go.id != 0),
    },
    Wrong {
        name: "a Go that waits away from the door is not sound",
        answer: |mut made| match made.records().filter(sound) {
            Some(state) => {
                let door = usize::from(state.door);
                let away = (0..PROCESSES).any(|p| p != door && state.processes[p].go.waits);
                if away && !wrong_lengths(&made) {
                    -2
                } else {
                    made.right()
                }
            }
            None => made.right(),
        },
    },
    Wrong {
        name: "2 says that a Go waits",
        answer: |mut made| match made.state() {
            Some(state) if state.len() == STATE_BYTES => {
                for p in 0..PROCESSES {
                    let byte = &mut state[RECORD_BYTES * p + GO_WAITS_AT];
                    *byte = if *byte == 2 { 1 } else { *byte };
                }
                made.right()
            }
            _ => made.right(),
        },
    },
    Wrong {
        name: "a door over 7 is not sound",
        answer: |mut made| match made.records().filter(sound) {
            Some(state) if state.door > 7 && !wrong_lengths(&made) => -2,
            _ => made.right(),
        },
    },
];

/// The model's answer to a call on a state that is not sound, where it is after such processes
/// are changed.
fn as_sound(mut made: Made, mend: impl Fn(&mut Process), test: impl Fn(&Process) -> bool) -> i64 {
    let Some(old) = made.records().filter(|state| !sound(state)) else { return made.right() };
    let mut mended = old.clone();
    mended.processes.iter_mut().filter(|p| p.go.waits && test(p)).for_each(mend);
    if !sound(&mended) {
        return made.right();
    }
    made.put(&mended);
    let answer = made.right();
    if answer < 0 {
        made.put(&old);
    }
    answer
}

/// Whether a call is one that test 1 refuses.
fn wrong_lengths(made: &Made) -> bool {
    match made {
        Made::Request { memory, reply, .. } => memory.len() != MEMORY || reply.len() < LONGEST,
        Made::Report { memory, words, notice, line, .. } => {
            let short = notice.len() < LONGEST || line.len() < LONGEST_LINE;
            memory.len() != MEMORY || words.len() != VECTOR || short
        }
        Made::Line { memory, line, .. } => memory.len() != MEMORY || line.len() < LONGEST_LINE,
        Made::Packet { memory, ack, .. } => memory.len() != MEMORY || ack.len() < ACK_WORDS,
        _ => false,
    }
}

/// A state with such a process is refused with 2.
fn unsound(mut made: Made, test: impl Fn(&Process) -> bool) -> i64 {
    let found = made.records().is_some_and(|state| state.processes.iter().any(test));
    if found && !wrong_lengths(&made) {
        return -2;
    }
    made.right()
}

//! Wrong libraries that go wrong by the size of a process.

use crate::made::{lengths, Made};
use crate::wrong::Wrong;
use model::*;

/// Each is the model's answer, but for one error.
pub const WRONG_SIZES: &[Wrong] = &[
    Wrong {
        name: "a range is held against 4,096",
        answer: |mut made| match made.byte(4) {
            Some(EXAMINE | DEPOSIT) => in_a_named(made, |_| LARGEST),
            _ => made.right(),
        },
    },
    Wrong {
        name: "an EXAMINE of 0 at the size is refused",
        answer: |mut made| match (made.byte(4), made.word(6), made.word(8)) {
            (Some(EXAMINE), first, Some(0)) if first == named_size(&mut made) => {
                made.instead(10, -10)
            }
            _ => made.right(),
        },
    },
    Wrong {
        name: "a stranger past the size is refused with 10",
        answer: |mut made| match (made.byte(4), made.word(6), named_size(&mut made)) {
            (Some(EXAMINE), Some(first), Some(size)) if first >= size => made.instead(-8, -10),
            _ => made.right(),
        },
    },
    Wrong {
        name: "BREAK is held against 4,094",
        answer: |mut made| match made.byte(4) {
            Some(BREAK) => in_a_named(made, |_| LARGEST),
            _ => made.right(),
        },
    },
    Wrong {
        name: "BREAK at the size is accepted",
        answer: |mut made| match (made.byte(4), made.word(6)) {
            (Some(BREAK), Some(address)) => {
                let more = |p: &Process| if p.size == address { 2 } else { 0 };
                in_a_named(made, |p| (p.size + more(p)).min(LARGEST))
            }
            _ => made.right(),
        },
    },
    Wrong {
        name: "UNBREAK past the size is refused with 10",
        answer: |mut made| match (made.byte(4), made.word(6), named_size(&mut made)) {
            (Some(UNBREAK), Some(address), Some(size)) if address >= size => made.instead(-12, -10),
            _ => made.right(),
        },
    },
    Wrong {
        name: "an odd size is sound",
        answer: |made| {
            resized(made, |p| if p.size < LARGEST { p.size + p.size % 2 } else { p.size })
        },
    },
    Wrong {
        name: "size 0 is sound",
        answer: |made| resized(made, |p| if p.size == 0 { SMALLEST } else { p.size }),
    },
    Wrong {
        name: "a size over 4,096 is sound",
        answer: |made| resized(made, |p| p.size.min(LARGEST)),
    },
    Wrong {
        name: "any size of an absent process is sound",
        answer: |made| resized(made, |p| if p.there { p.size } else { LARGEST }),
    },
    Wrong {
        name: "a breakpoint past the size is sound",
        answer: |made| {
            resized(made, |p| if right_size(p.size) { past_breakpoints(p) } else { p.size })
        },
    },
    Wrong {
        name: "another size than 4,096 of an absent process is not sound",
        answer: |mut made| {
            let small = |p: &Process| !p.there && p.size != LARGEST;
            let unsound = made.records().is_some_and(|records| records.processes.iter().any(small));
            match (&made, lengths(&made)) {
                (Made::Request { .. }, Some((MEMORY, LONGEST..))) if unsound => -2,
                _ => made.right(),
            }
        },
    },
    Wrong {
        name: "CREATE keeps the old size",
        answer: |made| {
            granted(made, |before, after| {
                for (new, old) in after.processes.iter_mut().zip(&before.processes) {
                    if new.there && !old.there {
                        new.size = old.size;
                    }
                }
            })
        },
    },
    Wrong { name: "CREATE zeroes no more than the old size", answer: zeroes_the_old_size },
    Wrong {
        name: "DESTROY keeps the size",
        answer: |made| {
            granted(made, |before, after| {
                for (new, old) in after.processes.iter_mut().zip(&before.processes) {
                    if !new.there && old.there {
                        new.size = old.size;
                    }
                }
            })
        },
    },
    Wrong {
        name: "a fresh start tests sizes of absent processes",
        answer: |mut made| match has_size(&made, true, |size| !right_size(size)) {
            true => -2,
            false => made.right(),
        },
    },
    Wrong {
        name: "a fresh start keeps the size of an absent process",
        answer: |mut made| {
            let answer = made.right();
            if let Made::Start { sizes, state, .. } = made {
                let Some(mut records) = decode(state).filter(|_| answer == 0) else {
                    return answer;
                };
                for (process, &size) in records.processes.iter_mut().zip(sizes) {
                    process.size = if right_size(size) { size } else { process.size };
                }
                state.copy_from_slice(&encode(&records));
            }
            answer
        },
    },
    Wrong {
        name: "a fresh start passes over the sizes",
        answer: |mut made| match has_size(&made, false, |size| !right_size(size)) {
            true => made.right(),
            false => started(made, |_| LARGEST),
        },
    },
    Wrong {
        name: "a fresh start accepts an odd size",
        answer: |made| started(made, |size| if size < LARGEST { size & !1 } else { size }),
    },
    Wrong {
        name: "a fresh start takes size 0 for 4,096",
        answer: |made| started(made, |size| if size == 0 { LARGEST } else { size }),
    },
    Wrong {
        name: "a fresh start takes size 4,098 for 4,096",
        answer: |made| started(made, |size| if size == 4098 { LARGEST } else { size }),
    },
    Wrong {
        name: "a fresh start tests the bits above the eighth before the sizes",
        answer: |mut made| match &made {
            Made::Start { there, .. } if *there > 255 => made.instead(-2, -7),
            _ => made.right(),
        },
    },
    Wrong {
        name: "a fresh start takes nine sizes",
        answer: |mut made| match &mut made {
            Made::Start { there, sizes, door, state } if sizes.len() == 9 => {
                fresh_start_bytes(*there, &sizes[..8], *door, state)
            }
            made => made.right(),
        },
    },
    Wrong {
        name: "the size is kept with its high byte first",
        answer: |mut made| {
            let answer = made.right();
            if let Made::Start { state, .. } = made {
                if answer == 0 {
                    let records = state[..BEGINS_AT].chunks_exact_mut(RECORD_BYTES);
                    records.for_each(|record| record.swap(SIZE_AT, SIZE_AT + 1));
                }
            }
            answer
        },
    },
];

/// The size of the process that a request names.
fn named_size(made: &mut Made) -> Option<u16> {
    let process = usize::from(made.byte(5)?);
    Some(made.records()?.processes.get(process)?.size)
}

/// Past the old size the bytes stay as they were.
fn zeroes_the_old_size(mut made: Made) -> i64 {
    let (cmd, before) = (made.byte(4), made.records());
    let old = match &made {
        Made::Request { memory, .. } => memory.to_vec(),
        _ => Vec::new(),
    };
    let answer = made.right();
    let Made::Request { state, memory, reply, .. } = made else { return answer };
    if let (Some(CREATE_PROCESS), Some(before), 10) = (cmd, before, answer) {
        let p = usize::from(reply[5]);
        let place = decode(state).unwrap_or(NONE_THERE).processes[p].place();
        let kept = (place.start + usize::from(before.processes[p].size)).min(place.end)..place.end;
        memory[kept.clone()].copy_from_slice(&old[kept]);
    }
    answer
}

/// The size, or a larger one that has every breakpoint in it, if there is one.
fn past_breakpoints(process: &Process) -> u16 {
    let used = process.breakpoints.iter().filter(|b| b.used());
    let last = used.map(|b| b.address / 2 * 2).filter(|&address| address < LARGEST).max();
    last.map_or(process.size, |address| process.size.max(address + 2))
}

/// An answer that takes a size of the state for another: the model's answer to
/// the state with every such size in place of it, and the sizes put back after it.
fn resized(mut made: Made, change: impl Fn(&Process) -> u16) -> i64 {
    let Some(before) = made.records() else { return made.right() };
    let mut changed = before.clone();
    for process in &mut changed.processes {
        process.size = change(process);
    }
    made.put(&changed);
    let answer = made.right();
    let mut after = made.records().unwrap_or(before.clone());
    for (p, process) in after.processes.iter_mut().enumerate() {
        let old = &before.processes[p];
        // a record that was cleared or created has a size of its own
        if process.there == old.there {
            process.size = old.size;
        }
    }
    made.put(&after);
    answer
}

/// An answer to a request that takes the size of the process that it names for another:
/// what follows its bytes in memory is taken for its own, and after the memory's end zeros
/// are.
fn in_a_named(mut made: Made, change: impl Fn(&Process) -> u16) -> i64 {
    let p = usize::from(made.byte(5).unwrap_or(0)) % PROCESSES;
    let sound = made.records().filter(|old| sound(old) && old.processes[p].there);
    let Some(mut records) = sound.filter(|_| made.byte(5) < Some(8)) else { return made.right() };
    let Made::Request { state, memory, message, reply } = made else { return 0 };
    if memory.len() != MEMORY {
        return -1;
    }
    let Process { begin, size, .. } = records.processes[p];
    let mut alone = NONE_THERE;
    let resized = change(&records.processes[p]);
    alone.processes[p] = Process { begin: 0, size: resized, ..records.processes[p] };
    let (mut bytes, own) = (encode(&alone), &mut memory[begin.into()..]);
    let mut alone_memory = own.to_vec();
    alone_memory.resize(MEMORY, 0);
    let answer = request_bytes(&mut bytes, &mut alone_memory, message, reply);
    own.copy_from_slice(&alone_memory[..own.len()]);
    let after = decode(&bytes).unwrap_or(alone).processes[p];
    records.processes[p] = Process { begin, size, ..after };
    state.copy_from_slice(&encode(&records));
    answer
}

/// Whether a fresh start has such a size, of a process then there or of any.
fn has_size(made: &Made, any: bool, test: impl Fn(u16) -> bool) -> bool {
    let Made::Start { there, sizes, state, .. } = made else { return false };
    let meant = |p: usize| any || there >> p & 1 == 1;
    let lengths = sizes.len() == PROCESSES && state.len() == STATE_BYTES;
    lengths && sizes.iter().enumerate().any(|(p, &size)| meant(p) && test(size))
}

/// The model's answer to a fresh start with other sizes.
fn started(made: Made, change: impl Fn(u16) -> u16) -> i64 {
    match made {
        Made::Start { there, sizes, door, state } => {
            let sizes: Vec<u16> = sizes.iter().map(|&size| change(size)).collect();
            fresh_start_bytes(there, &sizes, door, state)
        }
        mut made => made.right(),
    }
}

/// The model's answer, after which the records are changed where it was granted; the
/// records before it are given too.
fn granted(mut made: Made, change: impl Fn(&State, &mut State)) -> i64 {
    let before = made.records();
    let answer = made.right();
    if let (0.., Some(before), Some(mut after)) = (answer, before, made.records()) {
        change(&before, &mut after);
        made.put(&after);
    }
    answer
}

//! Wrong libraries that go wrong by the size that CREATE asks for, at the gateway and at
//! the desk.

use crate::made::Made;
use crate::wrong::Wrong;
use crate::wrong_layout::{after, Change};
use model::*;

/// Each is the model's answer, but for one error.
pub const WRONG_CREATE: &[Wrong] = &[
    // test 6
    Wrong {
        name: "CREATE takes an odd size for the one below it",
        answer: |made| asked_for(made, |size| if size < 4096 { size & !1 } else { size }),
    },
    Wrong {
        name: "CREATE takes 4,098 for 4,096",
        answer: |made| asked_for(made, |size| if size == 4098 { 4096 } else { size }),
    },
    Wrong {
        name: "CREATE takes a size over 32,767 for 4,096",
        answer: |made| asked_for(made, |size| if size > 32_767 { 4096 } else { size }),
    },
    Wrong {
        name: "CREATE of a wrong size is refused with 10",
        answer: |mut made| match wrong_size_alone(&made) {
            true => made.instead(-6, -10),
            false => made.right(),
        },
    },
    Wrong {
        name: "CREATE of a wrong size with no number free is refused with 13",
        answer: |mut made| {
            let taken = made.records().is_some_and(|state| state.processes.iter().all(|p| p.there));
            match taken && wrong_size_alone(&made) {
                true => made.instead(-6, -13),
                false => made.right(),
            }
        },
    },
    // test 13
    Wrong {
        name: "13 by number alone",
        answer: |mut made| {
            let free = made.records().is_some_and(|state| state.processes.iter().any(|p| !p.there));
            match free && made.byte(4) == Some(CREATE_PROCESS) {
                true => made.instead(-13, 10),
                false => made.right(),
            }
        },
    },
    Wrong {
        name: "13 where the free bytes are just the size",
        answer: |made| no_room(made, |state, size| free_bytes(state) == size.into()),
    },
    Wrong {
        name: "13 where the free bytes are fewer than 4,096",
        answer: |made| no_room(made, |state, _| free_bytes(state) < 4096),
    },
    Wrong {
        name: "13 where absent records have taken the bytes",
        answer: |made| {
            no_room(made, |state, size| {
                let all: usize = state.processes.iter().map(|p| usize::from(p.size)).sum();
                all + usize::from(size) > MEMORY
            })
        },
    },
    // the reply
    Wrong {
        name: "CREATED has 4,096 where 0 was asked",
        answer: |mut made| {
            let answer = made.right();
            if let (Made::Request { message, reply, .. }, 10) = (made, answer) {
                if message[4] == CREATE_PROCESS && message[6..8] == [0, 0] {
                    reply[6..8].copy_from_slice(&LARGEST.to_be_bytes());
                }
            }
            answer
        },
    },
    Wrong {
        name: "CREATED has no size",
        answer: |mut made| {
            let answer = made.right();
            if let (Made::Request { message, reply, .. }, 10) = (made, answer) {
                if message[4] == CREATE_PROCESS {
                    reply[6..8].fill(0);
                }
            }
            answer
        },
    },
    Wrong {
        name: "CAN'T CREATE has no size",
        answer: |mut made| {
            let answer = made.right();
            if let (Made::Request { reply, .. }, -13) = (made, answer) {
                reply[6..8].fill(0);
            }
            answer
        },
    },
    // the new process
    Wrong {
        name: "CREATE of 0 has size 0",
        answer: |mut made| match made.word(6) {
            Some(0) => created(made, |c| {
                c.new.processes[c.p].size = 0;
                c.memory.copy_from_slice(c.old_memory);
            }),
            _ => made.right(),
        },
    },
    Wrong {
        name: "CREATE gives 4,096, whatever was asked",
        answer: |made| created(made, |c| c.new.processes[c.p].size = LARGEST),
    },
    Wrong {
        name: "CREATE puts it where its record begins",
        answer: |made| created(made, |c| c.new.processes[c.p].begin = c.old.processes[c.p].begin),
    },
    Wrong {
        name: "CREATE puts it at 4,096 x its number",
        answer: |made| created(made, |c| c.new.processes[c.p].begin = 4096 * c.p as u16),
    },
    Wrong {
        name: "CREATE puts it after the lower numbers",
        answer: |made| created(made, by_number),
    },
    Wrong {
        name: "CREATE gives absent records the end as their begin",
        answer: |made| {
            created(made, |c| {
                let end = used_bytes(c.new) as u16;
                let absent = c.new.processes.iter_mut().filter(|process| !process.there);
                absent.for_each(|process| process.begin = end);
            })
        },
    },
    // its bytes
    Wrong {
        name: "CREATE zeroes nothing",
        answer: |made| created(made, |c| c.memory.copy_from_slice(c.old_memory)),
    },
    Wrong {
        name: "CREATE zeroes 4,096 bytes",
        answer: |made| {
            created(made, |c| {
                let begin = c.new.processes[c.p].place().start;
                c.memory[begin..(begin + 4096).min(MEMORY)].fill(0);
            })
        },
    },
    Wrong {
        name: "CREATE zeroes to the end of memory",
        answer: |made| created(made, |c| c.memory[c.new.processes[c.p].place().start..].fill(0)),
    },
    Wrong {
        name: "CREATE zeroes all but the last two bytes",
        answer: |made| {
            created(made, |c| {
                let end = c.new.processes[c.p].place().end;
                c.memory[end - 2..end].copy_from_slice(&c.old_memory[end - 2..end]);
            })
        },
    },
    Wrong {
        name: "CREATE zeroes from 4,096 x its number on",
        answer: |made| {
            created(made, |c| {
                c.memory.copy_from_slice(c.old_memory);
                let begin = (4096 * c.p).min(MEMORY);
                let end = (begin + usize::from(c.new.processes[c.p].size)).min(MEMORY);
                c.memory[begin..end].fill(0);
            })
        },
    },
    // the desk
    Wrong {
        name: "the desk writes CREATE of an odd size",
        answer: |made| written(made, |size| if size < 4096 { size & !1 } else { size }),
    },
    Wrong {
        name: "the desk writes CREATE of 8,192",
        answer: |made| written(made, |size| if size == 8192 { 4096 } else { size }),
    },
    Wrong {
        name: "the desk writes no CREATE of 0",
        answer: |made| written(made, |size| if size == 0 { 1 } else { size }),
    },
    Wrong {
        name: "the desk writes CREATE with no size alone",
        answer: |made| written(made, |size| size.min(1)),
    },
    Wrong {
        name: "the desk reads CREATED of an odd size",
        answer: |made| read(made, 12, |size| if size < 4096 { size & !1 } else { size }),
    },
    Wrong {
        name: "the desk reads CREATED of a greater size",
        answer: |made| read(made, 12, |size| if size % 2 == 0 { size.min(4096) } else { size }),
    },
    Wrong {
        name: "the desk reads CAN'T CREATE of an odd size",
        answer: |made| read(made, 140, |size| if size < 4096 { size & !1 } else { size }),
    },
    Wrong {
        name: "the desk reads CAN'T CREATE of any size",
        answer: |made| read(made, 140, |_| 2),
    },
    Wrong {
        name: "the desk reads no CAN'T CREATE with a size",
        answer: |made| read(made, 140, |size| size.min(1)),
    },
];

/// The model's answer to a CREATE of another size, with the size that was asked in the
/// reply.
fn asked_for(mut made: Made, change: impl Fn(u16) -> u16) -> i64 {
    let (Some(CREATE_PROCESS), Some(size)) = (made.byte(4), made.word(6)) else {
        return made.right();
    };
    let Made::Request { state, memory, message, reply } = made else { return 0 };
    let mut changed = message.to_vec();
    changed[6..8].copy_from_slice(&change(size).to_be_bytes());
    let answer = request_bytes(state, memory, &changed, reply);
    if answer >= 0 || answer <= -7 {
        reply[6..8].copy_from_slice(&message[6..8]);
    }
    answer
}

/// Whether the request is a CREATE of which nothing but the size is wrong.
fn wrong_size_alone(made: &Made) -> bool {
    let Made::Request { message, .. } = made else { return false };
    let rest = message.len() == HEAD && message[5] == 0 && message[8..] == [0, 0];
    let wrong = made.word(6).is_some_and(|size| asked_size(size).is_none());
    made.byte(4) == Some(CREATE_PROCESS) && rest && wrong
}

/// A granted CREATE is refused with 13 where this holds of the state and the size.
fn no_room(mut made: Made, test: impl Fn(&State, u16) -> bool) -> i64 {
    let size = made.word(6).and_then(asked_size);
    let (Some(CREATE_PROCESS), Some(size), Some(old)) = (made.byte(4), size, made.records()) else {
        return made.right();
    };
    if !sound(&old) || !test(&old, size) {
        return made.right();
    }
    let Made::Request { state, memory, message, reply } = made else { return 0 };
    let answer = request_bytes(&mut state.to_vec(), &mut memory.to_vec(), message, reply);
    if answer < 0 {
        return answer;
    }
    reply[4..6].copy_from_slice(&[140, 0]);
    -13
}

fn created(made: Made, change: impl Fn(Change)) -> i64 {
    after(made, CREATE_PROCESS, change)
}

/// The new process lies after those of lower numbers, and the others move up.
fn by_number(c: Change) {
    let below = |p: usize| c.old.processes[p].there && p < c.p;
    let begin = (0..PROCESSES).filter(|&p| below(p)).map(|p| c.old.processes[p].size).sum();
    let size = c.new.processes[c.p].size;
    for process in c.new.processes.iter_mut().filter(|p| p.there && p.begin >= begin) {
        process.begin += size;
    }
    c.new.processes[c.p].begin = begin;
}

/// The desk writes a CREATE of another size; what is written has the size that was given.
fn written(made: Made, change: impl Fn(u64) -> u64) -> i64 {
    match made {
        Made::Write { fields: [host, 12, pid, size @ ..=65_535, arg2], string, request } => {
            let answer = write_request(host, 12, pid, change(size), arg2, string, request);
            if answer >= 0 {
                request[6..8].copy_from_slice(&(size as u16).to_be_bytes());
            }
            answer
        }
        mut made => made.right(),
    }
}

/// The desk reads an answer to a CREATE with another size, and gives the one in it.
fn read(made: Made, cmd: u8, change: impl Fn(u16) -> u16) -> i64 {
    match made {
        Made::Read { message, fields } if message.len() >= HEAD && message[4] == cmd => {
            let size = u16::from_be_bytes([message[6], message[7]]);
            let mut changed = message.to_vec();
            changed[6..8].copy_from_slice(&change(size).to_be_bytes());
            let answer = read_answer(&changed, fields);
            if answer >= 0 {
                fields[3] = size;
            }
            answer
        }
        mut made => made.right(),
    }
}

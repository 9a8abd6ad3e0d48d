//! Wrong libraries that go wrong by K1's packets: buffers, the tests and their order, and who
//! may send them; and by the door.

use crate::made::Made;
use crate::pupped::*;
use crate::wrong::Wrong;
use model::*;

/// Each is the model's answer, but for one error.
pub const WRONG_PACKETS: &[Wrong] = &[
    // buffers
    Wrong {
        name: "34 words are asked of the room for an acknowledgement",
        answer: |made| with_room(made, |_, room| room == 34),
    },
    Wrong {
        name: "36 words are asked of the room for an acknowledgement",
        answer: |made| refuse_room(made, |_, room| room < 36),
    },
    Wrong {
        name: "40 words of room for an acknowledgement are too many",
        answer: |made| refuse_room(made, |_, room| room == 40),
    },
    Wrong {
        name: "two words of room are enough where no block is asked",
        answer: |made| with_room(made, |a, room| room >= 2 && a.words.len() < 3),
    },
    Wrong {
        name: "a Go needs no room for an acknowledgement",
        answer: |made| with_room(made, |a, _| a.is(GO)),
    },
    Wrong {
        name: "a GoReply needs no room for an acknowledgement",
        answer: |made| with_room(made, |a, _| a.is(GO_REPLY)),
    },
    Wrong {
        name: "a packet takes a memory of 32,768 bytes",
        answer: |mut made| match &mut made {
            Made::Packet { state, memory, kind, id, words, ack } if memory.len() == 32_768 => {
                packet_bytes(state, &mut memory[..MEMORY], *kind, *id, words, ack)
            }
            made => made.right(),
        },
    },
    // how many words
    Wrong {
        name: "a Store of one word stores 0",
        answer: |made| {
            resent(made, |kind, _, words| {
                if *kind == STORE.into() && words.len() == 1 {
                    words.push(0);
                }
            })
        },
    },
    Wrong {
        name: "a Fetch without words is one of word 0",
        answer: |made| {
            resent(made, |kind, _, words| {
                if *kind == FETCH.into() && words.is_empty() {
                    words.push(0);
                }
            })
        },
    },
    Wrong {
        name: "a Fetch needs two words",
        answer: |made| {
            refuse(made, 3, |a, right| a.is(FETCH) && a.words.len() == 1 && later(right))
        },
    },
    Wrong {
        name: "a Store needs three words",
        answer: |made| {
            refuse(made, 3, |a, right| a.is(STORE) && a.words.len() == 2 && later(right))
        },
    },
    Wrong {
        name: "a Go with data is refused with 3",
        answer: |made| refuse(made, 3, |a, right| a.is(GO) && !a.words.is_empty() && later(right)),
    },
    Wrong {
        name: "a GoReply with data is refused with 3",
        answer: |made| {
            refuse(made, 3, |a, right| a.is(GO_REPLY) && !a.words.is_empty() && later(right))
        },
    },
    Wrong {
        name: "more than three words are refused with 3",
        answer: |made| refuse(made, 3, |a, right| a.words.len() > 3 && later(right)),
    },
    Wrong {
        name: "another type without words is refused with 3",
        answer: |made| refuse(made, 3, |a, right| right == -5 && a.words.is_empty()),
    },
    Wrong {
        name: "a wide ID is tested before the words",
        answer: |made| refuse(made, 5, |a, right| right == -3 && a.id >> 32 != 0),
    },
    Wrong {
        name: "the door is tested before the words",
        answer: |made| refuse(made, 7, |a, right| right == -3 && !a.of(|_| true)),
    },
    // type and ID
    Wrong {
        name: "a type is cut to a byte",
        answer: |made| resent(made, |kind, _, _| *kind %= 256),
    },
    Wrong {
        name: "a type is cut to 32 bits",
        answer: |made| resent(made, |kind, _, _| *kind &= 0xffff_ffff),
    },
    Wrong {
        name: "an ID is cut to 32 bits",
        answer: |made| resent(made, |_, id, _| *id &= 0xffff_ffff),
    },
    Wrong {
        name: "a wide ID of a Fetch is passed over",
        answer: |made| {
            resent(made, |kind, id, _| {
                if *kind == FETCH.into() {
                    *id = 0;
                }
            })
        },
    },
    Wrong {
        name: "type 132 is taken for a GoReply",
        answer: |made| resent(made, |kind, _, _| *kind -= u64::from(*kind == 132)),
    },
    Wrong {
        name: "type 127 is taken for a Store",
        answer: |made| resent(made, |kind, _, _| *kind += u64::from(*kind == 127)),
    },
    Wrong {
        name: "the door is tested before the type",
        answer: |made| refuse(made, 7, |a, right| right == -5 && !a.of(|_| true)),
    },
    // the door
    Wrong {
        name: "a packet finds the door by three bits",
        answer: |made| through(made, |door| door % 8),
    },
    Wrong {
        name: "a packet finds no door at 7",
        answer: |made| through(made, |door| if door == 7 { 255 } else { door }),
    },
    Wrong {
        name: "a GoReply is granted where the process is absent",
        answer: |mut made| match (asked(&mut made), made.right()) {
            (Some(a), -7) if a.is(GO_REPLY) => 0,
            (_, answer) => answer,
        },
    },
    Wrong {
        name: "a packet is refused with 8 where the process is absent",
        answer: |mut made| match &made {
            Made::Packet { .. } => made.instead(-7, -8),
            _ => made.right(),
        },
    },
    Wrong {
        name: "a fresh start leaves the door as it was",
        answer: |made| started(made, |_, before, _| before),
    },
    Wrong {
        name: "a fresh start cuts the door to a byte",
        answer: |made| started(made, |door, _, _| door as u8),
    },
    Wrong {
        name: "a fresh start keeps a door over 7 as 255",
        answer: |made| started(made, |door, _, _| if door > 7 { 255 } else { door as u8 }),
    },
    Wrong {
        name: "a fresh start puts no door at an absent process",
        answer: |made| {
            started(made, |door, _, there| match door {
                0..=7 if there >> door & 1 == 0 => 255,
                _ => door.min(255) as u8,
            })
        },
    },
    Wrong {
        name: "a fresh start refuses a door over 7 with 7",
        answer: |mut made| match &mut made {
            Made::Start { there, sizes, door, state } if *door > 7 => {
                match fresh_start_bytes(*there, sizes, *door, &mut state.to_vec()) {
                    0 => -7,
                    answer => answer,
                }
            }
            made => made.right(),
        },
    },
    Wrong {
        name: "DESTROY of the door's process takes the door away",
        answer: |mut made| {
            let (cmd, pid) = (made.byte(4), made.byte(5));
            let answer = made.right();
            if let (0.., Some(DESTROY_PROCESS), Some(mut records)) = (answer, cmd, made.records()) {
                if pid == Some(records.door) {
                    records.door = NO_DOOR;
                    made.put(&records);
                }
            }
            answer
        },
    },
    // who may
    Wrong {
        name: "a watcher may Store",
        answer: |made| as_owner(made, |a| a.watcher() && a.is(STORE)),
    },
    Wrong { name: "a watcher may Go", answer: |made| as_owner(made, |a| a.watcher() && a.is(GO)) },
    Wrong {
        name: "a watcher may send a GoReply",
        answer: |made| as_owner(made, |a| a.watcher() && a.is(GO_REPLY)),
    },
    Wrong {
        name: "a Fetch is refused to a watcher",
        answer: |made| {
            refuse(made, 8, |a, right| a.watcher() && a.is(FETCH) && (right >= 0 || right == -10))
        },
    },
    Wrong {
        name: "a Fetch is granted where nobody debugs the process",
        answer: |made| as_owner(made, |a| a.is(FETCH) && a.of(|p| p.host == NOBODY)),
    },
    Wrong {
        name: "a Fetch is granted where another watches",
        answer: |made| {
            as_owner(made, |a| a.is(FETCH) && a.of(|p| ![NOBODY, PUP_HOST].contains(&p.watcher)))
        },
    },
    Wrong {
        name: "packets are taken as host 253's",
        answer: |made| as_owner(made, |a| a.of(|p| p.host == TEXT_HOST)),
    },
    Wrong {
        name: "a GoReply without a right is granted",
        answer: |mut made| match (asked(&mut made), made.right()) {
            (Some(a), -8) if a.is(GO_REPLY) => 0,
            (_, answer) => answer,
        },
    },
    Wrong {
        name: "a stranger's word is tested before his right",
        answer: |made| refuse(made, 10, |a, right| right == -8 && a.looks() && a.outside()),
    },
    Wrong {
        name: "a stranger's Go is refused with 9",
        answer: |made| {
            refuse(made, 9, |a, right| right == -8 && a.is(GO) && !a.of(|p| p.run.waits()))
        },
    },
    Wrong {
        name: "a Store is refused with 9 while running",
        answer: |made| {
            refuse(made, 9, |a, right| right >= 0 && a.is(STORE) && a.runs(Run::Running))
        },
    },
    Wrong {
        name: "a Fetch is refused with 9 while passing",
        answer: |made| {
            refuse(made, 9, |a, right| right >= 0 && a.is(FETCH) && a.runs(Run::Passing))
        },
    },
    Wrong {
        name: "a packet that is refused with 10 writes the address",
        answer: |mut made| {
            let answer = made.right();
            if let (-10, Made::Packet { words, ack, .. }) = (answer, made) {
                ack[0] = words[0];
            }
            answer
        },
    },
];

/// Whether an answer is one of tests after the third.
fn later(answer: i64) -> bool {
    answer >= 0 || answer <= -5
}

/// The model's answer with room enough, where such a thing holds of the packet and its room.
fn with_room(mut made: Made, test: impl Fn(&Asked, usize) -> bool) -> i64 {
    let asked = asked(&mut made);
    match &mut made {
        Made::Packet { state, memory, kind, id, words, ack }
            if ack.len() < ACK_WORDS && asked.is_some_and(|a| test(&a, ack.len())) =>
        {
            let mut room = ack.to_vec();
            room.resize(ACK_WORDS, 0);
            let answer = packet_bytes(state, memory, *kind, *id, words, &mut room);
            let length = ack.len();
            ack.copy_from_slice(&room[..length]);
            answer
        }
        made => made.right(),
    }
}

/// A packet is refused with 1, where such a thing holds of it and its room.
fn refuse_room(mut made: Made, test: impl Fn(&Asked, usize) -> bool) -> i64 {
    let room = match &made {
        Made::Packet { ack, .. } => ack.len(),
        _ => return made.right(),
    };
    refuse(made, 1, |a, _| test(a, room))
}

/// The model's answer to a packet through another door.
fn through(mut made: Made, door: impl Fn(u8) -> u8) -> i64 {
    let (Some(_), Some(old)) = (asked(&mut made), made.records()) else { return made.right() };
    made.put(&State { door: door(old.door), ..old.clone() });
    let answer = made.right();
    if let Some(records) = made.records() {
        made.put(&State { door: old.door, ..records });
    }
    answer
}

/// A fresh start after which the door is another: by what is asked, what stood there before,
/// and which are there.
fn started(mut made: Made, door: impl Fn(u64, u8, u64) -> u8) -> i64 {
    let Made::Start { there, door: asked, state, .. } = &made else { return made.right() };
    let put = door(*asked, state.get(DOOR_AT).copied().unwrap_or(0), *there);
    let answer = made.right();
    if let (0, Made::Start { state, .. }) = (answer, made) {
        state[DOOR_AT] = put;
    }
    answer
}

//! Values of K1: where a fresh start puts the door, types, IDs and numbers of words of
//! packets, buffers for acknowledgements, and a Go in a state.

use crate::packets::at_door;
use crate::sides::{is_sound, words_of, Call, Side};
use crate::values::{on_state, value, Value};
use model::*;

pub const PACKET_VALUES: &[Value] = &[
    // the door
    value(0, "fresh start, the door at 0", |c, _| door(c, |door| door == 0)),
    value(0, "fresh start, the door at 7", |c, _| door(c, |door| door == 7)),
    value(
        0,
        "fresh start, the door at an absent process",
        |c, _| matches!(c, Call::FreshStart { there, door: 0..=7, .. } if there >> door_of(c) & 1 == 0),
    ),
    value(0, "fresh start, the door at 8", |c, _| door(c, |door| door == 8)),
    value(0, "fresh start, the door at 9 to 254", |c, _| door(c, |door| (9..255).contains(&door))),
    value(0, "fresh start, the door at 255", |c, _| door(c, |door| door == 255)),
    value(0, "fresh start, the door over 255, as a byte 0 to 7", |c, _| {
        door(c, |door| door > 255 && door % 256 < 8)
    }),
    value(0, "fresh start, the door over 4,294,967,295", |c, _| door(c, |door| door >> 32 != 0)),
    value(WRONG_BUFFER, "refused fresh start, the door at a process", |c, _| door(c, |d| d < 8)),
    // types and IDs
    value(UNKNOWN_CMD, "type 0 to 126", |c, _| sent(c, |kind, _, _| kind < 127)),
    value(UNKNOWN_CMD, "type 133 to 255", |c, _| sent(c, |k, _, _| (133..256).contains(&k))),
    value(UNKNOWN_CMD, "type over 255, as a byte a Store", |c, _| narrow(c, STORE)),
    value(UNKNOWN_CMD, "type over 255, as a byte a Fetch", |c, _| narrow(c, FETCH)),
    value(UNKNOWN_CMD, "type over 255, as a byte a Go", |c, _| narrow(c, GO)),
    value(UNKNOWN_CMD, "type over 255, as a byte a GoReply", |c, _| narrow(c, GO_REPLY)),
    value(UNKNOWN_CMD, "type over 4,294,967,295", |c, _| sent(c, |kind, _, _| kind >> 32 != 0)),
    value(UNKNOWN_CMD, "type and ID too wide", |c, _| sent(c, |k, id, _| k > 255 && id >> 32 != 0)),
    value(UNKNOWN_CMD, "ID 4,294,967,296", |c, _| sent(c, |_, id, _| id == 1 << 32)),
    value(0, "Go with an ID that is in no list", |c, _| {
        sent(c, |kind, id, _| kind == GO.into() && id > 65_536 && id < 0x7fff_ffff)
    }),
    value(0, "Store with an ID over 2,147,483,648", |c, _| {
        sent(c, |kind, id, _| kind == STORE.into() && id > 0x8000_0000)
    }),
    // how many words, and of which value
    value(0, "Store of 64 words of data", |c, _| {
        sent(c, |kind, _, words| kind == STORE.into() && words.len() == 64)
    }),
    value(0, "a packet of 5 to 63 words of data", |c, _| {
        sent(c, |_, _, words| (5..64).contains(&words.len()))
    }),
    value(WRONG_LENGTH, "Store of one word of data", |c, _| {
        sent(c, |kind, _, words| kind == STORE.into() && words.len() == 1)
    }),
    value(0, "Store of a value whose bytes are alike in no order", |c, _| {
        sent(c, |kind, _, w| kind == STORE.into() && w.len() > 1 && w[1].swap_bytes() != w[1])
    }),
    value(0, "Store of 3, the BPT word", |c, _| {
        sent(c, |kind, _, words| kind == STORE.into() && words.get(1) == Some(&3))
    }),
    value(0, "Fetch, any third word over 257 and no power of two", |c, _| {
        sent(c, |kind, _, words| {
            let third = words.get(2).copied().unwrap_or(0);
            kind == FETCH.into() && third > 257 && !third.is_power_of_two()
        })
    }),
    value(0, "an acknowledgement of a word over 255", |c, s| acknowledged(c, s, |w| w[1] > 255)),
    value(0, "an acknowledgement with 32 words", |c, s| acknowledged(c, s, |w| w[2] == 32)),
    // buffers for acknowledgements
    value(WRONG_BUFFER, "room for no word", |c, s| room(c, s, |words| words == 0)),
    value(WRONG_BUFFER, "room for two words, and no block asked", |c, s| {
        room(c, s, |words| words == 2) && sent(c, |_, _, words| words.len() < 3)
    }),
    value(WRONG_BUFFER, "room for 34 words", |c, s| room(c, s, |words| words == 34)),
    value(WRONG_BUFFER, "room for 34 words, and a Go", |c, s| {
        room(c, s, |words| words == 34) && sent(c, |kind, _, _| kind == GO.into())
    }),
    value(WRONG_BUFFER, "room for 34 words, and a GoReply", |c, s| {
        room(c, s, |words| words == 34) && sent(c, |kind, _, _| kind == GO_REPLY.into())
    }),
    value(WRONG_BUFFER, "room for 34 words, and another type", |c, s| {
        room(c, s, |words| words == 34) && sent(c, |kind, _, _| !(128..132).contains(&kind))
    }),
    value(WRONG_BUFFER, "room for any other number of words", |c, s| {
        room(c, s, |words| words < 34 && ![0, 1, 2, 17, 33].contains(&words))
    }),
    value(WRONG_BUFFER, "packet, memory of another length and room enough", |c, s| {
        room(c, s, |words| words >= ACK_WORDS)
    }),
    value(0, "room for 36 to 40 words", |c, s| room(c, s, |words| (36..41).contains(&words))),
    value(0, "room for 300 words and more", |c, s| room(c, s, |words| words >= 300)),
    // a Go in a state, being all that is not sound
    value(NOT_SOUND, "state, 2 for whether a Go waits", |c, s| flag(c, s, |byte| byte == 2)),
    value(NOT_SOUND, "state, 3 to 127 for whether a Go waits", |c, s| {
        flag(c, s, |byte| (3..128).contains(&byte))
    }),
    value(NOT_SOUND, "state, over 127 for whether a Go waits", |c, s| flag(c, s, |b| b > 127)),
    value(NOT_SOUND, "state, a Go with 100 ticks", |c, s| wrong_ticks(c, s, |ticks| ticks == 100)),
    value(NOT_SOUND, "state, a Go with 101 to 127 ticks", |c, s| {
        wrong_ticks(c, s, |ticks| (101..128).contains(&ticks))
    }),
    value(NOT_SOUND, "state, a Go with over 127 ticks", |c, s| wrong_ticks(c, s, |t| t > 127)),
    value(NOT_SOUND, "state, a Go where host 253 debugs", |c, s| {
        wrong_host(c, s, |p| p.host == 253)
    }),
    value(NOT_SOUND, "state, a Go where host 255 debugs", |c, s| {
        wrong_host(c, s, |p| p.host == 255)
    }),
    value(NOT_SOUND, "state, a Go where any other host debugs", |c, s| {
        wrong_host(c, s, |p| ![0, 5, 126, 253, 255].contains(&p.host))
    }),
    value(NOT_SOUND, "state, a Go where host 254 watches", |c, s| {
        wrong_host(c, s, |p| p.watcher == PUP_HOST)
    }),
    value(NOT_SOUND, "state, a Go where nobody debugs", |c, s| {
        wrong_host(c, s, |p| p.there && p.host == NOBODY)
    }),
    value(NOT_SOUND, "state, a Go in an absent process", |c, s| wrong_host(c, s, |p| !p.there)),
    value(NOT_SOUND, "state, a wrong Go in another process than the door's", |c, s| {
        let door = usize::from(s.state.bytes().get(DOOR_AT).copied().unwrap_or(0));
        (0..PROCESSES).any(|p| p != door && wrong_go(c, s, p).is_some())
    }),
    value(NOT_SOUND, "packet, a wrong Go", |c, s| {
        matches!(c, Call::Packet { .. }) && wrong_host(c, s, |_| true)
    }),
    value(NOT_SOUND, "tick, a wrong Go", |c, s| {
        matches!(c, Call::Tick) && wrong_host(c, s, |_| true)
    }),
    value(NOT_SOUND, "tick, a Go with 100 ticks", |c, s| {
        matches!(c, Call::Tick) && wrong_ticks(c, s, |ticks| ticks == 100)
    }),
    value(NOT_SOUND, "tick, a state of 784 bytes", |c, s| {
        matches!(c, Call::Tick) && s.state.bytes().len() == 784
    }),
    value(NOT_SOUND, "tick, a state of any other length", |c, s| {
        let length = s.state.bytes().len();
        matches!(c, Call::Tick) && length != STATE_BYTES && length != 784
    }),
    // a Go in a state that is sound
    value(0, "state, a Go with 99 ticks", |c, s| on(c, s, |p| p.go.waits && p.go.ticks == 99)),
    value(0, "state, 100 ticks and more left where none waits", |c, s| {
        on(c, s, |p| !p.go.waits && p.go.ticks > 99)
    }),
    value(0, "state, an ID left where none waits and nobody debugs", |c, s| {
        on(c, s, |p| !p.go.waits && p.go.id != 0 && p.there && p.host == NOBODY)
    }),
    value(0, "state, an ID left in an absent process", |c, s| {
        on(c, s, |p| !p.there && p.go.id != 0)
    }),
    value(0, "state, two processes in which a Go waits", |c, s| {
        on_state(c) && processes(s).iter().filter(|p| p.go.waits).count() > 1
    }),
    value(0, "state, a Go waits and the door is elsewhere", |c, s| {
        let Some(state) = decode(s.state.bytes()).filter(|_| on_state(c)) else { return false };
        at_door(&state).is_none() && state.processes.iter().any(|p| p.go.waits)
    }),
    value(0, "state, each byte of an ID another, high and low", |c, s| {
        on(c, s, |p| {
            let [a, b, e, d] = p.go.id.to_le_bytes();
            p.go.waits && a > 127 && d > 0 && a != b && b != e && e != d && a != d
        })
    }),
];

fn door_of(call: &Call) -> u64 {
    if let Call::FreshStart { door, .. } = call {
        *door
    } else {
        0
    }
}

fn door(call: &Call, test: impl Fn(u64) -> bool) -> bool {
    matches!(call, Call::FreshStart { door, .. } if test(*door))
}

fn sent(call: &Call, test: impl Fn(u64, u64, &[u16]) -> bool) -> bool {
    matches!(call, Call::Packet { kind, id, words } if test(*kind, *id, words))
}

/// Whether a packet's type is none, and this one if it is cut to a byte.
fn narrow(call: &Call, as_byte: u8) -> bool {
    sent(call, |kind, id, words| {
        kind > 255 && kind as u8 == as_byte && id >> 32 == 0 && words.len() > 1
    })
}

/// The room for an acknowledgement, in words.
fn room(call: &Call, side: &Side, test: impl Fn(usize) -> bool) -> bool {
    matches!(call, Call::Packet { .. }) && test(side.ack.bytes().len() / 2)
}

/// Whether such words are acknowledged, with a block.
fn acknowledged(call: &Call, side: &Side, test: impl Fn(&[u16]) -> bool) -> bool {
    let looked = sent(call, |kind, _, words| kind == FETCH.into() && words.len() > 2);
    looked && test(&words_of(side.ack.bytes()))
}

fn processes(side: &Side) -> Vec<Process> {
    decode(side.state.bytes()).map_or_else(Vec::new, |state| state.processes.to_vec())
}

fn on(call: &Call, side: &Side, test: impl Fn(&Process) -> bool) -> bool {
    on_state(call) && processes(side).iter().any(test)
}

/// Whether such a byte says if a Go waits, and is all that is not sound.
fn flag(call: &Call, side: &Side, test: impl Fn(u8) -> bool) -> bool {
    let mut bytes = side.state.bytes().to_vec();
    if bytes.len() != STATE_BYTES || !on_state(call) {
        return false;
    }
    let wrong = (0..PROCESSES).map(|p| RECORD_BYTES * p + GO_WAITS_AT).find(|&at| bytes[at] > 1);
    let Some(at) = wrong.filter(|&at| test(bytes[at])) else { return false };
    bytes[at] = 0;
    is_sound(&bytes)
}

/// The process whose Go alone is not sound.
fn wrong_go(call: &Call, side: &Side, p: usize) -> Option<Process> {
    let mut state = decode(side.state.bytes()).filter(|_| on_state(call))?;
    let process = state.processes[p];
    if sound(&state) {
        return None;
    }
    state.processes[p].go.waits = false;
    (process.go.waits && sound(&state)).then_some(process)
}

fn wrong(call: &Call, side: &Side, test: impl Fn(&Process) -> bool) -> bool {
    (0..PROCESSES).any(|p| wrong_go(call, side, p).is_some_and(|process| test(&process)))
}

/// Whether a Go waits where host 254 does not debug, and with so many ticks as it may have.
fn wrong_host(call: &Call, side: &Side, test: impl Fn(&Process) -> bool) -> bool {
    wrong(call, side, |p| p.host != PUP_HOST && p.go.ticks < GO_TICKS && test(p))
}

/// Whether a Go of host 254 has such a number of ticks.
fn wrong_ticks(call: &Call, side: &Side, test: impl Fn(u8) -> bool) -> bool {
    wrong(call, side, |p| p.host == PUP_HOST && test(p.go.ticks))
}

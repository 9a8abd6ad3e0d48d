//! K1, "A Pup door": "Add Store, Fetch, Go and GoReply on one process set at start, as host
//! 254."

use super::*;
use blocks::word_inside;

/// "as host 254"
pub const PUP_HOST: u8 = 254;

// "A packet is a type (octal 200 to 203)"; the memo's acknowledgement is 204
pub const STORE: u8 = 0o200;
pub const FETCH: u8 = 0o201;
pub const GO: u8 = 0o202;
pub const GO_REPLY: u8 = 0o203;
pub const ACK: u8 = 0o204;

/// The door of a gateway in which no process has one.
pub const NO_DOOR: u8 = 255;

/// A packet: the number of data words of its acknowledgement, or minus the refusal's number.
/// "Refusals, all silent: 1 asks 35 output words, not 266 bytes; 2; 3 too few data words, 5
/// another type, 7 to 10 as for requests; a GoReply only to 8"
pub fn packet(
    state: &mut State,
    memory: &mut [u8],
    kind: u64,
    id: u64,
    words: &[u16],
    ack: &mut [u16],
) -> i64 {
    if memory.len() != MEMORY || ack.len() < ACK_WORDS {
        return -WRONG_BUFFER;
    }
    if !sound(state) {
        return -NOT_SOUND;
    }
    match obey(state, memory, kind, id, words, ack) {
        Ok(count) => count as i64,
        Err(number) => -number,
    }
}

/// Tests 3, 5 and 7 to 10, and what the packet does.
fn obey(
    state: &mut State,
    memory: &mut [u8],
    kind: u64,
    id: u64,
    words: &[u16],
    ack: &mut [u16],
) -> Result<usize, Refusal> {
    // "a type [..], a 32-bit ID and data words": what does not fit is of no type, and only a known type has a
    // fewest number of words
    let kind = u8::try_from(kind).unwrap_or(0);
    let id = u32::try_from(id).map_err(|_| UNKNOWN_CMD)?;
    if words.len() < fewest(kind) {
        return Err(WRONG_LENGTH);
    }
    let as_request = as_request(kind).ok_or(UNKNOWN_CMD)?;
    let door = state.door;
    let process = named(state, door)?;
    process.has_right(PUP_HOST, as_request)?;
    match kind {
        GO => {
            // "A Go is granted only where RESUME would be."
            run_state_fits(process, as_request)?;
            process.await_reply(id);
            // The memo: "Ack: no contents"
            Ok(0)
        }
        GO_REPLY => {
            process.go_reply(id);
            // The memo: "Not acknowledged"
            Ok(0)
        }
        _ => {
            let address = words[0];
            if !word_inside(address, process.size) {
                return Err(OUTSIDE);
            }
            // "any other granted packet abandons the Go"
            process.go = NO_GO;
            let value = (kind == STORE).then(|| words[1]);
            // The memo, of fewer words: "word 3 (block length) is meaningless"
            let asked = words.get(2).copied().unwrap_or(0);
            let space = &mut memory[process.place()];
            Ok(process.acknowledge(space, address, value, asked, ack))
        }
    }
}

/// The memo: "the length of the data portion of a Fetch or Store packet can be as little as
/// 2 (fetch) or 4 (store) bytes"; the others' "Contents: none". More words are passed over.
fn fewest(kind: u8) -> usize {
    match kind {
        STORE => 2,
        FETCH => 1,
        _ => 0,
    }
}

/// The request whose right and run state are asked: "7 to 10 as for requests". A Store
/// deposits; K5: "A watcher may EXAMINE, Fetch, BREAK and UNBREAK." Nothing for another type.
fn as_request(kind: u8) -> Option<u8> {
    match kind {
        STORE => Some(DEPOSIT),
        FETCH => Some(EXAMINE),
        GO | GO_REPLY => Some(RESUME),
        _ => None,
    }
}

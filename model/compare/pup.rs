//! What K1 says of every call: what a granted packet or tick leaves, byte by byte, and which
//! other calls touch a waiting Go. It looks at the bytes alone. The fuzzer uses this too.

use crate::sides::{words_of, Call, Side};
use model::*;
use std::ops::Range;

/// The bytes of a record that are a Go's: whether one waits, its ticks and its ID.
pub const GO_BYTES: Range<usize> = GO_WAITS_AT..VECTOR_AT;

/// What K1 says of a call, should both sides break it.
pub fn broken_pup(call: &Call, answer: i64, before: &Side, after: &Side) -> Option<&'static str> {
    let acknowledged = match call {
        Call::Packet { .. } => 2 * answer.max(0) as usize,
        _ => 0,
    };
    if before.ack.bytes()[acknowledged..] != after.ack.bytes()[acknowledged..] {
        return Some("both: words past the acknowledgement are touched");
    }
    if answer < 0 || matches!(call, Call::Write { .. } | Call::Read { .. }) {
        return None;
    }
    let door = match call {
        Call::FreshStart { door, .. } => (*door).min(255) as u8,
        _ => before.state.bytes()[DOOR_AT],
    };
    if after.state.bytes()[DOOR_AT] != door {
        return Some("both: the door is not where the fresh start put it");
    }
    match call {
        Call::Packet { kind, id, words } => match Left::by_packet(*kind, *id, words, before) {
            Ok(left) => left.broken(after, acknowledged),
            Err(wrong) => Some(wrong),
        },
        Call::Tick => Left::by_tick(before).broken(after, 0),
        _ => broken_goes(call, before, after),
    }
}

/// "any other granted packet abandons the Go [..], and so do END DEBUG and DESTROY"; CREATE
/// and a fresh start write new records.
fn broken_goes(call: &Call, before: &Side, after: &Side) -> Option<&'static str> {
    for p in 0..PROCESSES {
        let ends = match call {
            Call::FreshStart { .. } => true,
            Call::Request { message } => match message[4] {
                END_DEBUG | DESTROY_PROCESS => usize::from(message[5]) == p,
                CREATE_PROCESS => usize::from(after.output.bytes()[5]) == p,
                _ => false,
            },
            _ => false,
        };
        let go = |side: &Side| side.state.bytes()[RECORD_BYTES * p..][GO_BYTES].to_vec();
        let right = if ends { vec![0; GO_BYTES.len()] } else { go(before) };
        if go(after) != right {
            return Some("both: another call than a packet or tick leaves a Go wrong");
        }
    }
    None
}

/// What a granted packet or tick has to leave.
struct Left {
    state: Vec<u8>,
    memory: Vec<u8>,
    ack: Vec<u16>,
    /// Where the record of the door's process begins.
    record: usize,
}

impl Left {
    fn as_before(before: &Side) -> Left {
        let (state, memory) = (before.state.bytes().to_vec(), before.memory.bytes().to_vec());
        let record = RECORD_BYTES * usize::from(state[DOOR_AT]);
        Left { state, memory, ack: Vec::new(), record }
    }

    fn broken(&self, after: &Side, acknowledged: usize) -> Option<&'static str> {
        if self.state != after.state.bytes() {
            return Some("both: a packet or tick leaves the state wrong");
        }
        if self.memory != after.memory.bytes() {
            return Some("both: a packet or tick leaves the memory wrong");
        }
        let wrong = self.ack != words_of(&after.ack.bytes()[..acknowledged]);
        wrong.then_some("both: a packet is acknowledged wrongly")
    }

    /// Whether the door is at a process that is there.
    fn at_process(&self) -> bool {
        usize::from(self.state[DOOR_AT]) < PROCESSES && self.state[self.record] == 1
    }

    fn byte(&self, at: usize) -> u8 {
        self.state[self.record + at]
    }

    /// Two bytes from here on, low byte first.
    fn word(&self, at: usize) -> usize {
        usize::from(self.state[at]) + 256 * usize::from(self.state[at + 1])
    }

    fn go(&mut self) -> &mut [u8] {
        &mut self.state[self.record..][GO_BYTES]
    }

    fn go_id(&self) -> u64 {
        (0..4).map(|i| u64::from(self.byte(GO_ID_AT + i)) << (8 * i)).sum()
    }

    /// Whether RESUME finds the run state right: stopped, or at a breakpoint.
    fn resumable(&self) -> bool {
        matches!(self.byte(2), 2 | 3)
    }

    /// "If RESUME would then be refused, the Go just ends."
    fn end_go(&mut self, resumes: bool) {
        if resumes && self.resumable() {
            self.state[self.record + 2] = 0;
        }
        self.go().fill(0);
    }

    /// "at the hundredth tenth-second tick"
    fn by_tick(before: &Side) -> Left {
        let mut left = Left::as_before(before);
        if !left.at_process() || left.byte(GO_WAITS_AT) == 0 {
            return left;
        }
        match left.byte(GO_TICKS_AT) {
            99 => left.end_go(true),
            _ => left.state[left.record + GO_TICKS_AT] += 1,
        }
        left
    }

    fn by_packet(kind: u64, id: u64, words: &[u16], before: &Side) -> Result<Left, &'static str> {
        let mut left = Left::as_before(before);
        if !left.at_process() {
            return Err("both: a packet is granted where the door is at no process");
        }
        let watches = kind == u64::from(FETCH) && left.byte(WATCHER_AT) == 254;
        if left.byte(1) != 254 && !watches {
            return Err("both: a packet is granted without a right");
        }
        if !(128..132).contains(&kind) || id >> 32 != 0 {
            return Err("both: a packet of no type or ID is granted");
        }
        let waits = left.byte(GO_WAITS_AT) == 1;
        match kind as u8 {
            GO if !left.resumable() => return Err("both: a Go is granted where RESUME is not"),
            GO if waits && left.go_id() == id => {}
            GO => {
                left.go()[..2].copy_from_slice(&[1, 0]);
                left.go()[2..].copy_from_slice(&(id as u32).to_le_bytes());
            }
            GO_REPLY => {
                let next = (left.go_id() + 1) % (1 << 32);
                left.end_go(waits && id == next);
            }
            kind => {
                left.end_go(false);
                left.look(kind == STORE, words)?;
            }
        }
        Ok(left)
    }

    /// The place of a word of the process as it is seen: in memory, or in the entry of a
    /// planted breakpoint.
    fn seen(&mut self, address: usize) -> &mut [u8] {
        let begin = self.word(BEGINS_AT + 2 * usize::from(self.state[DOOR_AT]));
        let entries = (0..BREAKPOINTS).map(|e| self.record + ENTRIES_AT + ENTRY_BYTES * e);
        let planted = |e: &usize| self.state[*e] == 0 && self.state[*e + 1] != NOBODY;
        let here = entries.filter(planted).find(|e| self.word(e + 2) == 2 * address);
        match here {
            Some(entry) => &mut self.state[entry + 6..entry + 8],
            None => &mut self.memory[begin + 2 * address..][..2],
        }
    }

    fn seen_word(&mut self, address: usize) -> u16 {
        let bytes = self.seen(address);
        u16::from(bytes[0]) + 256 * u16::from(bytes[1])
    }

    /// A Store or a Fetch, with its acknowledgement.
    fn look(&mut self, stores: bool, words: &[u16]) -> Result<(), &'static str> {
        let inside = self.word(self.record + SIZE_AT) / 2;
        let address = usize::from(*words.first().ok_or("both: a packet without an address")?);
        if address >= inside {
            return Err("both: a word outside of the process is granted");
        }
        self.ack.push(words[0]);
        if stores {
            let value = *words.get(1).ok_or("both: a Store without a value")?;
            self.seen(address).copy_from_slice(&value.to_le_bytes());
            self.ack.push(0);
        } else {
            let word = self.seen_word(address);
            self.ack.push(word);
        }
        let asked = usize::from(words.get(2).copied().unwrap_or(0));
        if asked > 256 || asked.count_ones() != 1 {
            return Ok(());
        }
        let fits = |n: &&usize| **n <= asked && address / **n * **n + **n <= inside;
        let sent = *[32, 16, 8, 4, 2, 1].iter().find(fits).unwrap_or(&1);
        self.ack.push(sent as u16);
        for at in 0..sent {
            let word = self.seen_word(address / sent * sent + at);
            self.ack.push(word);
        }
        Ok(())
    }
}

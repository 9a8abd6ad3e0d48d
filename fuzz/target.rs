//! What the fuzzer runs: its bytes are read as a list of calls, the proved library and the model make each of them, and the program aborts
//! at the first difference of result, state, memory, message, words or output buffer, or of the bytes around one of them. Before each request
//! both are asked why they would refuse it.
//!
//! The first byte says which processes are there, the second how large each of them is, the third where the Pup door is; in the desk's calls, and
//! where bit 7 of a report or packet asks for it, numbers are wider than their fields. Then come records of eight bytes; the low three bits of the
//! first say what it is:
//!
//!     0, 1    a request: HOST, CMD, PID, ARG1, ARG2, with the string that its CMD carries
//!     2       a line of the text debugger: PID, letter, ADDR, DATA, and how its text is spoiled; or, with bit 4, of any bytes, from those
//!             that follow the record
//!     3       a request of any bytes: a length, and the message from the bytes that follow the record; or, with bit 4, a packet: type, address,
//!             value, third word, and which ID
//!     4       a machine report; or, with bit 4, so many ticks
//!     5       a store by the machine into a process's own bytes, or, with bit 4, a call of the desk's end
//!     6       damage: bytes of the state are changed for the next call, a Go and its ticks among them, and the numbers of breakpoints made true
//!             again, or not; or, with bit 4, where its processes lie
//!     7       lengths: the next call is lent other lengths; or, with bit 4, why the request of such a record would be refused is asked, and so many
//!             facts are lent
//!
//! A call after damage or lengths is made on copies; damage is kept where bit 6 asks for it and the state is still sound. Bit 7 takes all
//! fields as they come; otherwise they are brought into the range where calls are granted. Bit 3 brings processes and addresses close
//! together, bit 4 makes the string a byte too long, bit 5 takes the arguments from the edges of the ranges, and the size of a CREATE from
//! those of the free bytes too; of damage, it makes an entry, or moves one process alone. Bit 6 brings a request to a process from the host
//! that debugs or watches it, a line to a process of host 253, and makes a report one that the run state makes likely.
#![no_main]

#[path = "../model/compare/answers.rs"]
mod answers;
#[path = "../model/compare/describe.rs"]
mod describe;
mod guiding;
#[allow(dead_code)] // what is wrong with a layout is not asked here
#[path = "../model/compare/layout.rs"]
mod layout;
#[path = "../model/compare/lent.rs"]
mod lent;
#[path = "../model/compare/library.rs"]
mod library;
#[path = "../model/compare/passing.rs"]
mod passing;
#[path = "../model/compare/pup.rs"]
mod pup;
mod reading;
#[path = "../model/compare/sides.rs"]
mod sides;
#[allow(dead_code)] // how deep it is gone is not asked here
#[path = "../model/compare/stack.rs"]
mod stack;
#[path = "../model/compare/status.rs"]
mod status;
#[path = "../model/compare/watching.rs"]
mod watching;
#[path = "../model/compare/why.rs"]
mod why;

use guiding::{condition_for, found_by, note, told_by};
use layout::{lay_out, order};
use model::*;
use reading::{desk_from, line_from, packet_from, report_from, request_from, word, Records};
use sides::{is_sound, Call, Pair, Side};
use status::count_again;
use std::os::raw::c_int;

/// Prints what is wrong and aborts, which is how the fuzzer learns of it.
fn stop(text: &str) -> ! {
    eprintln!("{text}");
    std::process::abort()
}

/// Makes the call on both sides.
fn compare(call: &Call, pair: &mut Pair) {
    let found = condition_for(call, pair.model.state.bytes());
    let found_too = found_by(call, pair.model.state.bytes());
    match pair.call(call) {
        Ok(answer) => {
            let told = told_by(call, &pair.model, answer);
            note(call, found, [found_too, told], answer)
        }
        Err(text) => stop(&text),
    }
}

// ---------------------------------------------------------------- damage

/// Changes for the next call alone.
#[derive(Default)]
struct Spoiled {
    damage: Vec<(usize, u8)>,
    /// The numbers of breakpoints are true again after the damage.
    count: bool,
    /// Those of the first byte are there too, and they lie in another order: that of these bytes, one for each process.
    order: Option<[u8; 8]>,
    keep: bool,
    lengths: Option<[u8; 5]>,
}

/// A length that does not fit, or one that does.
fn other(length: usize, by: u8) -> usize {
    match by % 8 {
        0 => length - 1,
        1 => length + 1,
        2 => 0,
        3 => length / 2,
        _ => length,
    }
}

impl Spoiled {
    fn damage_from(&mut self, r: [u8; 8]) {
        self.keep = r[0] & 64 != 0;
        if r[0] & 128 != 0 {
            self.damage.push((usize::from(word(r[1], r[2])), r[3]));
            self.damage.push((usize::from(word(r[4], r[5])), r[6]));
            return;
        }
        if r[0] & 48 == 16 {
            self.order = Some([r[1], r[2], r[3], r[4], r[5], r[6], r[7], 128]);
            return;
        }
        if r[0] & 48 == 48 {
            let begin = BEGINS_AT + 2 * (usize::from(r[1]) % PROCESSES);
            self.damage.extend([(begin, r[2]), (begin + 1, r[3] % 65)]);
            return;
        }
        let record = RECORD_BYTES * (usize::from(r[1]) % if r[0] & 8 != 0 { 2 } else { 8 });
        // a byte of the state may be damage to its number too
        self.count = r[0] & 32 != 0 || r[7] & 1 == 0;
        if r[0] & 32 == 0 && r[6] % 4 == 3 {
            let go = [r[2] % 3, 95 + r[3] % 6, r[4], r[5], 255, 255];
            self.damage.push((record + 1, PUP_HOST));
            self.damage
                .extend(go.into_iter().enumerate().map(|(i, b)| (record + GO_WAITS_AT + i, b)));
            return;
        }
        if r[0] & 32 == 0 {
            // host 253 is the one whose answers are owed, host 254 the one whose Go waits
            let small = |byte: u8| match byte % 8 {
                6 => PUP_HOST,
                7 => TEXT_HOST,
                byte => byte,
            };
            self.damage.push((record + usize::from(r[2]) % RECORD_BYTES, small(r[3])));
            self.damage.push((record + usize::from(r[4]) % RECORD_BYTES, small(r[5])));
            return;
        }
        let entry = record + ENTRIES_AT + ENTRY_BYTES * (usize::from(r[2]) % BREAKPOINTS);
        let setter = [5, 6, TEXT_HOST, PUP_HOST, NOBODY][usize::from(r[3] >> 1) % 5];
        let bytes = [r[3] & 1, setter, r[4] % 20, 0, r[5], 0, r[6], r[7]];
        self.damage.extend(bytes.into_iter().enumerate().map(|(i, b)| (entry + i, b)));
    }

    fn is_nothing(&self) -> bool {
        self.damage.is_empty() && self.order.is_none() && self.lengths.is_none()
    }

    fn change(&self, side: &mut Side) {
        for &(at, value) in &self.damage {
            side.state.change()[at % STATE_BYTES] = value;
        }
        if self.count {
            count_again(side.state.change());
        }
        if let (Some(keys), Some(mut records)) = (self.order, decode(side.state.bytes())) {
            for (p, process) in records.processes.iter_mut().enumerate() {
                process.there |= keys[0] >> p & 1 == 1;
            }
            let mut order = order(&records);
            order.sort_by_key(|&p| keys[p]);
            lay_out(&mut records, &order);
            side.state.change().copy_from_slice(&encode(&records));
        }
        if let Some([state, memory, output, line, _]) = self.lengths {
            side.state = side.state.resized(other(STATE_BYTES, state));
            side.memory = side.memory.resized(other(MEMORY, memory));
            side.output = side.output.resized(other(LONGEST, output));
            side.line = side.line.resized(other(LONGEST_LINE, line));
            side.ack = side.ack.resized(2 * other(ACK_WORDS, output));
        }
    }

    fn words(&self, call: &mut Call) {
        if let (Call::Report { words, .. }, Some([.., by])) = (call, self.lengths) {
            words.resize(other(VECTOR, by), 0);
        }
    }
}

// ---------------------------------------------------------------- the list

/// The sizes that a byte stands for: 2,048 or 4,096 for all, of which four have room, or a different one for each, from the least to the
/// greatest.
fn sizes_from(by: u8) -> Vec<u16> {
    const SIZES: [u16; PROCESSES] = [1536, 4096, 2, 18, 4094, 256, 20, 4];
    match by {
        0..=63 => vec![2048; PROCESSES],
        64..=127 => vec![LARGEST; PROCESSES],
        _ => (0..PROCESSES).map(|p| SIZES[(p + usize::from(by)) % PROCESSES]).collect(),
    }
}

/// The door that a byte stands for: mostly a process, else that byte, or a number with no room in one.
fn door_from(by: u8) -> u64 {
    match by {
        0..=223 => (by % 8).into(),
        224..=247 => by.into(),
        _ => 256 + u64::from(by),
    }
}

/// Both sides after a fresh start into a buffer that is not zero.
fn started(there: u8, sizes: Vec<u16>, door: u64) -> Pair {
    let memory: Vec<u8> = (0..MEMORY).map(|i| (i / 2 % 251) as u8).collect();
    let mut pair = Pair::new(Side::new(&[1; STATE_BYTES], &memory, &[0xee; LONGEST]));
    for sizes in [sizes, vec![2048; PROCESSES]] {
        match pair.call(&Call::FreshStart { there: there.into(), sizes, door }) {
            Ok(0) => break,
            // more than the memory: those of 2,048 have room
            Ok(_) => {}
            Err(text) => stop(&text),
        }
    }
    pair
}

fn records(pair: &Pair) -> State {
    decode(pair.model.state.bytes()).unwrap_or(NONE_THERE)
}

fn make(pair: &mut Pair, mut call: Call, spoiled: Spoiled) {
    if spoiled.is_nothing() {
        return compare(&call, pair);
    }
    spoiled.words(&mut call);
    let mut copy = pair.clone();
    copy.change(|side| spoiled.change(side));
    let keep = spoiled.keep && spoiled.lengths.is_none() && is_sound(copy.model.state.bytes());
    compare(&call, &mut copy);
    if keep {
        *pair = copy;
    }
}

/// How many facts are lent: mostly two.
fn facts_from(by: u8) -> usize {
    match by {
        0..=191 => FACTS,
        _ => usize::from(by % 8),
    }
}

/// Asks why the request of a record would be refused, and leaves all as it was.
fn ask_why(pair: &Pair, r: [u8; 8], spoiled: Spoiled) {
    // bit 4, which says that it is asked, makes no string longer
    let mut asked = r;
    asked[0] &= !16;
    let Call::Request { message } = request_from(asked, &records(pair)) else { return };
    let mut copy = pair.clone();
    copy.change(|side| {
        spoiled.change(side);
        side.facts = side.facts.resized(8 * facts_from(r[7]));
    });
    compare(&Call::Why { message }, &mut copy);
}

/// A desk's call, with room for what it writes.
fn desk(pair: &Pair, call: Call) {
    let mut copy = pair.clone();
    if let Call::Read { .. } = call {
        copy.change(|side| side.output = side.output.resized(2 * FIELDS));
    }
    compare(&call, &mut copy);
}

/// A store into one of the processes that are there, if any is.
fn store(pair: &mut Pair, r: [u8; 8]) {
    let (records, near) = (records(pair), r[0] & 8 != 0);
    let there = order(&records);
    let Some(&p) = there.get(usize::from(r[1]) % there.len().max(1)) else { return };
    let place = records.processes[p].place();
    let within = if near { place.len().min(20) } else { place.len() };
    let at = place.start + usize::from(word(r[2], r[3])) % within;
    pair.change(|side| side.memory.change()[at] = r[4]);
}

/// The line of a record, or, with bit 4, of the bytes that follow it.
fn next_line(r: [u8; 8], list: &mut Records, pair: &Pair) -> Call {
    if r[0] & 16 == 0 {
        return line_from(r, &records(pair));
    }
    Call::Line { text: list.take(usize::from(r[1]) % 64).to_vec() }
}

fn run(data: &[u8]) {
    let Some((&[there, by, door], rest)) = data.split_first_chunk() else { return };
    let mut pair = started(there, sizes_from(by), door_from(door));
    let mut list = Records(rest);
    let mut spoiled = Spoiled::default();
    while let Some(r) = list.next() {
        match r[0] & 7 {
            2 => {
                let call = next_line(r, &mut list, &pair);
                make(&mut pair, call, std::mem::take(&mut spoiled));
            }
            0 | 1 => {
                let call = request_from(r, &records(&pair));
                make(&mut pair, call, std::mem::take(&mut spoiled));
            }
            3 if r[0] & 16 != 0 => {
                let call = packet_from(r, &records(&pair));
                make(&mut pair, call, std::mem::take(&mut spoiled));
            }
            3 => {
                let message = list.take(usize::from(word(r[1] & 1, r[2]))).to_vec();
                make(&mut pair, Call::Request { message }, std::mem::take(&mut spoiled));
            }
            4 if r[0] & 16 != 0 => {
                for _ in 0..=r[1] % 128 {
                    make(&mut pair, Call::Tick, std::mem::take(&mut spoiled));
                }
            }
            4 => {
                let call = report_from(r, &records(&pair));
                make(&mut pair, call, std::mem::take(&mut spoiled));
            }
            5 if r[0] & 16 != 0 => desk(&pair, desk_from(r)),
            5 => store(&mut pair, r),
            6 => spoiled.damage_from(r),
            7 if r[0] & 16 != 0 => ask_why(&pair, r, std::mem::take(&mut spoiled)),
            _ => spoiled.lengths = Some([r[1], r[2], r[3], r[5], r[4]]),
        }
    }
}

#[no_mangle]
pub extern "C" fn LLVMFuzzerTestOneInput(data: *const u8, size: usize) -> c_int {
    let data = if size == 0 { &[] } else { unsafe { std::slice::from_raw_parts(data, size) } };
    run(data);
    0
}

//! Random lines of the bench's text debugger, most of them such as are granted in the
//! state at hand.

use crate::calls::{some_address, some_process, used_address};
use crate::random::Random;
use crate::sides::Call;
use crate::watchers::at_his;
use model::*;

/// How often each letter of `LETTERS` is asked.
const WEIGHTS: [usize; 8] = [3, 2, 3, 2, 2, 3, 8, 6];

/// Numbers at the edges of 16 and 32 bits.
const WIDE: [u32; 10] = [
    65_534,
    65_535,
    65_536,
    65_537,
    65_538,
    0x10_0000,
    0x7fff_ffff,
    0x8000_0000,
    0xffff_fffc,
    u32::MAX,
];

pub fn make_line(random: &mut Random, state: &State) -> Call {
    let request = LETTERS[random.weighted(&WEIGHTS)];
    let p = process_for(random, state, request);
    let process = &state.processes[usize::from(p) % PROCESSES];
    let pid = match random.below(40) {
        0 => random.beyond(8, p.into()) as u32,
        1 => random.pick(&[8, 9, 15, 16, 256, 257, u32::MAX]),
        2 => random.free(32) as u32,
        _ => p.into(),
    };
    let (addr, data) = (some_addr(random, process, request), some_data(random, request));
    let mut text = match random.below(100) {
        // as long as it can be
        0 => printed(u32::MAX - pid, request, u32::MAX - addr, u32::MAX - data),
        _ => printed(pid, request, addr, data),
    };
    let mut spoil = random.one_in(6);
    while spoil {
        spoil_line(random, &mut text);
        spoil = random.one_in(4);
    }
    if random.one_in(100) {
        let length = random.length(&[0, 1, 34, 35, 36], 100);
        text = random.bytes(length);
    }
    Call::Line { text }
}

pub fn printed(pid: u32, request: u8, third: u32, fourth: u32) -> Vec<u8> {
    let mut line = [0; LONGEST_LINE];
    let length = write_line(pid, request, third, fourth, &mut line);
    line[..length].to_vec()
}

/// A process to which the line fits, at times one that owes an answer.
fn process_for(random: &mut Random, state: &State, request: u8) -> u8 {
    let ours = |p: &Process| p.there && p.host == TEXT_HOST;
    let owes = |p: &Process| p.owed != Owed::Nothing;
    if random.one_in(8) {
        return some_process(random, state, owes);
    }
    let watches = |p: &Process| p.there && p.watcher == TEXT_HOST;
    if state.processes.iter().any(watches) && random.one_in(3) {
        return some_process(random, state, watches);
    }
    let at_watchers = |p: &Process| ours(p) && !owes(p) && at_his(p);
    if state.processes.iter().any(at_watchers) && !random.one_in(4) {
        return some_process(random, state, at_watchers);
    }
    let fits = |p: &Process| match request {
        b'c' | b's' => ours(p) && !owes(p) && p.run.waits(),
        _ => ours(p) && !owes(p),
    };
    let telling = |p: &Process| match request {
        b'c' | b's' => fits(p) && p.run == Run::AtBreakpoint,
        _ => fits(p) && p.breakpoints.iter().any(|b| b.used()),
    };
    let any_is = |test: &dyn Fn(&Process) -> bool| state.processes.iter().any(test);
    if any_is(&telling) && random.one_in(2) {
        return some_process(random, state, telling);
    }
    match any_is(&fits) || random.one_in(4) {
        true => some_process(random, state, fits),
        false => some_process(random, state, ours),
    }
}

fn some_addr(random: &mut Random, process: &Process, request: u8) -> u32 {
    if random.one_in(12) {
        return match random.below(2) {
            0 => random.pick(&WIDE),
            _ => random.free(32) as u32,
        };
    }
    match request {
        b'r' | b'R' => match random.below(12) {
            0 => random.pick(&[9, 10, 16, 255]),
            1 => random.below(20) as u32,
            _ => random.below(WORDS) as u32,
        },
        b'c' | b's' => new_pc(random, process),
        _ => word_address(random, process),
    }
}

/// Mostly 1; else the address of a breakpoint, an edge, or any.
fn new_pc(random: &mut Random, process: &Process) -> u32 {
    match random.below(8) {
        0..=2 => 1,
        _ if at_his(process) && random.one_in(2) => 1,
        3 | 4 => used_address(random, process).into(),
        5 => near_end(random, process),
        6 => random.pick(&[0, 2, 3, 65_536, 65_538, u32::MAX]),
        _ => some_address(random, process).into(),
    }
}

/// Mostly an address that is divisible by 4, at or beside a breakpoint, in a small range or
/// at an edge.
fn word_address(random: &mut Random, process: &Process) -> u32 {
    match random.below(8) {
        0 => near_end(random, process),
        1 if random.one_in(2) => 1,
        1 => some_address(random, process).into(),
        2 => 4 * random.below(12) as u32,
        3..=5 => u32::from(used_address(random, process)) & !3,
        _ => u32::from(some_address(random, process)) & !3,
    }
}

/// An address at the end of the process, or around it.
fn near_end(random: &mut Random, process: &Process) -> u32 {
    let before = random.pick(&[8, 5, 4, 4, 4, 3, 2, 2, 2, 1, 0, 0]);
    let past = random.pick(&[0, 0, 0, 0, 1, 2, 4]);
    (u32::from(process.size) + past).wrapping_sub(before)
}

fn some_data(random: &mut Random, request: u8) -> u32 {
    match (request, random.below(8)) {
        (_, 0) => random.pick(&WIDE),
        (_, 1) => random.pick(&[0, 1, 3, 0x0300, 0x0003_0003, 0xff, 0x100]),
        (b'I' | b'D', _) => random.free(64) as u32,
        (b'R', 2) => random.free(32) as u32,
        (b'R', 3 | 4) => random.pick(&[65_535, 65_536]),
        (b'R', _) => random.free_word().into(),
        (_, 2) => random.free(32) as u32,
        _ => 0,
    }
}

/// Where each of a printed line's numbers begins.
fn numbers(text: &[u8]) -> Vec<usize> {
    (0..text.len()).filter(|&at| text[at..].starts_with(b"0x")).collect()
}

/// Breaks a line in one place.
pub fn spoil_line(random: &mut Random, text: &mut Vec<u8>) {
    let starts = numbers(text);
    if text.len() < 2 || starts.is_empty() {
        return;
    }
    let (number, any) = (random.pick(&starts), random.below(text.len()));
    let blanks: Vec<usize> = (0..text.len()).filter(|&at| text[at] == b' ').collect();
    let blank = if blanks.is_empty() { any } else { random.pick(&blanks) };
    let telling = random.pick(b" \n\r\t\x000x19afAFgidIDrRcs+-,");
    match random.below(24) {
        0..=2 => text.truncate(any),
        3 => text.truncate(text.len() - 1),
        4 => text.push(b'\n'),
        5 => text.insert(text.len() - 1, b'\r'),
        6 => text.insert(blank, b' '),
        7 => text[blank] = random.pick(b"\t\n\r_"),
        8 => text.insert(number + 2, b'0'),
        9 => text[number..].make_ascii_uppercase(),
        10 => text[number + 1] = b'X',
        11 => {
            // nine digits
            text.splice(number + 2..number + 2, *b"123456789");
        }
        12 => {
            text.drain(number..number + 2);
        }
        13 => spoil_request(random, text),
        14 => {
            text.drain(number + 2..(number + 3).min(text.len()));
        }
        15 => text[any] = telling,
        16 => text[any] = random.byte(),
        17 => text.insert(any, telling),
        18 => {
            text.remove(any);
        }
        19 => {
            text.extend_from_slice(random.pick(&[&b" 0x0\n"[..], b"0x2 i 0x0 0x0\n", b"\0", b" "]))
        }
        20 => text.insert(text.len() - 1, b' '),
        21 => {
            // a fifth field
            text.splice(text.len() - 1.., *b" 0x0\n");
        }
        22 if !blanks.is_empty() => {
            // a newline in place of what follows
            text.truncate(blank);
            text.push(b'\n');
        }
        _ => *text = random.pick(&[&b""[..], b"\n", b" ", b"0x", b"0x2\n"]).to_vec(),
    }
}

/// Another letter in place of the request, or after it.
fn spoil_request(random: &mut Random, text: &mut Vec<u8>) {
    let Some(blank) = text.iter().position(|&byte| byte == b' ') else { return };
    let other = random.pick(b"idIDrRcsCSkx0 ~\xff");
    match random.below(2) {
        0 if blank + 1 < text.len() => text[blank + 1] = other,
        _ => text.insert((blank + 2).min(text.len()), other),
    }
}

/// A line buffer with random bytes in it, often longer than it need be.
pub fn some_line_buffer(random: &mut Random) -> Vec<u8> {
    let more = match random.below(8) {
        0 | 1 => 1,
        2 => random.below(80),
        3 if random.one_in(8) => random.below(4000),
        _ => 0,
    };
    random.bytes(LONGEST_LINE + more)
}

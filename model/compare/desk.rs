//! Random calls of the desk's end.

use crate::calls::spoil_message;
use crate::random::Random;
use crate::sides::Call;
use crate::sizes::{size_to_create, wrong_size};
use model::*;

/// A desk's call: a request is written, or an answer read. `request` is some
/// request, `answer` what some call left in its output buffer.
pub fn make_desk_call(random: &mut Random, request: &[u8], answer: &[u8]) -> Call {
    if random.one_in(2) {
        return make_write(random, request);
    }
    let mut message = match random.below(4) {
        0 => answer.to_vec(),
        _ => make_answer(random),
    };
    let mut spoil = random.one_in(4);
    while spoil {
        spoil_message(random, &mut message);
        spoil = random.one_in(3);
    }
    if random.one_in(100) {
        let length = random.below(300);
        message = random.bytes(length);
    }
    Call::Read { message }
}

/// Mostly a request that can be written; at times with fields of any size.
fn make_write(random: &mut Random, request: &[u8]) -> Call {
    let mut head = [0; HEAD];
    let known = HEAD.min(request.len());
    head[..known].copy_from_slice(&request[..known]);
    let word = |at: usize| u64::from(u16::from_be_bytes([head[at], head[at + 1]]));
    let mut fields = [head[1].into(), head[4].into(), head[5].into(), word(6), word(8)];
    let mut string = request[known..].to_vec();
    let mut spoil = random.one_in(2);
    while spoil {
        match random.below(8) {
            0 => {
                let length = random.length(&[0, 1, 18, 255, 256, 257, 1000], 2000);
                string.resize(length, 7);
            }
            1 => {
                let length = random.below(LONGEST_STRING + 1);
                string.resize(length, 7);
                fields[4] = length as u64;
            }
            _ => spoil_field(random, &mut fields),
        }
        spoil = random.one_in(3);
    }
    Call::Write { fields, string }
}

/// How many bits a field has.
pub const BITS: [u32; FIELDS] = [8, 8, 8, 16, 16];

fn spoil_field(random: &mut Random, fields: &mut [u64; FIELDS]) {
    let i = random.below(FIELDS);
    fields[i] = match random.below(5) {
        0 => 0,
        1 => random.pick(&[1, 7, 16, 17, 128, 255, 256, 65_535, 65_536]),
        2 => random.free(BITS[i]),
        3 => random.beyond(BITS[i], fields[i]),
        _ => random.free(64),
    };
}

/// The fields that an answer uses, by the paper, and its string's length.
fn make_answer(random: &mut Random) -> Vec<u8> {
    let kinds = [0..17, 0..17, 129..145, 64..68].map(Vec::from_iter);
    let cmds = &kinds[random.below(4)];
    let cmd = random.pick(cmds);
    let host = random.free_byte().max(1);
    let [pid, arg1, arg2] = used(cmd);
    let pid = if pid { random.free_byte() } else { 0 };
    let arg1 = match cmd & 127 {
        CREATE_PROCESS if random.one_in(4) => wrong_size(random),
        CREATE_PROCESS => size_to_create(random, &NONE_THERE),
        _ if arg1 || cmd == STATUS + 128 && random.one_in(8) => random.free_word(),
        _ => 0,
    };
    let arg2 = arg2 || cmd == STATUS + 128 && random.one_in(8);
    let mut arg2 = if arg2 { random.free_word() } else { 0 };
    let string = match cmd {
        64..=67 => VECTOR,
        EXAMINE => {
            arg2 = random.length(&[0, 1, 2, 255, 256, 257], 300) as u16;
            usize::from(arg2)
        }
        _ => 0,
    };
    let mut message = vec![0, host, 255, 0, cmd, pid];
    message.extend_from_slice(&arg1.to_be_bytes());
    message.extend_from_slice(&arg2.to_be_bytes());
    message.extend(random.bytes(string));
    message
}

/// Whether an answer uses PID, ARG1 and ARG2. What is wrong here makes an answer
/// that is refused, and no more.
fn used(cmd: u8) -> [bool; 3] {
    match cmd & 127 {
        64 => [true, true, false],
        4 | 6 | 7 | 8 => [true, true, true],
        9 => [true, true, false],
        0 => [false, false, false],
        12 => [cmd == 12, true, false],
        16 => [true, cmd == 16, cmd == 16],
        _ => [true, false, false],
    }
}

//! Reading the fuzzer's bytes: what each record stands for, as the head of target.rs says.

use crate::sides::Call;
use model::*;

pub struct Records<'a>(pub &'a [u8]);

impl Records<'_> {
    pub fn take(&mut self, n: usize) -> &[u8] {
        let (taken, rest) = self.0.split_at(n.min(self.0.len()));
        self.0 = rest;
        taken
    }

    pub fn next(&mut self) -> Option<[u8; 8]> {
        if self.0.is_empty() {
            return None;
        }
        let mut record = [0; 8];
        let taken = self.take(8);
        record[..taken.len()].copy_from_slice(taken);
        Some(record)
    }
}

pub fn word(high: u8, low: u8) -> u16 {
    u16::from_be_bytes([high, low])
}

/// One of the processes of which this holds, if there is one.
fn pick(by: u8, records: &State, test: impl Fn(&Process) -> bool) -> Option<u8> {
    let fit: Vec<u8> = (0..8).filter(|&p| test(&records.processes[usize::from(p)])).collect();
    fit.get(usize::from(by) % fit.len().max(1)).copied()
}

/// The address of one of a process's breakpoints, if it has any.
fn used_address(by: u8, process: &Process) -> Option<u16> {
    let used: Vec<u16> =
        process.breakpoints.iter().filter(|b| b.used()).map(|b| b.address).collect();
    used.get(usize::from(by) % used.len().max(1)).copied()
}

/// Where bits 3 and 5 move an address or a count to.
fn moved(first: u8, n: u16) -> u16 {
    const EDGES: [u16; 19] = [
        0, 1, 2, 16, 17, 18, 255, 256, 257, 1534, 1535, 1536, 4092, 4094, 4095, 4096, 4097, 65_534,
        65_535,
    ];
    match (first & 8 != 0, first & 32 != 0) {
        (_, true) => EDGES[usize::from(n) % EDGES.len()],
        (true, false) => n % 20,
        _ => n,
    }
}

/// The size that a CREATE asks for.
fn size_from(first: u8, n: u16, free: usize) -> u16 {
    let free = free.min(4096) as u16;
    let edges = [0, 2, 4094, 4096, free, free + 2, free.saturating_sub(2), 2048, 4098, 3];
    match first & 32 {
        0 => moved(first, n) % 4097 & !1,
        _ => edges[usize::from(n) % edges.len()],
    }
}

/// A request; with bit 6 the host that debugs a process asks for it, or, where the second byte is odd, the one that watches it, if one does; and UNBREAK
/// names one of its breakpoints.
pub fn request_from(r: [u8; 8], records: &State) -> Call {
    let free = MEMORY.saturating_sub(used_bytes(records));
    let (any, near, longer) = (r[0] & 128 != 0, r[0] & 8 != 0, r[0] & 16 != 0);
    let [_, mut host, mut cmd, mut pid, ..] = r;
    let (mut arg1, mut arg2) = (moved(r[0], word(r[4], r[5])), moved(r[0], word(r[6], r[7])));
    if !any {
        let processes = if near { 2 } else { 8 };
        host = [5, 5, 6, TEXT_HOST, PUP_HOST][usize::from(host) % 5];
        (cmd, pid) = (cmd % 17, pid % processes);
        if matches!(cmd, NOP | CREATE_PROCESS) {
            pid = 0;
        }
        match cmd {
            DEPOSIT | EXAMINE | DEPOSIT_STATE_VECTOR | BREAK | UNBREAK => {}
            CREATE_PROCESS => arg1 = size_from(r[0], word(r[4], r[5]), free),
            _ => arg1 = 0,
        }
        if !matches!(cmd, DEPOSIT | EXAMINE | DEPOSIT_STATE_VECTOR | BREAK) {
            arg2 = 0;
        }
    }
    let debugged = pick(r[3], records, |process| process.host != NOBODY).filter(|_| r[0] & 64 != 0);
    if let (Some(p), false) = (debugged, any || matches!(cmd, NOP | CREATE_PROCESS)) {
        let process = &records.processes[usize::from(p)];
        let watching = r[1] % 2 == 1 && process.watcher != NOBODY;
        pid = p;
        if watching || cmd != WATCH {
            host = if watching { process.watcher } else { process.host };
        }
        if cmd == UNBREAK {
            arg1 = used_address(r[5], process).unwrap_or(arg1);
        }
    }
    let string = match cmd {
        DEPOSIT | DEPOSIT_STATE_VECTOR => usize::from(arg2).min(LONGEST_STRING),
        _ => 0,
    };
    let [a, b] = arg1.to_be_bytes();
    let [c, d] = arg2.to_be_bytes();
    let mut message = vec![0, host, 255, 0, cmd, pid, a, b, c, d];
    message.extend((0..string + usize::from(longer)).map(|i| (i as u8).wrapping_mul(7) ^ r[1]));
    Call::Request { message }
}

/// A report; with bit 6 one that a machine is likely to make: a process that runs comes to one of its breakpoints, or has done its one
/// instruction.
pub fn report_from(r: [u8; 8], records: &State) -> Call {
    let (any, near) = (r[0] & 128 != 0, r[0] & 8 != 0);
    let [_, mut process, mut kind, ..] = r;
    let (mut reason, mut pc) = (word(r[3], r[4]), moved(r[0], word(r[5], r[6])));
    if !any {
        (process, kind) = (process % if near { 2 } else { 8 }, kind % 4);
        if kind != TRAP {
            reason = 0;
        }
    }
    let going = pick(r[1], records, |process| process.there && process.run.goes());
    if let (Some(p), false, true) = (going, any, r[0] & 64 != 0) {
        let running = &records.processes[usize::from(p)];
        pc = used_address(r[6], running).unwrap_or(pc);
        (process, reason) = (p, 0);
        kind = if running.run == Run::Running || r[2] & 1 == 0 { BPT } else { TTRAP };
    }
    let mut words: Vec<u8> = (0..VECTOR).map(|i| (i as u8).wrapping_mul(r[7])).collect();
    words[2 * PC..2 * PC + 2].copy_from_slice(&pc.to_le_bytes());
    let wide = |n: u64| n | if any { u64::from(r[7] & 1) << (8 + r[7] % 56) } else { 0 };
    let (process, kind) = (wide(process.into()), kind.into());
    Call::Report { process, kind, reason: reason.into(), words }
}

/// A line; with bit 6 to a process that host 253 debugs or watches.
pub fn line_from(r: [u8; 8], records: &State) -> Call {
    let (any, near) = (r[0] & 128 != 0, r[0] & 8 != 0);
    let request = if any { r[2] } else { LETTERS[usize::from(r[2]) % LETTERS.len()] };
    let ours = |process: &Process| [process.host, process.watcher].contains(&TEXT_HOST);
    let p = match pick(r[1], records, ours).filter(|_| r[0] & 64 != 0) {
        Some(p) => p,
        None if any => r[1],
        None => r[1] % if near { 2 } else { 8 },
    };
    let process = &records.processes[usize::from(p) % PROCESSES];
    let n = u32::from(moved(r[0], word(r[3], r[4])));
    let addr = match request {
        _ if any => n << (r[7] % 17),
        b'r' | b'R' => n % 10,
        b'c' | b's' => match r[3] % 4 {
            0 | 1 => 1,
            2 => used_address(r[4], process).unwrap_or(0).into(),
            _ => n,
        },
        // around the end of the process, or a multiple of 4
        _ if r[3] % 8 == 0 => {
            u32::from(process.size) + u32::from(r[4] % 16) - 8 * u32::from(process.size > 8)
        }
        _ => n & !3,
    };
    let data = u32::from(word(r[5], r[6])) << if any { r[7] % 17 } else { 0 };
    let mut line = [0; LONGEST_LINE];
    let length = write_line(p.into(), request, addr, data, &mut line);
    let mut text = line[..length].to_vec();
    spoil_line(r[7], r[6], &mut text);
    Call::Line { text }
}

/// A packet: the address is near the end of the process, at one of its breakpoints or any, and the ID is near that of the Go that waits. Bit 7 takes
/// any type, and makes type or ID wider at times.
pub fn packet_from(r: [u8; 8], records: &State) -> Call {
    let any = r[0] & 128 != 0;
    let process = &records.processes[usize::from(records.door) % PROCESSES];
    let kind = if any { r[1] } else { STORE + r[1] % 4 };
    let address = match r[2] % 4 {
        0 => (process.size / 2 + u16::from(r[3] % 80)).wrapping_sub(72),
        1 => used_address(r[3], process).unwrap_or(0) / 2,
        _ if any => word(r[2], r[3]),
        _ => moved(r[0], word(r[2], r[3])) / 2,
    };
    let third = match r[6] >> 4 {
        n @ 0..=8 => 1 << n,
        9 | 10 => u16::from(r[6]),
        n => [0, 3, 33, 257, 512][usize::from(n) - 11],
    };
    let words = [address, word(r[4], r[5]), third, 1, 2];
    let count = [3, 3, 3, 3, 2, 1, 0, 5][usize::from(r[6]) % 8];
    let go = process.go.id;
    let id = match r[7] % 8 {
        0..=2 => go.wrapping_add(1),
        3 | 4 => go,
        5 => go.wrapping_add(2),
        6 => u32::MAX,
        _ => r[7].into(),
    };
    let wide = |n: u64, bits: u8, bit: u8| match any && r[5] & bit != 0 {
        true => n | 1 << (bits + r[4] % (64 - bits)),
        false => n,
    };
    let words = if matches!(kind, GO | GO_REPLY) { Vec::new() } else { words[..count].to_vec() };
    Call::Packet { kind: wide(kind.into(), 8, 1), id: wide(id.into(), 32, 2), words }
}

/// Spoils a text in one place, as this byte says: mostly not.
fn spoil_line(by: u8, place: u8, text: &mut Vec<u8>) {
    let at = usize::from(place) % text.len();
    match by {
        240 => text.truncate(at),
        241 => text.insert(at, b' '),
        242 => text.insert(at, b'0'),
        243 => text.insert(at, b'\n'),
        244 => text.push(b'\n'),
        245 => text.insert(text.len() - 1, b'\r'),
        246 => text.make_ascii_uppercase(),
        247 => {
            text.remove(at);
        }
        248 => text[at] = place,
        249 => text.insert(at, place),
        _ => {}
    }
}

/// A desk's call: bit 6 reads the message that the record would ask with, as an answer; otherwise its fields are written, with bit 7 wider
/// by one bit.
pub fn desk_from(r: [u8; 8]) -> Call {
    let Call::Request { mut message } = request_from(r, &NONE_THERE) else { unreachable!() };
    if r[0] & 64 != 0 {
        message[4] = r[2];
        return Call::Read { message };
    }
    let word = |at: usize| u64::from(u16::from_be_bytes([message[at], message[at + 1]]));
    let mut fields = [message[1].into(), message[4].into(), message[5].into(), word(6), word(8)];
    if r[0] & 128 != 0 {
        fields[usize::from(r[1]) % FIELDS] |= 1 << (r[3] % 64);
    }
    Call::Write { fields, string: message.split_off(HEAD) }
}

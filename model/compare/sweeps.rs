//! Every value of a field, one after the other, the rest of the call being such as
//! is granted. So no single value of a byte, a word or a length goes unseen.

use crate::desk::BITS;
use crate::lent::Lent;
use crate::sides::{Call, Pair, Side};
use model::*;

/// Makes each call on what `start` set up: how many, or the first difference.
pub struct Sweep<'a> {
    base: Pair,
    pub pair: Pair,
    /// Counts a call.
    made: &'a mut dyn FnMut(&Call, &Side, i64),
}

/// The host that debugs processes 2 and 3; processes 0 to 6 are there.
pub const OWNER: u8 = 77;
pub const P: u8 = 2;

/// The feed process, and the sizes of all: those of 4 to 7 are at the edges. With all
/// but the last there, 4,586 bytes are free.
const FEED: u8 = 3;
const SIZES: [u16; PROCESSES] = [18, 2048, 4096, 1536, 2, 4, 4094, 4096];

pub fn message(host: u8, cmd: u8, pid: u8, arg1: u16, arg2: u16, string: usize) -> Vec<u8> {
    let [a, b] = arg1.to_be_bytes();
    let [c, d] = arg2.to_be_bytes();
    let mut message = vec![0, host, 255, 0, cmd, pid, a, b, c, d];
    message.extend((0..string).map(|i| i as u8));
    message
}

pub fn to(cmd: u8, arg1: u16, arg2: u16, string: usize) -> Call {
    Call::Request { message: message(OWNER, cmd, P, arg1, arg2, string) }
}

fn to_feed(cmd: u8, arg1: u16, arg2: u16, string: usize) -> Call {
    Call::Request { message: message(OWNER, cmd, FEED, arg1, arg2, string) }
}

fn start(there: u64, sizes: &[u16]) -> Call {
    Call::FreshStart { there, sizes: sizes.to_vec(), door: P.into() }
}

fn report(process: u64, kind: u64, reason: u64) -> Call {
    report_at(process, kind, reason, 256)
}

pub fn report_at(process: u64, kind: u64, reason: u64, pc: u16) -> Call {
    let words = vector_bytes(&[1, 2, 3, 4, 5, 6, 7, pc, 9]).to_vec();
    Call::Report { process, kind, reason, words }
}

fn write(fields: [u64; FIELDS], string: usize) -> Call {
    Call::Write { fields, string: vec![7; string] }
}

impl Sweep<'_> {
    pub fn all(made: &mut dyn FnMut(&Call, &Side, i64)) -> Result<(), String> {
        let memory: Vec<u8> = (0..MEMORY).map(|i| (i % 251) as u8).collect();
        let base = Pair::new(Side::new(&[1; STATE_BYTES], &memory, &[0xee; LONGEST]));
        let mut sweep = Sweep { pair: base.clone(), base, made };
        sweep.make(&start(0x7f, &SIZES))?;
        for call in [to(DEBUG, 0, 0, 0), to_feed(DEBUG, 0, 0, 0)] {
            sweep.make(&call)?;
        }
        for call in [to(BREAK, 256, 0, 0), to_feed(BREAK, 256, 0, 0)] {
            sweep.make(&call)?;
        }
        sweep.base = sweep.pair.clone();
        sweep.requests()?;
        sweep.sizes()?;
        sweep.creates()?;
        sweep.begins()?;
        sweep.hosts()?;
        sweep.reports()?;
        sweep.runs()?;
        sweep.lines()?;
        sweep.watches()?;
        sweep.statuses()?;
        sweep.packets()?;
        sweep.back();
        sweep.whys()?;
        sweep.lengths()?;
        sweep.starts()?;
        sweep.writes()?;
        sweep.reads()
    }

    pub fn make(&mut self, call: &Call) -> Result<i64, String> {
        let answer = self.pair.call(call)?;
        (self.made)(call, &self.pair.model, answer);
        Ok(answer)
    }

    /// A call on the state as it was set up.
    pub fn apart(&mut self, call: Call) -> Result<(), String> {
        self.make(&call)?;
        self.back();
        Ok(())
    }

    pub fn back(&mut self) {
        self.pair.clone_from(&self.base);
    }

    /// Makes the state at hand the one to go back to, and returns the one before.
    pub fn rebase(&mut self) -> Pair {
        std::mem::replace(&mut self.base, self.pair.clone())
    }

    /// Goes back to an earlier one.
    pub fn restore(&mut self, base: Pair) {
        self.base = base;
        self.back();
    }

    /// Each byte of the header, and each address and count.
    fn requests(&mut self) -> Result<(), String> {
        for cmd in [NOP, DEBUG, EXAMINE, BREAK, CREATE_PROCESS, WATCH, END_WATCH, STATUS] {
            for at in 0..HEAD {
                for byte in 0..=255 {
                    let pid = if matches!(cmd, NOP | CREATE_PROCESS) { 0 } else { P };
                    let mut message = message(OWNER, cmd, pid, 0, 0, 0);
                    message[at] = byte;
                    self.apart(Call::Request { message })?;
                }
            }
        }
        for n in 0..=u16::MAX {
            self.apart(to(EXAMINE, n, 2, 0))?;
            self.apart(to(EXAMINE, 0, n, 0))?;
            self.apart(to(DEPOSIT, n, 2, 2))?;
            self.apart(to(BREAK, n, 1, 0))?;
            self.apart(to(BREAK, 254, n, 0))?;
            self.apart(to(UNBREAK, n, 0, 0))?;
            self.apart(to(DEPOSIT_STATE_VECTOR, n, 2, 2))?;
        }
        Ok(())
    }

    /// Each address and count in the feed process, each size of a process in a fresh
    /// start and in a state's bytes, there and absent, and each number of sizes.
    fn sizes(&mut self) -> Result<(), String> {
        for n in 0..=u16::MAX {
            self.apart(to_feed(EXAMINE, n, 2, 0))?;
            self.apart(to_feed(EXAMINE, 1400, n, 0))?;
            self.apart(to_feed(DEPOSIT, n, 2, 2))?;
            self.apart(to_feed(BREAK, n, 1, 0))?;
            self.apart(to_feed(UNBREAK, n, 0, 0))?;
            let mut sizes = SIZES;
            sizes[usize::from(P)] = n;
            self.apart(start(1 << P, &sizes))?;
            self.apart(start(1 << FEED, &sizes))?;
            // with 12,290 bytes of others: 4,094 are left
            self.apart(start(0x1f, &[4096, 4096, n, 4096, 2, 2, 2, 2]))?;
            for p in [P, FEED, 6, 7] {
                let at = RECORD_BYTES * usize::from(p) + SIZE_AT;
                self.pair.change(|side| {
                    side.state.change()[at..at + 2].copy_from_slice(&n.to_le_bytes())
                });
                self.apart(to(EXAMINE, 1534, 2, 0))?;
            }
        }
        for count in 0..600 {
            self.apart(start(0x7f, &vec![2; count]))?;
        }
        Ok(())
    }

    /// Each size of a CREATE: with bytes for all, with few of them, and with no number
    /// free; with each number of free bytes of a kind; and each size of a DESTROY.
    fn creates(&mut self) -> Result<(), String> {
        let create =
            |size: u16| Call::Request { message: message(OWNER, CREATE_PROCESS, 0, size, 0, 0) };
        for n in 0..=u16::MAX {
            self.apart(create(n))?;
        }
        for (there, sizes) in [(0x0f, [4096, 4096, 4096, 2600, 2, 2, 2, 2]), (0xff, [2; 8])] {
            self.make(&start(there, &sizes))?;
            let base = self.rebase();
            for n in 0..=u16::MAX {
                self.apart(create(n))?;
            }
            self.restore(base);
        }
        for size in (2..=LARGEST).step_by(2) {
            self.make(&start(0x0f, &[4096, 4096, 2048, size, 2, 2, 2, 2]))?;
            // its free bytes at most, two more, and then none is free
            for asked in [6144 - size, 6146 - size, 2] {
                self.make(&create(asked.min(LARGEST)))?;
            }
            self.back();
            self.make(&start(0x0c, &[2, 2, size, 4096, 2, 2, 2, 2]))?;
            for call in [to(DEBUG, 0, 0, 0), to(DESTROY_PROCESS, 0, 0, 0)] {
                self.make(&call)?;
            }
            self.back();
        }
        Ok(())
    }

    /// Each begin of each process that is there, before a call that looks; and of the
    /// absent one, before that, a DESTROY, which leaves it, and a CREATE.
    fn begins(&mut self) -> Result<(), String> {
        for n in 0..=u16::MAX {
            for p in 0..7 {
                self.put_begin(p, n);
                self.apart(to(EXAMINE, 0, 2, 0))?;
            }
            self.put_begin(7, n);
            self.apart(to(DESTROY_PROCESS, 0, 0, 0))?;
            self.put_begin(7, n);
            self.make(&to(EXAMINE, 0, 2, 0))?;
            let message = message(OWNER, CREATE_PROCESS, 0, 2, 0, 0);
            self.apart(Call::Request { message })?;
        }
        Ok(())
    }

    fn put_begin(&mut self, p: u8, begin: u16) {
        let at = BEGINS_AT + 2 * usize::from(p);
        self.pair
            .change(|side| side.state.change()[at..at + 2].copy_from_slice(&begin.to_le_bytes()));
    }

    /// Each host debugs process 0, looks at it, is told that it trapped, and ends.
    fn hosts(&mut self) -> Result<(), String> {
        for host in 0..=255 {
            for (cmd, arg1, arg2) in [(DEBUG, 0, 0), (BREAK, 2, 0), (EXAMINE, 0, 4)] {
                self.make(&Call::Request { message: message(host, cmd, 0, arg1, arg2, 0) })?;
            }
            self.make(&report(0, TRAP.into(), 3))?;
            self.make(&Call::Request { message: message(host, END_DEBUG, 0, 0, 0, 0) })?;
            self.make(&Call::Request { message: message(host, CREATE_PROCESS, 0, 0, 0, 0) })?;
            self.back();
        }
        Ok(())
    }

    /// Each process, kind and reason of 16 bits, and each bit above them.
    fn reports(&mut self) -> Result<(), String> {
        let numbers = || (0..=u64::from(u16::MAX)).chain((16..64).map(|bit| 1 << bit));
        for n in numbers() {
            self.apart(report(n, HALT.into(), 0))?;
            self.apart(report(P.into(), n, 0))?;
            self.apart(report(P.into(), TRAP.into(), n))?;
            self.apart(report(P.into(), BPT.into(), n))?;
        }
        for bit in 8..64 {
            self.apart(report(u64::from(P) | 1 << bit, HALT.into(), 0))?;
            self.apart(report(P.into(), u64::from(BPT) | 1 << bit, 0))?;
            self.apart(report(P.into(), TRAP.into(), 5 | 1 << bit))?;
        }
        Ok(())
    }

    /// Each length of each buffer.
    fn lengths(&mut self) -> Result<(), String> {
        for length in 0..=MEMORY + 32_768 {
            self.pair.change(|side| side.memory = side.memory.resized(length));
            self.make(&to(EXAMINE, 0, 4, 0))?;
            self.back();
        }
        for length in 0..=3000 {
            self.pair.change(|side| side.output = side.output.resized(length));
            for call in [to(EXAMINE, 0, 4, 0), report(P.into(), TRAP.into(), 7)] {
                self.make(&call)?;
            }
            self.make(&write([5, 0, 0, 0, 0], 0))?;
            self.back();
            self.pair.change(|side| side.state = side.state.resized(length));
            for call in [to(EXAMINE, 0, 4, 0), report(9, 9, 9), start(7, &SIZES)] {
                self.make(&call)?;
            }
            self.back();
        }
        for length in 0..600 {
            self.apart(Call::Request { message: vec![0; length] })?;
            self.apart(to(DEPOSIT, 0, length as u16, length))?;
            let words = vec![1; length];
            self.apart(Call::Report { process: P.into(), kind: 0, reason: 0, words })?;
            self.apart(Call::Line { text: vec![b' '; length] })?;
        }
        Ok(())
    }

    fn starts(&mut self) -> Result<(), String> {
        for there in (0..1024).chain((8..64).map(|bit| 4 | 1 << bit)) {
            self.apart(start(there, &SIZES))?;
            self.apart(start(there, &[LARGEST; PROCESSES]))?;
            self.apart(start(there, &[2048; PROCESSES]))?;
        }
        Ok(())
    }

    /// Each value of each field of each op code, and each bit above it.
    fn writes(&mut self) -> Result<(), String> {
        for cmd in 0..=17 {
            let right = match cmd {
                4 | 6 | 7 | 8 => [5, cmd, 2, 3, 0],
                9 => [5, cmd, 2, 3, 0],
                0 | 12 => [5, cmd, 0, 0, 0],
                _ => [5, cmd, 2, 0, 0],
            };
            for (i, bits) in BITS.into_iter().enumerate() {
                let small = 0..if bits == 8 { 1024 } else { 1 << 9 };
                for n in small.chain((bits..64).map(|bit| right[i] | 1 << bit)) {
                    let mut fields = right;
                    fields[i] = n;
                    self.make(&write(fields, 0))?;
                }
            }
            for length in 0..600 {
                let mut fields = right;
                self.make(&write(fields, length))?;
                fields[4] = length as u64;
                self.make(&write(fields, length))?;
            }
        }
        for n in 0..=u64::from(u16::MAX) {
            self.make(&write([5, EXAMINE.into(), 2, n, 2], 0))?;
            self.make(&write([5, EXAMINE.into(), 2, 2, n], 0))?;
            self.make(&write([5, CREATE_PROCESS.into(), 0, n, 0], 0))?;
        }
        Ok(())
    }

    /// Each byte of the header of each answer, with each length of a string.
    fn reads(&mut self) -> Result<(), String> {
        for count in 0..12 {
            self.lend_fields(count);
            self.make(&Call::Read { message: message(5, NOP, 0, 0, 0, 0) })?;
        }
        self.lend_fields(FIELDS);
        for cmd in 0..=255 {
            for (pid, arg1, arg2) in [(0, 0, 0), (2, 0, 0), (2, 3, 0), (2, 3, 4), (0, 0, 4)] {
                for string in 0..30 {
                    let message = message(5, cmd, pid, arg1, arg2, string);
                    self.make(&Call::Read { message })?;
                }
            }
        }
        for (cmd, string) in [(NOP, 0), (EXAMINE, 4), (64, VECTOR), (134, 0), (STATUS, 0), (144, 0)]
        {
            for at in 0..HEAD {
                for byte in 0..=255 {
                    let arg2 = if cmd == EXAMINE { 4 } else { 0 };
                    let mut message = message(5, cmd, 0, 0, arg2, string);
                    message[at] = byte;
                    self.make(&Call::Read { message })?;
                }
            }
        }
        for n in 0..=u16::MAX {
            self.make(&Call::Read { message: message(5, EXAMINE, 2, n, 2, 2) })?;
            self.make(&Call::Read { message: message(5, 134, 2, 2, n, 0) })?;
            self.make(&Call::Read { message: message(5, CREATE_PROCESS, 2, n, 0, 0) })?;
            self.make(&Call::Read { message: message(5, 140, 0, n, 0, 0) })?;
            for cmd in [STATUS, 144] {
                self.make(&Call::Read { message: message(5, cmd, 2, n, 0, 0) })?;
                self.make(&Call::Read { message: message(5, cmd, 2, 0, n, 0) })?;
            }
        }
        for length in 0..600 {
            self.make(&Call::Read { message: message(5, EXAMINE, 2, 0, length as u16, length) })?;
        }
        Ok(())
    }

    fn lend_fields(&mut self, count: usize) {
        self.pair.change(|side| side.output = Lent::new(&vec![0xee; 2 * count], 0));
    }
}

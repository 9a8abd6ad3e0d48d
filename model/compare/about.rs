//! What a call is about, for the tests of passages.

use crate::sides::Call;
use model::*;

/// What a call is about: the process, PC as the call finds or brings it, and the
/// range from ARG1 of ARG2 bytes; of a packet, the word at its address. `cmd` is that of a request that passes tests
/// 3, 4 and 5, `asker` its host. Of a line in which PID and request can be read, `line` is what can be
/// read, and the range is that of the word at ADDR.
pub struct About<'a> {
    pub state: &'a State,
    pub memory: &'a [u8],
    pub length: usize,
    pub cmd: Option<u8>,
    pub asker: u8,
    pub kind: Option<u8>,
    pub line: Option<LineRead>,
    pub packet: Option<Sent>,
    pub tick: bool,
    pub pid: u8,
    pub p: usize,
    pub process: &'a Process,
    pub pc: u16,
    pub first: usize,
    pub count: usize,
}

/// A packet: type, ID, how many data words it has, and the first three, 0 where there are
/// fewer.
#[derive(Clone, Copy)]
pub struct Sent {
    pub kind: u64,
    pub id: u64,
    pub count: usize,
    pub words: [u16; 3],
}

/// The op code of a message that passes tests 3, 4 and 5.
fn cmd_of(m: &[u8]) -> Option<u8> {
    let right = (HEAD..=LONGEST).contains(&m.len())
        && [m[0], m[2], m[3]] == [0, 255, 0]
        && m[1] != NOBODY
        && m[4] <= STATUS;
    right.then(|| m[4])
}

impl<'a> About<'a> {
    pub fn new(state: &'a State, memory: &'a [u8], call: &Call) -> About<'a> {
        match call {
            Call::Report { process, kind, words, .. } => {
                let about = About::process(state, memory, (*process).min(255) as u8);
                let pc = u16::from_le_bytes([words[2 * PC], words[2 * PC + 1]]);
                About { kind: Some((*kind).min(255) as u8), pc, ..about }
            }
            Call::Request { message: m } => {
                let cmd = cmd_of(m);
                let byte = |at: usize| if cmd.is_some() { m[at] } else { 0 };
                let word = |at: usize| usize::from(byte(at)) << 8 | usize::from(byte(at + 1));
                let about = About::process(state, memory, byte(5));
                let (length, asker) = (m.len(), byte(1));
                About { length, cmd, asker, first: word(6), count: word(8), ..about }
            }
            Call::Line { text } => {
                let line = read_line(text);
                let pid = line.map_or(0, |line| line.pid.min(255) as u8);
                let first =
                    line.and_then(|line| line.arguments).map_or(0, |(addr, _)| addr as usize);
                let about = About::process(state, memory, pid);
                About { line, asker: TEXT_HOST, first, count: 4, ..about }
            }
            Call::Packet { kind, id, words } => {
                let first = words.iter().chain(&[0; 3]);
                let (mut three, count) = ([0; 3], words.len());
                three.iter_mut().zip(first).for_each(|(to, from)| *to = *from);
                let sent = Sent { kind: *kind, id: *id, count, words: three };
                let about = About::process(state, memory, state.door);
                let (packet, first) = (Some(sent), 2 * usize::from(three[0]));
                About { packet, asker: PUP_HOST, first, count: 2, ..about }
            }
            Call::Tick => About { tick: true, ..About::process(state, memory, state.door) },
            _ => About::process(state, memory, 0),
        }
    }

    pub fn process(state: &'a State, memory: &'a [u8], pid: u8) -> About<'a> {
        let p = usize::from(pid) % PROCESSES;
        let process = &state.processes[p];
        About {
            state,
            memory,
            length: 0,
            cmd: None,
            asker: NOBODY,
            kind: None,
            line: None,
            packet: None,
            tick: false,
            pid,
            p,
            process,
            pc: process.vector[PC],
            first: 0,
            count: 0,
        }
    }

    pub fn is(&self, cmd: u8) -> bool {
        self.cmd == Some(cmd)
    }

    pub fn asks(&self, cmd: u8, first: usize, count: usize) -> bool {
        self.is(cmd) && self.first == first && self.count == count
    }

    pub fn end(&self) -> usize {
        self.first + self.count
    }

    pub fn size(&self) -> usize {
        self.process.size.into()
    }

    /// Whether this is asked of a process of fewer than 4,096 bytes.
    pub fn small(&self, cmd: u8) -> bool {
        self.is(cmd) && self.process.size < LARGEST
    }

    /// Whether the range asked of such a process ends so far past its size.
    pub fn small_asks(&self, cmd: u8, past: usize) -> bool {
        self.small(cmd) && self.end() == self.size() + past
    }

    pub fn feed(&self) -> bool {
        self.size() == 1536
    }

    pub fn some(&self, test: impl Fn(&Breakpoint) -> bool) -> bool {
        self.process.breakpoints.iter().any(|b| b.used() && test(b))
    }

    pub fn used(&self) -> usize {
        self.process.breakpoints.iter().filter(|b| b.used()).count()
    }

    pub fn lifted(&self) -> bool {
        self.some(|b| b.lifted)
    }

    pub fn at_pc(&self) -> bool {
        self.some(|b| b.address == self.pc)
    }

    pub fn lifted_at_pc(&self) -> bool {
        self.some(|b| b.lifted && b.address == self.pc)
    }

    pub fn bpt(&self) -> bool {
        self.kind == Some(BPT)
    }

    /// Whether a BPT report is passed in silence.
    pub fn passes(&self) -> bool {
        self.bpt() && self.some(|b| b.address == self.pc && b.remaining > 0)
    }

    /// Whether there is such a breakpoint at ARG1.
    pub fn here(&self, test: impl Fn(&Breakpoint) -> bool) -> bool {
        self.some(|b| usize::from(b.address) == self.first && test(b))
    }

    pub fn known(&self) -> bool {
        self.here(|_| true)
    }

    /// Whether so many bytes of such a breakpoint's word lie in the range.
    pub fn over(&self, bytes: usize, test: impl Fn(&Breakpoint) -> bool) -> bool {
        let inside = |b: &Breakpoint| {
            let word = usize::from(b.address)..usize::from(b.address) + 2;
            word.filter(|at| (self.first..self.end()).contains(at)).count()
        };
        self.some(|b| inside(b) == bytes && test(b))
    }

    /// Whether the machine has stored into a planted word.
    pub fn written_over(&self, b: &Breakpoint) -> bool {
        self.written_over_in(self.process, b)
    }

    pub fn written_over_in(&self, process: &Process, b: &Breakpoint) -> bool {
        let at = usize::from(b.address);
        b.planted() && self.memory[process.place()][at..at + 2] != BPT_WORD
    }

    /// Whether a free entry stands before one in use.
    pub fn gap(&self) -> bool {
        self.process.breakpoints.windows(2).any(|pair| !pair[0].used() && pair[1].used())
    }

    pub fn lowest_free(&self) -> Option<&Breakpoint> {
        self.process.breakpoints.iter().find(|b| !b.used())
    }

    /// The number that CREATE gives.
    pub fn created(&self) -> Option<usize> {
        self.state.processes.iter().position(|process| !process.there)
    }

    /// Whether all but ARG1 passes test 6 in a CREATE.
    pub fn rest_is_right(&self) -> bool {
        self.length == HEAD && self.pid == 0 && self.count == 0
    }

    /// The size that CREATE asks for.
    pub fn asked(&self) -> usize {
        if self.first == 0 {
            LARGEST.into()
        } else {
            self.first
        }
    }

    /// Where CREATE asks for a new process, and what memory holds there.
    pub fn new_place(&self) -> &[u8] {
        let used = used_bytes(self.state);
        &self.memory[used..(used + self.asked()).min(MEMORY)]
    }

    /// What memory holds in the free end.
    pub fn free_end(&self) -> &[u8] {
        &self.memory[used_bytes(self.state)..]
    }

    pub fn free(&self) -> usize {
        free_bytes(self.state)
    }

    /// The numbers of those that lie above the process.
    pub fn above(&self) -> Vec<usize> {
        let above = |p: &usize| {
            let other = &self.state.processes[*p];
            other.there && other.begin > self.process.begin
        };
        (0..PROCESSES).filter(above).collect()
    }

    /// Whether this is a DESTROY that moves such a breakpoint.
    pub fn moves(&self, test: impl Fn(&Process, &Breakpoint) -> bool) -> bool {
        let has = |p: &usize| {
            let process = &self.state.processes[*p];
            process.breakpoints.iter().any(|b| b.used() && test(process, b))
        };
        self.is(DESTROY_PROCESS) && self.above().iter().any(has)
    }

    /// The bytes that a DESTROY moves.
    pub fn moved_bytes(&self) -> usize {
        used_bytes(self.state).saturating_sub(self.process.place().end)
    }
}

pub fn has_bytes(b: &Breakpoint) -> bool {
    b.lifted || b.address != 0 || b.remaining != 0 || b.saved != [0, 0]
}

/// Whether a free entry of the process is not all zero.
pub fn old(process: &Process) -> bool {
    process.breakpoints.iter().any(|b| !b.used() && has_bytes(b))
}

//! A call as the stand-in gets it, and the model's answer to it.

use model::*;

/// A call as the stand-in gets it.
pub enum Made<'a> {
    Start {
        there: u64,
        door: u64,
        sizes: &'a [u16],
        state: &'a mut [u8],
    },
    Request {
        state: &'a mut [u8],
        memory: &'a mut [u8],
        message: &'a [u8],
        reply: &'a mut [u8],
    },
    Report {
        state: &'a mut [u8],
        memory: &'a mut [u8],
        numbers: [u64; 3],
        words: &'a [u8],
        notice: &'a mut [u8],
        line: &'a mut [u8],
    },
    Line {
        state: &'a mut [u8],
        memory: &'a mut [u8],
        text: &'a [u8],
        line: &'a mut [u8],
    },
    Packet {
        state: &'a mut [u8],
        memory: &'a mut [u8],
        kind: u64,
        id: u64,
        words: &'a [u16],
        ack: &'a mut [u16],
    },
    Tick {
        state: &'a mut [u8],
    },
    Why {
        state: &'a mut [u8],
        message: &'a mut [u8],
        facts: &'a mut [u64],
    },
    Write {
        fields: [u64; FIELDS],
        string: &'a [u8],
        request: &'a mut [u8],
    },
    Read {
        message: &'a [u8],
        fields: &'a mut [u16],
    },
}

impl Made<'_> {
    /// The model's answer.
    pub fn right(&mut self) -> i64 {
        match self {
            Made::Start { there, sizes, door, state } => {
                fresh_start_bytes(*there, sizes, *door, state)
            }
            Made::Request { state, memory, message, reply } => {
                request_bytes(state, memory, message, reply)
            }
            Made::Report { state, memory, numbers: [p, k, r], words, notice, line } => {
                report_bytes(state, memory, *p, *k, *r, words, notice, line)
            }
            Made::Line { state, memory, text, line } => line_bytes(state, memory, text, line),
            Made::Packet { state, memory, kind, id, words, ack } => {
                packet_bytes(state, memory, *kind, *id, words, ack)
            }
            Made::Tick { state } => tick_bytes(state),
            Made::Why { state, message, facts } => why_bytes(state, message, facts),
            Made::Write { fields: [host, cmd, pid, arg1, arg2], string, request } => {
                write_request(*host, *cmd, *pid, *arg1, *arg2, string, request)
            }
            Made::Read { message, fields } => read_answer(message, fields),
        }
    }

    /// The model's answer to a message or a report that was changed first.
    pub fn changed(self, change: impl Fn(&mut Vec<u8>, &mut [u64; 3])) -> i64 {
        match self {
            Made::Request { state, memory, message, reply } => {
                let mut message = message.to_vec();
                change(&mut message, &mut [0; 3]);
                request_bytes(state, memory, &message, reply)
            }
            Made::Report { state, memory, mut numbers, words, notice, line } => {
                change(&mut Vec::new(), &mut numbers);
                let [p, k, r] = numbers;
                report_bytes(state, memory, p, k, r, words, notice, line)
            }
            mut made => made.right(),
        }
    }

    /// The bytes of the state that a call may change.
    pub fn state(&mut self) -> Option<&mut [u8]> {
        match self {
            Made::Start { state, .. }
            | Made::Request { state, .. }
            | Made::Report { state, .. }
            | Made::Line { state, .. }
            | Made::Packet { state, .. }
            | Made::Tick { state } => Some(state),
            _ => None,
        }
    }

    /// The records of the state of a call on one, if its bytes are a state's.
    pub fn records(&mut self) -> Option<State> {
        if matches!(self, Made::Start { .. }) {
            return None;
        }
        decode(self.state()?)
    }

    pub fn put(&mut self, records: &State) {
        if let Some(state) = self.state() {
            state.copy_from_slice(&encode(records));
        }
    }

    /// The memory of a call on a state.
    pub fn memory(&mut self) -> Option<&mut [u8]> {
        match self {
            Made::Request { memory, .. }
            | Made::Report { memory, .. }
            | Made::Line { memory, .. }
            | Made::Packet { memory, .. } => Some(memory),
            _ => None,
        }
    }

    /// The model's answer to a call on other records; nothing is written.
    pub fn on_other(mut self, records: &State) -> i64 {
        let mut state = encode(records);
        match self {
            Made::Request { memory, message, reply, .. } => {
                request_bytes(&mut state, &mut memory.to_vec(), message, &mut reply.to_vec())
            }
            Made::Report { memory, numbers: [p, k, r], words, notice, line, .. } => {
                let [mut memory, mut notice, mut line] = [memory, notice, line].map(|b| b.to_vec());
                report_bytes(&mut state, &mut memory, p, k, r, words, &mut notice, &mut line)
            }
            Made::Line { memory, text, line, .. } => {
                line_bytes(&mut state, &mut memory.to_vec(), text, &mut line.to_vec())
            }
            Made::Packet { memory, kind, id, words, ack, .. } => {
                packet_bytes(&mut state, &mut memory.to_vec(), kind, id, words, &mut ack.to_vec())
            }
            Made::Tick { .. } => tick_bytes(&mut state),
            _ => self.right(),
        }
    }

    /// A byte of the request's header.
    pub fn byte(&self, at: usize) -> Option<u8> {
        match self {
            Made::Request { message, .. } if message.len() >= HEAD => Some(message[at]),
            _ => None,
        }
    }

    /// ARG1 or ARG2 of the request.
    pub fn word(&self, at: usize) -> Option<u16> {
        Some(u16::from_be_bytes([self.byte(at)?, self.byte(at + 1)?]))
    }

    /// The model's answer, but for this number in place of that one.
    pub fn instead(&mut self, right: i64, wrong: i64) -> i64 {
        match self.right() {
            answer if answer == right => wrong,
            answer => answer,
        }
    }
}

/// The lengths of memory and output buffer.
pub fn lengths(made: &Made) -> Option<(usize, usize)> {
    match made {
        Made::Request { memory, reply: output, .. }
        | Made::Report { memory, notice: output, .. } => Some((memory.len(), output.len())),
        _ => None,
    }
}

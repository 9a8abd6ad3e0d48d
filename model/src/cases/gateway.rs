//! A gateway that the cases ask.

use super::*;

/// A gateway: a state, its memory, a reply buffer, a line buffer and the words of an
/// acknowledgement.
pub struct Gateway {
    pub state: State,
    pub memory: Vec<u8>,
    pub output: Vec<u8>,
    pub line: Vec<u8>,
    pub ack: Vec<u16>,
}

/// A byte that no case writes, to see which bytes are touched.
pub const UNTOUCHED: u8 = 0xa5;

/// A word that no case writes.
pub const UNTOUCHED_WORD: u16 = 0xa5a5;

/// Sizes of processes as large as there are: four of them have room.
pub const FULL: [u16; PROCESSES] = [LARGEST; PROCESSES];

/// K9: "P11's eight have 2,048 bytes each."
pub const EIGHT: [u16; PROCESSES] = [2048; PROCESSES];

/// K2: "The cheap gateway's feed process has 1,536 bytes"
pub const FEED: u16 = 1536;

impl Gateway {
    pub fn new(there: u8) -> Gateway {
        Gateway::with_sizes(there, &FULL)
    }

    pub fn with_sizes(there: u8, sizes: &[u16; PROCESSES]) -> Gateway {
        Gateway::with_door(there, sizes, NO_DOOR)
    }

    pub fn with_door(there: u8, sizes: &[u16; PROCESSES], door: u8) -> Gateway {
        Gateway {
            state: fresh_start(there, sizes, door).unwrap(),
            memory: vec![0; MEMORY],
            output: vec![UNTOUCHED; LONGEST],
            line: vec![UNTOUCHED; LONGEST_LINE],
            ack: vec![UNTOUCHED_WORD; ACK_WORDS + 1],
        }
    }

    /// Process 2 alone, debugged by host 5.
    pub fn debugged() -> Gateway {
        let mut gateway = Gateway::new(1 << 2);
        assert_eq!(gateway.ask(5, DEBUG, 2, 0, 0, &[]), 10);
        gateway
    }

    /// The feed process alone, as process 2, debugged by host 5. No byte of the memory
    /// is zero.
    pub fn feed() -> Gateway {
        let mut gateway = Gateway::with_sizes(1 << 2, &[FEED; PROCESSES]);
        gateway.memory.fill(77);
        assert_eq!(gateway.ask(5, DEBUG, 2, 0, 0, &[]), 10);
        gateway
    }

    pub fn send(&mut self, message: &[u8]) -> i64 {
        self.output.fill(UNTOUCHED);
        request(&mut self.state, &mut self.memory, message, &mut self.output)
    }

    pub fn ask(&mut self, host: u8, cmd: u8, pid: u8, arg1: u16, arg2: u16, string: &[u8]) -> i64 {
        self.send(&message(host, cmd, pid, arg1, arg2, string))
    }

    pub fn report(&mut self, process: u64, kind: impl Into<u64>, reason: u64, pc: u16) -> i64 {
        self.output.fill(UNTOUCHED);
        self.line.fill(UNTOUCHED);
        let (words, kind) = (words_with(pc), kind.into());
        let (state, memory) = (&mut self.state, &mut self.memory);
        let (notice, line) = (&mut self.output, &mut self.line);
        report(state, memory, process, kind, reason, &words, notice, line)
    }

    /// A line of the bench, without its newline.
    pub fn line(&mut self, text: &str) -> i64 {
        self.raw(format!("{text}\n").as_bytes())
    }

    pub fn raw(&mut self, text: &[u8]) -> i64 {
        self.line.fill(UNTOUCHED);
        line(&mut self.state, &mut self.memory, text, &mut self.line)
    }

    /// A packet at the Pup door.
    pub fn packet(&mut self, kind: impl Into<u64>, id: impl Into<u64>, words: &[u16]) -> i64 {
        self.ack.fill(UNTOUCHED_WORD);
        let (state, memory, ack) = (&mut self.state, &mut self.memory, &mut self.ack);
        packet(state, memory, kind.into(), id.into(), words, ack)
    }

    /// The words of the acknowledgement, and a test that none past them is touched.
    pub fn acked(&self, count: usize) -> &[u16] {
        assert!(self.ack[count..].iter().all(|&word| word == UNTOUCHED_WORD));
        &self.ack[..count]
    }

    /// So many ticks, all granted.
    #[track_caller]
    pub fn ticks(&mut self, count: usize) {
        for _ in 0..count {
            assert_eq!(tick(&mut self.state), 0);
        }
    }

    /// The line that was written, without its newline, and a test that no byte past it is
    /// touched; nothing where none was written.
    pub fn answered(&self) -> &str {
        let length = self.line.iter().position(|&b| b == b'\n').map_or(0, |at| at + 1);
        assert!(self.line[length..].iter().all(|&b| b == UNTOUCHED));
        std::str::from_utf8(&self.line[..length]).unwrap().trim_end_matches('\n')
    }

    /// The bytes written, and a test that none past them is touched.
    pub fn written(&self, length: usize) -> &[u8] {
        assert!(self.output[length..].iter().all(|&b| b == UNTOUCHED));
        &self.output[..length]
    }

    pub fn process(&mut self) -> &mut Process {
        &mut self.state.processes[2]
    }

    /// The two bytes that memory holds at an address of process 2.
    pub fn held(&self, address: usize) -> [u8; 2] {
        let at = self.state.processes[2].place().start + address;
        [self.memory[at], self.memory[at + 1]]
    }

    pub fn store(&mut self, address: usize, bytes: [u8; 2]) {
        let at = self.state.processes[2].place().start + address;
        self.memory[at..at + 2].copy_from_slice(&bytes);
    }
}

pub fn message(host: u8, cmd: u8, pid: u8, arg1: u16, arg2: u16, string: &[u8]) -> Vec<u8> {
    let mut bytes = vec![0; HEAD];
    write_head(&mut bytes, host, cmd, pid, arg1, arg2);
    bytes.extend_from_slice(string);
    bytes
}

/// Makes a process's number of breakpoints true again.
pub fn count_again(process: &mut Process) {
    process.set = process.breakpoints.iter().filter(|b| b.used()).count() as u8;
}

pub fn words_with(pc: u16) -> [u16; WORDS] {
    [0x0102, 1, 2, 3, 4, 5, 6, pc, 8]
}

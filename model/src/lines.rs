//! K7, "The bench's text debugger": a line that asks, the answer to a `c` or an `s` that
//! is owed, and when it is given.

use super::*;

/// "as host 253"
pub const TEXT_HOST: u8 = 253;

/// What a process owes host 253: "Both are answered when a report next stops or ends the
/// process".
#[derive(Clone, Copy, PartialEq, Eq, Debug)]
pub enum Owed {
    Nothing = 0,
    Continue = 1,
    Step = 2,
}

impl Owed {
    /// Every one, in the order of its number in a state's bytes.
    pub const ALL: [Owed; 3] = [Owed::Nothing, Owed::Continue, Owed::Step];

    /// The request that is to be answered, if any is.
    pub fn letter(self) -> Option<u8> {
        match self {
            Owed::Nothing => None,
            Owed::Continue => Some(b'c'),
            Owed::Step => Some(b's'),
        }
    }
}

/// "then as errno [..], the number being 100 more"
type Errno = u32;

/// "1 no right"
const NO_RIGHT_TO: Errno = 1;
/// "3 no such process"
const NO_PROCESS: Errno = 3;
/// "14 outside or not aligned (a new PC: odd or outside)"
const BAD_ADDRESS: Errno = 14;
/// "16 an answer owed, whatever is asked"
const OWED: Errno = 16;
/// "22 anything else in the line unreadable", and "22 wrong state or a register value
/// over 65,535"
const INVALID: Errno = 22;

/// "with the flag 0xffffffff"
const FLAG: u32 = 0xffff_ffff;

/// An address that is "1" leaves PC as it is.
const HERE: u32 = 1;

/// The bytes of a word: "Words are four seen bytes".
const LONG: usize = 4;

/// A line: the length of the line that is written, 0 for a granted `c` or `s`, or minus
/// the refusal's number. "Refusals: silent, 1 [..], 2, and 6 a PID or request that cannot
/// be read; then as errno [..] in that order"; those write a line too.
pub fn line(state: &mut State, memory: &mut [u8], text: &[u8], buffer: &mut [u8]) -> i64 {
    // "1 asks 35 bytes of line buffer"
    if memory.len() != MEMORY || buffer.len() < LONGEST_LINE {
        return -WRONG_BUFFER;
    }
    if !sound(state) {
        return -NOT_SOUND;
    }
    let Some(asked) = read_line(text) else {
        return -WRONG_FIELDS;
    };
    match obey(state, memory, &asked) {
        Ok(None) => 0,
        Ok(Some(response)) => write_line(asked.pid, asked.request, 0, response, buffer) as i64,
        Err(errno) => {
            write_line(asked.pid, asked.request, FLAG, errno, buffer);
            -(100 + Refusal::from(errno))
        }
    }
}

/// The tests as errno, and what the line does; nothing is answered at once to `c` and `s`.
fn obey(state: &mut State, memory: &mut [u8], asked: &LineRead) -> Result<Option<u32>, Errno> {
    let (addr, data) = asked.arguments.ok_or(INVALID)?;
    let p = usize::try_from(asked.pid).map_err(|_| NO_PROCESS)?;
    let process = match state.processes.get_mut(p) {
        Some(process) if process.there => process,
        _ => return Err(NO_PROCESS),
    };
    // K5 and K7: "A watcher may only `i` and `d`."
    let watches = process.watcher == TEXT_HOST && matches!(asked.request, b'i' | b'd');
    if process.host != TEXT_HOST && !watches {
        return Err(NO_RIGHT_TO);
    }
    if process.owed != Owed::Nothing {
        return Err(OWED);
    }
    let space = &mut memory[process.place()];
    match asked.request {
        b'i' | b'd' => process.long(space, addr, None).map(Some),
        b'I' | b'D' => process.long(space, addr, Some(data)).map(Some),
        b'r' => process.register(addr).map(|register| Some((*register).into())),
        b'R' => {
            // "a register value over 65,535", before the register's number
            let value = u16::try_from(data).map_err(|_| INVALID)?;
            let register = process.register(addr)?;
            Ok(Some(std::mem::replace(register, value).into()))
        }
        _ => process.go(space, asked.request, addr).map(|()| None),
    }
}

impl Process {
    /// "Words are four seen bytes, at addresses divisible by 4, low byte first". What is
    /// there, before another word is stored if one is given: "Reply returns previous
    /// contents of ADDR".
    fn long(&mut self, space: &mut [u8], addr: u32, new: Option<u32>) -> Result<u32, Errno> {
        let first = usize::try_from(addr).map_err(|_| BAD_ADDRESS)?;
        if first % LONG != 0 || first >= space.len() || space.len() - first < LONG {
            return Err(BAD_ADDRESS);
        }
        self.exchange_planted(space);
        let word = &mut space[first..first + LONG];
        let old = u32::from_le_bytes([word[0], word[1], word[2], word[3]]);
        if let Some(new) = new {
            word.copy_from_slice(&new.to_le_bytes());
        }
        self.exchange_planted(space);
        Ok(old)
    }

    /// "registers are 0 to 8 in vector order, 16 bits"
    fn register(&mut self, addr: u32) -> Result<&mut u16, Errno> {
        let register = usize::try_from(addr).map_err(|_| BAD_ADDRESS)?;
        self.vector.get_mut(register).ok_or(BAD_ADDRESS)
    }

    /// "`c` acts as RESUME, or as PROCEED BPT at a breakpoint, and `s` as SINGLE STEP; an
    /// address other than 1 becomes the PC first."
    fn go(&mut self, space: &mut [u8], request: u8, addr: u32) -> Result<(), Errno> {
        if !self.run.waits() {
            return Err(INVALID);
        }
        self.vector[PC] = self.new_pc(addr)?;
        match (request, self.run) {
            (b's', _) => self.single_step(space),
            (_, Run::AtBreakpoint) => self.proceed(space),
            _ => self.run = Run::Running,
        }
        self.owed = if request == b's' { Owed::Step } else { Owed::Continue };
        Ok(())
    }

    /// "a new PC: odd or outside" is refused: a word has to have room there.
    fn new_pc(&self, addr: u32) -> Result<u16, Errno> {
        if addr == HERE {
            return Ok(self.vector[PC]);
        }
        let inside = |pc: &u16| self.takes_breakpoint(*pc);
        u16::try_from(addr).ok().filter(inside).ok_or(BAD_ADDRESS)
    }

    /// Gives the owed answer, if there is one, at a report that stops or ends the process:
    /// "with 127 plus 256 times the signal: 5 for BPT and TTRAP, 4 for TRAP; for HALT with
    /// 0". Returns the line's length.
    pub(super) fn answer_owed(&mut self, pid: u8, kind: u8, buffer: &mut [u8]) -> usize {
        let Some(request) = std::mem::replace(&mut self.owed, Owed::Nothing).letter() else {
            return 0;
        };
        let response = match kind {
            HALT => 0,
            TRAP => 127 + 256 * 4,
            _ => 127 + 256 * 5,
        };
        write_line(pid.into(), request, 0, response, buffer)
    }
}

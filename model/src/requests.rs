//! A request: tests 3 to 13, 15 and 16 in their order, and what each op code does.

use super::*;

/// A message that has passed tests 3 to 6.
pub(super) struct Asked<'a> {
    pub host: u8,
    pub cmd: u8,
    pub pid: u8,
    pub arg1: u16,
    pub arg2: u16,
    pub string: &'a [u8],
}

/// What a granted request's reply carries besides the request's HOST and CMD.
struct Done {
    pid: u8,
    arg1: u16,
    arg2: u16,
    string: usize,
}

impl Done {
    /// "Reply: the request's CMD, PID, ARG1, ARG2, with the asker in HOST."
    fn reply(asked: &Asked) -> Done {
        Done { pid: asked.pid, arg1: asked.arg1, arg2: asked.arg2, string: 0 }
    }
}

/// A request: the granted length, or minus the refusal's number. "The
/// lowest-numbered test that fails gives the answer"
pub fn request(state: &mut State, memory: &mut [u8], message: &[u8], reply: &mut [u8]) -> i64 {
    if let Err(number) = lent(memory, reply) {
        return -number;
    }
    if !sound(state) {
        return -NOT_SOUND;
    }
    let asked = match read(message) {
        Ok(asked) => asked,
        Err(number) => return -number,
    };
    let (head, string) = reply.split_at_mut(HEAD);
    match obey(state, memory, &asked, string) {
        Ok(done) => {
            write_head(head, asked.host, asked.cmd, done.pid, done.arg1, done.arg2);
            (HEAD + done.string) as i64
        }
        // "CAN'T adds 128 to CMD." K6: "A CAN'T has zeros", as the request has then
        Err(number) => {
            write_head(head, asked.host, asked.cmd + CANT, asked.pid, asked.arg1, asked.arg2);
            -number
        }
    }
}

/// Tests 3 to 6.
pub(super) fn read(message: &[u8]) -> Result<Asked<'_>, Refusal> {
    // 3: "message under 10 or over 266 bytes"
    if message.len() < HEAD || message.len() > LONGEST {
        return Err(WRONG_LENGTH);
    }
    // 4: "TYPE, LINK or STYPE wrong, or HOST 0"
    if message[0] != 0 || message[1] == NOBODY || message[2] != 255 || message[3] != 0 {
        return Err(WRONG_HEAD);
    }
    // 5: "CMD not a known op code"
    let Some(uses) = USES.get(usize::from(message[4])) else {
        return Err(UNKNOWN_CMD);
    };
    let asked = Asked {
        host: message[1],
        cmd: message[4],
        pid: message[5],
        arg1: u16::from_be_bytes([message[6], message[7]]),
        arg2: u16::from_be_bytes([message[8], message[9]]),
        string: &message[HEAD..],
    };
    // 6: "unused field not zero, or string of wrong length"
    if !fields_fit(&asked, uses) {
        return Err(WRONG_FIELDS);
    }
    Ok(asked)
}

/// "Unused fields are zero. Only 4 and 7 carry a string, of exactly ARG2
/// bytes." K9: "6, at the desk too, an odd or greater size"
pub(super) fn fields_fit(asked: &Asked, uses: &Uses) -> bool {
    let string = if uses.string { usize::from(asked.arg2) } else { 0 };
    (uses.pid || asked.pid == 0)
        && (uses.arg1 || asked.arg1 == 0)
        && (uses.arg2 || asked.arg2 == 0)
        && asked.string.len() == string
        && size_fits(asked.cmd, asked.arg1)
}

/// Tests 7 to 13, 15 and 16, and what the request does.
fn obey(
    state: &mut State,
    memory: &mut [u8],
    asked: &Asked,
    string: &mut [u8],
) -> Result<Done, Refusal> {
    match asked.cmd {
        // RFC 643: "It has no effect on any process"
        NOP => Ok(Done::reply(asked)),
        CREATE_PROCESS => {
            // test 6 has passed its size
            let size = asked_size(asked.arg1).ok_or(WRONG_FIELDS)?;
            // "CREATED carries the new number in PID."
            let pid = create(state, memory, asked.host, size)?;
            Ok(Done { pid, ..Done::reply(asked) })
        }
        _ => {
            let process = named(state, asked.pid)?;
            process.has_right(asked.host, asked.cmd)?;
            process.unwatched_by_others(asked.host, asked.cmd)?;
            run_state_fits(process, asked.cmd)?;
            if asked.cmd == DESTROY_PROCESS {
                destroy(state, memory, usize::from(asked.pid));
                return Ok(Done::reply(asked));
            }
            // K6: "answers it in ARG1", the number of breakpoints, "the run state in ARG2 (0
            // to 4 in document 01's listed order, 5 passing)"
            if asked.cmd == STATUS {
                let (arg1, arg2) = (process.set.into(), process.run as u16);
                return Ok(Done { arg1, arg2, ..Done::reply(asked) });
            }
            let string = process.obey(&mut memory[process.place()], asked, string)?;
            Ok(Done { string, ..Done::reply(asked) })
        }
    }
}

/// 7: "named process absent, or number over 7"
pub(super) fn named(state: &mut State, pid: u8) -> Result<&mut Process, Refusal> {
    match state.processes.get_mut(usize::from(pid)) {
        Some(process) if process.there => Ok(process),
        _ => Err(ABSENT),
    }
}

/// 9: "wrong run state". "RESUME, SINGLE STEP: from stopped or at a
/// breakpoint". "PROCEED BPT: only at a breakpoint". K3, of passing: "RESUME, SINGLE
/// STEP and PROCEED BPT give 9". No other request asks for a run state.
pub(super) fn run_state_fits(process: &Process, cmd: u8) -> Result<(), Refusal> {
    let fits = match cmd {
        RESUME | SINGLE_STEP => process.run.waits(),
        PROCEED_BPT => process.run == Run::AtBreakpoint,
        _ => true,
    };
    if fits {
        return Ok(());
    }
    Err(WRONG_RUN)
}

impl Process {
    /// What a request to this process does once tests 7, 8, 15 and 9 are passed;
    /// the length of the reply's string.
    fn obey(
        &mut self,
        space: &mut [u8],
        asked: &Asked,
        string: &mut [u8],
    ) -> Result<usize, Refusal> {
        match asked.cmd {
            // "DEBUG: the asker debugs it; granted again to the same host."
            DEBUG => self.host = asked.host,
            END_DEBUG => self.end_debug(space),
            STOP => self.stop(space),
            DEPOSIT => self.deposit(space, asked)?,
            // "RESUME [..] to running"
            RESUME => self.run = Run::Running,
            EXAMINE => return self.examine(space, asked, string),
            DEPOSIT_STATE_VECTOR => self.deposit_vector(asked)?,
            BREAK => self.set_breakpoint(space, asked)?,
            UNBREAK => self.clear_breakpoint(space, asked)?,
            SINGLE_STEP => self.single_step(space),
            WATCH => self.watcher = asked.host,
            END_WATCH => self.end_watch(space),
            // 11 PROCEED BPT, the last of those that change one process alone
            _ => self.proceed(space),
        }
        Ok(0)
    }

    /// "END DEBUG: all breakpoints go, planted words put back; nobody debugs
    /// it. Stopped, at a breakpoint or stepping becomes running; ended stays."
    /// K3: passing becomes running too. "a freed entry is all zero": so are all
    /// eight, and K6: none is set. K7: "STOP, END DEBUG and DESTROY cancel an owed answer". K5: "END DEBUG and
    /// DESTROY end the watch". K1: another packet abandons the Go, "and so do END DEBUG and
    /// DESTROY".
    fn end_debug(&mut self, space: &mut [u8]) {
        for breakpoint in &mut self.breakpoints {
            breakpoint.free(space);
        }
        self.set = 0;
        self.host = NOBODY;
        self.watcher = NOBODY;
        self.owed = Owed::Nothing;
        self.go = NO_GO;
        if self.run != Run::Ended {
            self.run = Run::Running;
        }
    }

    /// "STOP: running or stepping becomes stopped, and a lifted breakpoint is
    /// planted again. Other states stay." K3, of passing: "STOP makes it stopped". K7: it
    /// cancels "an owed answer", in any run state.
    fn stop(&mut self, space: &mut [u8]) {
        self.owed = Owed::Nothing;
        if self.run.goes() {
            self.run = Run::Stopped;
            self.plant_lifted(space);
        }
    }

    /// "DEPOSIT, EXAMINE: seen bytes from ARG1; ARG1 + ARG2 at most 4,096. A
    /// byte under a planted breakpoint goes to the saved word." K2: "10 reads
    /// against the size"
    fn deposit(&mut self, space: &mut [u8], asked: &Asked) -> Result<(), Refusal> {
        if !within(asked.arg1, asked.arg2, self.size.into()) {
            return Err(OUTSIDE);
        }
        let first = usize::from(asked.arg1);
        self.exchange_planted(space);
        space[first..first + asked.string.len()].copy_from_slice(asked.string);
        self.exchange_planted(space);
        Ok(())
    }

    /// "CONTENTS (reply to 6) appends the ARG2 bytes."
    fn examine(
        &mut self,
        space: &mut [u8],
        asked: &Asked,
        string: &mut [u8],
    ) -> Result<usize, Refusal> {
        let count = usize::from(asked.arg2);
        if !within(asked.arg1, asked.arg2, self.size.into()) || count > LONGEST_STRING {
            return Err(OUTSIDE);
        }
        let first = usize::from(asked.arg1);
        self.exchange_planted(space);
        string[..count].copy_from_slice(&space[first..first + count]);
        self.exchange_planted(space);
        Ok(count)
    }

    /// "DEPOSIT STATE VECTOR: from byte ARG1; ARG1 + ARG2 at most 18; in any
    /// run state." The vector is "18 bytes, low byte first".
    fn deposit_vector(&mut self, asked: &Asked) -> Result<(), Refusal> {
        if !within(asked.arg1, asked.arg2, VECTOR) {
            return Err(OUTSIDE);
        }
        let first = usize::from(asked.arg1);
        let mut bytes = vector_bytes(&self.vector);
        bytes[first..first + asked.string.len()].copy_from_slice(asked.string);
        self.vector = vector_from(&bytes);
        Ok(())
    }

    /// "BREAK: count ARG2; at an existing address only the count changes."
    fn set_breakpoint(&mut self, space: &mut [u8], asked: &Asked) -> Result<(), Refusal> {
        // 10: "BREAK address odd"; K2: "BREAK at most size − 2"
        if !self.takes_breakpoint(asked.arg1) {
            return Err(OUTSIDE);
        }
        if let Some(breakpoint) = self.at(asked.arg1) {
            breakpoint.set_by(asked.host)?;
            breakpoint.remaining = asked.arg2;
            return Ok(());
        }
        let room = self.room_for(asked.host);
        // "A new breakpoint takes the lowest free of the eight entries"
        // 11: "eight breakpoints and a ninth asked"
        let Some(entry) = self.breakpoints.iter_mut().find(|b| !b.used() && room) else {
            return Err(NINTH);
        };
        *entry =
            Breakpoint { setter: asked.host, address: asked.arg1, remaining: asked.arg2, ..FREE };
        entry.plant(space);
        self.set += 1;
        Ok(())
    }

    /// "UNBREAK puts the word back if it is planted." K3: the run state stays, passing
    /// too, since it "is entered only where a breakpoint was lifted".
    fn clear_breakpoint(&mut self, space: &mut [u8], asked: &Asked) -> Result<(), Refusal> {
        // 12: "no breakpoint at that address"
        let Some(breakpoint) = self.at(asked.arg1) else {
            return Err(NO_BREAKPOINT);
        };
        breakpoint.set_by(asked.host)?;
        breakpoint.free(space);
        self.set -= 1;
        Ok(())
    }

    /// "SINGLE STEP at a breakpoint first lifts the breakpoint at PC, if there
    /// is one."
    pub(super) fn single_step(&mut self, space: &mut [u8]) {
        if self.run == Run::AtBreakpoint {
            self.lift_at_pc(space);
        }
        self.run = Run::Stepping;
    }

    /// "PROCEED BPT: only at a breakpoint; lifts the one at PC, if there, then
    /// running." K3: passing, "entered only where a breakpoint was lifted".
    pub(super) fn proceed(&mut self, space: &mut [u8]) {
        let lifted = self.lift_at_pc(space);
        self.run = if lifted { self.run.after_lift() } else { Run::Running };
    }
}

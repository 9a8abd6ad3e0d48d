//! K8, "Why was I refused?": the first test that a request fails, "in the order as amended
//! with its facts". It looks at the state alone, "test 1 taken as passed", and changes
//! nothing.

use super::*;
use requests::read;

/// Of 10: "which limit (the first passed of the end, 256, BREAK's last address)".
#[derive(Clone, Copy, PartialEq, Eq, Debug)]
pub enum Limit {
    /// The end of the process, or of the vector.
    End = 0,
    /// The 256 bytes that an EXAMINE may ask for.
    Count = 1,
    /// The last address at which BREAK may set a breakpoint.
    Last = 2,
}

/// "says granted, or names the first failing test [..] with its facts"
#[derive(Clone, Copy, PartialEq, Eq, Debug)]
pub enum Reason {
    Granted,
    /// "3 the length"
    Length(usize),
    /// "8 who debugs it", nobody too
    Debugger(u8),
    /// "9 what run state"
    RunState(Run),
    /// "10 which limit [..] by how much, 0 if only odd"
    Passed(Limit, u32),
    /// "11 whether 8 or 4"
    Full(usize),
    /// "15 the watcher"
    Watcher(u8),
    /// "16 who set it"
    Setter(u8),
    /// "others none"
    Other(Refusal),
}

/// How many numbers tell the facts.
pub const FACTS: usize = 2;

impl Reason {
    /// 0 for granted, or the number of the test.
    pub fn number(self) -> i64 {
        match self {
            Reason::Granted => 0,
            Reason::Length(_) => WRONG_LENGTH,
            Reason::Debugger(_) => NO_RIGHT,
            Reason::RunState(_) => WRONG_RUN,
            Reason::Passed(..) => OUTSIDE,
            Reason::Full(_) => NINTH,
            Reason::Watcher(_) => WATCHED,
            Reason::Setter(_) => THE_OTHERS,
            Reason::Other(number) => number,
        }
    }

    /// The facts as two numbers, 0 where there is none.
    pub fn facts(self) -> [u64; FACTS] {
        match self {
            Reason::Granted | Reason::Other(_) => [0, 0],
            Reason::Length(n) | Reason::Full(n) => [n as u64, 0],
            Reason::Debugger(host) | Reason::Watcher(host) | Reason::Setter(host) => {
                [host.into(), 0]
            }
            Reason::RunState(run) => [run as u64, 0],
            Reason::Passed(limit, excess) => [limit as u64, excess.into()],
        }
    }
}

/// Why a request would be refused, or that it would be granted.
pub fn why(state: &State, message: &[u8]) -> Reason {
    match first_failing(state, message) {
        Ok(()) => Reason::Granted,
        Err(reason) => reason,
    }
}

/// Tests 2 to 16, each with its facts.
fn first_failing(state: &State, message: &[u8]) -> Result<(), Reason> {
    if !sound(state) {
        return Err(Reason::Other(NOT_SOUND));
    }
    let asked = read(message).map_err(|number| match number {
        WRONG_LENGTH => Reason::Length(message.len()),
        number => Reason::Other(number),
    })?;
    match asked.cmd {
        NOP => Ok(()),
        CREATE_PROCESS => may_create(state, asked.arg1),
        _ => {
            let process = state.processes.get(usize::from(asked.pid));
            let process = process.filter(|process| process.there);
            process.ok_or(Reason::Other(ABSENT))?.first_failing(&asked)
        }
    }
}

/// 13: "exactly when all numbers are taken or free bytes are fewer than the size"
fn may_create(state: &State, arg1: u16) -> Result<(), Reason> {
    let taken = state.processes.iter().all(|process| process.there);
    // test 6 has passed the size
    let size = asked_size(arg1).map_or(0, usize::from);
    if taken || free_bytes(state) < size {
        return Err(Reason::Other(NO_ROOM));
    }
    Ok(())
}

/// So much more than the most that a limit allows, where it is more.
fn past(limit: Limit, asked: u32, most: u32) -> Option<Reason> {
    (asked > most).then(|| Reason::Passed(limit, asked - most))
}

impl Process {
    /// Tests 8 and after it 15, 9, 10, 11, and 12 and after it 16.
    fn first_failing(&self, asked: &Asked) -> Result<(), Reason> {
        self.has_right(asked.host, asked.cmd).map_err(|_| Reason::Debugger(self.host))?;
        self.unwatched_by_others(asked.host, asked.cmd)
            .map_err(|_| Reason::Watcher(self.watcher))?;
        run_state_fits(self, asked.cmd).map_err(|_| Reason::RunState(self.run))?;
        if let Some(passed) = self.limit_passed(asked) {
            return Err(passed);
        }
        let here = self.breakpoints.iter().find(|b| b.used() && b.address == asked.arg1);
        match (asked.cmd, here) {
            (BREAK | UNBREAK, Some(b)) if b.setter != asked.host => Err(Reason::Setter(b.setter)),
            (BREAK, None) => self.may_set_one(asked.host),
            (UNBREAK, None) => Err(Reason::Other(NO_BREAKPOINT)),
            _ => Ok(()),
        }
    }

    /// 10: "outside memory or vector, EXAMINE over 256, or BREAK address odd"; K2: "reads
    /// against the size; BREAK at most size − 2". Added in more than 16 bits. Of a BREAK it is
    /// the last address that is passed, never the end.
    fn limit_passed(&self, asked: &Asked) -> Option<Reason> {
        let (first, count, size) = (asked.arg1.into(), asked.arg2.into(), self.size.into());
        let end: u32 = first + count;
        match asked.cmd {
            DEPOSIT => past(Limit::End, end, size),
            EXAMINE => {
                past(Limit::End, end, size).or(past(Limit::Count, count, LONGEST_STRING as u32))
            }
            DEPOSIT_STATE_VECTOR => past(Limit::End, end, VECTOR as u32),
            BREAK => {
                // "0 if only odd"
                let odd = (first % 2 == 1).then_some(Reason::Passed(Limit::Last, 0));
                past(Limit::Last, first, size - u32::from(WORD)).or(odd)
            }
            _ => None,
        }
    }

    /// 11: "eight breakpoints and a ninth asked"; K5: "a fifth while watched"; K8: "whether 8
    /// or 4 (8 first)".
    fn may_set_one(&self, host: u8) -> Result<(), Reason> {
        if self.breakpoints.iter().all(Breakpoint::used) {
            return Err(Reason::Full(BREAKPOINTS));
        }
        if !self.room_for(host) {
            return Err(Reason::Full(WATCHED_LIMIT));
        }
        Ok(())
    }
}

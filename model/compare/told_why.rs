//! One who asks why as the stand-in gets it, and other things that could be told than the
//! model says.

use crate::made::Made;
use model::*;

/// What is asked about: the fields of a message of ten bytes and more, 0 in one that is
/// shorter, the state, and the process that is named, where there is such a number.
pub struct Asked {
    pub length: usize,
    pub host: u8,
    pub cmd: u8,
    pub pid: u8,
    pub arg1: u64,
    pub arg2: u64,
    pub records: Option<State>,
    pub process: Option<Process>,
}

impl Asked {
    fn new(state: &[u8], message: &[u8]) -> Asked {
        let byte = |at: usize| if message.len() < HEAD { 0 } else { message[at] };
        let word = |at: usize| u64::from(byte(at)) << 8 | u64::from(byte(at + 1));
        let [host, cmd, pid] = [1, 4, 5].map(byte);
        let records = decode(state);
        let process = records.as_ref().and_then(|r| r.processes.get(usize::from(pid)).copied());
        let (arg1, arg2) = (word(6), word(8));
        Asked { length: message.len(), host, cmd, pid, arg1, arg2, records, process }
    }

    pub fn is(&self, cmd: u8) -> bool {
        self.cmd == cmd
    }

    /// Whether such a thing holds of the process.
    pub fn of(&self, test: impl Fn(&Process) -> bool) -> bool {
        self.process.is_some_and(|process| test(&process))
    }

    pub fn debugger(&self) -> u8 {
        self.process.map_or(NOBODY, |process| process.host)
    }

    pub fn watcher(&self) -> u8 {
        self.process.map_or(NOBODY, |process| process.watcher)
    }

    pub fn watched(&self) -> bool {
        self.watcher() != NOBODY
    }

    pub fn run(&self) -> u64 {
        self.process.map_or(0, |process| process.run as u64)
    }

    pub fn size(&self) -> u64 {
        self.process.map_or(0, |process| process.size.into())
    }

    pub fn end(&self) -> u64 {
        self.arg1 + self.arg2
    }

    /// How many such breakpoints the process has.
    pub fn count(&self, test: impl Fn(&Breakpoint) -> bool) -> u64 {
        let points = self.process.iter().flat_map(|process| &process.breakpoints);
        points.filter(|b| b.used() && test(b)).count() as u64
    }

    /// How many are the asker's.
    pub fn his(&self) -> u64 {
        self.count(|b| b.setter == self.host)
    }

    /// Whether such a breakpoint is at ARG1.
    pub fn here(&self, test: impl Fn(&Breakpoint) -> bool) -> bool {
        self.count(|b| u64::from(b.address) == self.arg1 && test(b)) > 0
    }

    /// Whether an EXAMINE or a DEPOSIT ends past the process.
    pub fn outside(&self) -> bool {
        matches!(self.cmd, EXAMINE | DEPOSIT) && self.end() > self.size()
    }
}

/// The model's answer with a number and facts that are changed, where two facts are lent.
pub fn told(mut made: Made, change: impl Fn(&Asked, &mut i64, &mut [u64; FACTS])) -> i64 {
    let answer = made.right();
    let Made::Why { state, message, facts } = made else { return answer };
    let Ok(facts) = <&mut [u64; FACTS]>::try_from(facts) else { return answer };
    let mut number = -answer;
    change(&Asked::new(state, message), &mut number, facts);
    -number
}

/// The same of the facts that go with one number.
pub fn facts_of(made: Made, by: i64, change: impl Fn(&Asked, &mut [u64; FACTS])) -> i64 {
    told(made, |asked, number, facts| {
        if *number == by {
            change(asked, facts);
        }
    })
}

/// Another number is told, without facts, in place of one, where this holds.
pub fn instead(made: Made, from: i64, to: i64, test: impl Fn(&Asked) -> bool) -> i64 {
    told(made, |asked, number, facts| {
        if *number == from && test(asked) {
            *number = to;
            *facts = [0, 0];
        }
    })
}

/// Facts that the model would write are left as they were where this holds of the number.
pub fn left(mut made: Made, test: impl Fn(i64) -> bool, which: &[usize]) -> i64 {
    let before = match &made {
        Made::Why { facts, .. } => facts.to_vec(),
        _ => Vec::new(),
    };
    let answer = made.right();
    if let Made::Why { facts, .. } = made {
        for &at in which.iter().filter(|&&at| at < before.len() && test(-answer)) {
            facts[at] = before[at];
        }
    }
    answer
}

/// The model's answer on other bytes: of the state, of the message, or of both.
pub fn on_others(mut made: Made, change: impl Fn(&mut Vec<u8>, &mut Vec<u8>)) -> i64 {
    let Made::Why { state, message, facts } = &mut made else { return made.right() };
    let (mut state, mut message) = (state.to_vec(), message.to_vec());
    change(&mut state, &mut message);
    why_bytes(&state, &message, facts)
}

/// The model's answer on records that were changed, where the bytes are a state's.
pub fn on_records(made: Made, change: impl Fn(&mut State)) -> i64 {
    on_others(made, |state, _| {
        if let Some(mut records) = decode(state) {
            change(&mut records);
            *state = encode(&records).to_vec();
        }
    })
}

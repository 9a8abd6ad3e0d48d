//! Which answers were met by those who asked why, with which facts.

use crate::reason_rows::ROWS;
use crate::sides::{Call, Side};
use crate::why::facts;
use model::*;

/// Where a row has to be met.
#[derive(Clone, Copy, PartialEq)]
pub enum Where {
    /// In lists from a fresh start, in those with damage, and in the sweeps.
    Everywhere,
    /// Not in lists from a fresh start.
    Damaged,
    /// In the sweeps.
    Sweeps,
}

/// An answer with such facts to such a request: 0 for granted, or the number.
pub struct Row {
    pub by: i64,
    pub place: Where,
    pub name: &'static str,
    pub test: fn(&Told) -> bool,
}

/// What was told to whom: the facts, and the message and the process that it names, if it is
/// there. `records` is nothing where the bytes are no state.
pub struct Told<'a> {
    pub facts: [u64; FACTS],
    /// How many facts were lent.
    pub lent: usize,
    pub message: &'a [u8],
    pub state_length: usize,
    pub records: Option<State>,
    pub process: Option<Process>,
}

impl<'a> Told<'a> {
    fn new(message: &'a [u8], side: &Side) -> Told<'a> {
        let records = decode(side.state.bytes());
        let pid = message.get(5).map_or(PROCESSES, |&pid| pid.into());
        let process = records.as_ref().and_then(|records| records.processes.get(pid).copied());
        let (facts, lent) = (facts(side), side.facts.bytes().len() / 8);
        let state_length = side.state.bytes().len();
        let process = process.filter(|process| process.there);
        Told { facts, lent, message, state_length, records, process }
    }

    pub fn is(&self, cmd: u8) -> bool {
        self.message.get(4) == Some(&cmd)
    }

    pub fn asker(&self) -> u8 {
        self.message.get(1).copied().unwrap_or(NOBODY)
    }

    /// ARG1 or ARG2, where they stand.
    pub fn word(&self, at: usize) -> u32 {
        let word = self.message.get(at..at + 2);
        word.map_or(0, |word| u32::from(word[0]) << 8 | u32::from(word[1]))
    }

    /// Whether such a thing holds of the process.
    pub fn of(&self, test: impl Fn(&Process) -> bool) -> bool {
        self.process.is_some_and(|process| test(&process))
    }

    pub fn owner(&self) -> bool {
        self.of(|process| process.host == self.asker())
    }

    pub fn watcher(&self) -> bool {
        self.of(|process| process.watcher == self.asker())
    }

    pub fn watched(&self) -> bool {
        self.of(|process| process.watcher != NOBODY)
    }

    pub fn used(&self) -> usize {
        self.process.map_or(0, |p| p.breakpoints.iter().filter(|b| b.used()).count())
    }

    /// How many breakpoints are the asker's.
    pub fn his(&self) -> usize {
        let his = |b: &&Breakpoint| b.used() && b.setter == self.asker();
        self.process.map_or(0, |process| process.breakpoints.iter().filter(his).count())
    }

    /// Whether this limit is passed by so much in such a request.
    pub fn passed(&self, cmd: u8, limit: Limit, excess: u64) -> bool {
        self.is(cmd) && self.facts == [limit as u64, excess]
    }
}

/// The number of an answer to a request or to one who asked why; nothing where test 1 kept a
/// request from it.
fn number_of<'a>(call: &'a Call, answer: i64) -> Option<(&'a [u8], i64)> {
    match call {
        Call::Request { message } if answer != -WRONG_BUFFER => Some((message, -answer.min(0))),
        Call::Why { message } => Some((message, -answer)),
        _ => None,
    }
}

/// How often each row was met: in lists from a fresh start, in those with damage, and in the
/// sweeps.
pub struct Reasons(Vec<[u64; 3]>);

impl Reasons {
    pub fn new() -> Reasons {
        Reasons(vec![[0; 3]; ROWS.len()])
    }

    /// Counts a call of a list, with the side as it is after it.
    pub fn count(&mut self, call: &Call, side: &Side, answer: i64, damaged: bool) {
        self.count_in(usize::from(damaged), call, side, answer);
    }

    /// Counts a call of the sweeps that asks why; a request there is not counted, since there
    /// are so many.
    pub fn count_swept(&mut self, call: &Call, side: &Side, answer: i64) {
        if let Call::Why { .. } = call {
            self.count_in(2, call, side, answer);
        }
    }

    fn count_in(&mut self, column: usize, call: &Call, side: &Side, answer: i64) {
        let Some((message, number)) = number_of(call, answer) else { return };
        let told = Told::new(message, side);
        for (row, counts) in ROWS.iter().zip(&mut self.0) {
            counts[column] += u64::from(row.by == number && (row.test)(&told));
        }
    }

    /// Prints how often each was met, "." where it cannot be.
    pub fn print(&self) {
        println!("\nwhy a request is refused\n   fresh  damaged   sweeps");
        for (row, counts) in ROWS.iter().zip(&self.0) {
            let cell = |column: usize| match counts[column] {
                0 if !asked(row, column) => ".".to_string(),
                n => n.to_string(),
            };
            let cells: Vec<String> = (0..3).map(|column| format!("{:>8}", cell(column))).collect();
            let number = if row.by == 0 { "granted".to_string() } else { row.by.to_string() };
            println!("{}  {number}, {}", cells.join(" "), row.name);
        }
    }

    /// The rows that were not met where they have to be.
    pub fn wrong(&self) -> Vec<String> {
        let missed = |row: &Row, counts: &[u64; 3]| {
            (0..3).any(|column| asked(row, column) && counts[column] == 0)
        };
        let rows = ROWS.iter().zip(&self.0).filter(|(row, counts)| missed(row, counts));
        rows.map(|(row, _)| format!("why, {}, {}", row.by, row.name)).collect()
    }
}

/// Whether a row has to be met in a column.
fn asked(row: &Row, column: usize) -> bool {
    match row.place {
        Where::Everywhere => true,
        Where::Damaged => column != 0,
        Where::Sweeps => column == 2,
    }
}

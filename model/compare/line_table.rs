//! How often each letter of a line met each answer, and which of these the paper makes
//! possible.

use crate::sides::Call;
use model::*;

/// The answers. The number 122 stands for a line that cannot be read, and for a wrong run
/// state or a register value over 65,535.
const COLUMNS: [&str; 10] =
    ["granted", "1", "2", "6", "122 text", "103", "101", "116", "122 state", "114"];

/// A row for each letter, and one for lines in which PID or request cannot be read.
const ROWS: usize = LETTERS.len() + 1;
const UNREADABLE: usize = LETTERS.len();

/// The table of the lines on states that a fresh start leads to, or of those on damaged
/// ones.
pub struct LineTable {
    damaged: bool,
    counts: [[u64; COLUMNS.len()]; ROWS],
}

fn row_of(text: &[u8]) -> usize {
    let letter = |line: LineRead| LETTERS.iter().position(|&letter| letter == line.request);
    read_line(text).and_then(letter).unwrap_or(UNREADABLE)
}

fn row_name(row: usize) -> String {
    LETTERS.get(row).map_or("no PID or request".to_string(), |&letter| char::from(letter).into())
}

fn column_of(text: &[u8], answer: i64) -> Option<usize> {
    let readable = read_line(text).is_some_and(|line| line.arguments.is_some());
    let name = match answer {
        0.. => "granted".to_string(),
        -122 if readable => "122 state".to_string(),
        -122 => "122 text".to_string(),
        _ => (-answer).to_string(),
    };
    COLUMNS.iter().position(|column| *column == name)
}

impl LineTable {
    pub fn new(damaged: bool) -> LineTable {
        LineTable { damaged, counts: [[0; COLUMNS.len()]; ROWS] }
    }

    pub fn count(&mut self, call: &Call, answer: i64) {
        let Call::Line { text } = call else { return };
        if let Some(column) = column_of(text, answer) {
            self.counts[row_of(text)][column] += 1;
        }
    }

    /// Tests 1 and 2 can fail with every line, and 6 where PID or request cannot be read;
    /// `c` and `s` ask for a run state, and `R` for a value of 16 bits.
    fn feasible(&self, row: usize, column: usize) -> bool {
        let letter = LETTERS.get(row);
        match COLUMNS[column] {
            "1" => true,
            "2" => self.damaged,
            "6" => letter.is_none(),
            "122 state" => matches!(letter, Some(b'R' | b'c' | b's')),
            _ => letter.is_some(),
        }
    }

    pub fn print(&self) {
        let names = COLUMNS.map(|name| format!("{name:>10}")).concat();
        println!("{:>18}{names}", "lines");
        for row in 0..ROWS {
            let cell = |column: usize| match self.counts[row][column] {
                0 if !self.feasible(row, column) => ".".to_string(),
                n => n.to_string(),
            };
            let cells = (0..COLUMNS.len()).map(|column| format!("{:>10}", cell(column)));
            println!("{:>18}{}", row_name(row), cells.collect::<String>());
        }
    }

    /// The possible answers that were never met, and the impossible ones that were.
    pub fn wrong(&self) -> Vec<String> {
        let table = if self.damaged { "damaged" } else { "fresh" };
        let cells = (0..ROWS).flat_map(|row| (0..COLUMNS.len()).map(move |column| (row, column)));
        cells
            .filter(|&(row, column)| self.feasible(row, column) != (self.counts[row][column] > 0))
            .map(|(row, column)| format!("{table}: line {}, {}", row_name(row), COLUMNS[column]))
            .collect()
    }
}

//! How often each type of packet, and a tick, met each answer, and which of these the paper
//! makes possible.

use crate::sides::Call;

/// The answers: granted with an acknowledgement of more than two words, or otherwise, and
/// the refusals.
const COLUMNS: [&str; 10] = ["block", "granted", "1", "2", "3", "5", "7", "8", "9", "10"];

/// A row for each type, one for all others, and one for ticks, with the answers that are
/// possible. "a GoReply only to 8 and a tick only 2"; of a known type 5 is an ID of more
/// than 32 bits.
const ROWS: [(&str, &[&str]); 6] = [
    ("Store", &["block", "granted", "1", "2", "3", "5", "7", "8", "10"]),
    ("Fetch", &["block", "granted", "1", "2", "3", "5", "7", "8", "10"]),
    ("Go", &["granted", "1", "2", "5", "7", "8", "9"]),
    ("GoReply", &["granted", "1", "2", "5", "7", "8"]),
    ("another type", &["1", "2", "5"]),
    ("tick", &["granted", "2"]),
];

/// The table of the packets on states that a fresh start leads to, or of those on damaged
/// ones.
pub struct PacketTable {
    damaged: bool,
    counts: [[u64; COLUMNS.len()]; ROWS.len()],
}

fn row_of(call: &Call) -> Option<usize> {
    match call {
        Call::Packet { kind: kind @ 128..=131, .. } => Some(*kind as usize - 128),
        Call::Packet { .. } => Some(4),
        Call::Tick => Some(5),
        _ => None,
    }
}

fn column_of(answer: i64) -> Option<usize> {
    let name = match answer {
        3.. => "block".to_string(),
        0.. => "granted".to_string(),
        _ => (-answer).to_string(),
    };
    COLUMNS.iter().position(|column| *column == name)
}

impl PacketTable {
    pub fn new(damaged: bool) -> PacketTable {
        PacketTable { damaged, counts: [[0; COLUMNS.len()]; ROWS.len()] }
    }

    pub fn count(&mut self, call: &Call, answer: i64) {
        if let (Some(row), Some(column)) = (row_of(call), column_of(answer)) {
            self.counts[row][column] += 1;
        }
    }

    /// From a fresh start calls lead to sound states alone; a tick on bytes of another length
    /// is refused with 2 all the same.
    fn feasible(&self, row: usize, column: usize) -> bool {
        let (name, answers) = ROWS[row];
        answers.contains(&COLUMNS[column])
            && (COLUMNS[column] != "2" || self.damaged || name == "tick")
    }

    pub fn print(&self) {
        let names = COLUMNS.map(|name| format!("{name:>10}")).concat();
        println!("{:>18}{names}", "packets");
        for (row, (name, _)) in ROWS.iter().enumerate() {
            let cell = |column: usize| match self.counts[row][column] {
                0 if !self.feasible(row, column) => ".".to_string(),
                n => n.to_string(),
            };
            let cells = (0..COLUMNS.len()).map(|column| format!("{:>10}", cell(column)));
            println!("{name:>18}{}", cells.collect::<String>());
        }
    }

    /// The possible answers that were never met, and the impossible ones that were.
    pub fn wrong(&self) -> Vec<String> {
        let table = if self.damaged { "damaged" } else { "fresh" };
        let cells =
            (0..ROWS.len()).flat_map(|row| (0..COLUMNS.len()).map(move |column| (row, column)));
        cells
            .filter(|&(row, column)| self.feasible(row, column) != (self.counts[row][column] > 0))
            .map(|(row, column)| format!("{table}: {}, {}", ROWS[row].0, COLUMNS[column]))
            .collect()
    }
}

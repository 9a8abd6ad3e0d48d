//! How often each op code, kind of report, or call without a state met each
//! answer, and which of these the paper makes possible.

use crate::sides::Call;
use model::*;

/// A row, with the answers that the paper makes possible.
struct Row {
    name: &'static str,
    granted: bool,
    silent: bool,
    refusals: &'static [usize],
}

const fn request_row(name: &'static str, refusals: &'static [usize]) -> Row {
    Row { name, granted: true, silent: false, refusals }
}

const fn report_row(name: &'static str, refusals: &'static [usize]) -> Row {
    Row { name, granted: true, silent: true, refusals }
}

const fn refused_row(name: &'static str, refusals: &'static [usize]) -> Row {
    Row { name, granted: false, silent: false, refusals }
}

const ROW_COUNT: usize = 23;
const NO_OP: usize = 17;
const REPORTS: usize = 18;

/// A request's row is its CMD, right or wrong otherwise; a CMD over 16, and a
/// message that has none, is in the row `no op`. Tests 1 and 2 can fail in every
/// call, 3, 4 and 6 in every request that has a CMD. All that name a process can
/// fail 7 and 8; only 5, 10 and 11 ask for a run state (9); 4, 6, 7 and 8 have
/// ranges (10); 8 alone fails 11, 9 alone 12, 12 alone 13, 14 alone 15; 8 and 9 fail 16.
/// Reports are tested by 1, 2, 14, 7, 9; a TRAP may have any reason of two bytes, and a kind over 3 never
/// comes past 14. Every kind is silent for a process with no host, BPT where it is
/// passed, and TTRAP while passing.
const ROWS: [Row; ROW_COUNT] = [
    request_row("0 NOP", &[1, 2, 3, 4, 6]),
    request_row("1 DEBUG", &[1, 2, 3, 4, 6, 7, 8]),
    request_row("2 END DEBUG", &[1, 2, 3, 4, 6, 7, 8]),
    request_row("3 STOP", &[1, 2, 3, 4, 6, 7, 8]),
    request_row("4 DEPOSIT", &[1, 2, 3, 4, 6, 7, 8, 10]),
    request_row("5 RESUME", &[1, 2, 3, 4, 6, 7, 8, 9]),
    request_row("6 EXAMINE", &[1, 2, 3, 4, 6, 7, 8, 10]),
    request_row("7 DEPOSIT VECTOR", &[1, 2, 3, 4, 6, 7, 8, 10]),
    request_row("8 BREAK", &[1, 2, 3, 4, 6, 7, 8, 10, 11, 16]),
    request_row("9 UNBREAK", &[1, 2, 3, 4, 6, 7, 8, 12, 16]),
    request_row("10 SINGLE STEP", &[1, 2, 3, 4, 6, 7, 8, 9]),
    request_row("11 PROCEED BPT", &[1, 2, 3, 4, 6, 7, 8, 9]),
    request_row("12 CREATE", &[1, 2, 3, 4, 6, 13]),
    request_row("13 DESTROY", &[1, 2, 3, 4, 6, 7, 8]),
    request_row("14 WATCH", &[1, 2, 3, 4, 6, 7, 8, 15]),
    request_row("15 END WATCH", &[1, 2, 3, 4, 6, 7, 8]),
    request_row("16 STATUS", &[1, 2, 3, 4, 6, 7, 8]),
    refused_row("no op", &[1, 2, 3, 4, 5]),
    report_row("TRAP", &[1, 2, 7, 9, 14]),
    report_row("HALT", &[1, 2, 7, 9, 14]),
    report_row("BPT", &[1, 2, 7, 9, 14]),
    report_row("TTRAP", &[1, 2, 7, 9, 14]),
    refused_row("over 3", &[1, 2, 14]),
];

/// The row of a call on a state.
fn row_of(call: &Call) -> Option<usize> {
    match call {
        Call::Report { kind, .. } => Some(REPORTS + (*kind).min(4) as usize),
        Call::Request { message } => match message.get(4) {
            Some(&cmd) if cmd <= STATUS => Some(usize::from(cmd)),
            _ => Some(NO_OP),
        },
        _ => None,
    }
}

/// Columns: 0 granted, 1 silent, 1 + n refused by n.
const COLUMNS: usize = 18;

fn column_of(answer: i64) -> usize {
    match answer {
        0 => 1,
        1.. => 0,
        _ => 1 + answer.unsigned_abs() as usize,
    }
}

fn column_name(column: usize) -> String {
    match column {
        0 => "granted".to_string(),
        1 => "silent".to_string(),
        _ => (column - 1).to_string(),
    }
}

fn column_width(column: usize) -> usize {
    [8, 7, 6][column.min(2)]
}

/// The table of the calls on states that a fresh start leads to, or of those on
/// damaged ones.
pub struct Table {
    damaged: bool,
    counts: [[u64; COLUMNS]; ROW_COUNT],
}

impl Table {
    pub fn new(damaged: bool) -> Table {
        Table { damaged, counts: [[0; COLUMNS]; ROW_COUNT] }
    }

    pub fn count(&mut self, call: &Call, answer: i64) {
        if let Some(row) = row_of(call) {
            self.counts[row][column_of(answer)] += 1;
        }
    }

    /// Whether the paper makes an answer possible. From a fresh start calls lead
    /// to sound states alone.
    fn feasible(&self, row: usize, column: usize) -> bool {
        if !self.damaged && column == column_of(-NOT_SOUND) {
            return false;
        }
        match column {
            0 => ROWS[row].granted,
            1 => ROWS[row].silent,
            _ => ROWS[row].refusals.contains(&(column - 1)),
        }
    }

    /// Prints the table, "." where an answer is impossible.
    pub fn print(&self) {
        let names = (0..COLUMNS).map(|c| format!("{:>1$}", column_name(c), column_width(c)));
        println!("{:>16}{}", "", names.collect::<String>());
        for (i, row) in ROWS.iter().enumerate() {
            let counts = (0..COLUMNS).map(|c| format!("{:>1$}", self.cell(i, c), column_width(c)));
            println!("{:>16}{}", row.name, counts.collect::<String>());
        }
    }

    fn cell(&self, row: usize, column: usize) -> String {
        match self.counts[row][column] {
            0 if !self.feasible(row, column) => ".".to_string(),
            n => n.to_string(),
        }
    }

    /// The possible answers that were never met, and the impossible ones that
    /// were.
    pub fn wrong(&self) -> Vec<String> {
        let table = if self.damaged { "damaged" } else { "fresh" };
        let cells = (0..ROW_COUNT).flat_map(|row| (0..COLUMNS).map(move |column| (row, column)));
        cells
            .filter(|&(row, column)| self.feasible(row, column) != (self.counts[row][column] > 0))
            .map(|(row, column)| format!("{table}: {}, {}", ROWS[row].name, column_name(column)))
            .collect()
    }
}

// ---------------------------------------------------------------- the desk's end, and fresh starts

/// Columns: granted, and the refusals that these calls can meet.
const DESK_COLUMNS: [i64; 8] = [0, 1, 2, 3, 4, 5, 6, 7];

/// Rows: writing each op code and any other CMD; reading each reply, CAN'T, notice
/// and any other CMD; and a fresh start.
const WRITES: usize = 0;
const READS: usize = WRITES + NO_OP + 1;
const START: usize = READS + 256;

pub struct DeskTable {
    counts: Vec<[u64; DESK_COLUMNS.len()]>,
}

/// "The desk reader accepts CMD 0 to 13, 129 to 141 and 64 to 67"; K5: "The desk end learns
/// this op and every later one."
fn accepted(cmd: usize) -> bool {
    matches!(cmd, 0..=16 | 64..=67 | 129..=144)
}

/// A CMD that is not accepted stands for all of them.
const NO_ANSWER: usize = 255;

impl DeskTable {
    pub fn new() -> DeskTable {
        DeskTable { counts: vec![[0; DESK_COLUMNS.len()]; START + 1] }
    }

    pub fn count(&mut self, call: &Call, answer: i64) {
        let row = match call {
            Call::FreshStart { .. } => START,
            Call::Write { fields, .. } => WRITES + fields[1].min(NO_OP as u64) as usize,
            Call::Read { message } => match message.get(4).map(|&cmd| usize::from(cmd)) {
                Some(cmd) if accepted(cmd) => READS + cmd,
                _ => READS + NO_ANSWER,
            },
            _ => return,
        };
        let by = answer.min(0).abs();
        if let Some(column) = DESK_COLUMNS.iter().position(|&number| number == by) {
            self.counts[row][column] += 1;
        }
    }

    fn rows() -> impl Iterator<Item = (usize, String)> {
        let writes = (0..NO_OP).map(|cmd| (WRITES + cmd, format!("write {}", ROWS[cmd].name)));
        let reads = (0..256).filter(|&cmd| accepted(cmd));
        let reads = reads.map(|cmd| (READS + cmd, format!("read CMD {cmd}")));
        writes
            .chain([(WRITES + NO_OP, "write no op".to_string())])
            .chain(reads)
            .chain([(READS + NO_ANSWER, "read no CMD".to_string())])
            .chain([(START, "fresh start".to_string())])
    }

    /// Every op code and answer can be granted, and refused by 1, 3, 4 and 6; any
    /// other CMD by 1, 3, 4 and 5; a fresh start by 1, 2 and 7.
    fn feasible(row: usize, column: usize) -> bool {
        let unknown = row == WRITES + NO_OP || row == READS + NO_ANSWER;
        match DESK_COLUMNS[column] {
            0 => !unknown,
            1 => true,
            2 => row == START,
            3 | 4 => row != START,
            5 => unknown,
            6 => !unknown && row != START,
            _ => row == START,
        }
    }

    pub fn print(&self) {
        println!("\nthe desk's calls, and fresh starts");
        let name = |number: &i64| match number {
            0 => "granted".to_string(),
            _ => number.to_string(),
        };
        let names = DESK_COLUMNS.iter().map(|number| format!("{:>8}", name(number)));
        println!("{:>24}{}", "", names.collect::<String>());
        for (row, name) in DeskTable::rows() {
            let cell = |column: usize| match self.counts[row][column] {
                0 if !DeskTable::feasible(row, column) => ".".to_string(),
                n => n.to_string(),
            };
            let cells = (0..DESK_COLUMNS.len()).map(|column| format!("{:>8}", cell(column)));
            println!("{name:>24}{}", cells.collect::<String>());
        }
    }

    pub fn wrong(&self) -> Vec<String> {
        let cells = DeskTable::rows()
            .flat_map(|(row, name)| (0..DESK_COLUMNS.len()).map(move |c| (row, c, name.clone())));
        cells
            .filter(|&(row, column, _)| {
                DeskTable::feasible(row, column) != (self.counts[row][column] > 0)
            })
            .map(|(_, column, name)| format!("{name}, {}", DESK_COLUMNS[column]))
            .collect()
    }
}

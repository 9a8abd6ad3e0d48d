//! What may be told to one who asks why: each number, each fact, and the edges of those that
//! are counted.

use crate::reasons::{Row, Told, Where};
use model::*;
use Limit::{Count, End, Last};

const fn row(by: i64, name: &'static str, test: fn(&Told) -> bool) -> Row {
    Row { by, place: Where::Everywhere, name, test }
}

const fn damaged(by: i64, name: &'static str, test: fn(&Told) -> bool) -> Row {
    Row { by, place: Where::Damaged, name, test }
}

const fn swept(by: i64, name: &'static str, test: fn(&Told) -> bool) -> Row {
    Row { by, place: Where::Sweeps, name, test }
}

pub const ROWS: &[Row] = &[
    // how many facts are lent
    row(WRONG_BUFFER, "no fact lent", |t| t.lent == 0),
    row(WRONG_BUFFER, "one fact lent", |t| t.lent == 1),
    row(WRONG_BUFFER, "three facts lent", |t| t.lent == 3),
    row(WRONG_BUFFER, "more facts lent", |t| t.lent > 3),
    damaged(WRONG_BUFFER, "and a state that is not sound", |t| !t.sound()),
    row(WRONG_BUFFER, "and a message of a wrong length", |t| t.message.len() < HEAD),
    // granted
    row(0, "NOP", |t| t.is(NOP)),
    row(0, "CREATE", |t| t.is(CREATE_PROCESS)),
    row(0, "by the debugging host", |t| t.owner() && t.is(EXAMINE)),
    row(0, "by the watcher", |t| t.watcher() && t.is(EXAMINE)),
    row(0, "a new count for one of eight", |t| t.is(BREAK) && t.used() == 8),
    // 2
    damaged(NOT_SOUND, "a state that is too short", |t| t.state_length < STATE_BYTES),
    damaged(NOT_SOUND, "a state that is too long", |t| t.state_length > STATE_BYTES),
    damaged(NOT_SOUND, "bytes that are no state", |t| {
        t.state_length == STATE_BYTES && t.records.is_none()
    }),
    damaged(NOT_SOUND, "a state that is not sound", |t| t.records.is_some()),
    damaged(NOT_SOUND, "and a message of a wrong length", |t| t.message.len() > LONGEST),
    // 3 to 7
    row(WRONG_LENGTH, "no message at all", |t| t.message.is_empty() && t.facts[0] == 0),
    row(WRONG_LENGTH, "1 byte", |t| t.facts[0] == 1),
    row(WRONG_LENGTH, "2 to 8 bytes", |t| (2..9).contains(&t.facts[0])),
    row(WRONG_LENGTH, "9 bytes", |t| t.facts[0] == 9),
    row(WRONG_LENGTH, "267 bytes", |t| t.facts[0] == 267),
    row(WRONG_LENGTH, "268 to 270 bytes", |t| (268..271).contains(&t.facts[0])),
    row(WRONG_LENGTH, "271 to 65,535 bytes", |t| (271..65_536).contains(&t.facts[0])),
    row(WRONG_LENGTH, "over 65,535 bytes", |t| t.facts[0] > 65_535),
    row(WRONG_HEAD, "TYPE, HOST, LINK or STYPE", |_| true),
    row(UNKNOWN_CMD, "CMD 17", |t| t.is(17)),
    row(UNKNOWN_CMD, "CMD over 127", |t| t.message[4] > 127),
    row(WRONG_FIELDS, "a string of a wrong length", |t| t.message.len() > HEAD),
    row(WRONG_FIELDS, "CREATE of a wrong size", |t| t.is(CREATE_PROCESS) && t.word(6) > 4096),
    row(ABSENT, "the process is absent", |t| t.message[5] < 8),
    row(ABSENT, "a process over 7", |t| t.message[5] > 7),
    // 8
    row(NO_RIGHT, "nobody debugs it", |t| t.facts[0] == 0),
    row(NO_RIGHT, "nobody debugs it, WATCH", |t| t.facts[0] == 0 && t.is(WATCH)),
    row(NO_RIGHT, "nobody debugs it, END WATCH", |t| t.facts[0] == 0 && t.is(END_WATCH)),
    row(NO_RIGHT, "another debugs it", |t| t.stranger() && !t.watched()),
    row(NO_RIGHT, "another debugs it, and one watches", |t| t.stranger() && t.watched()),
    row(NO_RIGHT, "a host over 127 debugs it", |t| t.facts[0] > 127),
    row(NO_RIGHT, "DEBUG, another debugs it", |t| t.is(DEBUG) && t.stranger()),
    row(NO_RIGHT, "END WATCH by a stranger", |t| t.is(END_WATCH) && t.stranger()),
    row(NO_RIGHT, "the watcher, DEPOSIT", |t| t.watcher() && t.is(DEPOSIT)),
    row(NO_RIGHT, "the watcher, DEBUG", |t| t.watcher() && t.is(DEBUG)),
    row(NO_RIGHT, "the watcher, RESUME while it runs", |t| {
        t.watcher() && t.is(RESUME) && t.of(|p| p.run.goes())
    }),
    row(NO_RIGHT, "WATCH by the debugging host", |t| t.is(WATCH) && t.owner()),
    row(NO_RIGHT, "END WATCH by the debugging host", |t| t.is(END_WATCH) && t.owner()),
    row(NO_RIGHT, "a stranger, and a wrong run state", |t| {
        t.stranger() && t.is(RESUME) && t.of(|p| p.run.goes())
    }),
    row(NO_RIGHT, "a stranger, and past the end", |t| {
        t.stranger() && t.is(EXAMINE) && t.of(|p| t.word(6) + t.word(8) > p.size.into())
    }),
    row(NO_RIGHT, "a stranger, and no breakpoint there", |t| {
        t.stranger() && t.is(UNBREAK) && t.of(|p| !p.breakpoints.iter().any(|b| b.used()))
    }),
    // 9
    row(WRONG_RUN, "RESUME, running", |t| t.runs(RESUME, Run::Running)),
    row(WRONG_RUN, "RESUME, stepping", |t| t.runs(RESUME, Run::Stepping)),
    row(WRONG_RUN, "RESUME, ended", |t| t.runs(RESUME, Run::Ended)),
    row(WRONG_RUN, "RESUME, passing", |t| t.runs(RESUME, Run::Passing)),
    row(WRONG_RUN, "SINGLE STEP, running", |t| t.runs(SINGLE_STEP, Run::Running)),
    row(WRONG_RUN, "SINGLE STEP, stepping", |t| t.runs(SINGLE_STEP, Run::Stepping)),
    row(WRONG_RUN, "SINGLE STEP, ended", |t| t.runs(SINGLE_STEP, Run::Ended)),
    row(WRONG_RUN, "SINGLE STEP, passing", |t| t.runs(SINGLE_STEP, Run::Passing)),
    row(WRONG_RUN, "PROCEED BPT, running", |t| t.runs(PROCEED_BPT, Run::Running)),
    row(WRONG_RUN, "PROCEED BPT, stepping", |t| t.runs(PROCEED_BPT, Run::Stepping)),
    row(WRONG_RUN, "PROCEED BPT, stopped", |t| t.runs(PROCEED_BPT, Run::Stopped)),
    row(WRONG_RUN, "PROCEED BPT, ended", |t| t.runs(PROCEED_BPT, Run::Ended)),
    row(WRONG_RUN, "PROCEED BPT, passing", |t| t.runs(PROCEED_BPT, Run::Passing)),
    // 10, the end
    row(OUTSIDE, "DEPOSIT, the end by 1", |t| t.passed(DEPOSIT, End, 1)),
    row(OUTSIDE, "DEPOSIT, the end by 2", |t| t.passed(DEPOSIT, End, 2)),
    row(OUTSIDE, "DEPOSIT of 0, the end by 1", |t| t.passed(DEPOSIT, End, 1) && t.word(8) == 0),
    swept(OUTSIDE, "DEPOSIT, the end by the most, 65,789", |t| t.passed(DEPOSIT, End, 65_789)),
    row(OUTSIDE, "EXAMINE, the end by 1", |t| t.passed(EXAMINE, End, 1)),
    row(OUTSIDE, "EXAMINE of 0, the end by 1", |t| t.passed(EXAMINE, End, 1) && t.word(8) == 0),
    row(OUTSIDE, "EXAMINE in a smaller process, the end by 1", |t| {
        t.passed(EXAMINE, End, 1) && t.of(|p| p.size < LARGEST)
    }),
    swept(OUTSIDE, "EXAMINE of over 256, the end by 1", |t| {
        t.passed(EXAMINE, End, 1) && t.word(8) > 256
    }),
    row(OUTSIDE, "EXAMINE, the end by over 65,535", |t| {
        t.is(EXAMINE) && t.facts[0] == 0 && t.facts[1] > 65_535
    }),
    swept(OUTSIDE, "EXAMINE, the end by the most, 131,068", |t| t.passed(EXAMINE, End, 131_068)),
    row(OUTSIDE, "DEPOSIT VECTOR, the end by 1", |t| t.passed(DEPOSIT_STATE_VECTOR, End, 1)),
    swept(OUTSIDE, "DEPOSIT VECTOR, the end by the most, 65,773", |t| {
        t.passed(DEPOSIT_STATE_VECTOR, End, 65_773)
    }),
    // 10, the 256 of an EXAMINE
    row(OUTSIDE, "EXAMINE, 256 by 1", |t| t.passed(EXAMINE, Count, 1)),
    row(OUTSIDE, "EXAMINE up to the end, 256 by 1", |t| {
        t.passed(EXAMINE, Count, 1) && t.of(|p| t.word(6) + t.word(8) == p.size.into())
    }),
    swept(OUTSIDE, "EXAMINE, 256 by the most, 3,840", |t| t.passed(EXAMINE, Count, 3840)),
    // 10, BREAK's last address
    row(OUTSIDE, "BREAK, only odd", |t| t.passed(BREAK, Last, 0)),
    row(OUTSIDE, "BREAK, only odd, all eight used", |t| t.passed(BREAK, Last, 0) && t.used() == 8),
    row(OUTSIDE, "BREAK at size - 3", |t| {
        t.passed(BREAK, Last, 0) && t.of(|p| t.word(6) + 3 == p.size.into())
    }),
    row(OUTSIDE, "BREAK, the last by 1", |t| t.passed(BREAK, Last, 1)),
    row(OUTSIDE, "BREAK, the last by 2", |t| t.passed(BREAK, Last, 2)),
    row(OUTSIDE, "BREAK, the last by more, odd", |t| {
        t.is(BREAK) && t.facts[1] > 2 && t.word(6) % 2 == 1
    }),
    swept(OUTSIDE, "BREAK, the last by the most, 65,535", |t| t.passed(BREAK, Last, 65_535)),
    // 11
    row(NINTH, "8, nobody watches", |t| t.facts[0] == 8 && !t.watched()),
    row(NINTH, "8, the debugging host while watched", |t| t.full(8) && t.owner()),
    row(NINTH, "8, the watcher", |t| t.full(8) && t.watcher()),
    row(NINTH, "8, four of his or more", |t| t.full(8) && t.his() >= 4),
    row(NINTH, "8, fewer than four of his", |t| t.full(8) && t.his() < 4),
    row(NINTH, "4, the debugging host", |t| t.full(4) && t.owner()),
    row(NINTH, "4, the watcher", |t| t.full(4) && t.watcher()),
    row(NINTH, "4, more than four of his", |t| t.full(4) && t.his() > 4),
    row(NINTH, "4, seven used", |t| t.full(4) && t.used() == 7),
    // 12, 13, 15 and 16
    row(NO_BREAKPOINT, "UNBREAK", |t| t.is(UNBREAK)),
    row(NO_ROOM, "no number is free", |t| t.there() == PROCESSES),
    row(NO_ROOM, "too few bytes are free", |t| t.there() < PROCESSES),
    row(WATCHED, "the watcher", |t| t.facts[0] != 0),
    row(WATCHED, "a watcher over 127", |t| t.facts[0] > 127),
    row(THE_OTHERS, "BREAK, the watcher set it", |t| t.is(BREAK) && t.owner()),
    row(THE_OTHERS, "BREAK, the debugging host set it", |t| t.is(BREAK) && t.watcher()),
    row(THE_OTHERS, "UNBREAK, the watcher set it", |t| t.is(UNBREAK) && t.owner()),
    row(THE_OTHERS, "UNBREAK, the debugging host set it", |t| t.is(UNBREAK) && t.watcher()),
    row(THE_OTHERS, "BREAK, all eight used", |t| t.is(BREAK) && t.used() == 8),
    row(THE_OTHERS, "BREAK, four of his own", |t| t.is(BREAK) && t.his() >= 4),
    row(THE_OTHERS, "the one that is lifted", |t| {
        let lifted = |b: &Breakpoint| b.used() && b.lifted && u32::from(b.address) == t.word(6);
        t.of(|p| p.breakpoints.iter().any(lifted))
    }),
];

impl Told<'_> {
    fn sound(&self) -> bool {
        self.records.as_ref().is_some_and(sound)
    }

    /// Whether one debugs the process, and the asker neither debugs nor watches it.
    fn stranger(&self) -> bool {
        self.facts[0] != 0 && !self.owner() && !self.watcher()
    }

    /// Whether this was asked in this run state, and it is told.
    fn runs(&self, cmd: u8, run: Run) -> bool {
        self.is(cmd) && self.facts == [run as u64, 0]
    }

    /// Whether so many are the limit, while one watches.
    fn full(&self, limit: u64) -> bool {
        self.watched() && self.facts == [limit, 0]
    }

    /// How many processes are there.
    fn there(&self) -> usize {
        let there = |records: &State| records.processes.iter().filter(|p| p.there).count();
        self.records.as_ref().map_or(0, there)
    }
}

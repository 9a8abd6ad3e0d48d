//! Rare ways through K7's rules of lines: words, registers, going on, and who may ask.

use crate::about::About;
use crate::passages::{granted, refused, Passage};
use model::*;

const WORD_LETTERS: &[u8] = b"idID";
const NO_PROCESS: i64 = 103;
const NO_RIGHT_TO: i64 = 101;
const OWED: i64 = 116;
const INVALID: i64 = 122;
const BAD_ADDRESS: i64 = 114;

pub const LINE_PASSAGES: &[Passage] = &[
    // the edges of a word's address
    granted("i at size - 4", |a| a.says(b"i") && a.past() == 0),
    granted("d at size - 4", |a| a.says(b"d") && a.past() == 0),
    granted("I at size - 4", |a| a.says(b"I") && a.past() == 0),
    granted("D at size - 4", |a| a.says(b"D") && a.past() == 0),
    granted("a word at 4092 of 4,096", |a| a.says(WORD_LETTERS) && a.first == 4092),
    granted("the word of a process of 4 bytes", |a| a.says(WORD_LETTERS) && a.size() == 4),
    refused(BAD_ADDRESS, "a word in a process of 2 bytes", |a| {
        a.says(WORD_LETTERS) && a.size() == 2 && a.first == 0
    }),
    refused(BAD_ADDRESS, "a word at size - 3", |a| a.says(WORD_LETTERS) && a.past() == 1),
    refused(BAD_ADDRESS, "a word at size - 2, divisible by 4", |a| {
        a.says(WORD_LETTERS) && a.past() == 2 && a.first % 4 == 0
    }),
    refused(BAD_ADDRESS, "i at the size", |a| a.says(b"i") && a.past() == 4),
    refused(BAD_ADDRESS, "I at the size", |a| a.says(b"I") && a.past() == 4),
    refused(BAD_ADDRESS, "a word past the size, inside 4,096", |a| {
        a.says(WORD_LETTERS) && a.first >= a.size() && a.first < 4096 && a.first % 4 == 0
    }),
    refused(BAD_ADDRESS, "i at 1 past a word, inside", |a| a.unaligned(b"i", 1)),
    refused(BAD_ADDRESS, "i at 2 past a word, inside", |a| a.unaligned(b"i", 2)),
    refused(BAD_ADDRESS, "i at 3 past a word, inside", |a| a.unaligned(b"i", 3)),
    refused(BAD_ADDRESS, "I at 1 past a word, inside", |a| a.unaligned(b"I", 1)),
    refused(BAD_ADDRESS, "I at 2 past a word, inside", |a| a.unaligned(b"I", 2)),
    refused(BAD_ADDRESS, "D at 2 past a word, inside", |a| a.unaligned(b"D", 2)),
    refused(BAD_ADDRESS, "d at address 1", |a| a.says(b"d") && a.first == 1),
    refused(BAD_ADDRESS, "a word over 65,535, inside if cut", |a| {
        a.says(WORD_LETTERS) && a.first > 65_535 && a.first % 4 == 0 && a.cut() + 4 <= a.size()
    }),
    refused(BAD_ADDRESS, "a word at 0xfffffffc", |a| {
        a.says(WORD_LETTERS) && a.first == 0xffff_fffc
    }),
    // words under breakpoints
    granted("i of a word with the first half planted", |a| a.says(b"i") && a.half(0, false)),
    granted("i of a word with the second half planted", |a| a.says(b"i") && a.half(2, false)),
    granted("i of a word with both halves planted", |a| {
        a.says(b"id") && a.half(0, false) && a.half(2, false)
    }),
    granted("i of a lifted word", |a| a.says(b"id") && a.over(2, |b| b.lifted)),
    granted("i of one written over", |a| a.says(b"id") && a.over(2, |b| a.written_over(b))),
    granted("I into a word with the first half planted", |a| a.says(b"I") && a.half(0, false)),
    granted("D into a word with the second half planted", |a| a.says(b"D") && a.half(2, false)),
    granted("I into a word with both halves planted", |a| {
        a.says(b"ID") && a.half(0, false) && a.half(2, false)
    }),
    granted("I into a lifted word", |a| a.says(b"ID") && a.over(2, |b| b.lifted)),
    granted("I into one written over", |a| a.says(b"ID") && a.over(2, |b| a.written_over(b))),
    granted("I of a word with four different bytes", |a| {
        let mut bytes = a.data().to_le_bytes();
        bytes.sort_unstable();
        a.says(b"ID") && bytes.windows(2).all(|pair| pair[0] != pair[1])
    }),
    granted("I while running", |a| a.says(b"ID") && a.runs(Run::Running)),
    granted("I while stopped", |a| a.says(b"ID") && a.runs(Run::Stopped)),
    granted("I at a breakpoint", |a| a.says(b"ID") && a.runs(Run::AtBreakpoint)),
    granted("I when ended", |a| a.says(b"ID") && a.runs(Run::Ended)),
    granted("i when ended", |a| a.says(b"id") && a.runs(Run::Ended)),
    granted("i while running", |a| a.says(b"id") && a.runs(Run::Running)),
    // registers
    granted("r of register 0", |a| a.says(b"r") && a.first == 0),
    granted("r of register 7", |a| a.says(b"r") && a.first == 7),
    granted("r of register 8", |a| a.says(b"r") && a.first == 8),
    granted("r of a register over 255", |a| a.says(b"r") && a.process.vector[a.first % 9] > 255),
    granted("r while running", |a| a.says(b"r") && a.runs(Run::Running)),
    granted("R of register 0", |a| a.says(b"R") && a.first == 0),
    granted("R of PC", |a| a.says(b"R") && a.first == PC),
    granted("R of register 8", |a| a.says(b"R") && a.first == 8),
    granted("R of 65,535", |a| a.says(b"R") && a.data() == 65_535),
    granted("R while running", |a| a.says(b"R") && a.runs(Run::Running)),
    granted("R when ended", |a| a.says(b"R") && a.runs(Run::Ended)),
    refused(BAD_ADDRESS, "r of register 9", |a| a.says(b"r") && a.first == 9),
    refused(BAD_ADDRESS, "R of register 9", |a| a.says(b"R") && a.first == 9),
    refused(BAD_ADDRESS, "R of register 9 and 65,535", |a| {
        a.says(b"R") && a.first > 8 && a.data() == 65_535
    }),
    refused(BAD_ADDRESS, "a register over 65,535, 0 to 8 if cut", |a| {
        a.says(b"rR") && a.first > 65_535 && a.cut() < 9
    }),
    refused(INVALID, "R of 65,536", |a| a.says(b"R") && a.first < 9 && a.data() == 65_536),
    refused(INVALID, "R over 65,535, of register 9 and more", |a| {
        a.says(b"R") && a.first > 8 && a.data() > 65_535
    }),
    // going on where it is
    granted("c from stopped", |a| a.here_on(b"c") && a.runs(Run::Stopped)),
    granted("c from stopped, one at PC", |a| a.here_on(b"c") && a.runs(Run::Stopped) && a.at_pc()),
    granted("c at a breakpoint lifts", |a| {
        a.here_on(b"c") && a.runs(Run::AtBreakpoint) && a.at_pc()
    }),
    granted("c at a breakpoint, none at PC", |a| {
        a.here_on(b"c") && a.runs(Run::AtBreakpoint) && !a.at_pc()
    }),
    granted("c with PC odd or outside", |a| {
        a.here_on(b"c") && (a.pc % 2 == 1 || usize::from(a.pc) >= a.size())
    }),
    granted("s from stopped", |a| a.here_on(b"s") && a.runs(Run::Stopped)),
    granted("s from stopped, one at PC", |a| a.here_on(b"s") && a.runs(Run::Stopped) && a.at_pc()),
    granted("s at a breakpoint lifts", |a| {
        a.here_on(b"s") && a.runs(Run::AtBreakpoint) && a.at_pc()
    }),
    granted("s at a breakpoint, none at PC", |a| {
        a.here_on(b"s") && a.runs(Run::AtBreakpoint) && !a.at_pc()
    }),
    granted("s with PC odd or outside", |a| {
        a.here_on(b"s") && (a.pc % 2 == 1 || usize::from(a.pc) >= a.size())
    }),
    // and with a new PC
    granted("c at a breakpoint, new PC at another", |a| {
        a.new_pc(b"c") && a.runs(Run::AtBreakpoint) && a.at_pc() && a.known() && !a.same_pc()
    }),
    granted("c at a breakpoint, new PC at none, one at the old", |a| {
        a.new_pc(b"c") && a.runs(Run::AtBreakpoint) && a.at_pc() && !a.known()
    }),
    granted("c at a breakpoint, new PC at one, none at the old", |a| {
        a.new_pc(b"c") && a.runs(Run::AtBreakpoint) && !a.at_pc() && a.known()
    }),
    granted("c from stopped, new PC at a breakpoint", |a| {
        a.new_pc(b"c") && a.runs(Run::Stopped) && a.known()
    }),
    granted("s at a breakpoint, new PC at another", |a| {
        a.new_pc(b"s") && a.runs(Run::AtBreakpoint) && a.at_pc() && a.known() && !a.same_pc()
    }),
    granted("s at a breakpoint, new PC at none, one at the old", |a| {
        a.new_pc(b"s") && a.runs(Run::AtBreakpoint) && a.at_pc() && !a.known()
    }),
    granted("s from stopped, new PC at a breakpoint", |a| {
        a.new_pc(b"s") && a.runs(Run::Stopped) && a.known()
    }),
    granted("c with a new PC of 0", |a| a.new_pc(b"c") && a.first == 0),
    granted("s with a new PC of 0", |a| a.new_pc(b"s") && a.first == 0),
    granted("c with a new PC at size - 2", |a| a.new_pc(b"c") && a.first + 2 == a.size()),
    granted("s with a new PC at size - 2", |a| a.new_pc(b"s") && a.first + 2 == a.size()),
    refused(BAD_ADDRESS, "c with an odd PC", |a| a.new_pc(b"c") && a.inside() && a.first % 2 == 1),
    refused(BAD_ADDRESS, "s with an odd PC", |a| a.new_pc(b"s") && a.inside() && a.first % 2 == 1),
    refused(BAD_ADDRESS, "c with a PC at the size", |a| a.new_pc(b"c") && a.first == a.size()),
    refused(BAD_ADDRESS, "s with a PC at the size", |a| a.new_pc(b"s") && a.first == a.size()),
    refused(BAD_ADDRESS, "a PC past the size, inside 4,096", |a| {
        a.new_pc(b"cs") && a.first > a.size() && a.first < 4096 && a.first % 2 == 0
    }),
    refused(BAD_ADDRESS, "a PC over 65,535, inside if cut", |a| {
        a.new_pc(b"cs") && a.first > 65_535 && a.cut() % 2 == 0 && a.cut() < a.size()
    }),
    refused(BAD_ADDRESS, "a PC of 65,537, which is 1 if cut", |a| {
        a.new_pc(b"cs") && a.first == 65_537
    }),
    refused(INVALID, "c while running", |a| a.says(b"c") && a.runs(Run::Running)),
    refused(INVALID, "c when ended", |a| a.says(b"c") && a.runs(Run::Ended)),
    refused(INVALID, "s while running", |a| a.says(b"s") && a.runs(Run::Running)),
    refused(INVALID, "s when ended", |a| a.says(b"s") && a.runs(Run::Ended)),
    refused(INVALID, "c or s while stepping", |a| a.says(b"cs") && a.runs(Run::Stepping)),
    refused(INVALID, "c or s while passing", |a| a.says(b"cs") && a.runs(Run::Passing)),
    refused(INVALID, "c or s in a wrong state with a bad PC", |a| {
        a.new_pc(b"cs") && !a.process.run.waits() && a.first % 2 == 1
    }),
    // who may ask
    refused(NO_PROCESS, "a line to process 8", |a| a.readable() && a.number() == 8),
    refused(NO_PROCESS, "a line to process 0xffffffff", |a| a.readable() && a.number() == u32::MAX),
    refused(NO_PROCESS, "a line to a process over 255, there if cut", |a| {
        let cut = a.number() % 256;
        a.readable()
            && a.number() > 255
            && cut < 8
            && a.state.processes[cut as usize].host == TEXT_HOST
    }),
    refused(NO_PROCESS, "a line to an absent process", |a| a.readable() && a.number() < 8),
    refused(NO_PROCESS, "a line to an absent process, outside", |a| {
        a.says(WORD_LETTERS) && a.number() < 8 && a.first % 4 != 0
    }),
    refused(NO_RIGHT_TO, "a line to a process that nobody debugs", |a| {
        a.readable() && a.process.host == NOBODY
    }),
    refused(NO_RIGHT_TO, "a line to a process that another debugs", |a| {
        a.readable() && a.process.host != NOBODY
    }),
    refused(NO_RIGHT_TO, "a word of another's process, outside", |a| {
        a.says(WORD_LETTERS) && a.first % 4 != 0 && a.process.host != NOBODY
    }),
    refused(NO_RIGHT_TO, "c or s of another's process in a wrong state", |a| {
        a.says(b"cs") && !a.process.run.waits() && a.process.host != NOBODY
    }),
    refused(INVALID, "an unreadable line to no process", |a| {
        a.unreadable() && (a.number() > 7 || !a.process.there)
    }),
    refused(INVALID, "an unreadable line to another's process", |a| {
        a.unreadable() && a.number() < 8 && a.process.there && a.process.host != TEXT_HOST
    }),
    refused(INVALID, "an unreadable line to one that owes an answer", |a| {
        a.unreadable() && a.number() < 8 && a.process.owed != Owed::Nothing
    }),
    // an answer owed, whatever is asked
    refused(OWED, "i while an answer is owed", |a| a.says(b"i")),
    refused(OWED, "d while an answer is owed", |a| a.says(b"d")),
    refused(OWED, "I while an answer is owed", |a| a.says(b"I")),
    refused(OWED, "D while an answer is owed", |a| a.says(b"D")),
    refused(OWED, "r while an answer is owed", |a| a.says(b"r")),
    refused(OWED, "R while an answer is owed", |a| a.says(b"R")),
    refused(OWED, "c while an answer is owed", |a| a.says(b"c")),
    refused(OWED, "s while an answer is owed", |a| a.says(b"s")),
    refused(OWED, "a word outside while an answer is owed", |a| {
        a.says(WORD_LETTERS) && a.first % 4 != 0
    }),
    refused(OWED, "R over 65,535 while an answer is owed", |a| a.says(b"R") && a.data() > 65_535),
];

impl About<'_> {
    /// Whether all of the line can be read, and its request is one of these.
    pub fn says(&self, letters: &[u8]) -> bool {
        self.readable() && self.line.is_some_and(|line| letters.contains(&line.request))
    }

    fn readable(&self) -> bool {
        self.line.is_some_and(|line| line.arguments.is_some())
    }

    fn unreadable(&self) -> bool {
        self.line.is_some_and(|line| line.arguments.is_none())
    }

    /// The line's PID.
    fn number(&self) -> u32 {
        self.line.map_or(0, |line| line.pid)
    }

    fn data(&self) -> u32 {
        self.line.and_then(|line| line.arguments).map_or(0, |(_, data)| data)
    }

    /// The address if it is cut to 16 bits.
    fn cut(&self) -> usize {
        self.first % 65_536
    }

    /// How far the word ends past the process's own bytes; more than any where it does not.
    fn past(&self) -> usize {
        self.end().wrapping_sub(self.size())
    }

    fn unaligned(&self, letters: &[u8], by: usize) -> bool {
        self.says(letters) && self.end() <= self.size() && self.first % 4 == by
    }

    /// Whether such a breakpoint is in the word, so far from its first byte.
    fn half(&self, from: usize, lifted: bool) -> bool {
        self.some(|b| usize::from(b.address) == self.first + from && b.lifted == lifted)
    }

    fn here_on(&self, letters: &[u8]) -> bool {
        self.says(letters) && self.first == 1
    }

    fn new_pc(&self, letters: &[u8]) -> bool {
        self.says(letters) && self.first != 1
    }

    fn same_pc(&self) -> bool {
        self.first == usize::from(self.pc)
    }

    fn inside(&self) -> bool {
        self.first < self.size()
    }
}

//! A machine report.

use super::*;

/// A machine report: the length of the notice, 0 where none goes out, and 256 times that
/// of the line that is answered, or minus the refusal's number. "A report is tested by 1,
/// 2, 14, 7, 9 in that order, and a refused one writes nothing at all." K7: "in a line
/// buffer beside any notice, both lengths told"
pub fn report(
    state: &mut State,
    memory: &mut [u8],
    process: u64,
    kind: u64,
    reason: u64,
    words: &[u16; WORDS],
    notice: &mut [u8],
    line: &mut [u8],
) -> i64 {
    if let Err(number) = lent(memory, notice) {
        return -number;
    }
    // K7: "1 asks 35 bytes of line buffer (a report's too)"
    if line.len() < LONGEST_LINE {
        return -WRONG_BUFFER;
    }
    if !sound(state) {
        return -NOT_SOUND;
    }
    let Some((kind, reason)) = kind_and_reason(kind, reason) else {
        return -WRONG_REPORT;
    };
    // 7: "number over 7"
    let Ok(process) = u8::try_from(process) else {
        return -ABSENT;
    };
    let record = match named(state, process) {
        Ok(record) => record,
        Err(number) => return -number,
    };
    if !record.run.accepts(kind) {
        return -WRONG_RUN;
    }
    if !record.take(&mut memory[record.place()], kind, words) {
        return 0;
    }
    let answered = record.answer_owed(process, kind, line);
    let host = record.host_to_tell(kind);
    // "to the host debugging it, if any"
    if host == NOBODY {
        return told(0, answered);
    }
    // "a notice of 28 bytes"; "(reason in ARG1)"; "PID; the rest zero; then the 18 bytes"
    write_head(&mut notice[..HEAD], host, NOTICE_CMD + kind, process, reason, 0);
    notice[HEAD..NOTICE].copy_from_slice(&vector_bytes(words));
    told(NOTICE, answered)
}

/// The lengths of the notice and of the line, as one number.
fn told(notice: usize, answered: usize) -> i64 {
    (notice + 256 * answered) as i64
}

/// The length of the notice of which a report tells; 0 where it is refused.
pub fn notice_length(answer: i64) -> usize {
    answer.max(0) as usize % 256
}

/// The length of the line that a report answers; 0 where it is refused.
pub fn answered_length(answer: i64) -> usize {
    answer.max(0) as usize / 256
}

/// 14: "report of kind over 3, or a reason not 0 with a kind that isn't TRAP".
/// "reason in ARG1", which has "two bytes": there is no report with a reason over
/// 65,535, and one that is made is refused by 14 too.
fn kind_and_reason(kind: u64, reason: u64) -> Option<(u8, u16)> {
    let kind = u8::try_from(kind).ok().filter(|&kind| kind <= TTRAP)?;
    let reason = u16::try_from(reason).ok().filter(|&reason| reason == 0 || kind == TRAP)?;
    Some((kind, reason))
}

impl Process {
    /// Takes an accepted report; says whether it stops or ends the process. "The vector is
    /// stored and a lifted breakpoint planted again."
    fn take(&mut self, space: &mut [u8], kind: u8, words: &[u16; WORDS]) -> bool {
        self.vector = *words;
        self.plant_lifted(space);
        if kind == BPT && self.passes(space) {
            return false;
        }
        if kind == TTRAP && self.run == Run::Passing {
            // K3: "the stub replants the word and the process runs, without notice"
            self.run = Run::Running;
            return false;
        }
        // "Otherwise TRAP and TTRAP give stopped, HALT ended, BPT at a
        // breakpoint"
        self.run = match kind {
            HALT => Run::Ended,
            BPT => Run::AtBreakpoint,
            _ => Run::Stopped,
        };
        true
    }

    /// "For BPT with a breakpoint at PC and remaining count above 0: the count
    /// falls by one, that breakpoint is lifted [..] and no notice goes out." The run
    /// state is what K3 says.
    fn passes(&mut self, space: &mut [u8]) -> bool {
        match self.at(self.vector[PC]) {
            Some(breakpoint) if breakpoint.remaining > 0 => {
                breakpoint.remaining -= 1;
                breakpoint.lift(space);
                self.run = self.run.after_lift();
                true
            }
            _ => false,
        }
    }
}

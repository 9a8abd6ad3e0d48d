//! A call on one process, and other things that could come of it than the model says.

use crate::made::Made;
use model::*;

/// What a call asks of a process, by a request or by a line, or tells about it.
#[derive(Clone, Copy, PartialEq)]
pub enum Cause {
    Asked(u8),
    Line(u8),
    Told(u8),
}

/// What a call is, and the number of the process; nothing where it names none, or is a
/// DESTROY, after which there is none.
fn cause_of(made: &Made) -> Option<(Cause, usize)> {
    let (cause, p) = match made {
        Made::Report { numbers: [p, kind @ 0..=3, _], .. } => (Cause::Told(*kind as u8), *p),
        Made::Request { .. } => match made.byte(4)? {
            NOP | CREATE_PROCESS | DESTROY_PROCESS => return None,
            cmd => (Cause::Asked(cmd), made.byte(5)?.into()),
        },
        Made::Line { text, .. } => {
            let line = read_line(text)?;
            (Cause::Line(line.request), line.pid.into())
        }
        _ => return None,
    };
    (p < 8).then_some((cause, p as usize))
}

/// A granted call: the process's record and bytes before it and after it.
pub struct Change<'a> {
    pub cause: Cause,
    pub old: &'a Process,
    pub new: &'a mut Process,
    pub old_bytes: &'a [u8],
    pub bytes: &'a mut [u8],
}

impl Change<'_> {
    /// Changes what came of a call by which the process began to pass.
    pub fn if_entered(&mut self, cause: Cause, change: impl Fn(&mut Change)) {
        let entered = self.old.run != Run::Passing && self.new.run == Run::Passing;
        if self.cause == cause && entered {
            change(self);
        }
    }

    /// Changes what came of such a call while passing.
    pub fn if_passing(&mut self, cause: Cause, change: impl Fn(&mut Change)) {
        if self.cause == cause && self.old.run == Run::Passing {
            change(self);
        }
    }

    pub fn if_silent_ttrap(&mut self, change: impl Fn(&mut Change)) {
        self.if_passing(Cause::Told(TTRAP), change);
    }

    /// Puts record and bytes back to what they were.
    pub fn put_back(&mut self) {
        *self.new = *self.old;
        self.bytes.copy_from_slice(self.old_bytes);
    }
}

/// The model's answer, after which what came of it is changed where it was granted. The
/// number of breakpoints is true then, unless the change is one of that number.
pub fn after(mut made: Made, change: impl Fn(&mut Change)) -> i64 {
    let (Some((cause, p)), Some(old)) = (cause_of(&made), made.records()) else {
        return made.right();
    };
    let old_memory = made.memory().map_or_else(Vec::new, |memory| memory.to_vec());
    let answer = made.right();
    let granted = made.records().filter(|_| answer >= 0);
    let (Some(mut records), Some(memory)) = (granted, made.memory()) else { return answer };
    let (old, new) = (&old.processes[p], &mut records.processes[p]);
    let (old_bytes, bytes) = (&old_memory[old.place()], &mut memory[old.place()]);
    let number = new.set;
    change(&mut Change { cause, old, new, old_bytes, bytes });
    if new.set == number {
        new.set = new.breakpoints.iter().filter(|b| b.used()).count() as u8;
    }
    made.put(&records);
    answer
}

/// The model's answer to such a call as if the process were in another run state than it
/// is; its lifted breakpoint is planted first, if there is one.
pub fn as_if(mut made: Made, cause: Cause, from: Run, to: Run) -> i64 {
    let meant = cause_of(&made).filter(|(of, _)| *of == cause);
    let (Some((_, p)), Some(old)) = (meant, made.records()) else { return made.right() };
    if !sound(&old) || old.processes[p].run != from {
        return made.right();
    }
    let old_memory = made.memory().map_or_else(Vec::new, |memory| memory.to_vec());
    let mut records = old.clone();
    let process = &mut records.processes[p];
    process.run = to;
    if old_memory.len() == MEMORY {
        plant(process, made.memory().unwrap_or(&mut []));
    }
    made.put(&records);
    let answer = made.right();
    if answer < 0 {
        made.put(&old);
        if let Some(memory) = made.memory() {
            memory.copy_from_slice(&old_memory);
        }
    }
    answer
}

fn plant(process: &mut Process, memory: &mut [u8]) {
    let begin = process.place().start;
    for b in process.breakpoints.iter_mut().filter(|b| b.used() && b.lifted) {
        let word = &mut memory[begin + usize::from(b.address)..][..2];
        b.saved.copy_from_slice(word);
        word.copy_from_slice(&BPT_WORD);
        b.lifted = false;
    }
}

/// A report that is granted while passing is refused with 9 where this holds.
pub fn refused(mut made: Made, test: impl Fn(Cause, &Process) -> bool) -> i64 {
    let (Some((cause, p)), Some(old)) = (cause_of(&made), made.records()) else {
        return made.right();
    };
    let process = &old.processes[p];
    if process.run != Run::Passing || !test(cause, process) {
        return made.right();
    }
    match made.on_other(&old) {
        0.. => -9,
        answer => answer,
    }
}

/// A silent TTRAP sends a notice where this holds of the process.
pub fn noticed(mut made: Made, test: impl Fn(&Process) -> bool) -> i64 {
    let (cause, old) = (cause_of(&made), made.records());
    let answer = made.right();
    let (Some((Cause::Told(TTRAP), p)), Some(old), 0) = (cause, old, answer) else {
        return answer;
    };
    let process = &old.processes[p];
    let Made::Report { words, notice, .. } = made else { return answer };
    if process.host == NOBODY || !test(process) {
        return answer;
    }
    notice[..HEAD].copy_from_slice(&[0, process.host, 255, 0, 67, p as u8, 0, 0, 0, 0]);
    notice[HEAD..NOTICE].copy_from_slice(words);
    NOTICE as i64
}

/// A notice is not sent where this holds of the report and the process.
pub fn unnoticed(mut made: Made, test: impl Fn(Cause, &Process) -> bool) -> i64 {
    let (cause, old) = (cause_of(&made), made.records());
    let before = match &made {
        Made::Report { notice, .. } => notice.to_vec(),
        _ => Vec::new(),
    };
    let answer = made.right();
    let (Some((cause, p)), Some(old), 1..) = (cause, old, answer) else { return answer };
    match made {
        Made::Report { notice, .. } if test(cause, &old.processes[p]) => {
            notice.copy_from_slice(&before);
            answer - notice_length(answer) as i64
        }
        _ => answer,
    }
}

//! A line as the stand-in gets it, and other things that could come of it than the model
//! says.

use crate::made::Made;
use model::*;

/// A line that can be read, with the process that it names as it is before, if there is
/// such a one.
pub struct Asked {
    pub pid: u32,
    pub request: u8,
    pub addr: u32,
    pub data: u32,
    pub process: Option<Process>,
}

impl Asked {
    pub fn is(&self, letters: &[u8]) -> bool {
        letters.contains(&self.request)
    }

    /// Whether host 253 debugs the process and such a thing holds of it.
    pub fn of_ours(&self, test: impl Fn(&Process) -> bool) -> bool {
        self.process.is_some_and(|p| p.there && p.host == TEXT_HOST && test(&p))
    }
}

/// What a call asks, if it is a line on a sound state with buffers that are long enough.
fn asked(made: &mut Made) -> Option<Asked> {
    let records = made.records().filter(sound)?;
    let Made::Line { memory, text, line, .. } = made else { return None };
    if memory.len() != MEMORY || line.len() < LONGEST_LINE {
        return None;
    }
    let LineRead { pid, request, arguments } = read_line(text)?;
    let (addr, data) = arguments?;
    let process = records.processes.get(pid as usize).copied();
    Some(Asked { pid, request, addr, data, process })
}

/// The model's answer to a line; nothing is written.
fn tried(made: &Made) -> i64 {
    let Made::Line { state, memory, text, line } = made else { return 0 };
    line_bytes(&mut state.to_vec(), &mut memory.to_vec(), text, &mut line.to_vec())
}

/// The model's answer to another text, where there is one.
pub fn reread(made: Made, change: impl Fn(&[u8]) -> Option<Vec<u8>>) -> i64 {
    match made {
        Made::Line { state, memory, text, line } => {
            let text = change(text).unwrap_or(text.to_vec());
            line_bytes(state, memory, &text, line)
        }
        mut made => made.right(),
    }
}

/// A line is refused with this number where such a thing holds of it and of the model's
/// answer.
pub fn refuse(mut made: Made, number: i64, test: impl Fn(&Asked, i64) -> bool) -> i64 {
    let Some(asked) = asked(&mut made).filter(|asked| test(asked, tried(&made))) else {
        return made.right();
    };
    if let (Made::Line { line, .. }, 100..) = (made, number) {
        write_line(asked.pid, asked.request, u32::MAX, (number - 100) as u32, line);
    }
    -number
}

/// The model's answer to a line on records that were changed first, where the change says
/// so; of a refusal they are put back.
pub fn on_changed(mut made: Made, change: impl Fn(&Asked, &mut Process) -> bool) -> i64 {
    let (Some(asked), Some(old)) = (asked(&mut made), made.records()) else { return made.right() };
    let mut records = old.clone();
    let process = records.processes.get_mut(asked.pid as usize);
    if !process.is_some_and(|process| change(&asked, process)) {
        return made.right();
    }
    made.put(&records);
    let answer = made.right();
    if answer < 0 {
        made.put(&old);
    }
    answer
}

/// The line that a call writes: its fields.
#[derive(Clone, Copy, Debug)]
pub struct Written {
    pub pid: u32,
    pub request: u8,
    pub flag: u32,
    pub response: u32,
}

/// The bytes of the line buffer, of a line and of a report.
fn line_of<'a>(made: &'a mut Made) -> Option<&'a mut [u8]> {
    match made {
        Made::Line { line, .. } | Made::Report { line, .. } => Some(line),
        _ => None,
    }
}

/// The model's answer, of which the line that is written is changed.
pub fn rewritten(mut made: Made, change: impl Fn(&mut Written)) -> i64 {
    reprinted(&mut made, |written| {
        change(written);
        let mut line = [0; LONGEST_LINE];
        let Written { pid, request, flag, response } = *written;
        let length = write_line(pid, request, flag, response, &mut line);
        line[..length].to_vec()
    })
}

/// The model's answer, in which the line is printed otherwise; its length is told.
pub fn reprinted(made: &mut Made, print: impl Fn(&mut Written) -> Vec<u8>) -> i64 {
    let Some(before) = line_of(made).map(|line| line.to_vec()) else { return made.right() };
    let answer = made.right();
    let of_report = matches!(made, Made::Report { .. });
    let Some(line) = line_of(made) else { return answer };
    let length = match answer {
        _ if of_report => answered_length(answer),
        ..=-100 => line.iter().position(|&byte| byte == b'\n').map_or(0, |at| at + 1),
        _ => answer.max(0) as usize,
    };
    let Some(LineRead { pid, request, arguments: Some((flag, response)) }) =
        read_line(&line[..length])
    else {
        return answer;
    };
    let printed = print(&mut Written { pid, request, flag, response });
    let count = printed.len().min(line.len());
    line.copy_from_slice(&before);
    line[..count].copy_from_slice(&printed[..count]);
    match answer {
        _ if of_report => (notice_length(answer) + 256 * count) as i64,
        0.. => count as i64,
        _ => answer,
    }
}

/// What can be changed after a granted line.
pub struct Granted<'a> {
    pub asked: &'a Asked,
    /// The process before, and its bytes.
    pub old: &'a Process,
    pub old_bytes: &'a [u8],
    pub new: &'a mut Process,
    pub bytes: &'a mut [u8],
    pub response: &'a mut u32,
}

/// The model's answer to a line; where it is granted, what came of it is changed.
pub fn granted(mut made: Made, change: impl Fn(&mut Granted)) -> i64 {
    let Some(asked) = asked(&mut made) else { return made.right() };
    let (Some(old), Some(old_memory)) = (asked.process, made.memory().map(|m| m.to_vec())) else {
        return made.right();
    };
    let before = line_of(&mut made).map_or_else(Vec::new, |line| line.to_vec());
    let answer = made.right();
    let Some(mut records) = made.records().filter(|_| answer >= 0) else { return answer };
    let Made::Line { state, memory, line, .. } = made else { return answer };
    let written = read_line(&line[..answer as usize]).and_then(|line| line.arguments);
    let mut response = written.map_or(0, |(_, response)| response);
    change(&mut Granted {
        asked: &asked,
        old: &old,
        old_bytes: &old_memory[old.place()],
        new: &mut records.processes[asked.pid as usize],
        bytes: &mut memory[old.place()],
        response: &mut response,
    });
    state.copy_from_slice(&encode(&records));
    if answer == 0 {
        return 0;
    }
    line.copy_from_slice(&before);
    write_line(asked.pid, asked.request, 0, response, line) as i64
}

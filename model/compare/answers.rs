//! What K7 says of every call: which line is written, and when an answer is owed. The
//! fuzzer uses this too.

use crate::layout::changed;
use crate::sides::{Call, Side};
use model::*;

/// How many bytes of the line buffer a call writes. Of a line that is refused with 100 and
/// more, the newline tells it.
pub fn line_written(call: &Call, answer: i64, after: &Side) -> usize {
    match (call, answer) {
        (Call::Report { .. }, _) => answered_length(answer),
        (Call::Line { .. }, 0..) => answer as usize,
        (Call::Line { .. }, ..=-100) => {
            let newline = after.line.bytes().iter().position(|&byte| byte == b'\n');
            newline.map_or(0, |at| at + 1)
        }
        _ => 0,
    }
}

/// What K7 says of a call, should both sides break it.
pub fn broken_line(call: &Call, answer: i64, before: &Side, after: &Side) -> Option<&'static str> {
    let written = &after.line.bytes()[..line_written(call, answer, after)];
    let answered = match written {
        [] => None,
        written => Some(read_line(written).and_then(|line| Some((line, line.arguments?)))),
    };
    match (call, answered) {
        (_, Some(None)) => Some("both: what is written is no printed line"),
        (Call::Line { text }, answered) => broken_reply(text, answer, answered.flatten()),
        (_, Some(Some((line, (flag, _))))) if flag != 0 || !goes(line.request) => {
            Some("both: a report answers another line than c or s")
        }
        _ => None,
    }
    .or_else(|| if answer < 0 { None } else { broken_owed(call, before, after) })
}

fn goes(request: u8) -> bool {
    matches!(request, b'c' | b's')
}

/// "All replies have the PID and REQUEST field identical to the corresponding request
/// packet"; K7: "with the flag 0xffffffff, the number being 100 more".
fn broken_reply(
    text: &[u8],
    answer: i64,
    answered: Option<(LineRead, (u32, u32))>,
) -> Option<&'static str> {
    let Some(asked) = read_line(text) else {
        return (answered.is_some() || answer >= 0 || answer <= -100)
            .then_some("both: a line without a PID or request is answered");
    };
    let Some((line, (flag, response))) = answered else {
        let silent = answer == 0 && goes(asked.request) || matches!(answer, -2 | -1);
        return (!silent).then_some("both: a line is not answered");
    };
    if (line.pid, line.request) != (asked.pid, asked.request) {
        return Some("both: another line is answered");
    }
    let right = match answer {
        0.. => flag == 0 && !goes(asked.request),
        _ => flag == u32::MAX && i64::from(response) == -answer - 100,
    };
    (!right).then_some("both: flag and number do not fit the answer")
}

/// An answer is owed from a granted `c` or `s` to a report that stops or ends the process
/// or a call that cancels it.
fn broken_owed(call: &Call, before: &Side, after: &Side) -> Option<&'static str> {
    let p = changed(call, after)?;
    let (was, is) = (decode(before.state.bytes())?, decode(after.state.bytes())?);
    let (was, is) = (&was.processes[p], &is.processes[p]);
    let letter = match call {
        Call::Line { text } => read_line(text).map_or(0, |line| line.request),
        _ => 0,
    };
    let expected = match call {
        Call::Line { .. } if goes(letter) => Some(letter),
        Call::Request { message } => match message[4] {
            STOP | END_DEBUG | CREATE_PROCESS | DESTROY_PROCESS => None,
            _ => was.owed.letter(),
        },
        Call::Report { .. } if !is.run.goes() => None,
        _ => was.owed.letter(),
    };
    (is.owed.letter() != expected).then_some("both: what is owed is wrong")
}

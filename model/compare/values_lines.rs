//! Values of K7: how a line may be written, the lengths of its buffers, and what is owed in
//! a state.

use crate::sides::{is_sound, Call, Side};
use crate::values::{on_state, value, Value};
use model::*;

/// The number of a line of which PID and request can be read, and the rest cannot.
const UNREADABLE: i64 = 122;

pub const LINE_VALUES: &[Value] = &[
    // PID or request cannot be read
    value(WRONG_FIELDS, "an empty line", |c, _| text(c, |t| t.is_empty())),
    value(WRONG_FIELDS, "a line of a newline", |c, _| text(c, |t| t == b"\n")),
    value(WRONG_FIELDS, "a PID alone", |c, _| text(c, |t| number(t.trim_ascii_end()))),
    value(WRONG_FIELDS, "a PID and a blank", |c, _| {
        text(c, |t| t.strip_suffix(b" ").is_some_and(number))
    }),
    value(WRONG_FIELDS, "PID with a leading zero", |c, _| {
        fields(c, |f| f[0].starts_with(b"0x0") && f[0].len() > 3 && request(f))
    }),
    value(WRONG_FIELDS, "PID in upper case", |c, _| {
        fields(c, |f| number(&f[0].to_ascii_lowercase()) && f[0].starts_with(b"0x") && request(f))
    }),
    value(WRONG_FIELDS, "PID with 0X", |c, _| fields(c, |f| f[0].starts_with(b"0X") && request(f))),
    value(WRONG_FIELDS, "PID without 0x", |c, _| {
        fields(c, |f| number(&[b"0x", f[0]].concat()) && request(f))
    }),
    value(WRONG_FIELDS, "PID of nine digits", |c, _| {
        fields(c, |f| f[0].len() > 10 && number(&f[0][..10]) && request(f))
    }),
    value(WRONG_FIELDS, "PID without digits", |c, _| fields(c, |f| f[0] == b"0x" && request(f))),
    value(WRONG_FIELDS, "two blanks before the request", |c, _| {
        text(c, |t| t.split(|&b| b == b' ').nth(1) == Some(b"") && t.len() > 8)
    }),
    value(WRONG_FIELDS, "a newline after PID, and more", |c, _| {
        text(c, |t| t.split(|&b| b == b'\n').next().is_some_and(number) && t.len() > 8)
    }),
    value(WRONG_FIELDS, "a letter and another letter", |c, _| {
        fields(c, |f| {
            number(f[0]) && f[1].len() == 2 && f[1].iter().all(|letter| LETTERS.contains(letter))
        })
    }),
    value(WRONG_FIELDS, "a request that is none", |c, _| {
        fields(c, |f| number(f[0]) && f[1].len() == 1 && f[1][0].is_ascii_alphabetic())
    }),
    value(WRONG_FIELDS, "a request over 127", |c, _| {
        fields(c, |f| number(f[0]) && f[1].len() == 1 && f[1][0] > 127)
    }),
    // the rest cannot be read
    value(UNREADABLE, "cut off after the request", |c, _| {
        text(c, |t| t.split(|&b| b == b' ').count() == 2 && !t.ends_with(b"\n"))
    }),
    value(UNREADABLE, "a newline after the request", |c, _| {
        text(c, |t| t.split(|&b| b == b' ').count() == 2 && t.ends_with(b"\n"))
    }),
    value(UNREADABLE, "cut off in ADDR", |c, _| {
        text(c, |t| t.split(|&b| b == b' ').count() == 3 && !t.contains(&b'\n'))
    }),
    value(UNREADABLE, "no newline, and all else right", |c, _| {
        text(c, |t| whole(&[t, b"\n"].concat()))
    }),
    value(UNREADABLE, "two newlines", |c, _| {
        text(c, |t| t.ends_with(b"\n\n") && whole(&t[..t.len() - 1]))
    }),
    value(UNREADABLE, "a carriage return", |c, _| {
        text(c, |t| t.strip_suffix(b"\r\n").is_some_and(|t| whole(&[t, b"\n"].concat())))
    }),
    value(UNREADABLE, "a blank before the newline", |c, _| {
        text(c, |t| t.strip_suffix(b" \n").is_some_and(|t| whole(&[t, b"\n"].concat())))
    }),
    value(UNREADABLE, "two blanks before ADDR", |c, _| {
        fields(c, |f| f.len() == 5 && f[2].is_empty() && number(f[3]))
    }),
    value(UNREADABLE, "two blanks before DATA", |c, _| {
        fields(c, |f| f.len() == 5 && f[3].is_empty() && number(f[2]))
    }),
    value(UNREADABLE, "a fifth field", |c, _| {
        fields(c, |f| f.len() == 5 && f[2..].iter().all(|f| number(f)))
    }),
    value(UNREADABLE, "ADDR with a leading zero", |c, _| {
        fields(c, |f| f.len() == 4 && zero(f[2]) && number(f[3]))
    }),
    value(UNREADABLE, "DATA with a leading zero", |c, _| {
        fields(c, |f| f.len() == 4 && zero(f[3]) && number(f[2]))
    }),
    value(UNREADABLE, "ADDR in upper case", |c, _| fields(c, |f| f.len() == 4 && upper(f[2]))),
    value(UNREADABLE, "DATA in upper case", |c, _| fields(c, |f| f.len() == 4 && upper(f[3]))),
    value(UNREADABLE, "ADDR of nine digits", |c, _| {
        fields(c, |f| f.len() == 4 && f[2].len() > 10 && number(&f[2][..10]))
    }),
    value(UNREADABLE, "DATA of nine digits", |c, _| {
        fields(c, |f| f.len() == 4 && f[3].len() > 10 && number(&f[3][..10]))
    }),
    value(UNREADABLE, "ADDR without 0x", |c, _| {
        fields(c, |f| f.len() == 4 && number(&[b"0x", f[2]].concat()))
    }),
    value(UNREADABLE, "DATA without digits", |c, _| fields(c, |f| f.len() == 4 && f[3] == b"0x")),
    value(UNREADABLE, "more after the newline", |c, _| {
        text(c, |t| {
            let end = t.iter().position(|&b| b == b'\n').map_or(0, |at| at + 1);
            end < t.len() && whole(&t[..end])
        })
    }),
    value(UNREADABLE, "a line of more than 36 bytes", |c, _| text(c, |t| t.len() > 36)),
    // numbers of eight digits
    value(0, "a line with eight digits in DATA", |c, _| {
        fields(c, |f| f.len() == 4 && f[3].len() == 10)
    }),
    value(103, "a line of 35 bytes", |c, _| text(c, |t| t.len() == LONGEST_LINE)),
    value(114, "a line with eight digits in ADDR", |c, _| {
        fields(c, |f| f.len() == 4 && f[2].len() == 10)
    }),
    // what is written
    value(0, "an answer of eight digits", |c, s| answered(c, s, |n| n > 0x0fff_ffff)),
    value(0, "an answer with digits over 9", |c, s| answered(c, s, |n| n & 0xf0 > 0x90)),
    value(0, "an answer of 0", |c, s| answered(c, s, |n| n == 0)),
    // lengths of the line buffer
    value(WRONG_BUFFER, "a line, its buffer of 34 bytes alone wrong", |c, s| {
        matches!(c, Call::Line { .. }) && line_alone(s, |length| length == 34)
    }),
    value(WRONG_BUFFER, "a line, its buffer of any other length alone wrong", |c, s| {
        matches!(c, Call::Line { .. })
            && line_alone(s, |length| ![0, 1, 17, 33, 34].contains(&length))
    }),
    value(WRONG_BUFFER, "a report, its line buffer of 34 bytes alone wrong", |c, s| {
        report(c) && s.output.bytes().len() >= LONGEST && line_alone(s, |length| length == 34)
    }),
    value(WRONG_BUFFER, "a report, its line buffer of no bytes alone wrong", |c, s| {
        report(c) && s.output.bytes().len() >= LONGEST && line_alone(s, |length| length == 0)
    }),
    value(0, "a line, its buffer of 35 bytes", |c, s| lined(c, s, |length| length == 35)),
    value(0, "a line, its buffer of 36 bytes", |c, s| lined(c, s, |length| length == 36)),
    value(0, "a line, its buffer of more than 115 bytes", |c, s| {
        lined(c, s, |length| length > 115)
    }),
    value(0, "a report, its line buffer of 35 bytes", |c, s| {
        report(c) && s.line.bytes().len() == 35
    }),
    value(0, "a report, its line buffer of 36 bytes", |c, s| {
        report(c) && s.line.bytes().len() == 36
    }),
    // what is owed in a state, being all that is not sound
    value(NOT_SOUND, "state, owed to another host", |c, s| {
        wrongly_owed(c, s, |host| host != NOBODY)
    }),
    value(NOT_SOUND, "state, owed to host 252 or 254", |c, s| {
        wrongly_owed(c, s, |host| host == 252 || host == 254)
    }),
    value(NOT_SOUND, "state, owed to nobody", |c, s| wrongly_owed(c, s, |host| host == NOBODY)),
    value(NOT_SOUND, "state, owed is 3", |c, s| unformed(c, s, |byte| byte == 3)),
    value(NOT_SOUND, "state, owed is 4 to 127", |c, s| {
        unformed(c, s, |byte| (4..128).contains(&byte))
    }),
    value(NOT_SOUND, "state, owed is over 127", |c, s| unformed(c, s, |byte| byte > 127)),
    // sound ones
    value(0, "state, owed while stopped", |c, s| owes(c, s, Run::Stopped)),
    value(0, "state, owed at a breakpoint", |c, s| owes(c, s, Run::AtBreakpoint)),
    value(0, "state, owed when ended", |c, s| owes(c, s, Run::Ended)),
    value(0, "state, owed while passing", |c, s| owes(c, s, Run::Passing)),
];

fn text(call: &Call, test: impl Fn(&[u8]) -> bool) -> bool {
    matches!(call, Call::Line { text } if test(text))
}

/// The fields of a line, which are two at least, without a newline at its end.
fn fields(call: &Call, test: impl Fn(&[&[u8]]) -> bool) -> bool {
    text(call, |text| {
        let text = text.strip_suffix(b"\n").unwrap_or(text);
        let fields: Vec<&[u8]> = text.split(|&byte| byte == b' ').collect();
        fields.len() > 1 && test(&fields)
    })
}

/// Whether the second field is a request.
fn request(fields: &[&[u8]]) -> bool {
    matches!(fields[1], [letter] if LETTERS.contains(letter))
}

/// Whether a field is a number.
fn number(field: &[u8]) -> bool {
    read_line(&[field, b" i"].concat()).is_some()
}

fn whole(text: &[u8]) -> bool {
    read_line(text).is_some_and(|line| line.arguments.is_some())
}

/// Whether a field is a number but for one zero before it.
fn zero(field: &[u8]) -> bool {
    field.starts_with(b"0x0") && number(&[b"0x", &field[3..]].concat())
}

fn upper(field: &[u8]) -> bool {
    field.starts_with(b"0x") && !number(field) && number(&field.to_ascii_lowercase())
}

fn report(call: &Call) -> bool {
    matches!(call, Call::Report { words, .. } if words.len() == VECTOR)
}

/// Whether the line buffer alone has a wrong length, and such a one.
fn line_alone(side: &Side, test: impl Fn(usize) -> bool) -> bool {
    let length = side.line.bytes().len();
    length < LONGEST_LINE && side.memory.bytes().len() == MEMORY && test(length)
}

fn lined(call: &Call, side: &Side, test: impl Fn(usize) -> bool) -> bool {
    matches!(call, Call::Line { .. }) && test(side.line.bytes().len())
}

/// Whether a granted line is answered with such a response.
fn answered(call: &Call, side: &Side, test: impl Fn(u32) -> bool) -> bool {
    let buffer = side.line.bytes();
    let end = buffer.iter().position(|&byte| byte == b'\n').map_or(0, |at| at + 1);
    let response = read_line(&buffer[..end]).and_then(|line| line.arguments);
    matches!(call, Call::Line { .. }) && response.is_some_and(|(_, response)| test(response))
}

/// Whether a process owes an answer to such a host, and would be sound if it did not.
fn wrongly_owed(call: &Call, side: &Side, test: impl Fn(u8) -> bool) -> bool {
    let Some(mut state) = decode(side.state.bytes()) else { return false };
    let wrong = |p: &&mut Process| p.owed != Owed::Nothing && p.host != TEXT_HOST;
    let Some(process) = state.processes.iter_mut().find(wrong) else { return false };
    process.owed = Owed::Nothing;
    test(process.host) && on_state(call) && sound(&state)
}

/// Whether what is owed is such a byte that there is not, in bytes that are those of a
/// sound state otherwise.
fn unformed(call: &Call, side: &Side, test: impl Fn(u8) -> bool) -> bool {
    let mut bytes = side.state.bytes().to_vec();
    if bytes.len() != STATE_BYTES || !on_state(call) {
        return false;
    }
    let wrong = (0..PROCESSES).map(|p| RECORD_BYTES * p + OWED_AT).find(|&at| bytes[at] > 2);
    let Some(at) = wrong.filter(|&at| test(bytes[at])) else { return false };
    bytes[at] = 0;
    is_sound(&bytes)
}

fn owes(call: &Call, side: &Side, run: Run) -> bool {
    let owes = |state: State| {
        state.processes.iter().any(|p| p.owed != Owed::Nothing && p.run == run && p.there)
    };
    on_state(call) && decode(side.state.bytes()).is_some_and(owes)
}

//! The desk end: a request is written, a reply or notice is read.

use super::*;

/// The fields of a message in the order of its layout, without TYPE, LINK and
/// STYPE, which are always the same: HOST, CMD, PID, ARG1, ARG2.
pub const FIELDS: usize = 5;

/// Writes a request: its length, or minus the refusal's number. "The desk writer
/// uses 1 (output buffer under 266), 3, 4, 5, 6". "Both write nothing when they
/// refuse." A field is given as a number of any size.
pub fn write_request(
    host: u64,
    cmd: u64,
    pid: u64,
    arg1: u64,
    arg2: u64,
    string: &[u8],
    output: &mut [u8],
) -> i64 {
    if output.len() < LONGEST {
        return -WRONG_BUFFER;
    }
    // 3: "message under 10 or over 266 bytes"
    if string.len() > LONGEST_STRING {
        return -WRONG_LENGTH;
    }
    // 4: "HOST 0", and "hosts 1 to 255"
    let Some(host) = u8::try_from(host).ok().filter(|&host| host != NOBODY) else {
        return -WRONG_HEAD;
    };
    // 5: "CMD not a known op code"
    let Some((cmd, uses)) = known(cmd) else {
        return -UNKNOWN_CMD;
    };
    // 6: "unused field not zero, or string of wrong length". PID is "One byte",
    // ARG1 and ARG2 are "two bytes each"; a message has no such field otherwise.
    let (Ok(pid), Ok(arg1), Ok(arg2)) =
        (u8::try_from(pid), u16::try_from(arg1), u16::try_from(arg2))
    else {
        return -WRONG_FIELDS;
    };
    if !fields_fit(&Asked { host, cmd, pid, arg1, arg2, string }, uses) {
        return -WRONG_FIELDS;
    }
    write_head(&mut output[..HEAD], host, cmd, pid, arg1, arg2);
    output[HEAD..HEAD + string.len()].copy_from_slice(string);
    (HEAD + string.len()) as i64
}

/// The op code that a number is, with its row of the table.
fn known(cmd: u64) -> Option<(u8, &'static Uses)> {
    let cmd = u8::try_from(cmd).ok()?;
    Some((cmd, USES.get(usize::from(cmd))?))
}

/// What the desk expects after the ten bytes.
enum Carries {
    Nothing,
    /// "CONTENTS of ARG2 bytes"
    Contents,
    /// "a notice's 18"
    Vector,
}

/// "a field not zero that the reply or notice does not use (PID is used in
/// CREATED, ARG1 in TRAP)". ARG1 of CREATED and of CAN'T CREATE is the size asked: "the
/// request's CMD, PID, ARG1, ARG2". K6: STATUS "answers it in ARG1, the run state in ARG2";
/// "A CAN'T has zeros". "Neither tests ranges."
struct Answer {
    pid: bool,
    arg1: bool,
    arg2: bool,
    carries: Carries,
}

/// "The desk reader accepts CMD 0 to 13, 129 to 141 and 64 to 67; 128 is not
/// accepted, since NOP is never refused." K5: "The desk end learns this op and every later
/// one."
fn answer(cmd: u8) -> Option<Answer> {
    let of_request = |cmd: u8, pid: bool, carries: Carries| {
        let uses = &USES[usize::from(cmd)];
        Some(Answer { pid: uses.pid || pid, arg1: uses.arg1, arg2: uses.arg2, carries })
    };
    match cmd {
        EXAMINE => of_request(cmd, false, Carries::Contents),
        CREATE_PROCESS => of_request(cmd, true, Carries::Nothing),
        STATUS => Some(Answer { pid: true, arg1: true, arg2: true, carries: Carries::Nothing }),
        NOP..=END_WATCH => of_request(cmd, false, Carries::Nothing),
        129..=144 => of_request(cmd - CANT, false, Carries::Nothing),
        64..=67 => {
            Some(Answer { pid: true, arg1: cmd == 64, arg2: false, carries: Carries::Vector })
        }
        _ => None,
    }
}

/// Reads a reply or notice: the length of its string, or minus the refusal's
/// number. "the desk reader uses 3 to 6". The five fields are written as words.
/// A lent buffer of another length is refused first, by 1.
pub fn read_answer(message: &[u8], fields: &mut [u16]) -> i64 {
    if fields.len() != FIELDS {
        return -WRONG_BUFFER;
    }
    if message.len() < HEAD || message.len() > LONGEST {
        return -WRONG_LENGTH;
    }
    let [kind, host, link, stype, cmd, pid, a, b, c, d] = std::array::from_fn(|i| message[i]);
    if kind != 0 || host == NOBODY || link != 255 || stype != 0 {
        return -WRONG_HEAD;
    }
    let Some(answer) = answer(cmd) else {
        return -UNKNOWN_CMD;
    };
    let (arg1, arg2) = (u16::from_be_bytes([a, b]), u16::from_be_bytes([c, d]));
    let string = match answer.carries {
        Carries::Nothing => 0,
        Carries::Contents => usize::from(arg2),
        Carries::Vector => VECTOR,
    };
    let unused = !answer.pid && pid != 0 || !answer.arg1 && arg1 != 0 || !answer.arg2 && arg2 != 0;
    // K9: "6, at the desk too, an odd or greater size"
    if unused || message.len() != HEAD + string || !size_fits(cmd, arg1) {
        return -WRONG_FIELDS;
    }
    fields.copy_from_slice(&[host.into(), cmd.into(), pid.into(), arg1, arg2]);
    string as i64
}

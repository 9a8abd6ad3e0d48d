//! Wrong libraries that go wrong by what the desk writes and reads of K6's STATUS.

use crate::made::Made;
use crate::wrong::Wrong;
use crate::wrong_told::{unread, unwritten};
use model::*;

/// Each is the model's answer, but for one error.
pub const WRONG_STATUS_DESK: &[Wrong] = &[
    Wrong { name: "the desk does not write STATUS", answer: |made| unwritten(made, STATUS) },
    Wrong { name: "the desk does not read STATUS", answer: |made| unread(made, STATUS) },
    Wrong { name: "the desk does not read CAN'T STATUS", answer: |made| unread(made, 144) },
    Wrong {
        name: "the desk writes STATUS with an ARG1",
        answer: |mut made| match made {
            Made::Write { fields: [host, 16, pid, _, arg2], string, request } => {
                write_request(host, 16, pid, 0, arg2, string, request)
            }
            _ => made.right(),
        },
    },
    Wrong {
        name: "the desk writes STATUS with an ARG2",
        answer: |mut made| match made {
            Made::Write { fields: [host, 16, pid, arg1, _], string, request } => {
                write_request(host, 16, pid, arg1, 0, string, request)
            }
            _ => made.right(),
        },
    },
    Wrong {
        name: "the desk writes CMD 17",
        answer: |mut made| match made {
            Made::Write { fields: [host, 17, pid, arg1, arg2], string, request } => {
                write_request(host, 16, pid, arg1, arg2, string, request)
            }
            _ => made.right(),
        },
    },
    Wrong {
        name: "the desk reads no STATUS of more than 8",
        answer: |made| read_refused(made, STATUS, |arg1, _| arg1 > 8),
    },
    Wrong {
        name: "the desk reads no STATUS of a run state over 5",
        answer: |made| read_refused(made, STATUS, |_, arg2| arg2 > 5),
    },
    Wrong {
        name: "the desk reads no STATUS with an ARG1",
        answer: |made| read_refused(made, STATUS, |arg1, _| arg1 != 0),
    },
    Wrong {
        name: "the desk reads CAN'T STATUS with an ARG1",
        answer: |made| read_without(made, 144, 6),
    },
    Wrong {
        name: "the desk reads CAN'T STATUS with an ARG2",
        answer: |made| read_without(made, 144, 8),
    },
    Wrong {
        name: "the desk reads STATUS without its ARG2",
        answer: |made| read_without(made, STATUS, 8),
    },
    Wrong {
        name: "the desk reads CMD 17",
        answer: |mut made| match made {
            Made::Read { message, fields } if message.get(4) == Some(&17) => {
                let mut message = message.to_vec();
                message[4] = STATUS;
                read_answer(&message, fields)
            }
            _ => made.right(),
        },
    },
];

/// The arguments of a message that the desk reads.
fn arguments(message: &[u8]) -> Option<(u16, u16)> {
    let word = |at: usize| u16::from_be_bytes([message[at], message[at + 1]]);
    (message.len() >= HEAD).then(|| (word(6), word(8)))
}

/// The desk refuses to read a message of this CMD with such arguments.
fn read_refused(mut made: Made, cmd: u8, test: impl Fn(u16, u16) -> bool) -> i64 {
    let (meant, before) = match &made {
        Made::Read { message, fields } => {
            let such = arguments(message).is_some_and(|(arg1, arg2)| test(arg1, arg2));
            (message.get(4) == Some(&cmd) && such, fields.to_vec())
        }
        _ => (false, Vec::new()),
    };
    let answer = made.right();
    match made {
        Made::Read { fields, .. } if meant && answer >= 0 => {
            fields.copy_from_slice(&before);
            -6
        }
        _ => answer,
    }
}

/// The desk reads a message of this CMD as if the word from this byte on were zero.
fn read_without(mut made: Made, cmd: u8, at: usize) -> i64 {
    match made {
        Made::Read { message, fields } if message.len() >= HEAD && message[4] == cmd => {
            let mut message = message.to_vec();
            message[at..at + 2].fill(0);
            read_answer(&message, fields)
        }
        _ => made.right(),
    }
}

//! Wrong libraries that go wrong by how a line is read, and how one is printed.

use crate::lined::{refuse, reprinted, reread, rewritten, Written};
use crate::made::Made;
use crate::wrong::Wrong;
use model::*;

/// Each is the model's answer, but for one error.
pub const WRONG_TEXT: &[Wrong] = &[
    // reading
    Wrong { name: "leading zeros are read", answer: |made| numbers(made, |_, n| unpadded(n)) },
    Wrong {
        name: "leading zeros of PID are read",
        answer: |made| numbers(made, |i, n| unpadded(n).filter(|_| i == 0)),
    },
    Wrong {
        name: "leading zeros of DATA are read",
        answer: |made| numbers(made, |i, n| unpadded(n).filter(|_| i == 3)),
    },
    Wrong {
        name: "digits in upper case are read",
        answer: |made| {
            numbers(made, |_, n| n.starts_with(b"0x").then(|| n.to_ascii_lowercase().to_vec()))
        },
    },
    Wrong {
        name: "0X is read",
        answer: |made| {
            numbers(made, |_, n| n.strip_prefix(b"0X").map(|digits| [b"0x", digits].concat()))
        },
    },
    Wrong {
        name: "a number without 0x is read",
        answer: |made| numbers(made, |_, n| (!n.starts_with(b"0x")).then(|| [b"0x", n].concat())),
    },
    Wrong {
        name: "nine digits are cut to eight",
        answer: |made| numbers(made, |_, n| (n.len() > 10).then(|| cut(n))),
    },
    Wrong {
        name: "0x is read as 0",
        answer: |made| numbers(made, |_, n| (n == b"0x").then(|| b"0x0".to_vec())),
    },
    Wrong {
        name: "g is read as a digit",
        answer: |made| {
            numbers(made, |_, n| {
                Some(n.iter().map(|&b| if b == b'g' { b'f' } else { b }).collect())
            })
        },
    },
    Wrong {
        name: "a line without a newline is read",
        answer: |made| reread(made, |text| Some([text, b"\n"].concat()).filter(|t| whole(t))),
    },
    Wrong {
        name: "a line with two newlines is read",
        answer: |made| {
            reread(made, |text| text.strip_suffix(b"\n").map(<[u8]>::to_vec).filter(whole))
        },
    },
    Wrong {
        name: "what stands after the newline is passed over",
        answer: |made| {
            reread(made, |text| {
                let end = text.iter().position(|&b| b == b'\n')?;
                Some(text[..=end].to_vec()).filter(whole)
            })
        },
    },
    Wrong {
        name: "a carriage return is passed over",
        answer: |made| {
            reread(made, |text| {
                text.strip_suffix(b"\r\n").map(|t| [t, b"\n"].concat()).filter(whole)
            })
        },
    },
    Wrong {
        name: "a blank before the newline is passed over",
        answer: |made| {
            reread(made, |text| {
                text.strip_suffix(b" \n").map(|t| [t, b"\n"].concat()).filter(whole)
            })
        },
    },
    Wrong { name: "two blanks are read as one", answer: |made| reread(made, one_blank) },
    Wrong {
        name: "a tab is read as a blank",
        answer: |made| {
            reread(made, |text| {
                Some(text.iter().map(|&b| if b == b'\t' { b' ' } else { b }).collect())
            })
        },
    },
    Wrong {
        name: "a request of two letters is read by its first",
        answer: |made| {
            requests(made, |r| (r.len() == 2 && LETTERS.contains(&r[0])).then(|| r[..1].to_vec()))
        },
    },
    Wrong {
        name: "C is read as c",
        answer: |made| requests(made, |r| (r == b"C").then(|| b"c".to_vec())),
    },
    Wrong {
        name: "x is read as i",
        answer: |made| requests(made, |r| (r == b"x").then(|| b"i".to_vec())),
    },
    Wrong {
        name: "DATA of a line that does not use it need not be readable",
        answer: |made| {
            reread(made, |text| {
                let line = read_line(text)?;
                let used = matches!(line.request, b'I' | b'D' | b'R');
                if used || line.arguments.is_some() {
                    return None;
                }
                let fields: Vec<&[u8]> = text.splitn(4, |&b| b == b' ').collect();
                let first = fields.get(..3).filter(|_| fields.len() == 4)?.join(&b' ');
                Some([&first[..], b" 0x0\n"].concat()).filter(whole)
            })
        },
    },
    Wrong {
        name: "a line of more than 35 bytes is refused with 6",
        answer: |mut made| match &made {
            Made::Line { text, .. } if text.len() > 35 => unanswered(made, 122),
            _ => made.right(),
        },
    },
    Wrong {
        name: "an unreadable rest is refused with 6",
        answer: |mut made| match &made {
            Made::Line { text, .. } if !whole(text) => unanswered(made, 122),
            _ => made.right(),
        },
    },
    Wrong {
        name: "a request that cannot be read is answered with 122",
        answer: |mut made| {
            let answer = made.right();
            if let (Made::Line { text, line, .. }, -6) = (made, answer) {
                let end = text.iter().position(|&b| b == b' ').unwrap_or(text.len());
                if let Some(head) = read_line(&[&text[..end], b" i"].concat()) {
                    write_line(head.pid, b'i', u32::MAX, 22, line);
                    return -122;
                }
            }
            answer
        },
    },
    Wrong {
        name: "an unreadable line to no process is 103",
        answer: |mut made| {
            let head = match &made {
                Made::Line { text, .. } => read_line(text),
                _ => None,
            };
            let answer = made.right();
            if let (Made::Line { line, .. }, Some(head), -122) = (made, head, answer) {
                if head.pid > 7 {
                    write_line(head.pid, head.request, u32::MAX, 3, line);
                    return -103;
                }
            }
            answer
        },
    },
    Wrong {
        name: "a PID over 7 cannot be read",
        answer: |mut made| match &made {
            Made::Line { text, .. } if read_line(text).is_some_and(|line| line.pid > 7) => {
                unanswered(made, 103)
            }
            _ => made.right(),
        },
    },
    // printing
    Wrong {
        name: "the flag of a refusal is 1",
        answer: |made| rewritten(made, |w| w.flag = w.flag.min(1)),
    },
    Wrong {
        name: "the flag of a grant is 1",
        answer: |made| rewritten(made, |w| w.flag = w.flag.max(1)),
    },
    Wrong {
        name: "errno is 100 more in the line too",
        answer: |made| rewritten(made, |w| w.response += if w.flag == u32::MAX { 100 } else { 0 }),
    },
    Wrong { name: "PID is printed as 0", answer: |made| rewritten(made, |w| w.pid = 0) },
    Wrong { name: "PID is printed as a byte", answer: |made| rewritten(made, |w| w.pid %= 256) },
    Wrong {
        name: "I and D are answered in lower case",
        answer: |made| rewritten(made, |w| w.request = w.request.to_ascii_lowercase()),
    },
    Wrong {
        name: "digits are printed in upper case",
        answer: |mut made| reprinted(&mut made, |w| printed(w, |n| format!("0x{n:X}"), "\n")),
    },
    Wrong {
        name: "numbers are printed with eight digits",
        answer: |mut made| reprinted(&mut made, |w| printed(w, |n| format!("0x{n:08x}"), "\n")),
    },
    Wrong {
        name: "0 is printed without digits",
        answer: |mut made| {
            let number = |n: u32| if n == 0 { "0x".to_string() } else { format!("0x{n:x}") };
            reprinted(&mut made, |w| printed(w, number, "\n"))
        },
    },
    Wrong {
        name: "no newline is printed",
        answer: |mut made| reprinted(&mut made, |w| printed(w, |n| format!("0x{n:x}"), "")),
    },
    Wrong {
        name: "a carriage return is printed",
        answer: |mut made| reprinted(&mut made, |w| printed(w, |n| format!("0x{n:x}"), "\r\n")),
    },
    Wrong {
        name: "a response of eight digits is cut to seven",
        answer: |made| rewritten(made, |w| w.response &= 0x0fff_ffff),
    },
    Wrong {
        name: "a byte past the line is touched",
        answer: |mut made| {
            let length = match &made {
                Made::Line { line, .. } => line.len(),
                _ => 0,
            };
            let answer = made.right();
            if let (Made::Line { line, .. }, 1..) = (made, answer) {
                if (answer as usize) < length {
                    line[answer as usize] ^= 1;
                }
            }
            answer
        },
    },
    Wrong {
        name: "a granted c writes into the line buffer",
        answer: |mut made| {
            let answer = made.right();
            if let (Made::Line { line, .. }, 0) = (made, answer) {
                line[0] ^= 1;
            }
            answer
        },
    },
    Wrong {
        name: "a line buffer of 34 bytes is accepted",
        answer: |mut made| match &mut made {
            Made::Line { state, memory, text, line } if line.len() == 34 => {
                let mut longer = [0; LONGEST_LINE];
                longer[..34].copy_from_slice(line);
                let answer = line_bytes(state, memory, text, &mut longer);
                line.copy_from_slice(&longer[..34]);
                answer
            }
            made => made.right(),
        },
    },
    Wrong {
        name: "a line buffer of 36 bytes is refused",
        answer: |mut made| match &made {
            Made::Line { line, .. } if line.len() == 36 => -1,
            _ => made.right(),
        },
    },
    Wrong {
        name: "a line asks 266 bytes of line buffer",
        answer: |mut made| match &made {
            Made::Line { line, .. } if line.len() < 266 => -1,
            _ => made.right(),
        },
    },
    Wrong {
        name: "a granted line of one process is refused with 6",
        answer: |made| refuse(made, 6, |asked, answer| answer >= 0 && asked.pid == 5),
    },
];

fn whole(text: &impl AsRef<[u8]>) -> bool {
    read_line(text.as_ref()).is_some_and(|line| line.arguments.is_some())
}

/// The model's answer to a line in which each number may be another; the fields are
/// counted, and the newline is in none.
fn numbers(made: Made, change: impl Fn(usize, &[u8]) -> Option<Vec<u8>>) -> i64 {
    reread(made, |text| {
        let (text, newline) = match text.strip_suffix(b"\n") {
            Some(text) => (text, &b"\n"[..]),
            None => (text, &b""[..]),
        };
        let fields = text.split(|&b| b == b' ').enumerate().map(|(i, field)| match i {
            1 => field.to_vec(),
            _ => change(i, field).unwrap_or(field.to_vec()),
        });
        Some([fields.collect::<Vec<_>>().join(&b' '), newline.to_vec()].concat())
    })
}

/// The same of the request.
fn requests(made: Made, change: impl Fn(&[u8]) -> Option<Vec<u8>>) -> i64 {
    reread(made, |text| {
        let mut fields: Vec<Vec<u8>> = text.split(|&b| b == b' ').map(<[u8]>::to_vec).collect();
        let request = change(fields.get(1)?)?;
        fields[1] = request;
        Some(fields.join(&b' '))
    })
}

/// A number without the zeros before it.
fn unpadded(field: &[u8]) -> Option<Vec<u8>> {
    let digits = field.strip_prefix(b"0x")?;
    let zeros = digits.iter().take_while(|&&digit| digit == b'0').count();
    let zeros = zeros.min(digits.len().saturating_sub(1));
    Some([b"0x", &digits[zeros..]].concat())
}

/// The last eight digits of a longer number.
fn cut(field: &[u8]) -> Vec<u8> {
    let short = [b"0x", &field[field.len() - 8..]].concat();
    unpadded(&short).unwrap_or(short)
}

fn one_blank(text: &[u8]) -> Option<Vec<u8>> {
    let mut one = text.to_vec();
    one.dedup_by(|a, b| *a == b' ' && *b == b' ');
    Some(one)
}

/// What is answered with this number is refused with 6, and nothing is written.
fn unanswered(made: Made, number: i64) -> i64 {
    let Made::Line { state, memory, text, line } = made else { return 0 };
    let mut unseen = line.to_vec();
    match line_bytes(state, memory, text, &mut unseen) {
        answer if answer == -number => -6,
        answer => {
            line.copy_from_slice(&unseen);
            answer
        }
    }
}

fn printed(w: &Written, number: impl Fn(u32) -> String, end: &str) -> Vec<u8> {
    let [pid, flag, response] = [w.pid, w.flag, w.response].map(number);
    format!("{pid} {} {flag} {response}{end}", char::from(w.request)).into_bytes()
}

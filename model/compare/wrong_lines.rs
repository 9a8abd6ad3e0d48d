//! Wrong libraries that go wrong by what a line does: the order of its tests, words and
//! registers.

use crate::lined::{granted, on_changed, refuse, reread, Asked, Granted};
use crate::lines::printed;
use crate::made::Made;
use crate::wrong::Wrong;
use model::*;

const WORD_LETTERS: &[u8] = b"idID";

/// Each is the model's answer, but for one error.
pub const WRONG_LINES: &[Wrong] = &[
    // the order of tests
    Wrong {
        name: "an owed answer is not tested",
        answer: |made| on_changed(made, |_, process| forget(process)),
    },
    Wrong {
        name: "an owed answer is tested for c and s alone",
        answer: |made| on_changed(made, |a, process| !a.is(b"cs") && forget(process)),
    },
    Wrong {
        name: "an owed answer is tested after the run state",
        answer: |made| {
            refuse(made, 122, |a, answer| {
                answer == -116 && a.is(b"cs") && a.of_ours(|p| !p.run.waits())
            })
        },
    },
    Wrong {
        name: "an owed answer is tested after the address",
        answer: |made| refuse(made, 114, |a, answer| answer == -116 && outside(a)),
    },
    Wrong {
        name: "the address is tested before the right",
        answer: |made| refuse(made, 114, |a, answer| answer == -101 && outside(a)),
    },
    Wrong {
        name: "the address is tested before the process",
        answer: |made| {
            refuse(made, 114, |a, answer| answer == -103 && a.is(WORD_LETTERS) && a.addr % 4 != 0)
        },
    },
    Wrong {
        name: "the run state is tested after the address",
        answer: |made| refuse(made, 114, |a, answer| answer == -122 && a.is(b"cs") && outside(a)),
    },
    Wrong {
        name: "the run state is tested before the right",
        answer: |made| {
            refuse(made, 122, |a, answer| {
                answer == -101 && a.is(b"cs") && a.process.is_some_and(|p| !p.run.waits())
            })
        },
    },
    Wrong {
        name: "a register's value is tested after its number",
        answer: |made| refuse(made, 114, |a, answer| answer == -122 && a.is(b"R") && a.addr > 8),
    },
    Wrong {
        name: "no such process is no right",
        answer: |made| refuse(made, 101, |_, answer| answer == -103),
    },
    Wrong {
        name: "an absent process is no right",
        answer: |made| refuse(made, 101, |a, answer| answer == -103 && a.pid < 8),
    },
    Wrong {
        name: "no right is no such process",
        answer: |made| refuse(made, 103, |_, answer| answer == -101),
    },
    Wrong { name: "PID is cut to a byte", answer: |made| renamed(made, |pid| pid % 256) },
    Wrong { name: "PID is cut to three bits", answer: |made| renamed(made, |pid| pid % 8) },
    Wrong {
        name: "any host that debugs a process has a right by lines",
        answer: |made| on_changed(made, |_, p| p.host != NOBODY && lend(p)),
    },
    Wrong {
        name: "a process that nobody debugs may be asked",
        answer: |made| on_changed(made, |_, p| p.there && p.host == NOBODY && lend(p)),
    },
    Wrong {
        name: "host 252 has a right by lines",
        answer: |made| on_changed(made, |_, p| p.host == 252 && lend(p)),
    },
    // words
    Wrong {
        name: "a word is shown with its high byte first",
        answer: |made| shown(made, WORD_LETTERS, |c| c.response.swap_bytes()),
    },
    Wrong {
        name: "a word is shown with its 16-bit halves exchanged",
        answer: |made| shown(made, WORD_LETTERS, |c| c.response.rotate_left(16)),
    },
    Wrong {
        name: "a word of two bytes is shown",
        answer: |made| shown(made, b"id", |c| *c.response & 0xffff),
    },
    Wrong {
        name: "i shows planted words",
        answer: |made| shown(made, b"i", |c| held(c.old_bytes, c.asked.addr)),
    },
    Wrong {
        name: "d shows planted words",
        answer: |made| shown(made, b"d", |c| held(c.old_bytes, c.asked.addr)),
    },
    Wrong {
        name: "I shows planted words",
        answer: |made| shown(made, b"ID", |c| held(c.old_bytes, c.asked.addr)),
    },
    Wrong {
        name: "I shows what is there after it",
        answer: |made| shown(made, b"I", |c| c.asked.data),
    },
    Wrong {
        name: "D shows what is there after it",
        answer: |made| shown(made, b"D", |c| c.asked.data),
    },
    Wrong { name: "I shows 0", answer: |made| shown(made, b"I", |_| 0) },
    Wrong { name: "I stores nothing", answer: |made| changed(made, b"I", |c| put_back(c)) },
    Wrong { name: "D stores nothing", answer: |made| changed(made, b"D", |c| put_back(c)) },
    Wrong {
        name: "I stores its high byte first",
        answer: |made| changed(made, b"ID", |c| store(c, c.asked.data.swap_bytes())),
    },
    Wrong {
        name: "I stores two bytes",
        answer: |made| {
            changed(made, b"ID", |c| {
                let old = seen(c.old, c.old_bytes, c.asked.addr);
                store(c, c.asked.data & 0xffff | old & 0xffff_0000)
            })
        },
    },
    Wrong {
        name: "I stores into memory over a planted word",
        answer: |made| {
            changed(made, b"ID", |c| {
                c.new.breakpoints = c.old.breakpoints;
                word_at(c.bytes, c.asked.addr).copy_from_slice(&c.asked.data.to_le_bytes());
            })
        },
    },
    Wrong {
        name: "I puts the BPT of one written over back",
        answer: |made| {
            changed(made, b"ID", |c| {
                for b in c.new.breakpoints.iter().filter(|b| b.planted()) {
                    if u32::from(b.address) & !3 == c.asked.addr {
                        c.bytes[usize::from(b.address)..][..2].copy_from_slice(&BPT_WORD);
                    }
                }
            })
        },
    },
    Wrong {
        name: "a word at an even address is granted",
        answer: |made| retried(made, |a| a.is(WORD_LETTERS) && a.addr % 4 == 2, |a| a.addr -= 2),
    },
    Wrong {
        name: "a word at an odd address is granted",
        answer: |made| retried(made, |a| a.is(WORD_LETTERS) && a.addr % 2 == 1, |a| a.addr &= !3),
    },
    Wrong {
        name: "a word that begins inside is granted",
        answer: |made| {
            let ends = |a: &Asked| a.of_ours(|p| a.addr + 2 == u32::from(p.size));
            let wrong =
                |a: &Asked| a.is(WORD_LETTERS) && a.addr % 4 == 0 && a.addr < 4096 && ends(a);
            retried(made, wrong, |a| a.addr = a.addr.saturating_sub(4))
        },
    },
    Wrong {
        name: "a word at the size is granted",
        answer: |made| {
            let wrong =
                |a: &Asked| a.is(WORD_LETTERS) && a.of_ours(|p| a.addr == u32::from(p.size));
            retried(made, wrong, |a| a.addr -= 4)
        },
    },
    Wrong {
        name: "a word at size - 4 is refused",
        answer: |made| {
            refuse(made, 114, |a, answer| {
                answer > 0 && a.is(WORD_LETTERS) && a.of_ours(|p| a.addr + 4 == u32::from(p.size))
            })
        },
    },
    Wrong {
        name: "an address is cut to 16 bits",
        answer: |made| retried(made, |a| a.is(WORD_LETTERS), |a| a.addr %= 65_536),
    },
    Wrong {
        name: "words are asked for in a process that waits alone",
        answer: |made| {
            refuse(made, 122, |a, answer| {
                answer > 0 && a.is(b"idIDrR") && a.of_ours(|p| !p.run.waits())
            })
        },
    },
    Wrong {
        name: "I while running is refused",
        answer: |made| {
            refuse(made, 122, |a, answer| {
                answer > 0 && a.is(b"ID") && a.of_ours(|p| p.run == Run::Running)
            })
        },
    },
    // registers
    Wrong {
        name: "register 9 is read",
        answer: |made| retried(made, |a| a.is(b"r") && a.addr == 9, |a| a.addr = 8),
    },
    Wrong {
        name: "register 8 is outside",
        answer: |made| refuse(made, 114, |a, answer| answer > 0 && a.is(b"rR") && a.addr == 8),
    },
    Wrong {
        name: "a register's number is cut to 8 bits",
        answer: |made| retried(made, |a| a.is(b"rR"), |a| a.addr %= 256),
    },
    Wrong {
        name: "registers 6 and 7 are exchanged",
        answer: |made| {
            shown(made, b"r", |c| match c.asked.addr {
                6 => c.old.vector[7].into(),
                7 => c.old.vector[6].into(),
                _ => *c.response,
            })
        },
    },
    Wrong {
        name: "R of 65,536 stores 0",
        answer: |made| retried(made, |a| a.is(b"R"), |a| a.data %= 65_536),
    },
    Wrong {
        name: "R of 65,535 is refused",
        answer: |made| refuse(made, 122, |a, answer| answer > 0 && a.is(b"R") && a.data == 65_535),
    },
    Wrong {
        name: "R shows what is there after it",
        answer: |made| shown(made, b"R", |c| c.asked.data),
    },
    Wrong { name: "R stores nothing", answer: |made| changed(made, b"R", |c| put_back(c)) },
    Wrong {
        name: "R stores its high byte first",
        answer: |made| {
            changed(made, b"R", |c| {
                c.new.vector[c.asked.addr as usize] = (c.asked.data as u16).swap_bytes();
            })
        },
    },
    Wrong {
        name: "r is shown with its high byte first",
        answer: |made| shown(made, b"r", |c| u32::from((*c.response as u16).swap_bytes())),
    },
];

// ---------------------------------------------------------------- tests

/// Forgets what a process owes; says whether it did.
fn forget(process: &mut Process) -> bool {
    std::mem::replace(&mut process.owed, Owed::Nothing) != Owed::Nothing
}

pub fn lend(process: &mut Process) -> bool {
    let before = std::mem::replace(&mut process.host, TEXT_HOST);
    if process.watcher == TEXT_HOST {
        process.watcher = NOBODY;
    }
    for b in process.breakpoints.iter_mut().filter(|b| b.used() && b.setter == before) {
        b.setter = TEXT_HOST;
    }
    before != TEXT_HOST
}

/// Whether an address is odd or over all sizes, or a word's not divisible by 4.
fn outside(asked: &Asked) -> bool {
    match asked.request {
        b'r' | b'R' => asked.addr > 8,
        b'c' | b's' => asked.addr != 1 && (asked.addr % 2 == 1 || asked.addr >= 4096),
        _ => asked.addr % 4 != 0 || asked.addr >= 4096,
    }
}

/// The model's answer to another PID, which is printed as it was asked.
fn renamed(made: Made, change: impl Fn(u32) -> u32) -> i64 {
    reread(made, |text| {
        let LineRead { pid, request, arguments } = read_line(text)?;
        let (addr, data) = arguments?;
        Some(printed(change(pid), request, addr, data))
    })
}

/// The model's answer to other arguments, where such a line is asked.
pub fn retried(made: Made, test: impl Fn(&Asked) -> bool, change: impl Fn(&mut Asked)) -> i64 {
    let mut made = made;
    let records = made.records().unwrap_or(NONE_THERE);
    reread(made, |text| {
        let LineRead { pid, request, arguments } = read_line(text)?;
        let (addr, data) = arguments?;
        let process = records.processes.get(pid as usize).copied();
        let mut asked = Asked { pid, request, addr, data, process };
        if !test(&asked) {
            return None;
        }
        change(&mut asked);
        Some(printed(pid, request, asked.addr, asked.data))
    })
}

// ---------------------------------------------------------------- what came of it

/// Another response to a granted line with one of these letters.
fn shown(made: Made, letters: &[u8], response: impl Fn(&Granted) -> u32) -> i64 {
    changed(made, letters, |c| *c.response = response(c))
}

pub fn changed(made: Made, letters: &[u8], change: impl Fn(&mut Granted)) -> i64 {
    granted(made, |c| {
        if c.asked.is(letters) {
            change(c);
        }
    })
}

pub fn put_back(c: &mut Granted) {
    *c.new = *c.old;
    c.bytes.copy_from_slice(c.old_bytes);
}

fn word_at(bytes: &mut [u8], addr: u32) -> &mut [u8] {
    &mut bytes[addr as usize..][..4]
}

/// The four bytes of memory at an address.
fn held(bytes: &[u8], addr: u32) -> u32 {
    let at = addr as usize;
    u32::from_le_bytes([bytes[at], bytes[at + 1], bytes[at + 2], bytes[at + 3]])
}

/// The four bytes that are seen there.
fn seen(process: &Process, bytes: &[u8], addr: u32) -> u32 {
    let mut seen = bytes.to_vec();
    for b in process.breakpoints.iter().filter(|b| b.planted()) {
        seen[usize::from(b.address)..][..2].copy_from_slice(&b.saved);
    }
    held(&seen, addr)
}

/// Stores another word than the one that is asked for, under breakpoints too.
fn store(c: &mut Granted, word: u32) {
    let bytes = word.to_le_bytes();
    for (i, byte) in bytes.into_iter().enumerate() {
        let at = c.asked.addr as usize + i;
        let planted =
            c.new.breakpoints.iter_mut().find(|b| b.planted() && usize::from(b.address) == at & !1);
        match planted {
            Some(b) => b.saved[at & 1] = byte,
            None => c.bytes[at] = byte,
        }
    }
}

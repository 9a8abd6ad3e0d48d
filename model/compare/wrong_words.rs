//! Wrong libraries that go wrong by K1's words: which word an address names, and how it is
//! stored and acknowledged.

use crate::made::Made;
use crate::pupped::*;
use crate::wrong::Wrong;
use model::*;

/// Each is the model's answer, but for one error.
pub const WRONG_WORDS: &[Wrong] = &[
    // which word
    Wrong {
        name: "a word address is taken for a byte address",
        answer: |made| {
            acknowledged(made, |a, ack| {
                if a.is(FETCH) {
                    let [low, high] = [a.address(), a.address() + 1]
                        .map(|at| a.seen(at / 2).to_le_bytes()[at % 2]);
                    ack[1] = u16::from_le_bytes([low, high]);
                }
            })
        },
    },
    Wrong {
        name: "a word address is tested against the size in bytes",
        answer: |made| grant_outside(made, |a| a.address() + 2 <= 2 * a.room()),
    },
    Wrong {
        name: "a word address is tested against 2,047 alone",
        answer: |made| grant_outside(made, |a| a.address() <= 2047),
    },
    Wrong {
        name: "the word after the last is granted",
        answer: |made| grant_outside(made, |a| a.address() == a.room()),
    },
    Wrong {
        name: "a word address is doubled in 16 bits",
        answer: |made| {
            resent(made, |kind, _, words| {
                if matches!(kind, 128 | 129) {
                    words.iter_mut().take(1).for_each(|address| *address &= 0x7fff);
                }
            })
        },
    },
    Wrong {
        name: "the last word is refused with 10",
        answer: |made| {
            refuse(made, 10, |a, right| right >= 0 && a.looks() && a.address() + 1 == a.room())
        },
    },
    Wrong {
        name: "word 2,047 is refused with 10",
        answer: |made| refuse(made, 10, |a, right| right >= 0 && a.looks() && a.address() == 2047),
    },
    // a Store
    Wrong {
        name: "a Store into a planted word goes into memory",
        answer: |made| stored_planted(made, false),
    },
    Wrong {
        name: "a Store into a planted word goes into memory too",
        answer: |made| stored_planted(made, true),
    },
    Wrong {
        name: "a Store into a lifted word goes into the entry too",
        answer: |made| {
            after(made, |a, g| {
                let address = a.address();
                if a.is(STORE) && a.here(address).is_some_and(|b| b.lifted) {
                    let at = |b: &&mut Breakpoint| usize::from(b.address) == 2 * address;
                    if let Some(b) = g.new.breakpoints.iter_mut().find(at) {
                        b.saved = a.words[1].to_le_bytes();
                    }
                }
            })
        },
    },
    Wrong {
        name: "a Store has the high byte first",
        answer: |made| {
            resent(made, |kind, _, words| {
                if *kind == STORE.into() {
                    words.iter_mut().skip(1).take(1).for_each(|value| *value = value.swap_bytes());
                }
            })
        },
    },
    Wrong {
        name: "a Store stores the low byte alone",
        answer: |made| {
            after(made, |a, g| {
                let address = a.address();
                if a.is(STORE) && a.here(address).is_none() {
                    g.bytes[2 * address + 1] = a.seen(address).to_le_bytes()[1];
                }
            })
        },
    },
    Wrong {
        name: "a Store stores nothing while running",
        answer: |made| {
            after(made, |a, g| {
                let address = a.address();
                if a.is(STORE) && a.here(address).is_none() && a.runs(Run::Running) {
                    let word = a.seen(address).to_le_bytes();
                    g.bytes[2 * address..2 * address + 2].copy_from_slice(&word);
                }
            })
        },
    },
    Wrong {
        name: "a Store's acknowledgement has the value",
        answer: |made| acknowledged(made, |a, ack| ack[1] = a.seen_after(a.address())),
    },
    Wrong {
        name: "a Store's acknowledgement has the word before",
        answer: |made| {
            acknowledged(made, |a, ack| {
                if a.is(STORE) {
                    ack[1] = a.seen(a.address());
                }
            })
        },
    },
    // a Fetch
    Wrong {
        name: "a Fetch has the high byte first",
        answer: |made| acknowledged(made, |_, ack| ack[1] = ack[1].swap_bytes()),
    },
    Wrong {
        name: "a Fetch shows a planted word",
        answer: |made| {
            acknowledged(made, |a, ack| {
                if a.is(FETCH) {
                    ack[1] = a.in_memory(a.address());
                }
            })
        },
    },
    Wrong {
        name: "a Fetch shows the entry's word of a lifted one",
        answer: |made| {
            acknowledged(made, |a, ack| {
                if let (true, Some(b)) = (a.is(FETCH), a.here(a.address())) {
                    ack[1] = u16::from_le_bytes(b.saved);
                }
            })
        },
    },
    Wrong {
        name: "an acknowledgement has the address in bytes",
        answer: |made| acknowledged(made, |_, ack| ack[0] = ack[0].wrapping_mul(2)),
    },
    Wrong {
        name: "an acknowledgement has the base of the block as the address",
        answer: |made| {
            acknowledged(made, |_, ack| {
                if ack.len() > 3 {
                    ack[0] &= ack[2].wrapping_neg();
                }
            })
        },
    },
    Wrong {
        name: "an acknowledgement without a block is filled with zeros",
        answer: |mut made| {
            let answer = made.right();
            if let (2, Made::Packet { ack, .. }) = (answer, made) {
                ack[2..ACK_WORDS].fill(0);
            }
            answer
        },
    },
];

fn stored_planted(made: Made, in_entry_too: bool) -> i64 {
    after(made, |a, g| {
        let address = a.address();
        if !a.is(STORE) || !a.here(address).is_some_and(|b| b.planted()) {
            return;
        }
        g.bytes[2 * address..2 * address + 2].copy_from_slice(&a.words[1].to_le_bytes());
        if !in_entry_too {
            g.new.breakpoints = g.old.breakpoints;
        }
    })
}

/// A Store or Fetch outside is granted, and nothing is stored.
fn grant_outside(mut made: Made, test: impl Fn(&Asked) -> bool) -> i64 {
    let asked = asked(&mut made).filter(|a| test(a));
    let answer = made.right();
    match (asked, made) {
        (Some(a), Made::Packet { ack, .. }) if answer == -10 => {
            ack[..2].copy_from_slice(&[a.words[0], 0]);
            2
        }
        _ => answer,
    }
}

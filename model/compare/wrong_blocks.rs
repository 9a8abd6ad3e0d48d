//! Wrong libraries that go wrong by K1's blocks: which is sent around a word, and what it shows.

use crate::made::Made;
use crate::pupped::*;
use crate::wrong::Wrong;
use model::*;

/// Each is the model's answer, but for one error.
pub const WRONG_BLOCKS: &[Wrong] = &[
    // how long a block is
    Wrong {
        name: "the third word of an acknowledgement is as asked",
        answer: |made| {
            acknowledged(made, |a, ack| {
                if ack.len() > 3 {
                    ack[2] = a.third() as u16;
                }
            })
        },
    },
    Wrong {
        name: "the third word of an acknowledgement is 32 of more, halved or not",
        answer: |made| {
            acknowledged(made, |a, ack| {
                if ack.len() > 3 {
                    ack[2] = a.third().min(32) as u16;
                }
            })
        },
    },
    Wrong {
        name: "a block of one word is not sent",
        answer: |made| {
            acknowledged(made, |a, ack| ack.truncate(if a.third() == 1 { 2 } else { 35 }))
        },
    },
    Wrong {
        name: "a block that is halved to one word is not sent",
        answer: |made| {
            acknowledged(made, |a, ack| {
                ack.truncate(if a.third() > 1 && ack.len() == 4 { 2 } else { 35 })
            })
        },
    },
    Wrong {
        name: "a block of more than 32 is not sent",
        answer: |made| {
            acknowledged(made, |a, ack| ack.truncate(if a.third() > 32 { 2 } else { 35 }))
        },
    },
    Wrong {
        name: "16 words are sent at most",
        answer: |made| reblocked(made, |a| halved(a, a.third().min(16))),
    },
    Wrong {
        name: "a length of no power of two is rounded down",
        answer: |made| {
            blocked(made, |a| match a.third() {
                third @ 3..=256 => Some(halved(a, (1 << third.ilog2()).min(32))),
                _ => None,
            })
        },
    },
    Wrong {
        name: "a length over 256 asks for 32",
        answer: |made| {
            blocked(made, |a| {
                (a.third() > 256 && a.third().is_power_of_two()).then(|| halved(a, 32))
            })
        },
    },
    Wrong {
        name: "a length of 257 asks for 32",
        answer: |made| blocked(made, |a| (a.third() == 257).then(|| halved(a, 32))),
    },
    Wrong {
        name: "a length of 0 is acknowledged",
        answer: |made| {
            acknowledged(made, |a, ack| {
                if a.words.len() > 2 && a.third() == 0 {
                    ack.push(0);
                }
            })
        },
    },
    Wrong {
        name: "a block past the size is not halved",
        answer: |made| reblocked(made, |a| based(a, a.third().min(32))),
    },
    Wrong {
        name: "a block past the size is cut off there",
        answer: |made| {
            reblocked(made, |a| {
                let (base, length) = based(a, a.third().min(32));
                (base, length.min(a.room() - base))
            })
        },
    },
    Wrong {
        name: "a block is halved once at most",
        answer: |made| {
            reblocked(made, |a| {
                let length = a.third().min(32);
                based(a, if fits(a, length) { length } else { length / 2 })
            })
        },
    },
    Wrong {
        name: "a block that ends with the process is halved",
        answer: |made| {
            reblocked(made, |a| {
                let mut length = a.third().min(32);
                while length > 1 && a.address() / length * length + length >= a.room() {
                    length /= 2;
                }
                based(a, length)
            })
        },
    },
    Wrong {
        name: "a block past the size is not sent",
        answer: |made| {
            acknowledged(made, |a, ack| {
                ack.truncate(if ack.len() > 3 && !fits(a, a.third().min(32)) { 2 } else { 35 })
            })
        },
    },
    // where a block begins
    Wrong {
        name: "a block has the base of the length asked",
        answer: |made| {
            reblocked(made, |a| {
                let (_, length) = halved(a, a.third().min(32));
                (a.address() / a.third() * a.third(), length)
            })
        },
    },
    Wrong {
        name: "the base of a halved block is not worked out anew",
        answer: |made| {
            reblocked(made, |a| {
                let (base, _) = based(a, a.third().min(32));
                (base, halved(a, a.third().min(32)).1)
            })
        },
    },
    Wrong {
        name: "a block begins with the word asked",
        answer: |made| reblocked(made, |a| (a.address(), halved(a, a.third().min(32)).1)),
    },
    Wrong {
        name: "a block has the word asked in its middle",
        answer: |made| {
            reblocked(made, |a| {
                let (_, length) = halved(a, a.third().min(32));
                (a.address().saturating_sub(length / 2), length)
            })
        },
    },
    // what a block shows
    Wrong {
        name: "a block shows memory before the store",
        answer: |made| shown(made, |a, word| a.seen(word)),
    },
    Wrong {
        name: "a block shows a planted word",
        answer: |made| {
            shown(made, |a, word| match a.here(word) {
                Some(b) if b.planted() => a.in_memory(word),
                _ => a.seen_after(word),
            })
        },
    },
    Wrong {
        name: "a block shows a planted word of the other host",
        answer: |made| {
            shown(made, |a, word| match a.here(word) {
                Some(b) if b.planted() && b.setter != PUP_HOST => a.in_memory(word),
                _ => a.seen_after(word),
            })
        },
    },
    Wrong {
        name: "a block shows 3 at a planted word that was written over",
        answer: |made| {
            shown(made, |a, word| match a.here(word) {
                Some(b) if b.planted() && a.in_memory(word) != 3 => 3,
                _ => a.seen_after(word),
            })
        },
    },
    Wrong {
        name: "a block shows the entry's word of a lifted one",
        answer: |made| {
            shown(made, |a, word| match a.here(word) {
                Some(b) if b.lifted => u16::from_le_bytes(b.saved),
                _ => a.seen_after(word),
            })
        },
    },
    Wrong {
        name: "a block has the high bytes first",
        answer: |made| shown(made, |a, word| a.seen_after(word).swap_bytes()),
    },
];

fn based(a: &Asked, length: usize) -> (usize, usize) {
    (a.address() / length * length, length)
}

fn fits(a: &Asked, length: usize) -> bool {
    let (base, length) = based(a, length);
    base + length <= a.room()
}

/// The base and the length of a block of so many words, halved until it fits.
fn halved(a: &Asked, mut length: usize) -> (usize, usize) {
    while length > 1 && !fits(a, length) {
        length /= 2;
    }
    based(a, length)
}

fn put_block(a: &Asked, ack: &mut Vec<u16>, (base, length): (usize, usize)) {
    ack.truncate(2);
    ack.push(length as u16);
    ack.extend((base..base + length).map(|word| a.seen_after(word)));
}

/// Another block in place of the one that is sent.
fn reblocked(made: Made, block: impl Fn(&Asked) -> (usize, usize)) -> i64 {
    acknowledged(made, |a, ack| {
        if ack.len() > 3 {
            put_block(a, ack, block(a));
        }
    })
}

/// A block where there is one here and none is sent.
fn blocked(made: Made, block: impl Fn(&Asked) -> Option<(usize, usize)>) -> i64 {
    acknowledged(made, |a, ack| {
        if let (2, Some(block)) = (ack.len(), block(a)) {
            put_block(a, ack, block);
        }
    })
}

/// The words of a block are others.
fn shown(made: Made, word: impl Fn(&Asked, usize) -> u16) -> i64 {
    acknowledged(made, |a, ack| {
        let length = ack.len().saturating_sub(3);
        for i in 0..length {
            ack[3 + i] = word(a, a.address() / length * length + i);
        }
    })
}

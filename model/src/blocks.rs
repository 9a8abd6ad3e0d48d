//! K1, "A Pup door": the words of a process, and the block that an acknowledgement carries.

use super::*;
use std::ops::Range;

/// "If a block of a power of two of words up to 256 is asked"
pub const LONGEST_ASKED: u16 = 256;
/// "send the smaller of that and 32"
pub const LONGEST_BLOCK: u16 = 32;
/// The address, the second word, the block's length, and the block: "1 asks 35 output
/// words".
pub const ACK_WORDS: usize = 3 + LONGEST_BLOCK as usize;

/// The words that are sent round a word's address, which is inside: nothing where the third
/// data word asks for none. "send the smaller of that and 32 from the memo's block base for
/// the length sent". K2: "a block reaching past the size is halved until it fits": each
/// halved length has a base of its own, and one word always fits.
pub fn block(address: u16, asked: u16, size: u16) -> Option<Range<u16>> {
    if !asked.is_power_of_two() || asked > LONGEST_ASKED {
        return None;
    }
    let mut length = asked.min(LONGEST_BLOCK);
    while length > 1 && base(address, length) + length > size / WORD {
        length /= 2;
    }
    let base = base(address, length);
    Some(base..base + length)
}

/// The memo: "the address of the fetch or store command which the ack packet is
/// acknowledging ANDed with the negative block size in the ack packet".
fn base(address: u16, length: u16) -> u16 {
    address & length.wrapping_neg()
}

/// Whether a word's address is inside: "word address a is seen bytes 2a and 2a + 1"; K2:
/// "10 reads against the size". Added in more than 16 bits.
pub(super) fn word_inside(address: u16, size: u16) -> bool {
    2 * (u32::from(address) + 1) <= u32::from(size)
}

/// "word address a is [..] bytes 2a and 2a + 1, low first"
fn word_at(space: &mut [u8], address: u16) -> u16 {
    let word = word(space, WORD * address);
    u16::from_le_bytes([word[0], word[1]])
}

impl Process {
    /// A Store, where a value is given, or a Fetch, of a word that is inside; the number of
    /// words of its acknowledgement. The words are those seen: "A byte under a planted
    /// breakpoint goes to the saved word."
    pub(super) fn acknowledge(
        &mut self,
        space: &mut [u8],
        address: u16,
        value: Option<u16>,
        asked: u16,
        ack: &mut [u16],
    ) -> usize {
        self.exchange_planted(space);
        ack[0] = address;
        ack[1] = match value {
            Some(value) => {
                word(space, WORD * address).copy_from_slice(&value.to_le_bytes());
                // "A Store ack's second word is 0."
                0
            }
            // The memo: "The second data word is the contents of that address."
            None => word_at(space, address),
        };
        // "otherwise the ack has two words"
        let mut count = 2;
        // The memo: "The block should reflect the result of the store."
        if let Some(block) = block(address, asked, self.size) {
            ack[count] = block.end - block.start;
            count += 1;
            for address in block {
                ack[count] = word_at(space, address);
                count += 1;
            }
        }
        self.exchange_planted(space);
        count
    }
}

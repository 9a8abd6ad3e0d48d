//! K1, "A Pup door": the blocks of words, and K2's halving.

use super::packets::{acked, refused, sized};
use super::*;

/// A door's process of this size, each of whose words holds its address plus 1000.
fn numbered(size: u16) -> Gateway {
    let mut g = sized(size);
    for (a, pair) in g.memory.chunks_exact_mut(2).enumerate() {
        pair.copy_from_slice(&(1000 + a as u16).to_le_bytes());
    }
    g
}

/// Fetch and Store of a word, with a block that has this base and length, or with none.
#[track_caller]
fn sends(g: &mut Gateway, address: u16, asked: u16, sent: Option<(u16, u16)>) {
    let mut fetched = vec![address, 1000 + address];
    if let Some((base, length)) = sent {
        fetched.push(length);
        fetched.extend((base..base + length).map(|a| 1000 + a));
    }
    assert_eq!(acked(g, FETCH, &[address, 9, asked]), fetched, "{asked} at {address}");
    // "A Store ack's second word is 0", and its block shows the result of the store
    let mut stored = fetched.clone();
    stored[1] = 0;
    if let Some((base, _)) = sent {
        stored[3 + usize::from(address - base)] = 7;
    }
    assert_eq!(acked(g, STORE, &[address, 7, asked]), stored, "{asked} at {address}");
    assert_eq!(acked(g, STORE, &[address, 1000 + address]), [address, 0]);
}

/// "If a block of a power of two of words up to 256 is asked, send the smaller of that and
/// 32"
#[test]
fn k1_every_length_asked() {
    let mut g = numbered(4096);
    for asked in 0..=65_535u16 {
        let sent = match asked {
            1 => Some((1325, 1)),
            2 => Some((1324, 2)),
            4 => Some((1324, 4)),
            8 => Some((1320, 8)),
            16 => Some((1312, 16)),
            32 | 64 | 128 | 256 => Some((1312, 32)),
            _ => None,
        };
        if sent.is_some() || asked < 600 || asked.is_power_of_two() || asked % 977 == 0 {
            sends(&mut g, 1325, asked, sent);
        }
    }
    // no third word, no block
    assert_eq!(acked(&mut g, FETCH, &[1325]), [1325, 2325]);
    assert_eq!(acked(&mut g, FETCH, &[1325, 32]), [1325, 2325]);
    assert_eq!(acked(&mut g, STORE, &[1325, 32]), [1325, 0]);
}

/// "from the memo's block base for the length sent": not for the length asked
#[test]
fn k1_the_base() {
    let mut g = numbered(4096);
    for (address, asked, base, length) in [
        (0, 256, 0, 32),
        (31, 32, 0, 32),
        (32, 32, 32, 32),
        (63, 64, 32, 32),
        (255, 256, 224, 32),
        (256, 256, 256, 32),
        (2047, 256, 2016, 32),
        (2047, 2, 2046, 2),
        (2046, 1, 2046, 1),
        (1000, 16, 992, 16),
        (1007, 16, 992, 16),
        (1008, 16, 1008, 16),
    ] {
        sends(&mut g, address, asked, Some((base, length)));
    }
}

/// K2: "a block reaching past the size is halved until it fits": the feed process ends at a
/// multiple of 32 words, one of 100 bytes does not.
#[test]
fn k1_halved_blocks() {
    sends(&mut numbered(1536), 767, 256, Some((736, 32)));
    let mut g = numbered(100);
    for (address, asked, base, length) in [
        (0, 256, 0, 32),
        (31, 256, 0, 32),
        // 32 to 63 reach past the 50 words: 32 to 47, and then 48 and 49
        (32, 256, 32, 16),
        (47, 32, 32, 16),
        (48, 256, 48, 2),
        (49, 256, 48, 2),
        (49, 16, 48, 2),
        (49, 2, 48, 2),
        (49, 1, 49, 1),
        (48, 1, 48, 1),
        (40, 8, 40, 8),
        (47, 8, 40, 8),
    ] {
        sends(&mut g, address, asked, Some((base, length)));
    }
    refused(&mut g, FETCH, 1, &[50, 0, 1], 10);
}

#[test]
fn k1_blocks_of_small_processes() {
    // one word, two, three, five
    for asked in [1, 2, 4, 32, 256] {
        sends(&mut numbered(2), 0, asked, Some((0, 1)));
        sends(&mut numbered(4), 1, asked, Some(if asked == 1 { (1, 1) } else { (0, 2) }));
        sends(&mut numbered(6), 2, asked, Some((2, 1)));
        sends(&mut numbered(6), 1, asked, Some(if asked == 1 { (1, 1) } else { (0, 2) }));
        sends(&mut numbered(10), 4, asked, Some((4, 1)));
        let at_3 = match asked {
            1 => (3, 1),
            2 => (2, 2),
            _ => (0, 4),
        };
        sends(&mut numbered(10), 3, asked, Some(at_3));
    }
}

/// Every address of every size up to 65 words, and of sizes about 1,536 and 4,096: the
/// block is the longest of those lengths whose words round the address are all inside.
#[test]
fn k1_the_longest_that_fits() {
    for size in (2..=130).chain([1534, 1536, 1538, 4090, 4094, 4096]).filter(|size| size % 2 == 0) {
        for address in 0..size / 2 {
            for power in 0..=8 {
                let asked = 1 << power;
                let fits = |length: &u16| address / length * length + length <= size / 2;
                let length = [32, 16, 8, 4, 2, 1]
                    .into_iter()
                    .filter(|length| *length <= asked)
                    .find(fits)
                    .unwrap();
                let base = address / length * length;
                assert_eq!(block(address, asked, size), Some(base..base + length));
            }
            for asked in [0, 3, 31, 33, 255, 257, 512, 32_768, 65_535] {
                assert_eq!(block(address, asked, size), None);
            }
        }
    }
}

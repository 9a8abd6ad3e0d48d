//! Random sizes of processes.

use crate::random::Random;
use model::*;

/// Sizes that a process may have, at the edges; the feed process has 1,536 bytes.
pub const SIZES: [u16; 6] = [2, 4, 1534, 1536, 4094, 4096];

/// Sizes that none may have: too small, odd, too large.
const WRONG_SIZES: [u16; 12] = [0, 1, 3, 1535, 1537, 4093, 4095, 4097, 4098, 8192, 65534, 65535];

/// A size that a process may have: as in document 01, a telling one, or any.
pub fn some_size(random: &mut Random) -> u16 {
    match random.below(4) {
        0 => LARGEST,
        1 | 2 => random.pick(&SIZES),
        _ => 2 * (1 + random.below(usize::from(LARGEST) / 2) as u16),
    }
}

/// A size that no process may have: a telling one, any odd one, or any too large.
pub fn wrong_size(random: &mut Random) -> u16 {
    match random.below(4) {
        0 => random.free_word() | 1,
        1 => (random.free_word() & !1).max(LARGEST + 2),
        _ => random.pick(&WRONG_SIZES),
    }
}

/// Sizes with which those that are there have room in memory together; at times they
/// fill it, and at times they leave much of it free.
pub fn sizes_with_room(random: &mut Random, there: u8) -> [u16; PROCESSES] {
    if random.one_in(8) {
        return [2048; PROCESSES];
    }
    let most = random.pick(&[LARGEST, LARGEST, LARGEST, 2048, 1536, 64]);
    let total = if random.one_in(4) { MEMORY } else { MEMORY - random.below(MEMORY / 2) };
    let mut sizes = [0; PROCESSES];
    sizes.fill_with(|| some_size(random).min(most));
    let sizes = shared(total & !1, there, &sizes);
    if random.one_in(4) {
        return filled(there, &sizes);
    }
    sizes
}

/// These sizes, of those that are there larger ones from the highest number down, until
/// they fill the memory.
fn filled(there: u8, sizes: &[u16; PROCESSES]) -> [u16; PROCESSES] {
    let (mut sizes, is_there) = (*sizes, |p: &usize| there >> p & 1 == 1);
    let used: usize = (0..PROCESSES).filter(is_there).map(|p| usize::from(sizes[p])).sum();
    let mut left = MEMORY - used;
    for p in (0..PROCESSES).filter(is_there).rev() {
        let more = left.min(usize::from(LARGEST - sizes[p]));
        sizes[p] += more as u16;
        left -= more;
    }
    sizes
}

/// These sizes, or smaller ones of those that are there, so that together they have no
/// more bytes than that, which are two at least for each.
pub fn shared(total: usize, there: u8, sizes: &[u16; PROCESSES]) -> [u16; PROCESSES] {
    let (mut left, mut to_come) = (total, there.count_ones() as usize);
    std::array::from_fn(|p| {
        if there >> p & 1 == 0 {
            return sizes[p];
        }
        to_come -= 1;
        let size = usize::from(sizes[p]).min(left - 2 * to_come);
        left -= size;
        size as u16
    })
}

/// ARG1 of a CREATE: mostly a size for which there is room, at the edges of the sizes and
/// of the free bytes, or a small one.
pub fn size_to_create(random: &mut Random, state: &State) -> u16 {
    let free = MEMORY.saturating_sub(used_bytes(state));
    let near_free = |more: usize| (free + more).min(LARGEST.into()) as u16;
    match random.below(16) {
        0 | 1 => 0,
        2 => wrong_size(random),
        3..=5 => near_free(0),
        6 | 7 => near_free(2),
        8 => near_free(0).saturating_sub(2),
        9 | 10 => random.pick(&SIZES),
        11 => some_size(random),
        _ => {
            let most = random.pick(&[4, 64, 512]);
            2 * (1 + random.below(most) as u16)
        }
    }
}

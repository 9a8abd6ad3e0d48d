//! A buffer that is lent to a call, between bytes that no call may touch. The fuzzer uses
//! this too.

/// Bytes in front of and behind each lent buffer, which no call may touch; and how
/// a buffer's memory is aligned.
pub const GUARD: usize = 64;

#[derive(Clone, Copy, PartialEq)]
#[repr(C, align(64))]
struct Block([u8; GUARD]);

/// A lent buffer between its guard bytes, at any offset from an aligned address.
#[derive(PartialEq, Default)]
pub struct Lent {
    blocks: Vec<Block>,
    offset: usize,
    length: usize,
}

impl Lent {
    pub fn new(bytes: &[u8], offset: usize) -> Lent {
        let mut lent = Lent { offset: offset % GUARD, ..Lent::default() };
        lent.lend(bytes);
        lent
    }

    /// Lends these bytes in place of those before, at the same offset.
    pub fn lend(&mut self, bytes: &[u8]) {
        let blocks = (GUARD + self.offset + bytes.len() + GUARD).div_ceil(GUARD);
        self.blocks.clear();
        self.blocks.resize(blocks, Block([0x5a; GUARD]));
        self.length = bytes.len();
        self.change().copy_from_slice(bytes);
    }

    /// All its bytes, those around it included.
    pub fn all(&self) -> &[u8] {
        let first = self.blocks.as_ptr().cast();
        unsafe { std::slice::from_raw_parts(first, GUARD * self.blocks.len()) }
    }

    pub fn bytes(&self) -> &[u8] {
        &self.all()[GUARD + self.offset..][..self.length]
    }

    pub fn change(&mut self) -> &mut [u8] {
        let first = self.blocks.as_mut_ptr().cast();
        let all = unsafe { std::slice::from_raw_parts_mut(first, GUARD * self.blocks.len()) };
        &mut all[GUARD + self.offset..][..self.length]
    }

    /// The 64-bit numbers of the buffer, which is aligned as they are.
    pub fn numbers(&mut self) -> &mut [u64] {
        let (before, numbers, after) = unsafe { self.change().align_to_mut() };
        assert!(before.is_empty() && after.is_empty(), "facts are numbers of 64 bits");
        numbers
    }

    pub fn offset(&self) -> usize {
        self.offset
    }

    /// A copy with another length.
    pub fn resized(&self, length: usize) -> Lent {
        let mut bytes = self.bytes().to_vec();
        bytes.resize(length, 0);
        Lent::new(&bytes, self.offset)
    }
}

impl Clone for Lent {
    fn clone(&self) -> Lent {
        Lent { blocks: self.blocks.clone(), offset: self.offset, length: self.length }
    }

    /// Copies into the memory at hand, since allocating anew takes longer than copying.
    fn clone_from(&mut self, from: &Lent) {
        self.blocks.clone_from(&from.blocks);
        (self.offset, self.length) = (from.offset, from.length);
    }
}

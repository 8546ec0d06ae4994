//! The variables of one sentence.

use super::bytes::S;

const MOST: usize = 16;

/// Sets a long number apart from every index that fits its key; it stands where such an index has its last byte.
const LONG: u128 = 0xFF << 112;

/// A variable's key is its index in 15 bytes, a number without leading zeros, and its kind on top.
#[derive(Default)]
pub struct Variables {
    keys: [u128; MOST],
    numbers: [u8; MOST],
    count: usize,
    of_kind: [u8; 3],
}

impl Variables {
    #[inline(always)]
    pub fn clear(&mut self) {
        (self.count, self.of_kind) = (0, [0; 3]);
    }

    /// Its number; none where it is new and may not be, or one too many.
    #[inline(always)]
    pub fn number(&mut self, kind: u8, index: u128, may_be_new: bool) -> Option<u8> {
        let key = index | u128::from(kind) << 120;
        match self.keys[..self.count].iter().position(|other| *other == key) {
            Some(which) => Some(self.numbers[which]),
            None if may_be_new && self.count < MOST => Some(self.enter(kind, key)),
            None => None,
        }
    }

    #[inline(always)]
    fn enter(&mut self, kind: u8, key: u128) -> u8 {
        let next = &mut self.of_kind[usize::from(kind - S)];
        let number = *next;
        *next += 1;
        (self.keys[self.count], self.numbers[self.count]) = (key, number);
        self.count += 1;
        number
    }

    /// The index of a number too long for a key: where its digits stand, or where the same digits stood before.
    #[cold]
    pub fn long_index(&self, text: &[u8], start: usize, end: usize) -> u128 {
        let digits = |index: u128| &text[index as u32 as usize..][..(index >> 32) as u32 as usize];
        let indices = self.keys[..self.count].iter().map(|key| key & (u128::MAX >> 8));
        let index = LONG | ((end - start) as u128) << 32 | start as u128;
        indices.filter(|index| *index & LONG == LONG).find(|met| digits(*met) == digits(index)).unwrap_or(index)
    }
}

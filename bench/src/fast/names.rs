//! The names of a text, numbered by first appearance through a table of hashes.

pub const RECORD: u8 = 0x14;

#[derive(Default)]
pub struct Names {
    /// A record for each name, as it stands in the list.
    pub records: Vec<u128>,
    /// A name's number and one more; 0 where the slot is free.
    slots: Vec<u16>,
}

impl Names {
    /// No name stands next to another without a byte between them, so a slot is always left free.
    pub fn clear(&mut self, text_length: usize) {
        self.records.clear();
        self.slots.clear();
        self.slots.resize((text_length / 2 + 2).next_power_of_two(), 0);
    }

    /// The number of a name in its one spelling.
    #[inline(always)]
    pub fn number(&mut self, spelling: u128) -> u16 {
        let record = spelling << 8 | u128::from(RECORD);
        let last = self.slots.len() - 1;
        let mut slot = hash(record) & last;
        loop {
            match self.slots[slot] {
                0 => return self.enter(record, slot),
                known if self.records[usize::from(known - 1)] == record => return known - 1,
                _ => slot = (slot + 1) & last,
            }
        }
    }

    #[inline(always)]
    fn enter(&mut self, record: u128, slot: usize) -> u16 {
        let number = self.records.len() as u16;
        self.records.push(record);
        self.slots[slot] = number + 1;
        number
    }
}

#[inline(always)]
fn hash(record: u128) -> usize {
    let (low, high) = (record as u64, (record >> 64) as u64);
    let mixed = (low ^ high.rotate_left(23)).wrapping_mul(0x9E37_79B9_7F4A_7C15);
    (mixed >> 40) as usize
}

//! A hash table of the places of rows that stand in a list.

/// One mark and one place in each slot; a mark of 0 is a free slot, any other seven bits of a hash. What finds its slot taken
/// stands in the next free one. At least half of the slots are free. The rows are those from 0 on, as many as slots are taken.
#[derive(Default)]
pub struct Index {
    marks: Vec<u8>,
    places: Vec<u32>,
    taken: usize,
}

impl Index {
    /// Makes room for so many places more; the rows there are have these hashes.
    pub fn reserve(&mut self, more: usize, hash_of: impl Fn(u32) -> u64) {
        if 2 * (self.taken + more) <= self.marks.len() {
            return;
        }
        let slots = (2 * (self.taken + more)).next_power_of_two().max(16);
        (self.marks, self.places) = (vec![0; slots], vec![0; slots]);
        for place in 0..self.taken as u32 {
            let hash = hash_of(place);
            let at = self.slot_of(hash, |_| false);
            (self.marks[at], self.places[at]) = (mark_of(hash), place);
        }
    }

    /// The place with this hash that is the one.
    #[inline]
    pub fn find(&self, hash: u64, is_it: impl Fn(u32) -> bool) -> Option<u32> {
        if self.taken == 0 {
            return None;
        }
        let at = self.slot_of(hash, is_it);
        (self.marks[at] != 0).then(|| self.places[at])
    }

    /// The same, or else the next place, which has this hash from now on. There has to be room for it.
    #[inline]
    pub fn find_or_put(&mut self, hash: u64, is_it: impl Fn(u32) -> bool) -> u32 {
        let at = self.slot_of(hash, is_it);
        if self.marks[at] == 0 {
            (self.marks[at], self.places[at]) = (mark_of(hash), self.taken as u32);
            self.taken += 1;
        }
        self.places[at]
    }

    /// The slot with this hash whose place is the one, or the free slot for it.
    #[inline]
    fn slot_of(&self, hash: u64, is_it: impl Fn(u32) -> bool) -> usize {
        let (last, mark) = (self.marks.len() - 1, mark_of(hash));
        let mut at = hash as usize & last;
        while self.marks[at] != 0 && !(self.marks[at] == mark && is_it(self.places[at])) {
            at = (at + 1) & last;
        }
        at
    }
}

#[inline]
fn mark_of(hash: u64) -> u8 {
    (hash >> 57) as u8 | 128
}

/// A hash of words: of each the product with what came before, folded.
#[inline]
pub fn hash_of<const N: usize>(words: [u64; N]) -> u64 {
    words.into_iter().fold(0x9e37_79b9_7f4a_7c15, |hash, word| {
        let product = u128::from(hash ^ word) * 0xd6e8_feb8_6659_fd93;
        product as u64 ^ (product >> 64) as u64
    })
}

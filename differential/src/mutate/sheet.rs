//! A staff taken apart into items, to be changed and packed again.

use crate::generate::Random;
use crate::packed::Staff;

pub const DOT: u32 = 1 << 4;
pub const TIE_IN: u32 = 1 << 5;
pub const TIE_OUT: u32 = 1 << 6;
pub const UNPITCHED: u32 = 1 << 7;
pub const REST: u32 = 1 << 8;

#[derive(Debug, Clone, Copy, PartialEq, Eq)]
pub struct Item {
    /// Four times the bar's number, and the voice.
    pub place: usize,
    pub head: u32,
    pub keys: [u64; 2],
}

impl Item {
    pub fn has(&self, bits: u32) -> bool {
        self.head & bits == bits
    }

    pub fn voice(&self) -> usize {
        self.place % 4
    }

    pub fn code(&self) -> u32 {
        self.head & 15
    }

    pub fn chord(&self) -> bool {
        !self.has(REST)
    }

    /// The set keys.
    pub fn key_list(&self) -> Vec<u8> {
        crate::packed::keys_of(self.keys)
    }

    pub fn toggle_key(&mut self, key: u8) {
        self.keys[usize::from(key / 64)] ^= 1 << (key % 64);
    }

    /// A rest of the same value at the same place.
    pub fn silent(self) -> Self {
        Self {
            head: self.head & (DOT | 15) | REST,
            keys: [0, 0],
            ..self
        }
    }
}

#[derive(Debug, Clone, PartialEq, Eq)]
pub struct Sheet {
    /// Four a bar.
    pub places: usize,
    /// In order of their places.
    pub items: Vec<Item>,
}

impl Sheet {
    /// As many items as all three arrays have.
    pub fn of(staff: &Staff) -> Self {
        let counts = staff.counts.iter().enumerate();
        let places = counts.flat_map(|(place, &count)| std::iter::repeat_n(place, count as usize));
        let arrays = staff.heads.iter().zip(staff.keys.chunks_exact(2));
        let item = |(place, (&head, keys)): (usize, (&u32, &[u64]))| Item {
            place,
            head,
            keys: [keys[0], keys[1]],
        };
        Self {
            places: staff.counts.len(),
            items: places.zip(arrays).map(item).collect(),
        }
    }

    pub fn packed(&self) -> Staff {
        let mut counts = vec![0; self.places];
        for item in &self.items {
            // Counts that were cut before may have no such place: the arrays are malformed then anyway.
            if let Some(count) = counts.get_mut(item.place) {
                *count += 1;
            }
        }
        Staff {
            counts,
            heads: self.items.iter().map(|item| item.head).collect(),
            keys: self.items.iter().flat_map(|item| item.keys).collect(),
        }
    }

    /// After places have changed.
    pub fn sort(&mut self) {
        self.items.sort_by_key(|item| item.place);
    }

    /// The index of some item that a test takes.
    pub fn pick(&self, random: &mut Random, test: impl Fn(&Item) -> bool) -> Option<usize> {
        self.pick_index(random, |index| test(&self.items[index]))
    }

    pub fn pick_index(&self, random: &mut Random, test: impl Fn(usize) -> bool) -> Option<usize> {
        let indices: Vec<_> = (0..self.items.len()).filter(|index| test(*index)).collect();
        (!indices.is_empty()).then(|| random.pick(&indices))
    }

    /// The index of the voice's next item.
    pub fn next(&self, index: usize) -> Option<usize> {
        let voice = self.items[index].voice();
        (index + 1..self.items.len()).find(|index| self.items[*index].voice() == voice)
    }

    /// The index of the next item of the same bar and voice.
    pub fn neighbour(&self, index: usize) -> Option<usize> {
        let next = self.items.get(index + 1)?;
        (next.place == self.items[index].place).then_some(index + 1)
    }

    /// The index of the piece that an item is tied to.
    pub fn tied(&self, index: usize) -> Option<usize> {
        let next = self
            .next(index)
            .filter(|_| self.items[index].has(TIE_OUT))?;
        self.items[next].has(TIE_IN).then_some(next)
    }

    /// The indices of a chord's pieces, from the one that opens it.
    pub fn pieces(&self, first: usize) -> Vec<usize> {
        std::iter::successors(Some(first), |index| self.tied(*index)).collect()
    }
}

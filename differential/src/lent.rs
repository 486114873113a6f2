//! Arrays lent to a C entry. Each stands between two canaries.

use crate::checked::Checked;
use std::fmt::LowerHex;

/// An element of a lent array.
pub trait Cell: Copy + PartialEq + LowerHex {
    const CANARY: Self;
    const ZERO: Self;

    /// What stands at an index before the call: never 0, and another at each index.
    fn content(index: usize) -> Self;
}

impl Cell for u8 {
    const CANARY: Self = 0xa5;
    const ZERO: Self = 0;

    /// Bytes are inputs alone: this one repeats.
    fn content(index: usize) -> Self {
        !(index as Self >> 1)
    }
}

impl Cell for u32 {
    const CANARY: Self = 0x0ddb_a115;
    const ZERO: Self = 0;

    fn content(index: usize) -> Self {
        !(index as Self)
    }
}

impl Cell for u64 {
    const CANARY: Self = 0x5ca1_ab1e_0ddb_a115;
    const ZERO: Self = 0;

    fn content(index: usize) -> Self {
        !(index as Self)
    }
}

pub struct Lent<T> {
    cells: Vec<T>,
}

impl<T: Cell> Lent<T> {
    /// An output or a work area: `room` elements, none of them 0.
    pub fn new(room: usize) -> Self {
        Self::between_canaries((0..room).map(T::content))
    }

    /// An input.
    pub fn of(list: &[T]) -> Self {
        Self::between_canaries(list.iter().copied())
    }

    fn between_canaries(elements: impl ExactSizeIterator<Item = T>) -> Self {
        let mut cells = Vec::with_capacity(elements.len() + 2);
        cells.push(T::CANARY);
        cells.extend(elements);
        cells.push(T::CANARY);
        Self { cells }
    }

    pub fn elements(&self) -> &[T] {
        &self.cells[1..self.cells.len() - 1]
    }

    pub fn elements_mut(&mut self) -> &mut [T] {
        let end = self.cells.len() - 1;
        &mut self.cells[1..end]
    }

    /// The list was written to the front, and nothing else changed. The array has room for it.
    pub fn holds(&self, what: &str, list: &[T]) -> Checked {
        assert!(list.len() <= self.elements().len(), "{what}: no room");
        self.is(what, |index| match list.get(index) {
            Some(element) => *element,
            None => T::content(index),
        })
    }

    /// As it was lent.
    pub fn untouched(&self, what: &str) -> Checked {
        self.holds(what, &[])
    }

    /// At most the front was written: `count` elements, for which there is room.
    pub fn written(&self, what: &str, count: usize) -> Checked {
        let elements = self.elements();
        if count > elements.len() {
            let room = elements.len();
            return Err(format!("{what}: {count} elements, where {room} were lent"));
        }
        self.is(what, |index| match index < count {
            true => elements[index],
            false => T::content(index),
        })
    }

    /// Zeros throughout.
    pub fn cleared(&self, what: &str) -> Checked {
        self.is(what, |_| T::ZERO)
    }

    /// Breaks the canary before (0) or behind (1) the array.
    #[cfg(test)]
    pub fn spoil_canary(&mut self, end: usize) {
        let last = self.cells.len() - 1;
        self.cells[end * last] = T::ZERO;
    }

    fn is(&self, what: &str, wanted: impl Fn(usize) -> T) -> Checked {
        let ends = [self.cells.first(), self.cells.last()];
        if ends != [Some(&T::CANARY); 2] {
            return Err(format!("{what}: written beside the array"));
        }
        let mut elements = self.elements().iter().enumerate();
        match elements.find(|(index, element)| **element != wanted(*index)) {
            None => Ok(()),
            Some((index, element)) => {
                let (count, wanted) = (self.elements().len(), wanted(index));
                Err(format!(
                    "{what}: element {index} of {count} is {element:#x}, wanted {wanted:#x}"
                ))
            }
        }
    }
}

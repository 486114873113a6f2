//! The two C entries that read a file: the library's, or those of the plain scanner in scanner/scan.c.

use crate::lent::Lent;

/// How many elements a file's sizes, and its deltas and words, have.
#[repr(C)]
#[derive(Debug, Clone, Copy, PartialEq, Eq, Default)]
pub struct PieceSize {
    pub number: u32,
    pub sizes: usize,
    pub events: usize,
}

impl PieceSize {
    pub fn refused(number: u32) -> Self {
        Self {
            number,
            ..Self::default()
        }
    }
}

pub type SizeEntry = unsafe extern "C" fn(*const u8, usize) -> PieceSize;
#[rustfmt::skip]
pub type ReadEntry = unsafe extern "C" fn(
    *const u8, usize, *mut u32, usize, *mut u32, usize, *mut u32, usize) -> PieceSize;

/// Sizes, deltas and words, lent.
pub type Outputs = [Lent<u32>; 3];

/// Who reads.
#[derive(Clone, Copy)]
pub struct Entries {
    pub name: &'static str,
    pub size: SizeEntry,
    pub read: ReadEntry,
}

/// Declares two C entries and who reads by them.
macro_rules! entries {
    ($(#[$attribute:meta])* $reader:ident, $name:literal, $size:ident, $read:ident) => {
        $(#[$attribute])*
        #[rustfmt::skip]
        unsafe extern "C" {
            fn $size(bytes: *const u8, bytes_n: usize) -> PieceSize;
            fn $read(bytes: *const u8, bytes_n: usize, sizes: *mut u32, sizes_n: usize,
                deltas: *mut u32, deltas_n: usize, words: *mut u32, words_n: usize) -> PieceSize;
        }

        $(#[$attribute])*
        pub const $reader: Entries = Entries {
            name: $name,
            size: $size,
            read: $read,
        };
    };
}

entries!(SCANNER, "scanner", scan_read_size, scan_read);
entries!(
    #[cfg(feature = "library")]
    LIBRARY,
    "library",
    acorde_read_size,
    acorde_read
);

impl Entries {
    pub fn size(&self, bytes: &Lent<u8>) -> PieceSize {
        let bytes = bytes.elements();
        // The array is borrowed for the whole call, and the length is its own.
        unsafe { (self.size)(bytes.as_ptr(), bytes.len()) }
    }

    pub fn read(&self, bytes: &Lent<u8>, outputs: &mut Outputs) -> PieceSize {
        let bytes = bytes.elements();
        let [sizes, deltas, words] = outputs.each_mut().map(Lent::elements_mut);
        // As above; no two of the arrays are one.
        unsafe {
            (self.read)(
                bytes.as_ptr(),
                bytes.len(),
                sizes.as_mut_ptr(),
                sizes.len(),
                deltas.as_mut_ptr(),
                deltas.len(),
                words.as_mut_ptr(),
                words.len(),
            )
        }
    }
}

//! Descriptors, fields in memory, and bits at any place of a slice.

use crate::numbers::{low_48, LOW_48};

/// "The lent memory begins at bit address 4000, the left bit of its first byte."
pub const BASE: u64 = 0x4000;

/// "A field descriptor is a register: length in the left 16 bits, base address in the right 48."
#[inline]
pub fn length(register: u64) -> u64 {
    register >> 48
}

/// "A register's count is its low 48; formed addresses wrap at 2^48"; the unit's shift is 0, 3, 5 or 6.
#[inline]
pub fn formed(base: u64, count: u64, unit: u32) -> u64 {
    low_48(base).wrapping_add(low_48(count) << unit) & LOW_48
}

/// A field: its base address and its extent in bits; no bits is an empty field.
#[derive(Clone, Copy, Debug)]
pub struct Field {
    pub base: u64,
    pub bits: u64,
}

impl Field {
    /// "one that nothing is read from is empty and is not checked under 8, 10 or 11".
    pub const EMPTY: Field = Field { base: 0, bits: 0 };

    /// "A field's end never wraps": base is below 2^48 and bits below 2^33.
    fn end(self) -> u64 {
        self.base + self.bits
    }

    #[inline]
    pub fn aligned(self, to: u64) -> bool {
        self.bits == 0 || self.base % to == 0
    }

    /// Wholly in a memory of so many bits.
    #[inline]
    pub fn inside(self, memory: u64) -> bool {
        self.bits == 0 || self.base >= BASE && self.end() <= BASE + memory
    }

    #[inline]
    pub fn shares(self, other: Field) -> bool {
        self.bits != 0 && other.bits != 0 && self.base < other.end() && other.base < self.end()
    }

    /// Where the field begins in the lent bytes, in bits; for a field inside memory.
    #[inline]
    pub fn place(self) -> usize {
        self.base.wrapping_sub(BASE) as usize
    }
}

/// The 64 bits that begin at a bit of the bytes; zeros past the end.
#[inline]
pub fn bits_at(bytes: &[u8], place: usize) -> u64 {
    let (byte, off) = (place / 8, place % 8);
    match bytes.get(byte..byte + 9) {
        Some(nine) => {
            let left = u64::from_be_bytes(nine[..8].try_into().unwrap());
            left << off | nine[8] as u64 >> (8 - off)
        }
        None => bits_at_end(bytes, place),
    }
}

#[cold]
#[inline(never)]
fn bits_at_end(bytes: &[u8], place: usize) -> u64 {
    let mut eight = [0; 8];
    for (to, from) in eight.iter_mut().zip(bytes.iter().skip(place / 8)) {
        *to = *from;
    }
    u64::from_be_bytes(eight) << (place % 8)
}

/// The leftmost n of 64 ones.
#[inline]
pub fn ones(n: usize) -> u64 {
    if n == 0 {
        0
    } else {
        !0 << (64 - n.min(64))
    }
}

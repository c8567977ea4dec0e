//! Fields side by side: what headers are made of, and what rules admit at their bits.

use crate::bits::{Bits, Cells};

/// The fields of a header, side by side from bit 0 on, each with its most significant bit first.
/// Bit 0 is the most significant bit of the first word; behind the last field all bits are 0.
#[derive(Clone, Copy, Debug, PartialEq, Eq)]
pub struct Fields(pub [u32; 4]);

impl Fields {
    /// The value of one of the 128 bits.
    pub fn bit(&self, bit: u16) -> bool {
        self.0[usize::from(bit / 32)] >> (31 - bit % 32) & 1 == 1
    }
}

/// What a rule admits at each bit: the value's bit alone where the mask has a one, else both values;
/// and several values where it admits each. The value has no one where the mask has none.
#[derive(Clone, Copy, Debug)]
pub struct Admitted {
    pub value: Fields,
    pub mask: Fields,
}

impl Admitted {
    /// The cells whose values are admitted at all of the bits; at the width and above that is 0 alone.
    #[inline]
    pub fn cells(&self, bits: &Bits, width: u16) -> Cells {
        let (mut ones, mut free) = (0, 0);
        for &bit in bits.as_slice() {
            ones = ones << 1 | usize::from(bit < width && self.value.bit(bit));
            free = free << 1 | usize::from(bit < width && !self.mask.bit(bit));
        }
        Cells::free(ones, free)
    }

    /// Whether the header's value is admitted at every bit: header AND mask equals the value.
    pub fn admits_all(&self, header: &Fields) -> bool {
        (0..4).all(|word| header.0[word] & self.mask.0[word] == self.value.0[word])
    }
}

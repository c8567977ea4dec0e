//! The bridge kind: the first 14 bytes of a frame.

use crate::bits::{Bits, Cells};
use crate::fault::Fault;
use crate::fields::{Admitted, Fields};
use crate::kind::Kind;

/// The bridge kind. Bit 0 is the most significant bit of the first byte.
pub struct Bridge;

/// Value and mask. A row with a value bit outside the mask holds no rule.
#[derive(Clone, Copy, Debug)]
pub struct Row {
    pub value: [u8; 14],
    pub mask: [u8; 14],
}

/// Fourteen bytes in words, with zeros behind them.
fn fields(bytes: &[u8; 14]) -> Fields {
    let byte = |place| bytes.get(place).copied().unwrap_or(0);
    Fields(std::array::from_fn(|word| {
        u32::from_be_bytes(std::array::from_fn(|place| byte(4 * word + place)))
    }))
}

impl Row {
    /// How many bytes a row has in a job.
    pub const BYTES: usize = 28;

    /// Reads a row as it stands in a job, behind the line.
    pub fn from_bytes(bytes: &[u8; Self::BYTES]) -> Self {
        Row {
            value: std::array::from_fn(|place| bytes[place]),
            mask: std::array::from_fn(|place| bytes[14 + place]),
        }
    }

    pub fn to_bytes(self) -> [u8; Self::BYTES] {
        let mut bytes = [0; Self::BYTES];
        bytes[..14].copy_from_slice(&self.value);
        bytes[14..].copy_from_slice(&self.mask);
        bytes
    }
}

impl Kind for Bridge {
    type Header = Fields;
    type Row = Row;
    type Rule = Admitted;
    type Asked = Bits;

    const WIDTH: u16 = 112;

    fn bit(header: &Fields, bit: u16) -> bool {
        bit < Self::WIDTH && header.bit(bit)
    }

    fn matches(rule: &Admitted, header: &Fields) -> bool {
        rule.admits_all(header)
    }

    fn ask(asked: &mut Bits, bits: &Bits) {
        *asked = *bits;
    }

    fn cells(rule: &Admitted, asked: &mut Bits) -> Cells {
        rule.cells(asked, Self::WIDTH)
    }

    fn rule(row: &Row) -> Result<Admitted, Fault> {
        if (0..14).any(|place| row.value[place] & !row.mask[place] != 0) {
            return Err(Fault::reading(6, 0));
        }
        Ok(Admitted {
            value: fields(&row.value),
            mask: fields(&row.mask),
        })
    }

    fn header(frame: &[u8]) -> Result<Fields, Fault> {
        frame.first_chunk().map(fields).ok_or(Fault::reading(1, 0))
    }
}

//! Faults: what is told where something is refused.

use std::fmt;

/// A number, a layer and a place.
#[derive(Clone, Copy, Debug, PartialEq, Eq)]
pub struct Fault {
    pub number: u32,
    pub layer: u32,
    pub place: u32,
}

impl Fault {
    /// A fault of a packet, a frame or a row: layer 1.
    pub fn reading(number: u32, place: u32) -> Self {
        Fault {
            number,
            layer: 1,
            place,
        }
    }

    /// A fault of a book, a table or a choice: layer 2.
    pub fn table(number: u32, place: usize) -> Self {
        Fault {
            number,
            layer: 2,
            place: place as u32,
        }
    }

    /// A fault of a record or a job: layer 3.
    pub fn job(number: u32) -> Self {
        Fault {
            number,
            layer: 3,
            place: 0,
        }
    }
}

impl fmt::Display for Fault {
    fn fmt(&self, f: &mut fmt::Formatter<'_>) -> fmt::Result {
        write!(
            f,
            "{} layer {} place {}",
            self.number, self.layer, self.place
        )
    }
}

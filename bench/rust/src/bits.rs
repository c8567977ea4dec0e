//! Sets of bits.

use crate::kind::Kind;
use std::rc::Rc;

/// The most bits of a set.
pub const MOST_BITS: usize = 12;

/// The largest width of a kind; each bit of a set is below it.
const WIDEST: u16 = 1024;

/// Rising numbers of bits, at most twelve.
#[derive(Clone, Copy, Debug, Default)]
pub struct Bits {
    bits: [u16; MOST_BITS],
    len: usize,
}

impl Bits {
    /// The set of no bit.
    pub fn none() -> Self {
        Bits::default()
    }

    /// The bits one by one, rising.
    pub fn as_slice(&self) -> &[u16] {
        &self.bits[..self.len]
    }

    pub fn len(&self) -> usize {
        self.len
    }

    /// How many values the bits can have together.
    pub fn cells(&self) -> usize {
        1 << self.len
    }

    pub fn contains(&self, bit: u16) -> bool {
        self.as_slice().contains(&bit)
    }

    /// The set with one bit more. None where it has twelve bits, has this bit already, or the bit
    /// is 1,024 or above.
    pub fn with(mut self, bit: u16) -> Option<Self> {
        if self.len == MOST_BITS || bit >= WIDEST {
            return None;
        }
        let place = self.as_slice().binary_search(&bit).err()?;
        self.bits.copy_within(place..self.len, place + 1);
        self.bits[place] = bit;
        self.len += 1;
        Some(self)
    }

    /// The set without one of its bits and with another. None where the bit to leave is not in it,
    /// or the bit to join is in it already or is 1,024 or above.
    pub fn exchange(mut self, leaves: u16, joins: u16) -> Option<Self> {
        let place = self.as_slice().binary_search(&leaves).ok()?;
        if self.contains(joins) {
            return None;
        }
        self.bits.copy_within(place + 1..self.len, place);
        self.len -= 1;
        self.with(joins)
    }

    /// A header's cell: the number made of its values at the bits, the lowest-numbered bit most
    /// significant.
    pub fn cell_of<K: Kind>(&self, header: &K::Header) -> usize {
        self.as_slice()
            .iter()
            .fold(0, |cell, &bit| cell << 1 | usize::from(K::bit(header, bit)))
    }
}

/// The values that a run of bits has, told together and rising. `place` has ones where these bits
/// stand in a cell's number, side by side.
#[derive(Clone, Debug)]
pub struct Together {
    pub values: Rc<[u16]>,
    pub place: usize,
}

/// The cells that a rule admits: their numbers have ones at `ones`, both values at `free`, and one of
/// the values of each run of bits whose values are told together. Of two runs the first stands right
/// before the second.
#[derive(Clone, Debug)]
pub struct Cells {
    ones: usize,
    free: usize,
    runs: [Option<Together>; 2],
}

impl Cells {
    /// The cells with ones at `ones` and both values at `free`.
    pub fn free(ones: usize, free: usize) -> Self {
        let runs = [None, None];
        Cells { ones, free, runs }
    }

    /// These cells, but with the values told at the bits of the runs.
    pub fn with(self, runs: [Option<Together>; 2]) -> Self {
        let places = runs.iter().flatten().map(|run| run.place);
        let others = places.fold(usize::MAX, |others, place| others & !place);
        let (ones, free) = (self.ones & others, self.free & others);
        Cells { ones, free, runs }
    }

    /// How many cells these are.
    pub fn count(&self) -> usize {
        let values = |run: &Together| run.values.len();
        let together: usize = self.runs.iter().flatten().map(values).product();
        together << self.free.count_ones()
    }

    /// Visits the cells one by one, rising.
    #[inline]
    pub fn each(&self, mut visit: impl FnMut(usize)) {
        let [first, second] = &self.runs;
        match second.as_ref().or(first.as_ref()) {
            None => parts(self.free).for_each(|part| visit(self.ones | part)),
            Some(last) => self.each_told(last, visit),
        }
    }

    /// Visits the cells one by one, rising, where there are runs and this is the last.
    fn each_told(&self, last: &Together, mut visit: impl FnMut(usize)) {
        let [first, second] = &self.runs;
        let behind = self.free & ((1 << last.place.trailing_zeros()) - 1);
        for before in parts(self.free & !behind) {
            for first in told(first) {
                for second in told(second) {
                    let cell = self.ones | before | first | second;
                    parts(behind).for_each(|part| visit(cell | part));
                }
            }
        }
    }
}

/// The numbers that have ones at no other bits than these, rising: from none of them to all.
pub fn parts(of: usize) -> impl Iterator<Item = usize> {
    std::iter::successors(Some(0), move |&part: &usize| {
        (part != of).then_some(part.wrapping_sub(of) & of)
    })
}

/// The values of a run of bits at their place in a cell's number; 0 alone where there is no run.
fn told(run: &Option<Together>) -> impl Iterator<Item = usize> {
    let (values, behind) = match run {
        Some(run) => (&*run.values, run.place.trailing_zeros()),
        None => (&[0][..], 0),
    };
    values
        .iter()
        .map(move |&value| usize::from(value) << behind)
}

#[cfg(test)]
mod tests {
    use super::*;

    fn set(bits: &[u16]) -> Bits {
        bits.iter().fold(Bits::none(), |set, &bit| {
            set.with(bit).expect("one bit more")
        })
    }

    #[test]
    fn one_bit_more() {
        assert_eq!(set(&[5, 1, 1023, 3]).as_slice(), [1, 3, 5, 1023]);
        assert!(set(&[5, 1]).with(5).is_none());
        assert!(set(&[5, 1]).with(1024).is_none());
        let twelve = set(&[0, 1, 2, 3, 4, 5, 6, 7, 8, 9, 10, 11]);
        assert_eq!((twelve.len(), twelve.cells()), (12, 4096));
        assert!(twelve.with(12).is_none());
    }

    #[test]
    fn an_exchange() {
        let twelve = set(&[0, 1, 2, 3, 4, 5, 6, 7, 8, 9, 10, 11]);
        let other = twelve.exchange(3, 40).expect("an exchange");
        assert_eq!(other.as_slice(), [0, 1, 2, 4, 5, 6, 7, 8, 9, 10, 11, 40]);
        assert!(twelve.exchange(12, 13).is_none());
        assert!(twelve.exchange(3, 4).is_none());
        assert!(twelve.exchange(3, 3).is_none());
        assert!(twelve.exchange(3, 1024).is_none());
    }

    fn one_by_one(cells: &Cells) -> Vec<usize> {
        let mut numbers = Vec::new();
        cells.each(|cell| numbers.push(cell));
        assert_eq!(cells.count(), numbers.len());
        numbers
    }

    fn together(values: &[u16], place: usize) -> Option<Together> {
        let values = values.into();
        Some(Together { values, place })
    }

    #[test]
    fn cells_one_by_one() {
        let cells = Cells::free(0b0100, 0b1010);
        assert_eq!(one_by_one(&cells), [0b0100, 0b0110, 0b1100, 0b1110]);
        assert_eq!(one_by_one(&Cells::free(0, 0)), [0]);
        let all = Cells::free(0, 4_095);
        assert!(one_by_one(&all).into_iter().eq(0..4_096));
    }

    #[test]
    fn cells_with_values_told_together() {
        let cells = Cells::free(0b01100, 0b10011);
        let run = together(&[0b01, 0b10], 0b110);
        let want = [
            0b01010, 0b01011, 0b01100, 0b01101, 0b11010, 0b11011, 0b11100, 0b11101,
        ];
        assert_eq!(one_by_one(&cells.clone().with([None, run.clone()])), want);
        assert_eq!(one_by_one(&cells.clone().with([run, None])), want);
        let cells = Cells::free(0, 0b111111);
        let first = together(&[0b00, 0b11], 0b011000);
        let second = together(&[0b001, 0b010, 0b111], 0b000111);
        let want = [1, 2, 7, 25, 26, 31, 33, 34, 39, 57, 58, 63];
        assert_eq!(one_by_one(&cells.with([first, second])), want);
    }
}

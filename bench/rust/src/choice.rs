//! Judges, and the choice of bits: Fast-Growth and Intelli-Evolution.

use crate::bits::{Bits, MOST_BITS};
use crate::fault::Fault;
use crate::kind::Kind;
use crate::table::{Line, Tally, count};

/// The most tries that may be asked for.
const MOST_TRIES: u32 = 1_000_000;

/// A judge tells a cost for the sizes of all blocks.
#[derive(Clone, Copy, Debug, PartialEq, Eq)]
pub enum Judge {
    /// The largest size.
    Largest,
    /// The sum of the squares of all sizes.
    Squares,
}

impl Judge {
    /// The cost. A block has at most 16,384 lines and there are at most 4,096 blocks, so that
    /// Squares stays far below 2^63 - 1.
    pub fn cost(self, sizes: &[u32]) -> u64 {
        match self {
            Judge::Largest => sizes.iter().copied().max().unwrap_or(0).into(),
            Judge::Squares => sizes.iter().map(|&size| u64::from(size).pow(2)).sum(),
        }
    }
}

/// What a choice tells.
#[derive(Clone, Copy, Debug)]
pub struct Choice {
    pub bits: Bits,
    pub tries: u32,
    /// All exchanges passed and none was taken; else the tries were spent before.
    pub settled: bool,
}

/// Chooses bits for some lines and an area's length.
pub fn choose<K: Kind>(
    lines: &[Line<K>],
    area: usize,
    judge: Judge,
    most_bits: usize,
    most_tries: u32,
    tally: &mut Tally<K>,
) -> Result<Choice, Fault> {
    if most_bits > MOST_BITS || most_bits > usize::from(K::WIDTH) || most_tries > MOST_TRIES {
        return Err(Fault::table(12, 0));
    }
    let mut cost_of =
        |bits: &Bits| count::<K>(lines, bits, area, tally).map(|sizes| judge.cost(sizes));

    // Fast-Growth takes the best bit, as long as that costs less.
    let mut bits = Bits::none();
    let mut cost = cost_of(&bits)?;
    while bits.len() < most_bits {
        let mut best = None;
        let mut least = cost;
        for more in (0..K::WIDTH).filter_map(|bit| bits.with(bit)) {
            if let Ok(cost) = cost_of(&more)
                && cost < least
            {
                best = Some(more);
                least = cost;
            }
        }
        let Some(more) = best else {
            break;
        };
        bits = more;
        cost = least;
    }

    // Intelli-Evolution takes the first better exchange, and begins again from there.
    let mut tries = 0;
    'round: loop {
        for &leaves in bits.as_slice() {
            for other in (0..K::WIDTH).filter_map(|joins| bits.exchange(leaves, joins)) {
                if tries == most_tries {
                    return Ok(Choice {
                        bits,
                        tries,
                        settled: false,
                    });
                }
                tries += 1;
                if let Ok(less) = cost_of(&other)
                    && less < cost
                {
                    bits = other;
                    cost = less;
                    continue 'round;
                }
            }
        }
        return Ok(Choice {
            bits,
            tries,
            settled: true,
        });
    }
}

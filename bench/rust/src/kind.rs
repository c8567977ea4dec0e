//! Kinds: a sort of header together with the rules that are written for it.

use crate::bits::{Bits, Cells};
use crate::fault::Fault;

/// A kind of header.
///
/// One law joins its facts: a rule that matches a header admits the header's own values, at every
/// set of bits.
pub trait Kind {
    type Header;
    /// The plain numbers of a rule; a row may hold no rule.
    type Row;
    type Rule: Copy;
    /// A set of bits, made ready to ask many rules for their cells.
    type Asked: Default;

    /// How many bits a header has.
    const WIDTH: u16;

    /// The value of a bit of a header. At the width and above it is 0.
    fn bit(header: &Self::Header, bit: u16) -> bool;

    /// Whether a rule matches a header.
    fn matches(rule: &Self::Rule, header: &Self::Header) -> bool;

    /// Makes a set of bits ready. What was found before may be kept; no answer hangs on it.
    fn ask(asked: &mut Self::Asked, bits: &Bits);

    /// The cells of a rule: those whose number gives values to the bits that the rule admits, all
    /// together. At the width and above it admits 0 alone.
    fn cells(rule: &Self::Rule, asked: &mut Self::Asked) -> Cells;

    /// The rule that a row holds.
    fn rule(row: &Self::Row) -> Result<Self::Rule, Fault>;

    /// Reads a header off a packet or a frame.
    fn header(bytes: &[u8]) -> Result<Self::Header, Fault>;
}

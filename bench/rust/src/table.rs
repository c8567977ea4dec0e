//! Lines, counting, the area, look-ups, and books.

use crate::bits::{Bits, MOST_BITS};
use crate::choice::{Choice, Judge, choose};
use crate::fault::Fault;
use crate::kind::Kind;
use std::mem;

/// The most lines of a book.
pub const MOST_LINES: usize = 16_384;

/// How many numbers a tally has: one for each cell of twelve bits.
pub const TALLY: usize = 1 << MOST_BITS;

/// Block sizes are counted into a tally. It is as long as twelve bits need, so it is never short
/// (refusal 14); what it held before never matters. Beside it stands the set of bits that rules are
/// asked for.
pub struct Tally<K: Kind> {
    numbers: Box<[u32; TALLY]>,
    asked: K::Asked,
}

impl<K: Kind> Tally<K> {
    pub fn new() -> Self {
        Tally {
            numbers: Box::new([0; TALLY]),
            asked: K::Asked::default(),
        }
    }
}

/// A line that is filled holds a rule; one that is empty holds none.
pub type Line<K> = Option<<K as Kind>::Rule>;

/// What a search answers: a line or none, and how many lines it compared.
#[derive(Clone, Copy, Debug, PartialEq, Eq)]
pub struct Found {
    pub line: Option<u32>,
    pub tried: u32,
}

/// The plain search: the lowest filled line whose rule matches, and the number of lines compared.
pub fn search<K: Kind>(lines: &[Line<K>], header: &K::Header) -> Found {
    let found = lines
        .iter()
        .position(|line| line.as_ref().is_some_and(|rule| K::matches(rule, header)));
    match found {
        Some(line) => Found {
            line: Some(line as u32),
            tried: line as u32 + 1,
        },
        None => Found {
            line: None,
            tried: lines.len() as u32,
        },
    }
}

/// Counts the sizes of all blocks, in cell order. Refuses too many lines, and where the table does
/// not fit the area; that is found as soon as the entries counted are too many.
pub fn count<'a, K: Kind>(
    lines: &[Line<K>],
    bits: &Bits,
    area: usize,
    tally: &'a mut Tally<K>,
) -> Result<&'a [u32], Fault> {
    if lines.len() > MOST_LINES {
        return Err(Fault::table(9, 0));
    }
    let no_room = Fault::table(13, 0);
    let sizes = &mut tally.numbers[..bits.cells()];
    let mut room = area.checked_sub(bits.cells() + 1).ok_or(no_room)?;
    sizes.fill(0);
    K::ask(&mut tally.asked, bits);
    for rule in lines.iter().flatten() {
        let cells = K::cells(rule, &mut tally.asked);
        room = room.checked_sub(cells.count()).ok_or(no_room)?;
        cells.each(|cell| sizes[cell] += 1);
    }
    Ok(sizes)
}

/// Writes the whole area for some lines and a set of bits: the starts, the entries of each block,
/// and zero for the rest. A refusal leaves the area as it was.
pub fn lay<K: Kind>(
    lines: &[Line<K>],
    bits: &Bits,
    area: &mut [u32],
    tally: &mut Tally<K>,
) -> Result<(), Fault> {
    count::<K>(lines, bits, area.len(), tally)?;
    let (starts, entries) = area.split_at_mut(bits.cells() + 1);
    let (last, starts) = starts
        .split_last_mut()
        .expect("there is a start for each cell, and one more");

    // Each size gives way to its block's start, which then moves on behind each entry written.
    let mut end = 0;
    let cursors = &mut *tally.numbers;
    for (start, cursor) in starts.iter_mut().zip(cursors.iter_mut()) {
        *start = end;
        end += mem::replace(cursor, end);
    }
    *last = end;

    for (number, line) in lines.iter().enumerate() {
        if let Some(rule) = line {
            K::cells(rule, &mut tally.asked).each(|cell| {
                let cursor = &mut cursors[cell];
                entries[*cursor as usize] = number as u32;
                *cursor += 1;
            });
        }
    }
    entries[end as usize..].fill(0);
    Ok(())
}

/// A book: lines, and once it is laid, a table of them.
///
/// It has its memory for itself, so that nothing else can alter it (refusal 15).
pub struct Book<K: Kind> {
    lines: Vec<Line<K>>,
    area: Vec<u32>,
    tally: Tally<K>,
    /// The chosen bits of a laid table; none while the book is open.
    bits: Option<Bits>,
}

impl<K: Kind> Book<K> {
    /// An open book, all of whose lines are empty.
    pub fn open(lines: usize, area: usize) -> Result<Self, Fault> {
        if lines == 0 || lines > MOST_LINES {
            return Err(Fault::table(9, 0));
        }
        Ok(Book {
            lines: vec![None; lines],
            area: vec![0; area],
            tally: Tally::new(),
            bits: None,
        })
    }

    pub fn lines(&self) -> &[Line<K>] {
        &self.lines
    }

    pub fn area(&self) -> &[u32] {
        &self.area
    }

    /// Gives a line a rule. On a table the bits are kept.
    pub fn put(&mut self, line: usize, rule: K::Rule) -> Result<(), Fault> {
        if line >= self.lines.len() {
            return Err(Fault::table(10, line));
        }
        self.change(line, Some(rule))
    }

    /// Empties a line. On a table the bits are kept.
    pub fn strike(&mut self, line: usize) -> Result<(), Fault> {
        match self.lines.get(line) {
            None => Err(Fault::table(10, line)),
            Some(None) => Err(Fault::table(11, line)),
            Some(Some(_)) => self.change(line, None),
        }
    }

    /// Changes a line; a table is laid for the changed lines. A refusal leaves all as it was.
    fn change(&mut self, line: usize, to: Line<K>) -> Result<(), Fault> {
        let before = mem::replace(&mut self.lines[line], to);
        if let Some(bits) = self.bits
            && let Err(fault) = self.lay(bits)
        {
            self.lines[line] = before;
            return Err(Fault::table(fault.number, line));
        }
        Ok(())
    }

    /// Chooses bits for the lines as they are, for an area of this length.
    pub fn measure(
        &mut self,
        judge: Judge,
        most_bits: usize,
        most_tries: u32,
    ) -> Result<Choice, Fault> {
        choose::<K>(
            &self.lines,
            self.area.len(),
            judge,
            most_bits,
            most_tries,
            &mut self.tally,
        )
    }

    /// Lays the lines as they are for these bits.
    pub fn lay(&mut self, bits: Bits) -> Result<(), Fault> {
        lay::<K>(&self.lines, &bits, &mut self.area, &mut self.tally)?;
        self.bits = Some(bits);
        Ok(())
    }

    /// The table, once it is laid.
    pub fn table(&self) -> Option<Table<'_, K>> {
        let bits = self.bits.as_ref()?;
        let (starts, entries) = self.area.split_at(bits.cells() + 1);
        Some(Table {
            lines: &self.lines,
            bits,
            starts,
            entries,
        })
    }
}

/// A laid table, to be looked up in.
pub struct Table<'a, K: Kind> {
    lines: &'a [Line<K>],
    bits: &'a Bits,
    starts: &'a [u32],
    entries: &'a [u32],
}

impl<K: Kind> Table<'_, K> {
    /// The block of a header: the entries of its cell.
    pub fn block(&self, header: &K::Header) -> &[u32] {
        let cell = self.bits.cell_of::<K>(header);
        &self.entries[self.starts[cell] as usize..self.starts[cell + 1] as usize]
    }

    /// Tries the entries of the header's block from the first on: the lowest filled line whose rule
    /// matches, and the number tried, which counts the answering entry.
    pub fn look_up(&self, header: &K::Header) -> Found {
        let block = self.block(header);
        for (place, &line) in block.iter().enumerate() {
            if let Some(rule) = &self.lines[line as usize]
                && K::matches(rule, header)
            {
                return Found {
                    line: Some(line),
                    tried: place as u32 + 1,
                };
            }
        }
        Found {
            line: None,
            tried: block.len() as u32,
        }
    }
}

/// The worked example of the specification.
#[cfg(test)]
mod tests {
    use super::*;
    use crate::bridge::{Bridge, Row};
    use crate::fields::Fields;

    fn first_byte(byte: u8) -> [u8; 14] {
        let mut bytes = [0; 14];
        bytes[0] = byte;
        bytes
    }

    fn frame(byte: u8) -> Fields {
        Bridge::header(&first_byte(byte)).expect("a frame")
    }

    fn seven_lines(area: usize) -> Book<Bridge> {
        let bytes = [
            (0x20, 0xe0),
            (0x40, 0xf0),
            (0x80, 0xd0),
            (0xf0, 0xf0),
            (0xe0, 0xe0),
            (0x80, 0xb0),
            (0x00, 0x00),
        ];
        let mut book = Book::open(bytes.len(), area).expect("seven lines");
        for (line, (value, mask)) in bytes.into_iter().enumerate() {
            let row = Row {
                value: first_byte(value),
                mask: first_byte(mask),
            };
            let rule = Bridge::rule(&row).expect("a rule");
            book.put(line, rule).expect("a line");
        }
        book
    }

    fn set(bits: &[u16]) -> Bits {
        bits.iter().fold(Bits::none(), |set, &bit| {
            set.with(bit).expect("one bit more")
        })
    }

    fn costs(book: &Book<Bridge>, bits: &Bits) -> (u64, u64) {
        let mut tally = Tally::new();
        tally.numbers.fill(7);
        let sizes = count::<Bridge>(book.lines(), bits, 1000, &mut tally).expect("room");
        (Judge::Largest.cost(sizes), Judge::Squares.cost(sizes))
    }

    fn found(book: &Book<Bridge>, byte: u8) -> (Option<u32>, u32) {
        let table = book.table().expect("a laid table");
        let found = table.look_up(&frame(byte));
        let plain = search::<Bridge>(book.lines(), &frame(byte));
        assert_eq!(found.line, plain.line);
        (found.line, found.tried)
    }

    #[test]
    fn area_and_look_ups() {
        let mut book = seven_lines(19);
        book.lay(set(&[1, 2])).expect("room");
        let starts = [0, 3, 6, 9, 12];
        let entries = [2, 5, 6, 0, 2, 6, 1, 5, 6, 3, 4, 6];
        assert_eq!(
            book.area(),
            [&starts[..], &entries[..], &[0, 0][..]].concat()
        );
        assert_eq!(costs(&book, &set(&[1, 2])), (3, 36));
        assert_eq!(costs(&book, &set(&[0, 1])), (4, 33));
        assert_eq!(found(&book, 0xe0), (Some(4), 2));
        assert_eq!(found(&book, 0x50), (Some(6), 3));
        assert_eq!(found(&book, 0xa0), (Some(2), 2));
        book.strike(4).expect("a filled line");
        assert_eq!(found(&book, 0xe0), (Some(6), 2));
        book.strike(6).expect("a filled line");
        assert_eq!(found(&book, 0xe0), (None, 1));
        let starts = [0, 2, 4, 6, 7];
        let entries = [2, 5, 0, 2, 1, 5, 3];
        assert_eq!(book.area(), [&starts[..], &entries, &[0; 7]].concat());
        assert_eq!(book.strike(6), Err(Fault::table(11, 6)));
        assert_eq!(book.strike(7), Err(Fault::table(10, 7)));
    }

    #[test]
    fn choices() {
        let choice = |area, judge, most_tries| {
            seven_lines(area)
                .measure(judge, 2, most_tries)
                .map(|choice| {
                    (
                        choice.bits.as_slice().to_vec(),
                        choice.tries,
                        choice.settled,
                    )
                })
        };
        let bits = |area, judge| choice(area, judge, 1000).map(|(bits, _, _)| bits);
        assert_eq!(
            choice(100, Judge::Largest, 1000),
            Ok((vec![1, 2], 221, true))
        );
        assert_eq!(
            choice(100, Judge::Squares, 1000),
            Ok((vec![0, 1], 220, true))
        );
        assert_eq!(
            choice(100, Judge::Squares, 219),
            Ok((vec![0, 1], 219, false))
        );
        assert_eq!(bits(17, Judge::Largest), Ok(vec![1, 2]));
        assert_eq!(bits(16, Judge::Largest), Ok(vec![0, 1]));
        assert_eq!(bits(9, Judge::Largest), Ok(vec![]));
        assert_eq!(bits(8, Judge::Largest), Err(Fault::table(13, 0)));
        assert_eq!(
            choice(100, Judge::Largest, 1_000_001),
            Err(Fault::table(12, 0))
        );
    }

    #[test]
    fn a_put_without_room_changes_nothing() {
        let mut book = seven_lines(17);
        book.lay(set(&[1, 2])).expect("room");
        let before = book.area().to_vec();
        let any = Bridge::rule(&Row {
            value: [0; 14],
            mask: [0; 14],
        });
        let any = any.expect("a rule");
        assert_eq!(book.put(0, any), Err(Fault::table(13, 0)));
        assert_eq!(book.put(5, any), Err(Fault::table(13, 5)));
        assert_eq!(book.area(), before);
        assert_eq!(found(&book, 0x20), (Some(0), 1));
        book.put(6, any).expect("the same room as before");
    }
}

//! Jobs: records, refusals and replies.

use crate::bridge::{self, Bridge};
use crate::choice::{Choice, Judge};
use crate::fault::Fault;
use crate::kind::Kind;
use crate::routed::{self, Routed};
use crate::table::{Book, Found};
use std::fmt;

/// The most bytes of a job.
pub const MOST_BYTES: usize = 65_536;

/// The most bytes of a packet or a frame.
pub const MOST_PACKET: usize = 2_048;

/// The most lines of a job's book.
pub const MOST_LINES: u16 = 1_024;

/// The most numbers of a job's table, starts and entries together.
const AREA: usize = 8_192;

/// What one record, or a part of one, is answered with.
#[derive(Clone, Copy, Debug)]
pub enum Reply {
    Chosen(Choice),
    Found(Found),
    Refused { fault: Fault, offset: usize },
}

impl fmt::Display for Reply {
    fn fmt(&self, f: &mut fmt::Formatter<'_>) -> fmt::Result {
        match self {
            Reply::Chosen(choice) => {
                let end = if choice.settled { "settled" } else { "stopped" };
                write!(f, "bits {} tries {} {end}", choice.bits.len(), choice.tries)
            }
            Reply::Found(found) => match found.line {
                Some(line) => write!(f, "{line} {}", found.tried),
                None => write!(f, "none {}", found.tried),
            },
            Reply::Refused { fault, offset } => write!(f, "refused {fault} at {offset}"),
        }
    }
}

/// The replies to a job, and how many records it has, the one that is cut off among them.
#[derive(Default)]
pub struct Answers {
    pub records: usize,
    pub replies: Vec<Reply>,
}

impl fmt::Display for Answers {
    fn fmt(&self, f: &mut fmt::Formatter<'_>) -> fmt::Result {
        self.replies
            .iter()
            .try_for_each(|reply| writeln!(f, "{reply}"))
    }
}

/// Carries out a job.
pub fn answer(job: &[u8]) -> Answers {
    let mut answers = Answers::default();
    if job.len() > MOST_BYTES {
        let fault = Fault::job(16);
        answers.replies.push(Reply::Refused { fault, offset: 0 });
        return answers;
    }
    let mut machine = Machine::Closed;
    let mut offset = 0;
    while offset < job.len() {
        answers.records += 1;
        let Some(record) = Record::first(&job[offset..]) else {
            let fault = Fault::job(16);
            answers.replies.push(Reply::Refused { fault, offset });
            break;
        };
        match record.asks().and_then(|ask| machine.carry_out(ask)) {
            Ok(reply) => answers.replies.extend(reply),
            Err(fault) => answers.replies.push(Reply::Refused { fault, offset }),
        }
        offset += 4 + record.body.len();
    }
    answers
}

struct Record<'a> {
    kind: u16,
    body: &'a [u8],
}

/// What a record asks for, as far as that is read off its kind and body alone.
enum Ask<'a> {
    Open { sort: Sort, lines: u16 },
    PutRouted { line: u16, row: routed::Row },
    PutBridge { line: u16, row: bridge::Row },
    Strike { line: u16 },
    Lay { judge: u8, bits: u8, tries: u32 },
    LookUp { bytes: &'a [u8] },
}

#[derive(Clone, Copy)]
enum Sort {
    Routed,
    Bridge,
}

impl<'a> Record<'a> {
    /// The record that begins a string of bytes; none where it is cut off.
    fn first(bytes: &'a [u8]) -> Option<Self> {
        let (&[low, high, kind_low, kind_high], rest) = bytes.split_first_chunk()?;
        let length = u16::from_le_bytes([low, high]);
        Some(Record {
            kind: u16::from_le_bytes([kind_low, kind_high]),
            body: rest.get(..usize::from(length))?,
        })
    }

    fn asks(&self) -> Result<Ask<'a>, Fault> {
        let ask = match self.kind {
            1 => line_and_row(self.body).map(|(line, row)| Ask::PutRouted {
                line,
                row: routed::Row::from_bytes(row),
            }),
            2 => line_and_row(self.body).map(|(line, row)| Ask::PutBridge {
                line,
                row: bridge::Row::from_bytes(row),
            }),
            3 => self.body.try_into().ok().map(|line| Ask::Strike {
                line: u16::from_le_bytes(line),
            }),
            4 => match *self.body {
                [judge, bits, a, b, c, d] => Some(Ask::Lay {
                    judge,
                    bits,
                    tries: u32::from_le_bytes([a, b, c, d]),
                }),
                _ => None,
            },
            5 => (self.body.len() <= MOST_PACKET).then_some(Ask::LookUp { bytes: self.body }),
            6 => match self.body.first() {
                Some(1) => open(Sort::Routed, self.body),
                Some(2) => open(Sort::Bridge, self.body),
                Some(_) => return Err(Fault::job(17)),
                None => None,
            },
            _ => return Err(Fault::job(17)),
        };
        ask.ok_or(Fault::job(18))
    }
}

/// The line and the row of a put, where the body has the right length.
fn line_and_row<const BYTES: usize>(body: &[u8]) -> Option<(u16, &[u8; BYTES])> {
    let (line, row) = body.split_first_chunk()?;
    Some((u16::from_le_bytes(*line), row.try_into().ok()?))
}

/// An opening, where the body has the right length.
fn open<'a>(sort: Sort, body: &[u8]) -> Option<Ask<'a>> {
    match *body {
        [_, low, high] => Some(Ask::Open {
            sort,
            lines: u16::from_le_bytes([low, high]),
        }),
        _ => None,
    }
}

/// Nothing is open at first; then a book of one kind.
enum Machine {
    Closed,
    Routed(Book<Routed>),
    Bridge(Book<Bridge>),
}

impl Machine {
    /// Carries out what a record asks for. A refusal leaves the machine as it was.
    fn carry_out(&mut self, ask: Ask) -> Result<Option<Reply>, Fault> {
        match (self, ask) {
            (machine @ Machine::Closed, Ask::Open { sort, lines }) => {
                if lines > MOST_LINES {
                    return Err(Fault::table(9, 0));
                }
                *machine = match sort {
                    Sort::Routed => Machine::Routed(Book::open(lines.into(), AREA)?),
                    Sort::Bridge => Machine::Bridge(Book::open(lines.into(), AREA)?),
                };
                Ok(None)
            }
            (Machine::Routed(book), Ask::PutRouted { line, row }) => put(book, line, &row),
            (Machine::Bridge(book), Ask::PutBridge { line, row }) => put(book, line, &row),
            (Machine::Routed(book), ask) => common(book, ask),
            (Machine::Bridge(book), ask) => common(book, ask),
            (Machine::Closed, _) => Err(Fault::job(19)),
        }
    }
}

fn put<K: Kind>(book: &mut Book<K>, line: u16, row: &K::Row) -> Result<Option<Reply>, Fault> {
    let rule = K::rule(row)?;
    book.put(line.into(), rule)?;
    Ok(None)
}

/// What is asked of a book of any kind. All that is not is out of order.
fn common<K: Kind>(book: &mut Book<K>, ask: Ask) -> Result<Option<Reply>, Fault> {
    match ask {
        Ask::Strike { line } => {
            book.strike(line.into())?;
            Ok(None)
        }
        Ask::Lay { judge, bits, tries } => {
            let judge = match judge {
                0 => Judge::Largest,
                1 => Judge::Squares,
                _ => return Err(Fault::table(12, 0)),
            };
            let choice = book.measure(judge, bits.into(), tries)?;
            book.lay(choice.bits)?;
            Ok(Some(Reply::Chosen(choice)))
        }
        Ask::LookUp { bytes } => {
            let table = book.table().ok_or(Fault::job(19))?;
            let header = K::header(bytes)?;
            Ok(Some(Reply::Found(table.look_up(&header))))
        }
        Ask::Open { .. } | Ask::PutRouted { .. } | Ask::PutBridge { .. } => Err(Fault::job(19)),
    }
}

#[cfg(test)]
mod tests {
    use super::*;
    use std::fs;
    use std::path::{Path, PathBuf};

    /// The bytes of a hex text: `#` begins a comment, the rest is bytes such as `e0` or `00*13`.
    fn bytes_of(text: &str) -> Vec<u8> {
        let mut bytes = Vec::new();
        for line in text.lines() {
            let code = line.split('#').next().unwrap_or("");
            for word in code.split_whitespace() {
                let (byte, times) = word.split_once('*').unwrap_or((word, "1"));
                assert_eq!(byte.len(), 2, "{word} is no byte");
                let byte = u8::from_str_radix(byte, 16).expect("a hex byte");
                let times = times.parse().expect("a number of times");
                bytes.extend(std::iter::repeat_n(byte, times));
            }
        }
        bytes
    }

    /// The files of a directory whose names end so.
    fn files(directory: &Path, end: &str) -> Vec<PathBuf> {
        fs::read_dir(directory)
            .unwrap_or_else(|fault| panic!("{}: {fault}", directory.display()))
            .map(|entry| entry.expect("an entry of the directory").path())
            .filter(|path| path.extension().is_some_and(|found| found == end))
            .collect()
    }

    #[test]
    fn samples_are_answered_as_expected() {
        let samples = Path::new(env!("CARGO_MANIFEST_DIR")).join("../../samples");
        let cases = samples.join("cases");
        let mut jobs = [files(&samples, "hex"), files(&cases, "hex")].concat();
        let outs = files(&samples, "out").len() + files(&cases, "out").len();
        assert_eq!(jobs.len(), outs, "each sample has its expectation");
        assert!(!jobs.is_empty(), "there are samples");
        jobs.sort();
        for job in jobs {
            let text = fs::read_to_string(&job).expect("a hex text");
            let want = fs::read_to_string(job.with_extension("out")).expect("an expectation");
            assert_eq!(
                answer(&bytes_of(&text)).to_string(),
                want,
                "{}",
                job.display()
            );
        }
    }
}

//! The times that choosing, laying, look-ups, the plain search and puts take.

use crate::choice::Judge;
use crate::fault::Fault;
use crate::kind::Kind;
use crate::lists::List;
use crate::routed::{Packet, Routed};
use crate::table::{Book, Found, search};
use std::hint::black_box;
use std::time::Instant;

const ROUNDS: usize = 64;

/// A sum over numbers in their order.
#[derive(Default)]
struct Checksum(u64);

impl Checksum {
    fn feed(&mut self, number: u32) {
        self.0 = self
            .0
            .wrapping_mul(6_364_136_223_846_793_005)
            .wrapping_add(u64::from(number) + 1);
    }

    /// Feeds the line + 1, or 0 for none, and then the number tried.
    fn feed_found(&mut self, found: Found) {
        self.feed(found.line.map_or(0, |line| line + 1));
        self.feed(found.tried);
    }

    fn feed_all(&mut self, numbers: &[u32]) {
        for &number in numbers {
            self.feed(number);
        }
    }
}

/// Carries out one phase, and tells its operations and nanoseconds.
fn timed<T>(name: &str, operations: usize, phase: impl FnOnce() -> T) -> T {
    let start = Instant::now();
    let result = phase();
    let nanoseconds = start.elapsed().as_nanos();
    eprintln!("{name} {operations} {nanoseconds}");
    result
}

pub fn bench(list: &List) -> Result<(), Fault> {
    let lines = list.rows.len();
    let mut book = Book::<Routed>::open(lines, list.area as usize)?;
    let rules = list
        .rows
        .iter()
        .map(Routed::rule)
        .collect::<Result<Vec<_>, _>>()?;
    for (line, &rule) in rules.iter().enumerate() {
        book.put(line, rule)?;
    }

    let headers: Vec<_> = list.packets.iter().map(Packet::header).collect();

    let choice = timed("choose", 1, || {
        book.measure(Judge::Squares, list.most_bits, list.most_tries)
    })?;
    print!("bits");
    for bit in choice.bits.as_slice() {
        print!(" {bit}");
    }
    let end = if choice.settled { "settled" } else { "stopped" };
    println!("\ntries {} {end}", choice.tries);

    let lays = (200_000 / lines).max(1);
    timed("lay", lays, || {
        (0..lays).try_for_each(|_| book.lay(black_box(choice.bits)))
    })?;
    let mut sum = Checksum::default();
    sum.feed_all(book.area());
    println!("area {}", sum.0);

    let table = book.table().expect("the table is laid");
    let mut sum = Checksum::default();
    let mut total = 0;
    timed("look_up", ROUNDS * headers.len(), || {
        for _ in 0..ROUNDS {
            for header in black_box(&headers) {
                let found = table.look_up(header);
                sum.feed_found(found);
                total += u64::from(found.tried);
            }
        }
    });
    println!("look_up {} tried {total}", sum.0);

    let searched = (20_000_000 / lines).clamp(1, 4_096).min(headers.len());
    let mut sum = Checksum::default();
    let mut total = 0;
    timed("linear", searched, || {
        for header in black_box(&headers[..searched]) {
            let found = search::<Routed>(book.lines(), header);
            sum.feed_found(found);
            total += u64::from(found.tried);
        }
    });
    println!("linear {} compared {total}", sum.0);

    let puts = (50_000 / lines).max(8);
    let mut sum = Checksum::default();
    timed("put", puts, || {
        for put in 0..puts {
            let rule = rules[(put * 7_919 + 1) % lines];
            let done = book.put(put * 104_729 % lines, black_box(rule));
            sum.feed(done.err().map_or(0, |fault| fault.number));
        }
    });
    sum.feed_all(book.area());
    println!("put {}", sum.0);
    Ok(())
}

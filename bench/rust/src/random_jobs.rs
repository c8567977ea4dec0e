//! Random jobs from a seed: good ones, and ones that are damaged in every way a job can be.

use crate::bridge;
use crate::job::{MOST_BYTES, MOST_LINES, MOST_PACKET};
use crate::random::Random;
use crate::routed::{self, Packet, Ports, prefix_mask};

/// Most jobs stay below this length, so that what a job is made of does not depend on the limit.
const USUAL_BYTES: usize = 60_000;

/// How many bits the rules of one job differ in, where they are to differ in few.
const HOT_BITS: usize = 12;

/// Port ranges that are no aligned blocks. Many begin or end where several bits change at once.
const UNEVEN_RANGES: [(u16, u16); 12] = [
    (1, 2),
    (1, 1_023),
    (3, 12),
    (767, 1_280),
    (1_023, 1_024),
    (1_024, 65_535),
    (6_000, 6_100),
    (32_767, 32_768),
    (16_383, 49_152),
    (0, 65_534),
    (1, 65_534),
    (1, 65_535),
];

/// The job of a seed.
pub fn random_job(seed: u64) -> Vec<u8> {
    let mut writer = Writer::new(Random::new(seed));
    match writer.random.below(100) {
        0..3 => writer.any_bytes(),
        3..8 => writer.any_records(),
        8..14 => writer.full_area(),
        14..18 => writer.little_room(),
        18..24 => {
            writer.ordinary();
            writer.flip_bits();
        }
        24..29 => {
            writer.ordinary();
            let end = writer.random.below(writer.job.len() + 1);
            writer.job.truncate(end);
        }
        29..32 => {
            writer.ordinary();
            writer.fill_up();
        }
        32..47 => writer.port_ranges(),
        47..56 => writer.port_room(),
        _ => writer.ordinary(),
    }
    writer.job
}

#[derive(Clone, Copy, PartialEq, Eq)]
enum Sort {
    Routed,
    Bridge,
}

/// Writes one job. Addresses, ports and frames come from small pools, so that rules overlap and
/// look-ups find some.
struct Writer {
    random: Random,
    job: Vec<u8>,
    sort: Sort,
    lines: usize,
    /// How many of a hundred records are damaged.
    damage: usize,
    /// How much choosing may still be asked for: lines times sets of bits to be costed.
    budget: usize,
    /// How many of a hundred rules match hardly anything.
    specific: usize,
    /// How many rules were put, more or less.
    puts: usize,
    routed_rows: Vec<routed::Row>,
    bridge_rows: Vec<bridge::Row>,
    addresses: Vec<u32>,
    lengths: Vec<u8>,
    ports: Vec<u16>,
    protocols: Vec<u8>,
    /// A frame, and the bits in which others differ from it.
    frame: [u8; 14],
    hot: Vec<usize>,
}

impl Writer {
    fn new(mut random: Random) -> Self {
        let network = random.number() as u32;
        let mut differing = (random.number() & random.number()) as u32 | 7;
        if random.chance(50) {
            differing &= random.number() as u32;
        }
        let most = random.pick(&[12, 60]);
        let addresses = (0..random.between(2, most))
            .map(|_| network ^ random.number() as u32 & differing)
            .collect();
        let mut lengths = vec![0, 32, 32];
        lengths.extend((0..3).map(|_| random.between(0, 32) as u8));
        let mut ports = vec![0, 1, 65_535];
        ports.extend((0..5).map(|_| random.number() as u16));
        ports.extend((0..3).map(|_| random.below(300) as u16));
        let protocols = vec![6, 6, 17, 17, 1, 0, random.byte()];
        let frame = std::array::from_fn(|_| random.byte());
        let mut hot: Vec<usize> = Vec::new();
        while hot.len() < HOT_BITS {
            let bit = random.below(112);
            if !hot.contains(&bit) {
                hot.push(bit);
            }
        }
        let sort = random.pick(&[Sort::Routed, Sort::Bridge]);
        let lines = match random.below(100) {
            0..40 => random.between(1, 16),
            40..75 => random.between(16, 80),
            75..93 => random.between(80, 300),
            93..98 => random.between(300, MOST_LINES.into()),
            _ => MOST_LINES.into(),
        };
        let damage = random.pick(&[0, 0, 2, 10, 40]);
        let budget = match random.below(100) {
            0..60 => 100_000,
            60..93 => 300_000,
            _ => 2_500_000,
        };
        let specific = random.pick(&[5, 50, 95]);
        Writer {
            random,
            job: Vec::new(),
            sort,
            lines,
            damage,
            budget,
            specific,
            puts: 0,
            routed_rows: Vec::new(),
            bridge_rows: Vec::new(),
            addresses,
            lengths,
            ports,
            protocols,
            frame,
            hot,
        }
    }

    fn damaged(&mut self) -> bool {
        self.random.chance(self.damage)
    }

    fn bytes(&mut self, length: usize) -> Vec<u8> {
        (0..length).map(|_| self.random.byte()).collect()
    }

    // Whole jobs.

    /// An opening, puts, a laying, and then all kinds of records.
    fn ordinary(&mut self) {
        if self.random.chance(15) {
            for _ in 0..self.random.between(1, 4) {
                self.any_record();
            }
        }
        if self.damaged() {
            self.bad_opening();
        }
        self.opening();
        if self.random.chance(2 * self.damage) {
            self.opening();
        }
        let fewest = if self.random.chance(70) {
            self.lines / 2
        } else {
            0
        };
        let puts = self.random.between(fewest, self.lines + self.lines / 4);
        for put in 0..puts {
            if self.job.len() > USUAL_BYTES / 2 {
                break;
            }
            let line = if self.random.chance(70) {
                put % self.lines
            } else {
                self.random.below(self.lines)
            };
            self.put(line);
            if self.random.chance(3) {
                self.strike();
            }
            if self.random.chance(1) {
                self.look_up();
            }
        }
        if self.random.chance(95) {
            self.lay();
        }
        let more = if self.random.chance(5) { 800 } else { 60 };
        for _ in 0..self.random.between(0, more) {
            if self.job.len() > USUAL_BYTES {
                break;
            }
            self.any_record();
        }
    }

    /// A table whose area is filled up to its end: with rules that admit both values at most of the
    /// chosen bits at first, then at fewer and fewer.
    fn full_area(&mut self) {
        self.lines = self.random.between(300, MOST_LINES.into());
        self.damage = self.random.pick(&[0, 0, 3]);
        self.opening();
        let mut line = 0;
        for _ in 0..self.random.between(16, 120) {
            self.put_hot(line, HOT_BITS);
            line += 1;
        }
        if self.random.chance(50) {
            for _ in 0..self.random.between(2, 18) {
                self.put_hot(line, 1);
                line += 1;
            }
        }
        let judge = self.random.pick(&[0, 1, 1, 1]);
        let most_bits = self.random.between(7, 12) as u8;
        let most_tries = self.random.pick(&[0, 20, 50, 3_000]);
        self.lay_by(judge, most_bits, most_tries);
        let open = self.random.pick(&[4, 20, 40, 80, 150, 280]);
        for fixed in 0..=HOT_BITS {
            let puts = if fixed == 0 {
                open
            } else {
                self.random.between(1, 4)
            };
            for _ in 0..puts {
                self.put_hot(line % self.lines, fixed);
                line += 1;
            }
        }
        for _ in 0..self.random.between(5, 60) {
            match self.random.below(100) {
                0..40 => {
                    let line = self.random.below(line.min(self.lines));
                    let fixed = self.random.below(HOT_BITS + 1);
                    self.put_hot(line, fixed);
                }
                40..60 => self.strike(),
                _ => self.look_up(),
            }
        }
        if self.random.chance(60) {
            let judge = self.random.below(2) as u8;
            let most_bits = self.random.pick(&[3, 12, 12]);
            let most_tries = self.random.pick(&[20, 300]);
            self.lay_by(judge, most_bits, most_tries);
            for _ in 0..10 {
                self.look_up();
            }
        }
    }

    /// Choices with little room: rules that admit both values at many of the bits that tell them
    /// apart.
    fn little_room(&mut self) {
        self.lines = self.random.between(40, 200);
        self.damage = 0;
        self.opening();
        let fewest = self.random.between(1, 8);
        for line in 0..self.lines {
            let fixed = self.random.between(fewest, HOT_BITS);
            self.put_hot(line, fixed);
        }
        for _ in 0..self.random.between(1, 3) {
            let judge = self.random.below(2) as u8;
            let most_bits = self.random.between(6, 12) as u8;
            let most_tries = self.random.pick(&[0, 50, 300, 1_500]);
            self.lay_by(judge, most_bits, most_tries);
            for _ in 0..10 {
                self.look_up();
            }
            self.strike();
        }
    }

    /// Choices of few bits for rules that differ in their port ranges more than elsewhere, so that bits
    /// of ports are chosen.
    fn port_ranges(&mut self) {
        self.sort = Sort::Routed;
        self.lines = self.random.between(3, 120);
        self.damage = self.random.pick(&[0, 0, 0, 3]);
        self.ports_at_borders();
        self.alike_ports();
        let single = self.random.pick(&[20, 50, 80]);
        self.opening();
        for line in 0..self.lines {
            if self.random.chance(single) {
                let [source, destination] = [0; 2].map(|_| self.single_port());
                self.put_for_ports(line, source, destination);
            } else {
                self.put_ranges(line);
            }
        }
        for _ in 0..self.random.between(1, 4) {
            let judge = self.random.below(2) as u8;
            let most_bits = self.random.pick(&[1, 2, 3, 3, 4, 4, 5, 6, 8, 12]);
            let most_tries = self.random.pick(&[0, 50, 300, 1_500]);
            self.lay_by(judge, most_bits, most_tries);
            self.change_ranges(30);
        }
    }

    /// A table whose area is filled up, or nearly, with rules of long and short port ranges, after
    /// many bits of ports were chosen.
    fn port_room(&mut self) {
        self.sort = Sort::Routed;
        self.lines = self.random.between(60, 600);
        self.damage = self.random.pick(&[0, 0, 0, 3]);
        self.ports_at_borders();
        self.opening();
        let single = self.random.between(12, 60);
        for line in 0..single {
            let [source, destination] = [0; 2].map(|_| {
                let port = self.random.number() as u16;
                Ports {
                    low: port,
                    high: port,
                }
            });
            self.put_for_ports(line, source, destination);
        }
        let most_bits = self.random.between(7, 12) as u8;
        let most_tries = self.random.pick(&[0, 20, 100]);
        self.lay_by(1, most_bits, most_tries);
        for _ in 0..self.random.between(1, 3) {
            for line in 0..self.random.between(4, 120) {
                self.put_ranges((single + line) % self.lines);
            }
            self.change_ranges(40);
        }
        if self.random.chance(60) {
            let judge = self.random.below(2) as u8;
            let most_bits = self.random.pick(&[2, 4, 12]);
            let most_tries = self.random.pick(&[0, 100]);
            self.lay_by(judge, most_bits, most_tries);
            self.change_ranges(20);
        }
    }

    /// Bytes of any value, or small ones.
    fn any_bytes(&mut self) {
        let small = self.random.chance(70);
        for _ in 0..self.random.below(400) {
            let byte = if small {
                self.random.below(8) as u8
            } else {
                self.random.byte()
            };
            self.job.push(byte);
        }
    }

    /// Records of right lengths, with any bytes in them.
    fn any_records(&mut self) {
        if self.random.chance(80) {
            self.opening();
        }
        for _ in 0..self.random.between(1, 60) {
            let kind = self.random.below(8) as u16;
            let length = match kind {
                1 => 22,
                2 => 30,
                3 => 2,
                4 => 6,
                6 => 3,
                _ => self.random.below(40),
            };
            let small = self.random.chance(80);
            let mut body = self.bytes(length);
            if small {
                for byte in &mut body {
                    *byte = self.random.pick(&[0, 0, 0, 1, 2, 4, 255]);
                }
            }
            self.record(kind, &body);
        }
    }

    fn flip_bits(&mut self) {
        for _ in 0..self.random.between(1, 12) {
            if self.job.is_empty() {
                return;
            }
            let at = self.random.below(self.job.len());
            let byte = if self.random.chance(70) {
                self.job[at] ^ 1 << self.random.below(8)
            } else {
                self.random.byte()
            };
            self.job[at] = byte;
        }
    }

    /// Fills the job up to a length about the most, or above it.
    fn fill_up(&mut self) {
        let length = MOST_BYTES - 1
            + match self.random.below(100) {
                0..80 => self.random.below(3),
                80..90 => self.random.below(2_000),
                _ => self.random.below(100_000),
            };
        while self.job.len() < length {
            let mut body = self.packet_or_frame();
            let space = (length - self.job.len()).saturating_sub(4);
            body.resize(space.min(MOST_PACKET), 0);
            self.record(5, &body);
        }
        self.job.truncate(length);
    }

    // Records.

    fn record(&mut self, kind: u16, body: &[u8]) {
        let mut kind = kind;
        let mut body = body.to_vec();
        if self.damaged() {
            match self.random.below(6) {
                0 => kind = self.random.pick(&[0, 7, 8, 256, 257, 262, 65_535]),
                1 => body.clear(),
                2 => {
                    body.pop();
                }
                3 => {
                    let end = self.random.below(body.len() + 1);
                    body.truncate(end);
                }
                4 => body.push(0),
                _ => {
                    let most = self.random.pick(&[8, 2_060]);
                    let more = self.random.below(most);
                    body.extend(self.bytes(more));
                }
            }
        }
        self.job.extend((body.len() as u16).to_le_bytes());
        self.job.extend(kind.to_le_bytes());
        self.job.extend(body);
    }

    fn any_record(&mut self) {
        match self.random.below(200) {
            0..100 => self.look_up(),
            100..145 => {
                let line = self.random.below(self.lines);
                self.put(line);
            }
            145..180 => self.strike(),
            180..194 => self.lay(),
            194 => self.opening(),
            195 => self.bad_opening(),
            196..198 => self.rule_of_the_other_kind(),
            _ => {
                let kind = self.random.number() as u16;
                let length = self.random.below(20);
                let body = self.bytes(length);
                self.record(kind, &body);
            }
        }
    }

    fn opening(&mut self) {
        let sort = match self.sort {
            Sort::Routed => 1,
            Sort::Bridge => 2,
        };
        let [low, high] = (self.lines as u16).to_le_bytes();
        self.record(6, &[sort, low, high]);
    }

    fn bad_opening(&mut self) {
        let sort = self.random.pick(&[1, 2, 1, 2, 0, 3, 255]);
        let lines: u16 = self.random.pick(&[0, 1_025, 16_384, 16_385, 65_535]);
        let [low, high] = lines.to_le_bytes();
        let body = [sort, low, high, 0];
        let length = self.random.pick(&[3, 3, 3, 3, 1, 2, 4]);
        self.record(6, &body[..length]);
    }

    fn rule_of_the_other_kind(&mut self) {
        let length = if self.sort == Sort::Bridge { 22 } else { 30 };
        let kind = if self.sort == Sort::Bridge { 1 } else { 2 };
        let body = if self.random.chance(50) {
            vec![0; length]
        } else {
            self.bytes(length)
        };
        self.record(kind, &body);
    }

    fn strike(&mut self) {
        let line = self.random.below(self.lines);
        let line = self.line_number(line);
        self.record(3, &line.to_le_bytes());
    }

    /// Puts a rule from the pools.
    fn put(&mut self, line: usize) {
        match self.sort {
            Sort::Routed => {
                let row = self.routed_row();
                self.put_routed(line, row);
            }
            Sort::Bridge => {
                let row = self.bridge_row();
                self.put_bridge(line, row);
            }
        }
    }

    /// Puts a rule that admits one value alone at so many of the hot bits, and both elsewhere. A
    /// routed rule has its hot bits at the end of the destination address.
    fn put_hot(&mut self, line: usize, fixed: usize) {
        match self.sort {
            Sort::Routed => {
                let length = (32 - HOT_BITS + fixed) as u8;
                let cold = prefix_mask((32 - HOT_BITS) as u8);
                let any = self.random.number() as u32;
                let row = routed::Row {
                    source: 0,
                    source_length: 0,
                    destination: (self.addresses[0] & cold | any & !cold) & prefix_mask(length),
                    destination_length: length,
                    source_ports: Ports::EVERY,
                    destination_ports: Ports::EVERY,
                    protocol: 0,
                    mask: 0,
                };
                self.put_routed(line, row);
            }
            Sort::Bridge => {
                let mut row = bridge::Row {
                    value: [0; 14],
                    mask: [0; 14],
                };
                let first = self.random.below(HOT_BITS);
                for place in 0..fixed {
                    let bit = self.hot[(first + place) % HOT_BITS];
                    row.mask[bit / 8] |= 128 >> (bit % 8);
                    if self.random.chance(50) {
                        row.value[bit / 8] |= 128 >> (bit % 8);
                    }
                }
                self.put_bridge(line, row);
            }
        }
    }

    /// Puts a rule with ranges of all sorts.
    fn put_ranges(&mut self, line: usize) {
        let source = if self.random.chance(40) {
            Ports::EVERY
        } else {
            self.any_range()
        };
        let destination = self.any_range();
        self.put_for_ports(line, source, destination);
    }

    /// Puts a rule for these ports, or for them the other way round, and mostly for all addresses and
    /// protocols.
    fn put_for_ports(&mut self, line: usize, source: Ports, destination: Ports) {
        let (source_ports, destination_ports) = if self.random.chance(20) {
            (destination, source)
        } else {
            (source, destination)
        };
        let mut row = routed::Row {
            source: 0,
            destination: 0,
            source_length: 0,
            destination_length: 0,
            source_ports,
            destination_ports,
            protocol: 0,
            mask: 0,
        };
        if self.random.chance(30) {
            (row.protocol, row.mask) = (self.random.pick(&[6, 17]), 255);
        }
        if self.random.chance(10) {
            row.destination_length = self.random.pick(&self.lengths);
            row.destination =
                self.random.pick(&self.addresses) & prefix_mask(row.destination_length);
        }
        self.put_routed(line, row);
    }

    /// Look-ups, and some puts of rules with ranges and some strikes among them.
    fn change_ranges(&mut self, most: usize) {
        for _ in 0..self.random.between(most / 3, most) {
            match self.random.below(10) {
                0..2 => {
                    let line = self.random.below(self.lines);
                    self.put_ranges(line);
                }
                2 => self.strike(),
                _ => self.look_up(),
            }
        }
    }

    fn put_routed(&mut self, line: usize, mut row: routed::Row) {
        self.puts += 1;
        self.routed_rows.push(row);
        if self.damaged() {
            for _ in 0..self.random.between(1, 2) {
                self.damage_routed(&mut row);
            }
        }
        let line = self.line_number(line);
        let body = [&line.to_le_bytes()[..], &row.to_bytes()].concat();
        self.record(1, &body);
    }

    fn put_bridge(&mut self, line: usize, mut row: bridge::Row) {
        self.puts += 1;
        self.bridge_rows.push(row);
        if self.damaged() {
            row.value[self.random.below(14)] ^= self.random.byte();
        }
        let line = self.line_number(line);
        let body = [&line.to_le_bytes()[..], &row.to_bytes()].concat();
        self.record(2, &body);
    }

    /// The number of a line, or of none.
    fn line_number(&mut self, line: usize) -> u16 {
        if self.damaged() {
            let lines = self.lines as u16;
            self.random.pick(&[lines, lines + 1, 1_024, 65_535])
        } else {
            line as u16
        }
    }

    /// Lays with what is left of the budget.
    fn lay(&mut self) {
        let filled = self.puts.min(self.lines).max(1);
        let sets = self.budget / (2 * filled);
        let most_bits = self.random.below(13).min(sets / 112);
        let left = sets - 112 * most_bits;
        let most_tries = match self.random.below(8) {
            0 => 0,
            1 => self.random.between(0, 3).min(left),
            2..4 => self.random.between(0, left.min(300)),
            4 => left.min(5_000),
            5 if filled < 8 => self.random.pick(&[999_999, 1_000_000]),
            _ => self.random.between(0, left.min(5_000)),
        };
        self.budget -= filled * (112 * most_bits + most_tries.min(left));
        let judge = self.random.below(2) as u8;
        self.lay_by(judge, most_bits as u8, most_tries as u32);
    }

    fn lay_by(&mut self, mut judge: u8, mut most_bits: u8, mut most_tries: u32) {
        if self.damaged() {
            match self.random.below(3) {
                0 => judge = self.random.pick(&[2, 3, 255]),
                1 => most_bits = self.random.pick(&[13, 14, 104, 112, 255]),
                _ => most_tries = self.random.pick(&[1_000_001, 16_777_216, u32::MAX]),
            }
        }
        let [a, b, c, d] = most_tries.to_le_bytes();
        self.record(4, &[judge, most_bits, a, b, c, d]);
    }

    fn look_up(&mut self) {
        let mut body = self.packet_or_frame();
        if self.random.chance(1) {
            let length = self.random.pick(&[2_047, 2_048, 2_049, 2_500]);
            body.resize(length, 0);
        }
        self.record(5, &body);
    }

    fn packet_or_frame(&mut self) -> Vec<u8> {
        match self.sort {
            Sort::Routed => self.packet(),
            Sort::Bridge => self.frame(),
        }
    }

    // Rules and headers.

    /// Every port, nearly every port, a single one or a range.
    fn any_ports(&mut self) -> Ports {
        let (low, high) = match self.random.below(20) {
            0..7 => (0, 65_535),
            7 => (0, 65_534),
            8 => (1, 65_535),
            9 => (0, 0),
            10..13 => return self.single_port(),
            _ => return self.any_range(),
        };
        Ports { low, high }
    }

    fn single_port(&mut self) -> Ports {
        let port = self.random.pick(&self.ports);
        Ports {
            low: port,
            high: port,
        }
    }

    /// A range of any sort: known, short or long, of ports from the pool or any; seldom a single port,
    /// an aligned block or every port.
    fn any_range(&mut self) -> Ports {
        let (one, other) = match self.random.below(20) {
            0..6 => self.random.pick(&UNEVEN_RANGES),
            6..9 => {
                let low = self.random.pick(&self.ports);
                (low, low.saturating_add(self.random.between(1, 70) as u16))
            }
            9..16 => (self.random.pick(&self.ports), self.random.pick(&self.ports)),
            16..18 => (self.random.number() as u16, self.random.number() as u16),
            18 => {
                let behind = self.random.below(17) as u32;
                let low = u16::MAX.checked_shl(behind).unwrap_or(0) & self.random.number() as u16;
                (low, low | !u16::MAX.checked_shl(behind).unwrap_or(0))
            }
            _ => (0, 65_535),
        };
        Ports {
            low: one.min(other),
            high: one.max(other),
        }
    }

    /// Makes a pool of ports alone that are alike but for a few bits side by side, mostly: so these
    /// bits tell rules for them apart.
    fn alike_ports(&mut self) {
        if self.random.chance(30) {
            return;
        }
        let many = self.random.between(2, 5);
        let behind = self.random.between(0, 16 - many);
        let alike = self.random.number() as u16;
        let differing = u16::MAX >> (16 - many) << behind;
        let most = self.random.pick(&[4, 12, 30]);
        self.ports = (0..most)
            .map(|_| alike ^ self.random.number() as u16 & differing)
            .collect();
        if self.random.chance(50) {
            self.ports_at_borders();
        }
    }

    /// Takes the ends of the uneven ranges and their neighbours into the pool.
    fn ports_at_borders(&mut self) {
        for (low, high) in UNEVEN_RANGES {
            self.ports
                .extend([low.saturating_sub(1), low, high, high.saturating_add(1)]);
        }
    }

    /// A rule of its own, or a rule of the job with other ports.
    fn routed_row(&mut self) -> routed::Row {
        if !self.routed_rows.is_empty() && self.random.chance(20) {
            return routed::Row {
                source_ports: self.any_ports(),
                destination_ports: self.any_ports(),
                ..self.random.pick(&self.routed_rows)
            };
        }
        let mut row = routed::Row {
            source: self.random.pick(&self.addresses),
            destination: self.random.pick(&self.addresses),
            source_length: 32,
            destination_length: 32,
            source_ports: self.any_ports(),
            destination_ports: self.any_ports(),
            protocol: self.random.pick(&self.protocols),
            mask: 255,
        };
        if !self.random.chance(self.specific) {
            row.source_length = self.random.pick(&self.lengths);
            row.destination_length = self.random.pick(&self.lengths);
            row.mask = self.random.pick(&[0, 255]);
            row.source &= prefix_mask(row.source_length);
            row.destination &= prefix_mask(row.destination_length);
            row.protocol &= row.mask;
        }
        row
    }

    fn damage_routed(&mut self, row: &mut routed::Row) {
        match self.random.below(9) {
            0 => row.source_length = self.random.pick(&[33, 34, 64, 255]),
            1 => row.destination_length = self.random.pick(&[33, 34, 64, 255]),
            2 => row.source |= 1 << self.random.below(32),
            3 => row.destination |= 1 << self.random.below(32),
            4 => (row.source_ports.low, row.source_ports.high) = (2, self.random.below(3) as u16),
            5 => {
                let low = row.destination_ports.low;
                row.destination_ports.high = low.saturating_sub(1);
            }
            6 => row.mask = self.random.byte(),
            7 => row.protocol = self.random.byte(),
            _ => (row.protocol, row.mask) = (1 << self.random.below(8), 0),
        }
    }

    /// A packet that a rule of the job matches, or one from the pools; sometimes damaged. Behind a
    /// later fragment's header stand bytes that look like ports, unless it ends before.
    fn packet(&mut self) -> Vec<u8> {
        let mut header = Packet {
            source: self.random.pick(&self.addresses),
            destination: self.random.pick(&self.addresses),
            source_port: self.random.pick(&self.ports),
            destination_port: self.random.pick(&self.ports),
            protocol: self.random.pick(&self.protocols),
        };
        if !self.routed_rows.is_empty() && self.random.chance(65) {
            let row = self.random.pick(&self.routed_rows);
            header.source = row.source | header.source & !prefix_mask(row.source_length);
            header.destination =
                row.destination | header.destination & !prefix_mask(row.destination_length);
            header.source_port = self.port_in(row.source_ports);
            header.destination_port = self.port_in(row.destination_ports);
            header.protocol = row.protocol | header.protocol & !row.mask;
        }
        if self.random.chance(10) {
            header.destination ^= 1 << self.random.below(HOT_BITS);
        }

        let words = if self.random.chance(20) {
            self.random.between(6, 15)
        } else {
            5
        };
        let mut packet = self.bytes(4 * words);
        let offset = self.fragment_offset();
        packet[0] = 64 | words as u8;
        packet[6..8].copy_from_slice(&(self.fragment_flags() | offset).to_be_bytes());
        packet[9] = header.protocol;
        packet[12..16].copy_from_slice(&header.source.to_be_bytes());
        packet[16..20].copy_from_slice(&header.destination.to_be_bytes());
        if matches!(header.protocol, 6 | 17) {
            packet.extend(header.source_port.to_be_bytes());
            packet.extend(header.destination_port.to_be_bytes());
        }
        let more = self.random.below(12);
        packet.extend(self.bytes(more));
        if offset != 0 && self.random.chance(25) {
            let behind = self.random.below(4);
            packet.truncate(4 * words + behind);
        }
        if self.damaged() {
            match self.random.below(4) {
                0 => packet[0] = self.random.byte(),
                1 => packet[0] = 64 | self.random.below(16) as u8,
                2 => {
                    let end = self.random.below(packet.len());
                    packet.truncate(end);
                }
                _ => {
                    let behind = self.random.below(5);
                    packet.truncate(4 * words + behind);
                }
            }
        }
        packet
    }

    /// The low 13 bits of bytes 6 and 7: 0, or those of a later fragment.
    fn fragment_offset(&mut self) -> u16 {
        match self.random.below(100) {
            0..9 => self.random.pick(&[1, 185, 256, 4_096, 8_191]),
            9..14 => 1 << self.random.below(13),
            14..18 => self.random.between(1, 8_191) as u16,
            _ => 0,
        }
    }

    /// The high 3 bits of bytes 6 and 7: none, one or any of the flags.
    fn fragment_flags(&mut self) -> u16 {
        let flags = match self.random.below(25) {
            0..22 => 0,
            22..24 => 1 << self.random.below(3),
            _ => self.random.below(8),
        };
        (flags as u16) << 13
    }

    fn port_in(&mut self, ports: Ports) -> u16 {
        match self.random.below(4) {
            0 => ports.low,
            1 => ports.high,
            _ => self.random.between(ports.low.into(), ports.high.into()) as u16,
        }
    }

    /// The frame of the job, with other values at some of the hot bits.
    fn fourteen_bytes(&mut self) -> [u8; 14] {
        let mut bytes = self.frame;
        for &bit in &self.hot {
            if self.random.chance(40) {
                bytes[bit / 8] ^= 128 >> (bit % 8);
            }
        }
        bytes
    }

    fn bridge_row(&mut self) -> bridge::Row {
        let mut mask = [0; 14];
        match self.random.below(10) {
            _ if self.random.chance(self.specific) => mask = [255; 14],
            0..2 => {}
            2..5 => {
                let length = self.random.below(113);
                for bit in 0..length {
                    mask[bit / 8] |= 128 >> (bit % 8);
                }
            }
            _ => {
                let percent = self.random.pick(&[20, 50, 80]);
                for &bit in &self.hot {
                    if self.random.chance(percent) {
                        mask[bit / 8] |= 128 >> (bit % 8);
                    }
                }
            }
        }
        let bytes = self.fourteen_bytes();
        bridge::Row {
            value: std::array::from_fn(|place| bytes[place] & mask[place]),
            mask,
        }
    }

    /// A frame that a rule of the job matches, or one from the pools; sometimes damaged.
    fn frame(&mut self) -> Vec<u8> {
        let mut frame = self.fourteen_bytes().to_vec();
        if !self.bridge_rows.is_empty() && self.random.chance(65) {
            let row = self.random.pick(&self.bridge_rows);
            for (place, byte) in frame.iter_mut().enumerate() {
                *byte = row.value[place] | *byte & !row.mask[place];
            }
        }
        let more = self.random.below(20);
        frame.extend(self.bytes(more));
        if self.damaged() {
            let end = self.random.below(16).min(frame.len());
            frame.truncate(end);
        }
        frame
    }
}

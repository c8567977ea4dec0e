//! Rule lists and packets from a seed, and the files that hold them.
//!
//! A file is, little-endian but for addresses: five numbers of four bytes (how many lines, how many
//! packets, the area's length, the most bits, the most tries), then the rows, 20 bytes each as in a
//! job behind the line, then the headers, 13 bytes each (source and destination address, source and
//! destination port, protocol).

use crate::random::Random;
use crate::routed::{Packet, Ports, Row, prefix_mask};

/// How many packets a list has, where no other number is asked for.
pub const PACKETS: usize = 4_096;
const MOST_BITS: usize = 12;
const MOST_TRIES: u32 = 500;

const TCP: u8 = 6;
const UDP: u8 = 17;
const ICMP: u8 = 1;

/// What the lines of a list are like.
#[derive(Clone, Copy)]
pub enum Mix {
    /// Nearly all lines tell both addresses in full, and mostly single ports.
    Full,
    /// Most lines are for every source.
    Open,
    /// Prefixes of 8 to 32 bits on both sides; any, ranges of and single ports.
    Mixed,
    /// As mixed, but of a hundred lines 60 have an uneven range of destination ports, and 25 one of
    /// source ports; their other ports are single or any.
    Uneven,
}

impl Mix {
    pub fn named(name: &str) -> Option<Self> {
        match name {
            "full" => Some(Mix::Full),
            "open" => Some(Mix::Open),
            "mixed" => Some(Mix::Mixed),
            "uneven" => Some(Mix::Uneven),
            _ => None,
        }
    }
}

/// A rule list with packets to be looked up, and the limits for its table.
pub struct List {
    pub rows: Vec<Row>,
    pub packets: Vec<Packet>,
    pub area: u32,
    pub most_bits: usize,
    pub most_tries: u32,
}

impl List {
    pub fn random(lines: usize, mix: Mix, area: u32, seed: u64, packets: usize) -> Self {
        let mut places = Places::new(seed);
        let rows: Vec<Row> = (0..lines).map(|_| places.row(mix)).collect();
        let packets = (0..packets)
            .map(|_| {
                if !rows.is_empty() && places.random.chance(50) {
                    let row = places.random.pick(&rows);
                    places.packet_in(&row)
                } else {
                    places.packet()
                }
            })
            .collect();
        List {
            rows,
            packets,
            area,
            most_bits: MOST_BITS,
            most_tries: MOST_TRIES,
        }
    }

    pub fn to_bytes(&self) -> Vec<u8> {
        let numbers = [
            self.rows.len() as u32,
            self.packets.len() as u32,
            self.area,
            self.most_bits as u32,
            self.most_tries,
        ];
        let mut bytes: Vec<u8> = numbers.into_iter().flat_map(u32::to_le_bytes).collect();
        for row in &self.rows {
            bytes.extend(row.to_bytes());
        }
        for packet in &self.packets {
            bytes.extend(packet.source.to_be_bytes());
            bytes.extend(packet.destination.to_be_bytes());
            bytes.extend(packet.source_port.to_le_bytes());
            bytes.extend(packet.destination_port.to_le_bytes());
            bytes.push(packet.protocol);
        }
        bytes
    }

    /// Reads a file; none where it is too short or too long.
    pub fn from_bytes(bytes: &[u8]) -> Option<Self> {
        let (numbers, rest) = bytes.split_first_chunk::<20>()?;
        let number = |at| {
            u32::from_le_bytes([
                numbers[at],
                numbers[at + 1],
                numbers[at + 2],
                numbers[at + 3],
            ])
        };
        let (rows, headers) = rest.split_at_checked(number(0) as usize * Row::BYTES)?;
        let (rows, _) = rows.as_chunks::<{ Row::BYTES }>();
        let (headers, no_more) = headers.as_chunks::<13>();
        let list = List {
            rows: rows.iter().map(Row::from_bytes).collect(),
            packets: headers.iter().map(packet_from_bytes).collect(),
            area: number(8),
            most_bits: number(12) as usize,
            most_tries: number(16),
        };
        let whole = no_more.is_empty() && list.packets.len() == number(4) as usize;
        whole.then_some(list)
    }
}

fn packet_from_bytes(bytes: &[u8; 13]) -> Packet {
    let &[s0, s1, s2, s3, d0, d1, d2, d3, sp0, sp1, dp0, dp1, protocol] = bytes;
    Packet {
        source: u32::from_be_bytes([s0, s1, s2, s3]),
        destination: u32::from_be_bytes([d0, d1, d2, d3]),
        source_port: u16::from_le_bytes([sp0, sp1]),
        destination_port: u16::from_le_bytes([dp0, dp1]),
        protocol,
    }
}

/// The networks and services that a list speaks of.
struct Places {
    random: Random,
    /// Networks of 24 bits within the firm.
    inside: Vec<u32>,
    /// Networks of 24 bits elsewhere.
    outside: Vec<u32>,
    services: Vec<u16>,
    /// Long uneven ranges of ports.
    long_ranges: Vec<Ports>,
}

/// How many long uneven ranges a list speaks of.
const LONG_RANGES: usize = 8;

/// Uneven ranges of ports that many lists speak of.
const KNOWN_RANGES: [Ports; 8] = [
    Ports { low: 1, high: 2 },
    Ports {
        low: 137,
        high: 139,
    },
    Ports {
        low: 1,
        high: 1_023,
    },
    Ports {
        low: 1_023,
        high: 1_024,
    },
    Ports {
        low: 6_000,
        high: 6_100,
    },
    Ports {
        low: 32_767,
        high: 32_768,
    },
    Ports {
        low: 32_768,
        high: 60_999,
    },
    Ports {
        low: 0,
        high: 65_534,
    },
];

/// Ports from 1,024 on.
const HIGH_PORTS: Ports = Ports {
    low: 1_024,
    high: 65_535,
};

/// Whether a range of ports is no aligned block. Single and all ports are aligned blocks.
fn is_uneven(ports: Ports) -> bool {
    let many = u32::from(ports.high - ports.low) + 1;
    !many.is_power_of_two() || !u32::from(ports.low).is_multiple_of(many)
}

impl Places {
    fn new(seed: u64) -> Self {
        let mut random = Random::new(seed);
        let mut inside = Vec::new();
        for site in 0..4 {
            let low = random.below(64) as u32;
            inside.extend((0..8).map(|net| 0x0a00_0000 | site << 16 | (low + 3 * net) << 8));
        }
        let mut outside = Vec::new();
        for _ in 0..16 {
            let provider = random.between(0x0b00, 0xdfff) as u32;
            outside.extend((0..4).map(|_| provider << 16 | (random.below(256) as u32) << 8));
        }
        let known = [
            20, 22, 25, 53, 67, 80, 110, 123, 143, 161, 389, 443, 445, 514, 587, 636, 993,
        ];
        let more = (0..24).map(|_| random.between(1_024, 20_000) as u16);
        let services = known.into_iter().chain(more).collect();
        // These are made from other numbers, so that lists without them do not hang on them.
        let mut other = Random::new(!seed);
        let long_ranges = std::iter::repeat_with(|| {
            let low = other.between(0, 50_000);
            let high = other.between(low + 1_000, 65_535);
            Ports {
                low: low as u16,
                high: high as u16,
            }
        });
        let long_ranges = long_ranges.filter(|&ports| is_uneven(ports));
        Places {
            random,
            inside,
            outside,
            services,
            long_ranges: long_ranges.take(LONG_RANGES).collect(),
        }
    }

    fn host(&mut self, inside: bool) -> u32 {
        let networks = if inside { &self.inside } else { &self.outside };
        let network = self.random.pick(networks);
        let last = if self.random.chance(60) { 40 } else { 254 };
        network | self.random.between(1, last) as u32
    }

    fn low_port(&mut self) -> u16 {
        self.random.pick(&self.services)
    }

    fn small_range(&mut self) -> Ports {
        let low = self.low_port();
        let high = low + self.random.between(1, 99) as u16;
        Ports { low, high }
    }

    /// Ports that are single, a range or any, in so many of a hundred cases.
    fn ports(&mut self, single: usize, range: usize) -> Ports {
        let case = self.random.below(100);
        if case < single {
            let port = self.low_port();
            Ports {
                low: port,
                high: port,
            }
        } else if case < single + range {
            if self.random.chance(30) {
                HIGH_PORTS
            } else {
                self.small_range()
            }
        } else {
            Ports::EVERY
        }
    }

    /// Ports that are an uneven range, single or any, in so many of a hundred cases.
    fn uneven_or_other_ports(&mut self, uneven: usize, single: usize) -> Ports {
        if self.random.chance(uneven) {
            self.uneven_range()
        } else {
            self.ports(single, 0)
        }
    }

    fn uneven_range(&mut self) -> Ports {
        loop {
            let ports = match self.random.below(100) {
                0..25 => HIGH_PORTS,
                25..50 => self.small_range(),
                50..65 => self.random.pick(&KNOWN_RANGES),
                65..80 => self.random.pick(&self.long_ranges),
                _ => {
                    let low = self.random.between(0, 65_000) as u16;
                    let high = low + self.random.between(1, 500) as u16;
                    Ports { low, high }
                }
            };
            if is_uneven(ports) {
                return ports;
            }
        }
    }

    /// A length from 8 to 32, often one of those that networks have.
    fn length(&mut self) -> u8 {
        match self.random.below(100) {
            0..5 => self.random.between(8, 15) as u8,
            5..13 => 16,
            13..25 => self.random.between(17, 23) as u8,
            25..47 => 24,
            47..65 => self.random.between(25, 31) as u8,
            _ => 32,
        }
    }

    /// The ports of a line for TCP or UDP. Of a hundred lines 80 are.
    fn both_ports(&mut self, mix: Mix) -> (Ports, Ports) {
        if let Mix::Uneven = mix {
            let source = self.uneven_or_other_ports(31, 30);
            (source, self.uneven_or_other_ports(75, 70))
        } else {
            let source = self.ports(20, 15);
            (source, self.ports(50, 30))
        }
    }

    fn row(&mut self, mix: Mix) -> Row {
        let outward = self.random.chance(45);
        let across = self.random.chance(25);
        let source = self.host(outward || across);
        let destination = self.host(!outward);
        let tcp_or_udp = if self.random.chance(65) { TCP } else { UDP };
        let mut row = Row {
            source,
            destination,
            source_length: 32,
            destination_length: 32,
            source_ports: Ports::EVERY,
            destination_ports: Ports::EVERY,
            protocol: tcp_or_udp,
            mask: 255,
        };
        match mix {
            Mix::Full => {
                if self.random.chance(3) {
                    row.source_length = 24;
                }
                if self.random.chance(3) {
                    row.destination_length = 24;
                }
                row.source_ports = self.ports(70, 5);
                row.destination_ports = self.ports(90, 8);
            }
            Mix::Open => {
                if self.random.chance(90) {
                    row.source_length = 0;
                } else {
                    row.source_length = self.length();
                }
                if self.random.chance(35) {
                    row.destination_length = self.random.between(24, 31) as u8;
                }
                if self.random.chance(95) {
                    row.destination_ports = self.ports(75, 25);
                } else {
                    row.protocol = ICMP;
                }
            }
            Mix::Mixed | Mix::Uneven => {
                row.source_length = self.length();
                row.destination_length = self.length();
                match self.random.below(100) {
                    0..8 => row.protocol = ICMP,
                    8..20 => (row.protocol, row.mask) = (0, 0),
                    _ => (row.source_ports, row.destination_ports) = self.both_ports(mix),
                }
            }
        }
        row.source &= prefix_mask(row.source_length);
        row.destination &= prefix_mask(row.destination_length);
        row
    }

    /// A packet with addresses and services of these networks.
    fn packet(&mut self) -> Packet {
        let outward = self.random.chance(45);
        let across = self.random.chance(25);
        let protocol = self.random.pick(&[TCP, TCP, TCP, UDP, UDP, ICMP]);
        let has_ports = protocol != ICMP;
        Packet {
            source: self.host(outward || across),
            destination: self.host(!outward),
            source_port: if has_ports {
                self.random.between(1_024, 65_535) as u16
            } else {
                0
            },
            destination_port: if has_ports { self.low_port() } else { 0 },
            protocol,
        }
    }

    /// A packet that the row's rule matches.
    fn packet_in(&mut self, row: &Row) -> Packet {
        let any = self.packet();
        let mut within = |address: u32, length: u8, other: u32| {
            // A short prefix is filled up with a host of these networks, or with anything.
            let rest = if length < 16 {
                other
            } else {
                self.random.number() as u32
            };
            address | rest & !prefix_mask(length)
        };
        let source = within(row.source, row.source_length, any.source);
        let destination = within(row.destination, row.destination_length, any.destination);
        let protocol = if row.mask == 255 {
            row.protocol
        } else {
            any.protocol
        };
        let mut port = |ports: Ports| match protocol {
            TCP | UDP => self.random.between(ports.low.into(), ports.high.into()) as u16,
            _ => 0,
        };
        Packet {
            source,
            destination,
            source_port: port(row.source_ports),
            destination_port: port(row.destination_ports),
            protocol,
        }
    }
}

#[cfg(test)]
mod tests {
    use super::*;
    use crate::kind::Kind;
    use crate::routed::Routed;

    #[test]
    fn uneven_ranges_are_no_aligned_blocks() {
        let ports = |(low, high)| Ports { low, high };
        let even = [
            (5, 5),
            (0, 65_535),
            (0, 1),
            (0, 1_023),
            (6_016, 6_079),
            (49_152, 65_535),
        ];
        let uneven = [
            (1, 2),
            (0, 2),
            (1_024, 65_535),
            (6_032, 6_095),
            (0, 65_534),
            (1, 65_535),
        ];
        assert!(!even.map(ports).into_iter().any(is_uneven));
        assert!(uneven.map(ports).into_iter().all(is_uneven));
        assert!(KNOWN_RANGES.into_iter().all(is_uneven));
    }

    #[test]
    fn many_ranges_of_an_uneven_list_are_uneven() {
        let list = List::random(10_000, Mix::Uneven, 8_192, 7, 0);
        let many = |ports: fn(&Row) -> Ports| {
            let uneven = list.rows.iter().filter(|row| is_uneven(ports(row)));
            uneven.count()
        };
        assert!((5_800..6_200).contains(&many(|row| row.destination_ports)));
        assert!((2_300..2_700).contains(&many(|row| row.source_ports)));
    }

    #[test]
    fn every_row_holds_a_rule_that_some_packet_matches() {
        for mix in [Mix::Full, Mix::Open, Mix::Mixed, Mix::Uneven] {
            let list = List::random(500, mix, 8_192, 7, PACKETS);
            let mut places = Places::new(8);
            for row in &list.rows {
                let rule = Routed::rule(row).expect("a rule");
                let packet = places.packet_in(row);
                assert!(
                    Routed::matches(&rule, &packet.header()),
                    "{row:?} should match {packet:?}"
                );
            }
            let read = List::from_bytes(&list.to_bytes()).expect("a list");
            assert_eq!(read.packets, list.packets);
            assert_eq!(read.to_bytes(), list.to_bytes());
        }
    }
}

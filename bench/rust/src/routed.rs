//! The routed kind: IPv4 packets by addresses, ports and protocol.

use crate::bits::{Bits, Cells, Together, parts};
use crate::fault::Fault;
use crate::fields::{Admitted, Fields};
use crate::kind::Kind;
use std::collections::HashMap;
use std::mem;
use std::rc::Rc;

/// The routed kind. Its fields and their bits are: source address 0-31, destination address 32-63,
/// source port 64-79, destination port 80-95, protocol 96-103.
pub struct Routed;

/// The first bit of each port field.
const SOURCE_PORT: u16 = 64;
const DESTINATION_PORT: u16 = 80;

/// How many bits a port has, and how many ports there are.
const PORT_BITS: u16 = 16;
const PORTS: usize = 1 << PORT_BITS;

/// The most significant bit of a port.
const FIRST_OF_PORT: u16 = 1 << (PORT_BITS - 1);

/// The bits of the fragment offset in bytes 6 and 7 of a packet. Before them stand three flags.
const FRAGMENT_OFFSET: u16 = 0x1fff;

/// A header: its fields, and whether it is portless, as that of a later fragment of TCP or UDP is.
/// A portless header has 0 in both port fields; headers are made by `Packet::header` and
/// `Routed::header` alone, which keep this.
#[derive(Clone, Copy, Debug, PartialEq, Eq)]
pub struct Header {
    fields: Fields,
    portless: bool,
}

/// The numbers of a header, by their names.
#[derive(Clone, Copy, Debug, PartialEq, Eq)]
pub struct Packet {
    pub source: u32,
    pub destination: u32,
    pub source_port: u16,
    pub destination_port: u16,
    pub protocol: u8,
}

/// The ten numbers of a rule, as they are read. They may hold no rule.
#[derive(Clone, Copy, Debug)]
pub struct Row {
    pub source: u32,
    pub destination: u32,
    pub source_length: u8,
    pub destination_length: u8,
    pub source_ports: Ports,
    pub destination_ports: Ports,
    pub protocol: u8,
    pub mask: u8,
}

/// The low and the high end of a port range, both included.
#[derive(Clone, Copy, Debug, PartialEq, Eq, Hash)]
pub struct Ports {
    pub low: u16,
    pub high: u16,
}

/// A rule matches in the addresses and the protocol where it admits all bits of the header. In the
/// ports that is not enough: they have to be in the ranges, and of a portless header both ranges
/// have to be every port. What is admitted at a port's bits is told by value and mask where the range
/// is a single port or every port. Else the ports are tried; value and mask tell there what all of
/// them begin with, and are for matching alone.
#[derive(Clone, Copy, Debug)]
pub struct Rule {
    admitted: Admitted,
    source_ports: Ports,
    destination_ports: Ports,
}

impl Packet {
    /// The header.
    pub fn header(&self) -> Header {
        Header {
            fields: Fields([
                self.source,
                self.destination,
                side_by_side(self.source_port, self.destination_port),
                protocol_word(self.protocol),
            ]),
            portless: false,
        }
    }
}

impl Ports {
    /// Every port.
    pub const EVERY: Ports = Ports {
        low: 0,
        high: 65_535,
    };

    fn contains(&self, port: u16) -> bool {
        self.low <= port && port <= self.high
    }

    fn is_single(&self) -> bool {
        self.low == self.high
    }

    /// Ones at the first bits, in which both ends agree: these are the same in every port. Of a single
    /// port that is all bits, and of every port none.
    fn mask(&self) -> u16 {
        let agreeing = (self.low ^ self.high).leading_zeros();
        !u16::MAX.checked_shr(agreeing).unwrap_or(0)
    }

    /// The values that the chosen bits have together in some port of the range, rising. They are
    /// found by trying the ports: of one after the other the chosen bits are picked out and marked,
    /// until the ports end or all that can be picked is marked. What stands behind the last chosen
    /// bit is struck off first, and of ports that differ there alone one is tried.
    ///
    /// What is picked has zeros at all other bits; its value is its place among all that can be
    /// picked. No mark is set before and after.
    fn values(&self, chosen: u16, marks: &mut [bool; PORTS]) -> Rc<[u16]> {
        let behind = chosen.trailing_zeros();
        let chosen = chosen >> behind;
        let mut unmarked = 1 << chosen.count_ones();
        for port in self.low >> behind..=self.high >> behind {
            let mark = &mut marks[usize::from(port & chosen)];
            if !mem::replace(mark, true) {
                unmarked -= 1;
                if unmarked == 0 {
                    break;
                }
            }
        }
        let each = parts(chosen.into()).zip(0..);
        let marked = each.filter(|&(part, _)| mem::take(&mut marks[part]));
        marked.map(|(_, value)| value).collect()
    }
}

/// The chosen bits of one port field, and the values that ranges have there, as far as these were
/// found.
#[derive(Default)]
struct AskedPorts {
    /// Ones at these bits of a port.
    chosen: u16,
    /// Ones at these bits of a cell's number.
    place: usize,
    values: HashMap<Ports, Rc<[u16]>>,
}

impl AskedPorts {
    /// Makes the bits of a set ready that lie in the field from this bit on. Where they are as
    /// before, what was found is kept.
    fn ask(&mut self, bits: &Bits, first: u16) {
        let before = self.chosen;
        (self.chosen, self.place) = (0, 0);
        for (bit, behind) in bits.as_slice().iter().zip((0..bits.len()).rev()) {
            if (first..first + PORT_BITS).contains(bit) {
                self.chosen |= FIRST_OF_PORT >> (bit - first);
                self.place |= 1 << behind;
            }
        }
        if self.chosen != before {
            self.values.clear();
        }
    }

    /// Whether the ports of a range have to be tried: where a bit is chosen, and the range is neither
    /// a single port nor every port.
    fn tries(&self, ports: &Ports) -> bool {
        self.chosen != 0 && !ports.is_single() && *ports != Ports::EVERY
    }

    /// What a range admits, where its ports have to be tried.
    fn told(&mut self, ports: Ports, marks: &mut [bool; PORTS]) -> Option<Together> {
        self.tries(&ports).then(|| {
            let values = self.values.entry(ports);
            let values = values.or_insert_with(|| ports.values(self.chosen, marks));
            Together {
                values: values.clone(),
                place: self.place,
            }
        })
    }
}

/// A set of bits, with the parts of it that lie in port fields.
pub struct Asked {
    bits: Bits,
    source_ports: AskedPorts,
    destination_ports: AskedPorts,
    marks: Box<[bool; PORTS]>,
}

impl Default for Asked {
    fn default() -> Self {
        Asked {
            bits: Bits::none(),
            source_ports: AskedPorts::default(),
            destination_ports: AskedPorts::default(),
            marks: Box::new([false; PORTS]),
        }
    }
}

impl Rule {
    /// Whether both port ranges are every port.
    fn is_for_every_port(&self) -> bool {
        self.source_ports == Ports::EVERY && self.destination_ports == Ports::EVERY
    }
}

/// Ones in the first bits, as many as a length from 0 to 32 tells.
pub fn prefix_mask(length: u8) -> u32 {
    !u32::MAX.checked_shr(length.into()).unwrap_or(0)
}

fn side_by_side(source_port: u16, destination_port: u16) -> u32 {
    u32::from(source_port) << 16 | u32::from(destination_port)
}

/// The last word: the protocol, and zeros behind it.
fn protocol_word(protocol: u8) -> u32 {
    u32::from(protocol) << 24
}

fn check_prefix(address: u32, length: u8, place: u32) -> Result<(), Fault> {
    if length > 32 {
        return Err(Fault::reading(5, place));
    }
    if address & !prefix_mask(length) != 0 {
        return Err(Fault::reading(6, place));
    }
    Ok(())
}

fn check_ports(ports: Ports, place: u32) -> Result<(), Fault> {
    if ports.low > ports.high {
        return Err(Fault::reading(7, place));
    }
    Ok(())
}

fn check_protocol(value: u8, mask: u8, place: u32) -> Result<(), Fault> {
    if mask != 0 && mask != 255 {
        return Err(Fault::reading(8, place));
    }
    if value & !mask != 0 {
        return Err(Fault::reading(6, place));
    }
    Ok(())
}

impl Row {
    /// How many bytes a row has in a job.
    pub const BYTES: usize = 20;

    /// Reads a row as it stands in a job, behind the line.
    pub fn from_bytes(bytes: &[u8; Self::BYTES]) -> Self {
        let address =
            |at| u32::from_be_bytes([bytes[at], bytes[at + 1], bytes[at + 2], bytes[at + 3]]);
        let port = |at| u16::from_le_bytes([bytes[at], bytes[at + 1]]);
        Row {
            source: address(0),
            destination: address(4),
            source_length: bytes[8],
            destination_length: bytes[9],
            source_ports: Ports {
                low: port(10),
                high: port(12),
            },
            destination_ports: Ports {
                low: port(14),
                high: port(16),
            },
            protocol: bytes[18],
            mask: bytes[19],
        }
    }

    pub fn to_bytes(self) -> [u8; Self::BYTES] {
        let mut bytes = [0; Self::BYTES];
        bytes[0..4].copy_from_slice(&self.source.to_be_bytes());
        bytes[4..8].copy_from_slice(&self.destination.to_be_bytes());
        bytes[8] = self.source_length;
        bytes[9] = self.destination_length;
        bytes[10..12].copy_from_slice(&self.source_ports.low.to_le_bytes());
        bytes[12..14].copy_from_slice(&self.source_ports.high.to_le_bytes());
        bytes[14..16].copy_from_slice(&self.destination_ports.low.to_le_bytes());
        bytes[16..18].copy_from_slice(&self.destination_ports.high.to_le_bytes());
        bytes[18] = self.protocol;
        bytes[19] = self.mask;
        bytes
    }
}

impl Kind for Routed {
    type Header = Header;
    type Row = Row;
    type Rule = Rule;
    type Asked = Asked;

    const WIDTH: u16 = 104;

    fn bit(header: &Header, bit: u16) -> bool {
        bit < Self::WIDTH && header.fields.bit(bit)
    }

    fn matches(rule: &Rule, header: &Header) -> bool {
        let ports = header.fields.0[2];
        rule.admitted.admits_all(&header.fields)
            && rule.source_ports.contains((ports >> 16) as u16)
            && rule.destination_ports.contains(ports as u16)
            && (!header.portless || rule.is_for_every_port())
    }

    fn ask(asked: &mut Asked, bits: &Bits) {
        asked.bits = *bits;
        asked.source_ports.ask(bits, SOURCE_PORT);
        asked.destination_ports.ask(bits, DESTINATION_PORT);
    }

    #[inline]
    fn cells(rule: &Rule, asked: &mut Asked) -> Cells {
        let cells = rule.admitted.cells(&asked.bits, Self::WIDTH);
        let Asked {
            source_ports,
            destination_ports,
            marks,
            ..
        } = asked;
        if source_ports.tries(&rule.source_ports)
            || destination_ports.tries(&rule.destination_ports)
        {
            cells.with([
                source_ports.told(rule.source_ports, marks),
                destination_ports.told(rule.destination_ports, marks),
            ])
        } else {
            cells
        }
    }

    fn rule(row: &Row) -> Result<Rule, Fault> {
        check_prefix(row.source, row.source_length, 1)?;
        check_prefix(row.destination, row.destination_length, 2)?;
        check_ports(row.source_ports, 3)?;
        check_ports(row.destination_ports, 4)?;
        check_protocol(row.protocol, row.mask, 5)?;
        let ports_mask = side_by_side(row.source_ports.mask(), row.destination_ports.mask());
        let low_ports = side_by_side(row.source_ports.low, row.destination_ports.low);
        Ok(Rule {
            admitted: Admitted {
                value: Fields([
                    row.source,
                    row.destination,
                    low_ports & ports_mask,
                    protocol_word(row.protocol),
                ]),
                mask: Fields([
                    prefix_mask(row.source_length),
                    prefix_mask(row.destination_length),
                    ports_mask,
                    protocol_word(row.mask),
                ]),
            },
            source_ports: row.source_ports,
            destination_ports: row.destination_ports,
        })
    }

    fn header(packet: &[u8]) -> Result<Header, Fault> {
        let Some(fixed) = packet.first_chunk::<20>() else {
            return Err(Fault::reading(1, 0));
        };
        if fixed[0] >> 4 != 4 {
            return Err(Fault::reading(2, 0));
        }
        let words = usize::from(fixed[0] & 15);
        if words < 5 || 4 * words > packet.len() {
            return Err(Fault::reading(3, 0));
        }
        let later_fragment = u16::from_be_bytes([fixed[6], fixed[7]]) & FRAGMENT_OFFSET != 0;
        let protocol = fixed[9];
        let tcp_or_udp = matches!(protocol, 6 | 17);
        let (source_port, destination_port) = if tcp_or_udp && !later_fragment {
            let Some(ports) = packet[4 * words..].first_chunk::<4>() else {
                return Err(Fault::reading(4, 0));
            };
            (
                u16::from_be_bytes([ports[0], ports[1]]),
                u16::from_be_bytes([ports[2], ports[3]]),
            )
        } else {
            (0, 0)
        };
        let packet = Packet {
            source: u32::from_be_bytes([fixed[12], fixed[13], fixed[14], fixed[15]]),
            destination: u32::from_be_bytes([fixed[16], fixed[17], fixed[18], fixed[19]]),
            source_port,
            destination_port,
            protocol,
        };
        Ok(Header {
            portless: tcp_or_udp && later_fragment,
            ..packet.header()
        })
    }
}

#[cfg(test)]
mod tests {
    use super::*;

    const ANY: Row = Row {
        source: 0,
        destination: 0,
        source_length: 0,
        destination_length: 0,
        source_ports: Ports::EVERY,
        destination_ports: Ports::EVERY,
        protocol: 0,
        mask: 0,
    };

    fn set(bits: impl IntoIterator<Item = u16>) -> Bits {
        bits.into_iter().fold(Bits::none(), |set, bit| {
            set.with(bit).expect("one bit more")
        })
    }

    fn ports(low: u16, high: u16) -> Ports {
        Ports { low, high }
    }

    fn to_ports(low: u16, high: u16) -> Row {
        Row {
            destination_ports: ports(low, high),
            ..ANY
        }
    }

    /// The cells of a row's rule, after others were asked for. They have to rise.
    fn cells_after(asked: &mut Asked, row: &Row, bits: &Bits) -> Vec<usize> {
        let rule = Routed::rule(row).expect("a rule");
        Routed::ask(asked, bits);
        let told = Routed::cells(&rule, asked);
        let mut cells = Vec::new();
        told.each(|cell| cells.push(cell));
        assert_eq!(told.count(), cells.len(), "{row:?}, {bits:?}");
        assert!(cells.is_sorted_by(|a, b| a < b), "{row:?}, {bits:?}");
        cells
    }

    fn cells(row: &Row, bits: &Bits) -> Vec<usize> {
        cells_after(&mut Asked::default(), row, bits)
    }

    /// The cells of all headers that the rule of a row for every protocol matches whose addresses
    /// are 0.
    fn cells_of_headers(row: &Row, bits: &Bits) -> Vec<usize> {
        let rule = Routed::rule(row).expect("a rule");
        let mut marked = vec![false; bits.cells()];
        for source_port in row.source_ports.low..=row.source_ports.high {
            for destination_port in row.destination_ports.low..=row.destination_ports.high {
                let packet = Packet {
                    source: 0,
                    destination: 0,
                    source_port,
                    destination_port,
                    protocol: 0,
                };
                let header = packet.header();
                assert!(Routed::matches(&rule, &header));
                marked[bits.cell_of::<Routed>(&header)] = true;
            }
        }
        let all = marked.iter().enumerate();
        all.filter_map(|(cell, marked)| marked.then_some(cell))
            .collect()
    }

    /// Sets of bits of a port field: its bits by their places.
    const PLACES: [&[u16]; 9] = [
        &[15],
        &[14, 15],
        &[0, 15],
        &[0, 1, 2],
        &[0, 1, 2, 3, 4, 5],
        &[3, 7, 8, 12],
        &[10, 11, 12, 13, 14, 15],
        &[1, 3, 5, 7, 9, 11, 13, 15],
        &[0, 1, 2, 3, 4, 5, 6, 7, 8, 13, 14, 15],
    ];

    #[test]
    fn a_range_admits_the_values_that_some_port_has() {
        assert_eq!(cells(&to_ports(1, 2), &set([94, 95])), [0b01, 0b10]);
        assert_eq!(cells(&to_ports(1, 2), &set([95])), [0, 1]);
        assert_eq!(cells(&to_ports(1, 2), &set([93])), [0]);
        assert_eq!(
            cells(&to_ports(32_767, 32_768), &set(80..=91)),
            [0b0111_1111_1111, 0b1000_0000_0000]
        );
        let from_1024 = cells(&to_ports(1_024, 65_535), &set(80..=85));
        assert!(from_1024.into_iter().eq(1..64));
        assert!(
            cells(&to_ports(0, 1_023), &set(80..=91))
                .into_iter()
                .eq(0..64)
        );
    }

    #[test]
    fn every_port_has_all_values_and_a_single_one_its_own() {
        for places in PLACES {
            let bits = set(places.iter().map(|place| 80 + place));
            let every = cells(&ANY, &bits);
            assert!(every.into_iter().eq(0..bits.cells()), "{bits:?}");
            for port in [0, 1, 1_023, 1_024, 0x5a5a, 32_767, 32_768, 65_535] {
                let row = to_ports(port, port);
                assert_eq!(cells(&row, &bits), cells_of_headers(&row, &bits));
                assert_eq!(cells(&row, &bits).len(), 1, "{port}, {bits:?}");
            }
        }
    }

    /// All ranges between multiples of a number, in either port field, against all their ports.
    #[test]
    fn ranges_admit_what_their_ports_have() {
        let from_0 = |ports| Row {
            source_ports: ports,
            destination_ports: Ports { low: 0, high: 0 },
            ..ANY
        };
        let to_0 = |ports| Row {
            source_ports: Ports { low: 0, high: 0 },
            destination_ports: ports,
            ..ANY
        };
        let mut asked = Asked::default();
        for (step, most) in [(1, 20), (4_096, 15), (5_041, 13)] {
            for places in PLACES {
                let from = set(places.iter().map(|place| 64 + place));
                let to = set(places.iter().map(|place| 80 + place));
                for low in 0..=most {
                    for high in low..=most {
                        let ports = ports(low * step, high * step);
                        let want = cells_of_headers(&from_0(ports), &from);
                        let told = cells_after(&mut asked, &from_0(ports), &from);
                        assert_eq!(told, want, "{ports:?} of the source, {places:?}");
                        let told = cells_after(&mut asked, &to_0(ports), &to);
                        assert_eq!(told, want, "{ports:?} of the destination, {places:?}");
                    }
                }
            }
        }
    }

    /// Both ranges at once, with free and fixed bits before, between and behind.
    #[test]
    fn both_ranges_admit_what_their_ports_have() {
        let row = Row {
            source_ports: ports(1, 2),
            destination_ports: ports(1_023, 1_024),
            ..ANY
        };
        let bits = set([78, 79, 84, 85, 86, 95]);
        let told = cells(&row, &bits);
        assert_eq!(told, [0b01_0011, 0b01_0100, 0b10_0011, 0b10_0100]);
        assert_eq!(told, cells_of_headers(&row, &bits));

        let narrow = Row {
            source: 0x8000_0000,
            source_length: 1,
            protocol: 1,
            mask: 255,
            ..row
        };
        let told = cells(&narrow, &set([0, 63, 78, 79, 84, 85, 102, 103, 104]));
        let mut want = Vec::new();
        for addresses in [0b10, 0b11] {
            for source in [0b01, 0b10] {
                want.extend(
                    [0b00, 0b01]
                        .map(|destination| addresses << 7 | source << 5 | destination << 3 | 0b010),
                );
            }
        }
        assert_eq!(told, want);

        let ends = [(1, 2), (0, 6), (3, 3), (5, 12), (32_760, 32_771)];
        let mut asked = Asked::default();
        for places in [&[13, 14, 15][..], &[0, 15], &[0, 1, 12, 13, 14]] {
            let each = |first: u16| places.iter().map(move |place| first + place);
            let bits = set([30].into_iter().chain(each(64)).chain(each(80)));
            for source in ends.into_iter().chain([(0, 65_535)]) {
                for destination in ends {
                    let row = Row {
                        source_length: 32,
                        source_ports: ports(source.0, source.1),
                        destination_ports: ports(destination.0, destination.1),
                        ..ANY
                    };
                    let told = cells_after(&mut asked, &row, &bits);
                    assert_eq!(told, cells_of_headers(&row, &bits), "{row:?}, {bits:?}");
                }
            }
        }
    }

    /// A packet of 10.0.0.1 to 10.0.0.2 with the ports 53 and 4,660 behind its header, if they are
    /// ports. It has no options, and bytes 6 and 7 are the flags and the fragment offset.
    fn packet(flags_and_offset: u16, protocol: u8) -> Vec<u8> {
        let mut packet = vec![0x45; 20];
        packet[6..8].copy_from_slice(&flags_and_offset.to_be_bytes());
        packet[9] = protocol;
        packet[12..20].copy_from_slice(&[10, 0, 0, 1, 10, 0, 0, 2]);
        packet.extend([0, 53, 0x12, 0x34]);
        packet
    }

    fn header(source_port: u16, destination_port: u16, protocol: u8) -> Header {
        let packet = Packet {
            source: 0x0a00_0001,
            destination: 0x0a00_0002,
            source_port,
            destination_port,
            protocol,
        };
        packet.header()
    }

    fn portless(protocol: u8) -> Header {
        Header {
            portless: true,
            ..header(0, 0, protocol)
        }
    }

    const FLAGS: [u16; 5] = [0, 0x2000, 0x4000, 0x8000, 0xe000];
    const OFFSETS: [u16; 6] = [1, 185, 255, 256, 4_096, 8_191];

    #[test]
    fn with_offset_0_a_packet_has_ports_whatever_its_flags() {
        for flags in FLAGS {
            for protocol in [6, 17] {
                let told = Routed::header(&packet(flags, protocol));
                assert_eq!(told, Ok(header(53, 0x1234, protocol)), "{flags:#x}");
            }
            assert_eq!(Routed::header(&packet(flags, 1)), Ok(header(0, 0, 1)));
        }
    }

    /// Whatever its flags, and whatever stands behind its header, or where nothing does.
    #[test]
    fn a_later_fragment_of_tcp_or_udp_is_portless() {
        for flags in FLAGS {
            for offset in OFFSETS {
                let wanted = [(6, portless(6)), (17, portless(17)), (1, header(0, 0, 1))];
                for (protocol, want) in wanted {
                    let packet = packet(flags | offset, protocol);
                    for end in 20..=packet.len() {
                        let told = Routed::header(&packet[..end]);
                        assert_eq!(told, Ok(want), "{flags:#x}, offset {offset}, {end} bytes");
                    }
                }
            }
        }
    }

    #[test]
    fn options_are_skipped() {
        let with_options = |flags_and_offset, protocol| {
            let mut packet = packet(flags_and_offset, protocol);
            packet[0] = 0x46;
            packet.splice(20..20, [7; 4]);
            packet
        };
        let told = Routed::header(&with_options(0x2000, 17));
        assert_eq!(told, Ok(header(53, 0x1234, 17)));
        let told = Routed::header(&with_options(0x2001, 17));
        assert_eq!(told, Ok(portless(17)));
        let told = Routed::header(&with_options(0x2001, 17)[..24]);
        assert_eq!(told, Ok(portless(17)));
    }

    /// Only the ports may be missing, and only of a later fragment.
    #[test]
    fn what_is_no_packet_is_refused() {
        let refused = |number| Err(Fault::reading(number, 0));
        for flags_and_offset in [0, 0xe000, 1, 8_191, 0xffff] {
            for protocol in [1, 6, 17] {
                let packet = packet(flags_and_offset, protocol);
                assert_eq!(Routed::header(&[]), refused(1));
                assert_eq!(Routed::header(&packet[..19]), refused(1));
                let beginning_with = |first| {
                    let mut packet = packet.clone();
                    packet[0] = first;
                    Routed::header(&packet)
                };
                assert_eq!(beginning_with(0x55), refused(2));
                assert_eq!(beginning_with(0x35), refused(2));
                assert_eq!(beginning_with(0x44), refused(3));
                assert_eq!(beginning_with(0x47), refused(3));
            }
        }
        for flags in FLAGS {
            for protocol in [6, 17] {
                for end in 20..24 {
                    let told = Routed::header(&packet(flags, protocol)[..end]);
                    assert_eq!(told, refused(4), "{flags:#x}, {end} bytes");
                }
            }
        }
    }

    #[test]
    fn only_rules_for_every_port_match_a_portless_header() {
        let ranges = [(0, 65_535), (0, 65_534), (1, 65_535), (0, 0), (53, 53)]
            .map(|(low, high)| Ports { low, high });
        for source_ports in ranges {
            for destination_ports in ranges {
                let rule = Routed::rule(&Row {
                    source_ports,
                    destination_ports,
                    ..ANY
                });
                let rule = rule.expect("a rule");
                let every = source_ports == Ports::EVERY && destination_ports == Ports::EVERY;
                let zeros = source_ports.low == 0 && destination_ports.low == 0;
                for protocol in [6, 17] {
                    let ranges = (source_ports, destination_ports);
                    let told = Routed::matches(&rule, &portless(protocol));
                    assert_eq!(told, every, "{ranges:?}, portless");
                    let told = Routed::matches(&rule, &header(0, 0, protocol));
                    assert_eq!(told, zeros, "{ranges:?}, ports 0");
                }
            }
        }
    }

    #[test]
    fn a_portless_header_has_addresses_and_a_protocol() {
        let here = Row {
            source: 0x0a00_0001,
            destination: 0x0a00_0000,
            source_length: 32,
            destination_length: 24,
            protocol: 17,
            mask: 255,
            ..ANY
        };
        let elsewhere = Row {
            source: 0x0a00_0003,
            ..here
        };
        let to_elsewhere = Row {
            destination: 0x0a00_0100,
            ..here
        };
        let tcp = Row {
            protocol: 6,
            ..here
        };
        let matches = |row| {
            let rule = Routed::rule(&row).expect("a rule");
            Routed::matches(&rule, &portless(17))
        };
        assert!(matches(here));
        assert!(!matches(elsewhere) && !matches(to_elsewhere) && !matches(tcp));
    }

    #[test]
    fn the_bits_of_a_portless_header_are_those_of_ports_0() {
        for bit in (0..130).chain([1_023]) {
            let told = Routed::bit(&portless(17), bit);
            assert_eq!(told, Routed::bit(&header(0, 0, 17), bit), "bit {bit}");
            assert!(!(told && (64..96).contains(&bit)), "bit {bit}");
        }
    }

    #[test]
    fn past_the_width_a_rule_admits_0_alone() {
        for bit in 0..Routed::WIDTH {
            assert_eq!(cells(&ANY, &set([bit])), [0, 1], "bit {bit}");
        }
        for bit in [104, 105, 127, 128, 1_023] {
            assert_eq!(cells(&ANY, &set([bit])), [0], "bit {bit}");
            assert_eq!(cells(&to_ports(1, 2), &set([95, bit])), [0b00, 0b10]);
        }
    }
}

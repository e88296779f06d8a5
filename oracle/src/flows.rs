//! Random packets for generated scripts: voice-like flows with small sets of values, so that repeats
//! and collisions are frequent, and packets that just fail to be compressible.

use crate::bytes::{get16, ip_checksum, put16};
use crate::header::{self, Fields, Header, FIXED, MAX_CSRC};
use crate::prng::Prng;
use crate::udp_checksum::{self, CHECKSUM};

const ID_STEPS: [u16; 12] = [1, 1, 1, 2, 5, 0, 300, 65535, 65408, 16384, 49151, 49152];
const TIMESTAMP_STEPS: [u32; 18] = [
    160,
    160,
    160,
    10,
    240,
    0,
    1,
    127,
    128,
    16383,
    16384,
    4_194_303,
    4_194_304,
    u32::MAX,
    u32::MAX - 127,
    u32::MAX - 128,
    u32::MAX - 16383,
    u32::MAX - 16384,
];

/// One flow: the header of its last packet and how the next one is meant to differ. Of the UDP checksum the header tells
/// only whether the flow has them; a packet gets its own once it is whole.
pub struct Flow {
    pub header: Header,
    pub id_step: u16,
    pub timestamp_step: u32,
}

impl Flow {
    pub fn new(prng: &mut Prng) -> Self {
        let mut flow = Flow {
            header: Header {
                fields: Fields {
                    source: prng.pick(&[0x0a00_0001, 0x0a00_0002, 0xc0a8_01ff]),
                    destination: prng.pick(&[0x0a00_0003, 0xe000_0001, 0]),
                    sport: prng.pick(&[5004, 5005, 0, 65535]),
                    dport: prng.pick(&[5004, 5006, 0, 65534]),
                    ssrc: prng.pick(&[1, 2, 0, u32::MAX]),
                    tos: prng.pick(&[0, 0xb8, 0xff]),
                    ttl: prng.pick(&[0, 63, 64, 255]),
                    flags: prng.below(4) as u8,
                    padding: prng.chance(1, 8),
                    extension: prng.chance(1, 8),
                    id: prng.pick(&[0, 1000, 65530, 0x1234]),
                    sequence: prng.pick(&[0, 7, 65530]),
                    timestamp: prng.pick(&[0, 10, 4_294_967_286, 0x7fff_ffff]),
                    payload: prng.pick(&[0, 8, 96, 127]),
                    cc: 0,
                    csrc: [0; MAX_CSRC],
                },
                marker: true,
                udp_checksum: 0,
            },
            id_step: prng.pick(&ID_STEPS),
            timestamp_step: prng.pick(&TIMESTAMP_STEPS),
        };
        if prng.bit() {
            flow.header.udp_checksum = some_checksum(prng);
        }
        if prng.chance(1, 4) {
            change_list(prng, &mut flow.header.fields);
        }
        flow
    }

    /// The next packet of the flow, with a change in `change` percent of cases. If it has a UDP checksum, that is wrong in
    /// `wrong` percent of cases.
    pub fn next_packet(&mut self, prng: &mut Prng, change: usize, wrong: usize) -> Vec<u8> {
        let header = self.next(prng, change);
        let payload = payload(prng, &header);
        let mut bytes = packet(&header, &payload);
        if header.udp_checksum != 0 {
            if prng.chance(1, 30) {
                make_udp_sum_zero(&mut bytes);
            }
            let mut checksum = udp_checksum::of_whole(&bytes);
            if prng.below(100) < wrong {
                checksum = other_checksum(prng, checksum).max(1);
            }
            put16(&mut bytes, CHECKSUM, checksum);
        }
        bytes
    }

    /// The next header of the flow; a change in `percent` of cases.
    fn next(&mut self, prng: &mut Prng, percent: usize) -> Header {
        let fields = &mut self.header.fields;
        fields.id = fields.id.wrapping_add(self.id_step);
        fields.sequence = fields.sequence.wrapping_add(1);
        fields.timestamp = fields.timestamp.wrapping_add(self.timestamp_step);
        self.header.marker = prng.chance(1, 10);
        if self.header.udp_checksum != 0 {
            self.header.udp_checksum = some_checksum(prng);
        }
        while prng.chance(percent, 100) {
            self.change(prng);
            if prng.bit() {
                break;
            }
        }
        self.header
    }

    fn change(&mut self, prng: &mut Prng) {
        if prng.chance(1, 8) {
            return self.change_constant(prng);
        }
        let fields = &mut self.header.fields;
        match prng.below(9) {
            0 => fields.id = fields.id.wrapping_add(prng.pick(&[1, 2, 7, 65535, 40000])),
            1 | 2 => self.id_step = prng.pick(&ID_STEPS),
            3 => {
                let jump = prng.pick(&[1, 2, 65535, 65534, 30000]);
                fields.sequence = fields.sequence.wrapping_add(jump);
            }
            4 => {
                let jump = prng.pick(&[160, 2000, 1 << 22, 1 << 31, u32::MAX]);
                fields.timestamp = fields.timestamp.wrapping_add(jump);
            }
            5 | 6 => self.timestamp_step = prng.pick(&TIMESTAMP_STEPS),
            7 => fields.payload = prng.pick(&[0, 8, 96, 127]),
            _ => change_list(prng, fields),
        }
    }

    fn change_constant(&mut self, prng: &mut Prng) {
        let fields = &mut self.header.fields;
        match prng.below(24) {
            0..=3 => fields.tos = prng.pick(&[0, 0xb8, 0xff]),
            4..=7 => fields.ttl = prng.pick(&[0, 63, 64, 255]),
            8..=11 => fields.flags = prng.below(4) as u8,
            12..=14 => fields.padding ^= true,
            15..=17 => fields.extension ^= true,
            18..=21 => {
                self.header.udp_checksum = match self.header.udp_checksum {
                    0 => some_checksum(prng),
                    _ => 0,
                }
            }
            // Another flow; once all contexts are in use it goes plain.
            22 => fields.ssrc = prng.pick(&[1, 2, 3, u32::MAX]),
            _ => fields.sport = prng.pick(&[5004, 5005, 5006]),
        }
    }
}

fn some_checksum(prng: &mut Prng) -> u16 {
    prng.pick(&[1, 0x8000, 0xffff, 0xbeef])
}

fn change_list(prng: &mut Prng, fields: &mut Fields) {
    let words: [u32; 4] = [0, 1, 0xaabb_ccdd, u32::MAX];
    if fields.cc > 0 && prng.bit() {
        let place = prng.below(fields.cc.into());
        fields.csrc[place] = prng.pick(&words);
        return;
    }
    fields.cc = prng.pick(&[0, 0, 0, 1, 2, 3, 15]);
    fields.csrc = [0; MAX_CSRC];
    for word in &mut fields.csrc[..usize::from(fields.cc)] {
        *word = prng.pick(&words);
    }
}

/// A checksum that is wrong where `right` is right, but for rare chance: a bit off, one off, halves swapped, FFFF or any.
pub fn other_checksum(prng: &mut Prng, right: u16) -> u16 {
    match prng.below(6) {
        0 | 1 => right ^ 1 << prng.below(16),
        2 => right.wrapping_add(prng.pick(&[1, 0xffff])),
        3 => right.swap_bytes(),
        4 => 0xffff,
        _ => prng.number() as u16,
    }
}

/// Alters the last whole word after the fixed headers, if there is one, so that the UDP sum comes out 0000, for which
/// FFFF is sent.
pub fn make_udp_sum_zero(packet: &mut [u8]) {
    let at = packet.len() / 2 * 2 - 2;
    if at < FIXED {
        return;
    }
    put16(packet, at, 0);
    let lacking = udp_checksum::of_whole(packet);
    if lacking != 0xffff {
        put16(packet, at, lacking);
    }
}

/// A short payload, now and then none, and rarely one that fills the packet.
fn payload(prng: &mut Prng, header: &Header) -> Vec<u8> {
    let room = 1500 - header::FIXED - 4 * usize::from(header.fields.cc);
    let count = if prng.chance(1, 800) {
        room - prng.below(2)
    } else {
        prng.below(7)
    };
    prng.bytes(count)
}

pub fn packet(header: &Header, payload: &[u8]) -> Vec<u8> {
    let mut bytes = header::build(header, payload.len());
    bytes.extend_from_slice(payload);
    bytes
}

/// A compressible packet with one condition broken, everything else put right again.
pub fn nearly_compressible(prng: &mut Prng, mut packet: Vec<u8>) -> Vec<u8> {
    let mut repair = true;
    match prng.below(16) {
        0 => packet[0] = prng.pick(&[0x44, 0x46, 0x55, 0x65]),
        1 => {
            let length = get16(&packet, 2);
            put16(&mut packet, 2, length.wrapping_add(prng.pick(&[1, 65535])));
        }
        2 => packet[6] |= 0x20,
        3 => packet[6] |= prng.pick(&[0x10, 0x01]),
        4 => packet[7] = prng.pick(&[1, 0x80]),
        5 => packet[9] = prng.pick(&[6, 16, 18, 0]),
        6 => {
            let right = ip_checksum(&packet);
            put16(&mut packet, 10, right ^ prng.pick(&[1, 0x8000, 0xffff]));
            repair = false;
        }
        7 | 8 => {
            make_checksum_zero(&mut packet);
            let checksum = prng.pick(&[0, 0xffff]);
            put16(&mut packet, 10, checksum);
            repair = false;
        }
        9 => {
            let length = get16(&packet, 24);
            put16(&mut packet, 24, length.wrapping_add(prng.pick(&[1, 65535])));
        }
        10 => packet[23] |= 1,
        11 => packet[28] = packet[28] & 0x3f | prng.pick(&[0x00, 0x40, 0xc0]),
        12 => packet[28] |= 0x0f,
        13 => {
            let extra = prng.between(1, 4);
            packet.extend(prng.bytes(extra));
            repair = prng.bit();
        }
        14 => {
            let keep = prng.below(packet.len().min(60));
            packet.truncate(keep);
            repair = false;
        }
        _ => {
            // Fewer than 40 bytes, though every length agrees.
            packet.truncate(prng.between(28, 39).min(packet.len()));
            let length = packet.len() as u16;
            put16(&mut packet, 2, length);
            put16(&mut packet, 24, length - 20);
        }
    }
    if repair {
        let checksum = ip_checksum(&packet);
        put16(&mut packet, 10, checksum);
    }
    packet
}

/// Alters the ID so that the right IP checksum is 0000: the checksum is what the sum lacks to FFFF.
fn make_checksum_zero(packet: &mut [u8]) {
    let lacking = u32::from(ip_checksum(packet));
    let mut id = u32::from(get16(packet, 4)) + lacking;
    if id > 0xffff {
        id -= 0xffff;
    }
    put16(packet, 4, id as u16);
}

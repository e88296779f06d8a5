//! Random link packets and requests that no compressor sent, for generated scripts.

use crate::bytes::{ip_checksum, put16};
use crate::codes;
use crate::decompressor::{self, Status, Table};
use crate::flows;
use crate::mutant::Mutant;
use crate::prng::Prng;
use crate::udp_checksum;
use crate::{COMPRESSED_RTP, COMPRESSED_UDP, MAX_PACKET, MAX_REPEATS};

/// One difference code, rarely an unused one.
fn code(prng: &mut Prng) -> Vec<u8> {
    if prng.chance(1, 20) {
        return vec![0xc0, 0x3f, 0x80 | prng.byte()];
    }
    let values = [
        0, 1, 127, 128, 160, 16383, 16384, 65535, 65536, 4_194_303, -1, -128, -129, -16384,
    ];
    codes::encode(prng.pick(&values)).unwrap_or_default()
}

fn place_and_link(prng: &mut Prng, table: &Table) -> (u8, u8) {
    let live: Vec<usize> = (0..table.places.len())
        .filter(|&place| table.places[place].status == Status::Live)
        .collect();
    if live.is_empty() || prng.chance(1, 12) {
        let place = prng.below(usize::from(table.contexts) + 2) as u8;
        return (place, prng.byte() & 15);
    }
    let place = prng.pick(&live);
    let gap = if prng.chance(1, 10) {
        prng.below(16)
    } else {
        prng.between(1, usize::from(table.repeats) + 1)
    };
    let link = (usize::from(table.places[place].last_link) + gap) % 16;
    (place as u8, link as u8)
}

/// A CU or CR with fields as its flags announce, sometimes cut, rarely too long when rebuilt.
pub fn compressed(prng: &mut Prng, table: &Table) -> (u32, Vec<u8>) {
    let (place, link) = place_and_link(prng, table);
    let carried = table
        .places
        .get(usize::from(place))
        .is_some_and(|context| context.carried);
    let checksum: Vec<u8> = if carried {
        prng.pick(&[[0, 0], [0, 1], [0xff, 0xff]]).to_vec()
    } else {
        Vec::new()
    };
    let link_type = prng.pick(&[COMPRESSED_UDP, COMPRESSED_RTP]);
    let mut bytes = if link_type == COMPRESSED_UDP {
        compressed_udp(prng, link, &checksum)
    } else {
        compressed_rtp(prng, link, &checksum)
    };
    bytes.insert(0, place);
    if prng.chance(1, 60) {
        bytes.resize(prng.between(1440, 1500).max(bytes.len()), 0x55);
    } else if prng.chance(1, 4) {
        bytes.truncate(prng.between(1, bytes.len()));
    } else {
        let count = prng.below(5);
        bytes.extend(prng.bytes(count));
    }
    // Else hardly any would be taken after a gap.
    if prng.chance(4, 5) {
        put_right_checksum(table, link_type, &mut bytes);
    }
    (link_type, bytes)
}

/// What a CU or CR would rebuild if no gap were too long and no checksum were judged; none if it is refused for another
/// reason.
pub(crate) fn rebuilt(table: &Table, link_type: u32, bytes: &[u8]) -> Option<Vec<u8>> {
    let mut table = table.clone();
    table.repeats = MAX_REPEATS;
    let mut packet = vec![0; MAX_PACKET];
    let unjudged = Mutant::ChecksumNeverJudged;
    let answer = decompressor::receive_with(unjudged, &mut table, link_type, bytes, &mut packet);
    packet.truncate(answer.length);
    (answer.number == 0).then_some(packet)
}

/// Where the checksum stands in a CU or CR that carries one.
pub(crate) fn checksum_at(link_type: u32, bytes: &[u8]) -> usize {
    let second_byte = link_type == COMPRESSED_UDP && bytes[1] & 0x80 != 0;
    if second_byte {
        3
    } else {
        2
    }
}

/// Makes the checksum of a CU or CR, if it carries one, right for what it would rebuild.
fn put_right_checksum(table: &Table, link_type: u32, bytes: &mut [u8]) {
    let context = bytes
        .first()
        .and_then(|&place| table.places.get(usize::from(place)));
    if !context.is_some_and(|context| context.carried) {
        return;
    }
    if let Some(packet) = rebuilt(table, link_type, bytes) {
        let at = checksum_at(link_type, bytes);
        put16(bytes, at, udp_checksum::of_whole(&packet));
    }
}

pub(crate) fn compressed_rtp(prng: &mut Prng, link: u8, checksum: &[u8]) -> Vec<u8> {
    let mut flags = if prng.chance(1, 3) {
        0xf0
    } else {
        prng.byte() & 0xf0
    };
    let mut bytes = vec![flags | link];
    bytes.extend_from_slice(checksum);
    let mut cc = 0;
    if flags == 0xf0 {
        cc = list_length(prng);
        flags = prng.byte() & 0xf0;
        bytes.push(flags | cc);
    }
    for present in [0x10, 0x40, 0x20] {
        if flags & present != 0 {
            bytes.extend(code(prng));
        }
    }
    bytes.extend(prng.bytes(4 * usize::from(cc)));
    bytes
}

pub(crate) fn compressed_udp(prng: &mut Prng, link: u8, checksum: &[u8]) -> Vec<u8> {
    let flags = prng.byte() & 0xf0;
    let second = prng.byte() & 0xf0 | list_length(prng);
    let mut bytes = vec![flags | link];
    if flags & 0x80 != 0 {
        bytes.push(second);
    }
    bytes.extend_from_slice(checksum);
    for present in [0x10, 0x20] {
        if flags & present != 0 {
            bytes.extend(code(prng));
        }
    }
    if flags & 0x40 != 0 {
        bytes.extend(prng.bytes(2));
    }
    if flags & 0x80 == 0 {
        let version = if prng.chance(1, 10) {
            prng.byte() & 0xc0
        } else {
            0x80
        };
        bytes.push(version | second >> 2 & 0x30 | second & 15);
        bytes.extend(prng.bytes(11));
    } else {
        if second & 0x40 != 0 {
            bytes.extend(prng.bytes(2));
        }
        if second & 0x20 != 0 {
            bytes.extend(prng.bytes(4));
        }
        if second & 0x10 != 0 {
            bytes.push(prng.pick(&[0, 8, 96, 127, 128, 255]));
        }
    }
    bytes.extend(prng.bytes(4 * usize::from(second & 15)));
    bytes
}

/// A sent CU or CR as a compressor that knows no F would send it: the whole RTP header of the packet that
/// the table rebuilds of it, on the same context at the same link sequence, so that what was sent later still
/// follows it. I, dT and dI are left to chance. None if the table rebuilds nothing.
pub fn with_rtp_header(
    prng: &mut Prng,
    table: &Table,
    link_type: u32,
    sent: &[u8],
) -> Option<Vec<u8>> {
    if ![COMPRESSED_UDP, COMPRESSED_RTP].contains(&link_type) {
        return None;
    }
    let mut packet = [0; MAX_PACKET];
    let answer = decompressor::receive(&mut table.clone(), link_type, sent, &mut packet);
    if answer.number != 0 {
        return None;
    }
    let packet = &packet[..answer.length];
    let context = &table.places[usize::from(sent[0])];
    let mut flags = prng.byte() & 0x70;
    // Only where a timestamp difference is kept can a later one reset it.
    if context.timestamp_delta == 0 && prng.bit() {
        flags |= 0x20;
    }
    let mut bytes = vec![sent[0], flags | sent[1] & 15];
    if context.carried {
        bytes.extend(&packet[26..28]);
    }
    for present in [0x10, 0x20] {
        if flags & present != 0 {
            bytes.extend(code(prng));
        }
    }
    if flags & 0x40 != 0 {
        bytes.extend(&packet[4..6]);
    }
    let header = bytes.len();
    bytes.extend(&packet[28..]);
    match prng.below(40) {
        0 | 1 => bytes.truncate(prng.between(1, header + 11)),
        2 => bytes[header] ^= prng.pick(&[0x40, 0x80, 0xc0]),
        3 => bytes[1] = bytes[1] & 0xf0 | prng.byte() & 15,
        4 => bytes.resize(prng.between(1470, 1500), 0x55),
        _ => {}
    }
    Some(bytes)
}

fn list_length(prng: &mut Prng) -> u8 {
    prng.pick(&[0, 0, 0, 0, 1, 1, 2, 3, 15])
}

/// A packet turned into an FH by hand, sometimes with a form or a length spoiled.
pub fn full_header(prng: &mut Prng, table: &Table, mut packet: Vec<u8>) -> Vec<u8> {
    let contexts = usize::from(table.contexts);
    let place = if prng.chance(1, 10) {
        prng.between(contexts, 255)
    } else {
        prng.below(contexts)
    };
    let generation = prng.below(64);
    put16(&mut packet, 2, (0x4000 | generation << 8 | place) as u16);
    let link = prng.below(16);
    put16(&mut packet, 24, link as u16);
    match prng.below(24) {
        0 => packet[0] = 0x46,
        1 => packet[2] ^= prng.pick(&[0x40, 0x80, 0xc0]),
        2 => packet[24] = prng.pick(&[1, 0x80]),
        3 => packet[25] |= prng.pick(&[0x10, 0x80]),
        4 => packet[6] |= prng.pick(&[0x20, 0x01]),
        5 => packet[9] = 6,
        6 => packet[11] ^= 1,
        7 => packet[28] ^= prng.pick(&[0x40, 0x80]),
        8 => packet[28] |= 15,
        9 => packet[23] |= 1,
        10 => packet.truncate(prng.below(40)),
        11 => packet.push(0),
        _ => {}
    }
    // Half of the spoiled ones get a checksum that is right, so that one fault stands alone.
    if packet.len() >= 40 && prng.bit() {
        let mut ip = packet[..20].to_vec();
        put16(&mut ip, 2, packet.len() as u16);
        let checksum = ip_checksum(&ip);
        put16(&mut packet, 10, checksum);
    }
    packet
}

/// Flips, cuts or lengthens a link packet.
pub fn damage(prng: &mut Prng, mut bytes: Vec<u8>) -> Vec<u8> {
    match prng.below(4) {
        0 | 1 if !bytes.is_empty() => {
            let at = prng.below(bytes.len().min(48));
            bytes[at] ^= 1 << prng.below(8);
        }
        2 => bytes.truncate(prng.below(bytes.len().max(1))),
        _ => bytes.push(prng.byte()),
    }
    bytes
}

/// A context-state request: most are well formed, the rest have a fault or two.
pub fn request(prng: &mut Prng, contexts: u8) -> Vec<u8> {
    let count = prng.pick(&[1, 1, 1, 2, 2, 3, 5]);
    let mut bytes = vec![1, count];
    for _ in 0..count {
        let place = prng.below(usize::from(contexts).clamp(1, 8)) as u8;
        let top = if prng.chance(1, 5) { 0 } else { 0x80 };
        bytes.extend([place, top | prng.byte() & 15, prng.byte() & 63]);
    }
    while prng.chance(2, 5) {
        spoil_request(prng, &mut bytes, contexts);
    }
    bytes
}

fn spoil_request(prng: &mut Prng, bytes: &mut Vec<u8>, contexts: u8) {
    let records = bytes.len().saturating_sub(2) / 3;
    let record = 2 + 3 * prng.below(records);
    match prng.below(8) {
        0 if !bytes.is_empty() => bytes[0] = prng.pick(&[0, 2, 4, 255]),
        1 if bytes.len() > 1 => bytes[1] = prng.pick(&[0, 1, 2, 255]),
        2 => bytes.truncate(prng.below(bytes.len() + 1)),
        3 => bytes.push(prng.byte()),
        4 if records > 0 => bytes[record] = prng.pick(&[contexts, contexts.saturating_add(1), 255]),
        5 if records > 0 => bytes[record + 1] |= prng.pick(&[0x10, 0x20, 0x40]),
        6 if records > 0 => bytes[record + 2] |= prng.pick(&[0x40, 0x80]),
        _ => bytes.clear(),
    }
}

/// Bytes of no kind at all, rarely around the greatest length.
pub fn noise(prng: &mut Prng) -> Vec<u8> {
    let count = if prng.chance(1, 60) {
        prng.pick(&[1499, 1500, 1501, 1502, 4096])
    } else {
        prng.below(50)
    };
    let mut bytes = prng.bytes(count);
    if prng.bit() && !bytes.is_empty() {
        bytes[0] = prng.pick(&[0, 1, 0x45]);
    }
    bytes
}

/// A packet that only its length keeps from being compressible, or just not.
pub fn around_the_limit(prng: &mut Prng, flow: &flows::Flow) -> Vec<u8> {
    let front = crate::header::FIXED + 4 * usize::from(flow.header.fields.cc);
    let total = prng.pick(&[1499, 1500, 1501, 1600]);
    let payload = vec![prng.byte(); total - front];
    flows::packet(&flow.header, &payload)
}

//! The IPv4/UDP/RTP header: what a context keeps of it, which packets are compressible, and
//! building it again.

use crate::bytes::{get16, get32, ip_checksum, put16, put32};
use crate::mutant::Mutant;

/// Bytes of the three headers without a CSRC list.
pub const FIXED: usize = 40;
const IP: usize = 20;
const RTP: usize = 28;
pub const MAX_CSRC: usize = 15;

/// Header fields that both ends keep per context.
#[derive(Clone, Copy, Debug, Default, PartialEq, Eq)]
pub struct Fields {
    pub source: u32,
    pub destination: u32,
    pub sport: u16,
    pub dport: u16,
    pub ssrc: u32,
    pub tos: u8,
    pub ttl: u8,
    /// Reserved bit times 2 plus DF.
    pub flags: u8,
    pub padding: bool,
    pub extension: bool,
    pub id: u16,
    pub sequence: u16,
    pub timestamp: u32,
    pub payload: u8,
    pub cc: u8,
    pub csrc: [u32; MAX_CSRC],
}

/// A whole header: the kept fields and what changes freely from packet to packet.
#[derive(Clone, Copy, Debug, Default, PartialEq, Eq)]
pub struct Header {
    pub fields: Fields,
    pub marker: bool,
    pub udp_checksum: u16,
}

impl Fields {
    /// Ranges of the fields alone, and zeros past the CSRC list.
    pub fn sound(&self) -> bool {
        self.flags <= 3
            && self.payload <= 127
            && usize::from(self.cc) <= MAX_CSRC
            && self.csrc[usize::from(self.cc)..]
                .iter()
                .all(|&word| word == 0)
    }

    pub fn same_flow(&self, other: &Fields) -> bool {
        self.source == other.source
            && self.destination == other.destination
            && self.sport == other.sport
            && self.dport == other.dport
            && self.ssrc == other.ssrc
    }

    pub fn same_list(&self, other: &Fields) -> bool {
        self.cc == other.cc && self.csrc == other.csrc
    }
}

/// Length of the headers with the CSRC list that a packet of at least 40 bytes announces.
pub fn length_with_list(packet: &[u8]) -> usize {
    FIXED + 4 * usize::from(packet[RTP] & 0x0f)
}

pub fn not_fragmented(packet: &[u8]) -> bool {
    get16(packet, 6) & 0x3fff == 0
}

pub fn is_udp(packet: &[u8]) -> bool {
    packet[9] == 17
}

pub fn rtp_version_is_2(packet: &[u8]) -> bool {
    packet[RTP] >> 6 == 2
}

pub fn ip_checksum_right(mutant: Mutant, ip_header: &[u8]) -> bool {
    let right = ip_checksum(ip_header);
    let found = get16(ip_header, 10);
    found == right || (mutant == Mutant::ChecksumAllOnesRight && right == 0 && found == 0xffff)
}

/// The conditions a packet must meet to be compressed; any other goes plain.
pub fn compressible(mutant: Mutant, packet: &[u8]) -> bool {
    packet.len() >= FIXED
        && packet[0] == 0x45
        && usize::from(get16(packet, 2)) == packet.len()
        && not_fragmented(packet)
        && is_udp(packet)
        && ip_checksum_right(mutant, packet)
        && usize::from(get16(packet, IP + 4)) == packet.len() - IP
        && get16(packet, IP + 2) & 1 == 0
        && rtp_version_is_2(packet)
        && length_with_list(packet) <= packet.len()
}

/// Reads the headers of a packet whose whole CSRC list is there.
pub fn parse(packet: &[u8]) -> Header {
    let cc = packet[RTP] & 0x0f;
    let mut csrc = [0; MAX_CSRC];
    for (place, word) in csrc.iter_mut().enumerate().take(usize::from(cc)) {
        *word = get32(packet, FIXED + 4 * place);
    }
    Header {
        fields: Fields {
            source: get32(packet, 12),
            destination: get32(packet, 16),
            sport: get16(packet, IP),
            dport: get16(packet, IP + 2),
            ssrc: get32(packet, RTP + 8),
            tos: packet[1],
            ttl: packet[8],
            flags: packet[6] >> 6,
            padding: packet[RTP] & 0x20 != 0,
            extension: packet[RTP] & 0x10 != 0,
            id: get16(packet, 4),
            sequence: get16(packet, RTP + 2),
            timestamp: get32(packet, RTP + 4),
            payload: packet[RTP + 1] & 0x7f,
            cc,
            csrc,
        },
        marker: packet[RTP + 1] & 0x80 != 0,
        udp_checksum: get16(packet, IP + 6),
    }
}

/// Builds the headers for a packet with `rest` bytes after the CSRC list, computing the IP checksum
/// and both lengths. The whole must fit 16 bits of length.
pub fn build(header: &Header, rest: usize) -> Vec<u8> {
    let fields = &header.fields;
    let cc = usize::from(fields.cc);
    let mut bytes = vec![0; FIXED + 4 * cc];
    let total = (bytes.len() + rest) as u16;
    bytes[0] = 0x45;
    bytes[1] = fields.tos;
    put16(&mut bytes, 2, total);
    put16(&mut bytes, 4, fields.id);
    bytes[6] = fields.flags << 6;
    bytes[8] = fields.ttl;
    bytes[9] = 17;
    put32(&mut bytes, 12, fields.source);
    put32(&mut bytes, 16, fields.destination);
    let checksum = ip_checksum(&bytes);
    put16(&mut bytes, 10, checksum);
    put16(&mut bytes, IP, fields.sport);
    put16(&mut bytes, IP + 2, fields.dport);
    put16(&mut bytes, IP + 4, total - IP as u16);
    put16(&mut bytes, IP + 6, header.udp_checksum);
    bytes[RTP] = 0x80 | u8::from(fields.padding) << 5 | u8::from(fields.extension) << 4 | fields.cc;
    bytes[RTP + 1] = u8::from(header.marker) << 7 | fields.payload;
    put16(&mut bytes, RTP + 2, fields.sequence);
    put32(&mut bytes, RTP + 4, fields.timestamp);
    put32(&mut bytes, RTP + 8, fields.ssrc);
    for (place, word) in fields.csrc[..cc].iter().enumerate() {
        put32(&mut bytes, FIXED + 4 * place, *word);
    }
    bytes
}

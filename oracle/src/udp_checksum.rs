//! The UDP checksum of a whole packet (RFC 768). It shows whether a packet rebuilt over a gap is the one that
//! went in (change request 5).

use crate::bytes::get16;
use crate::header::FIXED;
use crate::mutant::Mutant;

/// Where the IP header ends.
const IP: usize = 20;
/// Where the checksum stands in a packet.
pub const CHECKSUM: usize = IP + 6;

/// The checksum that a packet must carry, given as its headers (IP to the CSRC list) and what follows them: a
/// pseudo-header, the UDP header without its checksum and all data are summed, and the folded sum is inverted. 0000
/// would mean that there is no checksum, so FFFF stands for it.
pub fn of_packet(mutant: Mutant, headers: &[u8], rest: &[u8]) -> u16 {
    let mut summed = pseudo_header(mutant, headers);
    summed.extend_from_slice(&headers[IP..]);
    let data = match mutant {
        // What RFC 3545 sums for flows without a checksum: no data past the fixed RTP header.
        Mutant::SumsFixedHeadersOnly => {
            summed.truncate(12 + 20);
            &[]
        }
        _ => rest,
    };
    if mutant != Mutant::SumsCarriedChecksum {
        let checksum = 12 + CHECKSUM - IP;
        summed[checksum..checksum + 2].fill(0);
    }
    summed.extend_from_slice(data);
    let checksum = !folded_sum(mutant, &summed);
    if checksum == 0 && mutant != Mutant::SumZeroStaysZero {
        return 0xffff;
    }
    checksum
}

/// The same for a packet of at least 40 bytes in one piece.
pub fn of_whole(packet: &[u8]) -> u16 {
    of_packet(Mutant::None, &packet[..FIXED], &packet[FIXED..])
}

/// Whether the checksum that a packet carries is the one above; 0000 never is.
pub fn right(mutant: Mutant, headers: &[u8], rest: &[u8]) -> bool {
    let carried = get16(headers, CHECKSUM);
    let wanted = of_packet(mutant, headers, rest);
    match mutant {
        Mutant::CarriedZeroRight if carried == 0 => true,
        // A sum with the checksum in it comes out FFFF with either of the two.
        Mutant::ZeroRightBesideAllOnes if carried == 0 => wanted == 0xffff,
        _ => carried == wanted,
    }
}

/// Both addresses, a zero byte, the protocol and the UDP length.
fn pseudo_header(mutant: Mutant, headers: &[u8]) -> Vec<u8> {
    let mut bytes = headers[12..IP].to_vec();
    bytes.extend([0, headers[9]]);
    bytes.extend(&headers[IP + 4..IP + 6]);
    match mutant {
        Mutant::SumWithoutAddresses => bytes[..8].fill(0),
        Mutant::SumWithoutProtocol => bytes[9] = 0,
        Mutant::SumWithoutLength => bytes[10..].fill(0),
        _ => {}
    }
    bytes
}

/// The words' sum, carries added in again. A last byte without a partner is the upper half of a word.
fn folded_sum(mutant: Mutant, bytes: &[u8]) -> u16 {
    let mut sum: u32 = 0;
    for word in bytes.chunks(2) {
        sum += match (word, mutant) {
            ([upper, lower], _) => u32::from(*upper) << 8 | u32::from(*lower),
            (_, Mutant::OddByteDropped) => 0,
            ([byte, ..], Mutant::OddByteLow) => u32::from(*byte),
            ([upper, ..], _) => u32::from(*upper) << 8,
            ([], _) => 0,
        };
    }
    while sum > 0xffff {
        sum = (sum & 0xffff) + (sum >> 16);
    }
    sum as u16
}

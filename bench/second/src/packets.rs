//! The packets of the benchmark: steady voice streams, whose first packet alone has the marker.

pub const PACKET: usize = 200;
pub const PAYLOAD: usize = 160;
/// Packets in a batch.
pub const BATCH: usize = 64;

/// Places for 64 packets, in one buffer.
pub type Buffer = [[u8; PACKET]; BATCH];

/// Makes the packets of a batch: the streams take turns, packet by packet.
pub fn make_batch(streams: u32, batch: u32, buffer: &mut Buffer) {
    for (place, packet) in (batch * BATCH as u32..).zip(buffer) {
        make(place % streams, place / streams, packet);
    }
}

/// Makes packet number `n` of stream `j`. Fields keep their low bits.
fn make(j: u32, n: u32, packet: &mut [u8; PACKET]) {
    let (headers, payload) = packet.split_at_mut(PACKET - PAYLOAD);
    let (ip, rest) = headers.split_at_mut(20);
    let (udp, rtp) = rest.split_at_mut(8);
    make_ip(j, n, ip);
    make_udp(j, udp);
    make_rtp(j, n, rtp);
    for (i, byte) in (0..).zip(payload) {
        *byte = (i + j) as u8;
    }
}

fn make_ip(j: u32, n: u32, ip: &mut [u8]) {
    let dont_fragment = 0x4000;
    ip[0] = 0x45;
    ip[1] = 0xB8;
    put16(ip, 2, PACKET as u16);
    put16(ip, 4, (1000 * j + n) as u16);
    put16(ip, 6, dont_fragment);
    ip[8] = 64;
    ip[9] = 17;
    put16(ip, 10, 0);
    ip[12..16].copy_from_slice(&[10, 0, 0, (1 + j) as u8]);
    ip[16..20].copy_from_slice(&[10, 0, 1, 1]);
    let checksum = checksum(ip);
    put16(ip, 10, checksum);
}

/// The checksum of an IP header whose checksum field is 0. Worked out here and not by the oracle:
/// it is the oracle that is to find it right.
fn checksum(ip: &[u8]) -> u16 {
    let sum: u32 = ip
        .chunks_exact(2)
        .map(|word| u32::from(u16::from_be_bytes([word[0], word[1]])))
        .sum();
    let folded = (sum & 0xffff) + (sum >> 16);
    !((folded + (folded >> 16)) as u16)
}

fn make_udp(j: u32, udp: &mut [u8]) {
    put16(udp, 0, (4000 + 2 * j) as u16);
    put16(udp, 2, 5004);
    put16(udp, 4, PACKET as u16 - 20);
    put16(udp, 6, 0);
}

fn make_rtp(j: u32, n: u32, rtp: &mut [u8]) {
    rtp[0] = 2 << 6;
    rtp[1] = u8::from(n == 0) << 7;
    put16(rtp, 2, (100 * j + n) as u16);
    put32(rtp, 4, 16000 * j + 160 * n);
    put32(rtp, 8, 0x1000 + j);
}

fn put16(bytes: &mut [u8], at: usize, value: u16) {
    bytes[at..at + 2].copy_from_slice(&value.to_be_bytes());
}

fn put32(bytes: &mut [u8], at: usize, value: u32) {
    bytes[at..at + 4].copy_from_slice(&value.to_be_bytes());
}

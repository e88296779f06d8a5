//! What judging a UDP checksum over a gap costs: the same arrival with a checksum and without one.
//!
//! A FULL_HEADER sets a context, and a COMPRESSED_RTP two steps on comes at a copy of that table
//! again and again. It is a copy each time because an arrival moves its context on: at one and the
//! same table the second of them would have no step to it. The lines with and without a checksum
//! differ in the judging and in two bytes of the link packet, so that their times tell its cost.

use crate::sums::sum;
use oracle::decompressor::{self, Table};
use oracle::{COMPRESSED_RTP, FULL_HEADER};
use std::hint::black_box;
use std::time::{Duration, Instant};

const TIMED_ROUNDS: usize = 9;
/// Arrivals in a round.
const CALLS: u32 = 32_000;
const REPEATS: u32 = 2;
const CONTEXTS: u32 = 64;
/// Bytes of the IP, UDP and RTP headers.
const HEADERS: usize = 40;

pub struct Case {
    /// Size of the packet.
    pub bytes: usize,
    /// Whether the flow has UDP checksums; only then is one judged.
    pub carried: bool,
}

pub const CASES: [Case; 4] = [
    Case {
        bytes: 200,
        carried: false,
    },
    Case {
        bytes: 200,
        carried: true,
    },
    Case {
        bytes: 1500,
        carried: false,
    },
    Case {
        bytes: 1500,
        carried: true,
    },
];

/// What every call of a round is given.
struct Arrival {
    /// As the FULL_HEADER left it.
    table: Table,
    /// The COMPRESSED_RTP.
    link: Vec<u8>,
    /// Size of the packet, and of the output.
    bytes: usize,
}

/// What came of a round; the same in every round of a case.
#[derive(PartialEq, Eq, Debug)]
struct Outcome {
    /// Calls accepted with a packet of the right size.
    accepted: u32,
    /// The output after the last call.
    output: Vec<u8>,
}

pub fn line(case: &Case, timed: bool) -> String {
    let arrival = prepare(case);
    let (outcome, mut time) = run(&arrival);
    let told = told_outcome(case, &outcome);
    if !timed {
        return told;
    }
    for _ in 1..TIMED_ROUNDS {
        let (again, more) = run(&arrival);
        assert_eq!(again, outcome, "two rounds differ");
        time = time.min(more);
    }
    let receive = time.as_nanos() * 1000 / u128::from(CALLS);
    format!("{told} receive={receive}")
}

fn told_outcome(case: &Case, outcome: &Outcome) -> String {
    let Case { bytes, carried } = case;
    let carried = u8::from(*carried);
    let Outcome { accepted, output } = outcome;
    let last = sum(0, output);
    format!("bytes={bytes} carried={carried} calls={CALLS} accepted={accepted} last={last}")
}

// A round

fn run(arrival: &Arrival) -> (Outcome, Duration) {
    let mut output = vec![0; arrival.bytes];
    let before = Instant::now();
    let accepted = round(arrival, CALLS, &mut output);
    let time = before.elapsed();
    (Outcome { accepted, output }, time)
}

/// The black boxes hide from the compiler that every call is given the same and that nobody looks
/// at what all but the last of them leave, so that none is left out, and no copy of the table.
fn round(arrival: &Arrival, calls: u32, output: &mut [u8]) -> u32 {
    let mut accepted = 0;
    for _ in 0..calls {
        let Arrival { table, link, bytes } = black_box(arrival);
        let mut table = table.clone();
        let answer = decompressor::receive(
            black_box(&mut table),
            COMPRESSED_RTP,
            link,
            black_box(&mut *output),
        );
        black_box(&table);
        accepted += u32::from(answer.number == 0 && answer.length == *bytes);
    }
    accepted
}

// The packets

fn prepare(case: &Case) -> Arrival {
    let bytes = case.bytes;
    Arrival {
        table: opened(&full_header(case), bytes),
        link: compressed_rtp(case),
        bytes,
    }
}

/// A table that has taken a FULL_HEADER.
fn opened(full_header: &[u8], bytes: usize) -> Table {
    let mut table = Table::unopened();
    let opening = decompressor::open(&mut table, REPEATS, CONTEXTS);
    assert_eq!(opening.number, 0, "the opening refused");
    let mut output = vec![0; bytes];
    let answer = decompressor::receive(&mut table, FULL_HEADER, full_header, &mut output);
    assert_eq!(answer.number, 0, "the FULL_HEADER refused");
    table
}

/// The first packet, with the link's own numbers where the lengths were. The IP checksum stays that
/// of the packet with its lengths. No FULL_HEADER is judged, so that any checksum but 0000 will do
/// to say that the flow has checksums.
fn full_header(case: &Case) -> Vec<u8> {
    let udp_checksum = if case.carried { 0xFFFF } else { 0x0000 };
    let mut link = packet(case.bytes, 1000, 100, udp_checksum);
    // 01, generation 0 in six bits, context 0 in eight.
    put16(&mut link, 2, 0x4000);
    // Twelve bits of 0, link sequence 0 in four.
    put16(&mut link, 24, 0x0000);
    link
}

/// The packet two steps on, which is all guessed but for its payload and its checksum, if any.
fn compressed_rtp(case: &Case) -> Vec<u8> {
    let context = 0;
    let msti = 0b0000;
    let link_sequence = 2;
    let mut link = vec![context, msti << 4 | link_sequence];
    let packet = rebuilt(case);
    if case.carried {
        link.extend(&packet[26..28]);
    }
    link.extend(&packet[HEADERS..]);
    link
}

/// What the COMPRESSED_RTP is to be rebuilt to: ID and RTP sequence have gone on by one twice, the
/// timestamp by nothing.
fn rebuilt(case: &Case) -> Vec<u8> {
    let mut packet = packet(case.bytes, 1002, 102, 0x0000);
    if case.carried {
        let checksum = udp_checksum(&packet);
        put16(&mut packet, 26, checksum);
    }
    packet
}

/// A packet of so many bytes, all of whose payload is 0.
fn packet(bytes: usize, id: u16, sequence: u16, udp_checksum: u16) -> Vec<u8> {
    let mut packet = vec![0; bytes];
    let (ip, rest) = packet.split_at_mut(20);
    let (udp, rtp) = rest.split_at_mut(8);
    // Version 4, header of 5 words, TOS.
    ip[..2].copy_from_slice(&[0x45, 0xB8]);
    put16(ip, 2, bytes as u16);
    put16(ip, 4, id);
    // DF alone, TTL, protocol UDP.
    ip[6..10].copy_from_slice(&[0x40, 0x00, 64, 17]);
    ip[12..].copy_from_slice(&[10, 0, 0, 1, 10, 0, 1, 1]);
    let checksum = !sum(0, ip);
    put16(ip, 10, checksum);
    put16(udp, 0, 4000);
    put16(udp, 2, 5004);
    put16(udp, 4, bytes as u16 - 20);
    put16(udp, 6, udp_checksum);
    // Version 2 alone; then neither marker nor payload type.
    rtp[..2].copy_from_slice(&[0x80, 0x00]);
    put16(rtp, 2, sequence);
    rtp[4..8].copy_from_slice(&16000_u32.to_be_bytes());
    rtp[8..12].copy_from_slice(&0x1000_u32.to_be_bytes());
    packet
}

fn put16(bytes: &mut [u8], at: usize, value: u16) {
    bytes[at..at + 2].copy_from_slice(&value.to_be_bytes());
}

/// The UDP checksum of a packet whose checksum field is 0: the sum of addresses, protocol, UDP
/// length and the whole of UDP, inverted. Worked out here and not by the oracle: it is the oracle
/// that is to find it right. That FFFF would stand for 0000 has no part in these packets.
fn udp_checksum(packet: &[u8]) -> u16 {
    let addresses = sum(0, &packet[12..20]);
    let protocol = sum(addresses, &[0, packet[9]]);
    let length = sum(protocol, &packet[24..26]);
    !sum(length, &packet[20..])
}

#[cfg(test)]
mod tests {
    use super::*;
    use oracle::decompressor::Status;
    use oracle::refusal::Answer;

    /// The rebuilt headers of each case, every byte written out.
    ///
    /// IP checksum, 200 bytes: 45B8 + 00C8 + 03EA + 4000 + 4011 + 0A00 + 0001 + 0A00 + 0101 = DF7D,
    /// inverted 2082. 1,500 bytes have 05DC for 00C8, which is 0514 more: E491, inverted 1B6E.
    ///
    /// UDP checksum, 200 bytes: addresses 0A00 + 0001 + 0A00 + 0101 = 1502, protocol and length
    /// 0011 + 00B4 = 00C5, UDP header 0FA0 + 138C + 00B4 = 23E0, RTP header 8000 + 0066 + 0000 +
    /// 3E80 + 0000 + 1000 = CEE6, payload 0000. 1502 + 00C5 + 23E0 + CEE6 = 1088D; 088D + 1 = 088E,
    /// inverted F771. 1,500 bytes have 05C8 for 00B4 twice, which is 0A28 more: 112B5; 12B5 + 1 =
    /// 12B6, inverted ED49.
    #[rustfmt::skip]
    const REBUILT: [[u8; HEADERS]; 4] = [
        [
            0x45, 0xB8, 0x00, 0xC8, 0x03, 0xEA, 0x40, 0x00, 0x40, 0x11, 0x20, 0x82,
            0x0A, 0x00, 0x00, 0x01, 0x0A, 0x00, 0x01, 0x01,
            0x0F, 0xA0, 0x13, 0x8C, 0x00, 0xB4, 0x00, 0x00,
            0x80, 0x00, 0x00, 0x66, 0x00, 0x00, 0x3E, 0x80, 0x00, 0x00, 0x10, 0x00,
        ],
        [
            0x45, 0xB8, 0x00, 0xC8, 0x03, 0xEA, 0x40, 0x00, 0x40, 0x11, 0x20, 0x82,
            0x0A, 0x00, 0x00, 0x01, 0x0A, 0x00, 0x01, 0x01,
            0x0F, 0xA0, 0x13, 0x8C, 0x00, 0xB4, 0xF7, 0x71,
            0x80, 0x00, 0x00, 0x66, 0x00, 0x00, 0x3E, 0x80, 0x00, 0x00, 0x10, 0x00,
        ],
        [
            0x45, 0xB8, 0x05, 0xDC, 0x03, 0xEA, 0x40, 0x00, 0x40, 0x11, 0x1B, 0x6E,
            0x0A, 0x00, 0x00, 0x01, 0x0A, 0x00, 0x01, 0x01,
            0x0F, 0xA0, 0x13, 0x8C, 0x05, 0xC8, 0x00, 0x00,
            0x80, 0x00, 0x00, 0x66, 0x00, 0x00, 0x3E, 0x80, 0x00, 0x00, 0x10, 0x00,
        ],
        [
            0x45, 0xB8, 0x05, 0xDC, 0x03, 0xEA, 0x40, 0x00, 0x40, 0x11, 0x1B, 0x6E,
            0x0A, 0x00, 0x00, 0x01, 0x0A, 0x00, 0x01, 0x01,
            0x0F, 0xA0, 0x13, 0x8C, 0x05, 0xC8, 0xED, 0x49,
            0x80, 0x00, 0x00, 0x66, 0x00, 0x00, 0x3E, 0x80, 0x00, 0x00, 0x10, 0x00,
        ],
    ];

    fn expected(headers: &[u8; HEADERS], bytes: usize) -> Vec<u8> {
        let mut packet = headers.to_vec();
        packet.resize(bytes, 0);
        packet
    }

    /// One call at a copy of the table: its answer, the output, and the table after it.
    fn once(arrival: &Arrival) -> (Answer, Vec<u8>, Table) {
        let mut table = arrival.table.clone();
        let mut output = vec![0; arrival.bytes];
        let answer = decompressor::receive(&mut table, COMPRESSED_RTP, &arrival.link, &mut output);
        (answer, output, table)
    }

    fn cases(carried: bool) -> impl Iterator<Item = &'static Case> {
        CASES.iter().filter(move |case| case.carried == carried)
    }

    #[test]
    fn checksums_as_worked_out_by_hand() {
        for (bytes, by_hand) in [(200, 0xF771), (1500, 0xED49)] {
            assert_eq!(udp_checksum(&packet(bytes, 1002, 102, 0)), by_hand);
        }
        for (case, headers) in CASES.iter().zip(&REBUILT) {
            assert_eq!(rebuilt(case), expected(headers, case.bytes));
        }
    }

    #[test]
    fn link_packets() {
        // IP checksum: as that of the rebuilt packet, but ID 03E8 is 2 less, so that it is 2 more.
        let full = full_header(&CASES[1]);
        assert_eq!(full.len(), 200);
        assert_eq!(full[..6], [0x45, 0xB8, 0x40, 0x00, 0x03, 0xE8]);
        assert_eq!(full[10..12], [0x20, 0x84]);
        assert_eq!(full[24..28], [0x00, 0x00, 0xFF, 0xFF]);
        assert_eq!(full[28..32], [0x80, 0x00, 0x00, 0x64]);
        assert_eq!(full_header(&CASES[0])[24..28], [0; 4]);
        let starts: [&[u8]; 4] = [
            &[0x00, 0x02],
            &[0x00, 0x02, 0xF7, 0x71],
            &[0x00, 0x02],
            &[0x00, 0x02, 0xED, 0x49],
        ];
        for (case, start) in CASES.iter().zip(starts) {
            let payload = vec![0; case.bytes - HEADERS];
            assert_eq!(compressed_rtp(case), [start, &payload].concat());
        }
    }

    #[test]
    fn all_calls_accepted() {
        for (case, headers) in CASES.iter().zip(&REBUILT) {
            let (outcome, _) = run(&prepare(case));
            assert_eq!(outcome.accepted, 32_000);
            assert_eq!(outcome.output, expected(headers, case.bytes));
        }
    }

    #[test]
    fn lines() {
        // The words of an IP header come to FFFF, which changes no sum but 0. UDP and RTP headers
        // of 200 bytes: 23E0 + CEE6 = F2C6 = 62150; with F771, 1EA37; EA37 + 1 = EA38 = 59960. Of
        // 1,500 bytes, 0514 more: F7DA = 63450; with ED49, 1E523; E523 + 1 = E524 = 58660.
        let by_hand = [
            "bytes=200 carried=0 calls=32000 accepted=32000 last=62150",
            "bytes=200 carried=1 calls=32000 accepted=32000 last=59960",
            "bytes=1500 carried=0 calls=32000 accepted=32000 last=63450",
            "bytes=1500 carried=1 calls=32000 accepted=32000 last=58660",
        ];
        assert_eq!(CASES.map(|case| line(&case, false)), by_hand);
        for (case, by_hand) in CASES.iter().zip(by_hand) {
            let timed = line(case, true);
            let (told, time) = timed.split_once(" receive=").expect("a time");
            assert_eq!(told, by_hand);
            assert!(time.parse::<u64>().expect("a number") > 0);
        }
    }

    /// Why every call is given a copy: 9 is a step that is not from 1 to 3.
    #[test]
    fn a_second_arrival_at_the_same_table_is_refused() {
        for case in &CASES {
            let mut arrival = prepare(case);
            arrival.table = once(&arrival).2;
            assert_eq!(once(&arrival).0.number, 9);
            assert_eq!(round(&arrival, 100, &mut vec![0; case.bytes]), 0);
        }
    }

    #[test]
    fn one_bit_off_in_the_checksum_is_refused() {
        for case in cases(true) {
            for bit in 0..16 {
                let mut arrival = prepare(case);
                arrival.link[2 + bit / 8] ^= 0x80 >> (bit % 8);
                let (answer, _, table) = once(&arrival);
                assert_eq!((answer.number, answer.length), (12, 0));
                assert_eq!(table.places[0].status, Status::Broken);
                let mut output = vec![0; case.bytes];
                assert_eq!(round(&arrival, 100, &mut output), 0);
                assert!(output.iter().all(|&byte| byte == 0));
            }
        }
    }

    /// A bit of the payload changes what the checksum must be, so that it shows what is judged.
    #[test]
    fn nothing_is_judged_where_no_checksum_is_carried() {
        for case in &CASES {
            for place in [HEADERS, HEADERS + 1, case.bytes - 1] {
                let mut arrival = prepare(case);
                let from_end = case.bytes - place;
                let in_link = arrival.link.len() - from_end;
                arrival.link[in_link] ^= 0x10;
                let (answer, output, _) = once(&arrival);
                if case.carried {
                    assert_eq!(answer.number, 12);
                    continue;
                }
                assert_eq!((answer.number, answer.length), (0, case.bytes));
                // 0000, which would be no right checksum of any packet.
                assert_eq!(output[26..28], [0, 0]);
                let mut wanted = rebuilt(case);
                wanted[place] ^= 0x10;
                assert_eq!(output, wanted);
            }
        }
    }
}

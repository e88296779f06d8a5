//! The two packet sequences that RFC 3545 publishes for N = 2 (source 004, section 2.3.1).
//!
//! The publication gives sequence numbers, timestamps, packet types and CU flags. Filled in here:
//! context 0, blank UDP checksum, payload type 0, no CSRC list, two bytes of data, M set on the first
//! packet of each talkspurt (1 and 101), and the IP IDs. First sequence: IDs 1000 + 3 i i, so that no
//! step is 1 and no step repeats the one before. Second sequence: IDs 1000 + 3 i, a constant step of 3.

use crate::support::{same, voice, Ends, Outcome, Voice};
use oracle::mutant::Mutant;

checks!(
    irregular_ids,
    constant_id_step,
    irregular_ids_with_two_lost,
    constant_id_step_with_two_lost,
);

const LAST: u16 = 120;

fn timestamp(number: u16) -> u32 {
    if number <= 100 {
        10 * u32::from(number)
    } else {
        3010 + 10 * u32::from(number - 101)
    }
}

fn packet(number: u16, id: u16) -> Voice {
    let mut packet = voice(id, number, timestamp(number));
    packet.marker = number == 1 || number == 101;
    packet
}

fn irregular(number: u16) -> Voice {
    packet(number, 1000 + 3 * number * number)
}

fn regular(number: u16) -> Voice {
    packet(number, 1000 + 3 * number)
}

/// Type and bytes of the first published sequence. I always; T in 4 to 6 with dT = 10, and in 101 to
/// 103 without.
fn irregular_wanted(number: u16, packet: &Voice) -> (u32, Vec<u8>) {
    let link = ((number - 1) % 16) as u8;
    if number <= 3 {
        return (1, packet.full_header(0, 0, link));
    }
    let id = packet.id.to_be_bytes();
    let time = packet.timestamp.to_be_bytes();
    let mut bytes = match number {
        4..=6 => [&[0, 0xe0 + link, 0x20, 10][..], &id, &time].concat(),
        101 => [&[0, 0xc0 + link, 0xa0][..], &id, &time].concat(),
        102 | 103 => [&[0, 0xc0 + link, 0x20][..], &id, &time].concat(),
        _ => [&[0, 0xc0 + link, 0x00][..], &id].concat(),
    };
    bytes.extend(&packet.data);
    (2, bytes)
}

/// The second: I, dI, T and dT in 4 to 6, T in 101 to 103, CR otherwise.
fn regular_wanted(number: u16, packet: &Voice) -> (u32, Vec<u8>) {
    let link = ((number - 1) % 16) as u8;
    if number <= 3 {
        return (1, packet.full_header(0, 0, link));
    }
    let id = packet.id.to_be_bytes();
    let time = packet.timestamp.to_be_bytes();
    let (link_type, mut bytes) = match number {
        4..=6 => (2, [&[0, 0xf0 + link, 0x20, 3, 10][..], &id, &time].concat()),
        101 => (2, [&[0, 0x80 + link, 0xa0][..], &time].concat()),
        102 | 103 => (2, [&[0, 0x80 + link, 0x20][..], &time].concat()),
        _ => (3, vec![0, link]),
    };
    bytes.extend(&packet.data);
    (link_type, bytes)
}

/// Sends the sequence, compares every link packet, and lets those arrive that are not lost.
fn run(
    mutant: Mutant,
    packets: fn(u16) -> Voice,
    wanted: fn(u16, &Voice) -> (u32, Vec<u8>),
    lost: fn(u16) -> bool,
) -> Outcome {
    let mut ends = Ends::open(mutant, 2, 1);
    for number in 1..=LAST {
        let packet = packets(number);
        let found = ends.link_packet(&packet)?;
        same(
            &format!("packet {number}"),
            &found,
            &wanted(number, &packet),
        )?;
        if !lost(number) {
            ends.rebuilds(found.0, &found.1, &packet)
                .map_err(|what| format!("packet {number}: {what}"))?;
        }
    }
    Ok(())
}

pub fn irregular_ids(mutant: Mutant) -> Outcome {
    run(mutant, irregular, irregular_wanted, |_| false)
}

pub fn constant_id_step(mutant: Mutant) -> Outcome {
    run(mutant, regular, regular_wanted, |_| false)
}

/// Only every third packet arrives, in each of the three ways.
pub fn irregular_ids_with_two_lost(mutant: Mutant) -> Outcome {
    run(mutant, irregular, irregular_wanted, |number| {
        number % 3 != 0
    })?;
    run(mutant, irregular, irregular_wanted, |number| {
        number % 3 != 1
    })?;
    run(mutant, irregular, irregular_wanted, |number| {
        number % 3 != 2
    })
}

pub fn constant_id_step_with_two_lost(mutant: Mutant) -> Outcome {
    run(mutant, regular, regular_wanted, |number| number % 3 != 0)?;
    run(mutant, regular, regular_wanted, |number| number % 3 != 1)?;
    run(mutant, regular, regular_wanted, |number| number % 3 != 2)
}

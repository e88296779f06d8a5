//! UDP checksums judged over a gap: sums worked by hand, the order of refusals, and what a wrong checksum leaves.
//!
//! The packets are `voice` from the support: addresses 0a000001 and 0a000002, ports 138c and 138e, SSRC 11223344. With
//! two bytes of data the UDP length is 16 hex. All words but sequence, timestamp and data sum up so:
//! 0a00+0001+0a00+0002 = 1403, protocol and length +0011+0016 = 142a, UDP header +138c+138e+0016 = 3b5a,
//! RTP +8000+1122+3344 = ffc0.

use crate::support::{ensure, hex, same, udp_checksum_of, voice, Ends, Given, Outcome, Voice};
use oracle::decompressor::{Status, Table};
use oracle::mutant::Mutant;

checks!(
    sums_by_hand,
    sum_of_zero,
    every_wrong_bit,
    a_sum_covers_the_packet,
    kinds_of_packets,
    gap_of_one_is_not_judged,
    full_headers_are_not_judged,
    blank_contexts_are_not_judged,
    every_gap,
    fourteen_lost,
    order_of_refusals,
    fields_come_first,
    a_wrong_checksum_breaks_the_context,
    other_contexts_stay,
    the_guess_itself_is_summed,
    right_after_gaps_goes_on,
);

/// One change to a table, for tables of changes.
type Change = fn(&mut Table);

/// The packet of an FH at link sequence 0; its checksum is not right for it.
fn first() -> Voice {
    Voice {
        udp_checksum: 0x7777,
        ..voice(100, 10, 1000)
    }
}

fn ready_with(mutant: Mutant, first: &Voice, repeats: u32) -> Result<Ends, String> {
    let mut ends = Ends::open(mutant, repeats, 2);
    ends.fill(first, 0, 7, 0)?;
    Ok(ends)
}

/// N 2, K 2, context 0 live at link sequence 0, generation 7.
fn ready(mutant: Mutant) -> Result<Ends, String> {
    ready_with(mutant, &first(), 2)
}

/// Two packets after the first, so sequence 12 and timestamp 1000: c and 3e8.
fn third() -> Voice {
    voice(102, 12, 1000)
}

/// 12 with any room; the context breaks and keeps everything else, and nothing is written.
fn disproved(what: &str, ends: &Ends, link_type: u32, bytes: &[u8]) -> Outcome {
    for room in [0, 1, 40, 1500, 4096] {
        let mut ends = ends.clone();
        let mut wanted = ends.decompressor.clone();
        wanted.places[usize::from(bytes[0])].status = Status::Broken;
        let refused = Given {
            number: 12,
            link_type: 0,
            bytes: Vec::new(),
        };
        same(what, ends.receive(link_type, bytes, room)?, refused)?;
        let table = ends.decompressor == wanted;
        ensure(&format!("{what}: wrong table, room {room}"), table)?;
    }
    Ok(())
}

/// Each by CR over a gap of 2: right is rebuilt, every other number below refused.
pub fn sums_by_hand(mutant: Mutant) -> Outcome {
    // ffc0+000c+03e8+da7a = 1de2e, folded de2f.
    let even = Voice {
        udp_checksum: 0x21d0,
        ..third()
    };
    // Three bytes of data: the length 17 counts twice, and the last byte is 7e00: ffc2+000c+03e8+da7a+7e00 = 25c30,
    // folded 5c32.
    let odd = Voice {
        udp_checksum: 0xa3cd,
        data: hex("da7a7e"),
        ..third()
    };
    // No data: ffc0 less twice 2, that is ffbc+000c+03e8 = 103b0, folded 03b1.
    let none = Voice {
        udp_checksum: 0xfc4e,
        data: Vec::new(),
        ..third()
    };
    // One byte: ffbe+000c+03e8+ff00 = 202b2, folded 02b4.
    let single = Voice {
        udp_checksum: 0xfd4b,
        data: hex("ff"),
        ..third()
    };
    // 1,460 bytes, 730 words of 0102, which sum up to 2dfb4; the UDP length is 5c8 in place of 16, twice:
    // ffc0-002c+0b90 = 10b24. 10b24+000c+03e8+2dfb4 = 3eecc, folded eecf.
    let longest = Voice {
        udp_checksum: 0x1130,
        data: hex("0102").repeat(730),
        ..third()
    };
    // One byte less: length 5c7 twice, the last word 0100: eecc-2-2 in place of eecc, so eecb after folding.
    let odd_long = Voice {
        udp_checksum: 0x1134,
        data: hex("0102").repeat(730)[..1459].to_vec(),
        ..third()
    };
    for packet in [even, odd, none, single, longest, odd_long] {
        same(
            "by hand",
            udp_checksum_of(&packet.bytes()),
            packet.udp_checksum,
        )?;
        let link = |checksum: u16| {
            [
                vec![0, 2],
                checksum.to_be_bytes().to_vec(),
                packet.data.clone(),
            ]
            .concat()
        };
        ready(mutant)?.rebuilds(3, &link(packet.udp_checksum), &packet)?;
        let swapped = packet.udp_checksum.swap_bytes();
        let inverted = !packet.udp_checksum;
        for other in [0, 0xffff, swapped, inverted, packet.udp_checksum + 1] {
            disproved("another checksum", &ready(mutant)?, 3, &link(other))?;
        }
    }
    // A list of two words: length 1e twice in place of 16, 82 in place of 80, and the words:
    // ffc0+0010+0200+0000+0001+dead+beef+da7a+000c+03e8 = 37ddb, folded 7dde.
    let listed = Voice {
        csrc: vec![1, 0xdead_beef],
        ..first()
    };
    let packet = Voice {
        udp_checksum: 0x8221,
        csrc: vec![1, 0xdead_beef],
        ..third()
    };
    same("with a list", udp_checksum_of(&packet.bytes()), 0x8221)?;
    ready_with(mutant, &listed, 2)?.rebuilds(3, &hex("00 02 8221 da7a"), &packet)?;
    let ends = ready_with(mutant, &listed, 2)?;
    disproved("without the list", &ends, 3, &hex("00 02 21d0 da7a"))
}

/// Data fc4a makes the sum ffc0+000c+03e8+fc4a = 1fffe, folded ffff, whose complement is 0000: FFFF is right, and
/// 0000 is not.
pub fn sum_of_zero(mutant: Mutant) -> Outcome {
    let packet = Voice {
        udp_checksum: 0xffff,
        data: hex("fc4a"),
        ..third()
    };
    ready(mutant)?.rebuilds(3, &hex("00 02 ffff fc4a"), &packet)?;
    let ends = ready(mutant)?;
    disproved("0000 for FFFF", &ends, 3, &hex("00 02 0000 fc4a"))?;
    disproved("beside it", &ends, 3, &hex("00 02 fffe fc4a"))?;
    disproved("beside it", &ends, 3, &hex("00 02 0001 fc4a"))?;
    // Odd: length 17, ffc2+000c+03e8+fb48 = 1fefe, folded feff, and 0100 more by the last byte.
    let packet = Voice {
        udp_checksum: 0xffff,
        data: hex("fb4801"),
        ..third()
    };
    ready(mutant)?.rebuilds(3, &hex("00 02 ffff fb4801"), &packet)?;
    disproved(
        "0000 for FFFF, odd",
        &ready(mutant)?,
        3,
        &hex("00 02 0000 fb4801"),
    )?;
    // One more in the data makes the sum 1ffff, folded 10000 and again 0001.
    let packet = Voice {
        udp_checksum: 0xfffe,
        data: hex("fc4b"),
        ..third()
    };
    ready(mutant)?.rebuilds(3, &hex("00 02 fffe fc4b"), &packet)?;
    disproved("FFFF beside", &ready(mutant)?, 3, &hex("00 02 ffff fc4b"))
}

pub fn every_wrong_bit(mutant: Mutant) -> Outcome {
    for bit in 0..16 {
        let checksum = (0x21d0_u16 ^ 1 << bit).to_be_bytes();
        let bytes = [&[0, 2], &checksum[..], &[0xda, 0x7a]].concat();
        disproved(&format!("bit {bit}"), &ready(mutant)?, 3, &bytes)?;
    }
    Ok(())
}

/// Every field of the packet that UDP protects, and every byte of the data, changes the sum; what only the IP header
/// has does not.
pub fn a_sum_covers_the_packet(mutant: Mutant) -> Outcome {
    let changes: [(&str, Change); 14] = [
        ("source", |table| table.places[0].fields.source ^= 1 << 16),
        ("source", |table| table.places[0].fields.source ^= 1),
        ("destination", |table| {
            table.places[0].fields.destination ^= 1 << 31
        }),
        ("destination", |table| {
            table.places[0].fields.destination ^= 2
        }),
        ("source port", |table| table.places[0].fields.sport ^= 1),
        ("destination port", |table| {
            table.places[0].fields.dport ^= 2
        }),
        ("SSRC", |table| table.places[0].fields.ssrc ^= 1 << 24),
        ("SSRC", |table| table.places[0].fields.ssrc ^= 1),
        ("padding", |table| table.places[0].fields.padding = true),
        ("extension", |table| table.places[0].fields.extension = true),
        ("payload type", |table| table.places[0].fields.payload = 8),
        ("sequence", |table| table.places[0].fields.sequence += 1),
        ("timestamp", |table| table.places[0].fields.timestamp += 1),
        ("timestamp", |table| {
            table.places[0].timestamp_delta = 1 << 16
        }),
    ];
    let bytes = hex("00 02 21d0 da7a");
    for (what, change) in changes {
        let mut ends = ready(mutant)?;
        change(&mut ends.decompressor);
        disproved(what, &ends, 3, &bytes)?;
    }
    let others: [(&str, Change); 6] = [
        ("TOS", |table| table.places[0].fields.tos ^= 1),
        ("TTL", |table| table.places[0].fields.ttl ^= 1),
        ("flags", |table| table.places[0].fields.flags ^= 1),
        ("ID", |table| table.places[0].fields.id ^= 1),
        ("difference of ID", |table| table.places[0].id_delta = 700),
        ("marker kept", |table| table.places[0].marker ^= true),
    ];
    for (what, change) in others {
        let mut ends = ready(mutant)?;
        change(&mut ends.decompressor);
        same(what, ends.receive(3, &bytes, 42)?.number, 0)?;
    }
    // The packet's own marker; then each byte of the data.
    disproved("marker", &ready(mutant)?, 3, &hex("00 82 21d0 da7a"))?;
    disproved("shorter", &ready(mutant)?, 3, &hex("00 02 21d0 da"))?;
    disproved("longer", &ready(mutant)?, 3, &hex("00 02 21d0 da7a 00"))?;
    disproved("longer", &ready(mutant)?, 3, &hex("00 02 21d0 da7a 0000"))?;
    let packet = Voice {
        data: (0..37).collect(),
        ..third()
    }
    .summed();
    let checksum = packet.udp_checksum.to_be_bytes().to_vec();
    for at in 0..packet.data.len() {
        let mut data = packet.data.clone();
        data[at] ^= 0x10;
        let bytes = [vec![0, 2], checksum.clone(), data].concat();
        disproved(&format!("byte {at}"), &ready(mutant)?, 3, &bytes)?;
    }
    let bytes = [vec![0, 2], checksum, packet.data.clone()].concat();
    ready(mutant)?.rebuilds(3, &bytes, &packet)
}

/// CU with F, CU without, CR and CR with a second flag byte, each over a gap of 3, with the checksum that is right
/// and with others. What the packet brings counts: sequence, timestamp, payload type, list, SSRC.
pub fn kinds_of_packets(mutant: Mutant) -> Outcome {
    let fourth = voice(103, 13, 1000);
    let selected = Voice {
        marker: true,
        sequence: 0x4000,
        timestamp: 0x0500_0000,
        payload_type: 8,
        csrc: vec![0xa1a2_a3a4],
        ..fourth.clone()
    };
    let header = Voice {
        id: 0x0300,
        padding: true,
        extension: true,
        payload_type: 5,
        sequence: 1,
        timestamp: 2,
        ssrc: 0x99aa_bbcc,
        csrc: vec![7, 8],
        data: hex("da7a7e"),
        ..fourth.clone()
    };
    let differences = Voice {
        sequence: 17,
        timestamp: 1160,
        id: 106,
        ..fourth.clone()
    };
    let listed = Voice {
        marker: true,
        timestamp: 999,
        csrc: vec![0xffff_ffff; 15],
        ..fourth.clone()
    };
    let rows = [
        ("CU, nothing but a list", 2, "00 83 00", "", &fourth),
        (
            "CU with F",
            2,
            "00 83 f1",
            "4000 05000000 08 a1a2a3a4",
            &selected,
        ),
        (
            "CU without F",
            2,
            "00 43",
            "0300 b2 05 0001 00000002 99aabbcc 00000007 00000008",
            &header,
        ),
        ("CR", 3, "00 03", "", &fourth),
        (
            "CR with differences",
            3,
            "00 73",
            "04 05 80a0",
            &differences,
        ),
        (
            "CR 1111",
            3,
            "00 f3",
            &format!("af 807f {}", "ffffffff".repeat(15)),
            &listed,
        ),
    ];
    for (what, link_type, front, after, packet) in rows {
        let packet = packet.summed();
        // The checksum stands after the flags, and in CU with F after the second byte.
        let link = |checksum: u16| {
            let checksum = checksum.to_be_bytes().to_vec();
            [hex(front), checksum, hex(after), packet.data.clone()].concat()
        };
        let right = packet.udp_checksum;
        ready(mutant)?.rebuilds(link_type, &link(right), &packet)?;
        for other in [0, right ^ 0x0100, right.wrapping_add(1)] {
            disproved(what, &ready(mutant)?, link_type, &link(other))?;
        }
        // Without the gap everything is taken as it came.
        let mut near = ready(mutant)?;
        near.decompressor.places[0].last_link = 2;
        for other in [0, right ^ 0x0100] {
            let found = near.clone().receive(link_type, &link(other), 1500)?;
            same(what, found.number, 0)?;
            same(what, &found.bytes[26..28], &other.to_be_bytes()[..])?;
        }
    }
    Ok(())
}

/// With a gap of 1 any checksum is taken and rebuilt as it came, for every N.
pub fn gap_of_one_is_not_judged(mutant: Mutant) -> Outcome {
    for repeats in 0..=14 {
        let mut ends = ready_with(mutant, &first(), repeats)?;
        let mut packet = first();
        // ffc0+000b+03e8+da7a = 1de2d, folded de2e: for the first of them 21d1 is right.
        for (link, checksum) in (1..).zip([0x21d1, 0x21d2, 0, 0xffff, 1, 0, 0x7777]) {
            packet = packet.next();
            packet.udp_checksum = checksum;
            let bytes = [vec![0, link], checksum.to_be_bytes().to_vec(), hex("da7a")].concat();
            ends.rebuilds(3, &bytes, &packet)?;
        }
        packet = packet.next();
        packet.udp_checksum = 0x5555;
        ends.rebuilds(2, &hex("00 88 00 5555 da7a"), &packet)?;
        packet = packet.next();
        packet.udp_checksum = 0;
        let header = hex("00 09 0000 80 00 0013 000003e8 11223344 da7a");
        ends.rebuilds(2, &header, &packet)?;
    }
    Ok(())
}

/// FH with any checksum, at any sequence, on a context in any state.
pub fn full_headers_are_not_judged(mutant: Mutant) -> Outcome {
    for checksum in [0, 1, 0x21d0, 0x21d1, 0xffff] {
        for link in 0..16 {
            let packet = Voice {
                udp_checksum: checksum,
                ..third()
            };
            ready(mutant)?.fill(&packet, 0, 0, link)?;
            let mut broken = ready(mutant)?;
            broken.decompressor.places[0].status = Status::Broken;
            broken.fill(&packet, 0, 0, link)?;
            Ends::open(mutant, 2, 2).fill(&packet, 0, 0, link)?;
        }
    }
    Ok(())
}

/// A context that carries none has no checksum to judge, over any gap; the two bytes that would be one are data.
pub fn blank_contexts_are_not_judged(mutant: Mutant) -> Outcome {
    let blank = voice(100, 10, 1000);
    for gap in 1..=15u8 {
        let mut ends = ready_with(mutant, &blank, 14)?;
        let mut packet = voice(100 + u16::from(gap), 10 + u16::from(gap), 1000);
        packet.data = hex("0000 da7a");
        ends.rebuilds(3, &[&[0, gap], &packet.data[..]].concat(), &packet)?;
    }
    // A context filled with a checksum and filled again without one is judged no more.
    let mut ends = ready(mutant)?;
    ends.fill(&blank, 0, 8, 4)?;
    ends.rebuilds(3, &hex("00 06 da7a"), &third())?;
    // The other way round it is.
    ends.fill(&first(), 0, 9, 0)?;
    disproved("carried again", &ends, 3, &hex("00 02 da7a da7a"))
}

/// Every gap for every N: unjudged at 1, judged from 2 to N+1, refused 9 beyond, whatever the checksum is.
pub fn every_gap(mutant: Mutant) -> Outcome {
    for repeats in 0..=14u8 {
        for gap in 0..16u8 {
            let ends = ready_with(mutant, &first(), repeats.into())?;
            let steps = u16::from(gap);
            let right = voice(100 + steps, 10 + steps, 1000).summed();
            let what = format!("N {repeats}, gap {gap}");
            for checksum in [right.udp_checksum, right.udp_checksum ^ 1, 0] {
                let bytes = [vec![0, gap], checksum.to_be_bytes().to_vec(), hex("da7a")].concat();
                let found = ends.clone().receive(3, &bytes, 42)?;
                let wanted = match gap {
                    0 => 9,
                    1 => 0,
                    _ if gap > repeats + 1 => 9,
                    _ if checksum == right.udp_checksum => 0,
                    _ => 12,
                };
                same(&what, found.number, wanted)?;
                if wanted == 12 {
                    disproved(&what, &ends, 3, &bytes)?;
                }
            }
        }
    }
    Ok(())
}

/// The scope's case with checksums: N 14, fourteen lost, a gap of 15.
pub fn fourteen_lost(mutant: Mutant) -> Outcome {
    for (what, checksums) in [
        ("blank", 0),
        ("right", 1),
        ("wrong", 2),
        ("0000 carried", 3),
    ] {
        let mut ends = Ends::open(mutant, 14, 1);
        let mut packet = voice(1, 1, 5);
        let mut last = (0, Vec::new());
        for sent in 0..30 {
            let mut with = packet.clone();
            if checksums != 0 {
                with = with.summed();
            }
            if checksums == 2 && sent == 29 {
                with.udp_checksum ^= 0x8000;
            }
            last = ends.link_packet(&with)?;
            if sent == 14 {
                ends.rebuilds(1, &last.1, &with)?;
            }
            if sent < 29 {
                packet = packet.next();
            } else {
                packet = with;
            }
        }
        let (link_type, mut bytes) = last;
        same("type and link", (link_type, bytes[1]), (3, 0x0d))?;
        if checksums == 3 {
            bytes[2..4].fill(0);
        }
        if checksums <= 1 {
            ends.rebuilds(3, &bytes, &packet)?;
            same("gap of 0", ends.receive(3, &bytes, 1500)?.number, 9)?;
        } else {
            disproved(what, &ends, 3, &bytes)?;
        }
    }
    Ok(())
}

/// 9, 10, 12, 11: for each pair a packet that has both faults, and for each number one that has it alone.
pub fn order_of_refusals(mutant: Mutant) -> Outcome {
    // `rest` bytes of ee make the packet; 40 of header.
    let link = |link: u8, rest: usize, right: bool| {
        let gap = u16::from(link);
        let packet = Voice {
            data: vec![0xee; rest],
            ..voice(100 + gap, 10 + gap, 1000)
        }
        .summed();
        let checksum = packet.udp_checksum ^ u16::from(!right);
        [vec![0, link], checksum.to_be_bytes().to_vec(), packet.data].concat()
    };
    let rows = [
        ("9 and 10", link(4, 1461, true), 4096, 9),
        ("9 and 12", link(4, 1460, false), 4096, 9),
        ("9 and 11", link(4, 1460, true), 0, 9),
        ("all four", link(4, 1461, false), 0, 9),
        ("gap of 0 and all others", link(0, 1461, false), 0, 9),
        ("10 and 12", link(2, 1461, false), 4096, 10),
        ("10 and 11", link(2, 1461, true), 0, 10),
        ("10, 12 and 11", link(2, 1461, false), 0, 10),
        ("12 and 11", link(2, 1460, false), 1499, 12),
        ("12 and 11", link(2, 1460, false), 0, 12),
        ("12 and 11", link(3, 2, false), 41, 12),
        ("9", link(4, 2, true), 4096, 9),
        ("10", link(2, 1461, true), 4096, 10),
        ("12", link(2, 1460, false), 1500, 12),
        ("12", link(2, 1460, false), 4096, 12),
        ("11", link(2, 1460, true), 1499, 11),
        ("11", link(2, 1460, true), 0, 11),
        ("none", link(2, 1460, true), 1500, 0),
        // Without a gap a wrong checksum is no fault.
        ("11, gap of 1", link(1, 1460, false), 1499, 11),
        ("10, gap of 1", link(1, 1461, false), 1500, 10),
        ("none, gap of 1", link(1, 1460, false), 1500, 0),
    ];
    for (what, bytes, room, number) in rows {
        let mut ends = ready(mutant)?;
        let mut wanted = ends.decompressor.clone();
        if [9, 12].contains(&number) {
            wanted.places[0].status = Status::Broken;
        }
        same(what, ends.receive(3, &bytes, room)?.number, number)?;
        let table = number == 0 || ends.decompressor == wanted;
        ensure(&format!("{what}: wrong table"), table)?;
    }
    Ok(())
}

/// 6, 4, 8, 5 and 7 come before; a packet that is cut or misformed has no checksum to judge.
pub fn fields_come_first(mutant: Mutant) -> Outcome {
    let rows = [
        ("no such context", 3, "02 02 0000 da7a", 6, None),
        ("no flags", 3, "00", 4, None),
        ("empty context", 3, "01 02 0000 da7a", 8, Some(1)),
        ("cut checksum", 3, "00 02 00", 4, None),
        ("no checksum", 2, "00 82 00", 4, None),
        ("cut code", 3, "00 12 0000 c0 00", 4, None),
        ("unused code", 3, "00 12 0000 c0 3f 80", 7, None),
        ("cut list", 3, "00 f2 0000 01 a1a2a3", 4, None),
        ("payload type", 2, "00 82 10 0000 80", 5, None),
        (
            "RTP version",
            2,
            "00 02 0000 40 00 0001 00000002 11223344",
            5,
            None,
        ),
        (
            "cut RTP header",
            2,
            "00 02 0000 80 00 0001 00000002 112233",
            4,
            None,
        ),
    ];
    for (what, link_type, bytes, number, broken) in rows {
        let mut ends = ready(mutant)?;
        let mut wanted = ends.decompressor.clone();
        if let Some(place) = broken {
            let context: &mut oracle::decompressor::Context = &mut wanted.places[place];
            context.status = Status::Broken;
        }
        same(
            what,
            ends.receive(link_type, &hex(bytes), 0)?.number,
            number,
        )?;
        ensure(&format!("{what}: wrong table"), ends.decompressor == wanted)?;
    }
    Ok(())
}

/// 12, then 8 for what comes after it, right or not; the report asks for the context with the sequence and generation
/// that it had, a request brings full headers, and the first of them mends it.
pub fn a_wrong_checksum_breaks_the_context(mutant: Mutant) -> Outcome {
    let mut ends = Ends::open(mutant, 1, 2);
    let mut packet = voice(100, 10, 1000).summed();
    for _ in 0..2 {
        let (link_type, bytes) = ends.link_packet(&packet)?;
        ends.rebuilds(link_type, &bytes, &packet)?;
        packet = packet.next().summed();
    }
    // Link sequence 2 is lost, 3 has a wrong checksum.
    ends.link_packet(&packet)?;
    packet = packet.next().summed();
    packet.udp_checksum ^= 0x0040;
    let (link_type, bytes) = ends.link_packet(&packet)?;
    same("CR", (link_type, &bytes[..2]), (3, &hex("00 03")[..]))?;
    disproved("sent wrong", &ends, link_type, &bytes)?;
    same("12", ends.receive(link_type, &bytes, 1500)?.number, 12)?;
    same("again", ends.receive(link_type, &bytes, 1500)?.number, 8)?;
    packet = packet.next().summed();
    let (link_type, bytes) = ends.link_packet(&packet)?;
    same(
        "right, but late",
        ends.receive(link_type, &bytes, 1500)?.number,
        8,
    )?;
    let report = ends.report(5)?;
    same("report", &report.bytes, &hex("01 01 00 81 00"))?;
    same("request", ends.request(&report.bytes)?, 0)?;
    packet = packet.next().summed();
    // Full headers are not judged, so a wrong checksum in one does no harm.
    packet.udp_checksum ^= 1;
    let (link_type, bytes) = ends.link_packet(&packet)?;
    same("full header", link_type, 1)?;
    ends.rebuilds(link_type, &bytes, &packet)?;
    same("nothing broken", ends.report(5)?.bytes, Vec::new())?;
    // One lost, the next one right.
    packet = packet.next().summed();
    ends.link_packet(&packet)?;
    packet = packet.next().summed();
    let (link_type, bytes) = ends.link_packet(&packet)?;
    same("type", link_type, 3)?;
    ends.rebuilds(link_type, &bytes, &packet)
}

/// Only the packet's own context breaks.
pub fn other_contexts_stay(mutant: Mutant) -> Outcome {
    let mut ends = ready(mutant)?;
    let other = Voice { ssrc: 5, ..first() };
    ends.fill(&other, 1, 3, 9)?;
    disproved("two contexts", &ends, 3, &hex("00 02 21d1 da7a"))?;
    same(
        "12",
        ends.receive(3, &hex("00 02 21d1 da7a"), 0)?.number,
        12,
    )?;
    same("report", ends.report(5)?.bytes, hex("01 01 00 80 07"))?;
    let next = Voice { ssrc: 5, ..third() }.summed();
    let bytes = [
        hex("01 0b"),
        next.udp_checksum.to_be_bytes().to_vec(),
        hex("da7a"),
    ]
    .concat();
    ends.rebuilds(3, &bytes, &next)
}

/// Judged is what would be rebuilt, not what went in: the packet lost brought another timestamp, so the checksum of
/// the packet that went in shows that the guess is wrong.
pub fn the_guess_itself_is_summed(mutant: Mutant) -> Outcome {
    let ends = ready(mutant)?;
    // What went in had timestamp 2000; CR leaves it out.
    let sent = Voice {
        timestamp: 2000,
        ..third()
    }
    .summed();
    let bytes = [
        hex("00 02"),
        sent.udp_checksum.to_be_bytes().to_vec(),
        hex("da7a"),
    ]
    .concat();
    disproved("another timestamp", &ends, 3, &bytes)?;
    // Steps over the gap count: kept differences 160, and a sent one for the last step.
    let mut ends = ready(mutant)?;
    ends.decompressor.places[0].timestamp_delta = 160;
    let steps = voice(103, 13, 1480).summed();
    let bytes = [
        hex("00 03"),
        steps.udp_checksum.to_be_bytes().to_vec(),
        hex("da7a"),
    ]
    .concat();
    ends.clone().rebuilds(3, &bytes, &steps)?;
    let last = voice(103, 13, 1330).summed();
    let bytes = [
        hex("00 23"),
        last.udp_checksum.to_be_bytes().to_vec(),
        hex("0a da7a"),
    ]
    .concat();
    ends.rebuilds(3, &bytes, &last)?;
    same("kept", ends.decompressor.places[0].timestamp_delta, 10)
}

/// A flow with right checksums over gap after gap, all four lengths modulo 4, every N: never refused.
pub fn right_after_gaps_goes_on(mutant: Mutant) -> Outcome {
    for repeats in 1..=14u32 {
        let mut ends = Ends::open(mutant, repeats, 1);
        let mut packet = voice(65_500, 65_530, 4_294_967_000);
        for round in 0..12u32 {
            for lost in 0..=repeats {
                packet = packet.next();
                packet.timestamp = packet.timestamp.wrapping_add(160);
                packet.data = (0..round as u8 % 7).collect();
                packet = packet.summed();
                let (link_type, bytes) = ends.link_packet(&packet)?;
                if lost == repeats {
                    ends.rebuilds(link_type, &bytes, &packet)?;
                }
            }
        }
    }
    Ok(())
}

/// Of all 65,536 checksums one is right, for even and odd lengths and where that one is FFFF.
#[test]
fn one_checksum_is_right() {
    for (data, right) in [("da7a", 0x21d0), ("da7a7e", 0xa3cd), ("fc4a", 0xffff)] {
        let ends = ready(Mutant::None).expect("ready");
        for checksum in 0..=u16::MAX {
            let bytes = [vec![0, 2], checksum.to_be_bytes().to_vec(), hex(data)].concat();
            let found = ends.clone().receive(3, &bytes, 100).expect("an answer");
            let wanted = if checksum == right { 0 } else { 12 };
            assert_eq!(found.number, wanted, "{data}, {checksum:04x}");
        }
    }
}

//! Every refusal in the order the scope fixes: a packet with two faults gets the earlier one. Each
//! row also fixes what the refusal leaves behind.

use crate::support::{ensure, hex, same, set_ip_checksum, voice, Ends, Outcome, Spoil, Voice};
use oracle::decompressor::Status;
use oracle::mutant::Mutant;

checks!(
    sender_order,
    sender_leaves_no_trace,
    request_order,
    report_order,
    type_and_length_order,
    plain_room,
    full_header_forms,
    full_header_order,
    compressed_order,
    compressed_rtp_fields,
    compressed_udp_fields,
    gap_length_room_order,
    every_gap,
    rooms_exact_and_short,
    refused_rtp_headers_leave_the_delta,
);

// The compressor

pub fn sender_order(mutant: Mutant) -> Outcome {
    let packet = voice(1, 1, 0).bytes();
    let mut long = vec![0; 1501];
    long[..packet.len()].copy_from_slice(&packet);
    let full = packet.len();
    let rows: [(&str, &[u8], usize, u8); 8] = [
        ("empty, no room", &[], 0, 2),
        ("empty", &[], 1500, 2),
        ("1,501 bytes, no room", &long, 0, 2),
        ("1,501 bytes", &long, 1501, 2),
        ("FH without room", &packet, full - 1, 11),
        ("FH with no room at all", &packet, 0, 11),
        ("plain without room", &long[..1500], 1499, 11),
        ("plain, one byte", &[7], 0, 11),
    ];
    for (what, bytes, room, number) in rows {
        let mut ends = Ends::open(mutant, 1, 1);
        let before = ends.compressor.clone();
        same(what, ends.send(bytes, room)?.number, number)?;
        ensure(what, ends.compressor == before)?;
    }
    // 1 and 1,500 bytes are packets.
    let mut ends = Ends::open(mutant, 1, 1);
    for bytes in [&[7][..], &long[..1500]] {
        let found = ends.send(bytes, bytes.len())?;
        same("plain", (found.number, found.link_type), (0, 0))?;
        same("plain", &found.bytes[..], bytes)?;
    }
    Ok(())
}

/// Sends refused for want of room use up nothing: neither a context nor a sequence nor a repeat.
pub fn sender_leaves_no_trace(mutant: Mutant) -> Outcome {
    let mut ends = Ends::open(mutant, 1, 2);
    let mut packet = voice(1, 1, 0);
    // FH, FH, CU, CU, CR: the exact lengths with two bytes of data.
    let changed = |packet: Voice| Voice {
        sequence: 50,
        ..packet
    };
    for (number, exact) in [(0, 42), (1, 42), (2, 7), (3, 7), (4, 4)] {
        if number == 2 {
            packet = changed(packet);
        }
        for room in 0..exact {
            let before = ends.compressor.clone();
            same("short", ends.send(&packet.bytes(), room)?.number, 11)?;
            ensure("unchanged", ends.compressor == before)?;
        }
        let found = ends.send(&packet.bytes(), exact)?;
        same("exact", (found.number, found.bytes.len()), (0, exact))?;
        packet = packet.next();
    }
    same("link sequence", ends.compressor.places[0].next_link, 5)
}

/// K 2, N 0; context 0 in use, context 1 not.
pub fn request_order(mutant: Mutant) -> Outcome {
    let mut ready = Ends::open(mutant, 0, 2);
    ready.link_packet(&voice(1, 1, 0))?;
    let rows: [(&str, &str, u8); 24] = [
        ("empty", "", 4),
        ("one byte, another code", "02", 4),
        ("another code, length wrong", "02 01", 5),
        ("another code, length right", "02 01 00 80 00", 5),
        ("code 0", "00 01 00 80 00", 5),
        ("count 0", "01 00", 5),
        ("count 0, length wrong", "01 00 00", 5),
        ("no record", "01 01", 4),
        ("record cut, context too high", "01 01 02", 4),
        ("record cut, bits wrong", "01 01 00 f0", 4),
        ("one byte more, context too high", "01 01 02 80 00 00", 4),
        ("record missing", "01 02 00 80 00", 4),
        ("context K, bits wrong", "01 01 02 f0 ff", 6),
        ("context 255", "01 01 ff 80 00", 6),
        ("bit 40 of the second", "01 01 00 c0 00", 5),
        ("bit 20 of the second", "01 01 00 a0 00", 5),
        ("bit 10 of the second", "01 01 00 90 00", 5),
        ("bit 80 of the third", "01 01 00 80 80", 5),
        ("bit 40 of the third", "01 01 00 80 40", 5),
        ("top bit 0 and bits wrong", "01 01 00 10 00", 5),
        ("unused context and bits wrong", "01 01 01 80 40", 5),
        (
            "good, then context K with bits wrong",
            "01 02 00 80 00 02 f0 c0",
            6,
        ),
        ("bits wrong, then context K", "01 02 00 90 00 02 80 00", 5),
        (
            "good, good, bits wrong",
            "01 03 00 80 00 01 80 00 00 80 80",
            5,
        ),
    ];
    for (what, state, number) in rows {
        let mut ends = ready.clone();
        same(what, ends.request(&hex(state))?, number)?;
        ensure(what, ends.compressor == ready.compressor)?;
    }
    // 255 records are a request; one byte more or less is not. None is refused for its length as such.
    let mut most = vec![1, 255];
    for _ in 0..255 {
        most.extend([0, 0x80, 0]);
    }
    let mut ends = ready.clone();
    same("255 records", ends.request(&most)?, 0)?;
    same("generation", ends.compressor.places[0].generation, 1)?;
    most.push(0);
    same("767 bytes and one", ready.clone().request(&most)?, 4)?;
    same("1,501 bytes", ready.clone().request(&vec![1; 1501])?, 4)
}

pub fn report_order(mutant: Mutant) -> Outcome {
    let mut ends = Ends::open(mutant, 0, 2);
    let none = ends.report(0)?;
    same("none broken", (none.number, none.bytes.len()), (0, 0))?;
    same(
        "empty context",
        ends.receive(2, &hex("01 00"), 0)?.number,
        8,
    )?;
    for room in 0..5 {
        let before = ends.decompressor.clone();
        same("short", ends.report(room)?.number, 11)?;
        ensure("unchanged", ends.decompressor == before)?;
    }
    let before = ends.decompressor.clone();
    same("exact", ends.report(5)?.bytes, hex("01 01 01 80 00"))?;
    same("long", ends.report(9)?.bytes, hex("01 01 01 80 00"))?;
    ensure("unchanged", ends.decompressor == before)
}

// The decompressor

/// N 1, K 2. Context 0 live with a carried checksum and last sequence 3, context 1 empty.
fn ready(mutant: Mutant) -> Result<Ends, String> {
    let mut ends = Ends::open(mutant, 1, 2);
    ends.fill(&first(), 0, 7, 3)?;
    Ok(ends)
}

fn first() -> Voice {
    Voice {
        udp_checksum: 0x7777,
        csrc: vec![0xc1c1_c1c1],
        ..voice(100, 10, 1000)
    }
}

/// What a refusal leaves: everything, or one context broken and everything else.
enum Leaves {
    Unchanged,
    Broken(usize),
}

fn refused(
    mutant: Mutant,
    what: &str,
    link_type: u32,
    bytes: &[u8],
    room: usize,
    number: u8,
    leaves: Leaves,
) -> Outcome {
    let mut ends = ready(mutant)?;
    let mut wanted = ends.decompressor.clone();
    if let Leaves::Broken(place) = leaves {
        wanted.places[place].status = Status::Broken;
    }
    let found = ends.receive(link_type, bytes, room)?;
    same(what, found.number, number)?;
    ensure(
        &format!("{what}: wrong table afterwards"),
        ends.decompressor == wanted,
    )
}

pub fn type_and_length_order(mutant: Mutant) -> Outcome {
    let long = vec![0xff; 1501];
    for link_type in [4, 5, 6, 255, 256, 65536, 1 << 31, u32::MAX] {
        for bytes in [&[][..], &long, &[0, 0x04]] {
            let what = format!("type {link_type}");
            refused(mutant, &what, link_type, bytes, 0, 3, Leaves::Unchanged)?;
        }
    }
    for link_type in 0..4 {
        refused(mutant, "empty", link_type, &[], 0, 2, Leaves::Unchanged)?;
        // The first byte names no context either.
        refused(mutant, "long", link_type, &long, 0, 2, Leaves::Unchanged)?;
    }
    Ok(())
}

pub fn plain_room(mutant: Mutant) -> Outcome {
    for length in [1, 40, 1500] {
        let bytes = vec![0x5a; length];
        refused(
            mutant,
            "plain",
            0,
            &bytes,
            length - 1,
            11,
            Leaves::Unchanged,
        )?;
        let mut ends = ready(mutant)?;
        let before = ends.decompressor.clone();
        let found = ends.receive(0, &bytes, length)?;
        same("plain", (found.number, found.bytes), (0, bytes))?;
        ensure("unchanged", ends.decompressor == before)?;
    }
    Ok(())
}

/// Gives an FH the IP checksum that is right once the length is put back.
fn repair_full_header(bytes: &mut [u8]) {
    let kept = [bytes[2], bytes[3]];
    let length = bytes.len();
    bytes[2] = (length / 256) as u8;
    bytes[3] = (length % 256) as u8;
    set_ip_checksum(bytes);
    bytes[2..4].copy_from_slice(&kept);
}

/// One form spoiled at a time, with a CSRC list that is cut and no room: still 5.
pub fn full_header_forms(mutant: Mutant) -> Outcome {
    let spoil: [(&str, Spoil); 18] = [
        ("first byte 44", |bytes| bytes[0] = 0x44),
        ("first byte 46", |bytes| bytes[0] = 0x46),
        ("first byte 65", |bytes| bytes[0] = 0x65),
        ("leading 0, 0", |bytes| bytes[2] &= 0x3f),
        ("leading 1, 0", |bytes| bytes[2] ^= 0xc0),
        ("leading 1, 1", |bytes| bytes[2] |= 0x80),
        ("lowest of the twelve", |bytes| bytes[25] |= 0x10),
        ("eighth of the twelve", |bytes| bytes[24] |= 0x01),
        ("highest of the twelve", |bytes| bytes[24] |= 0x80),
        ("MF", |bytes| bytes[6] |= 0x20),
        ("offset, highest bit", |bytes| bytes[6] |= 0x10),
        ("offset, lowest bit", |bytes| bytes[7] |= 0x01),
        ("protocol 6", |bytes| bytes[9] = 6),
        ("protocol 16", |bytes| bytes[9] = 16),
        ("version 0", |bytes| bytes[28] &= 0x3f),
        ("version 1", |bytes| bytes[28] = bytes[28] & 0x3f | 0x40),
        ("version 3", |bytes| bytes[28] |= 0xc0),
        ("checksum", |bytes| bytes[11] ^= 1),
    ];
    for (what, change) in spoil {
        for cut in [false, true] {
            let mut bytes = voice(1, 1, 0).full_header(1, 5, 9);
            if cut {
                bytes[28] |= 0x0f;
            }
            if what != "checksum" {
                change(&mut bytes);
                repair_full_header(&mut bytes);
            } else {
                repair_full_header(&mut bytes);
                change(&mut bytes);
            }
            let room = if cut { 0 } else { 1500 };
            refused(mutant, what, 1, &bytes, room, 5, Leaves::Unchanged)?;
        }
    }
    Ok(())
}

pub fn full_header_order(mutant: Mutant) -> Outcome {
    let good = voice(1, 1, 0).full_header(1, 5, 9);
    // 39 bytes: 4 even with a context number too high and the first byte wrong.
    let mut short = good[..39].to_vec();
    short[3] = 9;
    short[0] = 0x46;
    refused(mutant, "39 bytes", 1, &short, 0, 4, Leaves::Unchanged)?;
    refused(mutant, "1 byte", 1, &[0x45], 0, 4, Leaves::Unchanged)?;
    // Context K with every form wrong: 6.
    for place in [2, 3, 255] {
        let mut other = vec![0xff; 40];
        other[3] = place;
        refused(mutant, "context K", 1, &other, 0, 6, Leaves::Unchanged)?;
        let mut other = good.clone();
        other[3] = place;
        refused(mutant, "context K", 1, &other, 1500, 6, Leaves::Unchanged)?;
    }
    // A list one byte short, everything else right, no room: 4.
    let mut list = voice(1, 1, 0);
    list.data = vec![0; 7];
    let mut bytes = list.full_header(1, 5, 9);
    bytes[28] |= 2;
    refused(mutant, "list cut", 1, &bytes, 0, 4, Leaves::Unchanged)?;
    bytes.push(0);
    repair_full_header(&mut bytes);
    refused(mutant, "no room", 1, &bytes, 47, 11, Leaves::Unchanged)?;
    same(
        "whole list",
        ready(mutant)?.receive(1, &bytes, 48)?.number,
        0,
    )?;
    // Over a live context, too, a refused FH changes nothing.
    let over = voice(1, 1, 0).full_header(0, 5, 9);
    refused(
        mutant,
        "no room",
        1,
        &over,
        over.len() - 1,
        11,
        Leaves::Unchanged,
    )
}

pub fn compressed_order(mutant: Mutant) -> Outcome {
    for link_type in [2, 3] {
        let rows: [(&str, &str, u8, Leaves); 9] = [
            ("context K, nothing more", "02", 6, Leaves::Unchanged),
            ("context 255 with flags", "ff 04", 6, Leaves::Unchanged),
            ("no flags byte", "00", 4, Leaves::Unchanged),
            ("no flags byte, empty context", "01", 4, Leaves::Unchanged),
            ("empty context, fields cut", "01 f4", 8, Leaves::Broken(1)),
            ("empty context, gap 0", "01 00", 8, Leaves::Broken(1)),
            (
                "empty context, unused code",
                "01 f1 f0 c03f80",
                8,
                Leaves::Broken(1),
            ),
            ("checksum missing, gap 0", "00 03", 4, Leaves::Unchanged),
            ("checksum cut, gap 3", "00 06 77", 4, Leaves::Unchanged),
        ];
        for (what, bytes, number, leaves) in rows {
            refused(mutant, what, link_type, &hex(bytes), 0, number, leaves)?;
        }
    }
    Ok(())
}

/// Fields of CR from left to right. The link sequence is 3, a gap of 0, so that 9 would come last.
pub fn compressed_rtp_fields(mutant: Mutant) -> Outcome {
    let rows: [(&str, &str, u8); 22] = [
        ("second byte missing", "00 f3 7777", 4),
        ("ID code missing", "00 13 7777", 4),
        ("ID code of two cut", "00 13 7777 80", 4),
        ("ID code of three cut to one", "00 13 7777 c0", 4),
        ("ID code cut before it is unused", "00 13 7777 c03f", 4),
        ("ID code unused", "00 13 7777 c03f80", 7),
        ("ID code unused, last one", "00 13 7777 c03fff", 7),
        ("ID unused, sequence cut", "00 53 7777 c03f80", 7),
        (
            "ID good, sequence cut, timestamp missing",
            "00 73 7777 05 80",
            4,
        ),
        ("sequence unused, timestamp cut", "00 63 7777 c03f90 c0", 7),
        ("sequence cut", "00 43 7777 bf", 4),
        ("timestamp unused", "00 23 7777 c03faa", 7),
        ("timestamp cut", "00 23 7777 c040", 4),
        ("all there, timestamp unused", "00 73 7777 05 05 c03f80", 7),
        ("I' unused, S' cut", "00 f3 7777 51 c03f80 80", 7),
        ("I' cut, list missing", "00 f3 7777 11 c03f", 4),
        ("T' unused, list missing", "00 f3 7777 2f c03fc0", 7),
        ("list missing", "00 f3 7777 01", 4),
        ("list cut", "00 f3 7777 02 00000001 000000", 4),
        ("list cut after codes", "00 f3 7777 71 01 01 01 00", 4),
        ("all good, gap 0", "00 03 7777", 9),
        (
            "all good with a list, gap 0",
            "00 f3 7777 71 01 01 01 00000001",
            9,
        ),
    ];
    for (what, bytes, number) in rows {
        let leaves = if number == 9 {
            Leaves::Broken(0)
        } else {
            Leaves::Unchanged
        };
        refused(mutant, what, 3, &hex(bytes), 0, number, leaves)?;
    }
    Ok(())
}

/// Fields of CU from left to right, with a gap of 0 as above.
pub fn compressed_udp_fields(mutant: Mutant) -> Outcome {
    let rows: [(&str, &str, u8); 30] = [
        ("second byte missing", "00 83", 4),
        ("checksum missing after the second byte", "00 83 1f", 4),
        ("checksum cut", "00 83 1f 77", 4),
        ("dI missing", "00 93 00 7777", 4),
        ("dI unused, dT cut", "00 b3 00 7777 c03f80 c0", 7),
        ("dI cut", "00 b3 00 7777 c03f", 4),
        ("dT unused, ID missing", "00 e3 00 7777 c03f80", 7),
        ("dT cut, ID missing", "00 e3 00 7777 80", 4),
        ("ID cut", "00 c3 00 7777 12", 4),
        ("sequence cut, payload type wrong", "00 83 50 7777 ff", 4),
        (
            "timestamp cut, payload type wrong",
            "00 83 30 7777 ffffff",
            4,
        ),
        ("payload type missing", "00 83 10 7777", 4),
        ("payload type wrong, list missing", "00 83 1f 7777 80", 5),
        ("payload type wrong", "00 83 10 7777 ff", 5),
        ("payload type good, list cut", "00 83 11 7777 7f 000000", 4),
        (
            "everything, payload type wrong",
            "00 f3 71 7777 01 01 0001 0001 00000001 80",
            5,
        ),
        (
            "everything, list cut",
            "00 f3 71 7777 01 01 0001 0001 00000001 00 0000",
            4,
        ),
        ("dI unused, all else cut", "00 f3 ff 7777 c03f80", 7),
        ("whole header missing", "00 03 7777", 4),
        (
            "whole header, 11 bytes, version wrong",
            "00 03 7777 00 0000000000 0000000000",
            4,
        ),
        (
            "whole header, version wrong",
            "00 03 7777 40 00 0000 00000000 00000000",
            5,
        ),
        (
            "whole header, version wrong, list cut",
            "00 03 7777 cf 00 0000 00000000 00000000",
            5,
        ),
        (
            "whole header, version 0",
            "00 03 7777 00 00 0000 00000000 00000000",
            5,
        ),
        (
            "whole header, list cut",
            "00 03 7777 81 00 0000 00000000 00000000 000000",
            4,
        ),
        ("dI unused, whole header missing", "00 13 7777 c03fff", 7),
        (
            "dT unused, version wrong",
            "00 23 7777 c03fff 00 00 0000 00000000 00000000",
            7,
        ),
        ("ID cut, no header", "00 43 7777 00", 4),
        ("all good, gap 0", "00 83 00 7777", 9),
        ("payload type 127, gap 0", "00 83 10 7777 7f", 9),
        (
            "whole header, gap 0",
            "00 03 7777 80 ff ffff ffffffff ffffffff",
            9,
        ),
    ];
    for (what, bytes, number) in rows {
        let leaves = if number == 9 {
            Leaves::Broken(0)
        } else {
            Leaves::Unchanged
        };
        refused(mutant, what, 2, &hex(bytes), 0, number, leaves)?;
    }
    Ok(())
}

/// 9 before 10 before 11. The context has one CSRC word, so 44 bytes of header.
pub fn gap_length_room_order(mutant: Mutant) -> Outcome {
    let with_rest = |flags: u8, rest: usize| {
        let mut bytes = vec![0, flags, 0x77, 0x77];
        bytes.resize(4 + rest, 0xee);
        bytes
    };
    let broken = || Leaves::Broken(0);
    refused(
        mutant,
        "gap 0, too long",
        3,
        &with_rest(3, 1457),
        0,
        9,
        broken(),
    )?;
    refused(
        mutant,
        "gap 3, too long",
        3,
        &with_rest(6, 1457),
        0,
        9,
        broken(),
    )?;
    refused(
        mutant,
        "gap 3, no room",
        3,
        &with_rest(6, 1456),
        0,
        9,
        broken(),
    )?;
    let unchanged = || Leaves::Unchanged;
    refused(
        mutant,
        "too long, no room",
        3,
        &with_rest(4, 1457),
        0,
        10,
        unchanged(),
    )?;
    refused(
        mutant,
        "too long",
        3,
        &with_rest(4, 1457),
        4096,
        10,
        unchanged(),
    )?;
    refused(
        mutant,
        "no room",
        3,
        &with_rest(4, 1456),
        1499,
        11,
        unchanged(),
    )?;
    let found = ready(mutant)?.receive(3, &with_rest(4, 1456), 1500)?;
    same("1,500 bytes", (found.number, found.bytes.len()), (0, 1500))?;
    // CU with F and an empty list leaves room for four bytes more; a whole header likewise.
    let mut bytes = hex("00 84 00 7777");
    bytes.resize(5 + 1460, 0xee);
    let found = ready(mutant)?.receive(2, &bytes, 1500)?;
    same("1,500 bytes", (found.number, found.bytes.len()), (0, 1500))?;
    bytes.push(0);
    refused(mutant, "CU too long", 2, &bytes, 1500, 10, unchanged())?;
    let mut bytes = hex("00 04 7777 80 00 0000 00000000 00000000");
    bytes.resize(16 + 1461, 0xee);
    refused(
        mutant,
        "whole header too long",
        2,
        &bytes,
        1500,
        10,
        unchanged(),
    )
}

/// All sixteen gaps for every N: accepted exactly from 1 to N+1, else 9 and broken.
pub fn every_gap(mutant: Mutant) -> Outcome {
    for repeats in 0..=14u8 {
        for last in [0, 7, 15] {
            for gap in 0..16u8 {
                let mut ends = Ends::open(mutant, repeats.into(), 1);
                let packet = voice(1, 1, 0);
                ends.fill(&packet, 0, 0, last)?;
                let mut wanted = ends.decompressor.clone();
                let link = (last + gap) % 16;
                let found = ends.receive(3, &[0, link, 0xda, 0x7a], 100)?;
                let what = format!("N {repeats}, last {last}, gap {gap}");
                if gap >= 1 && gap <= repeats + 1 {
                    let mut rebuilt = packet.clone();
                    rebuilt.id += u16::from(gap);
                    rebuilt.sequence += u16::from(gap);
                    same(&what, (found.number, found.bytes), (0, rebuilt.bytes()))?;
                    same(&what, ends.decompressor.places[0].last_link, link)?;
                } else {
                    wanted.places[0].status = Status::Broken;
                    same(&what, found.number, 9)?;
                    ensure(&what, ends.decompressor == wanted)?;
                }
            }
        }
    }
    Ok(())
}

/// Every room below the exact one is refused 11 and changes nothing; the exact one is enough.
pub fn rooms_exact_and_short(mutant: Mutant) -> Outcome {
    let full = first().next().full_header(1, 1, 1);
    let header = hex("00 04 7777 80 00 0000 00000000 00000000 da7a");
    for (link_type, bytes, exact) in [
        (0, hex("da7a"), 2),
        (1, full, 46),
        (2, hex("00 84 00 7777 da7a"), 42),
        (2, header, 42),
        (3, hex("00 04 7777 da7a"), 46),
    ] {
        for room in 0..exact {
            refused(
                mutant,
                "short",
                link_type,
                &bytes,
                room,
                11,
                Leaves::Unchanged,
            )?;
        }
        for room in [exact, exact + 1, 4096] {
            let found = ready(mutant)?.receive(link_type, &bytes, room)?;
            same("enough", (found.number, found.bytes.len()), (0, exact))?;
        }
    }
    Ok(())
}

/// CU without F where a timestamp difference of 160 is kept: a refused one leaves the 160, also if its dT
/// would have brought another.
pub fn refused_rtp_headers_leave_the_delta(mutant: Mutant) -> Outcome {
    let ready = Ends::with_timestamp_delta(mutant)?;
    let header = "80 00 000c 00002000 11223344";
    let long = "ee".repeat(1461);
    let rows: [(&str, String, usize, u8); 14] = [
        ("nothing more", "00 02".to_string(), 1500, 4),
        ("dT cut", "00 22 80".to_string(), 1500, 4),
        ("ID cut", "00 42 12".to_string(), 1500, 4),
        ("11 bytes", format!("00 02 {}", &header[..26]), 1500, 4),
        (
            "list cut",
            format!("00 02 81 {} 000000", &header[3..]),
            1500,
            4,
        ),
        ("version", format!("00 02 40 {}", &header[3..]), 1500, 5),
        (
            "version, dT",
            format!("00 22 07 c0 {}", &header[3..]),
            1500,
            5,
        ),
        ("dT unused", format!("00 22 c03f80 {header}"), 1500, 7),
        ("gap 0", format!("00 01 {header} da7a"), 1500, 9),
        ("gap 4", format!("00 05 {header} da7a"), 1500, 9),
        ("gap 4, dT", format!("00 25 07 {header} da7a"), 1500, 9),
        ("too long", format!("00 02 {header} {long}"), 1500, 10),
        ("no room", format!("00 02 {header} da7a"), 41, 11),
        ("no room, dT", format!("00 22 07 {header} da7a"), 0, 11),
    ];
    for (what, bytes, room, number) in rows {
        let mut ends = ready.clone();
        let mut wanted = ends.decompressor.clone();
        if number == 9 {
            wanted.places[0].status = Status::Broken;
        }
        same(what, ends.receive(2, &hex(&bytes), room)?.number, number)?;
        ensure(
            &format!("{what}: wrong table afterwards"),
            ends.decompressor == wanted,
        )?;
        if number == 9 {
            same(what, ends.receive(3, &hex("00 02"), 1500)?.number, 8)?;
        } else {
            ends.rebuilds(3, &hex("00 02 da7a"), &voice(102, 12, 1320))
                .map_err(|found| format!("{what}: {found}"))?;
        }
    }
    Ok(())
}

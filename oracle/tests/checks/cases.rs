//! The scope's table cases and slips, one check each.

use crate::support::{ensure, hex, same, voice, Ends, Outcome, Voice};
use oracle::bytes::Reader;
use oracle::codes;
use oracle::decompressor::Status;
use oracle::mutant::Mutant;

checks!(
    code_cases,
    code_rows_run_in_order,
    every_difference_has_one_code,
    sixteen_bit_differences_as_written,
    timestamp_wraps,
    full_header_length_fields,
    report_bytes,
    compressed_rtp_header,
    compressed_udp_after_three_full_headers,
    fourteen_lost,
    on_pattern_but_still_due,
    checksum_of_all_ones,
    off_pattern_inside_a_run_counts,
    jump_keeps_the_difference,
    three_steps,
    second_flags_replace_the_first,
    empty_context_is_no_gap,
);

fn read_code(mutant: Mutant, bytes: &[u8]) -> Result<i32, u8> {
    let mut reader = Reader::new(bytes);
    codes::read(mutant, &mut reader).map_err(|refusal| refusal.number())
}

/// Starred: difference codes, both ways.
pub fn code_cases(mutant: Mutant) -> Outcome {
    let cases: [(i32, &str); 6] = [
        (-1, "80 7f"),
        (160, "80 a0"),
        (2010, "87 da"),
        (-129, "c0 3f 7f"),
        (16383, "bf ff"),
        (16384, "c0 40 00"),
    ];
    for (difference, bytes) in cases {
        let what = format!("code of {difference}");
        same(&what, codes::encode(difference), Some(hex(bytes)))?;
        same(&what, read_code(mutant, &hex(bytes)), Ok(difference))?;
    }
    same("code of 4194304", codes::encode(4_194_304), None)?;
    same("code of -16385", codes::encode(-16385), None)?;
    same("c0 3f 80", read_code(mutant, &hex("c0 3f 80")), Err(7))?;
    same("c0 3f ff", read_code(mutant, &hex("c0 3f ff")), Err(7))
}

/// First and last of each row of the table.
pub fn code_rows_run_in_order(mutant: Mutant) -> Outcome {
    let ends: [(i32, &str); 10] = [
        (0, "00"),
        (127, "7f"),
        (-128, "80 00"),
        (-1, "80 7f"),
        (128, "80 80"),
        (16383, "bf ff"),
        (-16384, "c0 00 00"),
        (-129, "c0 3f 7f"),
        (16384, "c0 40 00"),
        (4_194_303, "ff ff ff"),
    ];
    for (difference, bytes) in ends {
        let what = format!("row end {difference}");
        same(&what, codes::encode(difference), Some(hex(bytes)))?;
        same(&what, read_code(mutant, &hex(bytes)), Ok(difference))?;
    }
    Ok(())
}

/// Every code there is, read and written again: 128 are unused, the others are as many as there are
/// differences from -16384 to 4194303, and none is read as the same difference as another.
pub fn every_difference_has_one_code(mutant: Mutant) -> Outcome {
    let one = (0..0x80u32).map(|code| vec![code as u8]);
    let two = (0x8000..0xc000u32).map(|code| code.to_be_bytes()[2..].to_vec());
    let three = (0xc0_0000..0x100_0000u32).map(|code| code.to_be_bytes()[1..].to_vec());
    let (mut used, mut unused) = (0, 0);
    for code in one.chain(two).chain(three) {
        match read_code(mutant, &code) {
            Ok(difference) if codes::encode(difference).as_ref() == Some(&code) => used += 1,
            Ok(difference) => return Err(format!("{code:x?} is read as {difference}")),
            Err(7) => unused += 1,
            Err(number) => return Err(format!("{code:x?} is refused {number}")),
        }
    }
    same(
        "used and unused codes",
        (used, unused),
        (16384 + 4_194_304, 128),
    )
}

pub fn sixteen_bit_differences_as_written(_: Mutant) -> Outcome {
    for (difference, written) in [(0, 0), (49151, 49151), (49152, -16384), (65535, -1)] {
        same("16-bit difference", codes::written16(difference), written)?;
    }
    for (difference, written) in [
        (4_194_303, Some(4_194_303)),
        (4_194_304, None),
        (0xffff_ffff, Some(-1)),
        (0xffff_c000, Some(-16384)),
        (0xffff_bfff, None),
    ] {
        same(
            "timestamp difference",
            codes::written32(difference),
            written,
        )?;
    }
    Ok(())
}

/// Timestamp 4294967286 then 4 is a difference of 14: here it repeats one and is adopted.
pub fn timestamp_wraps(mutant: Mutant) -> Outcome {
    let mut ends = Ends::open(mutant, 0, 1);
    ends.link_packet(&voice(7, 1, 4_294_967_272))?;
    ends.sends(
        &voice(8, 2, 4_294_967_286),
        2,
        &hex("00 81 20 ff ff ff f6 da 7a"),
    )?;
    ends.sends(&voice(9, 3, 4), 2, &hex("00 a2 20 0e 00 00 00 04 da 7a"))?;
    // Kept now: 18 follows and nothing is due.
    ends.sends(&voice(10, 4, 18), 3, &hex("00 03 da 7a"))
}

/// Starred: context 3, generation 5, sequence 9.
pub fn full_header_length_fields(mutant: Mutant) -> Outcome {
    let mut ends = Ends::open(mutant, 0, 4);
    for ssrc in 1..=3 {
        let mut other = voice(1, 1, 0);
        other.ssrc = ssrc;
        ends.link_packet(&other)?;
    }
    // Sequences 0 to 4 without a change of TOS, then five changes.
    let mut packet = voice(1, 1, 0);
    for link in 0..=9 {
        if link >= 5 {
            packet.tos += 1;
        }
        let (link_type, bytes) = ends.link_packet(&packet)?;
        let full = link == 0 || link >= 5;
        same("type", link_type, if full { 1 } else { 3 })?;
        if link == 9 {
            same("first length field", &bytes[2..4], &hex("45 03")[..])?;
            same("second length field", &bytes[24..26], &hex("00 09")[..])?;
            same("whole", bytes, packet.full_header(3, 5, 9))?;
        }
        packet = packet.next();
    }
    Ok(())
}

/// Starred: the report on that context with last sequence 4.
pub fn report_bytes(mutant: Mutant) -> Outcome {
    let mut ends = Ends::open(mutant, 0, 4);
    ends.fill(&voice(1, 1, 0), 3, 5, 4)?;
    same("nothing broken", ends.report(0)?.bytes, Vec::new())?;
    same("gap of 0", ends.receive(3, &hex("03 04"), 1500)?.number, 9)?;
    let report = ends.report(5)?;
    same("number", report.number, 0)?;
    same("report", report.bytes, hex("01 01 03 84 05"))
}

/// Starred: the shortest header, 00 86: context 0, sequence 6, marker, no checksum.
pub fn compressed_rtp_header(mutant: Mutant) -> Outcome {
    let mut ends = Ends::open(mutant, 0, 1);
    let mut packet = voice(1, 1, 0);
    for _ in 0..6 {
        ends.link_packet(&packet)?;
        packet = packet.next();
    }
    packet.marker = true;
    ends.sends(&packet, 3, &hex("00 86 da 7a"))
}

/// Starred: N 2, timestamps 10, 20, 30 in FH, then 40 with an ID off pattern.
pub fn compressed_udp_after_three_full_headers(mutant: Mutant) -> Outcome {
    let mut ends = Ends::open(mutant, 2, 1);
    for (id, sequence, timestamp) in [(1, 1, 10), (2, 2, 20), (3, 3, 30)] {
        let (link_type, _) = ends.link_packet(&voice(id, sequence, timestamp))?;
        same("type", link_type, 1)?;
    }
    ends.sends(
        &voice(0x1234, 4, 40),
        2,
        &hex("00 e3 20 0a 12 34 00 00 00 28 da 7a"),
    )
}

/// N 14: fourteen lost, gap 15, accepted; then gap 0 is refused 9.
pub fn fourteen_lost(mutant: Mutant) -> Outcome {
    let mut ends = Ends::open(mutant, 14, 1);
    let mut packet = voice(1, 1, 5);
    for sent in 0..15 {
        let (link_type, bytes) = ends.link_packet(&packet)?;
        same("type in the run", link_type, 1)?;
        if sent == 14 {
            ends.rebuilds(1, &bytes, &packet)?;
        }
        packet = packet.next();
    }
    for _ in 0..14 {
        ends.link_packet(&packet)?;
        packet = packet.next();
    }
    let (link_type, bytes) = ends.link_packet(&packet)?;
    same("link packet", (link_type, &bytes), (3, &hex("00 0d da 7a")))?;
    ends.rebuilds(3, &bytes, &packet)?;
    same("gap of 0", ends.receive(3, &bytes, 1500)?.number, 9)
}

/// N 1; the second FH and the packet after it have the same timestamp, 20.
pub fn on_pattern_but_still_due(mutant: Mutant) -> Outcome {
    let mut ends = Ends::open(mutant, 1, 1);
    ends.sends(&voice(1, 1, 10), 1, &voice(1, 1, 10).full_header(0, 0, 0))?;
    ends.sends(&voice(2, 2, 20), 1, &voice(2, 2, 20).full_header(0, 0, 1))?;
    ends.sends(&voice(3, 3, 20), 2, &hex("00 82 20 00 00 00 14 da 7a"))?;
    ends.sends(&voice(4, 4, 20), 3, &hex("00 03 da 7a"))
}

/// A packet whose right IP checksum is 0000, found by trying IDs.
fn packet_with_checksum_zero() -> Voice {
    (0..=u16::MAX)
        .map(|id| voice(id, 1, 0))
        .find(|packet| packet.bytes()[10..12] == [0, 0])
        .expect("some ID gives 0000")
}

/// Where 0000 is right, FFFF goes plain and 0000 is compressed. An FH with FFFF is refused 5.
pub fn checksum_of_all_ones(mutant: Mutant) -> Outcome {
    let mut ends = Ends::open(mutant, 1, 1);
    let packet = packet_with_checksum_zero();
    let mut wrong = packet.bytes();
    wrong[10..12].copy_from_slice(&[0xff, 0xff]);
    let before = ends.compressor.clone();
    let found = ends.send(&wrong, 1500)?;
    same("type", (found.number, found.link_type), (0, 0))?;
    same("bytes", found.bytes, wrong)?;
    ensure(
        "a plain packet touches no context",
        ends.compressor == before,
    )?;
    ends.sends(&packet, 1, &packet.full_header(0, 0, 0))?;
    let mut full = packet.full_header(0, 0, 0);
    full[10..12].copy_from_slice(&[0xff, 0xff]);
    same("FH with FFFF", ends.receive(1, &full, 1500)?.number, 5)?;
    ends.fill(&packet, 0, 0, 0)
}

/// Slip: an ID, a sequence, a payload type and a list that change in the last FH of a run are still
/// due afterwards.
pub fn off_pattern_inside_a_run_counts(mutant: Mutant) -> Outcome {
    let mut ends = Ends::open(mutant, 1, 1);
    ends.link_packet(&voice(1, 1, 0))?;
    let mut packet = voice(0x500, 9, 0);
    packet.payload_type = 8;
    packet.csrc = vec![0x0102_0304];
    ends.sends(&packet, 1, &packet.full_header(0, 0, 1))?;
    packet = packet.next();
    ends.sends(&packet, 2, &hex("00 c2 51 0501 000a 08 01020304 da7a"))?;
    packet = packet.next();
    ends.sends(&packet, 3, &hex("00 03 da 7a"))
}

/// Slip: 3010 after 1000 keeps 10.
pub fn jump_keeps_the_difference(mutant: Mutant) -> Outcome {
    let mut ends = Ends::open(mutant, 0, 1);
    ends.link_packet(&voice(1, 1, 970))?;
    ends.sends(&voice(2, 2, 980), 2, &hex("00 81 20 00 00 03 d4 da 7a"))?;
    ends.sends(&voice(3, 3, 990), 2, &hex("00 a2 20 0a 00 00 03 de da 7a"))?;
    ends.sends(&voice(4, 4, 1000), 3, &hex("00 03 da 7a"))?;
    ends.sends(&voice(5, 5, 3010), 2, &hex("00 84 20 00 00 0b c2 da 7a"))?;
    ends.sends(&voice(6, 6, 3020), 3, &hex("00 05 da 7a"))?;
    same("kept", ends.compressor.places[0].timestamp_delta, 10)
}

/// Slip: g is 3, so three steps of each field.
pub fn three_steps(mutant: Mutant) -> Outcome {
    let mut ends = Ends::open(mutant, 2, 1);
    ends.fill(&voice(100, 10, 1000), 0, 0, 0)?;
    // dI 5 and dT 160 sent once: CU F dT dI, second byte 0.
    ends.rebuilds(2, &hex("00 b1 00 05 80a0 da7a"), &voice(105, 11, 1160))?;
    ends.rebuilds(3, &hex("00 04 da7a"), &voice(120, 14, 1640))
}

/// Slip: 1111, then a second byte of zeros. No difference follows; M and the list are gone.
pub fn second_flags_replace_the_first(mutant: Mutant) -> Outcome {
    let mut ends = Ends::open(mutant, 2, 1);
    let mut start = voice(100, 10, 1000);
    start.csrc = vec![1, 2];
    start.marker = true;
    ends.fill(&start, 0, 0, 0)?;
    let mut wanted = voice(101, 11, 1000);
    // The data looks like codes to a reader that trusts the first flags.
    wanted.data = hex("05 06 07 08");
    ends.rebuilds(3, &hex("00 f1 00 05 06 07 08"), &wanted)?;
    // S' alone with M': the sequence goes by 5.
    let mut wanted = voice(102, 16, 1000);
    wanted.marker = true;
    wanted.data = hex("06 07 08");
    ends.rebuilds(3, &hex("00 f2 c0 05 06 07 08"), &wanted)
}

/// Slip: an empty context is refused 8 whatever the sequence, and turns broken.
pub fn empty_context_is_no_gap(mutant: Mutant) -> Outcome {
    for link in 0..16 {
        for link_type in [2, 3] {
            let mut ends = Ends::open(mutant, 14, 2);
            let mut wanted = ends.decompressor.clone();
            wanted.places[1].status = Status::Broken;
            let bytes = [1, 0x80 + link, 0, 0, 0];
            let found = ends.receive(link_type, &bytes, 1500)?;
            same("empty context", found.number, 8)?;
            ensure("only broken", ends.decompressor == wanted)?;
            // Still 8 while broken, and nothing more changes.
            same("broken", ends.receive(link_type, &bytes, 1500)?.number, 8)?;
            ensure("stays broken", ends.decompressor == wanted)?;
            same("report", ends.report(5)?.bytes, hex("01 01 01 80 00"))?;
        }
    }
    Ok(())
}

//! What each end sends and rebuilds, worked out by hand from the scope.

use crate::support::{
    ensure, hex, same, set_ip_checksum, voice, Alter, Ends, Outcome, Spoil, Voice,
};
use oracle::decompressor::Status;
use oracle::mutant::Mutant;

checks!(
    compressed_udp_with_everything,
    constants_start_runs,
    a_change_inside_a_run_starts_afresh,
    generation_and_link_wrap,
    full_headers_reset_differences,
    second_packet_has_none_earlier,
    changes_repeat_exactly,
    a_fresh_change_counts_again,
    each_item_alone,
    differences_without_a_code,
    flows_and_contexts,
    only_compressible_packets,
    requests_start_runs,
    request_and_change_both_raise,
    whole_field_and_difference,
    sent_difference_is_the_last_step,
    wide_codes_reduce,
    compressed_udp_with_a_whole_header,
    rtp_header_resets_the_timestamp_delta,
    rtp_header_with_a_sent_delta,
    selected_fields_keep_the_timestamp_delta,
    rtp_header_leaves_the_id_delta,
    carried_zero_checksum,
    lists_replaced_and_kept,
    full_header_from_any_state,
    fields_wrap,
    broken_keeps_its_fields,
    reports_lowest_first,
);

pub fn compressed_udp_with_everything(mutant: Mutant) -> Outcome {
    let mut ends = Ends::open(mutant, 0, 1);
    let mut packet = voice(100, 10, 1000);
    packet.udp_checksum = 0x1111;
    ends.sends(&packet, 1, &packet.full_header(0, 0, 0))?;
    packet = voice(105, 11, 1160);
    packet.udp_checksum = 0x2222;
    ends.sends(&packet, 2, &hex("00 c1 20 2222 0069 00000488 da7a"))?;
    packet = voice(110, 20, 1320);
    packet.udp_checksum = 0x3333;
    packet.payload_type = 8;
    packet.marker = true;
    packet.csrc = vec![0xa1a2_a3a4];
    ends.sends(
        &packet,
        2,
        &hex("00 f2 f1 3333 05 80a0 006e 0014 00000528 08 a1a2a3a4 da7a"),
    )?;
    packet.id = 115;
    packet.sequence = 21;
    packet.timestamp = 1480;
    packet.udp_checksum = 0x4444;
    packet.marker = false;
    ends.sends(&packet, 3, &hex("00 03 4444 da7a"))
}

/// Every field that CU and CR cannot carry: a change gives N+1 FH, generation one higher.
pub fn constants_start_runs(mutant: Mutant) -> Outcome {
    let changes: [(&str, Alter); 7] = [
        ("TOS", |packet| packet.tos = 0xb8),
        ("TTL", |packet| packet.ttl = 63),
        ("DF", |packet| packet.flags ^= 1),
        ("reserved bit", |packet| packet.flags ^= 2),
        ("P", |packet| packet.padding = true),
        ("X", |packet| packet.extension = true),
        ("checksum", |packet| packet.udp_checksum = 0xffff),
    ];
    for (what, change) in changes {
        let mut ends = Ends::open(mutant, 2, 1);
        let mut packet = voice(1, 1, 0);
        for link in 0..3 {
            ends.sends(&packet, 1, &packet.full_header(0, 0, link))?;
            packet = packet.next();
        }
        ends.sends(&packet, 3, &hex("00 03 da7a"))?;
        packet = packet.next();
        change(&mut packet);
        for link in 4..7 {
            ends.sends(&packet, 1, &packet.full_header(0, 1, link))
                .map_err(|found| format!("{what}: {found}"))?;
            packet = packet.next();
        }
        let wanted = if what == "checksum" {
            hex("00 07 ffff da7a")
        } else {
            hex("00 07 da7a")
        };
        ends.sends(&packet, 3, &wanted)?;
    }
    Ok(())
}

pub fn a_change_inside_a_run_starts_afresh(mutant: Mutant) -> Outcome {
    let mut ends = Ends::open(mutant, 2, 1);
    let mut packet = voice(1, 1, 0);
    // Runs of three: generation 0 is cut short by a change, generation 1 by another.
    for (link, tos, generation) in [
        (0, 0, 0),
        (1, 0, 0),
        (2, 8, 1),
        (3, 8, 1),
        (4, 0, 2),
        (5, 0, 2),
        (6, 0, 2),
    ] {
        packet.tos = tos;
        ends.sends(&packet, 1, &packet.full_header(0, generation, link))?;
        packet = packet.next();
    }
    ends.sends(&packet, 3, &hex("00 07 da7a"))
}

/// 70 changes of TOS at N 0: generation modulo 64, link sequence modulo 16.
pub fn generation_and_link_wrap(mutant: Mutant) -> Outcome {
    let mut ends = Ends::open(mutant, 0, 1);
    let mut packet = voice(1, 1, 0);
    for number in 0..=70u8 {
        packet.tos = number;
        let wanted = packet.full_header(0, number % 64, number % 16);
        ends.sends(&packet, 1, &wanted)?;
        packet = packet.next();
    }
    // The last FH had link sequence 6.
    ends.sends(&packet, 3, &hex("00 07 da7a"))
}

/// An adopted difference of 10 that is still repeating is forgotten by the run that a request starts.
pub fn full_headers_reset_differences(mutant: Mutant) -> Outcome {
    let mut ends = Ends::open(mutant, 1, 1);
    let packet = |number: u16| voice(number, number, 10 * u32::from(number));
    ends.sends(&packet(0), 1, &packet(0).full_header(0, 0, 0))?;
    ends.sends(&packet(1), 1, &packet(1).full_header(0, 0, 1))?;
    ends.sends(&packet(2), 2, &hex("00 a2 20 0a 00000014 da7a"))?;
    same("request", ends.request(&hex("01 01 00 82 00"))?, 0)?;
    ends.sends(&packet(3), 1, &packet(3).full_header(0, 1, 3))?;
    same(
        "repeating",
        ends.compressor.places[0].timestamp_delta_due,
        0,
    )?;
    ends.sends(&packet(4), 1, &packet(4).full_header(0, 1, 4))?;
    ends.sends(&packet(5), 2, &hex("00 a5 20 0a 00000032 da7a"))?;
    ends.sends(&packet(6), 2, &hex("00 a6 20 0a 0000003c da7a"))?;
    ends.sends(&packet(7), 3, &hex("00 07 da7a"))
}

/// N 0: the second packet is no FH, but there is nothing it could repeat, not even a step of 0.
pub fn second_packet_has_none_earlier(mutant: Mutant) -> Outcome {
    let mut ends = Ends::open(mutant, 0, 1);
    ends.link_packet(&voice(5, 1, 0))?;
    ends.sends(&voice(5, 2, 0), 2, &hex("00 c1 00 0005 da7a"))?;
    ends.sends(&voice(5, 3, 0), 2, &hex("00 d2 00 00 0005 da7a"))?;
    ends.sends(&voice(5, 4, 0), 3, &hex("00 03 da7a"))
}

/// N 3: a change of each item is in exactly four packets.
pub fn changes_repeat_exactly(mutant: Mutant) -> Outcome {
    let mut ends = Ends::open(mutant, 3, 1);
    let mut packet = voice(1, 1, 0);
    for link in 0..4 {
        ends.sends(&packet, 1, &packet.full_header(0, 0, link))?;
        packet = packet.next();
    }
    packet.id = 0x1000;
    packet.sequence = 0x2000;
    packet.timestamp = 0x3000_0000;
    packet.payload_type = 96;
    packet.csrc = vec![7];
    for more in 0..4u8 {
        let mut wanted = vec![0, 0xc4 + more, 0x71];
        wanted.extend([
            0x10, more, 0x20, more, 0x30, 0, 0, 0, 96, 0, 0, 0, 7, 0xda, 0x7a,
        ]);
        ends.sends(&packet, 2, &wanted)?;
        packet = packet.next();
    }
    ends.sends(&packet, 3, &hex("00 08 da7a"))
}

/// N 2: an ID jump, and another while the first is still due.
pub fn a_fresh_change_counts_again(mutant: Mutant) -> Outcome {
    let mut ends = Ends::open(mutant, 2, 1);
    for (id, link) in [(1, 0), (2, 1), (3, 2)] {
        let packet = voice(id, id, 0);
        ends.sends(&packet, 1, &packet.full_header(0, 0, link))?;
    }
    ends.sends(&voice(0x20, 4, 0), 2, &hex("00 c3 00 0020 da7a"))?;
    ends.sends(&voice(0x21, 5, 0), 2, &hex("00 c4 00 0021 da7a"))?;
    ends.sends(&voice(0x30, 6, 0), 2, &hex("00 c5 00 0030 da7a"))?;
    ends.sends(&voice(0x31, 7, 0), 2, &hex("00 c6 00 0031 da7a"))?;
    ends.sends(&voice(0x32, 8, 0), 2, &hex("00 c7 00 0032 da7a"))?;
    ends.sends(&voice(0x33, 9, 0), 3, &hex("00 08 da7a"))
}

/// N 0: one item at a time; the second flags byte and the list are in every CU.
pub fn each_item_alone(mutant: Mutant) -> Outcome {
    let mut ends = Ends::open(mutant, 0, 1);
    let mut packet = voice(1, 1, 0);
    packet.csrc = vec![9];
    ends.link_packet(&packet)?;
    packet = packet.next();
    packet.sequence = 0x40;
    ends.sends(&packet, 2, &hex("00 81 41 0040 00000009 da7a"))?;
    packet = packet.next();
    packet.timestamp = 0x50;
    ends.sends(&packet, 2, &hex("00 82 21 00000050 00000009 da7a"))?;
    packet = packet.next();
    packet.payload_type = 127;
    ends.sends(&packet, 2, &hex("00 83 11 7f 00000009 da7a"))?;
    packet = packet.next();
    packet.csrc = vec![9, 10];
    packet.marker = true;
    ends.sends(&packet, 2, &hex("00 84 82 00000009 0000000a da7a"))?;
    packet = packet.next();
    packet.csrc = vec![10, 9];
    packet.marker = false;
    ends.sends(&packet, 2, &hex("00 85 02 0000000a 00000009 da7a"))?;
    packet = packet.next();
    packet.csrc.clear();
    ends.sends(&packet, 2, &hex("00 86 00 da7a"))?;
    packet = packet.next();
    ends.sends(&packet, 3, &hex("00 07 da7a"))
}

/// N 0: equal steps just inside the code range are adopted at the third packet, just outside never.
pub fn differences_without_a_code(mutant: Mutant) -> Outcome {
    for (step, code) in [
        (4_194_303, Some("ff ff ff")),
        (4_194_304, None),
        (0u32.wrapping_sub(16384), Some("c0 00 00")),
        (0u32.wrapping_sub(16385), None),
    ] {
        let mut ends = Ends::open(mutant, 0, 1);
        let time = |number: u32| step.wrapping_mul(number);
        ends.link_packet(&voice(0, 0, 0))?;
        ends.link_packet(&voice(1, 1, time(1)))?;
        let whole = |number: u32, flags: u8| {
            let mut bytes = vec![0, flags, 0x20];
            if flags & 0x20 != 0 {
                bytes.extend(hex(code.unwrap_or("")));
            }
            bytes.extend(time(number).to_be_bytes());
            bytes.extend([0xda, 0x7a]);
            bytes
        };
        if code.is_some() {
            ends.sends(&voice(2, 2, time(2)), 2, &whole(2, 0xa2))?;
            ends.sends(&voice(3, 3, time(3)), 3, &hex("00 03 da7a"))?;
        } else {
            ends.sends(&voice(2, 2, time(2)), 2, &whole(2, 0x82))?;
            ends.sends(&voice(3, 3, time(3)), 2, &whole(3, 0x83))?;
        }
    }
    // Every ID step has a code: 49152 is written as -16384, 49151 as itself.
    for (step, code) in [(49152, "c0 00 00"), (49151, "c0 bf ff"), (65535, "80 7f")] {
        let mut ends = Ends::open(mutant, 0, 1);
        ends.link_packet(&voice(0, 0, 0))?;
        ends.link_packet(&voice(step, 1, 0))?;
        let id = step.wrapping_mul(2);
        let wanted = [
            &hex("00 d2 00"),
            &hex(code)[..],
            &id.to_be_bytes(),
            &[0xda, 0x7a],
        ]
        .concat();
        ends.sends(&voice(id, 2, 0), 2, &wanted)?;
    }
    Ok(())
}

/// Each part of the flow takes another context; when all are used, new flows go plain.
pub fn flows_and_contexts(mutant: Mutant) -> Outcome {
    let mut ends = Ends::open(mutant, 0, 5);
    let others: [Alter; 6] = [
        |_| {},
        |packet| packet.source[3] += 1,
        |packet| packet.destination[0] += 1,
        |packet| packet.sport += 1,
        |packet| packet.dport += 2,
        |packet| packet.ssrc += 1,
    ];
    let mut packets: Vec<Voice> = Vec::new();
    for (place, change) in others.iter().enumerate() {
        let mut packet = voice(1, 1, 0);
        change(&mut packet);
        if place < 5 {
            ends.sends(&packet, 1, &packet.full_header(place as u8, 0, 0))?;
        } else {
            let before = ends.compressor.clone();
            ends.sends(&packet, 0, &packet.bytes())?;
            ensure("plain touches no context", ends.compressor == before)?;
        }
        packets.push(packet);
    }
    for (place, packet) in packets[..5].iter().enumerate() {
        let wanted = [place as u8, 1, 0xda, 0x7a];
        ends.sends(&packet.next(), 3, &wanted)?;
    }
    // Two contexts with one flow can only be written by hand; the lower one is taken.
    ends.compressor.places[0] = ends.compressor.places[3];
    let next = packets[3].next().next();
    ends.sends(&next, 3, &hex("00 02 da7a"))
}

/// Each condition broken alone, with all others put right, makes the packet go plain.
pub fn only_compressible_packets(mutant: Mutant) -> Outcome {
    let changes: [(&str, bool, Spoil); 17] = [
        ("version and header length", true, |bytes| bytes[0] = 0x46),
        ("IP version", true, |bytes| bytes[0] = 0x55),
        ("IP length high", true, |bytes| bytes[3] += 1),
        ("IP length low", true, |bytes| bytes[3] -= 1),
        ("MF", true, |bytes| bytes[6] |= 0x20),
        ("offset high", true, |bytes| bytes[6] |= 0x10),
        ("offset low", true, |bytes| bytes[7] = 1),
        ("protocol", true, |bytes| bytes[9] = 6),
        ("IP checksum", false, |bytes| bytes[11] ^= 1),
        ("UDP length high", true, |bytes| bytes[25] += 1),
        ("UDP length low", true, |bytes| bytes[25] -= 1),
        ("destination port", true, |bytes| bytes[23] |= 1),
        ("RTP version 3", true, |bytes| bytes[28] |= 0x40),
        ("RTP version 0", true, |bytes| bytes[28] &= 0x3f),
        ("CSRC list", true, |bytes| bytes[28] |= 1),
        ("one byte more", true, |bytes| bytes.push(0)),
        ("39 bytes", true, |bytes| {
            bytes.truncate(39);
            bytes[3] = 39;
            bytes[25] = 19;
        }),
    ];
    for (what, repair, change) in changes {
        let mut ends = Ends::open(mutant, 0, 1);
        let mut bytes = voice(1, 1, 0).bytes();
        change(&mut bytes);
        if repair {
            set_ip_checksum(&mut bytes);
        }
        let before = ends.compressor.clone();
        let found = ends.send(&bytes, bytes.len())?;
        same(
            what,
            (found.number, found.link_type, &found.bytes),
            (0, 0, &bytes),
        )?;
        ensure("plain touches no context", ends.compressor == before)?;
    }
    // Just compressible: no payload at all, a list that ends the packet, 1,500 bytes.
    let mut empty = voice(1, 1, 0);
    empty.data.clear();
    let mut list = empty.clone();
    list.csrc = (1..=15).collect();
    let mut long = empty.clone();
    long.data = vec![3; 1460];
    for packet in [empty, list, long] {
        let mut ends = Ends::open(mutant, 0, 1);
        ends.sends(&packet, 1, &packet.full_header(0, 0, 0))?;
    }
    Ok(())
}

pub fn requests_start_runs(mutant: Mutant) -> Outcome {
    let mut ends = Ends::open(mutant, 1, 3);
    let mut packet = voice(1, 1, 0);
    ends.sends(&packet, 1, &packet.full_header(0, 0, 0))?;
    // Skipped: still due; top bit 0; unused. None of them raises the generation.
    same("still due", ends.request(&hex("01 01 00 80 00"))?, 0)?;
    packet = packet.next();
    ends.sends(&packet, 1, &packet.full_header(0, 0, 1))?;
    let before = ends.compressor.clone();
    same(
        "skipped",
        ends.request(&hex("01 03 00 0f 3f 01 80 00 02 8f 3f"))?,
        0,
    )?;
    ensure("skipped changes nothing", ends.compressor == before)?;
    packet = packet.next();
    ends.sends(&packet, 3, &hex("00 02 da7a"))?;
    // Twice in one request: the second finds the run of the first. Sequence and generation in
    // the record do not matter.
    same("run", ends.request(&hex("01 02 00 8d 3f 00 80 00"))?, 0)?;
    same("still due again", ends.request(&hex("01 01 00 80 00"))?, 0)?;
    for link in 3..5 {
        packet = packet.next();
        ends.sends(&packet, 1, &packet.full_header(0, 1, link))?;
    }
    packet = packet.next();
    ends.sends(&packet, 3, &hex("00 05 da7a"))
}

pub fn request_and_change_both_raise(mutant: Mutant) -> Outcome {
    let mut ends = Ends::open(mutant, 0, 1);
    let mut packet = voice(1, 1, 0);
    ends.link_packet(&packet)?;
    same("request", ends.request(&hex("01 01 00 80 00"))?, 0)?;
    packet = packet.next();
    packet.tos = 1;
    ends.sends(&packet, 1, &packet.full_header(0, 2, 1))?;
    packet = packet.next();
    ends.sends(&packet, 3, &hex("00 02 da7a"))
}

/// CU with I and dI, T and dT: the whole values are taken, the differences kept for later.
pub fn whole_field_and_difference(mutant: Mutant) -> Outcome {
    let mut ends = Ends::open(mutant, 1, 1);
    ends.fill(&voice(100, 10, 1000), 0, 0, 15)?;
    let bytes = hex("00 f0 20 05 80a0 0200 00002000 da7a");
    ends.rebuilds(2, &bytes, &voice(0x200, 11, 0x2000))?;
    ends.rebuilds(3, &hex("00 02 da7a"), &voice(0x20a, 13, 0x2140))
}

/// g of 3 with differences sent: two kept steps, then the sent one, which is kept but for the sequence.
pub fn sent_difference_is_the_last_step(mutant: Mutant) -> Outcome {
    let mut ends = Ends::open(mutant, 2, 1);
    ends.fill(&voice(100, 10, 1000), 0, 0, 0)?;
    ends.rebuilds(2, &hex("00 b1 00 05 80a0 da7a"), &voice(105, 11, 1160))?;
    // CR with S, T, I: ID by 7, sequence by 4, timestamp by -1.
    ends.rebuilds(3, &hex("00 74 07 04 807f da7a"), &voice(122, 17, 1479))?;
    ends.rebuilds(3, &hex("00 05 da7a"), &voice(129, 18, 1478))?;
    // CU with dT and dI alone, g of 2: one kept step, then 2 and 3.
    ends.rebuilds(2, &hex("00 b7 00 02 03 da7a"), &voice(138, 20, 1480))?;
    ends.rebuilds(3, &hex("00 08 da7a"), &voice(140, 21, 1483))
}

/// Codes wider than the field: 65535 is -1, 65536 is 0, 65541 is 5.
pub fn wide_codes_reduce(mutant: Mutant) -> Outcome {
    let mut ends = Ends::open(mutant, 0, 1);
    ends.fill(&voice(100, 10, 0), 0, 0, 0)?;
    ends.rebuilds(3, &hex("00 11 c0ffff da7a"), &voice(99, 11, 0))?;
    ends.rebuilds(3, &hex("00 42 c10000 da7a"), &voice(98, 11, 0))?;
    ends.rebuilds(3, &hex("00 13 c10005 da7a"), &voice(103, 12, 0))?;
    same("kept", ends.decompressor.places[0].id_delta, 5)?;
    // A negative timestamp difference is kept modulo 2^32.
    ends.rebuilds(3, &hex("00 24 c00000 da7a"), &voice(108, 13, 0xffff_c000))?;
    ends.rebuilds(3, &hex("00 05 da7a"), &voice(113, 14, 0xffff_8000))
}

/// CU without F: every RTP field is taken into the context.
pub fn compressed_udp_with_a_whole_header(mutant: Mutant) -> Outcome {
    let mut ends = Ends::open(mutant, 2, 1);
    let mut start = voice(100, 10, 1000);
    start.udp_checksum = 0x7777;
    start.csrc = vec![1, 2, 3];
    ends.fill(&start, 0, 0, 0)?;
    // dT 10 by CR with T.
    let mut packet = start.next();
    packet.timestamp = 1010;
    ends.rebuilds(3, &hex("00 21 7777 0a da7a"), &packet)?;
    // F 0, I and dI: ID 0x300, kept step 4. P, X, M, CC 1, payload type 5, other SSRC.
    packet.id = 0x300;
    packet.udp_checksum = 0x0102;
    packet.padding = true;
    packet.extension = true;
    packet.marker = true;
    packet.payload_type = 5;
    packet.sequence = 0x4000;
    packet.timestamp = 0x0500_0000;
    packet.ssrc = 0x99aa_bbcc;
    packet.csrc = vec![0xdead_beef];
    let bytes = hex("00 52 0102 04 0300 b1 85 4000 05000000 99aabbcc deadbeef da7a");
    ends.rebuilds(2, &bytes, &packet)?;
    // CR after a gap of 2: ID by 8, timestamp by nothing, the rest as taken; M of its own. Over a gap the checksum must be
    // right: addresses, protocol, ports and twice the length 1a are 3b62, and
    // 3b62+b105+4002+0500+0000+99aa+bbcc+dead+beef+da7a = 4fef5, folded fef9.
    packet.id = 0x308;
    packet.sequence = 0x4002;
    packet.marker = false;
    packet.udp_checksum = 0x0106;
    ends.rebuilds(3, &hex("00 04 0106 da7a"), &packet)?;
    // F 0 with dT 7 and neither I nor dI: the header's timestamp is taken, 7 is kept; ID goes on.
    packet.udp_checksum = 0xffff;
    packet.id = 0x30c;
    packet.sequence = 1;
    packet.timestamp = 2;
    packet.padding = false;
    packet.csrc.clear();
    let bytes = hex("00 25 ffff 07 90 05 0001 00000002 99aabbcc da7a");
    ends.rebuilds(2, &bytes, &packet)?;
    packet.id = 0x310;
    packet.sequence = 2;
    packet.timestamp = 9;
    ends.rebuilds(3, &hex("00 06 ffff da7a"), &packet)
}

/// CU without F and without dT: the 160 kept before is gone, and the timestamp stands still until another
/// difference is sent.
pub fn rtp_header_resets_the_timestamp_delta(mutant: Mutant) -> Outcome {
    let mut reset = Ends::with_timestamp_delta(mutant)?;
    let bytes = hex("00 02 80 00 000c 00002000 11223344 da7a");
    reset.rebuilds(2, &bytes, &voice(102, 12, 0x2000))?;
    same("kept", reset.decompressor.places[0].timestamp_delta, 0)?;
    // Right after it: CR at once and over a gap of 3, with I of 5 both times too; CU with F and no more.
    for (link_type, bytes, packet) in [
        (3, "00 03 da7a", voice(103, 13, 0x2000)),
        (3, "00 05 da7a", voice(105, 15, 0x2000)),
        (3, "00 13 05 da7a", voice(107, 13, 0x2000)),
        (3, "00 15 05 da7a", voice(109, 15, 0x2000)),
        (2, "00 83 00 da7a", voice(103, 13, 0x2000)),
        (2, "00 85 00 da7a", voice(105, 15, 0x2000)),
        // With T of 10 over a gap of 3: two steps of 0, then one of 10.
        (3, "00 25 0a da7a", voice(105, 15, 0x200a)),
        (2, "00 a5 00 0a da7a", voice(105, 15, 0x200a)),
    ] {
        reset.clone().rebuilds(link_type, &hex(bytes), &packet)?;
    }
    // One after the other, and a second whole header where the difference is 0 already.
    let mut ends = reset;
    ends.rebuilds(3, &hex("00 03 da7a"), &voice(103, 13, 0x2000))?;
    ends.rebuilds(3, &hex("00 06 da7a"), &voice(106, 16, 0x2000))?;
    ends.rebuilds(3, &hex("00 17 05 da7a"), &voice(111, 17, 0x2000))?;
    let bytes = hex("00 08 80 00 0030 00003000 11223344 da7a");
    ends.rebuilds(2, &bytes, &voice(116, 0x30, 0x3000))?;
    ends.rebuilds(3, &hex("00 09 da7a"), &voice(121, 0x31, 0x3000))?;
    ends.rebuilds(3, &hex("00 2a 0a da7a"), &voice(126, 0x32, 0x300a))?;
    ends.rebuilds(3, &hex("00 0b da7a"), &voice(131, 0x33, 0x3014))?;
    // Two packets lost before the whole header: its timestamp is taken all the same.
    let mut ends = Ends::with_timestamp_delta(mutant)?;
    let bytes = hex("00 04 80 00 000e 00002000 11223344 da7a");
    ends.rebuilds(2, &bytes, &voice(104, 14, 0x2000))?;
    ends.rebuilds(3, &hex("00 05 da7a"), &voice(105, 15, 0x2000))
}

/// CU without F and with dT, at once and over a gap of 3: the timestamp is the header's, and from there it
/// goes on by the difference sent, whatever that is.
pub fn rtp_header_with_a_sent_delta(mutant: Mutant) -> Outcome {
    for (code, delta) in [
        ("80f0", 240),
        ("c03f60", -160),
        ("807f", -1),
        ("00", 0),
        ("80a0", 160),
        ("ffffff", 4_194_303),
        ("c00000", -16384),
    ] {
        for gap in [1, 3] {
            let mut ends = Ends::with_timestamp_delta(mutant)?;
            let link = 1 + gap;
            let header = hex("80 00 0040 00002000 11223344 da7a");
            let bytes = [vec![0, 0x20 + link], hex(code), header].concat();
            let mut packet = voice(101 + u16::from(gap), 0x40, 0x2000);
            ends.rebuilds(2, &bytes, &packet)?;
            packet = packet.next();
            packet.timestamp = packet.timestamp.wrapping_add_signed(delta);
            ends.rebuilds(3, &[0, link + 1, 0xda, 0x7a], &packet)?;
            packet = packet.next().next();
            packet.timestamp = packet.timestamp.wrapping_add_signed(2 * delta);
            ends.rebuilds(3, &[0, link + 3, 0xda, 0x7a], &packet)?;
        }
    }
    Ok(())
}

/// CU with F and without dT: 160 stays, with T whole and without T.
pub fn selected_fields_keep_the_timestamp_delta(mutant: Mutant) -> Outcome {
    let ready = Ends::with_timestamp_delta(mutant)?;
    for (bytes, packet, next) in [
        // T; T over a gap of 3.
        ("00 82 20 00002000 da7a", voice(102, 12, 0x2000), 0x20a0),
        ("00 84 20 00002000 da7a", voice(104, 14, 0x2000), 0x20a0),
        // Nothing; nothing over a gap of 3; S; I and dI of 1.
        ("00 82 00 da7a", voice(102, 12, 1320), 1480),
        ("00 84 00 da7a", voice(104, 14, 1640), 1800),
        ("00 82 40 0040 da7a", voice(102, 0x40, 1320), 1480),
        ("00 d2 00 01 0200 da7a", voice(0x200, 12, 1320), 1480),
    ] {
        let mut ends = ready.clone();
        let bytes = hex(bytes);
        ends.rebuilds(2, &bytes, &packet)?;
        let next = Voice {
            timestamp: next,
            ..packet.next()
        };
        let link = bytes[1] % 16 + 1;
        ends.rebuilds(3, &[0, link, 0xda, 0x7a], &next)?;
    }
    Ok(())
}

/// CU without F and the kept difference of the ID, here 5: it stays unless dI brings another, with I and
/// without.
pub fn rtp_header_leaves_the_id_delta(mutant: Mutant) -> Outcome {
    let mut ready = Ends::open(mutant, 2, 1);
    ready.fill(&voice(100, 10, 1000), 0, 0, 0)?;
    ready.rebuilds(2, &hex("00 b1 00 05 80a0 da7a"), &voice(105, 11, 1160))?;
    for (front, id, next) in [
        // Neither; neither over a gap of 3; dT of 0 alone.
        ("00 02", 110, 115),
        ("00 04", 120, 125),
        ("00 22 00", 110, 115),
        // I; I over a gap of 3.
        ("00 42 1234", 0x1234, 0x1239),
        ("00 44 1234", 0x1234, 0x1239),
        // dI of 7; over a gap of 3 two steps of 5 and one of 7; dI of -1.
        ("00 12 07", 112, 119),
        ("00 14 07", 122, 129),
        ("00 12 807f", 104, 103),
        // I and dI of 7.
        ("00 52 07 1234", 0x1234, 0x123b),
    ] {
        let mut ends = ready.clone();
        let header = hex("80 00 0040 00002000 11223344 da7a");
        let bytes = [hex(front), header].concat();
        ends.rebuilds(2, &bytes, &voice(id, 0x40, 0x2000))?;
        let link = bytes[1] % 16 + 1;
        ends.rebuilds(3, &[0, link, 0xda, 0x7a], &voice(next, 0x41, 0x2000))?;
    }
    Ok(())
}

/// A 0000 in a context that carries checksums is rebuilt as it came and changes nothing.
pub fn carried_zero_checksum(mutant: Mutant) -> Outcome {
    let mut ends = Ends::open(mutant, 0, 1);
    let mut packet = voice(1, 1, 0);
    packet.udp_checksum = 5;
    ends.fill(&packet, 0, 0, 0)?;
    for (bytes, checksum) in [("00 01 0000 da7a", 0), ("00 02 1234 da7a", 0x1234)] {
        packet = packet.next();
        packet.udp_checksum = checksum;
        ends.rebuilds(3, &hex(bytes), &packet)?;
    }
    packet = packet.next();
    packet.udp_checksum = 0;
    ends.rebuilds(2, &hex("00 83 00 0000 da7a"), &packet)?;
    packet = packet.next();
    packet.udp_checksum = 9;
    ends.rebuilds(3, &hex("00 04 0009 da7a"), &packet)?;
    // An FH with a blank checksum ends it, and the other way round.
    packet = packet.next();
    packet.udp_checksum = 0;
    ends.fill(&packet, 0, 0, 9)?;
    packet = packet.next();
    packet.data = hex("0005");
    ends.rebuilds(3, &hex("00 0a 0005"), &packet)
}

pub fn lists_replaced_and_kept(mutant: Mutant) -> Outcome {
    let mut ends = Ends::open(mutant, 0, 1);
    let mut packet = voice(1, 1, 0);
    packet.csrc = vec![1, 2];
    ends.fill(&packet, 0, 0, 0)?;
    // CR keeps the list.
    packet = packet.next();
    ends.rebuilds(3, &hex("00 01 da7a"), &packet)?;
    // CR 1111 with T' of 6 and a list of one; ID and sequence go on.
    packet = packet.next();
    packet.timestamp = 6;
    packet.csrc = vec![3];
    ends.rebuilds(3, &hex("00 f2 21 06 00000003 da7a"), &packet)?;
    // CU with F and CC 15.
    packet = packet.next();
    packet.timestamp = 12;
    packet.csrc = (1..=15).collect();
    let mut bytes = hex("00 83 0f");
    for word in 1..=15u32 {
        bytes.extend(word.to_be_bytes());
    }
    bytes.extend([0xda, 0x7a]);
    ends.rebuilds(2, &bytes, &packet)?;
    // CU with F and CC 0 empties it; nothing of the old words may stay behind.
    packet = packet.next();
    packet.timestamp = 18;
    packet.csrc.clear();
    ends.rebuilds(2, &hex("00 84 00 da7a"), &packet)?;
    same("words", ends.decompressor.places[0].fields.csrc, [0; 15])?;
    packet = packet.next();
    packet.timestamp = 24;
    ends.rebuilds(3, &hex("00 05 da7a"), &packet)
}

/// FH fills a context that is empty, broken or live at any sequence; odd ports are not judged.
pub fn full_header_from_any_state(mutant: Mutant) -> Outcome {
    let mut ends = Ends::open(mutant, 0, 1);
    same("empty", ends.receive(3, &hex("00 01"), 1500)?.number, 8)?;
    let mut packet = voice(1, 1, 0);
    packet.dport = 5007;
    ends.fill(&packet, 0, 63, 15)?;
    // Kept differences made other than 1 and 0, then FH at the same sequence, generation lower.
    let mut next = packet.next();
    next.id = 5;
    next.timestamp = 9;
    ends.rebuilds(2, &hex("00 b0 00 04 09 da7a"), &next)?;
    ends.fill(&packet, 0, 2, 0)?;
    let context = ends.decompressor.places[0];
    same("state", context.status, Status::Live)?;
    same(
        "differences",
        (context.id_delta, context.timestamp_delta),
        (1, 0),
    )?;
    same(
        "sequence and generation",
        (context.last_link, context.generation),
        (0, 2),
    )?;
    ends.rebuilds(3, &hex("00 01 da7a"), &packet.next())
}

pub fn fields_wrap(mutant: Mutant) -> Outcome {
    let mut ends = Ends::open(mutant, 2, 1);
    ends.fill(&voice(65534, 65534, u32::MAX), 0, 0, 14)?;
    // dT 1 (CR with T), gap 1: timestamp 0.
    ends.rebuilds(3, &hex("00 2f 01 da7a"), &voice(65535, 65535, 0))?;
    ends.rebuilds(3, &hex("00 02 da7a"), &voice(2, 2, 3))?;
    // dI -1, dT -1 over a gap of 2: one kept step forward, one sent step back.
    ends.rebuilds(3, &hex("00 34 807f 807f da7a"), &voice(2, 4, 3))?;
    ends.rebuilds(3, &hex("00 07 da7a"), &voice(65535, 7, 0))
}

/// After a refusal 9 the report still has the last accepted sequence and the generation, and an FH
/// makes the context live again.
pub fn broken_keeps_its_fields(mutant: Mutant) -> Outcome {
    let mut ends = Ends::open(mutant, 1, 2);
    let packet = voice(1, 1, 0);
    ends.fill(&packet, 1, 9, 3)?;
    ends.rebuilds(3, &hex("01 05 da7a"), &packet.next().next())?;
    let mut wanted = ends.decompressor.clone();
    wanted.places[1].status = Status::Broken;
    same(
        "gap of 3",
        ends.receive(3, &hex("01 08 da7a"), 1500)?.number,
        9,
    )?;
    ensure("only the state", ends.decompressor == wanted)?;
    same(
        "next in order",
        ends.receive(3, &hex("01 06 da7a"), 1500)?.number,
        8,
    )?;
    ensure("stays broken", ends.decompressor == wanted)?;
    same("report", ends.report(1500)?.bytes, hex("01 01 01 85 09"))?;
    ends.fill(&packet, 1, 10, 7)?;
    same("report", ends.report(1500)?.bytes, Vec::new())
}

pub fn reports_lowest_first(mutant: Mutant) -> Outcome {
    let mut ends = Ends::open(mutant, 0, 64);
    ends.fill(&voice(1, 1, 0), 5, 1, 2)?;
    ends.fill(&voice(1, 1, 0), 9, 63, 15)?;
    ends.fill(&voice(1, 1, 0), 20, 1, 1)?;
    for (bytes, number) in [("09 0f", 9), ("3f 00", 8), ("05 04", 9), ("00 09", 8)] {
        same(
            "broken by",
            ends.receive(3, &hex(bytes), 1500)?.number,
            number,
        )?;
    }
    let wanted = hex("01 04 00 80 00 05 82 01 09 8f 3f 3f 80 00");
    same("short", ends.report(13)?.number, 11)?;
    same("report", ends.report(14)?.bytes, wanted)?;
    // All 64 broken: 194 bytes.
    for place in 0..64 {
        ends.receive(3, &[place, 1], 1500)?;
        ends.receive(3, &[place, 1], 1500)?;
    }
    let report = ends.report(194)?;
    same(
        "all",
        (report.number, report.bytes.len(), report.bytes[1]),
        (0, 194, 64),
    )
}

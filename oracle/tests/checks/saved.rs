//! Saved tables: the bytes of files worked by hand, every refusal of a load where it stands, and lists of
//! calls that save and load.

use crate::lists::{keep_to_premise, new_flow, next_packet, row_of_losses, Flow, InFlight};
use crate::support::{ensure, hex, same, voice, Ends, Given, Outcome, Spoil, Voice};
use oracle::decompressor::{self, Context, Status, Table};
use oracle::files;
use oracle::mutant::Mutant;
use oracle::prng::Prng;
use std::collections::{HashMap, HashSet, VecDeque};

checks!(
    opened_tables,
    a_live_context,
    marker_and_checksum,
    kept_differences,
    differences_after_an_rtp_header,
    contexts_of_every_kind,
    every_list_length,
    the_longest_file,
    saving_refuses,
    loading_gives_the_same_table,
    any_table_may_be_handed_in,
    length_field,
    settings_fields,
    record_fields,
    never_filled_contexts,
    header_lengths,
    header_forms,
    free_header_fields,
    cut_at_every_byte,
    left_over_bytes,
    the_leftmost_fault_decides,
    every_byte_changed,
    random_tables,
    some_lists_with_saves,
);

/// One change to a table or to a context, for tables of changes.
type TableChange = fn(&mut Table);
type ContextChange = fn(&mut Context);

// What is saved

fn saves(what: &str, ends: &Ends, file: &[u8]) -> Outcome {
    let wanted = Given {
        number: 0,
        link_type: 0,
        bytes: file.to_vec(),
    };
    same(what, ends.save(file.len())?, wanted.clone())?;
    same(what, ends.save(16_384)?, wanted)
}

/// No context has been used: settings and a 0 for each.
pub fn opened_tables(mutant: Mutant) -> Outcome {
    let rows = [
        (2, 3, hex("0006 01 02 03 00 00 00")),
        (0, 1, hex("0004 01 00 01 00")),
        (14, 2, hex("0005 01 0e 02 00 00")),
        // 3 and 64 are 43 hex.
        (14, 64, [hex("0043 01 0e 40"), vec![0; 64]].concat()),
    ];
    for (repeats, contexts, file) in rows {
        saves("opened", &Ends::open(mutant, repeats, contexts), &file)?;
    }
    Ok(())
}

/// A packet with something in every field: TOS b8, ID 1234, DF, TTL 64, ports 5004 and 5006, payload type
/// 96, sequence 7, timestamp 100 hex.
fn packet() -> Voice {
    Voice {
        tos: 0xb8,
        payload_type: 96,
        ..voice(0x1234, 7, 0x100)
    }
}

/// Its header as files have it.
const HEADER: &str = "45 b8 0000 1234 4000 40 11 0000 0a000001 0a000002 138c 138e 0000 0000
                      80 60 0007 00000100 11223344";

/// 3 bytes, 10 and 40: 35 hex. Generation 5, link sequence 9, differences 1 and 0 as FH leaves them.
fn live_file() -> Vec<u8> {
    [hex("0035 01 01 01  01 05 09 0001 00000000 28"), hex(HEADER)].concat()
}

fn live_ends(mutant: Mutant) -> Result<Ends, String> {
    let mut ends = Ends::open(mutant, 1, 1);
    ends.fill(&packet(), 0, 5, 9)?;
    Ok(ends)
}

pub fn a_live_context(mutant: Mutant) -> Outcome {
    saves("live", &live_ends(mutant)?, &live_file())
}

/// Marker, P and X, reserved bit, an odd port, and a checksum of any number but 0, which is saved as FFFF.
pub fn marker_and_checksum(mutant: Mutant) -> Outcome {
    let rows = [
        (false, 0x0000, "0000 80 60"),
        (true, 0x0000, "0000 80 e0"),
        (false, 0x7777, "ffff 80 60"),
        (true, 0x0001, "ffff 80 e0"),
        (true, 0xffff, "ffff 80 e0"),
    ];
    for (marker, udp_checksum, bytes) in rows {
        let mut ends = Ends::open(mutant, 1, 1);
        let packet = Voice {
            marker,
            udp_checksum,
            ..packet()
        };
        ends.fill(&packet, 0, 5, 9)?;
        let mut file = live_file();
        // The UDP checksum begins 26 bytes into the header, and the header 15 into the file.
        file[41..45].copy_from_slice(&hex(bytes));
        saves("marker and checksum", &ends, &file)?;
    }
    let mut ends = Ends::open(mutant, 1, 1);
    let packet = Voice {
        flags: 2,
        dport: 5007,
        padding: true,
        extension: true,
        ..packet()
    };
    ends.fill(&packet, 0, 5, 9)?;
    let header = "45 b8 0000 1234 8000 40 11 0000 0a000001 0a000002 138c 138f 0000 0000
                  b0 60 0007 00000100 11223344";
    let file = [hex("0035 01 01 01  01 05 09 0001 00000000 28"), hex(header)].concat();
    saves("other bits", &ends, &file)
}

/// CU with F that sends the differences 5 and -1; after it CR, two packets on. The marker is that of the last packet, and
/// that a checksum is carried stays from the FH, though 0000 came.
pub fn kept_differences(mutant: Mutant) -> Outcome {
    let mut ends = Ends::open(mutant, 1, 1);
    let first = Voice {
        marker: true,
        udp_checksum: 0x7777,
        ..packet()
    };
    ends.fill(&first, 0, 63, 14)?;
    // ID 1234 and 5, sequence one higher, timestamp 100 and -1.
    let second = Voice {
        marker: false,
        id: 0x1239,
        sequence: 8,
        timestamp: 0xff,
        udp_checksum: 0,
        ..packet()
    };
    ends.rebuilds(2, &hex("00 bf 00 0000 05 807f da7a"), &second)?;
    let header = "45 b8 0000 1239 4000 40 11 0000 0a000001 0a000002 138c 138e 0000 ffff
                  80 60 0008 000000ff 11223344";
    let file = [hex("0035 01 01 01  01 3f 0f 0005 ffffffff 28"), hex(header)].concat();
    saves("after CU", &ends, &file)?;
    // A second flag byte brings a list of one word: 10 and 44 bytes. Over a gap the checksum must be right: addresses,
    // protocol, ports and twice the length 1a are 3b62, and 3b62+81e0+000a+00fd+1122+3344+a1a2+a3a4+da7a = 3226f,
    // folded 2272.
    let third = Voice {
        marker: true,
        id: 0x1243,
        sequence: 10,
        timestamp: 0xfd,
        udp_checksum: 0xdd8d,
        csrc: vec![0xa1a2_a3a4],
        ..packet()
    };
    ends.rebuilds(3, &hex("00 f1 dd8d 81 a1a2a3a4 da7a"), &third)?;
    let header = "45 b8 0000 1243 4000 40 11 0000 0a000001 0a000002 138c 138e 0000 ffff
                  81 e0 000a 000000fd 11223344 a1a2a3a4";
    let file = [hex("0039 01 01 01  01 3f 01 0005 ffffffff 2c"), hex(header)].concat();
    saves("after CR", &ends, &file)
}

/// CU without F: saved with a timestamp difference of 0, or the one that dT brought, and so loaded.
pub fn differences_after_an_rtp_header(mutant: Mutant) -> Outcome {
    for (front, saved, delta) in [
        ("00 02", "00000000", 0),
        ("00 22 80f0", "000000f0", 240),
        ("00 22 c03f60", "ffffff60", -160),
    ] {
        let mut ends = Ends::with_timestamp_delta(mutant)?;
        let bytes = [hex(front), hex("80 00 0040 00002000 11223344 da7a")].concat();
        ends.rebuilds(2, &bytes, &voice(102, 0x40, 0x2000))?;
        // 3 bytes, 10 and 40: 35 hex.
        let file = [
            hex("0035 01 02 01  01 00 02 0001"),
            hex(saved),
            hex("28 45 00 0000 0066 4000 40 11 0000 0a000001 0a000002 138c 138e 0000 0000"),
            hex("80 00 0040 00002000 11223344"),
        ]
        .concat();
        saves("after a whole RTP header", &ends, &file)?;
        let before = ends.decompressor.clone();
        ends.fill(&packet(), 0, 5, 9)?;
        same("load", ends.load(&file)?, 0)?;
        ensure("same table", ends.decompressor == before)?;
        // Over a gap of 3.
        let wanted = voice(105, 0x43, 0x2000_u32.wrapping_add_signed(3 * delta));
        ends.rebuilds(3, &hex("00 05 da7a"), &wanted)?;
    }
    Ok(())
}

/// Live, empty, broken before it was filled, broken afterwards, empty: 3, 50, 1, 10, 50 and 1 bytes, 73 hex.
fn file_of_every_kind() -> Vec<u8> {
    [
        hex("0073 01 02 05"),
        hex("01 05 09 0001 00000000 28"),
        hex(HEADER),
        hex("00"),
        hex("02 00 00 0000 00000000 00"),
        hex("02 07 03 0001 00000000 28"),
        hex(HEADER),
        hex("00"),
    ]
    .concat()
}

fn ends_of_every_kind(mutant: Mutant) -> Result<Ends, String> {
    let mut ends = Ends::open(mutant, 2, 5);
    ends.fill(&packet(), 0, 5, 9)?;
    ends.fill(&packet(), 3, 7, 3)?;
    same("empty", ends.receive(3, &hex("02 04"), 100)?.number, 8)?;
    same("gap of 0", ends.receive(3, &hex("03 03"), 100)?.number, 9)?;
    Ok(ends)
}

pub fn contexts_of_every_kind(mutant: Mutant) -> Outcome {
    let ends = ends_of_every_kind(mutant)?;
    saves("every kind", &ends, &file_of_every_kind())
}

/// 40 bytes and 4 for each word, which stand in their order.
pub fn every_list_length(mutant: Mutant) -> Outcome {
    for count in 0..=15u32 {
        let mut ends = Ends::open(mutant, 1, 1);
        let csrc: Vec<u32> = (0..count).map(|word| 0x0101_0101 * word).collect();
        let packet = Voice { csrc, ..packet() };
        ends.fill(&packet, 0, 5, 9)?;
        let mut file = live_file();
        file[1] += 4 * count as u8;
        file[14] += 4 * count as u8;
        file[43] += count as u8;
        for word in 0..count as u8 {
            file.extend([word; 4]);
        }
        saves("list", &ends, &file)?;
        same("load", ends.load(&file)?, 0)?;
        saves("list again", &ends, &file)?;
    }
    Ok(())
}

/// 64 contexts with fifteen words: 3 and 64 times 110 are 7,043, 1b83 hex.
pub fn the_longest_file(mutant: Mutant) -> Outcome {
    let mut ends = Ends::open(mutant, 14, 64);
    let packet = Voice {
        csrc: vec![0xc1c2_c3c4; 15],
        ..packet()
    };
    let mut file = hex("1b83 01 0e 40");
    for place in 0..64 {
        ends.fill(&packet, place, place, place % 16)?;
        file.extend([1, place, place % 16]);
        file.extend(hex("0001 00000000 64"));
        let mut header = hex(HEADER);
        header[28] = 0x8f;
        file.extend(header);
        file.extend(hex("c1c2c3c4").repeat(15));
    }
    same("length", file.len(), 7045)?;
    same("length", oracle::saved::LONGEST, 7045)?;
    saves("longest", &ends, &file)?;
    let before = ends.decompressor.clone();
    same("load", ends.load(&file)?, 0)?;
    ensure("same table", ends.decompressor == before)?;
    same("one byte short", ends.save(7044)?.number, 11)
}

/// 1 whatever the room is, then 11; the table stays, and so does the output.
pub fn saving_refuses(mutant: Mutant) -> Outcome {
    let ends = ends_of_every_kind(mutant)?;
    let before = ends.decompressor.clone();
    let exact = file_of_every_kind().len();
    for room in 0..exact {
        same("too little room", ends.save(room)?.number, 11)?;
    }
    for room in exact..exact + 3 {
        same("room", ends.save(room)?.bytes, file_of_every_kind())?;
    }
    ensure("unchanged", ends.decompressor == before)?;
    let spoil: [(&str, TableChange); 7] = [
        ("unopened", |table| *table = Table::unopened()),
        ("N", |table| table.repeats = 15),
        ("K", |table| table.contexts = 65),
        ("a field of a live context", |table| {
            table.places[0].generation = 64
        }),
        ("a field of an empty context", |table| {
            table.places[1].fields.tos = 1
        }),
        ("a context from K on", |table| table.places[5].marker = true),
        ("live and not filled", |table| {
            table.places[2].status = Status::Live
        }),
    ];
    for (what, change) in spoil {
        let mut unsound = ends.clone();
        change(&mut unsound.decompressor);
        let before = unsound.decompressor.clone();
        for room in [0, 1, exact, 16_384] {
            same(what, unsound.save(room)?.number, 1)?;
        }
        ensure(what, unsound.decompressor == before)?;
    }
    Ok(())
}

// What is loaded

/// Into a table of other settings, whose contexts are all in use; those from K on are empty afterwards.
pub fn loading_gives_the_same_table(mutant: Mutant) -> Outcome {
    let saved = ends_of_every_kind(mutant)?;
    let mut other = Ends::open(mutant, 7, 64);
    for place in 0..64 {
        let packet = Voice {
            udp_checksum: 1,
            csrc: vec![9; 15],
            ..packet()
        };
        other.fill(&packet, place, 1, 1)?;
    }
    same("load", other.load(&file_of_every_kind())?, 0)?;
    ensure("same table", other.decompressor == saved.decompressor)?;
    let none = Context::default();
    let [live, empty, unfilled, broken] =
        [0, 1, 2, 3].map(|place| other.decompressor.places[place]);
    same("live", (live.status, live.filled), (Status::Live, true))?;
    same("live", (live.generation, live.last_link), (5, 9))?;
    same("empty", empty, none)?;
    let wanted = Context {
        status: Status::Broken,
        ..none
    };
    same("broken before it was filled", unfilled, wanted)?;
    same(
        "broken",
        (broken.status, broken.filled),
        (Status::Broken, true),
    )?;
    same("broken", (broken.generation, broken.last_link), (7, 3))?;
    for place in 4..64 {
        same("past the records", other.decompressor.places[place], none)?;
    }
    // Both go on alike: CR on the live one, the report of the others.
    let next = packet().next();
    for ends in [&mut other, &mut saved.clone()] {
        ends.rebuilds(3, &hex("00 0a da7a"), &next)?;
        same(
            "report",
            ends.report(8)?.bytes,
            hex("01 02 02 80 00 03 83 07"),
        )?;
    }
    Ok(())
}

/// The bytes alone decide, whether they are taken or not.
pub fn any_table_may_be_handed_in(mutant: Mutant) -> Outcome {
    let wanted = ends_of_every_kind(mutant)?.decompressor;
    let mut unsound = ends_of_every_kind(mutant)?;
    unsound.decompressor.places[0].last_link = 16;
    let mut strange = Ends::open(mutant, 0, 1);
    strange.decompressor.repeats = 255;
    strange.decompressor.contexts = 255;
    for context in &mut strange.decompressor.places {
        context.fields.cc = 255;
        context.generation = 255;
        context.fields.csrc = [7; 15];
    }
    let mut unopened = Ends::open(mutant, 0, 1);
    unopened.decompressor = Table::unopened();
    for ends in [unsound, strange, unopened, live_ends(mutant)?] {
        let mut ends = ends;
        same("no bytes", ends.load(&[])?, 4)?;
        same("N 15", ends.load(&hex("0004 01 0f 01 00"))?, 5)?;
        same("load", ends.load(&file_of_every_kind())?, 0)?;
        ensure("the saved table", ends.decompressor == wanted)?;
        same("and again", ends.load(&file_of_every_kind())?, 0)?;
        ensure("the saved table", ends.decompressor == wanted)?;
    }
    Ok(())
}

// What is refused

/// A file of these bytes, with the length that is theirs.
fn file(body: Vec<u8>) -> Vec<u8> {
    [(body.len() as u16).to_be_bytes().to_vec(), body].concat()
}

fn loads(mutant: Mutant, what: &str, bytes: &[u8], number: u8) -> Outcome {
    // Into a table with something in it, so that a refused load that touches it is seen.
    let found = live_ends(mutant)?.load(bytes)?;
    same(&format!("{what}, {bytes:x?}"), found, number)
}

/// Judged before anything else: the faults further on do not matter.
pub fn length_field(mutant: Mutant) -> Outcome {
    let rows = [
        ("no bytes", "", 4),
        ("one byte", "00", 4),
        ("one byte", "ff", 4),
        ("length 0 alone: no version", "0000", 4),
        ("length 1 and nothing", "0001", 4),
        ("length 0 and a byte", "0000 01", 5),
        ("length 0 and another version", "0000 02", 5),
        ("one less than there is", "0003 01 02 01 00", 5),
        ("one more than there is", "0005 01 02 01 00", 4),
        ("more than there is, version 2", "0005 02 02 01 00", 4),
        ("less than there is, N 15", "0003 01 0f 01 00", 5),
        ("greatest length", "ffff 01 02 01 00", 4),
        ("bytes swapped", "0400 01 02 01 00", 4),
        ("one context", "0004 01 02 01 00", 0),
    ];
    for (what, bytes, number) in rows {
        loads(mutant, what, &hex(bytes), number)?;
    }
    // Every other length for a file that loads.
    let good = file_of_every_kind();
    for length in 0..=u16::MAX {
        let mut other = good.clone();
        other[..2].copy_from_slice(&length.to_be_bytes());
        let number = match usize::from(length) {
            115 => 0,
            0..=114 => 5,
            _ => 4,
        };
        if length < 300 || length % 999 == 0 || length == u16::MAX {
            loads(mutant, "length", &other, number)?;
        }
    }
    Ok(())
}

/// Version 1 alone; N 0 to 14; K 1 to 64. K records must follow.
pub fn settings_fields(mutant: Mutant) -> Outcome {
    for number in 0..=255u8 {
        let (version, repeats, contexts) = (
            file(vec![number, 2, 1, 0]),
            file(vec![1, number, 1, 0]),
            file([vec![1, 2, number], vec![0; number.into()]].concat()),
        );
        loads(mutant, "version", &version, if number == 1 { 0 } else { 5 })?;
        loads(mutant, "N", &repeats, if number <= 14 { 0 } else { 5 })?;
        let good = (1..=64).contains(&number);
        loads(mutant, "K", &contexts, if good { 0 } else { 5 })?;
        if good {
            let short = [vec![1, 2, number], vec![0; usize::from(number) - 1]].concat();
            loads(mutant, "a record missing", &file(short), 4)?;
            let long = [vec![1, 2, number], vec![0; usize::from(number) + 1]].concat();
            loads(mutant, "a record too many", &file(long), 5)?;
        }
    }
    for (body, number) in [
        ("", 4),
        ("01", 4),
        ("01 02", 4),
        ("01 02 01", 4),
        ("02", 5),
        ("00", 5),
        ("01 0f", 5),
        ("01 02 00", 5),
        ("01 02 41", 5),
        ("01 0e 40", 4),
    ] {
        loads(mutant, "settings", &file(hex(body)), number)?;
    }
    Ok(())
}

/// A filled record with one number other than before. It is the second of two, the first being empty.
fn two_records(status: u8, numbers: &str, header: &[u8]) -> Vec<u8> {
    let front = [hex("01 02 02 00"), vec![status], hex(numbers)].concat();
    file([front, vec![header.len() as u8], header.to_vec()].concat())
}

pub fn record_fields(mutant: Mutant) -> Outcome {
    let header = hex(HEADER);
    for number in 3..=255 {
        let bytes = two_records(number, "05 09 0001 00000000", &header);
        loads(mutant, "status", &bytes, 5)?;
    }
    for status in [1, 2] {
        for number in 0..=255u8 {
            let generation = format!("{number:02x} 09 0001 00000000");
            let bytes = two_records(status, &generation, &header);
            loads(
                mutant,
                "generation",
                &bytes,
                if number <= 63 { 0 } else { 5 },
            )?;
            let link = format!("05 {number:02x} 0001 00000000");
            let bytes = two_records(status, &link, &header);
            loads(
                mutant,
                "link sequence",
                &bytes,
                if number <= 15 { 0 } else { 5 },
            )?;
        }
        for delta in ["0000", "0001", "8000", "ffff", "bfff", "c000"] {
            let numbers = format!("05 09 {delta} 00000000");
            let bytes = two_records(status, &numbers, &header);
            loads(mutant, "ID difference", &bytes, 0)?;
        }
        // From -16384 to 4194303.
        let deltas = [
            ("00000000", 0),
            ("00000001", 0),
            ("003fffff", 0),
            ("00400000", 5),
            ("00400001", 5),
            ("7fffffff", 5),
            ("80000000", 5),
            ("ffffbfff", 5),
            ("ffffc000", 0),
            ("ffffffff", 0),
        ];
        for (delta, number) in deltas {
            let numbers = format!("05 09 0001 {delta}");
            let bytes = two_records(status, &numbers, &header);
            loads(mutant, "timestamp difference", &bytes, number)?;
        }
    }
    Ok(())
}

/// Header length 0: broken, and zeros in all four numbers. What stands to the left is fine by itself, so the
/// length is where it is refused, and a cut length is 4.
pub fn never_filled_contexts(mutant: Mutant) -> Outcome {
    let rows = [
        ("as saved", "02 00 00 0000 00000000", 0),
        ("live", "01 00 00 0000 00000000", 5),
        ("live with numbers", "01 05 09 0001 00000000", 5),
        ("generation", "02 01 00 0000 00000000", 5),
        ("generation 63", "02 3f 00 0000 00000000", 5),
        ("link sequence", "02 00 01 0000 00000000", 5),
        ("link sequence 15", "02 00 0f 0000 00000000", 5),
        ("ID difference 1", "02 00 00 0001 00000000", 5),
        ("ID difference 256", "02 00 00 0100 00000000", 5),
        ("timestamp difference 1", "02 00 00 0000 00000001", 5),
        ("timestamp difference -1", "02 00 00 0000 ffffffff", 5),
        ("all of them", "02 01 01 0001 00000001", 5),
    ];
    for (what, record, number) in rows {
        let front = [hex("01 02 01"), hex(record)].concat();
        loads(
            mutant,
            what,
            &file([front.clone(), vec![0]].concat()),
            number,
        )?;
        loads(mutant, what, &file(front.clone()), 4)?;
        // With a header each of them is a filled context.
        let whole = [front, vec![40], hex(HEADER)].concat();
        loads(mutant, what, &file(whole), 0)?;
    }
    // The record is over with the 0: a header after it is left over, or is read as the next record.
    let front = hex("01 02 01 02 00 00 0000 00000000 00");
    let left = [front, hex(HEADER)].concat();
    loads(mutant, "header after length 0", &file(left), 5)?;
    let three = "01 02 03  02 00 00 0000 00000000 00  00  02 00 00 0000 00000000 00";
    loads(mutant, "two never filled", &file(hex(three)), 0)
}

/// 40 to 100 in steps of 4. With bytes enough for any length, those whose count agrees with it load.
pub fn header_lengths(mutant: Mutant) -> Outcome {
    for status in [1, 2] {
        for length in 0..=255usize {
            let mut header = hex(HEADER);
            header.resize(255, 0);
            let allowed = (40..=100).contains(&length) && length % 4 == 0;
            if allowed {
                header[28] = 0x80 + ((length - 40) / 4) as u8;
            }
            header.truncate(length);
            let numbers = "05 09 0001 00000000";
            let bytes = two_records(status, numbers, &header);
            loads(mutant, "header length", &bytes, if allowed { 0 } else { 5 })?;
            if !allowed {
                // Refused before anything is asked of the header, which may be missing.
                let short = two_records(status, numbers, &[]);
                let mut body = short[2..].to_vec();
                body[13] = length as u8;
                loads(mutant, "header length alone", &file(body), 5)?;
            }
        }
        // The header is there, but has another count than the length says.
        for (length, cc) in [(40, 1), (40, 15), (44, 0), (44, 2), (100, 14), (100, 0)] {
            let mut header = hex(HEADER);
            header.resize(length, 0);
            header[28] += cc;
            let bytes = two_records(status, "05 09 0001 00000000", &header);
            loads(mutant, "count", &bytes, 5)?;
        }
    }
    Ok(())
}

/// One form spoiled at a time: 5, or 4 if the last byte of the header is missing.
pub fn header_forms(mutant: Mutant) -> Outcome {
    let spoil: [(&str, Spoil); 30] = [
        ("first byte 00", |header| header[0] = 0x00),
        ("first byte 44", |header| header[0] = 0x44),
        ("first byte 46", |header| header[0] = 0x46),
        ("first byte 55", |header| header[0] = 0x55),
        ("IP length, first byte", |header| header[2] = 1),
        ("IP length, second byte", |header| header[3] = 40),
        ("MF", |header| header[6] |= 0x20),
        ("offset, highest bit", |header| header[6] |= 0x10),
        ("offset, ninth bit", |header| header[6] |= 0x01),
        ("offset, eighth bit", |header| header[7] |= 0x80),
        ("offset, lowest bit", |header| header[7] |= 0x01),
        ("protocol 6", |header| header[9] = 6),
        ("protocol 16", |header| header[9] = 16),
        ("protocol 145", |header| header[9] = 145),
        ("IP checksum, first byte", |header| header[10] = 0x80),
        ("IP checksum, second byte", |header| header[11] = 1),
        ("IP checksum FFFF", |header| header[10..12].fill(0xff)),
        ("UDP length, first byte", |header| header[24] = 1),
        ("UDP length, second byte", |header| header[25] = 20),
        ("UDP checksum 0001", |header| header[27] = 1),
        ("UDP checksum 00FF", |header| header[27] = 0xff),
        ("UDP checksum FF00", |header| header[26] = 0xff),
        ("UDP checksum FFFE", |header| {
            header[26..28].copy_from_slice(&[0xff, 0xfe])
        }),
        ("UDP checksum 7FFF", |header| {
            header[26..28].copy_from_slice(&[0x7f, 0xff])
        }),
        ("version 0", |header| header[28] &= 0x3f),
        ("version 1", |header| header[28] ^= 0xc0),
        ("version 3", |header| header[28] |= 0x40),
        ("one word that is not there", |header| header[28] |= 1),
        ("eight words that are not there", |header| header[28] |= 8),
        ("everything wrong", |header| header.fill(0xff)),
    ];
    for (what, change) in spoil {
        for (status, last) in [(1, false), (2, false), (1, true), (2, true)] {
            let mut header = hex(HEADER);
            change(&mut header);
            let mut bytes = two_records(status, "05 09 0001 00000000", &header);
            loads(mutant, what, &bytes, 5)?;
            if last {
                bytes.pop();
                loads(mutant, what, &file(bytes[2..].to_vec()), 4)?;
            }
        }
    }
    Ok(())
}

/// What a header may have, and what the context then holds.
pub fn free_header_fields(mutant: Mutant) -> Outcome {
    let rows: [(&str, Spoil, ContextChange); 22] = [
        ("TOS", |h| h[1] = 0xff, |c| c.fields.tos = 0xff),
        ("ID", |h| h[4] = 0xff, |c| c.fields.id = 0xff34),
        ("no flag", |h| h[6] = 0, |c| c.fields.flags = 0),
        ("reserved bit", |h| h[6] = 0x80, |c| c.fields.flags = 2),
        ("both bits", |h| h[6] = 0xc0, |c| c.fields.flags = 3),
        ("TTL", |h| h[8] = 0, |c| c.fields.ttl = 0),
        ("source", |h| h[15] = 9, |c| c.fields.source = 0x0a00_0009),
        (
            "destination",
            |h| h[16] = 0xe0,
            |c| c.fields.destination = 0xe000_0002,
        ),
        ("source port", |h| h[20] = 0, |c| c.fields.sport = 0x8c),
        ("port 0", |h| h[22..24].fill(0), |c| c.fields.dport = 0),
        ("odd port", |h| h[23] = 0x8f, |c| c.fields.dport = 5007),
        ("carried", |h| h[26..28].fill(0xff), |c| c.carried = true),
        ("P", |h| h[28] = 0xa0, |c| c.fields.padding = true),
        ("X", |h| h[28] = 0x90, |c| c.fields.extension = true),
        ("marker", |h| h[29] = 0xe0, |c| c.marker = true),
        ("payload type", |h| h[29] = 0x7f, |c| c.fields.payload = 127),
        (
            "type 0, marker",
            |h| h[29] = 0x80,
            |c| {
                c.fields.payload = 0;
                c.marker = true;
            },
        ),
        ("sequence", |h| h[31] = 0xff, |c| c.fields.sequence = 0xff),
        (
            "timestamp",
            |h| h[32] = 0xff,
            |c| c.fields.timestamp = 0xff00_0100,
        ),
        ("SSRC", |h| h[36..40].fill(0), |c| c.fields.ssrc = 0),
        (
            "a word",
            |h| h.extend([0xa1, 0xa2, 0xa3, 0xa4]),
            |c| {
                c.fields.cc = 1;
                c.fields.csrc[0] = 0xa1a2_a3a4;
            },
        ),
        (
            "fifteen words",
            |h| h.extend([0x77; 60]),
            |c| {
                c.fields.cc = 15;
                c.fields.csrc = [0x7777_7777; 15];
            },
        ),
    ];
    let mut plain = live_ends(mutant)?;
    let (mut ends, numbers) = (plain.clone(), "05 09 0001 00000000");
    same("load", plain.load(&live_file())?, 0)?;
    for (what, change, wanted) in rows {
        for (status, number) in [(Status::Live, 1), (Status::Broken, 2)] {
            let mut header = hex(HEADER);
            change(&mut header);
            header[28] += ((header.len() - 40) / 4) as u8;
            let bytes = two_records(number, numbers, &header);
            same(what, ends.load(&bytes)?, 0)?;
            let mut context = plain.decompressor.places[0];
            context.status = status;
            wanted(&mut context);
            same(what, ends.decompressor.places[1], context)?;
            saves(what, &ends, &bytes)?;
        }
    }
    Ok(())
}

/// A whole file is the only one of its beginnings that loads, whatever the length says.
pub fn cut_at_every_byte(mutant: Mutant) -> Outcome {
    for good in [live_file(), file_of_every_kind()] {
        for keep in 0..good.len() {
            loads(mutant, "cut, length left", &good[..keep], 4)?;
            if keep >= 2 {
                let cut = file(good[2..keep].to_vec());
                loads(mutant, "cut, length adjusted", &cut, 4)?;
            }
        }
        loads(mutant, "whole", &good, 0)?;
    }
    Ok(())
}

pub fn left_over_bytes(mutant: Mutant) -> Outcome {
    for good in [live_file(), file_of_every_kind(), hex("0004 01 00 01 00")] {
        for more in [hex("00"), hex("01"), hex("ff"), vec![0; 50], good.clone()] {
            let long = [good.clone(), more].concat();
            loads(mutant, "length left", &long, 5)?;
            loads(mutant, "length adjusted", &file(long[2..].to_vec()), 5)?;
        }
        // One record fewer is announced than there are.
        let mut body = good[2..].to_vec();
        body[2] -= 1;
        loads(mutant, "K lower", &file(body.clone()), 5)?;
        body[2] += 2;
        loads(mutant, "K higher", &file(body), 4)?;
    }
    Ok(())
}

/// Two faults: the one further left gives the number.
pub fn the_leftmost_fault_decides(mutant: Mutant) -> Outcome {
    let rows = [
        ("version 2, N missing", "02", 5),
        ("N 15, K missing", "01 0f", 5),
        ("K 65, no records", "01 02 41", 5),
        ("K 0, bytes left over", "01 02 00 00 00", 5),
        ("status 3, nothing after it", "01 02 01 03", 5),
        ("generation 64, nothing after it", "01 02 01 01 40", 5),
        ("generation missing, more records missing", "01 02 09 01", 4),
        ("sequence 16, ID difference missing", "01 02 01 01 00 10", 5),
        ("ID difference cut", "01 02 01 01 00 00 00", 4),
        (
            "timestamp difference cut before it is judged",
            "01 02 01 01 00 00 0000 800000",
            4,
        ),
        (
            "timestamp difference without code",
            "01 02 01 01 00 00 0000 80000000",
            5,
        ),
        (
            "live without header, next record wrong",
            "01 02 02 01 00 00 0000 00000000 00 03",
            5,
        ),
        (
            "first record cut in its header, K records missing",
            "01 02 40 01 00 00 0000 00000000 28 45",
            4,
        ),
        (
            "header cut, its first byte wrong",
            "01 02 01 01 00 00 0000 00000000 28 46",
            4,
        ),
        ("empty, then status 3", "01 02 03 00 03", 5),
        ("empty, then none", "01 02 03 00", 4),
    ];
    for (what, body, number) in rows {
        loads(mutant, what, &file(hex(body)), number)?;
    }
    // A wrong header in the first record, a cut one in the second: 5; the other way round: 4.
    let (good, mut wrong) = (hex(HEADER), hex(HEADER));
    wrong[9] = 6;
    let record = hex("01 05 09 0001 00000000 28");
    let two = |first: &[u8], second: &[u8]| {
        file([&hex("01 02 02"), &record[..], first, &record[..], second].concat())
    };
    loads(mutant, "wrong, then cut", &two(&wrong, &good[..39]), 5)?;
    loads(mutant, "good, then cut", &two(&good, &good[..39]), 4)?;
    loads(
        mutant,
        "good, then cut and wrong",
        &two(&good, &wrong[..39]),
        4,
    )?;
    loads(mutant, "both good", &two(&good, &good), 0)?;
    let left_over = [two(&good, &wrong), vec![0]].concat();
    loads(
        mutant,
        "wrong, then left over",
        &file(left_over[2..].to_vec()),
        5,
    )
}

// Laws

/// Every byte of a file but its length, set to every number: what still loads is the file of the table that
/// it gives. How many load is worked out here.
pub fn every_byte_changed(mutant: Mutant) -> Outcome {
    let good = file_of_every_kind();
    // TOS, ID, TTL, addresses, ports, marker and payload type, sequence, timestamp and SSRC are free.
    let free_bytes = 1 + 2 + 1 + 8 + 4 + 1 + 2 + 4 + 4;
    // The reserved bit and DF, and P and X, are all that is free in bytes 6 and 28.
    let header = 256 * free_bytes + 4 + 4 + (40 - free_bytes - 2);
    // Of the timestamp difference, which is 0, the first byte cannot change and the second has six bits.
    let differences = 256 * 2 + (1 + 64 + 256 + 256);
    // Live or broken; generation, link sequence, differences, header length.
    let filled = 2 + 64 + 16 + differences + 1 + header;
    let never_filled = 10;
    // Version, N, K, and the five records.
    let wanted = (1 + 15 + 1) + (filled + 1 + never_filled + filled + 1);
    let mut ends = live_ends(mutant)?;
    let mut loaded = 0;
    for at in 2..good.len() {
        for number in 0..=255 {
            let mut bytes = good.clone();
            bytes[at] = number;
            if ends.load(&bytes)? == 0 {
                loaded += 1;
                let found = ends.save(bytes.len())?;
                same("as it was loaded", found.bytes, bytes)?;
            }
        }
    }
    same("files that load", loaded, wanted)?;
    same("files that load", loaded, 16_235)
}

/// Random sound tables: what is saved loads and gives the table, over any other.
pub fn random_tables(mutant: Mutant) -> Outcome {
    let mut prng = Prng::new(33);
    let mut ends = Ends::open(mutant, 0, 1);
    for _ in 0..400 {
        let table = files::some_table(&mut prng);
        ensure("sound", decompressor::sound(Mutant::None, &table))?;
        ends.decompressor = table.clone();
        let found = ends.save(16_384)?;
        same("save", found.number, 0)?;
        if prng.bit() {
            ends.decompressor = files::some_table(&mut prng);
        }
        same("load", ends.load(&found.bytes)?, 0)?;
        ensure("same table", ends.decompressor == table)?;
    }
    Ok(())
}

// Lists of calls

/// Enough to show a fault; the test below runs many more.
pub fn some_lists_with_saves(mutant: Mutant) -> Outcome {
    let mut counts = Counts::default();
    (0..80).try_for_each(|seed| run_list(mutant, seed, &mut counts))
}

#[derive(Default)]
struct Counts {
    rebuilt: usize,
    dropped: usize,
    saves: usize,
    loads: usize,
    /// Packets that loads made lost again.
    lost_by_loads: usize,
    /// Loads after which N packets in a row are lost on some context.
    to_the_limit: usize,
    /// CU and CR with a checksum rebuilt after a loss, and those where a load made the loss.
    guessed: usize,
    guessed_after_load: usize,
}

/// A file, with what has to be known when it is loaded: on each context number, how many packets had come to
/// their turn when it was saved, and how many of the last of them were lost.
#[derive(Clone)]
struct Saved {
    bytes: Vec<u8>,
    passed: HashMap<u8, usize>,
    lost_in_a_row: HashMap<u8, usize>,
}

struct List {
    ends: Ends,
    prng: Prng,
    repeats: usize,
    flows: Vec<Flow>,
    change: usize,
    loss: usize,
    in_flight: VecDeque<InFlight>,
    passed: HashMap<u8, usize>,
    lost_in_a_row: HashMap<u8, usize>,
    saved: Vec<Saved>,
    /// Context numbers whose last packets a load made lost, with none arrived since.
    loaded: HashSet<u8>,
}

/// Whatever was rebuilt after a save is lost once that save's bytes are loaded. As long as no more than N in
/// a row are lost on a context number, every arrival is rebuilt.
fn run_list(mutant: Mutant, seed: u64, counts: &mut Counts) -> Outcome {
    let mut prng = Prng::new(seed);
    let repeats = prng.below(15);
    let contexts = prng.pick(&[1, 1, 2, 3, 5, 64]);
    let flows = prng.between(1, 4);
    let mut list = List {
        ends: Ends::open(mutant, repeats as u32, contexts),
        repeats,
        flows: (0..flows).map(|_| new_flow(&mut prng)).collect(),
        change: prng.pick(&[0, 2, 5, 10, 40]),
        loss: prng.pick(&[0, 10, 30]),
        in_flight: VecDeque::new(),
        passed: HashMap::new(),
        lost_in_a_row: HashMap::new(),
        saved: Vec::new(),
        loaded: HashSet::new(),
        prng,
    };
    let steps = list.prng.pick(&[60, 200, 500]);
    let longest_queue = list.prng.pick(&[0, 1, 5]);
    for _ in 0..steps {
        match list.prng.below(12) {
            0 => list.save(counts),
            1 => list.load(counts),
            2 if list.prng.bit() => list.refused_load(),
            3 if list.prng.bit() => list.request(),
            _ if list.in_flight.len() > longest_queue => list.arrive(counts),
            _ => list.send(),
        }
        .map_err(|what| format!("list {seed}, N {repeats}: {what}"))?;
    }
    let report = list.ends.report(0)?;
    same(
        "nothing broken",
        (report.number, report.bytes),
        (0, Vec::new()),
    )
}

impl List {
    fn send(&mut self) -> Outcome {
        let mut packet = next_packet(&mut self.prng, &mut self.flows, self.change);
        keep_to_premise(
            (self.ends.mutant, &self.ends.compressor),
            &self.in_flight,
            &self.lost_in_a_row,
            self.repeats,
            &mut packet,
        );
        let found = self.ends.send(&packet, 1500)?;
        if found.number == 0 {
            self.in_flight.push_back(InFlight {
                link_type: found.link_type,
                bytes: found.bytes,
                packet,
            });
        }
        Ok(())
    }

    fn request(&mut self) -> Outcome {
        let state = vec![1, 1, self.prng.below(3) as u8, 0x80, 0];
        self.ends.request(&state)?;
        Ok(())
    }

    fn arrive(&mut self, counts: &mut Counts) -> Outcome {
        let Some(sent) = self.in_flight.pop_front() else {
            return Ok(());
        };
        let mut lost = self.prng.chance(self.loss, 100);
        if let Some(place) = sent.place() {
            *self.passed.entry(place).or_insert(0) += 1;
            let before = self.lost_in_a_row.get(&place).copied().unwrap_or(0);
            // A wrong checksum cannot arrive after a loss.
            let must_lose = before > 0 && sent.needs_the_one_before();
            let row = row_of_losses(&self.in_flight, place, before + 1).0;
            ensure("a loss that N allows", !must_lose || row <= self.repeats)?;
            lost = must_lose || lost && row <= self.repeats;
            let after = if lost { before + 1 } else { 0 };
            self.lost_in_a_row.insert(place, after);
            let carried = sent.packet[26..28] != [0, 0];
            if !lost && before > 0 && carried && sent.link_type > 1 {
                counts.guessed += 1;
                counts.guessed_after_load += usize::from(self.loaded.contains(&place));
            }
            self.loaded.remove(&place);
        }
        if lost {
            counts.dropped += 1;
            return Ok(());
        }
        counts.rebuilt += 1;
        let found = self
            .ends
            .receive(sent.link_type, &sent.bytes, sent.packet.len())?;
        same("arrival", (found.number, found.bytes), (0, sent.packet))
    }

    fn save(&mut self, counts: &mut Counts) -> Outcome {
        let found = self.ends.save(7045)?;
        same("save", found.number, 0)?;
        counts.saves += 1;
        let saved = Saved {
            bytes: found.bytes,
            passed: self.passed.clone(),
            lost_in_a_row: self.lost_in_a_row.clone(),
        };
        if self.saved.len() < 4 {
            self.saved.push(saved);
        } else {
            let place = self.prng.below(4);
            self.saved[place] = saved;
        }
        Ok(())
    }

    /// Loads one of the files, unless more than N in a row would then be lost. The table handed in is any.
    fn load(&mut self, counts: &mut Counts) -> Outcome {
        if self.saved.is_empty() {
            return Ok(());
        }
        let which = self.prng.below(self.saved.len());
        let saved = self.saved[which].clone();
        let before =
            |counted: &HashMap<u8, usize>, place: &u8| counted.get(place).copied().unwrap_or(0);
        let mut lost_in_a_row = HashMap::new();
        let mut lost_again = 0;
        for (place, passed) in &self.passed {
            let since = passed - before(&saved.passed, place);
            lost_again += since;
            lost_in_a_row.insert(*place, before(&saved.lost_in_a_row, place) + since);
        }
        let most = lost_in_a_row.values().copied().max().unwrap_or(0);
        // Packets on their way with a wrong checksum are lost with those before them.
        let entailed = lost_in_a_row
            .iter()
            .map(|(place, lost)| row_of_losses(&self.in_flight, *place, *lost).0);
        if entailed.max().unwrap_or(0) > self.repeats {
            return Ok(());
        }
        if self.prng.chance(1, 3) {
            self.ends.decompressor = files::some_table(&mut self.prng);
        } else if self.prng.chance(1, 3) {
            self.ends.decompressor = Table::unopened();
        }
        same("load", self.ends.load(&saved.bytes)?, 0)?;
        let entailing = lost_in_a_row.iter().filter(|(place, lost)| {
            let before = self.lost_in_a_row.get(place).copied().unwrap_or(0);
            **lost > before
        });
        self.loaded.extend(entailing.map(|(place, _)| *place));
        self.lost_in_a_row = lost_in_a_row;
        counts.loads += 1;
        counts.lost_by_loads += lost_again;
        counts.to_the_limit += usize::from(most == self.repeats && lost_again > 0);
        Ok(())
    }

    /// Loads of what was never saved may stand anywhere as long as they are refused.
    fn refused_load(&mut self) -> Outcome {
        let bytes = files::noise(&mut self.prng);
        let before = self.ends.decompressor.clone();
        if self.ends.load(&bytes)? == 0 {
            self.ends.decompressor = before;
        }
        Ok(())
    }
}

#[test]
fn many_lists_with_saves() {
    let lists = 6_000;
    let mut counts = Counts::default();
    for seed in 0..lists {
        if let Err(what) = run_list(Mutant::None, 3_000_000 + seed, &mut counts) {
            panic!("{what}");
        }
    }
    println!(
        "lists with saves: {lists}, {} rebuilt, {} dropped, {} saves, {} loads, by which {} packets were lost again, \
         {} times as many as N allows; {} CU and CR with a checksum rebuilt after a loss, {} after one by a load",
        counts.rebuilt,
        counts.dropped,
        counts.saves,
        counts.loads,
        counts.lost_by_loads,
        counts.to_the_limit,
        counts.guessed,
        counts.guessed_after_load,
    );
    // The lists must really have held what they are meant to hold.
    assert!(counts.rebuilt > 100_000 && counts.dropped > 10_000);
    assert!(counts.saves > 20_000 && counts.loads > 10_000);
    assert!(counts.lost_by_loads > 10_000 && counts.to_the_limit > 1_000);
    assert!(counts.guessed > 5_000 && counts.guessed_after_load > 1_000);
}

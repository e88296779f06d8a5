//! Soundness of tables written by hand: each field's boundary values, and openings.

use crate::support::{ensure, same, voice, Ends, FieldRow, Outcome};
use oracle::mutant::Mutant;
use oracle::script::{compressor_table_field, decompressor_table_field};
use oracle::{compressor, decompressor};

checks!(
    openings,
    compressor_fields,
    decompressor_fields,
    empty_contexts_hold_zeros,
    places_from_k_upward,
    settings_by_hand,
    unsound_comes_first,
);

pub fn openings(mutant: Mutant) -> Outcome {
    let mut ends = Ends::open(mutant, 14, 64);
    ends.send(&voice(1, 1, 0).bytes(), 1500)?;
    let before = ends.clone();
    for (repeats, contexts) in [
        (15, 1),
        (0, 0),
        (14, 65),
        (256, 1),
        (0, 257),
        (u32::MAX, 64),
    ] {
        let answer = compressor::open(&mut ends.compressor, repeats, contexts);
        same("compressor", (answer.number, answer.length), (1, 0))?;
        let answer = decompressor::open(&mut ends.decompressor, repeats, contexts);
        same("decompressor", (answer.number, answer.length), (1, 0))?;
        ensure("stays", ends.compressor == before.compressor)?;
        ensure("stays", ends.decompressor == before.decompressor)?;
    }
    // In range: whatever was there is gone.
    for (repeats, contexts) in [(0, 1), (14, 64)] {
        ends.compressor.places[1].fields.cc = 99;
        same(
            "open",
            compressor::open(&mut ends.compressor, repeats, contexts).number,
            0,
        )?;
        same(
            "open",
            decompressor::open(&mut ends.decompressor, repeats, contexts).number,
            0,
        )?;
        let packet = voice(1, 1, 0);
        ends.sends(&packet, 1, &packet.full_header(0, 0, 0))?;
    }
    // Before any opening everything is refused 1.
    ends.compressor = compressor::Table::unopened();
    ends.decompressor = decompressor::Table::unopened();
    same("send", ends.send(&voice(1, 1, 0).bytes(), 1500)?.number, 1)?;
    same("request", ends.request(&[])?, 1)?;
    same("receive", ends.receive(0, &[1], 1500)?.number, 1)?;
    same("report", ends.report(1500)?.number, 1)
}

/// Whether the compressor's table counts as sound with one field written, asked through a call.
fn compressor_sound(ends: &Ends, name: &str, place: usize, value: u32) -> Result<bool, String> {
    let mut ends = ends.clone();
    let field = compressor_table_field(&mut ends.compressor, name, place).expect("a field");
    assert!(field.set(value), "{name} cannot hold {value}");
    let written = ends.compressor.clone();
    let number = ends.request(&[])?;
    ensure(
        "a refused request changes nothing",
        ends.compressor == written,
    )?;
    match number {
        1 => Ok(false),
        4 => Ok(true),
        _ => Err(format!("empty request answered {number}")),
    }
}

fn decompressor_sound(ends: &Ends, name: &str, place: usize, value: u32) -> Result<bool, String> {
    let mut ends = ends.clone();
    let field = decompressor_table_field(&mut ends.decompressor, name, place).expect("a field");
    assert!(field.set(value), "{name} cannot hold {value}");
    let written = ends.decompressor.clone();
    let number = ends.receive(0, &[7], 1)?.number;
    ensure(
        "a plain packet changes nothing",
        ends.decompressor == written,
    )?;
    match number {
        1 => Ok(false),
        0 => Ok(true),
        _ => Err(format!("plain packet answered {number}")),
    }
}

/// Fields with a bound of their own: the values allowed and those just outside.
const SHARED: [FieldRow; 4] = [
    ("flags", &[0, 3], &[4, 200, 255]),
    ("payload", &[0, 127], &[128, 255]),
    ("generation", &[0, 63], &[64, 255]),
    ("link", &[0, 15], &[16, 255]),
];

/// The kept timestamp difference must have a code.
const TIMESTAMP_DELTA: (&[u32], &[u32]) = (
    &[0, 4_194_303, 0xffff_c000, 0xffff_ffff],
    &[4_194_304, 0x8000_0000, 0xffff_bfff],
);

/// Fields that may hold anything their type does.
const FREE: [(&str, u32); 10] = [
    ("source", u32::MAX),
    ("destination", u32::MAX),
    ("sport", 65535),
    ("ssrc", u32::MAX),
    ("tos", 255),
    ("ttl", 255),
    ("id", 65535),
    ("sequence", 65535),
    ("timestamp", u32::MAX),
    ("did", 65535),
];

/// N 3: due counters up to 3, full headers up to 4, destination port even.
pub fn compressor_fields(mutant: Mutant) -> Outcome {
    let mut ends = Ends::open(mutant, 3, 2);
    let mut packet = voice(1, 1, 0);
    packet.csrc = vec![5, 6];
    ends.link_packet(&packet)?;
    let mut rows: Vec<FieldRow> = SHARED.to_vec();
    rows.push(("dts", TIMESTAMP_DELTA.0, TIMESTAMP_DELTA.1));
    rows.push(("dport", &[0, 2, 65534], &[1, 65535]));
    for due in ["idue", "sdue", "tdue", "pdue", "cdue", "didue", "dtdue"] {
        rows.push((due, &[0, 3], &[4, 255]));
    }
    rows.push(("fdue", &[0, 3, 4], &[5, 255]));
    rows.push(("cc", &[2, 3, 15], &[0, 1, 16, 255]));
    rows.push(("csrc1", &[0, 9], &[]));
    rows.push(("csrc2", &[0], &[1, u32::MAX]));
    rows.push(("csrc14", &[0], &[1]));
    rows.push(("earlier", &[0, 1], &[]));
    rows.push(("eid", &[0, 65535], &[]));
    rows.push(("ets", &[0, 4_194_304, u32::MAX], &[]));
    rows.push(("blank", &[0, 1], &[]));
    for (name, sound, unsound) in rows {
        for &value in sound {
            let what = format!("{name} {value}");
            same(&what, compressor_sound(&ends, name, 0, value)?, true)?;
        }
        for &value in unsound {
            let what = format!("{name} {value}");
            same(&what, compressor_sound(&ends, name, 0, value)?, false)?;
        }
    }
    for (name, most) in FREE {
        for value in [0, 1, most] {
            same(name, compressor_sound(&ends, name, 0, value)?, true)?;
        }
    }
    // N bounds the counters: at N 0 none may be due but one full header.
    let mut none = Ends::open(mutant, 0, 1);
    none.link_packet(&voice(1, 1, 0))?;
    for (name, value, sound) in [("idue", 1, false), ("fdue", 1, true), ("fdue", 2, false)] {
        same(name, compressor_sound(&none, name, 0, value)?, sound)?;
    }
    Ok(())
}

pub fn decompressor_fields(mutant: Mutant) -> Outcome {
    for broken in [false, true] {
        let mut ends = Ends::open(mutant, 0, 2);
        let mut packet = voice(1, 1, 0);
        packet.csrc = vec![5, 6];
        ends.fill(&packet, 0, 0, 0)?;
        if broken {
            same("gap of 0", ends.receive(3, &[0, 0], 100)?.number, 9)?;
        }
        let mut rows: Vec<FieldRow> = SHARED.to_vec();
        rows.push(("dts", TIMESTAMP_DELTA.0, TIMESTAMP_DELTA.1));
        rows.push(("dport", &[0, 1, 65535], &[]));
        rows.push(("cc", &[2, 15], &[0, 1, 16, 255]));
        rows.push(("csrc2", &[0], &[1]));
        rows.push(("carried", &[0, 1], &[]));
        rows.push(("marker", &[0, 1], &[]));
        // A filled context is live or broken, never empty, and never not filled.
        rows.push(("status", &[1, 2], &[0]));
        rows.push(("filled", &[1], &[0]));
        for (name, sound, unsound) in rows {
            for &value in sound {
                let what = format!("{name} {value}");
                same(&what, decompressor_sound(&ends, name, 0, value)?, true)?;
            }
            for &value in unsound {
                let what = format!("{name} {value}");
                same(&what, decompressor_sound(&ends, name, 0, value)?, false)?;
            }
        }
        for (name, most) in FREE {
            for value in [0, 1, most] {
                same(name, decompressor_sound(&ends, name, 0, value)?, true)?;
            }
        }
    }
    Ok(())
}

/// Nothing but the state may be written in an empty context, nor in one broken before it was filled.
pub fn empty_contexts_hold_zeros(mutant: Mutant) -> Outcome {
    let ends = Ends::open(mutant, 3, 2);
    for name in oracle::script::COMPRESSOR_FIELDS {
        let sound = compressor_sound(&ends, name, 1, 1)?;
        // An empty context made live with zeros everywhere is sound.
        same(name, sound, name == "status")?;
    }
    let mut broken = ends.clone();
    same("empty", broken.receive(3, &[1, 0], 100)?.number, 8)?;
    for name in oracle::script::DECOMPRESSOR_FIELDS {
        same(name, decompressor_sound(&ends, name, 1, 1)?, false)?;
        // Broken and then marked filled, with zeros everywhere, is sound; live without being filled
        // is not.
        same(
            name,
            decompressor_sound(&broken, name, 1, 1)?,
            name == "filled",
        )?;
    }
    same("broken", decompressor_sound(&ends, "status", 1, 2)?, true)
}

/// With K 2 no rule puts anything into place 2 or beyond, not even a state.
pub fn places_from_k_upward(mutant: Mutant) -> Outcome {
    let ends = Ends::open(mutant, 3, 2);
    for place in [2, 63] {
        for name in oracle::script::COMPRESSOR_FIELDS {
            same(name, compressor_sound(&ends, name, place, 1)?, false)?;
        }
        for name in oracle::script::DECOMPRESSOR_FIELDS {
            same(name, decompressor_sound(&ends, name, place, 1)?, false)?;
        }
        same(
            "broken",
            decompressor_sound(&ends, "status", place, 2)?,
            false,
        )?;
    }
    Ok(())
}

pub fn settings_by_hand(mutant: Mutant) -> Outcome {
    let ends = Ends::open(mutant, 3, 2);
    for (name, value, sound) in [
        ("n", 0, true),
        ("n", 14, true),
        ("n", 15, false),
        ("n", 255, false),
        ("k", 0, false),
        ("k", 1, true),
        ("k", 64, true),
        ("k", 65, false),
        ("k", 255, false),
    ] {
        let what = format!("{name} {value}");
        same(&what, compressor_sound(&ends, name, 0, value)?, sound)?;
        same(&what, decompressor_sound(&ends, name, 0, value)?, sound)?;
    }
    Ok(())
}

/// One unsound field far from the context in use refuses every call, whatever else is wrong.
pub fn unsound_comes_first(mutant: Mutant) -> Outcome {
    let mut ends = Ends::open(mutant, 3, 64);
    ends.compressor.places[63].generation = 1;
    ends.decompressor.places[63].generation = 1;
    let before = ends.clone();
    let packet = voice(1, 1, 0);
    for bytes in [packet.bytes(), Vec::new(), vec![0; 1501]] {
        for room in [0, 1500] {
            same("send", ends.send(&bytes, room)?.number, 1)?;
            for link_type in [0, 1, 2, 3, 4, u32::MAX] {
                same("receive", ends.receive(link_type, &bytes, room)?.number, 1)?;
            }
        }
        same("request", ends.request(&bytes)?, 1)?;
    }
    same("report", ends.report(0)?.number, 1)?;
    ensure("unchanged", ends.compressor == before.compressor)?;
    ensure("unchanged", ends.decompressor == before.decompressor)
}

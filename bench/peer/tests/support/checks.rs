//! What a comparison has to show, whatever program is beside the peer: no difference in scripts that reach every answer, and that a
//! single bit at the peer is noticed.

use crate::script::{script, KINDS, SCRIPTS};
use crate::side_by_side::{compare, Other, Outcome, Seen};
use crate::tables::{
    lay_out_compressor, lay_out_decompressor, of_every_place, take_compressor, take_decompressor,
};
use oracle::script::{
    compressor_table_field, decompressor_table_field, Field, COMPRESSOR_FIELDS, DECOMPRESSOR_FIELDS,
};

pub fn leave(_: usize, _: &mut Outcome) {}

pub fn scripts_call_for_call<O: Other>(new: impl Fn() -> O) {
    let mut all = Seen::default();
    for (name, count) in SCRIPTS {
        let mut seen = Seen::default();
        for seed in [2508, 3545] {
            let lines = script(name, seed).take(count / 2);
            seen.add(&compare(&mut new(), lines, usize::MAX, leave));
        }
        println!(
            "{name}: {} calls in {count} lines, {} differences",
            seen.calls, seen.differences
        );
        all.add(&seen);
    }
    println!(
        "accepted sends: plain {}, FH {}, CU {}, CR {}",
        all.types[0], all.types[1], all.types[2], all.types[3]
    );
    for (kind, numbers) in KINDS.iter().zip(&all.numbers) {
        println!("{kind:?} by number, from 0: {numbers:?}");
    }
    println!("fields written and files loaded: {}", all.changes);
    println!(
        "peer and {} program: {} calls, {} differences",
        O::NAME,
        all.calls,
        all.differences
    );
    assert_eq!(all.differences, 0, "{}", all.first.unwrap_or_default());
    // A comparison of calls that never come would show nothing.
    assert!(all.calls >= 200_000 && all.changes >= 1000);
    assert!(all.types.iter().all(|&count| count >= 1000));
    let opening: &[usize] = &[0, 1];
    let receive = &[0, 1, 2, 3, 4, 5, 6, 7, 8, 9, 10, 11, 12];
    let reached = [
        opening,
        opening,
        &[0, 1, 2, 11],
        receive,
        &[0, 1, 4, 5, 6],
        &[0, 1, 11],
    ];
    for ((kind, numbers), reached) in KINDS.iter().zip(all.numbers).zip(reached) {
        for (number, count) in numbers.into_iter().enumerate() {
            assert_eq!(
                count >= 25,
                reached.contains(&number),
                "{kind:?} answered {number} {count} times"
            );
        }
    }
}

/// Tampers with one call, and tells how many differences were seen.
fn differences_after<O: Other>(mut other: O, tamper: impl Fn(&mut Outcome) -> bool) -> usize {
    let mut tampered = false;
    let once = |call: usize, outcome: &mut Outcome| {
        if call >= 100 && !tampered {
            tampered = tamper(outcome);
        }
    };
    let lines = script("both tables", 9).take(400);
    let seen = compare(&mut other, lines, usize::MAX, once);
    assert!(tampered && seen.calls > 200);
    seen.differences
}

pub fn one_bit_is_noticed<O: Other>(new: impl Fn() -> O) {
    for bit in 0..8 {
        let number = |outcome: &mut Outcome| flip(Some(&mut outcome.number), bit);
        let link_type = |outcome: &mut Outcome| {
            outcome.link_type ^= 1 << bit;
            true
        };
        let length = |outcome: &mut Outcome| {
            outcome.length ^= 1 << bit;
            true
        };
        let first = |outcome: &mut Outcome| flip(outcome.output.first_mut(), bit);
        let last = |outcome: &mut Outcome| flip(outcome.output.last_mut(), bit);
        assert_eq!(differences_after(new(), number), 1);
        assert_eq!(differences_after(new(), link_type), 1);
        assert_eq!(differences_after(new(), length), 1);
        assert_eq!(differences_after(new(), first), 1);
        assert_eq!(differences_after(new(), last), 1);
    }
    // Every field at some place.
    for (name, place) in of_every_place(&COMPRESSOR_FIELDS).step_by(61) {
        let field = |outcome: &mut Outcome| {
            let mut table = take_compressor(&outcome.tables.compressor);
            flip_some_bit(compressor_table_field(&mut table, name, place));
            outcome.tables.compressor = lay_out_compressor(&table);
            true
        };
        assert_eq!(differences_after(new(), field), 1, "{name} {place}");
    }
    for (name, place) in of_every_place(&DECOMPRESSOR_FIELDS).step_by(61) {
        let field = |outcome: &mut Outcome| {
            let mut table = take_decompressor(&outcome.tables.decompressor);
            flip_some_bit(decompressor_table_field(&mut table, name, place));
            outcome.tables.decompressor = lay_out_decompressor(&table);
            true
        };
        assert_eq!(differences_after(new(), field), 1, "{name} {place}");
    }
}

/// Flips a bit of a byte, if there is one.
pub fn flip(byte: Option<&mut u8>, bit: usize) -> bool {
    byte.map(|byte| *byte ^= 1 << bit).is_some()
}

/// Flips the lowest bit, or leaves 0 of a status that has no such neighbour.
fn flip_some_bit(field: Option<Field>) {
    let field = field.expect("a field");
    let flipped = field.get() ^ 1;
    let flipped = match field {
        Field::Status(_) => flipped % 3,
        _ => flipped,
    };
    assert!(field.set(flipped));
}

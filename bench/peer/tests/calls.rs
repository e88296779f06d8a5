//! The peer beside the oracle: scripts of the oracle's generators call for call, and tables in which one field was changed.

#[path = "support/checks.rs"]
mod checks;
#[path = "../../second/src/packets.rs"]
mod packets;
#[path = "support/script.rs"]
mod script;
#[path = "support/second.rs"]
mod second;
#[path = "support/side_by_side.rs"]
mod side_by_side;
#[path = "support/soundness.rs"]
mod soundness;
#[path = "support/tables.rs"]
mod tables;

use checks::leave;
use oracle::mutant::Mutant;
use oracle::script::{
    compressor_table_field, decompressor_table_field, COMPRESSOR_FIELDS, DECOMPRESSOR_FIELDS,
};
use peer::compressor::{BLANK, EARLIER};
use peer::decompressor::{CARRIED, FILLED, MARKER};
use peer::kept::{EXTENSION, PADDING, STATUS};
use peer::PLACES;
use script::script;
use second::Second;
use side_by_side::compare;
use soundness::{benchmark_packets, sound_tables, VALUES};
use tables::{
    lay_out_compressor, lay_out_decompressor, of_every_place, take_compressor, take_decompressor,
};

#[test]
fn scripts_call_for_call() {
    checks::scripts_call_for_call(without_fault);
}

fn without_fault() -> Second {
    Second::with(Mutant::None)
}

// That the comparison can fail

/// The oracle's faults in a send, an arrival, a request or a report: all but those in totals and saves.
fn faults() -> impl Iterator<Item = Mutant> {
    let last = Mutant::ALL
        .iter()
        .position(|&mutant| mutant == Mutant::ZeroRightBesideAllOnes)
        .expect("the last of them");
    Mutant::ALL[..=last]
        .iter()
        .copied()
        .filter(|&mutant| mutant != Mutant::WrongChecksumNotCounted)
}

#[test]
fn every_fault_is_noticed() {
    let mut noticed = 0;
    for mutant in faults() {
        let scripts = ["both tables", "checksums", "sender"];
        let first = scripts.iter().find_map(|name| {
            let lines = script(name, 7).take(60_000);
            compare(&mut Second::with(mutant), lines, 1, leave).first
        });
        let first = first.unwrap_or_else(|| panic!("{mutant:?} is not noticed"));
        println!("{mutant:?}: {first:.100}");
        noticed += 1;
    }
    println!("faults: {noticed} noticed");
    assert_eq!(noticed, 53);
}

#[test]
fn one_bit_is_noticed() {
    checks::one_bit_is_noticed(without_fault);
}

/// Tables are compared as they are laid out for the peer, so no field may get lost on the way.
#[test]
fn every_field_is_laid_out() {
    for (name, place) in of_every_place(&COMPRESSOR_FIELDS) {
        for value in VALUES {
            let mut table = oracle::compressor::Table::unopened();
            let field = compressor_table_field(&mut table, name, place).expect("a field");
            if field.set(value) {
                let laid_out = lay_out_compressor(&table);
                assert!(
                    take_compressor(&laid_out) == table,
                    "{name} {place} {value}"
                );
                let nothing = laid_out == peer::compressor::Table::unopened();
                assert_eq!(nothing, value == 0, "{name} {place} {value}");
            }
        }
    }
    for (name, place) in of_every_place(&DECOMPRESSOR_FIELDS) {
        for value in VALUES {
            let mut table = oracle::decompressor::Table::unopened();
            let field = decompressor_table_field(&mut table, name, place).expect("a field");
            if field.set(value) {
                let laid_out = lay_out_decompressor(&table);
                assert!(
                    take_decompressor(&laid_out) == table,
                    "{name} {place} {value}"
                );
                let nothing = laid_out == peer::decompressor::Table::unopened();
                assert_eq!(nothing, value == 0, "{name} {place} {value}");
            }
        }
    }
}

// One field changed

#[test]
fn one_field_changed() {
    soundness::one_field_changed(|tables| {
        let mut second = without_fault();
        second.runner.compressor.clone_from(&tables.compressor);
        second.runner.decompressor.clone_from(&tables.decompressor);
        second
    });
}

/// A status or a bit can be a byte here that the oracle's types cannot hold. Then every call is refused and leaves everything.
#[test]
fn bytes_that_are_no_bits() {
    let mut refused = 0;
    let packet = &benchmark_packets()[0];
    let state = [1, 1, 0, 0x80, 0];
    for tables in sound_tables() {
        let compressor = lay_out_compressor(&tables.compressor);
        for (plane, place, value) in every_byte(5, 2) {
            let mut table = compressor.clone();
            let planes = [STATUS, PADDING, EXTENSION, BLANK, EARLIER];
            table.kept.planes[planes[plane]][place] = value;
            let (left, mut output) = (table.clone(), [0xaa; 256]);
            let sent = peer::compressor::send(&mut table, packet, &mut output);
            assert_eq!((sent.number, sent.link_type, sent.length), (1, 0, 0));
            let requested = peer::compressor::request(&mut table, &state);
            assert_eq!((requested.number, requested.length), (1, 0));
            assert!(table == left && output == [0xaa; 256]);
            refused += 2;
        }
        let decompressor = lay_out_decompressor(&tables.decompressor);
        for (plane, place, value) in every_byte(6, 3).chain(every_byte(5, 2)) {
            let mut table = decompressor.clone();
            let planes = [PADDING, EXTENSION, FILLED, CARRIED, MARKER, STATUS];
            table.kept.planes[planes[plane]][place] = value;
            let (left, mut output) = (table.clone(), [0xaa; 256]);
            let received = peer::decompressor::receive(&mut table, 0, packet, &mut output);
            assert_eq!((received.number, received.length), (1, 0));
            let reported = peer::decompressor::report(&table, &mut output);
            assert_eq!((reported.number, reported.length), (1, 0));
            assert!(table == left && output == [0xaa; 256]);
            refused += 2;
        }
    }
    println!("calls with a byte that is no bit or status: {refused}, all refused with 1");
}

/// So many planes, every place, and bytes from a first one on.
fn every_byte(planes: usize, first: u8) -> impl Iterator<Item = (usize, usize, u8)> {
    let bytes = move |plane, place| (first..=255).map(move |value| (plane, place, value));
    (0..planes).flat_map(move |plane| (0..PLACES).flat_map(move |place| bytes(plane, place)))
}

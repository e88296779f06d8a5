//! The peer beside the proved program, which is linked from libiarwennol.a: scripts of the oracle's generators call for call, and
//! tables in which one field was changed.

#[path = "support/checks.rs"]
mod checks;
#[path = "../../second/src/packets.rs"]
mod packets;
#[path = "support/proved.rs"]
mod proved;
#[path = "support/script.rs"]
mod script;
#[path = "support/side_by_side.rs"]
mod side_by_side;
#[path = "support/soundness.rs"]
mod soundness;
#[path = "support/tables.rs"]
mod tables;

use checks::{flip, leave};
use oracle::script::{COMPRESSOR_FIELDS, DECOMPRESSOR_FIELDS};
use peer::PLACES;
use proved::{lend_compressor, lend_decompressor, Proved};
use script::{script, Call};
use side_by_side::{changed, compare, Other, Pair, PeerPair, Told};
use tables::{lay_out_compressor, lay_out_decompressor, of_every_place};

#[test]
fn scripts_call_for_call() {
    checks::scripts_call_for_call(Proved::default);
}

#[test]
fn one_field_changed() {
    soundness::one_field_changed(|tables| {
        let lent = Pair {
            compressor: lend_compressor(&lay_out_compressor(&tables.compressor)),
            decompressor: lend_decompressor(&lay_out_decompressor(&tables.decompressor)),
        };
        Proved {
            tables: [lent, Pair::default()],
        }
    });
}

// That the comparison can fail

#[test]
fn one_bit_of_the_peer_is_noticed() {
    checks::one_bit_is_noticed(Proved::default);
}

/// The proved program with one bit flipped in what came of one call.
struct Flipped<F> {
    proved: Proved,
    calls: usize,
    /// Tells if there was something to be flipped.
    flip: F,
    flipped_at: Option<usize>,
}

const FIRST_FLIPPED: usize = 100;

impl<F: Fn(&mut Proved, &mut Told, &mut [u8]) -> bool> Other for Flipped<F> {
    const NAME: &'static str = "proved, flipped";

    fn call(&mut self, at_endpoint: bool, call: &Call, output: &mut [u8]) -> Told {
        let mut told = self.proved.call(at_endpoint, call, output);
        if self.calls >= FIRST_FLIPPED
            && self.flipped_at.is_none()
            && (self.flip)(&mut self.proved, &mut told, output)
        {
            self.flipped_at = Some(self.calls);
        }
        self.calls += 1;
        told
    }

    fn change(&mut self, line: &str) {
        self.proved.change(line);
    }

    fn same(&self, at_endpoint: bool, peer: &PeerPair) -> [bool; 2] {
        self.proved.same(at_endpoint, peer)
    }
}

/// What was noticed first, which has to be the call with the flipped bit and not a later one.
fn noticed(flip: impl Fn(&mut Proved, &mut Told, &mut [u8]) -> bool) -> String {
    let mut flipped = Flipped {
        proved: Proved::default(),
        calls: 0,
        flip,
        flipped_at: None,
    };
    let seen = compare(&mut flipped, script("both tables", 9).take(400), 1, leave);
    assert_eq!(seen.differences, 1);
    assert_eq!(Some(seen.calls), flipped.flipped_at);
    seen.first.unwrap_or_default()
}

#[test]
fn one_bit_of_the_proved_program_is_noticed() {
    for bit in 0..8 {
        let number = |_: &mut Proved, told: &mut Told, _: &mut [u8]| flip(Some(&mut told.0), bit);
        let link_type = |_: &mut Proved, told: &mut Told, _: &mut [u8]| {
            told.1 ^= 1 << bit;
            true
        };
        let length = |_: &mut Proved, told: &mut Told, _: &mut [u8]| {
            told.2 ^= 1 << bit;
            true
        };
        let first = |_: &mut Proved, _: &mut Told, output: &mut [u8]| flip(output.first_mut(), bit);
        let last = |_: &mut Proved, _: &mut Told, output: &mut [u8]| flip(output.last_mut(), bit);
        assert!(noticed(number).starts_with("answer"));
        assert!(noticed(link_type).starts_with("answer"));
        assert!(noticed(length).starts_with("answer"));
        assert!(noticed(first).starts_with("output"));
        assert!(noticed(last).starts_with("output"));
    }
    // A bit in every plane, at some place, and in N and K.
    let tables = Pair::default();
    let (to, from) = (tables.compressor, tables.decompressor);
    flip_each(&to.words, "compressor's table", |proved, at, bit| {
        proved.tables[0].compressor.words[at] ^= 1 << (bit % 32);
    });
    flip_each(&to.shorts, "compressor's table", |proved, at, bit| {
        proved.tables[0].compressor.shorts[at] ^= 1 << (bit % 16);
    });
    flip_each(&to.bytes, "compressor's table", |proved, at, bit| {
        proved.tables[0].compressor.bytes[at] ^= 1 << (bit % 8);
    });
    flip_each(&from.words, "decompressor's table", |proved, at, bit| {
        proved.tables[0].decompressor.words[at] ^= 1 << (bit % 32);
    });
    flip_each(&from.shorts, "decompressor's table", |proved, at, bit| {
        proved.tables[0].decompressor.shorts[at] ^= 1 << (bit % 16);
    });
    flip_each(&from.bytes, "decompressor's table", |proved, at, bit| {
        proved.tables[0].decompressor.bytes[at] ^= 1 << (bit % 8);
    });
}

/// Flips one bit at a time at places far enough from each other that none is in a plane twice, and at all that follow the planes.
fn flip_each<T>(slice: &[T], what: &str, flip: impl Fn(&mut Proved, usize, usize)) {
    let planes = slice.len() / PLACES;
    let in_planes = (0..planes).map(|plane| PLACES * plane + plane * 7 % PLACES);
    for (bit, at) in in_planes.chain(PLACES * planes..slice.len()).enumerate() {
        let first = noticed(|proved, _, _| {
            flip(proved, at, bit);
            true
        });
        assert!(first.starts_with(what), "{at}: {first}");
    }
}

/// Tables are compared as they are lent, so every field has to be lent, and at the place where a line writes it.
#[test]
fn every_field_is_lent() {
    let unopened = Pair {
        compressor: peer::compressor::Table::unopened(),
        decompressor: peer::decompressor::Table::unopened(),
    };
    let (of_sender, of_receiver) = (
        of_every_place(&COMPRESSOR_FIELDS),
        of_every_place(&DECOMPRESSOR_FIELDS),
    );
    let fields = of_sender
        .map(|field| ("ws", field))
        .chain(of_receiver.map(|field| ("wr", field)));
    let (mut written, mut left) = (0, 0);
    for (word, (name, place)) in fields {
        for value in [1, 2, 3, 255, 256, 0xffff, 0x1_0000, 0x1234_5678, u32::MAX] {
            let line = format!("{word} {name} {place} {value}");
            let peer = changed(&line, &unopened);
            let mut proved = Proved::default();
            proved.change(&line);
            let [tables, _] = proved.tables;
            assert!(
                lend_compressor(&peer.compressor) == tables.compressor,
                "{line}"
            );
            assert!(
                lend_decompressor(&peer.decompressor) == tables.decompressor,
                "{line}"
            );
            // The peer may not lose what it is given either; numbers that are too great are not written.
            assert_eq!(peer == unopened, tables == Pair::default(), "{line}");
            if peer == unopened {
                left += 1;
            } else {
                written += 1;
            }
        }
    }
    println!("fields written: {written}, and {left} numbers too great for theirs");
    assert!(written > 25_000 && left > 5000);
}

//! Tables in which one field was changed, judged by the peer and by another program.

use crate::packets;
use crate::script::{Call, Kind};
use crate::side_by_side::{Other, Pair};
use crate::tables::{
    lay_out_compressor, lay_out_decompressor, of_every_place, put_compressor, put_decompressor,
};
use oracle::flows::Flow;
use oracle::prng::Prng;
use oracle::script::{
    compressor_table_field, decompressor_table_field, COMPRESSOR_FIELDS, DECOMPRESSOR_FIELDS,
};

pub type OraclePair = Pair<oracle::compressor::Table, oracle::decompressor::Table>;

pub fn benchmark_packets() -> packets::Buffer {
    let mut buffer = [[0; packets::PACKET]; packets::BATCH];
    packets::make_batch(64, 0, &mut buffer);
    buffer
}

fn packet_with_list(prng: &mut Prng) -> Vec<u8> {
    loop {
        let packet = Flow::new(prng).next_packet(prng, 0, 0);
        if packet.get(28).is_some_and(|first| first & 15 > 0) {
            return packet;
        }
    }
}

/// Sound tables: opened with K contexts, so many of which are in use. Flows have lists, other packets are the benchmark's, which
/// have none. A walk may take another way for each of them.
pub fn sound_tables() -> Vec<OraclePair> {
    let mut prng = Prng::new(1889);
    let mut made = Vec::new();
    for (n, k, used, lists) in [
        (2, 64, 0, false),
        (2, 64, 1, false),
        (1, 64, 16, false),
        (0, 64, 17, false),
        (2, 64, 48, true),
        (2, 64, 49, false),
        (2, 64, 64, false),
        (14, 64, 64, true),
        (3, 64, 63, true),
        (1, 40, 40, false),
        (2, 1, 1, true),
    ] {
        let mut compressor = oracle::compressor::Table::unopened();
        let mut decompressor = oracle::decompressor::Table::unopened();
        oracle::compressor::open(&mut compressor, n, k);
        oracle::decompressor::open(&mut decompressor, n, k);
        for stream in 0..used {
            // Two flows may turn out to be one; then the next is tried.
            while !compressor.places[stream].live {
                let packet = if lists {
                    packet_with_list(&mut prng)
                } else {
                    benchmark_packets()[stream].to_vec()
                };
                let mut link = [0; 1500];
                let sent = oracle::compressor::send(&mut compressor, &packet, &mut link);
                let link = &link[..sent.length];
                let received = oracle::decompressor::receive(
                    &mut decompressor,
                    sent.link_type,
                    link,
                    &mut [0; 1500],
                );
                assert_eq!((sent.number, received.number), (0, 0));
            }
        }
        assert_eq!(
            compressor
                .places
                .iter()
                .filter(|context| context.live)
                .count(),
            used
        );
        made.push(Pair {
            compressor: compressor.clone(),
            decompressor: decompressor.clone(),
        });
        // The same with broken contexts: every third, filled or not, by a gap of 0.
        for place in (0..k as u8).step_by(3) {
            let again = [
                place,
                decompressor.places[usize::from(place)].last_link,
                0,
                0,
            ];
            let answer = oracle::decompressor::receive(
                &mut decompressor,
                oracle::COMPRESSED_RTP,
                &again,
                &mut [],
            );
            assert!([8, 9].contains(&answer.number));
        }
        made.push(Pair {
            compressor,
            decompressor,
        });
    }
    made
}

/// Around every limit that a rule has.
pub const VALUES: [u32; 37] = [
    0,
    1,
    2,
    3,
    4,
    5,
    7,
    8,
    13,
    14,
    15,
    16,
    17,
    31,
    32,
    63,
    64,
    65,
    127,
    128,
    129,
    254,
    255,
    256,
    16_383,
    16_384,
    32_767,
    32_768,
    49_152,
    65_535,
    65_536,
    4_194_303,
    4_194_304,
    0x8000_0000,
    0xffff_bfff,
    0xffff_c000,
    0xffff_ffff,
];

/// `with` gives the other program tables to begin with. The oracle's are only kept to know what a field held, and what fits in it.
pub fn one_field_changed<O: Other>(with: impl Fn(&OraclePair) -> O) {
    let mut judged = [0; 2];
    for mut kept in sound_tables() {
        let mut other = with(&kept);
        let mut peer = Pair {
            compressor: lay_out_compressor(&kept.compressor),
            decompressor: lay_out_decompressor(&kept.decompressor),
        };
        let before = peer.clone();
        for (name, place) in of_every_place(&COMPRESSOR_FIELDS) {
            let table = &mut kept.compressor;
            let field = compressor_table_field(table, name, place);
            let before = field.expect("a field").get();
            for value in VALUES.into_iter().chain([before]) {
                let field = compressor_table_field(table, name, place);
                if !field.expect("a field").set(value) {
                    continue;
                }
                let to = &mut peer.compressor;
                (to.repeats, to.contexts) = (table.repeats, table.contexts);
                put_compressor(to, place, &table.places[place]);
                other.change(&format!("ws {name} {place} {value}"));
                // With no bytes a request is refused as soon as the table is found sound.
                let (wanted, ..) = other.call(false, &nothing(Kind::Request), &mut []);
                let answer = peer::compressor::request(to, &[]);
                assert_eq!(answer.number, wanted, "{name} {place} {value}");
                judged[usize::from(wanted == 1)] += 1;
            }
        }
        for (name, place) in of_every_place(&DECOMPRESSOR_FIELDS) {
            let table = &mut kept.decompressor;
            let field = decompressor_table_field(table, name, place);
            let before = field.expect("a field").get();
            for value in VALUES.into_iter().chain([before]) {
                let field = decompressor_table_field(table, name, place);
                if !field.expect("a field").set(value) {
                    continue;
                }
                let to = &mut peer.decompressor;
                (to.repeats, to.contexts) = (table.repeats, table.contexts);
                put_decompressor(to, place, &table.places[place]);
                other.change(&format!("wr {name} {place} {value}"));
                let (wanted, ..) = other.call(false, &nothing(Kind::Receive), &mut []);
                let answer = peer::decompressor::receive(to, NO_TYPE, &[], &mut []);
                assert_eq!(answer.number, wanted, "{name} {place} {value}");
                judged[usize::from(wanted == 1)] += 1;
            }
        }
        // Each field was put back, so all that was written is undone, at both.
        assert!(peer == before && other.same(false, &before) == [true; 2]);
    }
    println!(
        "tables with one field changed, peer and {} program: {} sound, {} not",
        O::NAME,
        judged[0],
        judged[1]
    );
    assert!(judged.iter().all(|&count| count > 300_000));
}

/// No type is known above 3, so an arrival is refused as soon as the table is found sound.
const NO_TYPE: u32 = 4;

fn nothing(kind: Kind) -> Call {
    Call {
        kind,
        settings: (0, 0),
        link_type: NO_TYPE,
        input: Vec::new(),
        room: 0,
    }
}

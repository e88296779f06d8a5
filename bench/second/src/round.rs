//! One round: both ends opened anew, then 500 batches sent, received, copied and compared.

use crate::packets::{self, Buffer, BATCH, PACKET, PAYLOAD};
use oracle::{compressor, decompressor};
use std::hint::black_box;
use std::time::{Duration, Instant};

const BATCHES: u32 = 500;
pub const PACKETS: u32 = BATCHES * BATCH as u32;
/// N of both ends.
const REPEATS: u32 = 2;

/// What a round sent and got back; the same in every round of a configuration.
#[derive(Default, PartialEq, Eq, Debug)]
pub struct Counts {
    /// Link packets by type.
    pub kinds: [u32; 4],
    /// Link packets' bytes without the payloads.
    pub header: usize,
    /// Sum of all link packets' bytes.
    pub sum: u32,
    /// Packets rebuilt exactly.
    pub exact: u32,
}

/// Time spent in each phase of a round.
#[derive(Clone, Copy, Default)]
pub struct Times {
    pub send: Duration,
    pub receive: Duration,
    pub copy: Duration,
}

/// Both ends of a link.
struct Ends {
    compressor: compressor::Table,
    decompressor: decompressor::Table,
}

/// A batch on its way. A refused call leaves length 0.
struct Batch {
    packets: Buffer,
    links: Buffer,
    kinds: [u32; BATCH],
    link_lengths: [usize; BATCH],
    rebuilt: Buffer,
    rebuilt_lengths: [usize; BATCH],
    copies: Buffer,
}

pub fn run(streams: u32, contexts: u32) -> (Counts, Times) {
    let mut ends = open(contexts);
    let mut batch = empty_batch();
    let mut counts = Counts::default();
    let mut times = Times::default();
    for number in 0..BATCHES {
        packets::make_batch(streams, number, &mut batch.packets);
        times.send += timed(|| send(&mut ends.compressor, &mut batch));
        times.receive += timed(|| receive(&mut ends.decompressor, &mut batch));
        times.copy += timed(|| copy(&mut batch));
        count(&batch, &mut counts);
    }
    (counts, times)
}

fn open(contexts: u32) -> Ends {
    let mut ends = Ends {
        compressor: compressor::Table::unopened(),
        decompressor: decompressor::Table::unopened(),
    };
    let first = compressor::open(&mut ends.compressor, REPEATS, contexts);
    let second = decompressor::open(&mut ends.decompressor, REPEATS, contexts);
    assert_eq!((first.number, second.number), (0, 0), "an opening refused");
    ends
}

fn empty_batch() -> Batch {
    let buffer = [[0; PACKET]; BATCH];
    Batch {
        packets: buffer,
        links: buffer,
        kinds: [0; BATCH],
        link_lengths: [0; BATCH],
        rebuilt: buffer,
        rebuilt_lengths: [0; BATCH],
        copies: buffer,
    }
}

fn timed(phase: impl FnOnce()) -> Duration {
    let before = Instant::now();
    phase();
    before.elapsed()
}

fn send(table: &mut compressor::Table, batch: &mut Batch) {
    for i in 0..BATCH {
        let answer = compressor::send(table, &batch.packets[i], &mut batch.links[i]);
        batch.kinds[i] = answer.link_type;
        batch.link_lengths[i] = answer.length;
    }
}

fn receive(table: &mut decompressor::Table, batch: &mut Batch) {
    for i in 0..BATCH {
        let link = &batch.links[i][..batch.link_lengths[i]];
        let answer = decompressor::receive(table, batch.kinds[i], link, &mut batch.rebuilt[i]);
        batch.rebuilt_lengths[i] = answer.length;
    }
}

/// The black box takes each copy by itself; else all of them could become one, or none.
fn copy(batch: &mut Batch) {
    for (packet, copy) in batch.packets.iter().zip(&mut batch.copies) {
        copy.copy_from_slice(packet);
        black_box(copy);
    }
}

fn count(batch: &Batch, counts: &mut Counts) {
    for i in 0..BATCH {
        let length = batch.link_lengths[i];
        assert!(length >= PAYLOAD, "a send refused");
        counts.kinds[batch.kinds[i] as usize] += 1;
        counts.header += length - PAYLOAD;
        counts.sum = add_bytes(counts.sum, &batch.links[i][..length]);
        counts.exact += u32::from(batch.rebuilt[i][..batch.rebuilt_lengths[i]] == batch.packets[i]);
    }
}

fn add_bytes(sum: u32, bytes: &[u8]) -> u32 {
    bytes
        .iter()
        .fold(sum, |sum, &byte| sum.wrapping_add(byte.into()))
}

//! The oracle's tables as the peer lays them out, and back again.

use oracle::decompressor::Status;
use oracle::header::Fields;
use peer::compressor::{self, due, BLANK, DUE, EARLIER, FULL_DUE};
use peer::decompressor::{self, CARRIED, FILLED, MARKER};
use peer::kept::{
    Kept, CC, DPORT_LOW, EXTENSION, FLAGS, GENERATION, LINK, PADDING, PAYLOAD, STATUS,
};
use peer::kept::{DELTA_HIGH, DELTA_HIGHEST, DELTA_LOW};
use peer::PLACES;

pub fn lay_out_compressor(from: &oracle::compressor::Table) -> compressor::Table {
    let mut to = compressor::Table::unopened();
    to.repeats = from.repeats;
    to.contexts = from.contexts;
    for (place, context) in from.places.iter().enumerate() {
        put_compressor(&mut to, place, context);
    }
    to
}

pub fn lay_out_decompressor(from: &oracle::decompressor::Table) -> decompressor::Table {
    let mut to = decompressor::Table::unopened();
    to.repeats = from.repeats;
    to.contexts = from.contexts;
    for (place, context) in from.places.iter().enumerate() {
        put_decompressor(&mut to, place, context);
    }
    to
}

pub fn take_compressor(from: &compressor::Table) -> oracle::compressor::Table {
    oracle::compressor::Table {
        repeats: from.repeats,
        contexts: from.contexts,
        places: std::array::from_fn(|place| take_compressor_context(from, place)),
    }
}

pub fn take_decompressor(from: &decompressor::Table) -> oracle::decompressor::Table {
    oracle::decompressor::Table {
        repeats: from.repeats,
        contexts: from.contexts,
        places: std::array::from_fn(|place| take_decompressor_context(from, place)),
    }
}

/// A number as it lies where it is kept as it stands in a packet.
fn turned16(number: u16) -> u64 {
    number.swap_bytes().into()
}

fn turned32(number: u32) -> u64 {
    number.swap_bytes().into()
}

fn put_kept<const PLANES: usize, const STEPS: usize>(
    kept: &mut Kept<PLANES, STEPS>,
    place: usize,
    fields: &Fields,
    timestamp_delta: u32,
) {
    let [lowest, low, high, highest] = timestamp_delta.to_le_bytes();
    let [dport_high, dport_low] = fields.dport.to_be_bytes();
    kept.flows[place] = [
        turned32(fields.destination)
            | turned16(fields.sport) << 32
            | u64::from(dport_high) << 48
            | u64::from(lowest) << 56,
        u64::from(fields.ttl)
            | u64::from(fields.tos) << 8
            | turned16((fields.ssrc >> 16) as u16) << 16
            | turned32(fields.source) << 32,
    ];
    kept.steps[place][0] =
        u64::from(fields.id) | u64::from(fields.sequence) << 16 | u64::from(fields.timestamp) << 32;
    kept.ssrc_low[place] = (fields.ssrc as u16).swap_bytes();
    kept.planes[DELTA_LOW][place] = low;
    kept.planes[DELTA_HIGH][place] = high;
    kept.planes[DELTA_HIGHEST][place] = highest;
    kept.planes[DPORT_LOW][place] = dport_low;
    kept.planes[FLAGS][place] = fields.flags;
    kept.planes[PADDING][place] = fields.padding.into();
    kept.planes[EXTENSION][place] = fields.extension.into();
    kept.planes[PAYLOAD][place] = fields.payload;
    kept.planes[CC][place] = fields.cc;
    let words = kept.csrc[place].as_chunks_mut().0;
    for (bytes, word) in words.iter_mut().zip(fields.csrc) {
        *bytes = word.to_be_bytes();
    }
}

fn take_kept<const PLANES: usize, const STEPS: usize>(
    kept: &Kept<PLANES, STEPS>,
    place: usize,
) -> (Fields, u32) {
    let [to, from] = kept.flows[place].map(u64::to_le_bytes);
    let [d0, d1, d2, d3, p0, p1, dport_high, lowest] = to;
    let [ttl, tos, c0, c1, s0, s1, s2, s3] = from;
    let last = kept.steps[place][0];
    let words = kept.csrc[place].as_chunks().0;
    let fields = Fields {
        source: u32::from_be_bytes([s0, s1, s2, s3]),
        destination: u32::from_be_bytes([d0, d1, d2, d3]),
        sport: u16::from_be_bytes([p0, p1]),
        dport: u16::from_be_bytes([dport_high, kept.planes[DPORT_LOW][place]]),
        ssrc: u32::from(u16::from_be_bytes([c0, c1])) << 16
            | u32::from(kept.ssrc_low[place].swap_bytes()),
        tos,
        ttl,
        flags: kept.planes[FLAGS][place],
        padding: bit(kept.planes[PADDING][place]),
        extension: bit(kept.planes[EXTENSION][place]),
        id: last as u16,
        sequence: (last >> 16) as u16,
        timestamp: (last >> 32) as u32,
        payload: kept.planes[PAYLOAD][place],
        cc: kept.planes[CC][place],
        csrc: std::array::from_fn(|word| u32::from_be_bytes(words[word])),
    };
    let [low, high, highest] =
        [DELTA_LOW, DELTA_HIGH, DELTA_HIGHEST].map(|plane| kept.planes[plane][place]);
    let timestamp_delta = u32::from_le_bytes([lowest, low, high, highest]);
    (fields, timestamp_delta)
}

fn bit(byte: u8) -> bool {
    assert!(byte <= 1, "a byte that is no bit");
    byte == 1
}

pub fn put_compressor(
    table: &mut compressor::Table,
    place: usize,
    context: &oracle::compressor::Context,
) {
    let kept = &mut table.kept;
    put_kept(kept, place, &context.fields, context.timestamp_delta);
    kept.planes[STATUS][place] = context.live.into();
    kept.planes[LINK][place] = context.next_link;
    kept.planes[GENERATION][place] = context.generation;
    kept.steps[place][1] = u64::from(context.id_delta)
        | u64::from(context.earlier_id_delta) << 16
        | u64::from(context.earlier_timestamp_delta) << 32;
    table.kept.planes[BLANK][place] = context.blank.into();
    table.kept.planes[EARLIER][place] = context.has_earlier.into();
    table.kept.planes[DUE + due::ID][place] = context.id_due;
    table.kept.planes[DUE + due::SEQUENCE][place] = context.sequence_due;
    table.kept.planes[DUE + due::TIMESTAMP][place] = context.timestamp_due;
    table.kept.planes[DUE + due::PAYLOAD][place] = context.payload_due;
    table.kept.planes[DUE + due::LIST][place] = context.list_due;
    table.kept.planes[DUE + due::ID_DELTA][place] = context.id_delta_due;
    table.kept.planes[DUE + due::TIMESTAMP_DELTA][place] = context.timestamp_delta_due;
    table.kept.planes[FULL_DUE][place] = context.full_headers_due;
}

fn take_compressor_context(table: &compressor::Table, place: usize) -> oracle::compressor::Context {
    let kept = &table.kept;
    let (fields, timestamp_delta) = take_kept(kept, place);
    let steps = kept.steps[place][1];
    oracle::compressor::Context {
        live: bit(kept.planes[STATUS][place]),
        fields,
        blank: bit(table.kept.planes[BLANK][place]),
        id_delta: steps as u16,
        timestamp_delta,
        has_earlier: bit(table.kept.planes[EARLIER][place]),
        earlier_id_delta: (steps >> 16) as u16,
        earlier_timestamp_delta: (steps >> 32) as u32,
        id_due: table.kept.planes[DUE + due::ID][place],
        sequence_due: table.kept.planes[DUE + due::SEQUENCE][place],
        timestamp_due: table.kept.planes[DUE + due::TIMESTAMP][place],
        payload_due: table.kept.planes[DUE + due::PAYLOAD][place],
        list_due: table.kept.planes[DUE + due::LIST][place],
        id_delta_due: table.kept.planes[DUE + due::ID_DELTA][place],
        timestamp_delta_due: table.kept.planes[DUE + due::TIMESTAMP_DELTA][place],
        full_headers_due: table.kept.planes[FULL_DUE][place],
        next_link: kept.planes[LINK][place],
        generation: kept.planes[GENERATION][place],
    }
}

pub fn put_decompressor(
    table: &mut decompressor::Table,
    place: usize,
    context: &oracle::decompressor::Context,
) {
    let kept = &mut table.kept;
    put_kept(kept, place, &context.fields, context.timestamp_delta);
    kept.planes[STATUS][place] = context.status as u8;
    kept.planes[LINK][place] = context.last_link;
    kept.planes[GENERATION][place] = context.generation;
    table.id_delta[place] = context.id_delta;
    table.kept.planes[FILLED][place] = context.filled.into();
    table.kept.planes[CARRIED][place] = context.carried.into();
    table.kept.planes[MARKER][place] = context.marker.into();
}

fn take_decompressor_context(
    table: &decompressor::Table,
    place: usize,
) -> oracle::decompressor::Context {
    let kept = &table.kept;
    let (fields, timestamp_delta) = take_kept(kept, place);
    oracle::decompressor::Context {
        status: [Status::Empty, Status::Live, Status::Broken]
            [usize::from(kept.planes[STATUS][place])],
        filled: bit(table.kept.planes[FILLED][place]),
        fields,
        carried: bit(table.kept.planes[CARRIED][place]),
        marker: bit(table.kept.planes[MARKER][place]),
        id_delta: table.id_delta[place],
        timestamp_delta,
        last_link: kept.planes[LINK][place],
        generation: kept.planes[GENERATION][place],
    }
}

/// Every field of a table by its name in scripts, with its place; those of the table itself stand at place 0.
pub fn of_every_place(
    names: &'static [&'static str],
) -> impl Iterator<Item = (&'static str, usize)> {
    let of_contexts = names
        .iter()
        .flat_map(|name| (0..PLACES).map(move |place| (*name, place)));
    [("n", 0), ("k", 0)].into_iter().chain(of_contexts)
}

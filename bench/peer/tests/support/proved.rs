//! The proved program beside the peer: its calls through `bindings`, at tables that lie as docs/LAYOUT.md says.

use crate::script::{bytes, number, Call, Kind};
use crate::side_by_side::{Other, Pair, PeerPair, Told};
use crate::tables::{take_compressor, take_decompressor};
use iarwennol::{Compressor, Decompressor, Refusal};
use oracle::script::MOST_SAVED_BYTES;
use peer::PLACES;

/// Tables of the script, and of its endpoint.
#[derive(Default)]
pub struct Proved {
    pub tables: [Pair<Compressor, Decompressor>; 2],
}

impl Default for Pair<Compressor, Decompressor> {
    fn default() -> Self {
        Pair {
            compressor: Compressor::default(),
            decompressor: Decompressor::default(),
        }
    }
}

impl Other for Proved {
    const NAME: &'static str = "proved";

    fn call(&mut self, at_endpoint: bool, call: &Call, output: &mut [u8]) -> Told {
        let Pair {
            compressor,
            decompressor,
        } = &mut self.tables[usize::from(at_endpoint)];
        let (input, (n, k)) = (&call.input, call.settings);
        match call.kind {
            Kind::OpenCompressor => told(compressor.open(n, k).map(|()| (0, 0))),
            Kind::OpenDecompressor => told(decompressor.open(n, k).map(|()| (0, 0))),
            Kind::Send => {
                let sent = compressor.send(input, output);
                told(sent.map(|sent| (sent.kind, sent.length)))
            }
            Kind::Receive => {
                let received = decompressor.receive(call.link_type, input, output);
                told(received.map(|length| (0, length)))
            }
            Kind::Request => told(compressor.request(input).map(|()| (0, 0))),
            Kind::Report => told(decompressor.report(output).map(|length| (0, length))),
        }
    }

    fn change(&mut self, line: &str) {
        // What is no such line, or names no field, changes nothing.
        let _ = self.try_change(line);
    }

    fn same(&self, at_endpoint: bool, peer: &PeerPair) -> [bool; 2] {
        let tables = &self.tables[usize::from(at_endpoint)];
        [
            lend_compressor(&peer.compressor) == tables.compressor,
            lend_decompressor(&peer.decompressor) == tables.decompressor,
        ]
    }
}

fn told(answer: Result<(u32, usize), Refusal>) -> Told {
    match answer {
        Ok((link_type, length)) => (0, link_type, length),
        Err(refusal) => (refusal.number(), 0, 0),
    }
}

// The peer's tables as they are lent to the proved calls

pub fn lend_compressor(table: &peer::compressor::Table) -> Compressor {
    let table = take_compressor(table);
    let mut lent = Compressor::default();
    for (place, context) in table.places.iter().enumerate() {
        let fields = &context.fields;
        let words = [
            fields.source,
            fields.destination,
            fields.ssrc,
            fields.timestamp,
            context.timestamp_delta,
            context.earlier_timestamp_delta,
        ];
        let shorts = [
            fields.sport,
            fields.dport,
            fields.id,
            fields.sequence,
            context.id_delta,
            context.earlier_id_delta,
        ];
        let bytes = [
            context.live.into(),
            fields.tos,
            fields.ttl,
            fields.flags,
            fields.padding.into(),
            fields.extension.into(),
            context.blank.into(),
            fields.payload,
            fields.cc,
            context.has_earlier.into(),
            context.id_due,
            context.sequence_due,
            context.timestamp_due,
            context.payload_due,
            context.list_due,
            context.id_delta_due,
            context.timestamp_delta_due,
            context.full_headers_due,
            context.next_link,
            context.generation,
        ];
        put(&mut lent.words, place, words.into_iter().chain(fields.csrc));
        put(&mut lent.shorts, place, shorts);
        put(&mut lent.bytes, place, bytes);
    }
    lent.bytes[Compressor::N] = table.repeats;
    lent.bytes[Compressor::K] = table.contexts;
    lent
}

pub fn lend_decompressor(table: &peer::decompressor::Table) -> Decompressor {
    let table = take_decompressor(table);
    let mut lent = Decompressor::default();
    for (place, context) in table.places.iter().enumerate() {
        let fields = &context.fields;
        let words = [
            fields.source,
            fields.destination,
            fields.ssrc,
            fields.timestamp,
            context.timestamp_delta,
        ];
        let shorts = [
            fields.sport,
            fields.dport,
            fields.id,
            fields.sequence,
            context.id_delta,
        ];
        let bytes = [
            context.status as u8,
            context.filled.into(),
            fields.tos,
            fields.ttl,
            fields.flags,
            fields.padding.into(),
            fields.extension.into(),
            context.carried.into(),
            context.marker.into(),
            fields.payload,
            fields.cc,
            context.last_link,
            context.generation,
        ];
        put(&mut lent.words, place, words.into_iter().chain(fields.csrc));
        put(&mut lent.shorts, place, shorts);
        put(&mut lent.bytes, place, bytes);
    }
    lent.bytes[Decompressor::N] = table.repeats;
    lent.bytes[Decompressor::K] = table.contexts;
    lent
}

/// One number into each plane, in their order.
fn put<T>(planes: &mut [T], place: usize, numbers: impl IntoIterator<Item = T>) {
    for (plane, number) in planes.chunks_exact_mut(PLACES).zip(numbers) {
        plane[place] = number;
    }
}

// Lines that are no calls of the peer's

/// What scripts call the planes of words, shorts and bytes, in their order.
const COMPRESSOR: [&str; 3] = [
    "source destination ssrc timestamp dts ets \
     csrc0 csrc1 csrc2 csrc3 csrc4 csrc5 csrc6 csrc7 csrc8 csrc9 csrc10 csrc11 csrc12 csrc13 csrc14",
    "sport dport id sequence did eid",
    "status tos ttl flags padding extension blank payload cc earlier \
     idue sdue tdue pdue cdue didue dtdue fdue link generation",
];

const DECOMPRESSOR: [&str; 3] = [
    "source destination ssrc timestamp dts \
     csrc0 csrc1 csrc2 csrc3 csrc4 csrc5 csrc6 csrc7 csrc8 csrc9 csrc10 csrc11 csrc12 csrc13 csrc14",
    "sport dport id sequence did",
    "status filled tos ttl flags padding extension carried marker payload cc link generation",
];

/// Bits, into which a script writes no other numbers; the compressor's status is one too.
const BITS: &str = "padding extension blank earlier filled carried marker";

impl Proved {
    /// None where nothing is changed. Saves change nothing either.
    fn try_change(&mut self, line: &str) -> Option<()> {
        let tables = &mut self.tables[0];
        let words: Vec<&str> = line.split(' ').collect();
        match *words.as_slice() {
            ["ws", name, place, value] => {
                let table = &mut tables.compressor;
                let slices = (
                    &mut table.words[..],
                    &mut table.shorts[..],
                    &mut table.bytes[..],
                );
                let settings = [Compressor::N, Compressor::K];
                write(slices, COMPRESSOR, settings, 1, [name, place, value])
            }
            ["wr", name, place, value] => {
                let table = &mut tables.decompressor;
                let slices = (
                    &mut table.words[..],
                    &mut table.shorts[..],
                    &mut table.bytes[..],
                );
                let settings = [Decompressor::N, Decompressor::K];
                write(slices, DECOMPRESSOR, settings, 2, [name, place, value])
            }
            ["l", file] => {
                let file = bytes(file, MOST_SAVED_BYTES)?;
                tables.decompressor.load(&file).ok()
            }
            _ => None,
        }
    }
}

fn write(
    (words, shorts, bytes): (&mut [u32], &mut [u16], &mut [u8]),
    planes: [&str; 3],
    settings: [usize; 2],
    greatest_status: u32,
    [name, place, value]: [&str; 3],
) -> Option<()> {
    let place = number(place)? as usize;
    let value = number(value)?;
    if place >= PLACES {
        return None;
    }
    let [words_at, shorts_at, bytes_at] =
        planes.map(|names| find(names, name).map(|plane| PLACES * plane + place));
    if let Some(setting) = find("n k", name) {
        if place > 0 {
            return None;
        }
        bytes[settings[setting]] = value.try_into().ok()?;
    } else if let Some(at) = words_at {
        words[at] = value;
    } else if let Some(at) = shorts_at {
        shorts[at] = value.try_into().ok()?;
    } else {
        let greatest = match name {
            "status" => greatest_status,
            _ if find(BITS, name).is_some() => 1,
            _ => u8::MAX.into(),
        };
        if value > greatest {
            return None;
        }
        bytes[bytes_at?] = value as u8;
    }
    Some(())
}

fn find(names: &str, name: &str) -> Option<usize> {
    names.split(' ').position(|known| known == name)
}

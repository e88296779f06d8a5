//! Saved tables: a decompressor's table as a file of bytes, and back (change request 3).
//!
//! A file is a length that counts what follows it, a version, N, K, and a record of each of the K
//! contexts. An empty context's record is a single 0. Any other has the status, generation, last link
//! sequence, both kept differences, and the header of the last packet rebuilt, its length before it; a
//! context that was never filled has 0 for that length and no header.
//!
//! Every sound table has one file, and a load takes these files and no others.

use crate::bytes::{deliver, get16, put16, Reader};
use crate::codes;
use crate::decompressor::{sound, Context, Status, Table};
use crate::header::{self, Header};
use crate::mutant::Mutant;
use crate::refusal::{Answer, Refusal};
use crate::{MAX_CONTEXTS, MAX_REPEATS};
use std::cmp::Ordering;

const VERSION: u8 = 1;

/// The longest file there is: 64 contexts with lists of fifteen words.
pub const LONGEST: usize = 2 + 3 + 64 * (10 + 100);

// Places in a header of what a file does not keep as it was. The first three depend on the packet's
// length and can be worked out again; of the last it matters only whether there was one.
const IP_LENGTH: usize = 2;
const IP_CHECKSUM: usize = 10;
const UDP_LENGTH: usize = 24;
const UDP_CHECKSUM: usize = 26;

/// What stands in the UDP checksum's place.
const BLANK: u16 = 0;
const CARRIED: u16 = 0xffff;

/// Saves a decompressor's table.
pub fn save(table: &Table, output: &mut [u8]) -> Answer {
    save_with(Mutant::None, table, output)
}

/// Puts the table that was saved in the place of the one handed in, which is not looked at.
pub fn load(table: &mut Table, file: &[u8]) -> Answer {
    load_with(Mutant::None, table, file)
}

// Saving

#[doc(hidden)]
pub fn save_with(mutant: Mutant, table: &Table, output: &mut [u8]) -> Answer {
    match mutant {
        Mutant::AllRefused => Err(Refusal::Room).into(),
        Mutant::UntouchedOutput => {
            let mut unseen = vec![0; output.len()];
            write_file(mutant, table, &mut unseen).into()
        }
        _ => write_file(mutant, table, output).into(),
    }
}

fn write_file(mutant: Mutant, table: &Table, output: &mut [u8]) -> Result<usize, Refusal> {
    if mutant == Mutant::SaveRoomFirst && output.is_empty() {
        return Err(Refusal::Room);
    }
    if !sound(mutant, table) {
        return Err(Refusal::Unsound);
    }
    let mut body = vec![VERSION, table.repeats, table.contexts];
    for context in &table.places[..usize::from(table.contexts)] {
        write_record(mutant, context, &mut body);
    }
    let counted = if mutant == Mutant::SavedLengthCountsItself {
        body.len() + 2
    } else {
        body.len()
    };
    deliver(output, &(counted as u16).to_be_bytes(), &body)
}

fn write_record(mutant: Mutant, context: &Context, body: &mut Vec<u8>) {
    body.push(context.status as u8);
    if context.status == Status::Empty {
        return;
    }
    body.push(context.generation);
    body.push(context.last_link);
    if mutant == Mutant::SaveSwapsDeltas {
        body.extend(context.timestamp_delta.to_be_bytes());
        body.extend(context.id_delta.to_be_bytes());
    } else {
        body.extend(context.id_delta.to_be_bytes());
        body.extend(context.timestamp_delta.to_be_bytes());
    }
    let header = if context.filled {
        header_to_keep(mutant, context)
    } else {
        Vec::new()
    };
    body.push(header.len() as u8);
    body.extend(header);
}

/// The last rebuilt header without what belongs to that packet alone.
fn header_to_keep(mutant: Mutant, context: &Context) -> Vec<u8> {
    let carried = context.carried && mutant != Mutant::SaveLosesCarried;
    let header = Header {
        fields: context.fields,
        marker: context.marker && mutant != Mutant::SaveLosesMarker,
        udp_checksum: if carried { CARRIED } else { BLANK },
    };
    let mut bytes = header::build(&header, 0);
    if mutant != Mutant::SaveKeepsLengths {
        put16(&mut bytes, IP_LENGTH, 0);
        put16(&mut bytes, UDP_LENGTH, 0);
    }
    put16(&mut bytes, IP_CHECKSUM, 0);
    bytes
}

// Loading

#[doc(hidden)]
pub fn load_with(mutant: Mutant, table: &mut Table, file: &[u8]) -> Answer {
    if mutant == Mutant::AllRefused {
        return Err(Refusal::CutShort).into();
    }
    if mutant == Mutant::LoadJudgesTable && !sound(mutant, table) {
        return Err(Refusal::Unsound).into();
    }
    match read_file(mutant, &mut Fields::new(file)) {
        Ok(mut loaded) => {
            if mutant == Mutant::LoadKeepsPlacesPastContexts {
                let from = usize::from(loaded.contexts);
                loaded.places[from..].copy_from_slice(&table.places[from..]);
            }
            *table = loaded;
            Ok(0).into()
        }
        Err(refusal) => {
            if mutant == Mutant::RefusedLoadEmpties {
                *table = Table::unopened();
            }
            Err(refusal).into()
        }
    }
}

/// The fields of a file, as they follow each other; those from the status on stand in each record.
#[derive(Clone, Copy, Debug, PartialEq, Eq, Hash, PartialOrd, Ord)]
pub enum Part {
    Length,
    Version,
    Repeats,
    Contexts,
    Status,
    Generation,
    LinkSequence,
    IdDelta,
    TimestampDelta,
    HeaderLength,
    Header,
    /// After the last record, where nothing may stand.
    End,
}

/// The fields as far as a load reads them, each with the place where it begins. The last one is where the
/// file is refused, or the end if it loads.
pub fn parts_read(file: &[u8]) -> Vec<(Part, usize)> {
    let mut fields = Fields::new(file);
    // Whether it is refused is not asked here.
    let _ = read_file(Mutant::None, &mut fields);
    fields.begun
}

/// Reads a file field by field and notes where each begins.
struct Fields<'a> {
    file: &'a [u8],
    reader: Reader<'a>,
    begun: Vec<(Part, usize)>,
}

impl<'a> Fields<'a> {
    fn new(file: &'a [u8]) -> Self {
        Fields {
            file,
            reader: Reader::new(file),
            begun: Vec::new(),
        }
    }

    fn begin(&mut self, part: Part) {
        let place = self.file.len() - self.reader.rest().len();
        self.begun.push((part, place));
    }

    /// One field: refused 4 if it is cut short, then 5 unless it is what some save writes there.
    fn next<T: Copy>(
        &mut self,
        part: Part,
        read: impl FnOnce(&mut Reader<'a>) -> Result<T, Refusal>,
        some_save_writes: impl FnOnce(T) -> bool,
    ) -> Result<T, Refusal> {
        self.begin(part);
        let field = read(&mut self.reader)?;
        if some_save_writes(field) {
            Ok(field)
        } else {
            Err(Refusal::Form)
        }
    }

    /// The length must be that of the file, before any other field is looked at.
    fn length(&mut self) -> Result<(), Refusal> {
        let counted = self.next(Part::Length, Reader::word16, |_| true)?;
        let found = self.reader.rest().len();
        match found.cmp(&usize::from(counted)) {
            Ordering::Less => Err(Refusal::CutShort),
            Ordering::Equal => Ok(()),
            Ordering::Greater => Err(Refusal::Form),
        }
    }

    fn end(&mut self) -> Result<(), Refusal> {
        self.begin(Part::End);
        if self.reader.rest().is_empty() {
            Ok(())
        } else {
            Err(Refusal::Form)
        }
    }
}

fn read_file(mutant: Mutant, fields: &mut Fields) -> Result<Table, Refusal> {
    fields.length()?;
    fields.next(Part::Version, Reader::byte, |version| version == VERSION)?;
    let repeats = fields.next(Part::Repeats, Reader::byte, |n| n <= MAX_REPEATS)?;
    let contexts = fields.next(Part::Contexts, Reader::byte, |k| {
        (1..=MAX_CONTEXTS).contains(&k)
    })?;
    let mut table = Table {
        repeats,
        contexts,
        ..Table::unopened()
    };
    for place in 0..usize::from(contexts) {
        table.places[place] = read_record(mutant, fields)?;
    }
    if mutant != Mutant::LoadTakesLeftOver {
        fields.end()?;
    }
    Ok(table)
}

fn read_record(mutant: Mutant, fields: &mut Fields) -> Result<Context, Refusal> {
    let status = match fields.next(Part::Status, Reader::byte, |status| status <= 2)? {
        0 => return Ok(Context::default()),
        1 => Status::Live,
        _ => Status::Broken,
    };
    let generation = fields.next(Part::Generation, Reader::byte, |generation| {
        generation <= 63
    })?;
    let last_link = fields.next(Part::LinkSequence, Reader::byte, |link| link <= 15)?;
    let id_delta = fields.next(Part::IdDelta, Reader::word16, |_| true)?;
    let timestamp_delta = fields.next(Part::TimestampDelta, Reader::word32, |delta| {
        codes::timestamp_has_code(delta) || mutant == Mutant::LoadTakesAnyTimestampDelta
    })?;
    let unfilled = Context {
        status,
        generation,
        last_link,
        id_delta,
        timestamp_delta,
        ..Context::default()
    };
    let length = fields.next(Part::HeaderLength, Reader::byte, |length| match length {
        0 => may_be_unfilled(mutant, &unfilled),
        _ => (40..=100).contains(&length) && length % 4 == 0,
    })?;
    if length == 0 {
        return Ok(unfilled);
    }
    let header = fields.next(
        Part::Header,
        |reader| match reader.take(length.into()) {
            Err(_) if mutant == Mutant::LoadJudgesCutHeader => Err(Refusal::Form),
            taken => taken,
        },
        |header| some_save_writes_header(mutant, header),
    )?;
    let Header {
        fields,
        marker,
        udp_checksum,
    } = header::parse(header);
    Ok(Context {
        filled: true,
        fields,
        carried: udp_checksum == CARRIED,
        marker,
        ..unfilled
    })
}

/// Without a header there is only the context that broke before it was ever filled: it has zeros.
fn may_be_unfilled(mutant: Mutant, context: &Context) -> bool {
    let never_filled = Context {
        status: Status::Broken,
        ..Context::default()
    };
    *context == never_filled
        || mutant == Mutant::LoadTakesNumbersUnfilled && context.status == Status::Broken
        || mutant == Mutant::LoadTakesLiveUnfilled && context.status == Status::Live
}

/// A header of 40 bytes or more, judged as one field. What is not named here may be anything: ports, the
/// reserved bit, DF and all that a context keeps as it came.
fn some_save_writes_header(mutant: Mutant, header: &[u8]) -> bool {
    let port_refused = mutant == Mutant::LoadRefusesOddPort && header[23] & 1 == 1;
    header[0] == 0x45
        && get16(header, IP_LENGTH) == 0
        && header::not_fragmented(header)
        && header::is_udp(header)
        && get16(header, IP_CHECKSUM) == 0
        && get16(header, UDP_LENGTH) == 0
        && matches!(get16(header, UDP_CHECKSUM), BLANK | CARRIED)
        && header::rtp_version_is_2(header)
        && header::length_with_list(header) == header.len()
        && !port_refused
}

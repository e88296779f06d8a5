//! Call scripts: one call per line, one answer line per call, on one compressor's and one
//! decompressor's table, and on an endpoint with tables of its own. Any field of the two tables can be
//! written and shown by name, and so can the endpoint's totals. The decompressor's table can be saved and
//! loaded.

use crate::decompressor::Status;
use crate::endpoint::{self, Endpoint};
use crate::header::{Fields, MAX_CSRC};
use crate::refusal::{Answer, SendAnswer};
use crate::{compressor, decompressor, saved, PLACES};

/// What output rooms are filled with before each call.
const FILL: u8 = 0xaa;
/// Most bytes a script may hand over or ask room for.
pub const MOST_BYTES: usize = 4096;
/// The same for saved tables, which are longer than packets.
pub const MOST_SAVED_BYTES: usize = 16_384;

pub const COMPRESSOR_FIELDS: [&str; 47] = [
    "status",
    "source",
    "destination",
    "sport",
    "dport",
    "ssrc",
    "tos",
    "ttl",
    "flags",
    "padding",
    "extension",
    "blank",
    "id",
    "sequence",
    "timestamp",
    "payload",
    "cc",
    "csrc0",
    "csrc1",
    "csrc2",
    "csrc3",
    "csrc4",
    "csrc5",
    "csrc6",
    "csrc7",
    "csrc8",
    "csrc9",
    "csrc10",
    "csrc11",
    "csrc12",
    "csrc13",
    "csrc14",
    "did",
    "dts",
    "earlier",
    "eid",
    "ets",
    "idue",
    "sdue",
    "tdue",
    "pdue",
    "cdue",
    "didue",
    "dtdue",
    "fdue",
    "link",
    "generation",
];

pub const DECOMPRESSOR_FIELDS: [&str; 38] = [
    "status",
    "filled",
    "source",
    "destination",
    "sport",
    "dport",
    "ssrc",
    "tos",
    "ttl",
    "flags",
    "padding",
    "extension",
    "carried",
    "marker",
    "id",
    "sequence",
    "timestamp",
    "payload",
    "cc",
    "csrc0",
    "csrc1",
    "csrc2",
    "csrc3",
    "csrc4",
    "csrc5",
    "csrc6",
    "csrc7",
    "csrc8",
    "csrc9",
    "csrc10",
    "csrc11",
    "csrc12",
    "csrc13",
    "csrc14",
    "did",
    "dts",
    "link",
    "generation",
];

/// One field of a context, by its type.
pub enum Field<'a> {
    Bit(&'a mut bool),
    Status(&'a mut Status),
    Byte(&'a mut u8),
    Short(&'a mut u16),
    Word(&'a mut u32),
}

impl Field<'_> {
    pub fn get(&self) -> u32 {
        match self {
            Field::Bit(bit) => u32::from(**bit),
            Field::Status(status) => **status as u32,
            Field::Byte(byte) => u32::from(**byte),
            Field::Short(short) => u32::from(**short),
            Field::Word(word) => **word,
        }
    }

    /// Writes the value if the type can hold it, and tells whether it could.
    pub fn set(self, value: u32) -> bool {
        match self {
            Field::Bit(bit) if value <= 1 => *bit = value == 1,
            Field::Status(status) if value <= 2 => {
                *status = [Status::Empty, Status::Live, Status::Broken][value as usize];
            }
            Field::Byte(byte) if value <= 0xff => *byte = value as u8,
            Field::Short(short) if value <= 0xffff => *short = value as u16,
            Field::Word(word) => *word = value,
            _ => return false,
        }
        true
    }
}

/// Fields that both ends keep.
fn shared_field<'a>(fields: &'a mut Fields, name: &str) -> Option<Field<'a>> {
    Some(match name {
        "source" => Field::Word(&mut fields.source),
        "destination" => Field::Word(&mut fields.destination),
        "sport" => Field::Short(&mut fields.sport),
        "dport" => Field::Short(&mut fields.dport),
        "ssrc" => Field::Word(&mut fields.ssrc),
        "tos" => Field::Byte(&mut fields.tos),
        "ttl" => Field::Byte(&mut fields.ttl),
        "flags" => Field::Byte(&mut fields.flags),
        "padding" => Field::Bit(&mut fields.padding),
        "extension" => Field::Bit(&mut fields.extension),
        "id" => Field::Short(&mut fields.id),
        "sequence" => Field::Short(&mut fields.sequence),
        "timestamp" => Field::Word(&mut fields.timestamp),
        "payload" => Field::Byte(&mut fields.payload),
        "cc" => Field::Byte(&mut fields.cc),
        _ => {
            let place = (0..MAX_CSRC).find(|place| name == COMPRESSOR_FIELDS[17 + place])?;
            Field::Word(&mut fields.csrc[place])
        }
    })
}

pub fn compressor_field<'a>(context: &'a mut compressor::Context, name: &str) -> Option<Field<'a>> {
    Some(match name {
        "status" => Field::Bit(&mut context.live),
        "blank" => Field::Bit(&mut context.blank),
        "did" => Field::Short(&mut context.id_delta),
        "dts" => Field::Word(&mut context.timestamp_delta),
        "earlier" => Field::Bit(&mut context.has_earlier),
        "eid" => Field::Short(&mut context.earlier_id_delta),
        "ets" => Field::Word(&mut context.earlier_timestamp_delta),
        "idue" => Field::Byte(&mut context.id_due),
        "sdue" => Field::Byte(&mut context.sequence_due),
        "tdue" => Field::Byte(&mut context.timestamp_due),
        "pdue" => Field::Byte(&mut context.payload_due),
        "cdue" => Field::Byte(&mut context.list_due),
        "didue" => Field::Byte(&mut context.id_delta_due),
        "dtdue" => Field::Byte(&mut context.timestamp_delta_due),
        "fdue" => Field::Byte(&mut context.full_headers_due),
        "link" => Field::Byte(&mut context.next_link),
        "generation" => Field::Byte(&mut context.generation),
        _ => return shared_field(&mut context.fields, name),
    })
}

pub fn decompressor_field<'a>(
    context: &'a mut decompressor::Context,
    name: &str,
) -> Option<Field<'a>> {
    Some(match name {
        "status" => Field::Status(&mut context.status),
        "filled" => Field::Bit(&mut context.filled),
        "carried" => Field::Bit(&mut context.carried),
        "marker" => Field::Bit(&mut context.marker),
        "did" => Field::Short(&mut context.id_delta),
        "dts" => Field::Word(&mut context.timestamp_delta),
        "link" => Field::Byte(&mut context.last_link),
        "generation" => Field::Byte(&mut context.generation),
        _ => return shared_field(&mut context.fields, name),
    })
}

/// A field of the compressor's table; `n` and `k` belong to the table and go with place 0.
pub fn compressor_table_field<'a>(
    table: &'a mut compressor::Table,
    name: &str,
    place: usize,
) -> Option<Field<'a>> {
    match name {
        "n" => (place == 0).then_some(Field::Byte(&mut table.repeats)),
        "k" => (place == 0).then_some(Field::Byte(&mut table.contexts)),
        _ => compressor_field(table.places.get_mut(place)?, name),
    }
}

/// A field of the decompressor's table, likewise.
pub fn decompressor_table_field<'a>(
    table: &'a mut decompressor::Table,
    name: &str,
    place: usize,
) -> Option<Field<'a>> {
    match name {
        "n" => (place == 0).then_some(Field::Byte(&mut table.repeats)),
        "k" => (place == 0).then_some(Field::Byte(&mut table.contexts)),
        _ => decompressor_field(table.places.get_mut(place)?, name),
    }
}

/// The two tables of a script, its endpoint, and room for bytes.
pub struct Runner {
    pub compressor: compressor::Table,
    pub decompressor: decompressor::Table,
    pub endpoint: Endpoint,
    input: Vec<u8>,
    output: Vec<u8>,
}

impl Default for Runner {
    fn default() -> Self {
        Runner {
            compressor: compressor::Table::unopened(),
            decompressor: decompressor::Table::unopened(),
            endpoint: Endpoint::unopened(),
            input: Vec::with_capacity(MOST_BYTES),
            output: Vec::with_capacity(MOST_BYTES),
        }
    }
}

impl Runner {
    /// Runs one line and appends its answer, without a line end.
    pub fn answer(&mut self, line: &str, out: &mut String) {
        if self.run(line, out).is_none() {
            out.push('?');
        }
    }

    /// None if the line is no call; then nothing was changed or written.
    fn run(&mut self, line: &str, out: &mut String) -> Option<()> {
        let mut words = line.split(' ');
        match words.next()? {
            "os" => {
                let (n, k) = two_numbers(words)?;
                push_number(out, compressor::open(&mut self.compressor, n, k).number);
            }
            "or" => {
                let (n, k) = two_numbers(words)?;
                push_number(out, decompressor::open(&mut self.decompressor, n, k).number);
            }
            "s" => {
                decode_hex(words.next()?, MOST_BYTES, &mut self.input)?;
                let room = room(words.next()?, MOST_BYTES)?;
                end(words)?;
                fill(&mut self.output, room);
                let answer = compressor::send(&mut self.compressor, &self.input, &mut self.output);
                push_send_answer(out, &self.output, answer);
            }
            "q" => {
                decode_hex(words.next()?, MOST_BYTES, &mut self.input)?;
                end(words)?;
                let answer = compressor::request(&mut self.compressor, &self.input);
                push_number(out, answer.number);
                out.push(' ');
                push_number(out, answer.length as u32);
            }
            "r" => {
                let link_type = number(words.next()?)?;
                decode_hex(words.next()?, MOST_BYTES, &mut self.input)?;
                let room = room(words.next()?, MOST_BYTES)?;
                end(words)?;
                fill(&mut self.output, room);
                let answer = decompressor::receive(
                    &mut self.decompressor,
                    link_type,
                    &self.input,
                    &mut self.output,
                );
                push_answer(out, &self.output, answer);
            }
            "p" => {
                let room = room(words.next()?, MOST_BYTES)?;
                end(words)?;
                fill(&mut self.output, room);
                let answer = decompressor::report(&self.decompressor, &mut self.output);
                push_answer(out, &self.output, answer);
            }
            "v" => {
                let room = room(words.next()?, MOST_SAVED_BYTES)?;
                end(words)?;
                fill(&mut self.output, room);
                let answer = saved::save(&self.decompressor, &mut self.output);
                push_answer(out, &self.output, answer);
            }
            "l" => {
                decode_hex(words.next()?, MOST_SAVED_BYTES, &mut self.input)?;
                end(words)?;
                let answer = saved::load(&mut self.decompressor, &self.input);
                push_number(out, answer.number);
            }
            "ws" => {
                let (name, place, value) = field_words(words)?;
                let field = compressor_table_field(&mut self.compressor, name, place)?;
                field.set(value).then_some(())?;
                out.push_str("ok");
            }
            "wr" => {
                let (name, place, value) = field_words(words)?;
                let field = decompressor_table_field(&mut self.decompressor, name, place)?;
                field.set(value).then_some(())?;
                out.push_str("ok");
            }
            "ds" => {
                let place = only_place(words)?;
                let table = &self.compressor;
                push_settings(out, table.repeats, table.contexts);
                let mut context = table.places[place];
                for name in COMPRESSOR_FIELDS {
                    push_field(out, compressor_field(&mut context, name));
                }
            }
            "dr" => {
                let place = only_place(words)?;
                let table = &self.decompressor;
                push_settings(out, table.repeats, table.contexts);
                let mut context = table.places[place];
                for name in DECOMPRESSOR_FIELDS {
                    push_field(out, decompressor_field(&mut context, name));
                }
            }
            "bo" => {
                let (n, k) = two_numbers(words)?;
                push_number(out, endpoint::open(&mut self.endpoint, n, k).number);
            }
            "bw" => {
                decode_hex(words.next()?, MOST_BYTES, &mut self.input)?;
                let room = room(words.next()?, MOST_BYTES)?;
                end(words)?;
                fill(&mut self.output, room);
                let answer = endpoint::from_wire(&mut self.endpoint, &self.input, &mut self.output);
                push_send_answer(out, &self.output, answer);
            }
            "br" => {
                let link_type = number(words.next()?)?;
                decode_hex(words.next()?, MOST_BYTES, &mut self.input)?;
                let room = room(words.next()?, MOST_BYTES)?;
                end(words)?;
                fill(&mut self.output, room);
                let answer = endpoint::from_radio(
                    &mut self.endpoint,
                    link_type,
                    &self.input,
                    &mut self.output,
                );
                push_answer(out, &self.output, answer);
            }
            "bp" => {
                let room = room(words.next()?, MOST_BYTES)?;
                end(words)?;
                fill(&mut self.output, room);
                let answer = endpoint::report(&mut self.endpoint, &mut self.output);
                push_answer(out, &self.output, answer);
            }
            "bt" => {
                end(words)?;
                for (place, total) in self.endpoint.totals.in_order().into_iter().enumerate() {
                    if place > 0 {
                        out.push(' ');
                    }
                    push_number(out, total);
                }
            }
            "wt" => {
                let (place, value) = two_numbers(words)?;
                *self.endpoint.totals.at(place as usize)? = value;
                out.push_str("ok");
            }
            _ => return None,
        }
        Some(())
    }
}

// Reading words

type Words<'a> = std::str::Split<'a, char>;

fn end(mut words: Words) -> Option<()> {
    words.next().is_none().then_some(())
}

fn number(word: &str) -> Option<u32> {
    if word.is_empty() || !word.bytes().all(|byte| byte.is_ascii_digit()) {
        return None;
    }
    word.parse().ok()
}

fn two_numbers(mut words: Words) -> Option<(u32, u32)> {
    let pair = (number(words.next()?)?, number(words.next()?)?);
    end(words)?;
    Some(pair)
}

fn room(word: &str, most: usize) -> Option<usize> {
    let room = number(word)? as usize;
    (room <= most).then_some(room)
}

fn place(word: &str) -> Option<usize> {
    let place = number(word)? as usize;
    (place < PLACES).then_some(place)
}

fn only_place(mut words: Words) -> Option<usize> {
    let place = place(words.next()?)?;
    end(words)?;
    Some(place)
}

fn field_words<'a>(mut words: Words<'a>) -> Option<(&'a str, usize, u32)> {
    let name = words.next()?;
    let place = place(words.next()?)?;
    let value = number(words.next()?)?;
    end(words)?;
    Some((name, place, value))
}

fn decode_hex(word: &str, most: usize, bytes: &mut Vec<u8>) -> Option<()> {
    bytes.clear();
    if word == "-" {
        return Some(());
    }
    if word.is_empty() || word.len() & 1 == 1 || word.len() > 2 * most {
        return None;
    }
    for pair in word.as_bytes().chunks(2) {
        bytes.push(hex_digit(pair[0])? << 4 | hex_digit(pair[1])?);
    }
    Some(())
}

fn hex_digit(digit: u8) -> Option<u8> {
    match digit {
        b'0'..=b'9' => Some(digit - b'0'),
        b'a'..=b'f' => Some(digit - b'a' + 10),
        _ => None,
    }
}

fn fill(output: &mut Vec<u8>, room: usize) {
    output.clear();
    output.resize(room, FILL);
}

// Writing answers

fn push_number(out: &mut String, number: impl Into<u32>) {
    let mut digits = [0u8; 10];
    let mut at = digits.len();
    let mut left: u32 = number.into();
    loop {
        at -= 1;
        digits[at] = b'0' + (left % 10) as u8;
        left /= 10;
        if left == 0 {
            break;
        }
    }
    for &digit in &digits[at..] {
        out.push(digit as char);
    }
}

/// Appends bytes in hex, or `-` for none.
pub fn push_hex(out: &mut String, bytes: &[u8]) {
    const DIGITS: &[u8; 16] = b"0123456789abcdef";
    if bytes.is_empty() {
        out.push('-');
    }
    for byte in bytes {
        out.push(DIGITS[usize::from(byte >> 4)] as char);
        out.push(DIGITS[usize::from(byte & 15)] as char);
    }
}

fn push_bytes(out: &mut String, output: &[u8], length: usize) {
    push_number(out, length as u32);
    out.push(' ');
    push_hex(out, &output[..length]);
    if output[length..].iter().any(|&byte| byte != FILL) {
        out.push_str(" touched");
    }
}

fn push_answer(out: &mut String, output: &[u8], answer: Answer) {
    push_number(out, answer.number);
    out.push(' ');
    push_bytes(out, output, answer.length);
}

fn push_send_answer(out: &mut String, output: &[u8], answer: SendAnswer) {
    push_number(out, answer.number);
    out.push(' ');
    push_number(out, answer.link_type);
    out.push(' ');
    push_bytes(out, output, answer.length);
}

fn push_settings(out: &mut String, repeats: u8, contexts: u8) {
    push_number(out, repeats);
    out.push(' ');
    push_number(out, contexts);
}

fn push_field(out: &mut String, field: Option<Field>) {
    if let Some(field) = field {
        out.push(' ');
        push_number(out, field.get());
    }
}

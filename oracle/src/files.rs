//! Random files for generated scripts: saved tables that no traffic led to, and files with bytes missing,
//! bytes too many, or fields changed.

use crate::bytes::{get16, put16};
use crate::decompressor::{Context, Status, Table};
use crate::flows::Flow;
use crate::header::{Fields, FIXED, MAX_CSRC};
use crate::prng::Prng;
use crate::saved::{self, Part};

// Tables

/// How many contexts most tables have, so that files stay short.
pub fn small_size(prng: &mut Prng) -> u8 {
    prng.pick(&[1, 1, 1, 2, 2, 2, 3, 3, 4, 5, 7])
}

/// A sound table with contexts of every kind. Where there are many of them few are filled, as a rule.
pub fn some_table(prng: &mut Prng) -> Table {
    if prng.chance(1, 120) {
        return fullest_table(prng);
    }
    let contexts = match prng.below(24) {
        0 => 64,
        1..=4 => prng.between(1, 64) as u8,
        _ => small_size(prng),
    };
    let mut table = Table {
        repeats: prng.below(15) as u8,
        contexts,
        ..Table::unopened()
    };
    // Out of sixteen.
    let filled = if table.contexts <= 7 || prng.chance(1, 3) {
        10
    } else {
        1
    };
    for place in 0..usize::from(table.contexts) {
        table.places[place] = match prng.below(16) {
            0 | 1 => never_filled(),
            chosen if chosen < 2 + filled => some_filled_context(prng),
            _ => Context::default(),
        };
    }
    table
}

/// One that has the longest file there is.
fn fullest_table(prng: &mut Prng) -> Table {
    let mut table = Table {
        repeats: prng.below(15) as u8,
        contexts: 64,
        ..Table::unopened()
    };
    for context in &mut table.places {
        *context = some_filled_context(prng);
        context.fields.cc = MAX_CSRC as u8;
    }
    table
}

fn never_filled() -> Context {
    Context {
        status: Status::Broken,
        ..Context::default()
    }
}

/// A live or broken context, with a flow's header or one of any numbers.
pub fn some_filled_context(prng: &mut Prng) -> Context {
    let fields = if prng.bit() {
        Flow::new(prng).header.fields
    } else {
        some_fields(prng)
    };
    let mut context = Context {
        status: prng.pick(&[Status::Live, Status::Live, Status::Broken]),
        filled: true,
        fields,
        carried: prng.bit(),
        marker: prng.bit(),
        id_delta: prng.pick(&[0, 1, 1, 2, 300, 49151, 49152, 65535]),
        timestamp_delta: some_timestamp_delta(prng),
        last_link: prng.below(16) as u8,
        generation: prng.pick(&[0, 1, 31, 62, 63]),
    };
    // Zeros where one that was never filled has them.
    if prng.chance(1, 6) {
        context.id_delta = 0;
        context.timestamp_delta = 0;
        context.last_link = 0;
        context.generation = 0;
    }
    context
}

fn some_fields(prng: &mut Prng) -> Fields {
    let cc = prng.below(MAX_CSRC + 1);
    let mut csrc = [0; MAX_CSRC];
    for word in &mut csrc[..cc] {
        *word = prng.pick(&[0, 1, u32::MAX]) & prng.number() as u32;
    }
    Fields {
        source: prng.number() as u32,
        destination: prng.number() as u32,
        sport: prng.number() as u16,
        dport: prng.number() as u16,
        ssrc: prng.number() as u32,
        tos: prng.byte(),
        ttl: prng.byte(),
        flags: prng.below(4) as u8,
        padding: prng.bit(),
        extension: prng.bit(),
        id: prng.number() as u16,
        sequence: prng.number() as u16,
        timestamp: prng.number() as u32,
        payload: prng.byte() & 0x7f,
        cc: cc as u8,
        csrc,
    }
}

/// One that has a code.
fn some_timestamp_delta(prng: &mut Prng) -> u32 {
    prng.pick(&[0, 0, 1, 160, 4_194_303, u32::MAX, u32::MAX - 16383])
}

/// The file of a table, which must be sound.
pub fn file_of(table: &Table) -> Vec<u8> {
    let mut output = vec![0; saved::LONGEST];
    let answer = saved::save(table, &mut output);
    output.truncate(answer.length);
    output
}

// Files in pieces

/// The fields but for the length; the oftener named the more there is to go wrong with them.
const PARTS: [Part; 18] = [
    Part::Version,
    Part::Repeats,
    Part::Contexts,
    Part::Contexts,
    Part::Status,
    Part::Generation,
    Part::LinkSequence,
    Part::IdDelta,
    Part::IdDelta,
    Part::IdDelta,
    Part::TimestampDelta,
    Part::TimestampDelta,
    Part::TimestampDelta,
    Part::HeaderLength,
    Part::HeaderLength,
    Part::HeaderLength,
    Part::Header,
    Part::Header,
];

/// A file in its fields without the length, so that a change to one field leaves it clear where the others
/// are.
struct Pieces {
    pieces: Vec<Piece>,
}

type Piece = (Part, Vec<u8>);

impl Pieces {
    /// Of a file that loads.
    fn of(file: &[u8]) -> Self {
        let begun = saved::parts_read(file);
        let pieces = begun[1..].windows(2).map(|pair| {
            let [(part, from), (_, to)] = [pair[0], pair[1]];
            (part, file[from..to].to_vec())
        });
        Pieces {
            pieces: pieces.collect(),
        }
    }

    /// The bytes with the length that is right for them.
    fn bytes(&self) -> Vec<u8> {
        let mut file = vec![0, 0];
        for (_, bytes) in &self.pieces {
            file.extend(bytes);
        }
        let length = file.len() - 2;
        put16(&mut file, 0, length as u16);
        file
    }

    fn places_of(&self, part: Part) -> Vec<usize> {
        (0..self.pieces.len())
            .filter(|&place| self.pieces[place].0 == part)
            .collect()
    }

    /// One field of that part, in any record.
    fn some_place(&self, prng: &mut Prng, part: Part) -> Option<usize> {
        let places = self.places_of(part);
        (!places.is_empty()).then(|| prng.pick(&places))
    }

    /// Where the record begins that has the piece in it, and where the next one does.
    fn record_around(&self, place: usize) -> (usize, usize) {
        let statuses = self.places_of(Part::Status);
        let from = statuses.iter().copied().rfind(|&status| status <= place);
        let to = statuses.iter().copied().find(|&status| status > place);
        (from.unwrap_or(place), to.unwrap_or(self.pieces.len()))
    }

    fn number(&self, place: usize) -> u8 {
        self.pieces[place].1.first().copied().unwrap_or(0)
    }
}

// Changes

/// A file that loads, changed in one way or two.
pub fn changed(prng: &mut Prng, file: &[u8]) -> Vec<u8> {
    let mut pieces = Pieces::of(file);
    // Most fields are those of a filled context, so there should be one.
    if pieces.places_of(Part::Header).is_empty() && prng.chance(3, 4) {
        pieces.replace_some_record(prng, filled_record);
    }
    pieces.change(prng);
    if prng.chance(1, 4) {
        pieces.change(prng);
    }
    let mut bytes = pieces.bytes();
    match prng.below(24) {
        0 => flip(prng, &mut bytes),
        1 => belie_length(prng, &mut bytes),
        _ => {}
    }
    bytes
}

/// A file that loads, with bytes missing or bytes too many for what its length says.
pub fn of_another_length(prng: &mut Prng, file: &[u8]) -> Vec<u8> {
    let mut bytes = file.to_vec();
    match prng.below(3) {
        0 => bytes.truncate(prng.below(file.len())),
        1 => {
            let count = prng.pick(&[1, 1, 2, 10]);
            bytes.extend(prng.bytes(count));
        }
        _ => belie_length(prng, &mut bytes),
    }
    bytes
}

/// A file that loads, with one bit or byte of it changed.
pub fn flipped(prng: &mut Prng, file: &[u8]) -> Vec<u8> {
    let mut bytes = file.to_vec();
    flip(prng, &mut bytes);
    bytes
}

/// Bytes of no table: none, few, or a beginning that is right.
pub fn noise(prng: &mut Prng) -> Vec<u8> {
    let count = prng.below(40);
    let mut bytes = match prng.below(8) {
        0 => return Vec::new(),
        1 => return vec![prng.pick(&[0, 1, 6, 255])],
        2 => return prng.bytes(count),
        3 => vec![0, 0],
        4 => vec![0, 0, 1, prng.below(16) as u8],
        _ => vec![0, 0, 1, prng.below(15) as u8, prng.between(1, 4) as u8],
    };
    for _ in 0..count {
        let byte = prng.byte();
        bytes.push(prng.pick(&[0, 0, 1, 2, 2, 40, byte]));
    }
    let length = bytes.len() - 2;
    put16(&mut bytes, 0, length as u16);
    bytes
}

fn flip(prng: &mut Prng, bytes: &mut [u8]) {
    let at = prng.below(bytes.len());
    if let Some(byte) = bytes.get_mut(at) {
        *byte = if prng.bit() {
            *byte ^ 1 << prng.below(8)
        } else {
            prng.byte()
        };
    }
}

/// Says another length than that of the file.
fn belie_length(prng: &mut Prng, bytes: &mut [u8]) {
    let length = get16(bytes, 0);
    let other = [
        length.wrapping_add(1),
        length.wrapping_sub(1),
        length.wrapping_add(2),
        length ^ 0x100,
        length.swap_bytes(),
        0,
        65535,
    ];
    put16(bytes, 0, prng.pick(&other));
}

impl Pieces {
    fn change(&mut self, prng: &mut Prng) {
        match prng.below(40) {
            0..=11 => {
                let part = prng.pick(&PARTS);
                self.forbid(prng, part);
            }
            // A header has many faults of its own, and so has a context without one.
            12..=19 => self.forbid(prng, Part::Header),
            20..=26 => self.replace_some_record(prng, unfilled_record),
            27..=33 => self.cut(prng),
            34 => self.lengthen(prng),
            35 => self.change_size(prng),
            36 => self.replace_record(prng),
            _ => {
                let part = prng.pick(&PARTS);
                self.allow(prng, part);
            }
        }
    }

    /// Ends the file within a field, so that all of it or a part of it is missing.
    fn cut(&mut self, prng: &mut Prng) {
        let part = prng.pick(&PARTS);
        if let Some(place) = self.some_place(prng, part) {
            self.pieces.truncate(place + 1);
            let bytes = &mut self.pieces[place].1;
            let most = bytes.len().saturating_sub(1);
            let some = prng.between(0, most);
            bytes.truncate(prng.pick(&[0, some, most]));
        }
    }

    /// Adds bytes after the last record, perhaps such as another record would have.
    fn lengthen(&mut self, prng: &mut Prng) {
        let count = prng.pick(&[1, 1, 2, 5, 50]);
        let bytes = match prng.below(3) {
            0 => vec![0; count],
            1 => prng.bytes(count),
            _ => {
                let mut again = self.pieces.last().map_or(vec![2], |last| last.1.clone());
                again.truncate(count);
                again
            }
        };
        self.pieces.push((Part::End, bytes));
    }

    /// Gives a field a number that no save writes there.
    fn forbid(&mut self, prng: &mut Prng, part: Part) {
        let Some(place) = self.some_place(prng, part) else {
            return self.cut(prng);
        };
        let old = &self.pieces[place].1;
        let new = match part {
            Part::Version => vec![prng.pick(&[0, 2, 3, 128, 255])],
            Part::Repeats => vec![prng.pick(&[15, 16, 64, 128, 255])],
            Part::Contexts => vec![prng.pick(&[0, 0, 65, 128, 255])],
            Part::Status => vec![prng.pick(&[3, 4, 128, 255])],
            Part::Generation => vec![prng.pick(&[64, 65, 128, 255])],
            Part::LinkSequence => vec![prng.pick(&[16, 17, 128, 255])],
            Part::TimestampDelta => {
                let without_code: [u32; 5] =
                    [4_194_304, 4_194_305, 1 << 31, 0xffff_bfff, 0x8000_0001];
                prng.pick(&without_code).to_be_bytes().to_vec()
            }
            Part::HeaderLength => vec![some_wrong_header_length(prng, self.number(place))],
            Part::Header => {
                let mut header = old.clone();
                spoil_header(prng, &mut header);
                header
            }
            // Every number stands there in some file.
            Part::IdDelta | Part::Length | Part::End => return self.allow(prng, part),
        };
        self.pieces[place].1 = new;
    }

    /// Gives a field another number that a save might write there.
    fn allow(&mut self, prng: &mut Prng, part: Part) {
        let Some(place) = self.some_place(prng, part) else {
            return;
        };
        let new = match part {
            Part::Version => vec![1],
            Part::Repeats => vec![prng.below(15) as u8],
            Part::Contexts => return self.change_size(prng),
            // Live for broken, and the other way round; an empty one gets the record of another.
            Part::Status => match self.number(place) {
                1 => vec![2],
                2 => vec![1],
                _ => return self.replace_record(prng),
            },
            Part::Generation => vec![prng.below(64) as u8],
            Part::LinkSequence => vec![prng.below(16) as u8],
            Part::IdDelta => prng.bytes(2),
            Part::TimestampDelta => some_timestamp_delta(prng).to_be_bytes().to_vec(),
            Part::HeaderLength => return self.change_list(prng, place),
            Part::Header => {
                let mut header = self.pieces[place].1.clone();
                for _ in 0..prng.between(1, 3) {
                    change_header(prng, &mut header);
                }
                header
            }
            Part::Length | Part::End => return,
        };
        self.pieces[place].1 = new;
    }

    /// Another CSRC list with the header length and the count that go with it, now and then without one.
    fn change_list(&mut self, prng: &mut Prng, place: usize) {
        let (_, to) = self.record_around(place);
        let cc = prng.below(MAX_CSRC + 1);
        let length = FIXED + 4 * cc;
        if place + 1 == to || self.pieces[place + 1].1.len() < FIXED {
            return self.replace_record(prng);
        }
        let fault = prng.below(8);
        let header = &mut self.pieces[place + 1].1;
        if fault != 0 {
            header.resize(length, 0);
        }
        if fault != 1 {
            header[28] = header[28] & 0xf0 | cc as u8;
        }
        if fault != 2 {
            self.pieces[place].1 = vec![length as u8];
        }
    }

    /// K is another number, and as many records follow, or as many as before.
    fn change_size(&mut self, prng: &mut Prng) {
        let Some(place) = self.some_place(prng, Part::Contexts) else {
            return;
        };
        let contexts = usize::from(self.number(place));
        let more = [1, 1, 2, 3, contexts.max(2) - 1, contexts + 1, 64];
        let other = prng.pick(&more).min(64);
        self.pieces[place].1 = vec![other as u8];
        if prng.bit() {
            return;
        }
        let statuses = self.places_of(Part::Status);
        match statuses.get(other) {
            Some(&from) => self.pieces.truncate(from),
            None => {
                for _ in statuses.len()..other {
                    self.pieces.push((Part::Status, vec![0]));
                }
            }
        }
    }

    /// Another record in the place of one.
    fn replace_some_record(&mut self, prng: &mut Prng, other: fn(&mut Prng) -> Vec<Piece>) {
        if let Some(place) = self.some_place(prng, Part::Status) {
            let (from, to) = self.record_around(place);
            self.pieces.splice(from..to, other(prng));
        }
    }

    /// A record that may well stand there in the place of one.
    fn replace_record(&mut self, prng: &mut Prng) {
        self.replace_some_record(prng, |prng| match prng.below(4) {
            0 => vec![(Part::Status, vec![0])],
            1 => record_of(never_filled()),
            _ => filled_record(prng),
        });
    }
}

fn record_of(context: Context) -> Vec<Piece> {
    let mut table = Table {
        contexts: 1,
        ..Table::unopened()
    };
    table.places[0] = context;
    // Version, N and K come first.
    Pieces::of(&file_of(&table)).pieces.split_off(3)
}

fn filled_record(prng: &mut Prng) -> Vec<Piece> {
    record_of(some_filled_context(prng))
}

/// The record of a broken context that was never filled, with something that it cannot have.
fn unfilled_record(prng: &mut Prng) -> Vec<Piece> {
    let mut record = record_of(never_filled());
    for _ in 0..prng.pick(&[1, 1, 1, 2]) {
        match prng.below(6) {
            0 => record[0].1 = vec![1],
            1 => record[1].1 = vec![prng.between(1, 63) as u8],
            2 => record[2].1 = vec![prng.between(1, 15) as u8],
            3 => record[3].1 = prng.pick(&[[0, 1], [1, 0], [255, 255]]).to_vec(),
            4 => {
                let deltas: [u32; 4] = [1, 160, 0x10_0000, u32::MAX];
                record[4].1 = prng.pick(&deltas).to_be_bytes().to_vec();
            }
            _ => record[5].1 = vec![prng.pick(&[1, 40, 100])],
        }
    }
    record
}

/// Mostly none of the sixteen lengths that there are; else one that the header after it has not got, or 0
/// where the record may say more than that of a context never filled.
fn some_wrong_header_length(prng: &mut Prng, old: u8) -> u8 {
    let wrong = [
        [0, 1, 36, 39],
        [41, 42, 43, 99],
        [101, 104, 128, 255],
        [old.wrapping_add(4), old.wrapping_sub(4), 40, 100],
    ];
    let kind = prng.pick(&wrong);
    prng.pick(&kind)
}

/// Breaks one rule for headers in files.
fn spoil_header(prng: &mut Prng, header: &mut [u8]) {
    if header.len() < FIXED {
        return;
    }
    let one = prng.pick(&[[0, 1], [1, 0], [0x80, 0], [0, 0x80], [0xff, 0xff]]);
    match prng.below(9) {
        0 => header[0] = prng.pick(&[0x00, 0x44, 0x46, 0x55, 0x65]),
        1 => header[2..4].copy_from_slice(&one),
        2 => match prng.below(3) {
            0 => header[6] |= 0x20,
            1 => header[6] |= prng.pick(&[0x01, 0x10]),
            _ => header[7] = prng.pick(&[0x01, 0x80]),
        },
        3 => header[9] = prng.pick(&[0, 6, 16, 18, 0x91]),
        4 => header[10..12].copy_from_slice(&one),
        5 => header[24..26].copy_from_slice(&one),
        6 => {
            let neither: [u16; 6] = [1, 0x00ff, 0xff00, 0x7fff, 0xfffe, 0x8000];
            put16(header, 26, prng.pick(&neither));
        }
        7 => header[28] = header[28] & 0x3f | prng.pick(&[0x00, 0x40, 0xc0]),
        _ => header[28] ^= prng.between(1, 15) as u8,
    }
}

/// Changes one thing in a header that may be any number.
fn change_header(prng: &mut Prng, header: &mut [u8]) {
    if header.len() < FIXED {
        return;
    }
    match prng.below(8) {
        0 => header[6] ^= prng.pick(&[0x40, 0x80, 0xc0]),
        1 => header[28] ^= prng.pick(&[0x10, 0x20, 0x30]),
        2 => {
            let other = !get16(header, 26);
            put16(header, 26, other);
        }
        // The destination port, which need not be even.
        3 => header[23] ^= 1,
        _ => {
            let free = [
                1, 4, 5, 8, 12, 16, 19, 20, 21, 22, 23, 29, 30, 32, 35, 36, 39,
            ];
            let at = if header.len() > FIXED && prng.chance(1, 4) {
                prng.between(FIXED, header.len() - 1)
            } else {
                prng.pick(&free)
            };
            header[at] = prng.byte();
        }
    }
}

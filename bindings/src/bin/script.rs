//! Reads a call script from standard input, makes each call through the safe wrappers and writes one answer line per call, as the
//! second program does (oracle/src/script.rs).

use iarwennol::{Compressor, Decompressor, Endpoint, Refusal, Sent};
use std::fmt::Write as _;
use std::io::{self, BufRead, BufWriter, Write};

const FILL: u8 = 0xaa;
const MOST_BYTES: usize = 4096;
const MOST_SAVED_BYTES: usize = 16_384;
const PLACES: usize = 64;

/// A field of a context: its array, its first place there, the greatest value that a script may write. The context at place i has
/// its number at the first place + i (layout.rt of compressor_table and decompressor_table).
#[derive(Clone, Copy)]
enum Field {
    Byte(usize, u32),
    Short(usize),
    Word(usize),
}
use Field::{Byte, Short, Word};

const BIT: u32 = 1;
const ALL: u32 = 0xff;

/// Fields before the CSRC list and after it, in the order in which they are shown.
type Names = &'static [(&'static str, Field)];

const COMPRESSOR: (Names, usize, Names) = (
    &[
        ("status", Byte(0, BIT)),
        ("source", Word(0)),
        ("destination", Word(64)),
        ("sport", Short(0)),
        ("dport", Short(64)),
        ("ssrc", Word(128)),
        ("tos", Byte(64, ALL)),
        ("ttl", Byte(128, ALL)),
        ("flags", Byte(192, ALL)),
        ("padding", Byte(256, BIT)),
        ("extension", Byte(320, BIT)),
        ("blank", Byte(384, BIT)),
        ("id", Short(128)),
        ("sequence", Short(192)),
        ("timestamp", Word(192)),
        ("payload", Byte(448, ALL)),
        ("cc", Byte(512, ALL)),
    ],
    384,
    &[
        ("did", Short(256)),
        ("dts", Word(256)),
        ("earlier", Byte(576, BIT)),
        ("eid", Short(320)),
        ("ets", Word(320)),
        ("idue", Byte(640, ALL)),
        ("sdue", Byte(704, ALL)),
        ("tdue", Byte(768, ALL)),
        ("pdue", Byte(832, ALL)),
        ("cdue", Byte(896, ALL)),
        ("didue", Byte(960, ALL)),
        ("dtdue", Byte(1024, ALL)),
        ("fdue", Byte(1088, ALL)),
        ("link", Byte(1152, ALL)),
        ("generation", Byte(1216, ALL)),
    ],
);

const DECOMPRESSOR: (Names, usize, Names) = (
    &[
        ("status", Byte(0, 2)),
        ("filled", Byte(64, BIT)),
        ("source", Word(0)),
        ("destination", Word(64)),
        ("sport", Short(0)),
        ("dport", Short(64)),
        ("ssrc", Word(128)),
        ("tos", Byte(128, ALL)),
        ("ttl", Byte(192, ALL)),
        ("flags", Byte(256, ALL)),
        ("padding", Byte(320, BIT)),
        ("extension", Byte(384, BIT)),
        ("carried", Byte(448, BIT)),
        ("marker", Byte(512, BIT)),
        ("id", Short(128)),
        ("sequence", Short(192)),
        ("timestamp", Word(192)),
        ("payload", Byte(576, ALL)),
        ("cc", Byte(640, ALL)),
    ],
    320,
    &[("did", Short(256)), ("dts", Word(256)), ("link", Byte(704, ALL)), ("generation", Byte(768, ALL))],
);

fn fields((before, csrc, after): (Names, usize, Names)) -> Vec<(String, Field)> {
    let named = |&(name, field): &(&str, Field)| (name.to_string(), field);
    let list = (0..15).map(|i| (format!("csrc{i}"), Word(csrc + PLACES * i)));
    before.iter().map(named).chain(list).chain(after.iter().map(named)).collect()
}

/// A table's arrays and where N and K stand in the bytes.
struct Table<'a> {
    words: &'a mut [u32],
    shorts: &'a mut [u16],
    bytes: &'a mut [u8],
    n: usize,
    k: usize,
}

impl Table<'_> {
    fn write(self, fields: &[(String, Field)], words: &mut Words) -> Option<()> {
        let name = words.next()?;
        let place = place(words)?;
        let value = number(words)?;
        end(words)?;
        if name == "n" || name == "k" {
            (place == 0).then_some(())?;
            self.bytes[if name == "n" { self.n } else { self.k }] = u8::try_from(value).ok()?;
            return Some(());
        }
        match fields.iter().find(|(known, _)| known == name)?.1 {
            Byte(first, most) if value <= most => self.bytes[first + place] = value as u8,
            Byte(..) => return None,
            Short(first) => self.shorts[first + place] = u16::try_from(value).ok()?,
            Word(first) => self.words[first + place] = value,
        }
        Some(())
    }

    fn show(self, fields: &[(String, Field)], words: &mut Words) -> Option<String> {
        let place = place(words)?;
        end(words)?;
        let mut line = format!("{} {}", self.bytes[self.n], self.bytes[self.k]);
        for (_, field) in fields {
            let value = match *field {
                Byte(first, _) => self.bytes[first + place].into(),
                Short(first) => self.shorts[first + place].into(),
                Word(first) => self.words[first + place],
            };
            write!(line, " {value}").ok()?;
        }
        Some(line)
    }
}

fn sender(t: &mut Compressor) -> Table<'_> {
    Table { words: &mut t.words, shorts: &mut t.shorts, bytes: &mut t.bytes, n: Compressor::N, k: Compressor::K }
}

fn receiver(t: &mut Decompressor) -> Table<'_> {
    Table { words: &mut t.words, shorts: &mut t.shorts, bytes: &mut t.bytes, n: Decompressor::N, k: Decompressor::K }
}

// Words

type Words<'a> = std::str::Split<'a, char>;

fn end(words: &mut Words) -> Option<()> {
    words.next().is_none().then_some(())
}

fn number(words: &mut Words) -> Option<u32> {
    let word = words.next()?;
    word.bytes().all(|byte| byte.is_ascii_digit()).then_some(())?;
    word.parse().ok()
}

fn two_numbers(words: &mut Words) -> Option<(u32, u32)> {
    let pair = (number(words)?, number(words)?);
    end(words)?;
    Some(pair)
}

fn place(words: &mut Words) -> Option<usize> {
    number(words).map(|place| place as usize).filter(|&place| place < PLACES)
}

fn hex(words: &mut Words, most: usize) -> Option<Vec<u8>> {
    let word = words.next()?.as_bytes();
    if word == b"-" {
        return Some(Vec::new());
    }
    if word.is_empty() || word.len() % 2 == 1 || word.len() > 2 * most {
        return None;
    }
    let digit = |c: u8| match c {
        b'0'..=b'9' => Some(c - b'0'),
        b'a'..=b'f' => Some(c - b'a' + 10),
        _ => None,
    };
    word.chunks(2).map(|pair| Some(digit(pair[0])? << 4 | digit(pair[1])?)).collect()
}

/// The last word of a call: that many bytes of output.
fn room(words: &mut Words, most: usize) -> Option<Vec<u8>> {
    let room = number(words)? as usize;
    end(words)?;
    (room <= most).then(|| vec![FILL; room])
}

// Answers

fn bytes(out: &[u8], length: usize) -> String {
    let mut text = format!("{length} ");
    if length == 0 {
        text.push('-');
    }
    for byte in &out[..length] {
        for digit in [byte >> 4, byte & 15] {
            text.push(char::from_digit(digit.into(), 16).unwrap_or('?'));
        }
    }
    if out[length..].iter().any(|&byte| byte != FILL) {
        text.push_str(" touched");
    }
    text
}

fn sent(answer: Result<Sent, Refusal>, out: &[u8]) -> String {
    match answer {
        Ok(sent) => format!("0 {} {}", sent.kind, bytes(out, sent.length)),
        Err(refusal) => format!("{} 0 {}", refusal.number(), bytes(out, 0)),
    }
}

fn given(answer: Result<usize, Refusal>, out: &[u8]) -> String {
    match answer {
        Ok(length) => format!("0 {}", bytes(out, length)),
        Err(refusal) => format!("{} {}", refusal.number(), bytes(out, 0)),
    }
}

fn done(answer: Result<(), Refusal>) -> String {
    answer.map_or_else(Refusal::number, |()| 0).to_string()
}

#[derive(Default)]
struct Runner {
    compressor: Compressor,
    decompressor: Decompressor,
    endpoint: Endpoint,
}

impl Runner {
    /// None if the line is no call; then nothing was changed.
    fn call(&mut self, line: &str, of_sender: &[(String, Field)], of_receiver: &[(String, Field)]) -> Option<String> {
        let words = &mut line.split(' ');
        Some(match words.next()? {
            "os" => two_numbers(words).map(|(n, k)| done(self.compressor.open(n, k)))?,
            "or" => two_numbers(words).map(|(n, k)| done(self.decompressor.open(n, k)))?,
            "bo" => two_numbers(words).map(|(n, k)| done(self.endpoint.open(n, k)))?,
            name @ ("s" | "bw") => {
                let packet = hex(words, MOST_BYTES)?;
                let mut out = room(words, MOST_BYTES)?;
                let answer = match name {
                    "s" => self.compressor.send(&packet, &mut out),
                    _ => self.endpoint.from_wire(&packet, &mut out),
                };
                sent(answer, &out)
            }
            "q" => {
                let report = hex(words, MOST_BYTES)?;
                end(words)?;
                done(self.compressor.request(&report)) + " 0"
            }
            name @ ("r" | "br") => {
                let kind = number(words)?;
                let packet = hex(words, MOST_BYTES)?;
                let mut out = room(words, MOST_BYTES)?;
                let answer = match name {
                    "r" => self.decompressor.receive(kind, &packet, &mut out),
                    _ => self.endpoint.from_radio(kind, &packet, &mut out),
                };
                given(answer, &out)
            }
            "p" => {
                let mut out = room(words, MOST_BYTES)?;
                given(self.decompressor.report(&mut out), &out)
            }
            "bp" => {
                let mut out = room(words, MOST_BYTES)?;
                given(self.endpoint.report(&mut out), &out)
            }
            "v" => {
                let mut out = room(words, MOST_SAVED_BYTES)?;
                given(self.decompressor.save(&mut out), &out)
            }
            "l" => {
                let file = hex(words, MOST_SAVED_BYTES)?;
                end(words)?;
                done(self.decompressor.load(&file))
            }
            "ws" => sender(&mut self.compressor).write(of_sender, words).map(|()| "ok".into())?,
            "wr" => receiver(&mut self.decompressor).write(of_receiver, words).map(|()| "ok".into())?,
            "ds" => sender(&mut self.compressor).show(of_sender, words)?,
            "dr" => receiver(&mut self.decompressor).show(of_receiver, words)?,
            "bt" => {
                end(words)?;
                let t = self.endpoint.totals();
                format!("{} {} {} {} {} {}", t.plain, t.full_header, t.compressed_udp, t.compressed_rtp, t.rebuilt, t.refused)
            }
            "wt" => {
                let (place, value) = two_numbers(words)?;
                *self.endpoint.totals.get_mut(place as usize)? = value;
                "ok".into()
            }
            _ => return None,
        })
    }
}

fn main() -> io::Result<()> {
    let (mut input, mut output) = (io::stdin().lock(), BufWriter::new(io::stdout().lock()));
    let (of_sender, of_receiver) = (fields(COMPRESSOR), fields(DECOMPRESSOR));
    let mut runner = Runner::default();
    let mut line = Vec::new();
    while input.read_until(b'\n', &mut line)? > 0 {
        line.pop_if(|last| *last == b'\n');
        // A line that is no text is no call either.
        let text = std::str::from_utf8(&line).unwrap_or("");
        let answer = runner.call(text, &of_sender, &of_receiver);
        writeln!(output, "{}", answer.as_deref().unwrap_or("?"))?;
        line.clear();
    }
    output.flush()
}

//! Scripts of the oracle's generators, and the calls in their lines.

use oracle::planned::Planner;
use oracle::script::MOST_BYTES;
use oracle::{generate, generate_checksums, generate_endpoint, generate_saves};

/// Their names and lengths.
pub const SCRIPTS: [(&str, usize); 5] = [
    ("both tables", 150_000),
    ("sender", 60_000),
    ("box", 80_000),
    ("saves", 20_000),
    ("checksums", 60_000),
];

/// Lines without end.
pub fn script(name: &str, seed: u64) -> Box<dyn Iterator<Item = String>> {
    fn lines(mut planner: impl Planner + 'static) -> Box<dyn Iterator<Item = String>> {
        Box::new(std::iter::repeat_with(move || planner.next_line()))
    }
    match name {
        "both tables" => lines(generate::Generator::new(seed, false)),
        "sender" => lines(generate::Generator::new(seed, true)),
        "box" => lines(generate_endpoint::Generator::new(seed)),
        "saves" => lines(generate_saves::Generator::new(seed)),
        _ => lines(generate_checksums::Generator::new(seed)),
    }
}

/// A call of a script, or of an endpoint in one, which then goes to one of its tables.
#[derive(Clone, Copy, PartialEq, Eq, Debug)]
pub enum Kind {
    OpenCompressor,
    OpenDecompressor,
    Send,
    Receive,
    Request,
    Report,
}

pub const KINDS: [Kind; 6] = [
    Kind::OpenCompressor,
    Kind::OpenDecompressor,
    Kind::Send,
    Kind::Receive,
    Kind::Request,
    Kind::Report,
];

/// What is handed over; what a kind has no use for is 0 or empty.
pub struct Call {
    pub kind: Kind,
    /// N and K of an opening.
    pub settings: (u32, u32),
    pub link_type: u32,
    pub input: Vec<u8>,
    pub room: usize,
}

/// The calls of a line, and whether they are an endpoint's; none for a line that is no call of a table.
pub fn read(line: &str) -> Option<(bool, Vec<Call>)> {
    let words: Vec<&str> = line.split(' ').collect();
    let calls = match *words.as_slice() {
        ["os", n, k] => vec![opening(Kind::OpenCompressor, n, k)?],
        ["or", n, k] => vec![opening(Kind::OpenDecompressor, n, k)?],
        ["bo", n, k] => vec![
            opening(Kind::OpenCompressor, n, k)?,
            opening(Kind::OpenDecompressor, n, k)?,
        ],
        ["s" | "bw", packet, room] => vec![call(Kind::Send, "0", packet, room)?],
        // From the radio a context state is a request.
        ["br", "4", state, room] => vec![call(Kind::Request, "0", state, room)?],
        ["r" | "br", link_type, packet, room] => {
            vec![call(Kind::Receive, link_type, packet, room)?]
        }
        ["q", state] => vec![call(Kind::Request, "0", state, "0")?],
        ["p" | "bp", room] => vec![call(Kind::Report, "0", "-", room)?],
        _ => return None,
    };
    Some((words[0].starts_with('b'), calls))
}

fn opening(kind: Kind, n: &str, k: &str) -> Option<Call> {
    Some(Call {
        settings: (number(n)?, number(k)?),
        ..call(kind, "0", "-", "0")?
    })
}

fn call(kind: Kind, link_type: &str, input: &str, room: &str) -> Option<Call> {
    let room = number(room)? as usize;
    if room > MOST_BYTES {
        return None;
    }
    Some(Call {
        kind,
        settings: (0, 0),
        link_type: number(link_type)?,
        input: bytes(input, MOST_BYTES)?,
        room,
    })
}

pub fn number(word: &str) -> Option<u32> {
    word.bytes()
        .all(|byte| byte.is_ascii_digit())
        .then(|| word.parse().ok())?
}

pub fn bytes(word: &str, most: usize) -> Option<Vec<u8>> {
    if word == "-" {
        return Some(Vec::new());
    }
    let (pairs, odd) = word.as_bytes().as_chunks::<2>();
    if pairs.is_empty() || !odd.is_empty() || pairs.len() > most {
        return None;
    }
    pairs
        .iter()
        .map(|[high, low]| Some(digit(*high)? << 4 | digit(*low)?))
        .collect()
}

fn digit(byte: u8) -> Option<u8> {
    match byte {
        b'0'..=b'9' => Some(byte - b'0'),
        b'a'..=b'f' => Some(byte - b'a' + 10),
        _ => None,
    }
}

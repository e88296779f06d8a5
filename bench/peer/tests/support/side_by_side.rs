//! Runs scripts at the peer and at another program, and compares what came of every line.

use crate::script::{read, Call, Kind, KINDS};
use crate::tables::{lay_out_compressor, lay_out_decompressor, take_compressor, take_decompressor};
use oracle::script::Runner;

/// The two tables of a script, or those of its endpoint.
#[derive(Clone, PartialEq, Eq)]
pub struct Pair<C, D> {
    pub compressor: C,
    pub decompressor: D,
}

pub type PeerPair = Pair<peer::compressor::Table, peer::decompressor::Table>;

/// Number, link type and length. Calls other than sends have type 0.
pub type Told = (u8, u32, usize);

/// The program that the peer is compared with. It has the two tables of a script, and those of its endpoint.
pub trait Other {
    const NAME: &'static str;

    /// Makes a call, at the tables of the script or of its endpoint.
    fn call(&mut self, at_endpoint: bool, call: &Call, output: &mut [u8]) -> Told;

    /// Does with the script's tables what a line says that is no call of the peer's: a field is written by hand, a file loaded.
    fn change(&mut self, line: &str);

    /// Whether its compressor's and its decompressor's table hold what the peer's do.
    fn same(&self, at_endpoint: bool, peer: &PeerPair) -> [bool; 2];
}

/// What came of one call at the peer: its answer, the whole output, and both its tables.
pub struct Outcome {
    pub number: u8,
    pub link_type: u32,
    pub length: usize,
    pub output: Vec<u8>,
    pub tables: PeerPair,
}

/// What a comparison saw.
#[derive(Default)]
pub struct Seen {
    pub calls: usize,
    /// Calls by kind and number.
    pub numbers: [[usize; 13]; KINDS.len()],
    /// Accepted sends by link type.
    pub types: [usize; 4],
    /// Lines that are no call of the peer's and changed a table.
    pub changes: usize,
    pub differences: usize,
    /// The first of them.
    pub first: Option<String>,
}

impl Seen {
    pub fn add(&mut self, more: &Seen) {
        self.calls += more.calls;
        self.changes += more.changes;
        self.differences += more.differences;
        let numbers = self
            .numbers
            .iter_mut()
            .flatten()
            .zip(more.numbers.iter().flatten());
        for (sum, count) in numbers.chain(self.types.iter_mut().zip(&more.types)) {
            *sum += count;
        }
        if self.first.is_none() {
            self.first.clone_from(&more.first);
        }
    }

    fn differ(&mut self, what: &str, line: &str, told: impl std::fmt::Debug) {
        self.differences += 1;
        let shown = || format!("{what} of {line:.300}: {told:?}");
        self.first.get_or_insert_with(shown);
    }
}

/// Runs lines at both, up to so many differences. `tamper` is told the call's number and may change what the peer made of it before
/// this is compared, to show that it is noticed. The peer goes on with its own tables, so a table that differs is counted again
/// with each later line.
pub fn compare(
    other: &mut impl Other,
    lines: impl Iterator<Item = String>,
    most_differences: usize,
    mut tamper: impl FnMut(usize, &mut Outcome),
) -> Seen {
    let mut seen = Seen::default();
    // Tables of the script, and of its endpoint.
    let unopened = Pair {
        compressor: peer::compressor::Table::unopened(),
        decompressor: peer::decompressor::Table::unopened(),
    };
    let mut peers = [unopened.clone(), unopened];
    for line in lines {
        let Some((at_endpoint, calls)) = read(&line) else {
            let changed = changed(&line, &peers[0]);
            other.change(&line);
            seen.changes += usize::from(changed != peers[0]);
            peers[0] = changed;
            if let Some(what) = table_differs(other.same(false, &peers[0])) {
                seen.differ(what, &line, ());
            }
            if seen.differences >= most_differences {
                return seen;
            }
            continue;
        };
        for call in calls {
            let pair = &mut peers[usize::from(at_endpoint)];
            // The bytes of an output that are not written have to be different ones.
            let mut output: Vec<u8> = (0..call.room)
                .map(|i| (i * 11 + seen.calls) as u8)
                .collect();
            let mut outcome = at_peer(&call, pair, output.clone());
            let (number, link_type, length) = other.call(at_endpoint, &call, &mut output);
            tamper(seen.calls, &mut outcome);

            let told = (outcome.number, outcome.link_type, outcome.length);
            let differs = if told != (number, link_type, length) {
                Some("answer")
            } else if outcome.output != output {
                Some("output")
            } else {
                table_differs(other.same(at_endpoint, &outcome.tables))
            };
            if let Some(what) = differs {
                seen.differ(what, &line, (told, (number, link_type, length)));
                if seen.differences >= most_differences {
                    return seen;
                }
            }
            seen.calls += 1;
            seen.numbers[call.kind as usize][usize::from(number).min(12)] += 1;
            if call.kind == Kind::Send && number == 0 {
                seen.types[link_type as usize] += 1;
            }
        }
    }
    seen
}

fn table_differs([compressor, decompressor]: [bool; 2]) -> Option<&'static str> {
    if !compressor {
        Some("compressor's table")
    } else if !decompressor {
        Some("decompressor's table")
    } else {
        None
    }
}

fn at_peer(call: &Call, pair: &mut PeerPair, mut output: Vec<u8>) -> Outcome {
    let PeerPair {
        compressor,
        decompressor,
    } = pair;
    let (n, k) = call.settings;
    let (number, link_type, length) = match call.kind {
        Kind::OpenCompressor => of_other(peer::compressor::open(compressor, n, k)),
        Kind::OpenDecompressor => of_other(peer::decompressor::open(decompressor, n, k)),
        Kind::Send => {
            let answer = peer::compressor::send(compressor, &call.input, &mut output);
            (answer.number, answer.link_type, answer.length)
        }
        Kind::Receive => of_other(peer::decompressor::receive(
            decompressor,
            call.link_type,
            &call.input,
            &mut output,
        )),
        Kind::Request => of_other(peer::compressor::request(compressor, &call.input)),
        Kind::Report => of_other(peer::decompressor::report(decompressor, &mut output)),
    };
    Outcome {
        number,
        link_type,
        length,
        output,
        tables: pair.clone(),
    }
}

fn of_other(answer: peer::Answer) -> Told {
    (answer.number, 0, answer.length)
}

/// The peer's tables after a line that it has no call for. The oracle's words for fields and its loads serve the peer too.
pub fn changed(line: &str, pair: &PeerPair) -> PeerPair {
    let mut runner = Runner::default();
    runner.compressor = take_compressor(&pair.compressor);
    runner.decompressor = take_decompressor(&pair.decompressor);
    runner.answer(line, &mut String::new());
    Pair {
        compressor: lay_out_compressor(&runner.compressor),
        decompressor: lay_out_decompressor(&runner.decompressor),
    }
}

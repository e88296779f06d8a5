//! Generated scripts and CU without F: how often one comes where a timestamp difference is kept, how often a
//! later packet shows what became of the difference, and how often a fault in that is noticed.

use crate::scripts::answer;
use crate::support::{hex, lines_of, FILL};
use oracle::decompressor::{self, Status, Table};
use oracle::generate::Generator;
use oracle::mutant::Mutant;
use oracle::script::{push_hex, Runner};
use std::collections::BTreeMap;

/// How many lines must bring everything below often enough.
const LINES: usize = 60_000;

/// What is added to the name of a count where a packet shows what the CU without F left.
const FOLLOWED: &str = ", then a packet without a timestamp";

const FAULTS: [Mutant; 5] = [
    Mutant::RtpHeaderKeepsDelta,
    Mutant::RtpHeaderDropsSentDelta,
    Mutant::RtpHeaderResetsIdDelta,
    Mutant::RefusedRtpHeaderResetsDelta,
    Mutant::SelectedFieldsResetDelta,
];

/// What a CU or CR tells of the timestamp.
enum Told {
    /// A whole RTP header.
    Header { difference: bool },
    /// Selected fields, or differences alone.
    Fields { whole: bool, difference: bool },
}

/// Of a packet that was accepted, so that no byte of its front is missing.
fn told(link_type: &str, bytes: &[u8], checksum_carried: bool) -> Told {
    let flags = bytes[1];
    if link_type == "2" {
        let difference = flags & 0x20 != 0;
        return match flags & 0x80 {
            0 => Told::Header { difference },
            _ => Told::Fields {
                whole: bytes[2] & 0x20 != 0,
                difference,
            },
        };
    }
    let second = if checksum_carried { 4 } else { 2 };
    let msti = if flags >= 0xf0 { bytes[second] } else { flags };
    Told::Fields {
        whole: false,
        difference: msti & 0x20 != 0,
    }
}

/// What one script has held.
#[derive(Default)]
struct Watch {
    /// Contexts where the last CU without F took the place of a kept difference, and whether it had dT; until
    /// something changes the difference again.
    changed: BTreeMap<usize, &'static str>,
    seen: BTreeMap<String, usize>,
}

impl Watch {
    fn count(&mut self, what: String) {
        *self.seen.entry(what).or_insert(0) += 1;
    }

    /// One line that was a call, with the table from before it.
    fn see(&mut self, line: &str, answer: &str, before: &Table) {
        let words: Vec<&str> = line.split(' ').collect();
        let number = answer.split(' ').next().unwrap_or("");
        match (words[0], words.get(1)) {
            ("or", _) if number == "0" => self.changed.clear(),
            ("wr", Some(&"dts" | &"status")) => {
                let place = words[2].parse().expect("a place");
                self.changed.remove(&place);
            }
            ("r", Some(&"1")) if number == "0" => {
                let place = usize::from(hex(words[2])[3]);
                self.changed.remove(&place);
            }
            ("r", Some(&("2" | "3"))) if words[2] != "-" => {
                self.see_compressed(words[1], &hex(words[2]), number, before);
            }
            _ => {}
        }
    }

    fn see_compressed(&mut self, link_type: &str, bytes: &[u8], number: &str, before: &Table) {
        let place = usize::from(bytes[0]);
        let Some(context) = before.places.get(place) else {
            return;
        };
        let kept = context.status == Status::Live && context.timestamp_delta != 0;
        if number != "0" {
            if kept && link_type == "2" && bytes.get(1).is_some_and(|flags| flags & 0x80 == 0) {
                self.count(format!("refused {number}"));
            }
            return;
        }
        match told(link_type, bytes, context.carried) {
            Told::Header { difference } => {
                let how = if difference { "with dT" } else { "without dT" };
                self.changed.remove(&place);
                if kept {
                    self.count(how.to_string());
                    self.changed.insert(place, how);
                }
            }
            Told::Fields {
                whole: false,
                difference: false,
            } => {
                // Counted once for each CU without F.
                if let Some(how) = self.changed.remove(&place) {
                    self.count(format!("{how}{FOLLOWED}"));
                }
            }
            Told::Fields {
                difference: true, ..
            } => {
                self.changed.remove(&place);
            }
            // A whole timestamp shows nothing and leaves what is kept.
            Told::Fields { .. } => {}
        }
    }
}

/// The same script answered by a decompressor with a fault.
struct Faulty {
    fault: Mutant,
    runner: Runner,
    /// Answers that told the fault: rebuilt packets and shown contexts.
    rebuilt: usize,
    shown: usize,
}

impl Faulty {
    fn new(fault: Mutant) -> Self {
        Faulty {
            fault,
            runner: Runner::default(),
            rebuilt: 0,
            shown: 0,
        }
    }

    /// Where the answer is another one it is counted, and the table is put right so that the next one counts
    /// for itself.
    fn see(&mut self, line: &str, right: &str, right_table: &Table) {
        let words: Vec<&str> = line.split(' ').collect();
        let found = if words[0] == "r" {
            self.receive(words[1], words[2], words[3])
        } else {
            answer(&mut self.runner, line)
        };
        if found == right {
            return;
        }
        match words[0] {
            "r" => self.rebuilt += 1,
            "dr" => self.shown += 1,
            _ => panic!("{:?} at {line}: {found}, not {right}", self.fault),
        }
        self.runner.decompressor = right_table.clone();
    }

    fn receive(&mut self, link_type: &str, bytes: &str, room: &str) -> String {
        let bytes = if bytes == "-" { Vec::new() } else { hex(bytes) };
        let mut output = vec![FILL; room.parse().expect("a room")];
        let found = decompressor::receive_with(
            self.fault,
            &mut self.runner.decompressor,
            link_type.parse().expect("a type"),
            &bytes,
            &mut output,
        );
        let mut text = format!("{} {} ", found.number, found.length);
        push_hex(&mut text, &output[..found.length]);
        text
    }
}

/// Counts of one script: what it held, and for each fault the answers that told it.
fn watched(seed: u64) -> (Watch, Vec<Faulty>) {
    let mut runner = Runner::default();
    let mut watch = Watch::default();
    let mut faulty: Vec<Faulty> = FAULTS.map(Faulty::new).into();
    for line in lines_of(Generator::new(seed, false), LINES) {
        let before = runner.decompressor.clone();
        let answer = answer(&mut runner, &line);
        if answer == "?" {
            continue;
        }
        watch.see(&line, &answer, &before);
        for one in &mut faulty {
            one.see(&line, &answer, &runner.decompressor);
        }
    }
    (watch, faulty)
}

#[test]
fn generated_scripts_bring_rtp_headers() {
    for seed in 0..6 {
        let (watch, faulty) = watched(seed);
        println!(
            "CU without F where a timestamp difference is kept, in {LINES} lines, seed {seed}:"
        );
        for (what, count) in &watch.seen {
            println!("{count:6} {what}");
        }
        for one in &faulty {
            println!(
                "{:6} packets and {} shown contexts notice {:?}",
                one.rebuilt, one.shown, one.fault
            );
        }
        for how in ["with dT", "without dT"] {
            for what in [how.to_string(), format!("{how}{FOLLOWED}")] {
                let count = watch.seen.get(&what).copied().unwrap_or(0);
                assert!(count >= 24, "{what} comes {count} times with seed {seed}");
            }
        }
        for one in faulty {
            let (fault, times) = (one.fault, one.rebuilt);
            assert!(
                times >= 12,
                "{fault:?} is noticed {times} times with seed {seed}"
            );
        }
    }
}

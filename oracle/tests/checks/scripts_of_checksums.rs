//! Generated scripts of UDP checksums: answers agree with sums worked out here, every kind of packet is judged often enough
//! at every gap, and every fault in judging is noticed.

use crate::scripts::answer;
use crate::support::{hex, lines_of, not_too_long, same_for_the_same_seed, udp_checksum_of, FILL};
use oracle::decompressor::{self, Status, Table};
use oracle::generate_checksums::Generator;
use oracle::mutant::Mutant;
use oracle::script::{push_hex, Runner};
use std::collections::{BTreeMap, HashSet};

/// How many lines must bring everything below often enough.
const LINES: usize = 40_000;

/// A call `r`, as its line has it.
struct Arrival {
    link_type: u32,
    bytes: Vec<u8>,
    room: usize,
}

impl Arrival {
    fn read(line: &str) -> Option<Self> {
        let words: Vec<&str> = line.split(' ').collect();
        let ["r", link_type, bytes, room] = words[..] else {
            return None;
        };
        Some(Arrival {
            link_type: link_type.parse().expect("a type"),
            bytes: hex(bytes),
            room: room.parse().expect("a room"),
        })
    }

    fn kind(&self) -> &'static str {
        match (self.link_type, self.bytes[1]) {
            (2, 0x80..) => "CU with F",
            (2, _) => "CU without F",
            (_, 0xf0..) => "CR 1111",
            _ => "CR",
        }
    }

    /// The answer that a decompressor with this fault gives, as text, and the number in it; the table is changed.
    fn hand(&self, fault: Mutant, table: &mut Table, room: usize) -> (u8, String) {
        let mut output = vec![FILL; room];
        let found =
            decompressor::receive_with(fault, table, self.link_type, &self.bytes, &mut output);
        let mut text = format!("{} {} ", found.number, found.length);
        push_hex(&mut text, &output[..found.length]);
        (found.number, text)
    }

    /// What it rebuilds if no checksum is judged, with the N given; or the number it is refused by.
    fn unjudged(&self, table: &Table, repeats: u8) -> Result<Vec<u8>, u8> {
        let mut table = table.clone();
        table.repeats = repeats;
        let (number, text) = self.hand(Mutant::ChecksumNeverJudged, &mut table, 1500);
        match number {
            0 => Ok(hex(text.split(' ').next_back().expect("bytes"))),
            _ => Err(number),
        }
    }
}

/// What one script has held.
#[derive(Default)]
struct Watch {
    seen: BTreeMap<String, usize>,
    /// Link packets that the compressor gave out in this stretch.
    sent: HashSet<String>,
    /// Contexts that a wrong checksum broke.
    disproved: HashSet<u8>,
    /// Whether the last arrival was refused 12.
    just_now: bool,
}

impl Watch {
    fn count(&mut self, what: impl Into<String>) {
        *self.seen.entry(what.into()).or_insert(0) += 1;
    }

    fn see(&mut self, line: &str, answer: &str, before: &Table, after: &Table) {
        assert!(
            answer != "?" && !answer.contains("touched"),
            "{line}: {answer}"
        );
        let words: Vec<&str> = line.split(' ').collect();
        let parts: Vec<&str> = answer.split(' ').collect();
        match words[0] {
            "or" => {
                self.sent.clear();
                self.disproved.clear();
            }
            "s" => {
                self.sent.insert(parts[3].to_string());
            }
            "dr" if self.just_now => self.count("context shown after 12"),
            "p" if !self.disproved.is_empty() => {
                self.count(format!("report after 12: {}", parts[0]))
            }
            "q" if !self.disproved.is_empty() => self.count("request after 12"),
            _ => {}
        }
        let Some(arrival) = Arrival::read(line) else {
            return;
        };
        self.just_now = parts[0] == "12";
        let from_compressor = self.sent.contains(words[2]);
        match arrival.link_type {
            1 if parts[0] == "0" && self.disproved.remove(&arrival.bytes[3]) => {
                self.count("full header mends what 12 broke");
            }
            2 | 3 => {
                let number = parts[0].parse().expect("a number");
                self.see_compressed(&arrival, number, from_compressor, before, after);
            }
            _ => {}
        }
    }

    fn see_compressed(
        &mut self,
        arrival: &Arrival,
        number: u8,
        from_compressor: bool,
        before: &Table,
        after: &Table,
    ) {
        let place = arrival.bytes[0];
        let context = before.places[usize::from(place)];
        let Some(flags) = arrival.bytes.get(1) else {
            return assert_eq!(number, 4);
        };
        if context.status != Status::Live {
            assert_eq!(number, 8);
            if self.disproved.contains(&place) {
                self.count("8 after 12");
            }
            return;
        }
        let gap = ((flags & 15) + 16 - context.last_link) & 15;
        let at = if arrival.kind() == "CU with F" { 3 } else { 2 };
        // Where it is cut the packet is refused for that.
        let field = arrival.bytes.get(at..at + 2).unwrap_or(&[0, 0]);
        let checksum = u16::from(field[0]) * 256 + u16::from(field[1]);
        let carried = context.carried.then_some(checksum);
        let packet = match arrival.unjudged(before, before.repeats) {
            Ok(packet) => packet,
            Err(refused) => {
                assert_eq!(number, refused);
                return self.see_refused(arrival, number, gap, carried, before);
            }
        };
        let Some(carried) = carried else {
            assert_eq!(number, if arrival.room < packet.len() { 11 } else { 0 });
            if gap > 1 {
                self.count("blank, after a gap");
            }
            return;
        };
        let right = udp_checksum_of(&packet);
        let wrong = carried != right;
        // The rule, as it is read here.
        let wanted = match arrival.room < packet.len() {
            _ if gap > 1 && wrong => 12,
            true => 11,
            false => 0,
        };
        assert_eq!(
            number, wanted,
            "gap {gap}, {carried:04x} where {right:04x} is right"
        );
        if number != 0 {
            let mut left = before.clone();
            if number == 12 {
                left.places[usize::from(place)].status = Status::Broken;
                self.disproved.insert(place);
            }
            assert!(*after == left, "another table after {number}");
        }
        let short = packet.len().saturating_sub(arrival.room);
        let room = match short {
            0 if packet.len() == arrival.room => "exact room",
            0 => "more room",
            1 => "one byte short",
            _ if arrival.room == 0 => "no room",
            _ => "too little room",
        };
        if gap == 1 {
            let how = match (carried, wrong) {
                (0, _) => "0000",
                (_, true) => "wrong",
                (_, false) => "right",
            };
            return self.count(format!("gap 1, {how}: {number}"));
        }
        let result = match number {
            11 => return self.count(format!("11 with a right checksum, {room}")),
            12 => "12",
            _ => "right",
        };
        self.count(format!("{result}, {room}"));
        self.count(format!("{result}, gap {gap}"));
        self.count(format!("{result}, N {}", before.repeats));
        self.count(format!("{result}, {}", arrival.kind()));
        self.see_packet(result, &packet);
        if from_compressor {
            self.count(format!("{result}, as a compressor sent it"));
        }
        if right == 0xffff {
            let how = match carried {
                0xffff => "FFFF where the sum is 0000",
                0 => "0000 where the sum is 0000",
                _ => "another where the sum is 0000",
            };
            self.count(format!("{result}, {how}"));
        } else if wrong {
            let how = match carried {
                0 => "0000",
                0xffff => "FFFF",
                _ if carried == right.swap_bytes() => "halves swapped",
                _ if (carried ^ right).count_ones() == 1 => "one bit off",
                _ => "another",
            };
            self.count(format!("12, {how}"));
        }
    }

    fn see_packet(&mut self, result: &str, packet: &[u8]) {
        let words = usize::from(packet[28] & 15);
        self.count(format!(
            "{result}, {} length",
            if packet.len() & 1 == 0 { "even" } else { "odd" }
        ));
        match words {
            0 => {}
            15 => self.count(format!("{result}, fifteen words")),
            _ => self.count(format!("{result}, a list")),
        }
        match packet.len() {
            1500 => self.count(format!("{result}, 1500 bytes")),
            1401..=1499 => self.count(format!("{result}, over 1400 bytes")),
            length if length == 40 + 4 * words => self.count(format!("{result}, no data")),
            _ => {}
        }
    }

    /// Refused before any checksum is judged.
    fn see_refused(
        &mut self,
        arrival: &Arrival,
        number: u8,
        gap: u8,
        carried: Option<u16>,
        before: &Table,
    ) {
        let Some(carried) = carried else {
            return;
        };
        match number {
            9 if gap == 0 => self.count("9 for a gap of 0"),
            9 => {
                if let Ok(packet) = arrival.unjudged(before, 14) {
                    let wrong = carried != udp_checksum_of(&packet);
                    let how = if wrong { "wrong" } else { "right" };
                    self.count(format!("9 with a {how} checksum"));
                    if gap == before.repeats + 2 {
                        self.count(format!("9 with a {how} checksum, gap N+2"));
                    }
                }
            }
            // 0000 is wrong whatever the sum of so long a packet would be.
            10 if gap > 1 && carried == 0 => self.count("10 before 12"),
            4 | 5 | 7 => self.count(format!("a field's {number}")),
            _ => {}
        }
    }
}

fn watched(seed: u64) -> Watch {
    let mut runner = Runner::default();
    let mut watch = Watch::default();
    for line in lines_of(Generator::new(seed), LINES) {
        let before = runner.decompressor.clone();
        let answer = answer(&mut runner, &line);
        watch.see(&line, &answer, &before, &runner.decompressor);
    }
    watch
}

/// Everything that must come, with how often at least.
fn wanted() -> Vec<(String, usize)> {
    let mut wanted = Vec::new();
    for result in ["right", "12"] {
        for gap in 2..=15 {
            wanted.push((format!("{result}, gap {gap}"), 30));
        }
        for repeats in 1..=14 {
            wanted.push((format!("{result}, N {repeats}"), 20));
        }
        for what in [
            "CU with F",
            "CU without F",
            "CR",
            "CR 1111",
            "even length",
            "odd length",
            "a list",
            "exact room",
            "more room",
        ] {
            wanted.push((format!("{result}, {what}"), 100));
        }
        for what in [
            "fifteen words",
            "1500 bytes",
            "over 1400 bytes",
            "no data",
            "as a compressor sent it",
        ] {
            wanted.push((format!("{result}, {what}"), 25));
        }
    }
    for (what, least) in [
        ("right, FFFF where the sum is 0000", 100),
        ("12, 0000 where the sum is 0000", 100),
        ("12, another where the sum is 0000", 50),
        ("12, 0000", 100),
        ("12, FFFF", 50),
        ("12, one bit off", 100),
        ("12, halves swapped", 50),
        ("12, another", 100),
        ("12, no room", 100),
        ("12, one byte short", 100),
        ("12, too little room", 50),
        ("11 with a right checksum, no room", 50),
        ("11 with a right checksum, one byte short", 100),
        ("11 with a right checksum, too little room", 50),
        ("gap 1, right: 0", 100),
        ("gap 1, wrong: 0", 100),
        ("gap 1, 0000: 0", 50),
        ("gap 1, right: 11", 20),
        ("gap 1, wrong: 11", 20),
        ("gap 1, 0000: 11", 20),
        ("9 for a gap of 0", 100),
        ("9 with a right checksum", 100),
        ("9 with a wrong checksum", 100),
        ("9 with a right checksum, gap N+2", 100),
        ("9 with a wrong checksum, gap N+2", 100),
        ("10 before 12", 50),
        ("a field's 5", 20),
        ("a field's 7", 20),
        ("blank, after a gap", 50),
        ("8 after 12", 100),
        ("context shown after 12", 100),
        ("report after 12: 0", 100),
        ("request after 12", 50),
        ("full header mends what 12 broke", 100),
    ] {
        wanted.push((what.to_string(), least));
    }
    wanted
}

#[test]
fn generated_checksums_reach_everything() {
    let mut rarest: Vec<(usize, String)> = Vec::new();
    for seed in 0..6 {
        let watch = watched(seed);
        if seed == 0 {
            println!("in {LINES} lines of checksums, seed {seed}:");
            for (what, count) in &watch.seen {
                println!("{count:6} {what}");
            }
        }
        for (what, least) in wanted() {
            let count = watch.seen.get(&what).copied().unwrap_or(0);
            assert!(
                count >= least,
                "{what} comes {count} times with seed {seed}"
            );
            rarest.push((100 * count / least, format!("{count} {what} (seed {seed})")));
        }
    }
    rarest.sort();
    println!("nearest to their least numbers: {:?}", &rarest[..6]);
}

/// Each fault in judging changes the answer or the table of some arrivals.
#[test]
fn generated_checksums_notice_every_fault() {
    let faults = Mutant::ALL
        .into_iter()
        .skip_while(|fault| *fault != Mutant::ChecksumNeverJudged)
        .take_while(|fault| *fault != Mutant::ContextStateToDecompressor)
        // Of an endpoint, whose calls these scripts do not have.
        .filter(|fault| *fault != Mutant::WrongChecksumNotCounted);
    let mut noticed: Vec<(Mutant, usize)> = faults.map(|fault| (fault, 0)).collect();
    assert_eq!(noticed.len(), 21);
    let mut runner = Runner::default();
    for line in lines_of(Generator::new(200), LINES / 2) {
        let before = runner.decompressor.clone();
        let right = answer(&mut runner, &line);
        let Some(arrival) = Arrival::read(&line) else {
            continue;
        };
        for (fault, times) in &mut noticed {
            let mut table = before.clone();
            let (_, found) = arrival.hand(*fault, &mut table, arrival.room);
            *times += usize::from(found != right || table != runner.decompressor);
        }
    }
    println!("calls of {} that notice a fault: {noticed:?}", LINES / 2);
    for (fault, times) in noticed {
        assert!(times >= 25, "{fault:?} is noticed {times} times");
    }
}

#[test]
fn generated_checksums_are_the_same_for_the_same_seed() {
    same_for_the_same_seed(Generator::new);
}

#[test]
fn generated_checksums_are_not_too_long() {
    not_too_long("checksums", Generator::new(9));
}

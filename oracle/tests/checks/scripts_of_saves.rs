//! Generated scripts of saves and loads: their answers agree with each other and with files as they are read
//! here, and they reach every place where a load can be refused, often enough.

use crate::scripts::answer;
use crate::support::{hex, lines_of, not_too_long, same_for_the_same_seed, FILL};
use oracle::generate_saves::Generator;
use oracle::mutant::Mutant;
use oracle::saved::{self, parts_read, Part};
use oracle::script::{push_hex, Runner};
use std::collections::BTreeMap;

/// How many lines must reach every place of refusal.
const LINES: usize = 20_000;

// Files read here

/// A context that is not empty, as its record has it.
struct Record<'a> {
    status: u8,
    generation: u8,
    link: u8,
    id_delta: u64,
    timestamp_delta: u64,
    /// Without bytes where the context was never filled.
    header: &'a [u8],
}

/// A file that loads: N, K and the records, by nothing but the layout.
fn read(file: &[u8]) -> (u8, u8, Vec<Option<Record<'_>>>) {
    assert_eq!(big_endian(&file[..2]) as usize, file.len() - 2);
    assert_eq!(file[2], 1);
    let mut at = 5;
    let mut records = Vec::new();
    for _ in 0..file[4] {
        if file[at] == 0 {
            records.push(None);
            at += 1;
            continue;
        }
        let end = at + 10 + usize::from(file[at + 9]);
        records.push(Some(Record {
            status: file[at],
            generation: file[at + 1],
            link: file[at + 2],
            id_delta: big_endian(&file[at + 3..at + 5]),
            timestamp_delta: big_endian(&file[at + 5..at + 9]),
            header: &file[at + 10..end],
        }));
        at = end;
    }
    assert_eq!(at, file.len());
    (file[3], file[4], records)
}

fn big_endian(bytes: &[u8]) -> u64 {
    bytes
        .iter()
        .fold(0, |sum, byte| 256 * sum + u64::from(*byte))
}

/// What `dr` shows of a place in the table that has this file.
fn shown(file: &[u8], place: usize) -> String {
    let (repeats, contexts, records) = read(file);
    let mut numbers = vec![u64::from(repeats), u64::from(contexts)];
    match records.get(place) {
        Some(Some(record)) => numbers.extend(shown_context(record)),
        _ => numbers.extend([0; 38]),
    }
    let words: Vec<String> = numbers.iter().map(u64::to_string).collect();
    words.join(" ")
}

fn shown_context(record: &Record) -> Vec<u64> {
    let header = record.header;
    let mut numbers = vec![record.status.into(), u64::from(!header.is_empty())];
    if header.is_empty() {
        numbers.extend([0; 32]);
    } else {
        let field = |from: usize, to: usize| big_endian(&header[from..to]);
        numbers.extend([field(12, 16), field(16, 20), field(20, 22), field(22, 24)]);
        numbers.extend([field(36, 40), field(1, 2), field(8, 9), field(6, 7) / 64]);
        numbers.extend([field(28, 29) / 32 % 2, field(28, 29) / 16 % 2]);
        numbers.extend([u64::from(field(26, 28) != 0), field(29, 30) / 128]);
        numbers.extend([field(4, 6), field(30, 32), field(32, 36)]);
        let count = (header.len() - 40) / 4;
        numbers.extend([field(29, 30) % 128, count as u64]);
        numbers.extend((0..count).map(|word| field(40 + 4 * word, 44 + 4 * word)));
        numbers.resize(34, 0);
    }
    numbers.extend([record.id_delta, record.timestamp_delta]);
    numbers.extend([u64::from(record.link), u64::from(record.generation)]);
    numbers
}

/// The report of the table that has this file.
fn report(file: &[u8]) -> Vec<u8> {
    let mut bytes = vec![1, 0];
    for (place, record) in read(file).2.iter().enumerate() {
        if let Some(record) = record.as_ref().filter(|record| record.status == 2) {
            bytes[1] += 1;
            bytes.extend([place as u8, 0x80 + record.link, record.generation]);
        }
    }
    if bytes[1] == 0 {
        bytes.clear();
    }
    bytes
}

// Places of refusal

/// Rules for a header in a file, with the bytes they look at.
type Rule = (&'static str, fn(&[u8]) -> bool);

const HEADER_RULES: [Rule; 9] = [
    ("first byte", |header| header[0] == 0x45),
    ("IP length", |header| header[2..4] == [0, 0]),
    ("MF and offset", |header| {
        header[6] % 64 == 0 && header[7] == 0
    }),
    ("protocol", |header| header[9] == 17),
    ("IP checksum", |header| header[10..12] == [0, 0]),
    ("UDP length", |header| header[24..26] == [0, 0]),
    ("UDP checksum", |header| {
        header[26] == header[27] && [0, 255].contains(&header[26])
    }),
    ("version", |header| header[28] / 64 == 2),
    ("count", |header| {
        40 + 4 * usize::from(header[28] % 16) == header.len()
    }),
];

/// Where a load is refused, in words; a rule is named only where it alone is broken.
fn place_of_refusal(file: &[u8], number: &str) -> String {
    let (part, at) = *parts_read(file).last().expect("at least the length");
    match (part, number) {
        (Part::Length, "4") if file.len() < 2 => "under two bytes".to_string(),
        (Part::Length, "4") => "fewer bytes than the length says".to_string(),
        (Part::Length, "5") => "more bytes than the length says".to_string(),
        (Part::End, "5") => "bytes left over".to_string(),
        (_, "4") if at < file.len() => format!("{part:?} cut within"),
        (_, "4") => format!("{part:?} missing"),
        (Part::Contexts, "5") if file[at] == 0 => "K 0".to_string(),
        (Part::HeaderLength, "5") => format!("header length: {}", length_fault(&file[at - 9..=at])),
        (Part::Header, "5") => {
            let header = &file[at..at + usize::from(file[at - 1])];
            let mut broken = HEADER_RULES.iter().filter(|(_, holds)| !holds(header));
            match (broken.next(), broken.next()) {
                (Some((rule, _)), None) => format!("header: {rule}"),
                (Some(_), Some(_)) => "header: several rules".to_string(),
                (None, _) => panic!("nothing is wrong with {header:x?}"),
            }
        }
        (_, "5") => format!("{part:?} of a wrong number"),
        _ => panic!("{number} at {part:?}"),
    }
}

/// Of a record up to its header length.
fn length_fault(record: &[u8]) -> &'static str {
    let numbers = [&record[1..2], &record[2..3], &record[3..5], &record[5..9]];
    let held = numbers.map(|number| number.iter().any(|&byte| byte != 0));
    match (record[9], record[0], held) {
        (0, 1, _) => "0 in a live context",
        (0, 2, [true, false, false, false]) => "0 with a generation",
        (0, 2, [false, true, false, false]) => "0 with a link sequence",
        (0, 2, [false, false, true, false]) => "0 with an ID difference",
        (0, 2, [false, false, false, true]) => "0 with a timestamp difference",
        (0, 2, _) => "0 with several numbers",
        (1..=39, ..) => "under 40",
        (101.., ..) => "over 100",
        _ => "not in steps of four",
    }
}

/// Every place there is.
const PLACES: [&str; 46] = [
    "under two bytes",
    "fewer bytes than the length says",
    "more bytes than the length says",
    "Version missing",
    "Version of a wrong number",
    "Repeats missing",
    "Repeats of a wrong number",
    "Contexts missing",
    "K 0",
    "Contexts of a wrong number",
    "Status missing",
    "Status of a wrong number",
    "Generation missing",
    "Generation of a wrong number",
    "LinkSequence missing",
    "LinkSequence of a wrong number",
    "IdDelta missing",
    "IdDelta cut within",
    "TimestampDelta missing",
    "TimestampDelta cut within",
    "TimestampDelta of a wrong number",
    "HeaderLength missing",
    "header length: 0 in a live context",
    "header length: 0 with a generation",
    "header length: 0 with a link sequence",
    "header length: 0 with an ID difference",
    "header length: 0 with a timestamp difference",
    "header length: 0 with several numbers",
    "header length: under 40",
    "header length: over 100",
    "header length: not in steps of four",
    "Header missing",
    "Header cut within",
    "header: first byte",
    "header: IP length",
    "header: MF and offset",
    "header: protocol",
    "header: IP checksum",
    "header: UDP length",
    "header: UDP checksum",
    "header: version",
    "header: count",
    "header: several rules",
    "bytes left over",
    // Of saves.
    "save of an unsound table",
    "save with too little room",
];

// One script

/// What must hold between the lines of one script, and what the script has held.
#[derive(Default)]
struct Watch {
    /// The file of the decompressor's table, as long as that is known.
    file: Option<Vec<u8>>,
    /// Lines at which files were saved.
    saved_at: BTreeMap<Vec<u8>, usize>,
    line: usize,
    places: BTreeMap<String, usize>,
    /// Other things that happened.
    seen: BTreeMap<String, usize>,
}

impl Watch {
    fn count(&mut self, what: impl Into<String>) {
        *self.seen.entry(what.into()).or_insert(0) += 1;
    }

    fn see(&mut self, line: &str, answer: &str) {
        self.line += 1;
        let words: Vec<&str> = line.split(' ').collect();
        let parts: Vec<&str> = answer.split(' ').collect();
        assert!(!answer.contains("touched"), "{line}: {answer}");
        if answer == "?" {
            return self.count("no call");
        }
        match words[0] {
            "or" if answer == "0" => {
                let [repeats, contexts] =
                    [words[1], words[2]].map(|word| word.parse().expect("a byte"));
                let body = [vec![1, repeats, contexts], vec![0; contexts.into()]].concat();
                self.file = Some([vec![0, body.len() as u8], body].concat());
            }
            "wr" => self.file = None,
            "r" => self.see_arrival(words[1], parts[0]),
            "v" => self.see_save(words[1], &parts),
            "l" => self.see_load(words[1], answer),
            "dr" => {
                let place: usize = words[1].parse().expect("a place");
                if let Some(file) = &self.file {
                    assert_eq!(answer, shown(file, place), "{line}");
                    self.count("shown as the file has it");
                }
            }
            "p" => self.see_report(words[1], &parts),
            "os" | "or" | "s" | "q" => {}
            _ => panic!("{line}"),
        }
    }

    /// Plain packets and refusals but 8, 9 and 12 leave the table.
    fn see_arrival(&mut self, link_type: &str, number: &str) {
        let leaves = number == "0" && link_type == "0" || !["0", "8", "9", "12"].contains(&number);
        if !leaves {
            self.file = None;
        }
        self.count(format!("arrival {number}"));
    }

    fn see_save(&mut self, room: &str, parts: &[&str]) {
        let room: usize = room.parse().expect("a room");
        match parts[0] {
            "0" => {
                let file = hex(parts[2]);
                assert_eq!(parts[1], file.len().to_string());
                assert!(file.len() <= room);
                if let Some(known) = &self.file {
                    assert_eq!(file, *known, "a table has one file");
                    self.count("saved as it was known");
                }
                self.count(match room - file.len() {
                    0 => "saved with exact room",
                    _ => "saved with more room",
                });
                self.see_file(&file, "saved");
                self.saved_at.insert(file.clone(), self.line);
                self.file = Some(file);
            }
            "1" => {
                assert_eq!(self.file, None, "what has a file is sound");
                *self
                    .places
                    .entry("save of an unsound table".into())
                    .or_insert(0) += 1;
            }
            "11" => {
                if let Some(file) = &self.file {
                    assert!(room < file.len());
                    if room + 1 == file.len() {
                        self.count("one byte too little");
                    }
                }
                if room == 0 {
                    self.count("no room at all");
                }
                *self
                    .places
                    .entry("save with too little room".into())
                    .or_insert(0) += 1;
            }
            number => panic!("save answers {number}"),
        }
        if parts[0] != "0" {
            assert_eq!(parts[1..], ["0", "-"]);
        }
    }

    fn see_load(&mut self, bytes: &str, number: &str) {
        let bytes = if bytes == "-" { Vec::new() } else { hex(bytes) };
        if number != "0" {
            *self
                .places
                .entry(place_of_refusal(&bytes, number))
                .or_insert(0) += 1;
            return;
        }
        match self.saved_at.get(&bytes) {
            Some(line) if self.line - line > 500 => self.count("loaded, saved long ago"),
            Some(line) if self.line - line > 1 => self.count("loaded, saved before"),
            Some(_) => self.count("loaded, saved just before"),
            None => self.count("loaded, never saved"),
        }
        if self.file.as_ref() == Some(&bytes) {
            self.count("loaded where it is known to be the table already");
        }
        self.see_file(&bytes, "loaded");
        self.file = Some(bytes);
    }

    fn see_report(&mut self, room: &str, parts: &[&str]) {
        let Some(file) = &self.file else {
            return;
        };
        let wanted = report(file);
        let room: usize = room.parse().expect("a room");
        if room < wanted.len() {
            assert_eq!(parts, ["11", "0", "-"]);
        } else {
            let found = if parts[2] == "-" {
                Vec::new()
            } else {
                hex(parts[2])
            };
            assert_eq!((parts[0], found), ("0", wanted));
            self.count("reported as the file has it");
        }
    }

    /// What kinds of contexts stand in files.
    fn see_file(&mut self, file: &[u8], how: &str) {
        let (repeats, contexts, records) = read(file);
        self.count(format!("{how}, N {repeats}"));
        self.count(format!("{how}, K {contexts}"));
        if file.len() == 7045 {
            self.count(format!("{how}, longest"));
        }
        for record in records {
            let Some(record) = record else {
                self.count(format!("{how}, empty"));
                continue;
            };
            if record.header.is_empty() {
                self.count(format!("{how}, never filled"));
                continue;
            }
            let state = if record.status == 1 { "live" } else { "broken" };
            self.count(format!("{how}, {state}"));
            self.count(format!("{how}, {} words", (record.header.len() - 40) / 4));
            self.count(format!("{how}, marker {}", record.header[29] / 128));
            self.count(format!("{how}, checksum {:02x}", record.header[26]));
            if (record.id_delta, record.timestamp_delta) != (1, 0) {
                self.count(format!("{how}, other differences"));
            }
        }
    }
}

fn watched(seed: u64, lines: usize) -> Watch {
    let mut runner = Runner::default();
    let mut watch = Watch::default();
    for line in lines_of(Generator::new(seed), lines) {
        let answer = answer(&mut runner, &line);
        watch.see(&line, &answer);
    }
    watch
}

#[test]
fn generated_saves_reach_every_place() {
    let mut rarest: Vec<(usize, String)> = Vec::new();
    for seed in 0..6 {
        let watch = watched(seed, LINES);
        for place in watch.places.keys() {
            assert!(PLACES.contains(&place.as_str()), "{place} is not listed");
        }
        for place in PLACES {
            let count = watch.places.get(place).copied().unwrap_or(0);
            assert!(count >= 12, "{place} comes {count} times with seed {seed}");
            rarest.push((count, format!("{place} (seed {seed})")));
        }
        if seed == 0 {
            println!("places of refusal in {LINES} lines of saves, seed {seed}:");
            for place in PLACES {
                println!(
                    "{:6} {place}",
                    watch.places.get(place).copied().unwrap_or(0)
                );
            }
        }
    }
    rarest.sort();
    println!("rarest of all: {:?}", &rarest[..4]);
}

#[test]
fn generated_saves_agree_with_themselves() {
    let mut seen: BTreeMap<String, usize> = BTreeMap::new();
    for seed in 100..103 {
        for (what, count) in watched(seed, 60_000).seen {
            *seen.entry(what).or_insert(0) += count;
        }
    }
    println!("scripts of saves held {seen:?}");
    let often = |what: &str, least: usize| {
        let count = seen.get(what).copied().unwrap_or(0);
        assert!(count >= least, "{what} comes {count} times");
    };
    for what in [
        "no call",
        "shown as the file has it",
        "reported as the file has it",
        "saved as it was known",
        "saved with exact room",
        "saved with more room",
        "one byte too little",
        "no room at all",
        "loaded, never saved",
        "loaded, saved before",
        "loaded, saved just before",
        "loaded, saved long ago",
        "loaded where it is known to be the table already",
    ] {
        often(what, 200);
    }
    for how in ["saved", "loaded"] {
        for repeats in 0..=14 {
            often(&format!("{how}, N {repeats}"), 100);
        }
        for contexts in 1..=64 {
            often(&format!("{how}, K {contexts}"), 1);
        }
        for words in 0..=15 {
            often(&format!("{how}, {words} words"), 100);
        }
        for what in [
            "empty",
            "never filled",
            "live",
            "broken",
            "marker 0",
            "marker 1",
            "other differences",
        ] {
            often(&format!("{how}, {what}"), 1000);
        }
        for checksum in ["00", "ff"] {
            often(&format!("{how}, checksum {checksum}"), 1000);
        }
        often(&format!("{how}, longest"), 3);
    }
    for number in [0, 1, 2, 3, 4, 5, 6, 7, 8, 9, 10, 11, 12] {
        often(&format!("arrival {number}"), 1);
    }
}

/// Each fault of saves and loads changes what some calls of a script do: their answers or the table.
#[test]
fn generated_saves_notice_every_fault() {
    let mut runner = Runner::default();
    let faults = Mutant::ALL
        .into_iter()
        .skip_while(|fault| *fault != Mutant::SaveLosesCarried);
    let mut noticed: Vec<(Mutant, usize)> = faults.map(|fault| (fault, 0)).collect();
    assert_eq!(noticed.len(), 15);
    for line in lines_of(Generator::new(200), LINES) {
        let before = runner.decompressor.clone();
        let right = answer(&mut runner, &line);
        let (call, word) = line.split_once(' ').unwrap_or(("", ""));
        if right == "?" || !["v", "l"].contains(&call) {
            continue;
        }
        for (fault, times) in &mut noticed {
            let mut table = before.clone();
            let agrees = if call == "v" {
                let mut output = vec![FILL; word.parse().expect("a room")];
                let found = saved::save_with(*fault, &table, &mut output);
                let bytes = script_hex(&output[..found.length]);
                right == format!("{} {} {bytes}", found.number, found.length)
            } else {
                let file = if word == "-" { Vec::new() } else { hex(word) };
                let found = saved::load_with(*fault, &mut table, &file);
                right == found.number.to_string() && table == runner.decompressor
            };
            *times += usize::from(!agrees);
        }
    }
    println!("calls of {LINES} that notice a fault: {noticed:?}");
    for (fault, times) in noticed {
        assert!(times >= 10, "{fault:?} is noticed {times} times");
    }
}

fn script_hex(bytes: &[u8]) -> String {
    let mut text = String::new();
    push_hex(&mut text, bytes);
    text
}

#[test]
fn generated_saves_are_the_same_for_the_same_seed() {
    same_for_the_same_seed(Generator::new);
}

#[test]
fn generated_saves_are_not_too_long() {
    not_too_long("saves", Generator::new(9));
}

//! The text form of calls, and generated scripts: answers are well formed and agree with each other.

use crate::support::{hex, lines_of, same_for_the_same_seed, udp_checksum_wrong};
use oracle::decompressor;
use oracle::generate::Generator;
use oracle::generate_endpoint;
use oracle::script::Runner;
use std::collections::{HashMap, VecDeque};
use std::io::Write;
use std::process::{Command, Stdio};

pub fn answer(runner: &mut Runner, line: &str) -> String {
    let mut text = String::new();
    runner.answer(line, &mut text);
    text
}

/// Writes out words like `15*0`.
fn expand(text: &str) -> String {
    let words: Vec<String> = text
        .split(' ')
        .map(|word| match word.split_once('*') {
            Some((count, value)) => vec![value; count.parse().expect("a count")].join(" "),
            None => word.to_string(),
        })
        .collect();
    words.join(" ")
}

/// Calls and answers by turns; a line that is too long goes on after a backslash.
fn transcript(text: &str) {
    let mut runner = Runner::default();
    let text = text.replace("\\\n         ", "");
    for pair in text.trim().lines().collect::<Vec<_>>().chunks(2) {
        let (call, wanted) = (pair[0].trim(), expand(pair[1].trim()));
        assert_eq!(answer(&mut runner, call), wanted, "answer to {call}");
    }
}

/// A call and its answer, line by line. The packet is the starred case's flow: IP checksum of
/// 4500002a 0001 4000 4011 0a000001 0a000002: the sum is 4500+2a+1+4000+4011+0a00+1+0a00+2 = d93f,
/// its complement 26c0.
#[test]
fn worked_transcript() {
    transcript(
        "s 45 10
         1 0 0 -
         q 0101008000
         1 0
         p 10
         1 0 -
         os 15 1
         1
         os 0 2
         0
         or 0 2
         0
         s 4500002a00014000401126c00a0000010a000002138c138e001600008000000100000000000000ffda7a 42
         0 1 42 4500400000014000401126c00a0000010a000002138c138e000000008000000100000000000000ffda7a
         r 1 4500400000014000401126c00a0000010a000002138c138e000000008000000100000000000000ffda7a 50
         0 42 4500002a00014000401126c00a0000010a000002138c138e001600008000000100000000000000ffda7a
         r 3 0001da7a 41
         11 0 -
         r 3 0001da7a 42
         0 42 4500002a00024000401126bf0a0000010a000002138c138e001600008000000200000000000000ffda7a
         r 4294967295 - 0
         3 0 -
         r 3 0100 9
         8 0 -
         p 5
         0 5 0101018000
         dr 1
         0 2 2 37*0
         dr 0
         0 2 1 1 167772161 167772162 5004 5006 255 0 64 1 0 0 0 0 2 2 0 0 0 15*0 1 0 1 0
         ds 0
         0 2 1 167772161 167772162 5004 5006 255 0 64 1 0 0 1 1 1 0 0 0 15*0 1 0 0 0 0 5*0 0 0 0 1 0
         q 0101008000
         0 0
         ds 0
         0 2 1 167772161 167772162 5004 5006 255 0 64 1 0 0 1 1 1 0 0 0 15*0 1 0 0 0 0 5*0 0 0 1 1 1
         ws flags 0 200
         ok
         q 0101008000
         1 0
         ws flags 0 256
         ?
         ws status 0 2
         ?
         wr status 0 2
         ok
         p 100
         0 8 0102008100018000
         ws k 0 65
         ok",
    );
}

/// The endpoint's lines, with the packet and the answers of the transcript above.
#[test]
fn worked_endpoint_transcript() {
    transcript(
        "bt
         6*0
         bw 45 10
         1 0 0 -
         br 4 0101008000 10
         1 0 -
         br 5 - 0
         1 0 -
         bp 10
         1 0 -
         bo 0 0
         1
         wt 5 9
         ok
         bo 15 1
         1
         bt
         5*0 9
         bo 0 2
         0
         bt
         6*0
         bw 4500002a00014000401126c00a0000010a000002138c138e001600008000000100000000000000ffda7a 42
         0 1 42 4500400000014000401126c00a0000010a000002138c138e000000008000000100000000000000ffda7a
         br 1 4500400000014000401126c00a0000010a000002138c138e000000008000000100000000000000ffda7a 50
         0 42 4500002a00014000401126c00a0000010a000002138c138e001600008000000100000000000000ffda7a
         br 3 0001da7a 41
         11 0 -
         br 3 0001da7a 42
         0 42 4500002a00024000401126bf0a0000010a000002138c138e001600008000000200000000000000ffda7a
         br 4294967295 - 0
         3 0 -
         br 3 0100 9
         8 0 -
         bt
         0 1 0 0 2 3
         bp 5
         0 5 0101018000
         bp 4
         11 0 -
         br 4 0101008000 0
         0 0 -
         br 4 0101028000 4096
         6 0 -
         br 5 0101008000 7
         3 0 -
         bt
         0 1 0 0 2 6
         bw 4500002a00024000401126bf0a0000010a000002138c138e001600008000000200000000000000ffda7a 42
         0 1 42 4500410000024000401126bf0a0000010a000002138c138e000100008000000200000000000000ffda7a
         bw 4500002a00034000401126be0a0000010a000002138c138e001600008000000300000000000000ffda7a 4
         0 3 4 0002da7a
         bw - 4
         2 0 0 -
         br 0 45 1
         0 1 45
         bw 45 1
         0 0 1 45
         bt
         1 2 0 1 3 7
         wt 0 4294967294
         ok
         wt 3 4294967295
         ok
         wt 4 4294967295
         ok
         bw 45 1
         0 0 1 45
         bw 45 1
         0 0 1 45
         bw 4500002a00044000401126bd0a0000010a000002138c138e001600008000000400000000000000ffda7a 42
         0 3 4 0003da7a
         br 0 45 1
         0 1 45
         bt
         4294967295 2 0 4294967295 4294967295 7
         ds 0
         49*0
         dr 0
         40*0
         s 45 10
         1 0 0 -
         p 10
         1 0 -
         os 3 4
         0
         or 5 6
         0
         ws k 0 65
         ok
         bw 45 1
         0 0 1 45
         bt
         4294967295 2 0 4294967295 4294967295 7
         bo 14 64
         0
         bt
         6*0
         ds 63
         3 65 47*0
         dr 0
         5 6 38*0",
    );
}

/// Saves and loads, with the packet of the first transcript, whose header as files have it is that of the
/// packet with IP length, IP checksum and UDP length 0. That file counts 3 bytes, 50 of the live context and
/// 10 of the one broken before it was filled: 3f hex.
#[test]
fn worked_transcript_of_saves() {
    transcript(
        "v 0
         1 0 -
         v 16384
         1 0 -
         l -
         4
         l 0006010f03000000
         5
         dr 0
         40*0
         l 0006010203000000
         0
         dr 2
         2 3 38*0
         v 8
         0 8 0006010203000000
         v 7
         11 0 -
         v 0
         11 0 -
         or 0 2
         0
         r 1 4500400000014000401126c00a0000010a000002138c138e000000008000000100000000000000ffda7a 50
         0 42 4500002a00014000401126c00a0000010a000002138c138e001600008000000100000000000000ffda7a
         r 3 0100 9
         8 0 -
         v 65
         0 65 003f010002010000000100000000284500000000014000401100000a0000010a000002138c138e0000000080000001000000\
         00000000ff02000000000000000000
         r 3 0001da7a 42
         0 42 4500002a00024000401126bf0a0000010a000002138c138e001600008000000200000000000000ffda7a
         v 100
         0 65 003f010002010001000100000000284500000000024000401100000a0000010a000002138c138e0000000080000002000000\
         00000000ff02000000000000000000
         l 003f010002010000000100000000284500000000014000401100000a0000010a000002138c138e000000008000000100000000000000\
         ff02000000000000000000
         0
         dr 0
         0 2 1 1 167772161 167772162 5004 5006 255 0 64 1 0 0 0 0 1 1 0 0 0 15*0 1 0 0 0
         dr 1
         0 2 2 37*0
         p 5
         0 5 0101018000
         r 3 0001da7a 42
         0 42 4500002a00024000401126bf0a0000010a000002138c138e001600008000000200000000000000ffda7a
         wr flags 0 4
         ok
         v 100
         1 0 -
         v 0
         1 0 -
         l 00040100010000
         5
         l 000501000100
         4
         dr 0
         0 2 1 1 167772161 167772162 5004 5006 255 0 64 4 0 0 0 0 2 2 0 0 0 15*0 1 0 1 0
         l 000401000100
         0
         dr 0
         0 1 38*0
         dr 1
         0 1 38*0
         ds 0
         49*0
         bo 3 4
         0
         l 000401050100
         0
         v 6
         0 6 000401050100
         bp 0
         0 0 -
         bt
         6*0",
    );
}

/// Checksums over a gap, at both tables and at the endpoint. The packets are those of `udp_checksums`: for sequence 12 21d0
/// is right, for sequence 14 21ce.
#[test]
fn worked_transcript_of_checksums() {
    transcript(
        "or 1 1
         0
         r 1 45004500006440004011265d0a0000010a000002138c138e000077778000000a000003e811223344da7a 42
         0 42 4500002a006440004011265d0a0000010a000002138c138e001677778000000a000003e811223344da7a
         r 3 000221d0da7a 41
         11 0 -
         r 3 000221d0da7a 42
         0 42 4500002a006640004011265b0a0000010a000002138c138e001621d08000000c000003e811223344da7a
         r 3 000421cfda7a 0
         12 0 -
         dr 0
         1 1 2 1 167772161 167772162 5004 5006 287454020 0 64 1 0 0 1 0 102 12 1000 0 0 15*0 1 0 2 5
         r 3 000421ceda7a 42
         8 0 -
         p 5
         0 5 0101008205
         bo 1 1
         0
         br 1 45004500006440004011265d0a0000010a000002138c138e000077778000000a000003e811223344da7a 42
         0 42 4500002a006440004011265d0a0000010a000002138c138e001677778000000a000003e811223344da7a
         br 3 00020000da7a 42
         12 0 -
         bt
         4*0 1 1
         bp 5
         0 5 0101008005",
    );
}

#[test]
fn lines_that_are_no_calls() {
    let mut runner = Runner::default();
    for line in [
        "",
        " ",
        "s",
        "s 45",
        "s 4 1",
        "s 4G 1",
        "s 4A 1",
        "s 45 4097",
        "s 45 1 1",
        "s 45  1",
        "S 45 1",
        "q",
        "r 1 45",
        "r -1 45 1",
        "r 4294967296 45 1",
        "p",
        "p x",
        "os 1",
        "or 1 2 3",
        "os +1 2",
        "ds",
        "ds 64",
        "dr -1",
        "ws tos 64 1",
        "ws tos 0",
        "ws tos 0 256",
        "ws sport 0 65536",
        "ws source 0 4294967296",
        "ws earlier 0 2",
        "ws csrc15 0 1",
        "ws filled 0 1",
        "wr blank 0 1",
        "wr status 0 3",
        "ws n 1 1",
        "s 45 1 ",
        "x",
        "bo",
        "bo 1",
        "bo 1 2 3",
        "bo 1 4294967296",
        "bo -1 2",
        "bw",
        "bw 45",
        "bw 45 4097",
        "bw 4 1",
        "bw 4A 1",
        "bw 45 1 1",
        "br 45 1",
        "br 4 - 4097",
        "br 4294967296 - 1",
        "br 4 - 1 1",
        "br 4 0101008000",
        "bp",
        "bp 4097",
        "bp -",
        "bp 1 1",
        "bt ",
        "bt 0",
        "wt",
        "wt 0",
        "wt 6 1",
        "wt 4294967296 1",
        "wt 0 4294967296",
        "wt 0 -1",
        "wt plain 1",
        "wt 0 1 1",
        "b",
        "BT",
        "wb 0 1",
        "v",
        "v ",
        "v -",
        "v x",
        "v -1",
        "v 16385",
        "v 1 1",
        "V 1",
        "l",
        "l ",
        "l 0",
        "l 000",
        "l 0G",
        "l 0A",
        "l 000401000100 ",
        "l 000401000100 0",
        "l 0004 01000100",
        "l  000401000100",
        "L 000401000100",
        "v 4294967296",
    ] {
        assert_eq!(answer(&mut runner, line), "?", "line {line:?}");
    }
    // None of them changed anything.
    let zeros = vec!["0"; 49].join(" ");
    assert_eq!(answer(&mut runner, "ds 0"), zeros);
    let zeros = vec!["0"; 40].join(" ");
    assert_eq!(answer(&mut runner, "dr 0"), zeros);
    assert_eq!(answer(&mut runner, "bt"), "0 0 0 0 0 0");
}

/// Files and their rooms may be longer than packets and theirs.
#[test]
fn longest_words() {
    let bytes = |count: usize| "00".repeat(count);
    let mut runner = Runner::default();
    assert_eq!(answer(&mut runner, "or 1 1"), "0");
    assert_eq!(answer(&mut runner, "v 16384"), "0 6 000401010100");
    assert_eq!(answer(&mut runner, "v 16385"), "?");
    assert_eq!(answer(&mut runner, &format!("l {}", bytes(16384))), "5");
    assert_eq!(answer(&mut runner, &format!("l {}", bytes(16385))), "?");
    for (line, known) in [
        ("p 4096".to_string(), true),
        ("p 4097".to_string(), false),
        (format!("q {}", bytes(4096)), true),
        (format!("q {}", bytes(4097)), false),
        (format!("r 0 {} 1", bytes(4096)), true),
        (format!("r 0 {} 1", bytes(4097)), false),
        ("r 0 - 4097".to_string(), false),
        (format!("s {} 1", bytes(4096)), true),
        (format!("s {} 1", bytes(4097)), false),
    ] {
        assert_eq!(answer(&mut runner, &line) != "?", known);
    }
}

/// Each total can be written and shows up in its own place, and only there.
#[test]
fn totals_by_place() {
    for place in 0..6 {
        for value in ["1", "4294967295"] {
            let mut runner = Runner::default();
            assert_eq!(answer(&mut runner, &format!("wt {place} {value}")), "ok");
            let mut wanted = ["0"; 6];
            wanted[place] = value;
            assert_eq!(answer(&mut runner, "bt"), wanted.join(" "));
        }
    }
}

/// Every field can be written and shows up in its own place, and only there.
#[test]
fn fields_by_name() {
    for (end, names) in [
        ("s", &oracle::script::COMPRESSOR_FIELDS[..]),
        ("r", &oracle::script::DECOMPRESSOR_FIELDS[..]),
    ] {
        for (place, name) in names.iter().enumerate() {
            let mut runner = Runner::default();
            assert_eq!(answer(&mut runner, &format!("w{end} {name} 63 1")), "ok");
            let shown = answer(&mut runner, &format!("d{end} 63"));
            let mut wanted = vec!["0"; names.len() + 2];
            wanted[place + 2] = "1";
            assert_eq!(shown, wanted.join(" "), "{name}");
        }
    }
}

/// What must hold between the lines of one script, whoever wrote it.
#[derive(Default)]
struct Watch {
    /// N, while both ends run from openings with the same settings and nothing else touched them.
    repeats: Option<usize>,
    opened: [Option<(String, String)>; 2],
    fresh: [bool; 2],
    in_flight: VecDeque<(String, String, String)>,
    lost_in_a_row: HashMap<u8, usize>,
    rebuilt: usize,
    /// Watched arrivals with a checksum: without and after a loss, by right and wrong.
    by_checksum: [[usize; 2]; 2],
    numbers: HashMap<String, usize>,
}

impl Watch {
    fn see(&mut self, line: &str, answer: &str) {
        let words: Vec<&str> = line.split(' ').collect();
        let parts: Vec<&str> = answer.split(' ').collect();
        assert!(!answer.contains("touched"), "{line}: {answer}");
        if answer == "?" {
            return;
        }
        let call = words[0];
        if matches!(call, "os" | "or" | "s" | "q" | "r" | "p") {
            let number: u8 = parts[0].parse().expect("a number");
            let allowed: &[u8] = match call {
                "os" | "or" => &[0, 1],
                "s" => &[0, 1, 2, 11],
                "q" => &[0, 1, 4, 5, 6],
                "p" => &[0, 1, 11],
                _ => &[0, 1, 2, 3, 4, 5, 6, 7, 8, 9, 10, 11, 12],
            };
            assert!(allowed.contains(&number), "{line}: {answer}");
            *self.numbers.entry(format!("{call} {number}")).or_insert(0) += 1;
            if number != 0 && call != "os" && call != "or" {
                assert!(
                    parts[1..].iter().all(|part| *part == "0" || *part == "-"),
                    "{line}: {answer}"
                );
            }
        }
        match call {
            "os" | "or" if answer == "0" => self.see_opening(call == "or", words[1], words[2]),
            "ws" | "wr" => self.repeats = None,
            "s" if parts[0] == "0" => self.see_send(words[1], words[2], &parts),
            "r" => self.see_arrival(&words, &parts),
            _ => {}
        }
    }

    fn see_opening(&mut self, decompressor: bool, repeats: &str, contexts: &str) {
        let end = usize::from(decompressor);
        self.opened[end] = Some((repeats.to_string(), contexts.to_string()));
        self.fresh[end] = true;
        self.repeats = None;
        if self.fresh == [true, true] && self.opened[0] == self.opened[1] {
            self.repeats = repeats.parse().ok();
            self.in_flight.clear();
            self.lost_in_a_row.clear();
        }
    }

    fn see_send(&mut self, packet: &str, room: &str, parts: &[&str]) {
        self.fresh[0] = false;
        let length: usize = parts[2].parse().expect("a length");
        assert!(length <= room.parse().expect("a room"));
        assert!(length <= packet.len() / 2, "a link packet is never longer");
        assert_eq!(parts[3].len(), 2 * length);
        if parts[1] == "0" {
            assert_eq!(parts[3], packet, "plain is unchanged");
        }
        let sent = (
            parts[1].to_string(),
            parts[3].to_string(),
            packet.to_string(),
        );
        self.in_flight.push_back(sent);
    }

    /// An arrival of something sent, in order, must rebuild it; anything else ends the watch unless it
    /// was refused without a trace.
    fn see_arrival(&mut self, words: &[&str], parts: &[&str]) {
        self.fresh[1] = false;
        let Some(repeats) = self.repeats else {
            return;
        };
        let sent = self
            .in_flight
            .iter()
            .position(|(link_type, bytes, _)| link_type == words[1] && bytes == words[2]);
        let Some(before) = sent else {
            if !["1", "2", "3", "4", "5", "6", "7", "10", "11"].contains(&parts[0])
                && words[1] != "0"
            {
                self.repeats = None;
            }
            return;
        };
        let skipped: Vec<_> = self.in_flight.drain(..before).collect();
        for (link_type, bytes, _) in &skipped {
            self.count_loss(link_type, bytes, repeats);
        }
        let (link_type, bytes, packet) = self.in_flight.pop_front().expect("found above");
        let room: usize = words[3].parse().expect("a room");
        if let Some(place) = place(&link_type, &bytes) {
            self.see_checksum(place, &hex(&packet));
        }
        if 2 * room < packet.len() {
            self.count_loss(&link_type, &bytes, repeats);
        } else if let Some(place) = place(&link_type, &bytes) {
            self.lost_in_a_row.insert(place, 0);
        }
        if self.repeats.is_none() {
            return;
        }
        if 2 * room < packet.len() {
            assert_eq!(parts, ["11", "0", "-"]);
        } else {
            let length = (packet.len() / 2).to_string();
            assert_eq!(parts, ["0", &length, &packet], "arrival {words:?}");
            self.rebuilt += 1;
        }
    }

    /// After a loss only a right checksum or none may come, with room or without.
    fn see_checksum(&mut self, place: u8, packet: &[u8]) {
        let guessed = self.lost_in_a_row.get(&place).is_some_and(|&lost| lost > 0);
        if guessed && udp_checksum_wrong(packet) {
            self.repeats = None;
        } else if self.repeats.is_some() && packet[26..28] != [0, 0] {
            self.by_checksum[usize::from(guessed)][usize::from(udp_checksum_wrong(packet))] += 1;
        }
    }

    fn count_loss(&mut self, link_type: &str, bytes: &str, repeats: usize) {
        if let Some(place) = place(link_type, bytes) {
            let lost = self.lost_in_a_row.entry(place).or_insert(0);
            *lost += 1;
            if *lost > repeats {
                self.repeats = None;
            }
        }
    }
}

fn place(link_type: &str, bytes: &str) -> Option<u8> {
    let at = match link_type {
        "0" => return None,
        "1" => 6,
        _ => 0,
    };
    u8::from_str_radix(&bytes[at..at + 2], 16).ok()
}

#[test]
fn generated_scripts_agree_with_themselves() {
    let (mut rebuilt, mut near_right, mut near_wrong, mut guessed) = (0, 0, 0, 0);
    let mut calls = 0;
    let mut numbers: HashMap<String, usize> = HashMap::new();
    for seed in 0..12 {
        let mut runner = Runner::default();
        let mut watch = Watch::default();
        for line in lines_of(Generator::new(seed, false), 25_000) {
            let answer = answer(&mut runner, &line);
            watch.see(&line, &answer);
            calls += 1;
        }
        rebuilt += watch.rebuilt;
        near_right += watch.by_checksum[0][0];
        near_wrong += watch.by_checksum[0][1];
        guessed += watch.by_checksum[1][0];
        for (number, count) in watch.numbers {
            *numbers.entry(number).or_insert(0) += count;
        }
    }
    println!(
        "generated calls: {calls}, rebuilt under watch: {rebuilt}; with a checksum and no loss before {near_right} right, \
         {near_wrong} wrong, after a loss {guessed} right"
    );
    assert!(rebuilt > 20_000, "only {rebuilt} arrivals were watched");
    assert!(near_right > 5_000 && near_wrong > 300 && guessed > 1_000);
    // Every number of every call must come up.
    for (call, wanted) in [
        ("os", &[0, 1][..]),
        ("or", &[0, 1]),
        ("s", &[0, 1, 2, 11]),
        ("q", &[0, 1, 4, 5, 6]),
        ("p", &[0, 1, 11]),
        ("r", &[0, 1, 2, 3, 4, 5, 6, 7, 8, 9, 10, 11, 12]),
    ] {
        for number in wanted {
            let name = format!("{call} {number}");
            assert!(
                numbers.get(&name).is_some_and(|&count| count >= 10),
                "{name} is rare"
            );
        }
    }
}

/// What must hold between the lines of one endpoint's script: totals are counted here from the answers
/// alone, and whatever is sent is rebuilt at once.
struct EndpointWatch {
    totals: [u64; 6],
    /// What the last `bt` showed, unless totals were written or opened since.
    shown: Option<[u64; 6]>,
    /// Calls since that `bt`, and what the last of them was if it must move no total.
    calls: usize,
    quiet: Option<&'static str>,
    /// Totals that were to move beyond the greatest number since.
    beyond: [bool; 6],
    receiver: decompressor::Table,
    rebuilt: usize,
    moved: [usize; 6],
    stopped: [usize; 6],
    unmoved: HashMap<&'static str, usize>,
    numbers: HashMap<String, usize>,
}

const LAST: u64 = u32::MAX as u64;

impl EndpointWatch {
    fn new() -> Self {
        EndpointWatch {
            totals: [0; 6],
            shown: None,
            calls: 0,
            quiet: None,
            beyond: [false; 6],
            receiver: decompressor::Table::unopened(),
            rebuilt: 0,
            moved: [0; 6],
            stopped: [0; 6],
            unmoved: HashMap::new(),
            numbers: HashMap::new(),
        }
    }

    fn see(&mut self, line: &str, answer: &str) {
        let words: Vec<&str> = line.split(' ').collect();
        let parts: Vec<&str> = answer.split(' ').collect();
        assert!(!answer.contains("touched"), "{line}: {answer}");
        if answer == "?" {
            return;
        }
        match words[0] {
            "bt" => return self.see_totals(&parts),
            "wt" => {
                assert_eq!(answer, "ok");
                let place: usize = words[1].parse().expect("a place");
                self.totals[place] = words[2].parse().expect("a value");
                return self.forget();
            }
            _ => {}
        }
        let number: u8 = parts[0].parse().expect("a number");
        let call = match (words[0], words.get(1)) {
            ("br", Some(&"4")) => "request",
            ("br", _) => "arrival",
            (call, _) => call,
        };
        let allowed: &[u8] = match call {
            "bo" => &[0, 1],
            "bw" => &[0, 1, 2, 11],
            "request" => &[0, 1, 4, 5, 6],
            "arrival" => &[0, 1, 2, 3, 4, 5, 6, 7, 8, 9, 10, 11, 12],
            "bp" => &[0, 1, 11],
            _ => panic!("{line} is no call of an endpoint"),
        };
        assert!(allowed.contains(&number), "{line}: {answer}");
        *self.numbers.entry(format!("{call} {number}")).or_insert(0) += 1;
        if call != "bo" && (number != 0 || call == "request") {
            let nothing = parts[1..].iter().all(|part| *part == "0" || *part == "-");
            assert!(nothing, "{line}: {answer}");
        }
        self.calls += 1;
        self.quiet = None;
        match (call, number) {
            ("bo", 0) => self.see_opening(words[1], words[2]),
            ("bo", _) => self.quiet = Some("refused opening"),
            (_, 1) => self.quiet = Some("refused 1"),
            ("bw", 0) => self.see_send(words[1], &parts),
            ("arrival", 0) => self.count(4),
            ("request", 0) => self.quiet = Some("accepted request"),
            ("bp", 0) => self.quiet = Some("accepted report"),
            _ => self.count(5),
        }
    }

    fn count(&mut self, place: usize) {
        if self.totals[place] == LAST {
            self.beyond[place] = true;
        } else {
            self.totals[place] += 1;
        }
    }

    fn forget(&mut self) {
        self.shown = None;
        self.beyond = [false; 6];
    }

    fn see_opening(&mut self, repeats: &str, contexts: &str) {
        self.totals = [0; 6];
        self.forget();
        let settings = [repeats, contexts].map(|word| word.parse().expect("a number"));
        decompressor::open(&mut self.receiver, settings[0], settings[1]);
    }

    fn see_send(&mut self, packet: &str, parts: &[&str]) {
        let link_type: u32 = parts[1].parse().expect("a type");
        self.count(link_type as usize);
        let mut output = [0; 1500];
        let bytes = hex(parts[3]);
        let found = decompressor::receive(&mut self.receiver, link_type, &bytes, &mut output);
        assert_eq!(
            (found.number, &output[..found.length]),
            (0, &hex(packet)[..])
        );
        self.rebuilt += 1;
    }

    fn see_totals(&mut self, parts: &[&str]) {
        let found: Vec<u64> = parts
            .iter()
            .map(|part| part.parse().expect("a total"))
            .collect();
        assert_eq!(found, self.totals);
        if let Some(shown) = self.shown {
            for place in 0..6 {
                self.moved[place] += usize::from(found[place] > shown[place]);
            }
            if let (1, Some(what)) = (self.calls, self.quiet) {
                assert_eq!(found, shown, "{what} moved a total");
                *self.unmoved.entry(what).or_insert(0) += 1;
            }
        }
        for place in 0..6 {
            self.stopped[place] += usize::from(self.beyond[place]);
        }
        self.shown = Some(self.totals);
        self.beyond = [false; 6];
        self.calls = 0;
    }
}

#[test]
fn generated_endpoint_scripts_agree_with_themselves() {
    let mut numbers: HashMap<String, usize> = HashMap::new();
    let mut unmoved: HashMap<&str, usize> = HashMap::new();
    let (mut moved, mut stopped) = ([0; 6], [0; 6]);
    let (mut lines, mut shows, mut rebuilt) = (0, 0, 0);
    for seed in 0..12 {
        let mut runner = Runner::default();
        let mut watch = EndpointWatch::new();
        for line in lines_of(generate_endpoint::Generator::new(seed), 15_000) {
            let answer = answer(&mut runner, &line);
            watch.see(&line, &answer);
            lines += 1;
            shows += usize::from(line == "bt");
        }
        rebuilt += watch.rebuilt;
        for place in 0..6 {
            moved[place] += watch.moved[place];
            stopped[place] += watch.stopped[place];
        }
        for (what, count) in watch.unmoved {
            *unmoved.entry(what).or_insert(0) += count;
        }
        for (number, count) in watch.numbers {
            *numbers.entry(number).or_insert(0) += count;
        }
    }
    println!(
        "endpoint's lines: {lines}, {shows} of them bt, sent and rebuilt {rebuilt}, totals moved {moved:?}, \
         stopped {stopped:?}, not moved by {unmoved:?}"
    );
    assert!(
        shows * 8 > lines && shows * 5 < lines,
        "{shows} bt in {lines} lines"
    );
    assert!(moved.iter().all(|&count| count >= 100));
    assert!(stopped.iter().all(|&count| count >= 20));
    for what in [
        "refused 1",
        "refused opening",
        "accepted request",
        "accepted report",
    ] {
        assert!(
            unmoved.get(what).is_some_and(|&count| count >= 10),
            "{what} is rare"
        );
    }
    // Every number of every call must come up.
    for (call, wanted) in [
        ("bo", &[0, 1][..]),
        ("bw", &[0, 1, 2, 11]),
        ("request", &[0, 1, 4, 5, 6]),
        ("bp", &[0, 1, 11]),
        ("arrival", &[0, 1, 2, 3, 4, 5, 6, 7, 8, 9, 10, 11, 12]),
    ] {
        for number in wanted {
            let name = format!("{call} {number}");
            assert!(
                numbers.get(&name).is_some_and(|&count| count >= 10),
                "{name} is rare"
            );
        }
    }
}

#[test]
fn generated_endpoint_scripts_are_the_same_for_the_same_seed() {
    same_for_the_same_seed(generate_endpoint::Generator::new);
    // Only the endpoint's calls; lines that are no calls stand among them.
    let mut runner = Runner::default();
    for line in lines_of(generate_endpoint::Generator::new(5), 3000) {
        let call = line.split(' ').next().unwrap_or("");
        let known = matches!(call, "bo" | "bw" | "br" | "bp" | "bt" | "wt");
        assert!(answer(&mut runner, &line) == "?" || known, "{line}");
    }
}

#[test]
fn generated_scripts_are_the_same_for_the_same_seed() {
    same_for_the_same_seed(|seed| Generator::new(seed, false));
    // Only the sender's calls when asked; lines that are no calls stand among them.
    let mut runner = Runner::default();
    for line in lines_of(Generator::new(5, true), 3000) {
        let call = line.split(' ').next().unwrap_or("");
        let known = matches!(call, "os" | "s" | "q" | "ws" | "ds");
        assert!(known || answer(&mut runner, &line) == "?", "{line}");
    }
}

#[test]
fn binaries_work_together() {
    for arguments in [
        &["3", "2000"][..],
        &["3", "2000", "sender"],
        &["3", "2000", "box"],
        &["3", "2000", "saves"],
        &["3", "2000", "checksums"],
    ] {
        binaries_agree(arguments);
    }
    let other = Command::new(env!("CARGO_BIN_EXE_gen"))
        .args(["3", "2000", "both"])
        .output()
        .expect("gen runs");
    assert_eq!((other.status.code(), other.stdout), (Some(2), Vec::new()));
}

fn binaries_agree(arguments: &[&str]) {
    let script = Command::new(env!("CARGO_BIN_EXE_gen"))
        .args(arguments)
        .output()
        .expect("gen runs");
    assert!(script.status.success());
    let mut run = Command::new(env!("CARGO_BIN_EXE_run"))
        .stdin(Stdio::piped())
        .stdout(Stdio::piped())
        .spawn()
        .expect("run starts");
    let mut input = run.stdin.take().expect("a pipe");
    let bytes = script.stdout.clone();
    let writer = std::thread::spawn(move || input.write_all(&bytes));
    let answers = run.wait_with_output().expect("run ends");
    writer.join().expect("no panic").expect("all written");
    let script = String::from_utf8(script.stdout).expect("text");
    let answers = String::from_utf8(answers.stdout).expect("text");
    assert_eq!(script.lines().count(), 2000);
    let mut runner = Runner::default();
    let wanted: Vec<String> = script
        .lines()
        .map(|line| answer(&mut runner, line))
        .collect();
    let found: Vec<&str> = answers.lines().collect();
    assert_eq!(found, wanted);
}

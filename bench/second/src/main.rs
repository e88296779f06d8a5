//! Benchmark of the second program (`../../oracle`), to lay beside that of the main program.
//!
//!     second               one round of each configuration: what was sent, and if it came back
//!     second time          nine rounds of each: the same, and picoseconds per packet
//!     second sums          one round of ones' complement sums of each size: the last result
//!     second sums time     nine rounds of each: the same, and picoseconds per sum
//!     second judged        one round of arrivals over a gap of each size, without a UDP checksum
//!                          and with one, which is judged: how many were accepted, the last's sum
//!     second judged time   nine rounds of each: the same, and picoseconds per arrival
//!
//! Why it is written this way:
//! - The counts and the byte sum of a line show that two programs did the same work; without that
//!   their times could not be compared.
//! - One clock read covers 64 calls, so that reading it hardly counts.
//! - Making and comparing packets is not timed.
//! - The smallest of nine sums counts: other work on the machine only ever adds time.
//! - The copy is a yardstick for the machine: a packet moved and nothing done to it.

mod figures;
mod judged;
mod packets;
mod round;
mod sums;

use figures::Configuration;
use std::process::ExitCode;

const CONFIGURATIONS: [Configuration; 3] = [
    Configuration { streams: 64, k: 64 },
    Configuration { streams: 1, k: 64 },
    Configuration { streams: 1, k: 1 },
];

/// What the first argument asks for.
enum Work {
    Rounds,
    Sums,
    Judged,
}

fn main() -> ExitCode {
    let arguments: Vec<_> = std::env::args_os().skip(1).collect();
    let (work, rest) = match arguments.as_slice() {
        [word, rest @ ..] if word == "sums" => (Work::Sums, rest),
        [word, rest @ ..] if word == "judged" => (Work::Judged, rest),
        all => (Work::Rounds, all),
    };
    let timed = match rest {
        [] => false,
        [word] if word == "time" => true,
        _ => {
            eprintln!(
                "second: the only arguments are `sums` or `judged` or neither, then `time` or not"
            );
            return ExitCode::from(2);
        }
    };
    match work {
        Work::Rounds => {
            for configuration in &CONFIGURATIONS {
                println!("{}", figures::line(configuration, timed));
            }
        }
        Work::Sums => {
            for size in &sums::SIZES {
                println!("{}", sums::line(size, timed));
            }
        }
        Work::Judged => {
            for case in &judged::CASES {
                println!("{}", judged::line(case, timed));
            }
        }
    }
    ExitCode::SUCCESS
}

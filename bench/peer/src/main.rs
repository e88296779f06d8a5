//! Benchmark of the peer, on the packets and in the rounds of the second program (`../../second`).
//!
//!     peer         one round of each configuration: what was sent, and if it came back
//!     peer time    nine rounds of each: the same, and picoseconds per packet
//!
//! The modules are those of the second program, which call `oracle`; here that name is the peer's. So packets, rounds and
//! lines cannot but be the same.

extern crate peer as oracle;

#[path = "../../second/src/figures.rs"]
mod figures;
#[path = "../../second/src/packets.rs"]
mod packets;
#[path = "../../second/src/round.rs"]
mod round;

use figures::Configuration;
use std::process::ExitCode;

const CONFIGURATIONS: [Configuration; 3] = [
    Configuration { streams: 64, k: 64 },
    Configuration { streams: 1, k: 64 },
    Configuration { streams: 1, k: 1 },
];

fn main() -> ExitCode {
    let arguments: Vec<_> = std::env::args_os().skip(1).collect();
    let timed = match arguments.as_slice() {
        [] => false,
        [word] if word == "time" => true,
        _ => {
            eprintln!("peer: the only argument is `time`");
            return ExitCode::from(2);
        }
    };
    for configuration in &CONFIGURATIONS {
        println!("{}", figures::line(configuration, timed));
    }
    ExitCode::SUCCESS
}

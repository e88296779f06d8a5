//! `gen SEED COUNT [sender|box|saves|checksums]`: writes COUNT random calls, the same for the same seed.

use oracle::planned::Planner;
use oracle::{generate, generate_checksums, generate_endpoint, generate_saves};
use std::io::{self, BufWriter, Write};
use std::process::ExitCode;

fn main() -> ExitCode {
    let words: Vec<String> = std::env::args().skip(1).collect();
    let Some((seed, count, calls)) = read_arguments(&words) else {
        eprintln!("usage: gen SEED COUNT [sender|box|saves|checksums]");
        return ExitCode::from(2);
    };
    match write_script(seed, count, calls) {
        Ok(()) => ExitCode::SUCCESS,
        // A reader that has seen enough closes the pipe.
        Err(error) if error.kind() == io::ErrorKind::BrokenPipe => ExitCode::SUCCESS,
        Err(error) => {
            eprintln!("gen: {error}");
            ExitCode::FAILURE
        }
    }
}

/// Which calls a script holds.
#[derive(Clone, Copy)]
enum Calls {
    BothTables,
    Compressor,
    Endpoint,
    Saves,
    Checksums,
}

fn read_arguments(words: &[String]) -> Option<(u64, usize, Calls)> {
    let (numbers, calls) = match words {
        [numbers @ .., last] if last == "sender" => (numbers, Calls::Compressor),
        [numbers @ .., last] if last == "box" => (numbers, Calls::Endpoint),
        [numbers @ .., last] if last == "saves" => (numbers, Calls::Saves),
        [numbers @ .., last] if last == "checksums" => (numbers, Calls::Checksums),
        _ => (words, Calls::BothTables),
    };
    match numbers {
        [seed, count] => Some((seed.parse().ok()?, count.parse().ok()?, calls)),
        _ => None,
    }
}

fn write_script(seed: u64, count: usize, calls: Calls) -> io::Result<()> {
    match calls {
        Calls::BothTables => write_lines(count, generate::Generator::new(seed, false)),
        Calls::Compressor => write_lines(count, generate::Generator::new(seed, true)),
        Calls::Endpoint => write_lines(count, generate_endpoint::Generator::new(seed)),
        Calls::Saves => write_lines(count, generate_saves::Generator::new(seed)),
        Calls::Checksums => write_lines(count, generate_checksums::Generator::new(seed)),
    }
}

fn write_lines(count: usize, mut generator: impl Planner) -> io::Result<()> {
    let mut output = BufWriter::with_capacity(1 << 16, io::stdout().lock());
    for _ in 0..count {
        output.write_all(generator.next_line().as_bytes())?;
        output.write_all(b"\n")?;
    }
    output.flush()
}

//! Reads a call script from standard input and writes one answer line per call.

use oracle::script::Runner;
use std::io::{self, BufRead, BufReader, BufWriter, Write};

fn main() -> io::Result<()> {
    let mut input = BufReader::with_capacity(1 << 16, io::stdin().lock());
    let mut output = BufWriter::with_capacity(1 << 16, io::stdout().lock());
    let mut runner = Runner::default();
    let mut line = Vec::new();
    let mut answer = String::new();
    loop {
        line.clear();
        if input.read_until(b'\n', &mut line)? == 0 {
            break;
        }
        if line.last() == Some(&b'\n') {
            line.pop();
        }
        answer.clear();
        // A line that is no text is no call either.
        runner.answer(std::str::from_utf8(&line).unwrap_or(""), &mut answer);
        answer.push('\n');
        output.write_all(answer.as_bytes())?;
    }
    output.flush()
}

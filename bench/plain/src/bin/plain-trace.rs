//! Reads a list of calls from standard input and writes one answer line for each.

use std::fmt::Write as _;
use std::io::{self, Read, Write};

use plain::trace::Trace;

/// Answers every line of the input, with a block written at a time.
fn main() -> io::Result<()> {
    let mut input = Vec::new();
    io::stdin().lock().read_to_end(&mut input)?;
    let mut trace = Trace::new();
    let mut answers = String::new();
    let lines = input.strip_suffix(b"\n").unwrap_or(&input).split(|byte| *byte == b'\n');
    for (index, line) in lines.enumerate() {
        if line.is_empty() || line[0] == b'#' {
            continue;
        }
        match trace.answer(line) {
            Some(Ok(answer)) => writeln!(answers, "{answer}"),
            Some(Err(refusal)) => writeln!(answers, "refused {refusal}"),
            None => writeln!(answers, "what {}", index + 1),
        }
        .expect("a string takes what is written");
    }
    io::stdout().lock().write_all(answers.as_bytes())
}

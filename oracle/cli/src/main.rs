//! Answers the cases on standard input, one line each.

use std::io::{self, BufWriter, Write};
use std::panic;
use std::process::ExitCode;

fn main() -> ExitCode {
    panic::set_hook(Box::new(|_| ()));
    match answer_all() {
        Ok(()) => ExitCode::SUCCESS,
        Err(message) => {
            eprintln!("oracle: {message}");
            ExitCode::from(2)
        }
    }
}

fn answer_all() -> Result<(), String> {
    let mut output = BufWriter::new(io::stdout().lock());
    for (number, line) in (1..).zip(io::stdin().lines()) {
        let line = line.map_err(|error| error.to_string())?;
        let answer = oracle::answer(&line).map_err(|error| format!("line {number}: {error}"))?;
        writeln!(output, "{answer}").map_err(|error| error.to_string())?;
    }
    output.flush().map_err(|error| error.to_string())
}

// The job of cues in plain Rust: reads a run sheet from standard input and prints its lines.
// It is written as one would without proofs, and serves as the measure in bench/run.
mod base64;
mod player;
mod records;
mod run;
mod segment;
mod sheet;

use std::io::{self, BufWriter, Read, Write};
use std::process::ExitCode;

fn play_out() -> io::Result<()> {
    let mut media = Vec::new();
    io::stdin().lock().take(65_537).read_to_end(&mut media)?;
    let mut out = BufWriter::new(io::stdout().lock());
    run::run(&media, &mut out)?;
    out.flush()
}

fn main() -> ExitCode {
    match play_out() {
        Ok(()) => ExitCode::SUCCESS,
        Err(error) => {
            eprintln!("error: {error}");
            ExitCode::FAILURE
        }
    }
}

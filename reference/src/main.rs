//! Plays the script of a file, or of standard input, and prints its answers.

use std::env;
use std::fs::File;
use std::io::{self, BufWriter, Read, Write};
use std::process::ExitCode;

use reference::session;
use reference::text::INPUT_LIMIT;

/// Reads an input up to one byte beyond the limit, which suffices to see that it is too long.
fn read_input(source: impl Read) -> io::Result<Vec<u8>> {
    let mut input = Vec::with_capacity(INPUT_LIMIT + 1);
    source
        .take(INPUT_LIMIT as u64 + 1)
        .read_to_end(&mut input)?;
    Ok(input)
}

fn run() -> io::Result<()> {
    let input = match env::args_os().nth(1) {
        Some(path) => read_input(File::open(path)?)?,
        None => read_input(io::stdin().lock())?,
    };
    let mut out = BufWriter::new(io::stdout().lock());
    session::play(&input, &mut out)?;
    out.flush()
}

fn main() -> ExitCode {
    match run() {
        Ok(()) => ExitCode::SUCCESS,
        Err(error) => {
            eprintln!("reference: {error}");
            ExitCode::FAILURE
        }
    }
}

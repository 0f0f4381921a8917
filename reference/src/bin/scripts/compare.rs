//! Plays random scripts on the reference and on another program, and compares the answers.

use std::fs::{self, File};
use std::io::{self, Write};
use std::path::{Path, PathBuf};
use std::process::{Command, Output, Stdio};

use reference::session;

/// How a program gets a script.
#[derive(Clone, Copy)]
pub enum Passing {
    StandardInput,
    /// The path of its file is the program's argument.
    File,
}

pub struct Comparison {
    pub program: PathBuf,
    pub passing: Passing,
    /// Where the script in play and the files of a difference are kept.
    pub directory: PathBuf,
}

fn in_context(error: io::Error, path: &Path) -> io::Error {
    io::Error::new(error.kind(), format!("{}: {error}", path.display()))
}

impl Comparison {
    fn run_program(&self, script: &Path) -> io::Result<Output> {
        let mut command = Command::new(&self.program);
        match self.passing {
            Passing::StandardInput => command.stdin(File::open(script)?),
            Passing::File => command.arg(script).stdin(Stdio::null()),
        };
        let output = command.output();
        output.map_err(|error| in_context(error, &self.program))
    }

    /// Whether both print the same for a script, and the program ends with status 0; if not, the files are kept.
    pub fn agrees(&self, seed: u64, script: &[u8]) -> io::Result<bool> {
        let path = self.directory.join("current.script");
        fs::write(&path, script)?;
        let mut expected = Vec::new();
        session::play(script, &mut expected)?;
        let output = self.run_program(&path)?;
        if output.stdout == expected && output.status.success() {
            return Ok(true);
        }
        let kept = |ending: &str| self.directory.join(format!("{seed}.{ending}"));
        fs::rename(&path, kept("script"))?;
        fs::write(kept("reference"), &expected)?;
        fs::write(kept("bench"), &output.stdout)?;
        println!("seed {seed} differs ({})", output.status);
        print_difference(script, &expected, &output.stdout);
        println!("kept: {}, .reference, .bench", kept("script").display());
        io::stderr().write_all(&output.stderr)?;
        Ok(false)
    }
}

/// Prints the first line that differs.
fn print_difference(script: &[u8], expected: &[u8], found: &[u8]) {
    let lines = |bytes: &[u8]| -> Vec<Vec<u8>> {
        let parts = bytes.split_inclusive(|&byte| byte == b'\n');
        parts.map(<[u8]>::to_vec).collect()
    };
    let (script, expected, found) = (lines(script), lines(expected), lines(found));
    let most = expected.len().max(found.len());
    let Some(place) = (0..most).find(|&place| expected.get(place) != found.get(place)) else {
        return println!("the answers are the same");
    };
    let show = |name: &str, lines: &[Vec<u8>]| {
        let line = lines.get(place).map_or(&b""[..], |line| line.as_slice());
        println!("  {name:<10} {}", line.escape_ascii());
    };
    println!("line {}:", place + 1);
    show("script", &script);
    show("reference", &expected);
    show("bench", &found);
}

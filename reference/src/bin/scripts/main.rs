//! Makes random scripts, counts what they cover, and compares another program with the reference.

mod compare;
mod compose;
mod coverage;
mod damage;
mod headers;
mod large;
mod random;

use std::env;
use std::error::Error;
use std::fs;
use std::io::{self, Write};
use std::path::PathBuf;
use std::process::ExitCode;

use compare::{Comparison, Passing};
use compose::Flavour;
use coverage::Coverage;
use random::Random;

const USAGE: &str = "usage:
  scripts make SEED [FLAVOUR]               print one random script
  scripts flavours                          list the flavours
  scripts stats N [SEED]                    count what N scripts cover
  scripts cover FILE...                     count what these scripts cover
  scripts compare [--file] N SEED PROGRAM DIRECTORY [FLAVOUR...]
                                            compare a program with the reference; it gets
                                            each script on standard input, or its file
  scripts large NAME                        print a large script for measuring
  scripts large                             list the large scripts";

/// The script of a seed: of the given flavour, or of the seed's own.
fn script_of(seed: u64, flavour: Option<Flavour>) -> Vec<u8> {
    let mut random = Random::new(seed);
    let own = Flavour::random(&mut random);
    compose::script(flavour.unwrap_or(own), &mut random)
}

fn flavour_named(name: &str) -> Result<Flavour, &'static str> {
    Flavour::of_name(name).ok_or("no such flavour")
}

fn make(seed: &str, flavour: Option<&str>) -> Result<bool, Box<dyn Error>> {
    let flavour = flavour.map(flavour_named).transpose()?;
    io::stdout().write_all(&script_of(seed.parse()?, flavour))?;
    Ok(true)
}

fn stats(count: &str, seed: &str) -> Result<bool, Box<dyn Error>> {
    let (count, seed): (u64, u64) = (count.parse()?, seed.parse()?);
    let mut coverage = Coverage::default();
    for seed in seed..seed + count {
        coverage.add(&script_of(seed, None));
    }
    Ok(coverage.print())
}

fn cover(paths: &[&str]) -> Result<bool, Box<dyn Error>> {
    let mut coverage = Coverage::default();
    for path in paths {
        coverage.add(&fs::read(path)?);
    }
    Ok(coverage.print())
}

/// Compares scripts of the flavours in turn, or each of its seed's own where there is none.
fn compare(
    passing: Passing,
    arguments: [&str; 4],
    flavours: &[&str],
) -> Result<bool, Box<dyn Error>> {
    let [count, seed, program, directory] = arguments;
    let (count, seed): (u64, u64) = (count.parse()?, seed.parse()?);
    let flavours: Vec<_> = flavours
        .iter()
        .map(|name| flavour_named(name))
        .collect::<Result<_, _>>()?;
    let mut in_turn = flavours.iter().copied().cycle();
    let comparison = Comparison {
        program: PathBuf::from(program),
        passing,
        directory: PathBuf::from(directory),
    };
    fs::create_dir_all(&comparison.directory)?;
    let mut lines = 0;
    for (agreed, seed) in (seed..seed + count).enumerate() {
        let script = script_of(seed, in_turn.next());
        if !comparison.agrees(seed, &script)? {
            println!("{agreed} of {count} scripts agreed before the first difference");
            return Ok(false);
        }
        lines += script.split_inclusive(|&byte| byte == b'\n').count();
    }
    println!("{count} of {count} scripts agreed, of {lines} lines");
    Ok(true)
}

fn print_large(name: &str) -> Result<bool, Box<dyn Error>> {
    let script = large::script(name).ok_or("no such large script")?;
    io::stdout().write_all(&script)?;
    Ok(true)
}

fn list<const N: usize>(names: [&str; N]) -> Result<bool, Box<dyn Error>> {
    println!("{}", names.join("\n"));
    Ok(true)
}

fn run(arguments: &[&str]) -> Result<bool, Box<dyn Error>> {
    match *arguments {
        ["make", seed] => make(seed, None),
        ["make", seed, flavour] => make(seed, Some(flavour)),
        ["flavours"] => list(Flavour::ALL.map(|(_, name, _)| name)),
        ["stats", count] => stats(count, "1"),
        ["stats", count, seed] => stats(count, seed),
        ["cover", ref paths @ ..] => cover(paths),
        ["compare", "--file", count, seed, program, directory, ref flavours @ ..] => {
            compare(Passing::File, [count, seed, program, directory], flavours)
        }
        ["compare", count, seed, program, directory, ref flavours @ ..] => compare(
            Passing::StandardInput,
            [count, seed, program, directory],
            flavours,
        ),
        ["large"] => list(large::LARGE.map(|(name, ..)| name)),
        ["large", name] => print_large(name),
        _ => Err(USAGE.into()),
    }
}

fn main() -> ExitCode {
    let arguments: Vec<String> = env::args().skip(1).collect();
    let arguments: Vec<&str> = arguments.iter().map(String::as_str).collect();
    match run(&arguments) {
        Ok(true) => ExitCode::SUCCESS,
        Ok(false) => ExitCode::FAILURE,
        Err(error) => {
            eprintln!("scripts: {error}");
            ExitCode::FAILURE
        }
    }
}

//! compare: the proved library held against a plain implementation of document 01. See `USAGE`.

mod answers;
mod archive;
mod case;
mod digest;
mod fuzz;
mod plain;
mod random;
mod slips;
mod story;
mod vectors;

use answers::by_plain;
use case::{fields, Case, Kind};
use rimesatchel::face;
use std::error::Error;
use std::io::{Read, Write};
use std::path::Path;
use std::process::ExitCode;

const DEFAULT_SEED: u64 = 1;
const USAGE: &str = "\
compare vectors DIR [LINELIST]   run the lines of DIR, and those of linelist by the program LINELIST too
compare fuzz COUNT [SEED [LINELIST]]
                                 compare COUNT pseudo-random calls, and listings with those of LINELIST
compare replay SEED SCENARIO [LINELIST]
                                 play one scenario of a fuzz run again
compare answer                   print each line of vectors on standard input, given up to its arrow, with the plain
                                 implementation's answer
compare write KIND SCENARIOS SEED
                                 print the cases of one kind among so many scenarios, as lines of the vectors
compare list                     print the plain implementation's list of the log on standard input
compare story                    play demand 3 and longer outages: a sender, a line that drops, spoils and repeats, a receiver;
                                 and the archive's copies of nothing
compare slips LINES [SEED]       play outages of 0 to 300 cells, so many lines of senders that give the indication as they like, and
                                 spoiled second numbers: what the watch tells is exact up to 119, and never too long";

/// The program, if it stands there: while the crates grow it may not be built yet.
fn built(program: &str) -> Option<&Path> {
    let path = Path::new(program);
    if !path.exists() {
        println!("{program} does not exist: no listing is compared with it");
    }
    Some(path).filter(|path| path.exists())
}

fn answer() -> Result<bool, Box<dyn Error>> {
    for line in std::io::stdin().lines() {
        let (case, _) = Case::asked(&line?).ok_or("no case")?;
        println!("{case} => {}", fields(&by_plain(&case)));
    }
    Ok(true)
}

fn list() -> Result<bool, Box<dyn Error>> {
    let mut log = Vec::new();
    std::io::stdin().read_to_end(&mut log)?;
    std::io::stdout().write_all(plain::listing(&log).as_bytes())?;
    Ok(true)
}

fn run(words: &[&str]) -> Result<bool, Box<dyn Error>> {
    match words {
        ["vectors", folder] => vectors::run(Path::new(folder), None),
        ["vectors", folder, program] => vectors::run(Path::new(folder), built(program)),
        ["slips", count] => Ok(slips::run(count.parse()?, DEFAULT_SEED)),
        ["slips", count, seed] => Ok(slips::run(count.parse()?, seed.parse()?)),
        ["fuzz", count] => Ok(fuzz::run(count.parse()?, DEFAULT_SEED, None)),
        ["fuzz", count, seed] => Ok(fuzz::run(count.parse()?, seed.parse()?, None)),
        ["fuzz", count, seed, program] => Ok(fuzz::run(count.parse()?, seed.parse()?, built(program))),
        ["replay", seed, scenario] => Ok(fuzz::replay(seed.parse()?, scenario.parse()?, None)),
        ["replay", seed, scenario, program] => Ok(fuzz::replay(seed.parse()?, scenario.parse()?, built(program))),
        ["answer"] => answer(),
        ["write", kind, scenarios, seed] => {
            Ok(fuzz::write(Kind::named(kind).ok_or("no such kind")?, scenarios.parse()?, seed.parse()?))
        }
        ["list"] => list(),
        ["story"] => Ok([story::run(), archive::run()] == [true; 2]),
        _ => Err(USAGE.into()),
    }
}

fn main() -> ExitCode {
    let words: Vec<String> = std::env::args().skip(1).collect();
    match run(&words.iter().map(String::as_str).collect::<Vec<_>>()) {
        Ok(true) => ExitCode::SUCCESS,
        Ok(false) => ExitCode::FAILURE,
        Err(fault) => {
            eprintln!("{fault}");
            ExitCode::from(2)
        }
    }
}

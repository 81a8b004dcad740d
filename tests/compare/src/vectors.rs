//! Runs every line of tests/vectors by the plain implementation and, where its types can be asked, by the library;
//! the lines of linelist also by the built program.

use std::error::Error;
use std::fs;
use std::io::Write;
use std::path::{Path, PathBuf};
use std::process::{Command, Stdio};
use std::thread;

use crate::answers::ANSWERERS;
use crate::case::{fields, values, Answer, Case, Kind};

type Fallible<T> = Result<T, Box<dyn Error>>;

/// Lines that agreed, differed, and could not be asked, for one that answers.
#[derive(Default)]
struct Count {
    agreed: usize,
    differed: usize,
    passed_over: usize,
}

impl Count {
    fn add(&mut self, who: &str, line: &str, expected: &Answer, given: Option<Answer>) {
        match given {
            None => self.passed_over += 1,
            Some(answer) if answer == *expected => self.agreed += 1,
            Some(answer) => {
                self.differed += 1;
                println!("differs: {line}\n{who} gives: {}", fields(&answer));
            }
        }
    }

    fn said(&self, who: &str) -> String {
        let Count { agreed, differed, passed_over } = self;
        format!("{who} {agreed} agree, {differed} differ, {passed_over} passed over")
    }
}

/// What the program writes for a log. It writes as it reads, so the log is handed over beside.
pub fn by_program(program: &Path, log: &[u8]) -> Fallible<Answer> {
    let mut child = Command::new(program).stdin(Stdio::piped()).stdout(Stdio::piped()).spawn()?;
    let mut input = child.stdin.take().ok_or("no standard input")?;
    let output = thread::scope(|scope| {
        // A program that turns a log away may stop reading it, which is no fault.
        scope.spawn(move || input.write_all(log));
        child.wait_with_output()
    })?;
    Ok(values![&output.stdout[..]])
}

fn run_file(file: &Path, program: Option<&Path>) -> Fallible<bool> {
    let mut counts = [Count::default(), Count::default(), Count::default()];
    for (index, line) in fs::read_to_string(file)?.lines().enumerate() {
        let (case, expected) = Case::parse(line).ok_or(format!("{}:{}: no case", file.display(), index + 1))?;
        for ((who, answerer), count) in ANSWERERS.iter().zip(&mut counts) {
            count.add(who, line, &expected, answerer(&case));
        }
        if case.kind == Kind::Linelist {
            let given = program.map(|path| by_program(path, case.octets(0))).transpose()?;
            counts[2].add("program", line, &expected, given);
        }
    }
    let name = file.file_stem().unwrap_or_default().to_string_lossy();
    let said: Vec<String> =
        ["plain", "library", "program"].iter().zip(&counts).map(|(who, count)| count.said(who)).collect();
    let other = if name == "linelist" { &said[2] } else { &said[1] };
    println!("{name}: {}; {other}", said[0]);
    Ok(counts.iter().all(|count| count.differed == 0))
}

/// True where no line of any file differs.
pub fn run(folder: &Path, program: Option<&Path>) -> Fallible<bool> {
    let mut files: Vec<PathBuf> = fs::read_dir(folder)?.map(|entry| Ok(entry?.path())).collect::<Fallible<_>>()?;
    files.retain(|file| file.extension().is_some_and(|extension| extension == "txt"));
    files.sort();
    if files.is_empty() {
        return Err(format!("no vectors in {}", folder.display()).into());
    }
    let verdicts: Vec<bool> = files.iter().map(|file| run_file(file, program)).collect::<Fallible<_>>()?;
    Ok(verdicts.iter().all(|&agrees| agrees))
}

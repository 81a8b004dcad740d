//! The archive's story: years of copies of nothing.
//!
//! A log of repeats of one silent cell answers no, and how many records were read. With one sound cell among them that has one
//! sample that isn't zero, it answers yes, and which record that is.

use crate::answers::{Answerer, ANSWERERS};
use crate::case::{fields, values, Answer, Case, Kind};
use crate::plain::Shape;

const HEADER: [u8; 3] = [0x56, 2, 0];
const REPEATS: usize = 4000;
/// Where the sound cell stands among the repeats: first, somewhere, last.
const PLACES: [usize; 3] = [0, 1461, REPEATS];

/// A record of a cell of this number, with silence but for this one sample.
fn record(number: u64, sample: u64) -> Vec<u8> {
    let shape = Shape::new(HEADER[0].into(), HEADER[1].into(), HEADER[2].into()).expect("56 hex has two channels");
    let mut samples = vec![0; shape.entries()];
    samples[7] = sample;
    let ancillary = vec![0; shape.entries()];
    [vec![0], shape.pack(number, 0, &samples, &ancillary)].concat()
}

fn log(records: &[Vec<u8>]) -> Vec<u8> {
    [&HEADER[..], &records.concat()].concat()
}

/// Nothing where it can't be asked.
fn answers(who: &str, answer: Answerer, log: &[u8], expected: &Answer) -> Option<bool> {
    let given = answer(&Case::new(Kind::Anything, values![log]))?;
    if given != *expected {
        println!("archive: {who} gives {} and not {}", fields(&given), fields(expected));
    }
    Some(given == *expected)
}

fn play(who: &str, answer: Answerer) -> Option<bool> {
    let silent = vec![record(0, 0); REPEATS];
    let mut right = answers(who, answer, &log(&silent), &values![0, 0, REPEATS as u64])?;
    for place in PLACES {
        let mut records = silent.clone();
        records.insert(place, record(1, 1));
        right &= answers(who, answer, &log(&records), &values![0, 1, place as u64])?;
    }
    Some(right)
}

pub fn run() -> bool {
    let mut all = true;
    for (who, answer) in ANSWERERS {
        match play(who, answer) {
            None => println!("archive: {who}: not linked"),
            Some(false) => all = false,
            Some(true) => println!(
                "archive: {who}: {REPEATS} copies of one silent cell are nothing, one sound sample is something"
            ),
        }
    }
    all
}

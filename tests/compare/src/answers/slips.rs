//! A whole log put to a fresh receiver and a watch, with the cells that the watch tells put in as missing, by whoever answers single
//! calls.

use crate::case::{values, Answer, Case, Kind, Value};
use crate::digest::digest;
use crate::plain::Shape;

const MISSING: u64 = 2;
/// Told by a step of the watch.
const BEFORE: u64 = 1;
const ALONE: u64 = 2;

/// What was handed out of a log, cell by cell, and what the watch told of it.
#[derive(Default)]
struct Told {
    before: Vec<u64>,
    alone: Vec<u64>,
    /// Samples and marks of each cell that was taken, with the missing ones before it.
    handed: Vec<(Vec<u64>, Vec<u64>)>,
    last: u64,
}

impl Told {
    fn step(&mut self, slip: &Answer, entries: usize) {
        let cells = slip[3].number();
        match slip[2].number() {
            BEFORE => {
                self.before.extend([self.last, cells]);
                let silence = cells as usize * entries;
                self.handed.insert(self.handed.len() - 1, (vec![0; silence], vec![MISSING; silence]));
            }
            ALONE => self.alone.push(self.last),
            _ => {}
        }
    }
}

pub fn slips(case: &Case, answer: impl Fn(&Case) -> Option<Answer>) -> Option<Answer> {
    let log = case.octets(0);
    let header = answer(&Case::new(Kind::ReadHeader, values![log]))?;
    let setup: Vec<Value> = header[2..].to_vec();
    let shape = Shape::new(setup[0].number(), setup[1].number(), setup[2].number()).ok()?;
    let mut state = answer(&Case::new(Kind::ReceiverOpen, setup))?[1].run().to_vec();
    let lent = vec![0u64; 15 * shape.entries()];
    let (mut watch, mut told, mut place) = (vec![0; 7], Told::default(), header[1].number());
    for index in 0.. {
        let record = answer(&Case::new(Kind::ReadRecord, values![log, place]))?;
        if record[0].number() != 0 || record[1].number() == 0 {
            break;
        }
        let cell = &log[record[3].number() as usize..][..48];
        place = record[4].number();
        let inputs = values![&state[..], cell, record[2].number(), &lent[..], &lent[..], &lent[..]];
        let received = answer(&Case::new(Kind::Receive, inputs))?;
        if received[0].number() != 0 {
            continue;
        }
        state = received[1].run().to_vec();
        let report: Vec<u64> = received[5..].iter().map(Value::number).collect();
        let slip = answer(&Case::new(Kind::Slip, values![&watch[..], &report[..]]))?;
        watch = slip[1].run().to_vec();
        told.step(&slip, shape.entries());
        let written = (report[0] as usize + 1) * shape.entries();
        told.handed.push((received[2].run()[..written].to_vec(), received[4].run()[..written].to_vec()));
        told.last = index;
    }
    let waiting = if watch[2] == 1 && watch[5] == 1 { vec![told.last] } else { vec![] };
    let (samples, marks): (Vec<_>, Vec<_>) = told.handed.into_iter().unzip();
    let (samples, marks) = (samples.concat(), marks.concat());
    let placed = *state.last()?;
    let text = samples.iter().map(u64::to_string).collect::<Vec<_>>().join(",");
    Some(values![
        &told.before[..],
        &told.alone[..],
        &waiting[..],
        placed,
        &in_rows(&marks)[..],
        &digest(text.as_bytes())[..8]
    ])
}

/// Marks as `mark*times`.
fn in_rows(marks: &[u64]) -> String {
    let rows: Vec<String> = marks.chunk_by(|a, b| a == b).map(|row| format!("{}*{}", row[0], row.len())).collect();
    if rows.is_empty() {
        "-".to_string()
    } else {
        rows.join(",")
    }
}

//! Arrivals in a row put to a fresh receiver with room, call by call, by whoever answers single calls.

use crate::case::{values, Answer, Case, Kind};
use crate::plain::Shape;

/// An arrival as a log has it: the indication, then the cell's 48 octets.
const ARRIVAL: usize = 49;

pub fn line(case: &Case, answer: impl Fn(&Case) -> Option<Answer>) -> Option<Answer> {
    let shape = Shape::new(case.number(0), case.number(1), case.number(2));
    let entries = shape.map_or(0, |shape| shape.entries());
    let opened = answer(&Case::new(Kind::ReceiverOpen, case.inputs[..3].to_vec()))?;
    let mut state = opened[1].run().to_vec();
    let lent = vec![0u64; 15 * entries];
    let (mut answers, mut handed) = (vec![], [vec![], vec![], vec![]]);
    for arrival in case.octets(3).chunks(ARRIVAL) {
        let inputs = values![&state[..], &arrival[1..], arrival[0] == 1, &lent[..], &lent[..], &lent[..]];
        let answer = answer(&Case::new(Kind::Receive, inputs))?;
        state = answer[1].run().to_vec();
        answers.extend([0, 5, 6, 7].map(|field| answer[field].number()));
        let written = if answer[0].number() == 0 { (answer[5].number() as usize + 1) * entries } else { 0 };
        for (run, field) in handed.iter_mut().zip(2..) {
            run.extend_from_slice(&answer[field].run()[..written]);
        }
    }
    let [samples, ancillary, marks] = handed;
    Some(values![&answers[..], &state[..], &samples[..], &ancillary[..], &marks[..]])
}

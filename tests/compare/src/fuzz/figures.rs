//! Sheets over a few logs, whole and damaged, now and then with lengths or rows that don't go with them.

use super::inputs::length;
use super::log::log;
use super::{Played, Referee};
use crate::case::{values, Case, Kind};
use crate::random::Random;

pub fn sheet(random: &mut Random, referee: &mut Referee) -> Played {
    let logs: Vec<Vec<u8>> =
        (0..random.below(6)).map(|_| if random.one_in(8) { vec![] } else { log(random) }).collect();
    let octets = logs.concat();
    let mut lengths: Vec<u64> = logs.iter().map(|log| log.len() as u64).collect();
    if random.one_in(64) {
        let most = random.pick(&[4096, 4097]);
        lengths.resize(most, 0);
    }
    let mut rows = 10 * lengths.len();
    if !lengths.is_empty() {
        let at = random.place(lengths.len());
        match random.below(10) {
            0 => lengths[at] = random.pick(&[0, 1, u64::MAX, 1 << 63, lengths[at] + 1]),
            // right only after wrapping
            1 => lengths.extend([u64::MAX, 1]),
            2 => rows = length(rows, 1, random),
            _ => {}
        }
    }
    if random.one_in(4) {
        rows = 10 * lengths.len();
    }
    referee.call(Case::new(Kind::Sheet, values![&octets[..], &lengths[..], rows as u64])).map(|_| ())
}

//! The watch over second numbers: single steps on any watch, and walks with lost cells and false second numbers.

use super::{Played, Referee};
use crate::case::{values, Case, Kind};
use crate::random::Random;

/// Any watch, mostly one that can be, and any report, mostly one that can follow.
pub fn one_step(random: &mut Random, referee: &mut Referee) -> Played {
    let mut watch: Vec<u64> = match random.below(4) {
        0 => vec![0; 7],
        1 => vec![1, random.below(16), 0, 0, 0, 1, random.below(16)],
        2 => vec![1, random.below(16), 1, random.below(16), 0, 0, 0],
        _ => vec![1, random.below(16), 1, random.below(16), random.below(16), 1, random.below(16)],
    };
    if random.one_in(8) {
        let at = random.place(7);
        watch[at] = if random.one_in(4) { random.below(256) } else { random.below(18) };
    }
    let missing = if watch[0] == 0 { 0 } else { random.pick(&[0, 0, 0, 1, 7, 13, 14]) };
    let mut report = [missing, (watch[1] + missing + 1) % 16, random.below(16), random.below(2)];
    if random.one_in(8) {
        let at = random.place(3);
        report[at] = if random.one_in(4) { random.below(256) } else { random.below(18) };
    }
    referee.call(Case::new(Kind::Slip, values![&watch[..], &report[..]])).map(|_| ())
}

/// A sender that raises its second number at some block starts, a line that loses cells and falsifies second numbers.
pub fn walk(random: &mut Random, referee: &mut Referee) -> Played {
    let raises = random.pick(&[1, 1, 2, 5]);
    let false_one_in = random.pick(&[10, 40, u64::MAX]);
    let mut watch = vec![0; 7];
    let (mut number, mut second) = (random.below(16), random.below(16));
    let mut last = None;
    for _ in 0..40 {
        for _ in 0..1 + if random.one_in(6) { random.pick(&[1, 14, 15, 16, 17, 64, 119, 120, 200]) } else { 0 } {
            number = (number + 1) % 16;
            if number.is_multiple_of(8) && random.one_in(raises) {
                second = (second + 1) % 16;
            }
        }
        let missing = last.map_or(1, |last: u64| (16 + number - last) % 16);
        if missing == 0 {
            continue;
        }
        let told = if random.one_in(false_one_in) { second ^ 1 << random.below(4) } else { second };
        let report = [missing - 1, number, told, 0];
        let answer = referee.call(Case::new(Kind::Slip, values![&watch[..], &report[..]]))?;
        watch = answer[1].run().to_vec();
        last = Some(number);
    }
    Ok(())
}

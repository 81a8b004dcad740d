//! Plans: the planner's own, good ones of other shapes, and such as have a fault somewhere.

use super::inputs::{length, setup, wrong_number};
use super::{Played, Referee};
use crate::case::{values, Case, Kind};
use crate::plain::Shape;
use crate::random::Random;

/// An octet that is mostly a format's, and its S (of some format where it isn't).
fn format(random: &mut Random) -> (u64, u64) {
    let [octet, ..] = setup(random);
    let slots = Shape::new(octet, 1, 0).map_or(1, |shape| shape.format.slots as u64);
    (if random.one_in(16) { wrong_number(octet, random) } else { octet }, slots)
}

pub fn plan(random: &mut Random, referee: &mut Referee) -> Played {
    let (octet, slots) = format(random);
    let most = if random.one_in(8) { 70 } else { 24 };
    let circuits = random.below(most);
    let channels = match random.below(4) {
        0 => slots * circuits + random.below(3),
        1 => random.pick(&[0, 1, 1024, 1025, u64::from(u32::MAX)]),
        _ => random.below(slots * circuits + 1),
    };
    let run = random.run(circuits as usize, 1 << 32);
    referee.call(Case::new(Kind::CircuitsPlan, values![octet, channels, &run[..]])).map(|_| ())
}

/// A plan without fault, in which now and then one number is changed.
pub fn check(random: &mut Random, referee: &mut Referee) -> Played {
    let (octet, slots) = format(random);
    let most = if random.one_in(8) { 66 } else { 12 };
    let circuits = random.place(most);
    let frequency =
        if random.one_in(16) { random.pick(&[0, 1, 1_000_000, 1_000_001]) } else { 1 + random.below(96_000) };
    let mut shares: Vec<u64> = (0..circuits).map(|_| 1 + random.below(slots)).collect();
    let needed: Vec<u64> = shares.iter().map(|share| frequency.div_ceil(slots / share)).collect();
    let mut allowances: Vec<u64> = needed.iter().map(|cells| cells + random.below(3)).collect();
    let mut channels = shares.iter().sum();
    if circuits > 0 {
        let at = random.place(circuits);
        match random.below(8) {
            0 => shares[at] = random.pick(&[0, slots + 1, u64::from(u32::MAX)]),
            1 => allowances[at] = needed[at].saturating_sub(1),
            2 => channels = wrong_number(channels, random),
            3 => allowances.truncate(length(circuits, 1, random)),
            _ => {}
        }
    }
    let case = Case::new(Kind::CircuitsCheck, values![octet, channels, frequency, &shares[..], &allowances[..]]);
    referee.call(case).map(|_| ())
}

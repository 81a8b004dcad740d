//! Frames of an AES3 cable: imported, taken out again, and exported from any numbers.

use super::{Played, Referee};
use crate::case::{values, Case, Kind};
use crate::random::Random;

pub fn import(random: &mut Random, referee: &mut Referee) -> Played {
    let first = if random.one_in(8) { random.octets(1)[0] } else { random.pick(b"XZ") };
    let second = if random.one_in(8) { random.pick(b"XYZW") } else { b'Y' };
    let subframes = [subframe(random), subframe(random)];
    let case = Case::new(Kind::Aes3Import, values![&[first, second][..], &subframes[..]]);
    let answer = referee.call(case)?;
    if answer[0].number() == 0 {
        let back = Case::new(Kind::Aes3Export, vec![answer[1].clone(), answer[2].clone()]);
        referee.call(back)?;
    }
    Ok(())
}

/// Any slots, mostly of even parity from slot 4 on; now and then none, or one alone.
fn subframe(random: &mut Random) -> u64 {
    let slots = match random.below(8) {
        0 => 0,
        1 => 1 << random.below(32),
        _ => random.below(1 << 32),
    };
    let odd = (slots >> 4).count_ones() % 2 == 1 && !random.one_in(16);
    slots ^ if odd { 1 << (4 + random.below(28)) } else { 0 }
}

pub fn export(random: &mut Random, referee: &mut Referee) -> Played {
    let begins = random.below(2) * 8;
    let samples = [sample(random), sample(random)];
    let ancillary = [begins, begins].map(|b| ancillary(b, random));
    referee.call(Case::new(Kind::Aes3Export, values![&samples[..], &ancillary[..]])).map(|_| ())
}

fn sample(random: &mut Random) -> u64 {
    match random.below(16) {
        0 => random.pick(&[1 << 24, u64::MAX, 1 << 32, 1 << 63]),
        1 => random.pick(&[0, 1, (1 << 24) - 1, 1 << 23]),
        _ => random.below(1 << 24),
    }
}

fn ancillary(begins: u64, random: &mut Random) -> u64 {
    match random.below(16) {
        0 => 16 + random.below(240),
        1 => random.below(16),
        _ => begins + random.below(8),
    }
}

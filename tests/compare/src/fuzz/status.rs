//! Channel status: single steps on any block, sequences with whole and broken blocks, and the check character.

use super::{Played, Referee};
use crate::case::{values, Case, Kind};
use crate::plain::check_character;
use crate::random::Random;

const BEGINS: u64 = 8;
const STATUS: u64 = 4;

pub fn check(random: &mut Random, referee: &mut Referee) -> Played {
    let mut octets = if random.one_in(2) { random.octets(23) } else { vec![0; 23] };
    octets[random.place(23)] ^= 1 << random.below(8);
    referee.call(Case::new(Kind::CheckCharacter, values![&octets[..]])).map(|_| ())
}

pub fn one_step(random: &mut Random, referee: &mut Referee) -> Played {
    let edges = [0, 1, 7, 8, 183, 184, 190, 191, 191, 192, 255];
    let bits = if random.one_in(4) { random.below(256) } else { random.pick(&edges) };
    let octets = block_octets(random);
    let ancillary = if random.one_in(8) { random.below(256) } else { random.below(16) };
    let mark = if random.one_in(8) { random.below(256) } else { random.below(3) };
    referee.call(Case::new(Kind::StatusStep, values![bits, &octets[..], ancillary, mark])).map(|_| ())
}

/// 24 octets, of which the last mostly fits.
fn block_octets(random: &mut Random) -> Vec<u8> {
    let mut octets = random.octets(24);
    if !random.one_in(4) {
        octets[23] = check_character(&octets[..23]);
    }
    octets
}

/// Blocks as they come off the line, each step now and then disturbed.
pub fn sequence(random: &mut Random, referee: &mut Referee) -> Played {
    let disturbed_every = random.pick(&[20, 300, u64::MAX]);
    let mut bits = 0;
    let mut octets = vec![0; 24];
    for _ in 0..1 + random.below(3) {
        let block = block_octets(random);
        for bit in 0..192 {
            let status = if block[bit / 8] >> (bit % 8) & 1 == 1 { STATUS } else { 0 };
            let begins = if bit == 0 { BEGINS } else { 0 };
            let (ancillary, mark) = disturb(begins + status + random.below(4), disturbed_every, random);
            let step = Case::new(Kind::StatusStep, values![bits, &octets[..], ancillary, mark]);
            let answer = referee.call(step)?;
            bits = answer[1].number();
            octets = answer[2].octets().to_vec();
        }
    }
    Ok(())
}

/// Two runs with blocks in them, walked through as far as they go, every so many-th entry.
pub fn runs(random: &mut Random, referee: &mut Referee) -> Played {
    let step = random.pick(&[1, 1, 2, 3, 7, 400, u64::MAX]);
    let (ancillary, marks) = entries(step.min(8) as usize, random);
    let bits = if random.one_in(2) { 0 } else { random.pick(&[0, 1, 7, 8, 100, 184, 191, 192]) };
    let (mut bits, mut octets) = (bits, block_octets(random));
    let mut from = random.pick(&[0, 0, 0, 1, 500, u64::MAX]);
    for _ in 0..4 {
        let lent = if random.one_in(12) { &marks[..marks.len() / 2] } else { &marks[..] };
        let step = if random.one_in(20) { 0 } else { step };
        let case = Case::new(Kind::StatusRun, values![bits, &octets[..], &ancillary[..], lent, from, step]);
        let answer = referee.call(case)?;
        bits = answer[1].number();
        octets = answer[2].octets().to_vec();
        from = answer[5].number();
    }
    Ok(())
}

/// Blocks of as many channels side by side, each entry now and then disturbed.
fn entries(channels: usize, random: &mut Random) -> (Vec<u8>, Vec<u8>) {
    let disturbed_every = random.pick(&[20, 300, 2000, u64::MAX]);
    let (blocks, late) = (random.below(4), random.below(3) * 5);
    let quiet = random.one_in(4);
    (0..blocks * 192 + late)
        .flat_map(|time| (0..channels as u64).map(move |_| time))
        .map(|time| {
            let begins = if !quiet && time % 192 == late { BEGINS } else { 0 };
            let (ancillary, mark) = disturb(begins + random.below(8), disturbed_every, random);
            (ancillary as u8, mark as u8)
        })
        .unzip()
}

fn disturb(ancillary: u64, every: u64, random: &mut Random) -> (u64, u64) {
    let mark = random.below(2);
    if !random.one_in(every) {
        return (ancillary, mark);
    }
    match random.below(4) {
        0 => (ancillary, 2),
        1 => (ancillary ^ BEGINS, mark),
        2 => (ancillary, 3 + random.below(253)),
        _ => (16 + random.below(240), mark),
    }
}

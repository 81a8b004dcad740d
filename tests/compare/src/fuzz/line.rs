//! Readings: a sender, a line that loses, repeats and alters cells and sets indications, and a receiver, their states
//! carried on.

use super::boxes::{receive, room, send, state_of};
use super::inputs::{alter, setup};
use super::{Played, Referee};
use crate::case::{values, Case, Kind};
use crate::plain::Shape;
use crate::random::Random;

pub fn reading(random: &mut Random, referee: &mut Referee) -> Played {
    let [format, channels, order] = setup(random);
    let Ok(shape) = Shape::new(format, channels, order) else { return Ok(()) };
    let wanted = shape.has_second() && random.one_in(2);
    let second = if wanted { random.below(16) } else { 0 };
    let opening = values![format, channels, order, random.below(16), wanted, second];
    let mut sender = state_of(&referee.call(Case::new(Kind::SenderOpen, opening))?);
    let mut receiver = state_of(&referee.call(Case::new(Kind::ReceiverOpen, values![format, channels, order]))?);
    let mut losing = 0;
    for _ in 0..5 + random.below(60) {
        let case = send(&sender, &shape, 40, random);
        let indication = case.yes(1) || random.one_in(40);
        let answer = referee.call(case)?;
        sender = state_of(&answer);
        losing = if losing > 0 { losing - 1 } else { loss(random) };
        if losing > 0 || answer[0].number() != 0 {
            continue;
        }
        let mut octets = answer[2].octets().to_vec();
        alter(&mut octets, &shape, random);
        for _ in 0..copies(random) {
            receiver = deliver(&receiver, &octets, indication, &shape, random, referee)?;
        }
    }
    Ok(())
}

/// How many cells from here on the line loses: mostly none, and often the edges 1, 13, 14 and 15.
fn loss(random: &mut Random) -> u64 {
    if random.one_in(4) {
        random.pick(&[1, 1, 2, 5, 13, 14, 15, 16])
    } else {
        0
    }
}

/// How many times a cell comes: mostly once, and now and then with copies.
fn copies(random: &mut Random) -> u64 {
    if random.one_in(8) {
        random.pick(&[2, 2, 3, 5, 17])
    } else {
        1
    }
}

/// The receiver's state after a cell; refused 10, it is given the cell again with all the room that it may need.
fn deliver(
    receiver: &[u64],
    cell: &[u8],
    indication: bool,
    shape: &Shape,
    random: &mut Random,
    referee: &mut Referee,
) -> Result<Vec<u64>, Box<super::Difference>> {
    let cells = 1 + random.below(15);
    let answer = referee.call(receive(receiver, cell, indication, room(shape, cells, random), random))?;
    if answer[0].number() != 10 {
        return Ok(state_of(&answer));
    }
    let again = receive(&state_of(&answer), cell, indication, 15 * shape.entries(), random);
    Ok(state_of(&referee.call(again)?))
}

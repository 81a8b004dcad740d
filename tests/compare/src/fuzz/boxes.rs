//! Single calls of the sender and the receiver with arbitrary states, lengths and lent contents.

use super::inputs::{alter, ancillary, cell, damage_state, indication, length};
use super::inputs::{samples, setup, shape_of, wrong_number};
use super::{Played, Referee};
use crate::case::{values, Answer, Case, Kind, Value};
use crate::plain::Shape;
use crate::random::Random;

/// Openings take numbers of 32 bits, so a wrong field is any of those.
fn open(kind: Kind, mut numbers: Vec<u64>, random: &mut Random, referee: &mut Referee) -> Played {
    if random.one_in(2) {
        let field = random.place(numbers.len());
        numbers[field] = wrong_number(numbers[field], random) % (1 << 32);
    }
    referee.call(Case::new(kind, numbers.into_iter().map(Value::Number).collect())).map(|_| ())
}

pub fn open_receiver(random: &mut Random, referee: &mut Referee) -> Played {
    let setup = setup(random);
    open(Kind::ReceiverOpen, setup.to_vec(), random, referee)
}

pub fn format(random: &mut Random, referee: &mut Referee) -> Played {
    let [octet, ..] = setup(random);
    let asked = if random.one_in(2) { octet } else { wrong_number(octet, random) };
    referee.call(Case::new(Kind::Format, values![asked])).map(|_| ())
}

pub fn open_sender(random: &mut Random, referee: &mut Referee) -> Played {
    let [format, channels, order] = setup(random);
    let (wanted, second) = second_number(random);
    open(Kind::SenderOpen, vec![format, channels, order, random.below(16), wanted, second], random, referee)
}

/// Wanted or not, and a value that mostly goes with it.
fn second_number(random: &mut Random) -> (u64, u64) {
    let wanted = random.below(2);
    let second = if wanted == 1 || random.one_in(8) { random.below(16) } else { 0 };
    (wanted, second)
}

/// A yes in a state octet is any octet but 0.
fn yes_or_no(random: &mut Random) -> u64 {
    random.pick(&[0, 1, 1, 2, 255])
}

/// A sender's state, one time in three with a field that may be anything.
fn sender_state(random: &mut Random) -> [u64; 7] {
    let [format, channels, order] = setup(random);
    let number = if random.one_in(2) { random.pick(&[0, 8]) } else { random.below(16) };
    let (wanted, second) = second_number(random);
    let has_second = Shape::new(format, channels, order).is_ok_and(|shape| shape.has_second());
    let (wanted, second) = if has_second || random.one_in(8) { (wanted, second) } else { (0, 0) };
    let mut state = [format, channels, order, number, wanted * random.pick(&[1, 1, 200]), second, yes_or_no(random)];
    damage_state(&mut state, 3, random);
    state
}

pub fn one_send(random: &mut Random, referee: &mut Referee) -> Played {
    let state = sender_state(random);
    let case = send(&state, &shape_of(&state, random), 6, random);
    referee.call(case).map(|_| ())
}

/// A call of the sender with arguments that are wrong about one time in `chances` each.
pub fn send(state: &[u64], shape: &Shape, chances: u64, random: &mut Random) -> Case {
    let samples_len = length(shape.entries(), chances * 2, random);
    let ancillary_len = length(shape.entries(), chances * 2, random);
    let cell_len = length(48, chances * 2, random);
    let samples = samples(shape, samples_len, chances, random);
    let ancillary = ancillary(shape, ancillary_len, chances, random);
    let indication = random.one_in(if state[3].is_multiple_of(8) { 2 } else { chances });
    let cell = random.octets(cell_len);
    Case::new(Kind::Send, values![state, indication, &samples[..], &ancillary[..], &cell[..]])
}

/// Entries of some cells and a few more, sent into a log with room for some of them, and what is left gone on with.
pub fn send_log(random: &mut Random, referee: &mut Referee) -> Played {
    let mut state = sender_state(random).to_vec();
    let shape = shape_of(&state, random);
    let count = shape.entries() * random.place(7) + random.place(shape.entries() + 1);
    let samples = samples(&shape, count, 4, random);
    let ancillary = ancillary(&shape, length(count, 16, random), 8, random);
    let indications = random.one_in(2);
    let octets = random.place(400);
    let mut log = random.octets(octets);
    let mut place = random.pick(&[0, 0, 3, 3, 49, octets as u64, octets as u64 + 1, u64::MAX]);
    let mut from = 0;
    for _ in 0..3 {
        let case = Case::new(
            Kind::SendLog,
            values![
                &state[..],
                indications,
                &samples[from..],
                &ancillary[from.min(ancillary.len())..],
                &log[..],
                place
            ],
        );
        let answer = referee.call(case)?;
        state = answer[1].run().to_vec();
        from += answer[4].number() as usize;
        let octets = random.place(250);
        log = random.octets(octets);
        place = random.pick(&[0, 1, 48]);
    }
    Ok(())
}

/// A receiver's count: mostly 0 before the first cell, and often so large that a few cells more pass 4,294,967,295.
fn count(started: u64, random: &mut Random) -> u64 {
    match random.below(8) {
        _ if started == 0 && !random.one_in(8) => 0,
        0 => random.below(3),
        1..=3 => 4_294_967_295 - random.below(17),
        4 => 256_u64.pow(1 + random.below(3) as u32) - random.below(3),
        _ => random.below(1 << 32),
    }
}

pub fn one_receive(random: &mut Random, referee: &mut Referee) -> Played {
    let [format, channels, order] = setup(random);
    let started = yes_or_no(random);
    let overhead = Shape::new(format, channels, order).is_ok_and(|shape| shape.format.overhead);
    let last = if started != 0 && overhead { random.below(16) } else { 0 };
    let mut state = [format, channels, order, started, last, count(started, random)];
    damage_state(&mut state, 3, random);
    let shape = shape_of(&state, random);
    let number = random.below(16);
    let mut octets = cell(&shape, number, random);
    alter(&mut octets, &shape, random);
    octets.resize(length(48, 16, random), 0);
    let room = room(&shape, 1 + random.below(15), random);
    let case = receive(&state, &octets, indication(number, random), room, random);
    referee.call(case).map(|_| ())
}

/// Room for this many cells, or a little more or less.
pub fn room(shape: &Shape, cells: u64, random: &mut Random) -> usize {
    let exact = shape.entries() * cells as usize;
    match random.below(6) {
        0 => exact.saturating_sub(1),
        1 => exact + 1,
        2 => exact + random.place(50),
        3 => 15 * shape.entries(),
        4 => length(exact, 2, random),
        _ => exact,
    }
}

/// A call of the receiver with runs of `room` entries of anything, one time in sixteen not equally long.
pub fn receive(state: &[u64], cell: &[u8], indication: bool, room: usize, random: &mut Random) -> Case {
    let mut lengths = [room; 3];
    if random.one_in(16) {
        lengths[random.place(3)] = length(room, 2, random);
    }
    let samples = random.wide_run(lengths[0]);
    let ancillary = random.run(lengths[1], 256);
    let marks = random.run(lengths[2], 256);
    Case::new(Kind::Receive, values![state, cell, indication, &samples[..], &ancillary[..], &marks[..]])
}

/// The state that an answer leaves.
pub fn state_of(answer: &Answer) -> Vec<u64> {
    answer[1].run().to_vec()
}

//! The management port: single calls of both sides with arbitrary records, messages and lengths, conversations in which
//! what the equipment writes is taken by a controlling entity, and what a box is opened with.

use super::inputs::{setup, wrong_number};
use super::{Played, Referee};
use crate::case::{values, Answer, Case, Kind};
use crate::random::Random;

const CODES: [u8; 10] = [0x00, 0x40, 0x60, 0x81, 0x84, 0x87, 0xC0, 0xC0, 0xE0, 0xE0];
const REFERENCES: [[u8; 2]; 7] = [[0, 0], [0, 0], [0, 1], [1, 0], [0x12, 0x34], [0x80, 0], [0xFF, 0xFF]];

/// Few choices, so that ports and messages often meet; now and then anything.
fn octet(random: &mut Random, choices: &[u8]) -> u8 {
    if random.one_in(40) {
        random.number() as u8
    } else {
        random.pick(choices)
    }
}

fn subsystem(random: &mut Random) -> u8 {
    octet(random, &[0, 0, 0, 1, 1, 2])
}

fn selector(random: &mut Random) -> u8 {
    octet(random, &[0, 1, 2])
}

fn format(random: &mut Random) -> [u8; 3] {
    [octet(random, &[0x56, 0x56, 0x54]), octet(random, &[2, 2, 1]), octet(random, &[0x90, 0x90, 0x50])]
}

/// A record, or one time in sixteen 28 octets of anything.
fn record(random: &mut Random) -> Vec<u8> {
    let mut record = random.octets(28);
    if !random.one_in(16) {
        record[0] = subsystem(random);
        record[1] = selector(random);
        record[2] = octet(random, &CODES);
        record[3..6].copy_from_slice(&format(random));
        record[6..8].copy_from_slice(&random.pick(&REFERENCES));
    }
    record
}

/// Ports end to end, and often a rest that is none.
fn ports(random: &mut Random) -> Vec<u8> {
    let mut ports: Vec<u8> = (0..random.below(7)).flat_map(|_| record(random)).collect();
    if random.one_in(3) {
        let rest = random.place(28);
        ports.extend(record(random).iter().take(rest));
    }
    ports
}

/// A message of its own length, cut, padded, or longer by anything.
fn sized(mut message: Vec<u8>, random: &mut Random) -> Vec<u8> {
    match random.below(8) {
        0 => message.truncate(random.place(message.len() + 1)),
        1 => message.extend(vec![0; random.place(30)]),
        2 => {
            let more = random.place(30);
            message.extend(random.octets(more));
        }
        _ => {}
    }
    message
}

fn enquiry(random: &mut Random) -> Vec<u8> {
    let mut message = vec![1, subsystem(random), selector(random)];
    message.extend(format(random));
    message
}

fn request(kind: u8, random: &mut Random) -> Vec<u8> {
    let mut message = vec![kind, selector(random)];
    message.extend(format(random));
    message.extend(random.pick(&REFERENCES));
    if kind == 2 {
        message.extend(random.octets(20));
    }
    message
}

fn status(random: &mut Random) -> Vec<u8> {
    let mut message = vec![129, subsystem(random), selector(random), octet(random, &CODES)];
    message.extend(format(random));
    let behind = if message[1] == 0 { 2 } else { 22 };
    message.extend(random.octets(behind));
    message
}

fn message(random: &mut Random) -> Vec<u8> {
    let message = match random.below(10) {
        0..=2 => enquiry(random),
        3..=5 => request(2, random),
        6..=7 => request(3, random),
        8 => status(random),
        _ => {
            let length = random.place(40);
            random.octets(length)
        }
    };
    sized(message, random)
}

fn room(random: &mut Random) -> usize {
    random.pick(&[0, 1, 2, 8, 9, 9, 28, 29, 29, 29, 40])
}

fn equip(
    ports: &[u8],
    message: &[u8],
    random: &mut Random,
    referee: &mut Referee,
) -> Result<Answer, Box<super::Difference>> {
    let room = room(random);
    let answer = random.octets(room);
    referee.call(Case::new(Kind::Equipment, values![ports, message, &answer[..]]))
}

pub fn one_message(random: &mut Random, referee: &mut Referee) -> Played {
    let (ports, message) = (ports(random), message(random));
    equip(&ports, &message, random, referee).map(|_| ())
}

pub fn one_status(random: &mut Random, referee: &mut Referee) -> Played {
    let ports = ports(random);
    let message = if random.one_in(8) { message(random) } else { sized(status(random), random) };
    referee.call(Case::new(Kind::Controller, values![&ports[..], &message[..]])).map(|_| ())
}

/// A desk that takes message after message, and a controlling entity that takes each of its answers.
pub fn conversation(random: &mut Random, referee: &mut Referee) -> Played {
    let mut desk = ports(random);
    let mut controlled = if random.one_in(2) { desk.clone() } else { ports(random) };
    for _ in 0..1 + random.below(8) {
        let message = message(random);
        let answer = equip(&desk, &message, random, referee)?;
        desk = answer[1].octets().to_vec();
        let written = answer[3].number() as usize;
        if written > 0 {
            let status = &answer[2].octets()[..written];
            let noted = referee.call(Case::new(Kind::Controller, values![&controlled[..], status]))?;
            controlled = noted[1].octets().to_vec();
        }
    }
    Ok(())
}

/// A record with octets 3 and 4 of a format and its packing, often with one of the two changed.
pub fn one_record(random: &mut Random, referee: &mut Referee) -> Played {
    let [format, channels, order] = setup(random);
    let mut record = record(random);
    record[3] = if random.one_in(8) { random.number() as u8 } else { format as u8 };
    record[4] = if random.one_in(3) { random.number() as u8 } else { (order * 64 + channels) as u8 };
    referee.call(Case::new(Kind::PortSettings, values![&record[..]])).map(|_| ())
}

/// Settings, often with one of them changed; where they have a packing octet, what a record with it is set to.
pub fn one_packing(random: &mut Random, referee: &mut Referee) -> Played {
    let mut settings = setup(random);
    if random.one_in(3) {
        let at = random.place(3);
        settings[at] = wrong_number(settings[at], random);
    }
    let packed = referee.call(Case::new(Kind::PortPacking, settings.iter().map(|&number| number.into()).collect()))?;
    let mut record = record(random);
    (record[3], record[4]) = (settings[0] as u8, packed[1].number() as u8);
    referee.call(Case::new(Kind::PortSettings, values![&record[..]])).map(|_| ())
}

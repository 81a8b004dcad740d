//! Logs, whole and damaged: the header, then record after record, and places anywhere.

use super::inputs::{alter, ancillary, cell, damage_state, indication, setup, wrong_number};
use super::{Played, Referee};
use crate::case::{fields, values, Case, Kind};
use crate::plain::{self, Shape};
use crate::random::Random;

/// A log number, one time in twelve longer than its shortest form.
fn put_number(log: &mut Vec<u8>, mut number: u64, random: &mut Random) {
    let longer = random.one_in(12);
    while number >= 128 {
        log.push((number % 128) as u8 + 128);
        number /= 128;
    }
    match longer {
        true => log.extend([number as u8 + 128, 0]),
        false => log.push(number as u8),
    }
}

fn header(random: &mut Random) -> (Vec<u8>, [u64; 3]) {
    let mut numbers = setup(random);
    if random.one_in(5) {
        let field = random.place(3);
        numbers[field] = wrong_number(numbers[field], random);
    }
    let mut log = vec![];
    numbers.iter().for_each(|&number| put_number(&mut log, number, random));
    (log, numbers)
}

pub fn log(random: &mut Random) -> Vec<u8> {
    let (mut log, [format, channels, order]) = header(random);
    let Ok(shape) = Shape::new(format, channels, order) else { return log };
    let mut number = random.below(16);
    let records = if random.one_in(50) { 200 } else { random.below(12) };
    for _ in 0..records {
        log.push(if random.one_in(40) { random.below(256) as u8 } else { indication(number, random) as u8 });
        let mut octets = cell(&shape, number, random);
        alter(&mut octets, &shape, random);
        log.extend(octets);
        number = (number + random.pick(&[0, 1, 1, 1, 1, 2, 14, 15])) % 16;
    }
    damage(&mut log, random);
    log
}

fn damage(log: &mut Vec<u8>, random: &mut Random) {
    let place = random.place(log.len());
    match random.below(8) {
        0 => log.truncate(place),
        1 => log[place] = random.number() as u8,
        2 => log.insert(place, random.number() as u8),
        3 => log.truncate(log.len() - 1),
        _ => {}
    }
}

fn read_record(log: &[u8], place: u64, referee: &mut Referee) -> Result<Option<u64>, Box<super::Difference>> {
    let answer = referee.call(Case::new(Kind::ReadRecord, values![log, place]))?;
    let is_cell = answer[1].number() == 1;
    Ok(is_cell.then(|| answer[4].number()))
}

/// A header and a record written somewhere, now and then without room; a list into a run that may be too short.
fn put(log: &[u8], random: &mut Random, referee: &mut Referee) -> Played {
    let mut numbers = setup(random);
    if random.one_in(3) {
        let field = random.place(3);
        numbers[field] = wrong_number(numbers[field], random);
    }
    let [format, channels, order] = numbers;
    let room = if random.one_in(4) { random.place(5) } else { log.len() };
    referee.call(Case::new(Kind::PutHeader, values![&log[..room.min(log.len())], format, channels, order]))?;
    let cell = vec![random.number() as u8; random.pick(&[48, 48, 48, 48, 47, 49, 0])];
    let length = log.len() as u64;
    let end = length.saturating_sub(49);
    let place = random.pick(&[0, 3, end, end + 1, length, length + 1, u64::MAX, u64::MAX - 48]);
    referee.call(Case::new(Kind::PutRecord, values![log, place, &cell[..], random.one_in(2)]))?;
    let run = vec![b'#'; random.pick(&[0, 1, 14, 15, 200, 20_000])];
    referee.call(Case::new(Kind::LogList, values![log, &run[..]]))?;
    Ok(())
}

pub fn walk(random: &mut Random, referee: &mut Referee) -> Played {
    let log = log(random);
    if random.one_in(4) {
        put(&log, random, referee)?;
    }
    let answer = referee.call(Case::new(Kind::ReadHeader, values![&log[..]]))?;
    let mut next = Some(answer[1].number());
    while let Some(place) = next {
        next = read_record(&log, place, referee)?;
    }
    let length = log.len() as u64;
    let past = [length, length + 1, u64::MAX, u64::MAX - 48, 1 << 63, 1 << 32];
    read_record(&log, random.below(length + 2), referee)?;
    read_record(&log, random.pick(&past), referee)?;
    Ok(())
}

/// A state that mostly fits a log.
fn state_for(log: &[u8], random: &mut Random) -> Vec<u64> {
    let header = plain::header(log).map(|header| [header.format, header.channels, header.order]);
    let [format, channels, order] = header.unwrap_or_else(|_| setup(random));
    let mut state = vec![format, channels, order, 0, 0, 0];
    if random.one_in(3) {
        let overhead = Shape::new(format, channels, order).is_ok_and(|shape| shape.format.overhead);
        let last = if overhead { random.below(16) } else { 0 };
        let count = random.pick(&[1, 7, 4_294_967_280, 4_294_967_294, 4_294_967_295]);
        state.splice(3.., [random.pick(&[1, 1, 255]), last, count]);
    }
    damage_state(&mut state, 8, random);
    state
}

/// A log walked through by a state that mostly fits it, with room that often ends before it, and gone on with.
pub fn judge(random: &mut Random, referee: &mut Referee) -> Played {
    let log = log(random);
    let mut state = state_for(&log, random);
    let mut place = random.pick(&[3, 3, 3, 0, 52, u64::MAX]);
    for _ in 0..3 {
        let room = random.place(5 * (log.len() / 49) + 12);
        let reports = random.octets(room);
        let case = Case::new(Kind::JudgeLog, values![&state[..], &log[..], place, &reports[..]]);
        let answer = referee.call(case)?;
        state = answer[1].run().to_vec();
        place = answer[3].number();
    }
    Ok(())
}

/// A log received by such a state, in runs that are often too short and at times unequally long, and gone on with. At times the log
/// comes in pieces: what is left of one goes to the front of the next.
pub fn receive(random: &mut Random, referee: &mut Referee) -> Played {
    let whole = log(random);
    let mut state = state_for(&whole, random);
    let mut place = random.pick(&[3, 3, 3, 0, 52, u64::MAX]);
    let mut log = whole.clone();
    let mut behind = Vec::new();
    if random.one_in(3) {
        behind = log.split_off(random.place(log.len() + 1));
    }
    for _ in 0..4 {
        let most = random.pick(&[60, 300, 720, 3000]);
        let room = random.place(most);
        let short = |random: &mut Random| if random.one_in(20) { random.place(most) } else { room };
        let samples: Vec<u64> = (0..room).map(|_| random.below(100)).collect();
        let (ancillary, marks) = (short(random), short(random));
        let (ancillary, marks) = (random.octets(ancillary), random.octets(marks));
        let case =
            Case::new(Kind::ReceiveLog, values![&state[..], &log[..], place, &samples[..], &ancillary[..], &marks[..]]);
        let answer = referee.call(case)?;
        state = answer[1].run().to_vec();
        place = answer[5].number();
        if answer[7].number() == 12 && !behind.is_empty() {
            log = [&log[place as usize..], &behind[..]].concat();
            (behind, place) = (Vec::new(), 0);
        }
    }
    Ok(())
}

/// A log that is often silent: cells of zeros with sound protection, in some of them one entry that may be anything. Its
/// marks, its unused slots and what the line does to a cell may look like sound.
fn silent_log(random: &mut Random) -> Vec<u8> {
    let (mut log, [format, channels, order]) = header(random);
    let Ok(shape) = Shape::new(format, channels, order) else { return log };
    let mut number = random.below(16);
    for _ in 0..random.below(9) {
        let mut samples = vec![0; shape.entries()];
        if random.one_in(8) {
            samples[random.place(shape.entries())] = 1 << random.below(u64::from(shape.format.sample_bits));
        }
        let ancillary = ancillary(&shape, shape.entries(), u64::MAX, random);
        let mut octets = shape.pack(number, 0, &samples, &ancillary);
        if random.one_in(3) {
            alter(&mut octets, &shape, random);
        }
        log.push(if random.one_in(20) { random.below(256) as u8 } else { 0 });
        log.extend(octets);
        number = (number + random.pick(&[0, 1, 1, 1, 2])) % 16;
    }
    damage(&mut log, random);
    log
}

pub fn anything(random: &mut Random, referee: &mut Referee) -> Played {
    let log = if random.one_in(4) { log(random) } else { silent_log(random) };
    referee.call(Case::new(Kind::Anything, values![&log[..]])).map(|_| ())
}

/// How a log is divided: into pieces of one length, whatever that is, or of lengths about those of records, now and then none.
fn division(length: usize, random: &mut Random) -> Vec<u64> {
    let longest = random.pick(&[8, 150]);
    let (each, even) = (1 + random.below(longest), random.one_in(2));
    let (mut left, mut lengths) = (length, vec![]);
    while left > 0 && lengths.len() < 2000 {
        let about = [0, 1, 2, 3, 8, 9, 46, 48, 49, 50, 52, 97, 98, 99, 1000];
        let piece = if even { each } else { random.pick(&about) };
        lengths.push(piece);
        left = left.saturating_sub(piece as usize);
    }
    lengths
}

/// A log in pieces, by each of the four.
pub fn pieces(random: &mut Random, referee: &mut Referee) -> Played {
    let log = if random.one_in(3) { silent_log(random) } else { log(random) };
    for kind in [Kind::ListPieces, Kind::SalvagePieces, Kind::AnythingPieces, Kind::FiguresPieces] {
        let lengths = division(log.len(), random);
        referee.call(Case::new(kind, values![&log[..], &lengths[..]]))?;
    }
    Ok(())
}

/// Now and then the log goes on with records of zeros, past what `linelist` reads at a time.
pub fn list(random: &mut Random, referee: &mut Referee) -> Played {
    let mut log = log(random);
    if random.one_in(8) {
        let whole = log.clone();
        log = whole
            .iter()
            .copied()
            .chain(std::iter::repeat(0))
            .take(random.pick(&[65_535, 65_536, 65_537, 131_072, 200_000]))
            .collect();
    }
    referee.call(Case::new(Kind::Linelist, values![&log[..]])).map(|_| ())
}

/// A length beside that of a result: one short of it, just as long, longer, or anything up to twice as long.
fn about(length: usize, random: &mut Random) -> usize {
    match random.below(6) {
        0 => length.saturating_sub(1),
        1 | 2 => length,
        3 | 4 => length + random.place(60),
        _ => random.place(2 * length + 1),
    }
}

/// A log salvaged, and what came of it salvaged again.
pub fn salvage(random: &mut Random, referee: &mut Referee) -> Played {
    let log = log(random);
    let (octets, numbers) = plain::salvage(&log).map_or((3, 2), |saved| (saved.log.len(), saved.list.len()));
    let (octets, numbers) = (about(octets, random), about(numbers, random));
    let (out, list) = (random.octets(octets), random.wide_run(numbers));
    let answer = referee.call(Case::new(Kind::Salvage, values![&log[..], &out[..], &list[..]]))?;
    if answer[0].number() != 0 {
        return Ok(());
    }
    let new = &answer[1].octets()[..answer[3].number() as usize];
    let again = referee.call(Case::new(Kind::Salvage, values![new, &vec![0u8; new.len()][..], &[7u64][..]]))?;
    let same = values![0, new, &[7u64][..], new.len() as u64, 0, 0];
    assert!(again == same, "salvaged twice: {}", fields(&again));
    Ok(())
}

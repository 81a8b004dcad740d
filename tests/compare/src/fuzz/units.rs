//! Data units: exported and read back unit by unit, with arguments that are often wrong in one place; and units of anything.

use super::inputs::{ancillary, length, samples, setup, shape_of, wrong_number};
use super::{Played, Referee};
use crate::case::{values, Answer, Case, Kind};
use crate::plain::Shape;
use crate::random::Random;

/// A set-up that mostly has no overhead, now and then with one number wrong; octet and C.
fn settings(random: &mut Random) -> [u64; 2] {
    let [format, channels, _] = setup(random);
    let bare = random.pick(&[0x02, 0x04, 0x06, 0x08, 0x43, 0x45, 0x47]);
    let slots = Shape::new(bare, 1, 0).map_or(1, |shape| shape.format.slots as u64);
    let mut settings = if random.one_in(8) { [format, channels] } else { [bare, 1 + (channels - 1) % slots] };
    if random.one_in(16) {
        let field = random.place(2);
        settings[field] = wrong_number(settings[field], random);
    }
    settings
}

/// The octets of a frame by the plain shape.
fn frame_octets(shape: &Shape) -> usize {
    shape.channels * 48 / shape.format.slots
}

/// A size near some frames' octets, now and then below one frame's or larger than all.
fn size(shape: &Shape, random: &mut Random) -> u64 {
    let frame = frame_octets(shape) as u64;
    match random.below(8) {
        0 => random.below(frame + 1),
        1 => random.pick(&[u64::MAX, 1 << 63, u64::MAX - frame, 1500]),
        _ => frame * (1 + random.below(6)) + random.below(frame),
    }
}

pub fn export(random: &mut Random, referee: &mut Referee) -> Played {
    let [octet, channels] = settings(random);
    let shape = shape_of(&[octet, channels, 0], random);
    let size = size(&shape, random);
    let count = length(shape.channels * random.place(9), 12, random);
    let samples = samples(&shape, count, 12, random);
    let ancillary_count = length(count, 24, random);
    let ancillary = ancillary(&shape, ancillary_count, 12, random);
    let octets = count * 48 / shape.format.slots;
    let room = if random.one_in(2) { octets } else { length(octets, 3, random) + random.place(7) };
    let out = random.octets(room);
    let inputs = values![octet, channels, size, &samples[..], &ancillary[..], &out[..]];
    let answer = referee.call(Case::new(Kind::UnitsExport, inputs))?;
    if answer[0].number() == 0 {
        read_back([octet, channels], &answer, &samples, &ancillary, random, referee)?;
    }
    Ok(())
}

/// The units that an answer tells, read one after the other: what went out comes back.
fn read_back(
    settings: [u64; 2],
    exported: &Answer,
    samples: &[u64],
    ancillary: &[u64],
    random: &mut Random,
    referee: &mut Referee,
) -> Played {
    let [octets, full, units] = [2, 3, 4].map(|field| exported[field].number() as usize);
    let written = &exported[1].octets()[..octets];
    let mut back = (vec![], vec![]);
    for unit in written.chunks(full) {
        let room = unit.len() + random.place(3);
        let answer = referee.call(reading(settings, unit, [room; 2], random))?;
        let entries = answer[3].number() as usize;
        assert_eq!(answer[0].number(), 0, "a unit of an export is taken");
        back.0.extend_from_slice(&answer[1].run()[..entries]);
        back.1.extend_from_slice(&answer[2].run()[..entries]);
    }
    assert_eq!(written.chunks(full).count(), units, "as many units as the export tells");
    assert_eq!((&back.0[..], &back.1[..]), (samples, ancillary), "what went out comes back");
    Ok(())
}

fn reading([octet, channels]: [u64; 2], unit: &[u8], lengths: [usize; 2], random: &mut Random) -> Case {
    let samples = random.wide_run(lengths[0]);
    let ancillary = random.run(lengths[1], 256);
    Case::new(Kind::UnitRead, values![octet, channels, unit, &samples[..], &ancillary[..]])
}

/// A unit of any octets, whole frames or not, and runs that may be too short or unequal.
pub fn read(random: &mut Random, referee: &mut Referee) -> Played {
    let [octet, channels] = settings(random);
    let shape = shape_of(&[octet, channels, 0], random);
    let frames = random.place(6);
    let octets = length(frames * frame_octets(&shape), 6, random);
    let unit = random.octets(octets);
    let entries = octets * shape.format.slots / 48;
    let room = if random.one_in(2) { entries } else { length(entries, 3, random) + random.place(4) };
    let lengths = [room, length(room, 16, random)];
    let case = reading([octet, channels], &unit, lengths, random);
    referee.call(case).map(|_| ())
}

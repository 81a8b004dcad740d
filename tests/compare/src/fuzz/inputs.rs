//! What goes into a call: mostly right, so that every check is reached, and often wrong in one place.

use crate::plain::Shape;
use crate::random::Random;

/// The fourteen, and beside them some whose subframe would fill no whole octets.
const FORMATS: [u64; 14] = [0x02, 0x04, 0x06, 0x08, 0x13, 0x15, 0x17, 0x43, 0x45, 0x47, 0x52, 0x54, 0x56, 0x5A];
const PART_OCTETS: [u64; 5] = [0x03, 0x14, 0x18, 0x46, 0x55];

/// A call set-up that is taken: octet, C, order.
pub fn setup(random: &mut Random) -> [u64; 3] {
    let format = random.pick(&FORMATS);
    let slots = slots_of(format);
    let channels = match random.below(4) {
        0 => random.pick(&[1, 2]),
        1 => random.pick(&[slots - 1, slots, slots / 2, slots / 2 + 1]),
        _ => 1 + random.below(slots),
    };
    [format, channels, random.below(2)]
}

fn slots_of(format: u64) -> u64 {
    Shape::new(format, 1, 0).map_or(1, |shape| shape.format.slots as u64)
}

/// The layout of a state that may be anything; where there is none, that of an arbitrary format.
pub fn shape_of(state: &[u64], random: &mut Random) -> Shape {
    let [format, channels, order] = setup(random);
    let shape = Shape::new(state[0], state[1], state[2]).or_else(|_| Shape::new(format, channels, order));
    shape.unwrap_or_else(|refusal| panic!("a set-up that must be taken is refused {refusal}"))
}

/// A number near `right`, at the edge of a width, or wide with the right low octet.
pub fn wrong_number(right: u64, random: &mut Random) -> u64 {
    match random.below(8) {
        0 => right.wrapping_add(1) % (1 << 32),
        1 => right.saturating_sub(1),
        2 => right + 256 * (1 + random.below(1 << 20)),
        3 => random.pick(&[0, 15, 16, 48, 49, 255, 256, 65_536, u64::from(u32::MAX)]),
        4 => random.pick(&PART_OCTETS),
        5 => random.below(1 << 32),
        _ => random.below(256),
    }
}

/// One time in `chances`, one or two of the fields become anything that an octet holds.
pub fn damage_state(state: &mut [u64], chances: u64, random: &mut Random) {
    if random.one_in(chances) {
        for _ in 0..=random.below(2) {
            let field = random.place(state.len());
            state[field] = wrong_number(state[field], random) % 256;
        }
    }
}

/// `right`, or one time in `chances` another length.
pub fn length(right: usize, chances: u64, random: &mut Random) -> usize {
    if !random.one_in(chances) {
        return right;
    }
    match random.below(5) {
        0 => 0,
        1 => right + 1,
        2 => right.saturating_sub(1),
        3 => right * 2,
        _ => random.place(100),
    }
}

fn sample(bits: u32, random: &mut Random) -> u64 {
    let top = 1 << (bits - 1);
    match random.below(4) {
        0 => random.pick(&[0, 1, top, top - 1, 2 * top - 1, 1 << (bits - 8), top >> 8]),
        _ => random.below(2 * top),
    }
}

/// Samples that fit, or one time in `chances` one among them that doesn't.
pub fn samples(shape: &Shape, count: usize, chances: u64, random: &mut Random) -> Vec<u64> {
    let bits = shape.format.sample_bits;
    let mut run: Vec<u64> = (0..count).map(|_| sample(bits, random)).collect();
    if count > 0 && random.one_in(chances) {
        let too_large =
            [1 << bits, u64::MAX, 1 << 63, (1 << bits) | random.below(1 << bits), random.number() | 1 << 41];
        run[random.place(count)] = random.pick(&too_large);
    }
    run
}

/// Ancillary that the format carries, or one time in `chances` one number among it that it can't.
pub fn ancillary(shape: &Shape, count: usize, chances: u64, random: &mut Random) -> Vec<u64> {
    let bound = if shape.format.ancillary { 16 } else { 1 };
    let mut run = random.run(count, bound);
    if count > 0 && random.one_in(chances) {
        run[random.place(count)] = bound + random.below(256 - bound);
    }
    run
}

/// A cell by the plain implementation: this number, and anything else that the format carries.
pub fn cell(shape: &Shape, number: u64, random: &mut Random) -> Vec<u8> {
    let samples = samples(shape, shape.entries(), u64::MAX, random);
    let ancillary = ancillary(shape, shape.entries(), u64::MAX, random);
    shape.pack(number, random.below(16), &samples, &ancillary)
}

/// The indication beside a cell of this number: anything where it may be 1, and elsewhere 1 now and then, as a switch once
/// set it.
pub fn indication(number: u64, random: &mut Random) -> bool {
    random.one_in(if number.is_multiple_of(8) { 2 } else { 4 })
}

/// What a line does to a cell that it delivers: nothing, a few bits altered anywhere or in the eight number bits of the
/// format, or all octets replaced.
pub fn alter(cell: &mut [u8], shape: &Shape, random: &mut Random) {
    let subframe = 384 / shape.format.slots;
    match random.below(8) {
        0..=3 => {}
        4 | 5 => (0..=random.below(4)).for_each(|_| turn(cell, random.place(384))),
        6 => (0..=random.below(5)).for_each(|_| turn(cell, (random.place(8) + 1) * subframe - 4)),
        _ => cell.copy_from_slice(&random.octets(cell.len())),
    }
}

fn turn(cell: &mut [u8], bit: usize) {
    cell[bit / 8] ^= 0x80 >> (bit % 8);
}

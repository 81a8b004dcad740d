//! Subframe formats, the sequencing word, the protection of a sample, and placement.

use super::bits::{bits_of, bits_of_octets, complement, lowest_first, number_of, octets_of_bits, remainder, Bits};
use super::{refuse_if, Refusal};

pub const CELL_OCTETS: usize = 48;
const X3_X_1: [bool; 4] = [true, false, true, true];

/// What a subframe octet says.
#[derive(Clone, Copy)]
pub struct Format {
    pub ancillary: bool,
    pub overhead: bool,
    pub sample_bits: u32,
    pub slots: usize,
}

/// A field of two bits: "00 none, 01 four bits, 1x reserved".
fn four_bits_or_none(field: u64) -> Option<bool> {
    match field {
        0 => Some(false),
        1 => Some(true),
        _ => None,
    }
}

fn format_of(octet: u64) -> Option<Format> {
    if octet > 255 {
        return None;
    }
    let ancillary = four_bits_or_none(octet >> 6)?;
    let overhead = four_bits_or_none(octet >> 4 & 3)?;
    let sample_bits = match octet & 15 {
        code @ (2..=8 | 10) => 4 * code as u32,
        _ => return None,
    };
    let subframe_bits = sample_bits + 4 * u32::from(ancillary) + 4 * u32::from(overhead);
    if ![8, 16, 24, 32, 48].contains(&subframe_bits) {
        return None;
    }
    Some(Format { ancillary, overhead, sample_bits, slots: CELL_OCTETS * 8 / subframe_bits as usize })
}

/// A format with its channels, times and order: how a cell is laid out.
#[derive(Clone, Copy)]
pub struct Shape {
    pub format: Format,
    pub channels: usize,
    pub times: usize,
    pub order: u64,
}

/// What one slot carries beside the sequencing bit.
#[derive(Clone, Copy)]
pub struct Entry {
    pub sample: u64,
    pub ancillary: u64,
    pub mark: u64,
}

impl Shape {
    /// Checks 1 to 3.
    pub fn new(octet: u64, channels: u64, order: u64) -> Result<Shape, Refusal> {
        let format = format_of(octet).ok_or(1)?;
        refuse_if(channels == 0 || channels > format.slots as u64, 2)?;
        refuse_if(order > 1, 3)?;
        let channels = channels as usize;
        Ok(Shape { format, channels, times: format.slots / channels, order })
    }

    /// C×T, the entries of a cell.
    pub fn entries(&self) -> usize {
        self.channels * self.times
    }

    /// "where S is at least 12", and only overhead has sequencing bits at all.
    pub fn has_second(&self) -> bool {
        self.format.overhead && self.format.slots >= 12
    }

    fn slot_of(&self, entry: usize) -> usize {
        let (time, channel) = (entry / self.channels, entry % self.channels);
        match self.order {
            0 => time * self.channels + channel,
            _ => channel * self.times + time,
        }
    }

    fn subframe_bits(&self) -> usize {
        CELL_OCTETS * 8 / self.format.slots
    }

    /// The cell's octets. Unused slots have sample and ancillary 0, and are protected like any other.
    pub fn pack(&self, number: u64, second: u64, samples: &[u64], ancillary: &[u64]) -> Vec<u8> {
        let mut slots = vec![(0, 0); self.format.slots];
        for entry in 0..self.entries() {
            slots[self.slot_of(entry)] = (samples[entry], ancillary[entry]);
        }
        let word = sequencing_word(number, second, self.format.slots);
        let subframes = slots.iter().zip(word).flat_map(|(&(sample, four), bit)| self.subframe(sample, four, bit));
        octets_of_bits(&subframes.collect::<Bits>())
    }

    /// "sample, most significant bit first; then B, C, U, V; then a sequencing bit and three protection bits".
    fn subframe(&self, sample: u64, ancillary: u64, sequencing: bool) -> Bits {
        let mut bits = bits_of(sample, self.format.sample_bits);
        if self.format.ancillary {
            bits.extend(bits_of(ancillary, 4));
        }
        if self.format.overhead {
            bits.push(sequencing);
            bits.extend(self.protection(sample, ancillary));
        }
        bits
    }

    fn protection(&self, sample: u64, ancillary: u64) -> Bits {
        match self.format.ancillary {
            true => protection_with_v(sample, self.format.sample_bits, ancillary % 2 == 1),
            false => protection_without_v(sample, self.format.sample_bits),
        }
    }

    /// The entries of a cell in the order of the runs.
    pub fn unpack(&self, cell: &[u8]) -> Vec<Entry> {
        let bits = bits_of_octets(cell);
        let subframes: Vec<&[bool]> = bits.chunks(self.subframe_bits()).collect();
        (0..self.entries()).map(|entry| self.entry_of(subframes[self.slot_of(entry)])).collect()
    }

    fn entry_of(&self, subframe: &[bool]) -> Entry {
        let (sample, rest) = subframe.split_at(self.format.sample_bits as usize);
        let sample = number_of(sample);
        let ancillary = if self.format.ancillary { number_of(&rest[..4]) } else { 0 };
        let disagrees = self.format.overhead && rest[rest.len() - 3..] != self.protection(sample, ancillary);
        Entry { sample, ancillary, mark: u64::from(disagrees) }
    }

    /// "the sequencing bits of all S slots in order, unused slots included".
    fn sequencing_bits(&self, cell: &[u8]) -> Bits {
        bits_of_octets(cell).chunks(self.subframe_bits()).map(|subframe| subframe[subframe.len() - 4]).collect()
    }

    /// The number and second number of a cell with overhead: nothing where its eight number bits are in no table entry.
    pub fn numbers_of(&self, cell: &[u8]) -> Option<(u64, u64)> {
        let bits = self.sequencing_bits(cell);
        let number = (0..16).find(|&number| number_word(number) == bits[..8])?;
        let second = if self.has_second() { number_of(&lowest_first(bits[8..12].to_vec())) } else { 0 };
        Some((number, second))
    }
}

/// The first eight sequencing bits, by the division and the parity rule.
pub fn number_word(number: u64) -> Bits {
    let four = lowest_first(bits_of(number, 4));
    let times_x3 = [&four[..], &[false; 3]].concat();
    let mut word = [four, complement(&remainder(&times_x3, &X3_X_1))].concat();
    let odd = word.iter().filter(|&&bit| bit).count() % 2 == 1;
    word.push(odd);
    word
}

fn sequencing_word(number: u64, second: u64, slots: usize) -> Bits {
    let mut word = number_word(number);
    word.extend(lowest_first(bits_of(second, 4)));
    word.resize(slots, false);
    word
}

/// "x^4 times the nine top sample bits (the top one as x^8) plus x^3 times V"; "an 8-bit sample has a ninth bit of 0".
fn protection_with_v(sample: u64, sample_bits: u32, v: bool) -> Bits {
    let mut dividend = bits_of(sample, sample_bits);
    dividend.resize(9, false);
    dividend.push(v);
    dividend.extend([false; 3]);
    complement(&remainder(&dividend, &X3_X_1))
}

/// Clause 4.1.4.2, where there is no V bit: "the product x3 multiplied by the most significant nine bits of the audio
/// sample". Each such format has nine bits and more.
fn protection_without_v(sample: u64, sample_bits: u32) -> Bits {
    let nine = sample >> (sample_bits - 9);
    let product = bits_of(nine << 3, 12);
    complement(&remainder(&product, &X3_X_1))
}

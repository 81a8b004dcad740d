//! Data units of IEC 62379-5-2 with synchronisation information absent, by request 13 of document 02 and 7.3 of source
//! document 004: a unit is a list of frames, a frame a list of subframes, a subframe a list of bits.

use super::bits::{bits_of, bits_of_octets, number_of, octets_of_bits, Bits};
use super::cells::{Entry, Format, Shape};
use super::{refuse_if, Refusal};

/// The units of an export, and how many octets a full one has.
pub struct Units {
    pub each: Vec<Vec<u8>>,
    pub full: u64,
}

fn bits_in_subframe(format: &Format) -> usize {
    format.sample_bits as usize + if format.ancillary { 4 } else { 0 } + if format.overhead { 4 } else { 0 }
}

/// "one subframe for each channel at one sample time", each as 4.1 of IEC 62365 has it.
fn frame(format: &Format, samples: &[u64], ancillary: &[u64]) -> Vec<u8> {
    let mut bits = Bits::new();
    for (&sample, &four) in samples.iter().zip(ancillary) {
        bits.extend(bits_of(sample, format.sample_bits));
        bits.extend(bits_of(four, if format.ancillary { 4 } else { 0 }));
    }
    octets_of_bits(&bits)
}

fn frame_octets(shape: &Shape) -> usize {
    shape.channels * bits_in_subframe(&shape.format) / 8
}

fn fits(format: &Format, sample: u64, four: u64) -> bool {
    sample < 1 << format.sample_bits && four < if format.ancillary { 16 } else { 1 }
}

pub fn export_units(
    [octet, channels]: [u64; 2],
    size: u64,
    samples: &[u64],
    ancillary: &[u64],
    room: usize,
) -> Result<Units, Refusal> {
    let shape = Shape::new(octet, channels, 0)?;
    refuse_if(samples.len() != ancillary.len() || !samples.len().is_multiple_of(shape.channels), 5)?;
    let all_fit = samples.iter().zip(ancillary).all(|(&sample, &four)| fits(&shape.format, sample, four));
    refuse_if(!all_fit, 6)?;
    refuse_if(shape.format.overhead, 26)?;
    let frame_size = frame_octets(&shape);
    refuse_if(size < frame_size as u64, 27)?;
    let times = samples.chunks(shape.channels).zip(ancillary.chunks(shape.channels));
    let frames: Vec<Vec<u8>> = times.map(|(samples, ancillary)| frame(&shape.format, samples, ancillary)).collect();
    let in_full = size / frame_size as u64;
    let each: Vec<Vec<u8>> = frames.chunks(in_full as usize).map(|frames| frames.concat()).collect();
    refuse_if(room < each.iter().map(Vec::len).sum(), 28)?;
    Ok(Units { each, full: in_full * frame_size as u64 })
}

pub fn read_unit([octet, channels]: [u64; 2], unit: &[u8], lengths: [usize; 2]) -> Result<Vec<Entry>, Refusal> {
    let shape = Shape::new(octet, channels, 0)?;
    let format = shape.format;
    let whole = !unit.is_empty() && unit.len().is_multiple_of(frame_octets(&shape));
    refuse_if(lengths[0] != lengths[1] || !whole, 5)?;
    refuse_if(format.overhead, 26)?;
    let bits = bits_of_octets(unit);
    let entries: Vec<Entry> =
        bits.chunks(bits_in_subframe(&format)).map(|subframe| entry_of(&format, subframe)).collect();
    refuse_if(lengths[0] < entries.len(), 28)?;
    Ok(entries)
}

fn entry_of(format: &Format, subframe: &[bool]) -> Entry {
    let (sample, four) = subframe.split_at(format.sample_bits as usize);
    Entry { sample: number_of(sample), ancillary: number_of(four), mark: 0 }
}

//! Frames of an AES3 cable, by request 1 of document 02 and 2.2.1 of source document 002: a subframe is 32 slots.

use super::cells::Entry;
use super::{refuse_if, Refusal};

/// The slots of a subframe, slot 0 first.
type Slots = [bool; 32];

fn slots_of(subframe: u64) -> Slots {
    std::array::from_fn(|slot| subframe >> slot & 1 == 1)
}

fn subframe_of(slots: &Slots) -> u64 {
    (0..32).filter(|&slot| slots[slot]).map(|slot| 1 << slot).sum()
}

/// "even parity over slots 4 to 31"
fn is_odd(slots: &Slots) -> bool {
    slots[4..].iter().filter(|&&one| one).count() % 2 == 1
}

fn entry_of(slots: &Slots, begins: bool) -> Entry {
    let sample = (0..24).filter(|&bit| slots[4 + bit]).map(|bit| 1 << bit).sum();
    let worth = [(begins, 8), (slots[30], 4), (slots[29], 2), (slots[28], 1)];
    let ancillary = worth.iter().filter(|bit| bit.0).map(|bit| bit.1).sum();
    Entry { sample, ancillary, mark: 0 }
}

fn slots_with(sample: u64, ancillary: u64) -> Slots {
    let mut slots = [false; 32];
    for bit in 0..24 {
        slots[4 + bit] = sample >> bit & 1 == 1;
    }
    slots[28] = ancillary & 1 != 0;
    slots[29] = ancillary & 2 != 0;
    slots[30] = ancillary & 4 != 0;
    slots[31] = is_odd(&slots);
    slots
}

pub fn import_frame(preambles: &[u8], subframes: &[u64]) -> Result<[Entry; 2], Refusal> {
    let begins = match preambles {
        b"XY" => false,
        b"ZY" => true,
        _ => return Err(16),
    };
    let halves = [slots_of(subframes[0]), slots_of(subframes[1])];
    refuse_if(halves.iter().any(is_odd), 17)?;
    Ok(halves.map(|slots| entry_of(&slots, begins)))
}

pub fn export_frame(samples: &[u64], ancillary: &[u64]) -> Result<([u8; 2], [u64; 2]), Refusal> {
    refuse_if(samples.iter().any(|&sample| sample >= 1 << 24) || ancillary.iter().any(|&number| number > 15), 6)?;
    let begins = [ancillary[0] >= 8, ancillary[1] >= 8];
    refuse_if(begins[0] != begins[1], 29)?;
    let preambles = if begins[0] { *b"ZY" } else { *b"XY" };
    Ok((preambles, [0, 1].map(|half| subframe_of(&slots_with(samples[half], ancillary[half])))))
}

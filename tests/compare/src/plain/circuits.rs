//! Sharing channels out over circuits, by request 11 of document 02.

use super::cells::Shape;
use super::{refuse_if, Refusal};

const MOST_CIRCUITS: usize = 64;
const MOST_CHANNELS: u64 = 1024;
const MOST_FREQUENCY: u64 = 1_000_000;

/// What is wrong with a plan, the first of its faults.
pub enum Fault {
    Share(usize),
    Allowance(usize),
    Sum,
}

/// S of the octet's format.
fn slots_of(octet: u64) -> Result<u64, Refusal> {
    Shape::new(octet, 1, 0).map(|shape| shape.format.slots as u64)
}

fn refuse_too_many(circuits: usize, channels: u64) -> Result<(), Refusal> {
    refuse_if(circuits > MOST_CIRCUITS || channels > MOST_CHANNELS, 22)
}

/// The fault of one circuit.
fn fault_of(circuit: usize, slots: u64, frequency: u64, share: u64, allowance: u64) -> Option<Fault> {
    if share < 1 || share > slots {
        return Some(Fault::Share(circuit));
    }
    let times = slots / share;
    (frequency.div_ceil(times) > allowance).then_some(Fault::Allowance(circuit))
}

/// The first fault of a plan: circuit by circuit the share, then the allowance; the sum last.
pub fn check_plan(
    octet: u64,
    channels: u64,
    frequency: u64,
    shares: &[u64],
    allowances: &[u64],
) -> Result<Option<Fault>, Refusal> {
    let slots = slots_of(octet)?;
    refuse_if(shares.len() != allowances.len(), 5)?;
    refuse_too_many(shares.len(), channels)?;
    refuse_if(frequency == 0 || frequency > MOST_FREQUENCY, 23)?;
    let circuits = shares.iter().zip(allowances).enumerate();
    let mut faults =
        circuits.filter_map(|(circuit, (&share, &allowance))| fault_of(circuit, slots, frequency, share, allowance));
    let sum_fault = || (shares.iter().sum::<u64>() != channels).then_some(Fault::Sum);
    Ok(faults.next().or_else(sum_fault))
}

/// Channel after channel goes to the first circuit that has room.
pub fn plan(octet: u64, channels: u64, circuits: usize) -> Result<Vec<u64>, Refusal> {
    let slots = slots_of(octet)?;
    refuse_too_many(circuits, channels)?;
    let mut shares = vec![0; circuits];
    for _ in 0..channels {
        *shares.iter_mut().find(|share| **share < slots).ok_or(30)? += 1;
    }
    Ok(shares)
}

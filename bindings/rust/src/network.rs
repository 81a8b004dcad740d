//! Data units for the other building's network (IEC 62379-5-2).

use crate::{face, unless_refused, Format, Refusal};

/// Data units end to end, all of them full but perhaps the last.
#[derive(Debug, Clone, PartialEq, Eq)]
pub struct Units {
    pub octets: Vec<u8>,
    /// Octets of a full unit.
    pub full: usize,
}

impl Units {
    /// The units, one after the other.
    pub fn iter(&self) -> impl Iterator<Item = &[u8]> {
        self.octets.chunks(self.full.max(1))
    }
}

/// Entries as data units of at most `size` octets. Marks don't travel: a gap leaves as silence that looks like sound. Refused 1,
/// 2, 5, 6, 26 or 27.
///
/// ```
/// use rimesatchel::{export_units, read_unit};
///
/// let samples = [1, 2, 3, 4, 5, 6];
/// let units = export_units(0x06, 2, 12, &samples, &[0; 6])?; // two frames of six octets fit twelve
/// assert_eq!(units.iter().count(), 2);
/// assert_eq!(read_unit(0x06, 2, units.iter().next().unwrap())?, vec![(1, 0), (2, 0), (3, 0), (4, 0)]);
/// # Ok::<(), rimesatchel::Refusal>(())
/// ```
pub fn export_units(
    format: u32,
    channels: u32,
    size: usize,
    samples: &[u64],
    ancillary: &[u8],
) -> Result<Units, Refusal> {
    let (mut octets, mut told) = (vec![0; Format::of(format)?.octets() * samples.len()], [0; 3]);
    let refusal = face::units_export([format, channels], size, samples, ancillary, &mut octets, &mut told);
    octets.truncate(told[0] as usize);
    unless_refused(refusal, Units { octets, full: told[1] as usize })
}

/// The samples and ancillary numbers of one data unit. Refused 1, 2, 5 or 26.
pub fn read_unit(format: u32, channels: u32, unit: &[u8]) -> Result<Vec<(u64, u8)>, Refusal> {
    let (mut samples, mut ancillary, mut entries) = (vec![0; unit.len()], vec![0; unit.len()], 0);
    let refusal = face::unit_read([format, channels], unit, &mut samples, &mut ancillary, &mut entries);
    unless_refused(refusal, samples.into_iter().zip(ancillary).take(entries as usize).collect())
}

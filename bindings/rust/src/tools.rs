//! What is told of logs: whether there is anything on one, what can be saved of it, and the figures of many.

use crate::{face, unless_refused, Refusal};

/// Whether there is anything on a log.
#[derive(Debug, Clone, Copy, PartialEq, Eq)]
pub enum Anything {
    /// A sound sample that isn't zero, first in this record, counted from 0.
    Yes(u64),
    /// None in so many whole records.
    No(u64),
}

impl Anything {
    pub(crate) fn of([found, number]: [u64; 2]) -> Anything {
        if found == 1 {
            Anything::Yes(number)
        } else {
            Anything::No(number)
        }
    }
}

/// Is there anything on a log at all? Refused 11, 1, 2 or 3.
///
/// ```
/// use rimesatchel::{anything, Anything, Sender, Setup, Writer};
///
/// let setup = Setup { format: 0x56, channels: 2, order: 0 };
/// let (mut sender, mut writer) = (Sender::open(setup)?, Writer::new(setup)?);
/// writer.push(&sender.send(&[0; 12], &[0; 12], false)?, false)?;
/// assert_eq!(anything(writer.octets())?, Anything::No(1));
/// writer.push(&sender.send(&[7; 12], &[0; 12], false)?, false)?;
/// assert_eq!(anything(writer.octets())?, Anything::Yes(1));
/// # Ok::<(), rimesatchel::Refusal>(())
/// ```
pub fn anything(log: &[u8]) -> Result<Anything, Refusal> {
    let mut answer = [0; 2];
    let refusal = face::anything(log, &mut answer);
    unless_refused(refusal, Anything::of(answer))
}

/// What was saved of a log.
#[derive(Debug, Clone, PartialEq, Eq)]
pub struct Salvaged {
    /// The same header, and the sound records in their order.
    pub log: Vec<u8>,
    /// Each whole record that was left out, and why.
    pub left_out: Vec<(u64, Refusal)>,
    /// Octets that were cut, from a faulty record's first to the end.
    pub cut: u64,
}

/// A new log of the sound records of a torn one. Refused 11, 1, 2 or 3.
///
/// ```
/// use rimesatchel::{salvage, Sender, Setup, Writer};
///
/// let setup = Setup { format: 0x56, channels: 2, order: 0 };
/// let (mut sender, mut writer) = (Sender::open(setup)?, Writer::new(setup)?);
/// let cell = sender.send(&[7; 12], &[0; 12], false)?;
/// writer.push(&cell, false)?;
/// let sound = writer.octets().to_vec();
/// writer.push(&cell, false)?; // the line repeats it
/// let mut torn = writer.into_octets();
/// torn.push(0); // and the disk is torn
///
/// let saved = salvage(&torn)?;
/// assert_eq!((saved.log, saved.cut), (sound, 1));
/// assert_eq!(saved.left_out[0].1.number(), 9);
/// # Ok::<(), rimesatchel::Refusal>(())
/// ```
pub fn salvage(log: &[u8]) -> Result<Salvaged, Refusal> {
    let (mut out, mut list, mut counts) = (vec![0; log.len()], vec![0; 2 * (log.len() / 49)], [0; 3]);
    let refusal = face::salvage(log, &mut out, &mut list, &mut counts);
    let [octets, left, cut] = counts;
    out.truncate(octets as usize);
    let pairs = list.chunks_exact(2).take(left as usize);
    let left_out = pairs.filter_map(|pair| Some((pair[0], Refusal::new(pair[1] as u8)?))).collect();
    unless_refused(refusal, Salvaged { log: out, left_out, cut })
}

/// The figures of a log, or of all.
#[derive(Debug, Clone, Copy, PartialEq, Eq, Default)]
pub struct Figures {
    pub sound: u32,
    pub missing: u32,
    /// By the refusals 8, 9, 15 and 20.
    pub refused: [u32; 4],
    /// Entries with mark 0, 1 and 2.
    pub marked: [u32; 3],
    /// Missing cells of a million sound and missing ones, rounded down.
    pub missing_per_million: u32,
}

impl Figures {
    pub(crate) fn of([sound, missing, a, b, c, d, x, y, z, missing_per_million]: [u32; 10]) -> Figures {
        Figures { sound, missing, refused: [a, b, c, d], marked: [x, y, z], missing_per_million }
    }
}

/// The figures of many logs: a row for each, and all together.
#[derive(Debug, Clone, PartialEq, Eq)]
pub struct Sheet {
    pub rows: Vec<Figures>,
    pub all: Figures,
}

/// Counts over up to 4,096 logs. Refused 18 or 19.
///
/// ```
/// use rimesatchel::{sheet, Sender, Setup, Writer};
///
/// let setup = Setup { format: 0x56, channels: 2, order: 0 };
/// let (mut sender, mut writer) = (Sender::open(setup)?, Writer::new(setup)?);
/// writer.push(&sender.send(&[7; 12], &[0; 12], false)?, false)?;
/// sender.send(&[7; 12], &[0; 12], false)?; // the line loses this one
/// writer.push(&sender.send(&[7; 12], &[0; 12], false)?, false)?;
///
/// let figures = sheet(&[writer.octets(), b"no log"])?;
/// assert_eq!((figures.all.sound, figures.all.missing, figures.all.marked), (2, 1, [24, 0, 12]));
/// assert_eq!(figures.all.missing_per_million, 333_333);
/// assert_eq!(figures.rows[1].sound, 0);
/// # Ok::<(), rimesatchel::Refusal>(())
/// ```
pub fn sheet(logs: &[&[u8]]) -> Result<Sheet, Refusal> {
    let lengths: Vec<u64> = logs.iter().map(|log| log.len() as u64).collect();
    let (mut rows, mut totals) = (vec![0; 10 * logs.len()], [0; 10]);
    let refusal = face::sheet(&logs.concat(), &lengths, &mut rows, &mut totals);
    let row = |numbers: &[u32]| Figures::of(std::array::from_fn(|at| numbers[at]));
    unless_refused(refusal, Sheet { rows: rows.chunks_exact(10).map(row).collect(), all: Figures::of(totals) })
}

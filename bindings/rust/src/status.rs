//! Channel status.

use crate::{face, unless_refused, Mark, Refusal};

/// Whether a block's check character fits.
#[derive(Debug, Clone, Copy, PartialEq, Eq)]
pub enum Fit {
    DoesNotFit,
    Fits,
    /// The block is of consumer use, which carries none.
    NoneCarried,
}

/// A finished block of 192 bits: bit k is bit k mod 8 of octet k / 8, the lowest being bit 0.
#[derive(Debug, Clone, Copy, PartialEq, Eq)]
pub struct Block {
    pub octets: [u8; 24],
    pub fit: Fit,
}

/// One channel's status, brought forward entry by entry.
///
/// ```
/// use rimesatchel::{Fit, Mark, Status};
///
/// let mut status = Status::new();
/// let mut finished = None;
/// for bit in 0..192 {
///     let b = if bit == 0 { 8 } else { 0 }; // B begins a block; no C bit is set
///     finished = status.step(b, Mark::Sound)?;
/// }
/// assert_eq!(finished.unwrap().fit, Fit::NoneCarried);
/// # Ok::<(), rimesatchel::Refusal>(())
/// ```
#[derive(Debug, Clone, PartialEq, Eq)]
pub struct Status(face::StatusBlock);

impl Status {
    /// No block begun.
    pub fn new() -> Status {
        Status([0; 25])
    }

    /// Takes one entry's ancillary number and mark; a block where this was its last bit. Refused 14.
    pub fn step(&mut self, ancillary: u8, mark: Mark) -> Result<Option<Block>, Refusal> {
        let mut out = [0; 25];
        let refusal = face::status_step(&mut self.0, ancillary, mark as u8, &mut out);
        unless_refused(refusal, handed(&out))
    }

    /// Takes the entries `from`, `from` + `step`, .. of two runs, ancillary numbers and marks, until one hands out a block or the
    /// runs end; that block, and the entry to go on from. Refused 5 or 14, and then nothing has moved.
    ///
    /// ```
    /// use rimesatchel::Status;
    ///
    /// let (mut ancillary, marks) = ([0; 384], [0; 384]); // two channels side by side
    /// ancillary[0] = 8; // B begins a block of the first one
    /// let mut status = Status::new();
    /// let (block, next) = status.run(&ancillary, &marks, 0, 2)?;
    /// assert_eq!((block.is_some(), next), (true, 384));
    /// # Ok::<(), rimesatchel::Refusal>(())
    /// ```
    pub fn run(
        &mut self,
        ancillary: &[u8],
        marks: &[u8],
        from: u64,
        step: u64,
    ) -> Result<(Option<Block>, u64), Refusal> {
        let (mut out, mut next) = ([0; 25], 0);
        let entries = face::Entries { ancillary, marks, from, step };
        let refusal = face::status_run(&mut self.0, entries, &mut out, &mut next);
        unless_refused(refusal, (handed(&out), next))
    }
}

/// The block that a step hands out, if it does.
fn handed(out: &face::StatusOut) -> Option<Block> {
    let fit = match out[0] {
        face::status_answer::DOES_NOT_FIT => Some(Fit::DoesNotFit),
        face::status_answer::FITS => Some(Fit::Fits),
        face::status_answer::NONE_CARRIED => Some(Fit::NoneCarried),
        _ => None,
    };
    let mut octets = [0; 24];
    octets.copy_from_slice(&out[1..]);
    fit.map(|fit| Block { octets, fit })
}

impl Default for Status {
    fn default() -> Status {
        Status::new()
    }
}

/// The check character of octets 0 to 22.
pub fn check_character(block: &[u8; 24]) -> u8 {
    face::check_character(block)
}

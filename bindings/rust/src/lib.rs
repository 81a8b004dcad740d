//! The proved sender and receiver of spoken-book readings over ATM cells (IEC 62365), and what stands beside them: channel
//! status, logs of cells, frames of an AES3 cable, data units for another network, channels shared out over circuits.
//!
//! The library itself is `librimesatchel.a`, which `make lib` writes. This crate links it and has no other package beside it. All
//! of it is safe to call, and what it answers is the library's own answer. A call that is refused does nothing; the [`Refusal`]
//! has the number and its words.
//!
//! ```
//! use rimesatchel::{Mark, Receiver, Sender, Setup};
//!
//! // 56 hex is 24-bit samples; two channels in order 0 are six times two samples a cell
//! let setup = Setup { format: 0x56, channels: 2, order: 0 };
//! let mut sender = Sender::open(setup)?;
//! let mut receiver = Receiver::open(setup)?;
//! let samples: Vec<u64> = (0..12).collect();
//! receiver.receive(&sender.send(&samples, &[0; 12], false)?, false)?;
//! sender.send(&samples, &[0; 12], false)?; // the line loses this one
//! let cell = sender.send(&samples, &[0; 12], false)?;
//!
//! let handed = receiver.receive(&cell, false)?;
//! assert_eq!((handed.number, handed.missing), (2, 1));
//! assert!(handed.entries[..12].iter().all(|entry| entry.mark == Mark::Missing && entry.sample == 0));
//! assert!(handed.entries[12..].iter().zip(&samples).all(|(entry, sent)| entry.mark == Mark::Sound && entry.sample == *sent));
//!
//! let refusal = receiver.receive(&cell, false).unwrap_err();
//! assert_eq!(refusal.to_string(), "refused 9, the cell has the number of the last one");
//! # Ok::<(), rimesatchel::Refusal>(())
//! ```
//!
//! What each call keeps to is written in include/rimesatchel.h, and the rules behind it in docs/RULES.md.

pub mod face;
#[cfg(feature = "management")]
pub mod management;

mod archive;
mod boxes;
mod cable;
mod network;
mod pieces;
mod plans;
mod slips;
mod status;
mod tools;

pub use archive::{list, Log, Record, Records, Writer};
pub use boxes::{Batch, Entry, Format, Handed, Mark, Receiver, Report, SendStop, Sender, SentLog, Setup, Stop, Walked};
pub use cable::{export_frame, import_frame, Frame, Pair};
pub use network::{export_units, read_unit, Units};
pub use pieces::{anything_from, figures_from, lines, salvage_from, Lines};
pub use plans::{check_plan, plan, Verdict};
pub use slips::{Slip, Watch};
pub use status::{check_character, Block, Fit, Status};
pub use tools::{anything, salvage, sheet, Anything, Figures, Salvaged, Sheet};

use std::error::Error;
use std::fmt;

/// Why a call did nothing: the refusal's number, never 0.
///
/// ```
/// let refusal = rimesatchel::Refusal::new(9).unwrap();
/// assert_eq!(refusal.words(), "the cell has the number of the last one");
/// ```
#[derive(Debug, Clone, Copy, PartialEq, Eq)]
pub struct Refusal(u8);

impl Refusal {
    /// The refusal of this number; none for 0, which is "done".
    pub fn new(number: u8) -> Option<Refusal> {
        (number != 0).then_some(Refusal(number))
    }

    pub fn number(self) -> u8 {
        self.0
    }

    /// What the number means, in the words of include/rimesatchel.h.
    pub fn words(self) -> &'static str {
        let number = self.0;
        include!(concat!(env!("OUT_DIR"), "/words.rs"))
    }
}

impl fmt::Display for Refusal {
    fn fmt(&self, out: &mut fmt::Formatter) -> fmt::Result {
        write!(out, "refused {}, {}", self.0, self.words())
    }
}

impl Error for Refusal {}

fn unless_refused<T>(refusal: u8, value: T) -> Result<T, Refusal> {
    match Refusal::new(refusal) {
        None => Ok(value),
        Some(refusal) => Err(refusal),
    }
}

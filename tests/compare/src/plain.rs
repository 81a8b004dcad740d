//! A second, plain implementation of documents 01 and 02, written from the papers alone.
//!
//! It is here to be compared with, so it is clear rather than fast: a cell is a list of bits, a number is judged as it
//! stands in 64 bits, and each refusal is one line in the papers' order. Nothing is shared with the proved library.

mod bits;
mod boxes;
mod cable;
mod cells;
mod circuits;
mod log;
mod management;
mod salvage;
mod sheet;
mod slips;
mod status;
mod units;

pub use boxes::{Receiver, Sender};
pub use cable::{export_frame, import_frame};
pub use cells::Shape;
pub use circuits::{check_plan, plan, Fault};
pub use log::{anything, header, listing, listing_to, put_header, put_record, record, Anything, Record};
pub use management::{controller, equipment, port_packing, port_settings};
pub use salvage::salvage;
pub use sheet::sheet;
pub use slips::slip;
pub use status::{check_character, run, step, Block};
pub use units::{export_units, read_unit};

/// The paper's number for a no.
pub type Refusal = u8;

/// The no with this number, where `fault` holds.
fn refuse_if(fault: bool, refusal: Refusal) -> Result<(), Refusal> {
    if fault {
        Err(refusal)
    } else {
        Ok(())
    }
}

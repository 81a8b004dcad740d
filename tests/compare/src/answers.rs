//! Who answers a case: the plain implementation, and the proved library where its types can be asked.

mod by_library;
mod by_plain;
mod line;
mod management;
mod pieces;
mod slips;

pub use by_library::by_library;
pub use by_plain::by_plain;

use crate::case::{Answer, Case};

/// Something that answers cases; nothing where it can't be asked.
pub type Answerer = fn(&Case) -> Option<Answer>;

pub const ANSWERERS: [(&str, Answerer); 2] = [("plain", |case| Some(by_plain(case))), ("library", by_library)];

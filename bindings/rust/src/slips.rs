//! Slips, told by second numbers.

use crate::{face, unless_refused, Refusal, Report};

/// What a cell that was taken tells of those before it.
#[derive(Debug, Clone, Copy, PartialEq, Eq)]
pub enum Slip {
    Nothing,
    /// At least so many cells more are missing before the cell that was taken before this one.
    Before(u8),
    /// That cell was out of step alone.
    Alone,
    /// This cell is out of step, and the next one decides: perhaps so many cells more are missing before it.
    Perhaps(u8),
}

/// A watch over second numbers, one step for each cell that the receiver took.
///
/// ```
/// use rimesatchel::{Report, Slip, Watch};
///
/// let mut watch = Watch::new();
/// let mut take = |number, second| watch.step(&Report { missing: 0, number, second, indication: false });
/// assert_eq!(take(2, 5)?, Slip::Nothing);
/// assert_eq!(take(3, 5)?, Slip::Nothing);
/// assert_eq!(take(4, 13)?, Slip::Perhaps(64)); // eight block starts, and the numbers tell of none
/// assert_eq!(take(5, 13)?, Slip::Before(64));
/// # Ok::<(), rimesatchel::Refusal>(())
/// ```
#[derive(Debug, Clone, PartialEq, Eq, Default)]
pub struct Watch(face::Watch);

impl Watch {
    /// No cell taken yet.
    pub fn new() -> Watch {
        Watch::default()
    }

    /// Takes what the receiver reported of the next cell that it took. Refused 31 where that can't follow, 4 where the watch can't be.
    pub fn step(&mut self, report: &Report) -> Result<Slip, Refusal> {
        let report = [report.missing, report.number, report.second, report.indication.into()];
        let mut told = [0; 2];
        let refusal = face::slip(&mut self.0, &report, &mut told);
        let slip = match told[0] {
            face::slip_told::BEFORE => Slip::Before(told[1]),
            face::slip_told::ALONE => Slip::Alone,
            face::slip_told::PERHAPS => Slip::Perhaps(told[1]),
            _ => Slip::Nothing,
        };
        unless_refused(refusal, slip)
    }

    /// The state as the library keeps it, to be stored and gone on with.
    pub fn to_bytes(&self) -> [u8; 7] {
        self.0
    }

    /// A watch that goes on from a state. Any octets will do: what can't be is refused when it steps.
    pub fn from_bytes(state: [u8; 7]) -> Watch {
        Watch(state)
    }
}

//! Channels shared out over circuits.

use crate::{face, unless_refused, Refusal};

/// What the checker says of a plan: yes, or its first fault, with the circuit counted from 0.
#[derive(Debug, Clone, Copy, PartialEq, Eq)]
pub enum Verdict {
    Yes,
    Share(u32),
    Allowance(u32),
    Sum,
}

/// Fills so many circuits in their order as far as a cell's slots allow. Refused 1, 22 or 30.
///
/// ```
/// use rimesatchel::{check_plan, plan, Verdict};
///
/// let shares = plan(0x56, 20, 2)?;
/// assert_eq!(shares, [12, 8]);
/// assert_eq!(check_plan(0x56, 20, 48_000, &shares, &[48_000, 40_000])?, Verdict::Allowance(1));
/// # Ok::<(), rimesatchel::Refusal>(())
/// ```
pub fn plan(format: u32, channels: u32, circuits: usize) -> Result<Vec<u32>, Refusal> {
    let mut shares = vec![0; circuits];
    let refusal = face::circuits_plan(format, channels, &mut shares);
    unless_refused(refusal, shares)
}

/// Judges a plan, anyone's: how many channels each circuit carries, and the cells per second that each may carry. Refused 1,
/// 5, 22 or 23.
pub fn check_plan(
    format: u32,
    channels: u32,
    frequency: u32,
    shares: &[u32],
    allowances: &[u32],
) -> Result<Verdict, Refusal> {
    let mut answer = [0; 2];
    let refusal = face::circuits_check([format, channels, frequency], shares, allowances, &mut answer);
    let verdict = match answer[0] {
        2 => Verdict::Share(answer[1]),
        3 => Verdict::Allowance(answer[1]),
        4 => Verdict::Sum,
        _ => Verdict::Yes,
    };
    unless_refused(refusal, verdict)
}

//! The watch over second numbers, from the text of its issue.

use super::{refuse_if, Refusal};

/// Started, number, sure, second, may, waits, other.
pub type Watch = [u64; 7];

/// Missing, number, second, indication.
pub type Report = [u64; 4];

const ROUND: u64 = 16;

/// How far a number went up, modulo 16.
fn up(number: u64, before: u64) -> u64 {
    (ROUND + number - before) % ROUND
}

/// Multiples of 8 among the numbers after the last one, counted on past 15.
fn starts(last: u64, steps: u64) -> u64 {
    (last + 1..=last + steps).filter(|number| number.is_multiple_of(8)).count() as u64
}

/// At least so many cells are missing beside those told: each sixteen of them has two block starts.
fn behind(told: u64, may: u64) -> u64 {
    (0..=8).map(|sixteens| ROUND * sixteens).find(|cells| may + cells / 8 >= told).expect("eight sixteens are enough")
}

fn can_be([started, number, sure, second, may, waits, other]: Watch) -> bool {
    let within =
        [started, sure, waits].iter().all(|&yes| yes <= 1) && [number, second, may, other].iter().all(|&n| n < ROUND);
    within
        && match (started, sure, waits) {
            (0, _, _) => [number, sure, second, may, waits, other] == [0; 6],
            (_, 0, _) => waits == 1 && second == 0 && may == 0,
            (_, _, 0) => may == 0 && other == 0,
            _ => true,
        }
}

/// The watch afterwards, and what is told with how many cells.
pub fn slip(watch: &Watch, report: &Report) -> Result<(Watch, [u64; 2]), Refusal> {
    let [started, last, sure, kept, may, waits, other] = *watch;
    let [missing, number, second, _] = *report;
    refuse_if(!can_be(*watch), 4)?;
    refuse_if(missing > 14 || number > 15 || second > 15, 31)?;
    refuse_if(if started == 0 { missing != 0 } else { missing + 1 != up(number, last) }, 31)?;
    let in_step = [1, number, 1, second, 0, 0, 0];
    let begun = [1, number, 0, 0, 0, 1, second];
    if started == 0 {
        return Ok((begun, [0, 0]));
    }
    let by = starts(last, missing + 1);
    let agrees = waits == 1 && up(second, other) == by;
    if sure == 0 {
        return Ok((if agrees { in_step } else { begun }, [0, 0]));
    }
    let may_now = (may + by).min(15);
    if up(second, kept) == may_now {
        return Ok((in_step, [2 * waits, 0]));
    }
    if agrees {
        let cells = behind(up(other, kept), may);
        return Ok((in_step, [u64::from(cells > 0), cells]));
    }
    Ok(([1, number, 1, kept, may_now, 1, second], [3, behind(up(second, kept), may_now)]))
}

//! A quarter's figures: a row of ten numbers for each log, and one for all logs together.

use super::boxes::Receiver;
use super::log::{header, record, Header, Record, AMPLE_ROOM};
use super::{refuse_if, Refusal};

const MOST_LOGS: usize = 4096;
/// What a receiver can say to a record.
const REFUSALS: [Refusal; 4] = [8, 9, 15, 20];
const MOST_COUNTED: u128 = 4_294_967_295;

/// Sound, missing, refused 8, 9, 15 and 20, marked 0, 1 and 2. Wide enough for the records of any run.
type Figures = [u128; 9];

pub type Row = [u64; 10];

pub struct Sheet {
    pub rows: Vec<Row>,
    pub totals: Row,
}

fn plus(one: Figures, other: Figures) -> Figures {
    std::array::from_fn(|column| one[column] + other[column])
}

/// The figures of one log, "read up to its first framing fault (a refused header counts nothing)".
fn figures(log: &[u8]) -> Figures {
    let mut counted = [0; 9];
    let Ok(Header { mut place, format, channels, order }) = header(log) else { return counted };
    let mut receiver = Receiver { format, channels, order, ..Receiver::default() };
    while let Ok(Record::Cell { indication, start, next }) = record(log, place as u64) {
        match receiver.receive(&log[start..next], indication, [AMPLE_ROOM; 3]) {
            Ok((after, received)) => {
                receiver = after;
                counted[0] += 1;
                counted[1] += u128::from(received.missing);
                received.entries.iter().for_each(|entry| counted[6 + entry.mark as usize] += 1);
            }
            Err(refusal) => {
                let column = REFUSALS.iter().position(|&number| number == refusal).expect("a receiver with room");
                counted[2 + column] += 1;
            }
        }
        place = next;
    }
    counted
}

/// With "missing per million of sound plus missing, rounded down, and 0 where that sum is 0".
fn row(counted: Figures) -> Row {
    let [sound, missing, ..] = counted;
    let per_million = (missing * 1_000_000).checked_div(sound + missing).unwrap_or(0);
    std::array::from_fn(|column| *counted.get(column).unwrap_or(&per_million) as u64)
}

/// "18 for more than 4,096 logs, then 5 .., then 19 for a total above 4,294,967,295".
pub fn sheet(octets: &[u8], lengths: &[u64], numbers: usize) -> Result<Sheet, Refusal> {
    refuse_if(lengths.len() > MOST_LOGS, 18)?;
    refuse_if(lengths.iter().map(|&length| u128::from(length)).sum::<u128>() != octets.len() as u128, 5)?;
    refuse_if(numbers != 10 * lengths.len(), 5)?;
    let mut rest = octets;
    let mut counted = vec![];
    for &length in lengths {
        let (log, after) = rest.split_at(length as usize);
        counted.push(figures(log));
        rest = after;
    }
    let totals = counted.iter().fold([0; 9], |sum, &one| plus(sum, one));
    refuse_if(totals.iter().any(|&total| total > MOST_COUNTED), 19)?;
    Ok(Sheet { rows: counted.into_iter().map(row).collect(), totals: row(totals) })
}

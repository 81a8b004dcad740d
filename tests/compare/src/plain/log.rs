//! The log: its numbers, the header, a record, and the lines that `linelist` prints.

use super::boxes::Receiver;
use super::cells::{Shape, CELL_OCTETS};
use super::{refuse_if, Refusal};

const MOST_GROUPS: usize = 3;
/// The most octets of a log that `linelist` lists.
const MOST_LISTED: u64 = 4_294_967_295;
/// The most that one cell brings: fourteen missing and its own, at 48 entries each.
pub const AMPLE_ROOM: usize = 15 * 48;

/// A log number at `place` and the place after it.
fn log_number(log: &[u8], place: usize) -> Result<(u64, usize), Refusal> {
    let rest = &log[place.min(log.len())..];
    let groups = 1 + rest.iter().position(|&octet| octet < 128).ok_or(11)?;
    refuse_if(groups > MOST_GROUPS, 11)?;
    refuse_if(groups > 1 && rest[groups - 1] == 0, 11)?;
    let number = rest[..groups].iter().rev().fold(0, |number, &octet| number * 128 + u64::from(octet % 128));
    Ok((number, place + groups))
}

pub struct Header {
    pub place: usize,
    pub format: u64,
    pub channels: u64,
    pub order: u64,
}

/// "11 as met, then 1 to 3".
pub fn header(log: &[u8]) -> Result<Header, Refusal> {
    let (format, place) = log_number(log, 0)?;
    let (channels, place) = log_number(log, place)?;
    let (order, place) = log_number(log, place)?;
    Shape::new(format, channels, order)?;
    Ok(Header { place, format, channels, order })
}

pub enum Record {
    End,
    Cell { indication: bool, start: usize, next: usize },
}

/// "A place at the log's end or past it answers the end."
pub fn record(log: &[u8], place: u64) -> Result<Record, Refusal> {
    if place >= log.len() as u64 {
        return Ok(Record::End);
    }
    let (indication, start) = log_number(log, place as usize)?;
    refuse_if(indication > 1, 11)?;
    refuse_if(log.len() - start < CELL_OCTETS, 12)?;
    Ok(Record::Cell { indication: indication == 1, start, next: start + CELL_OCTETS })
}

/// Octets written at a place, and the place after them; refused where the log ends before they do.
fn put(log: &[u8], place: u64, octets: &[u8], cut: Refusal) -> Result<(Vec<u8>, usize), Refusal> {
    let room = (log.len() as u64).checked_sub(place).ok_or(cut)?;
    refuse_if(room < octets.len() as u64, cut)?;
    let (start, next) = (place as usize, place as usize + octets.len());
    Ok(([&log[..start], octets, &log[next..]].concat(), next))
}

/// "First three numbers: subframe octet, C, order", each in its shortest form. No setting that is taken needs two groups.
pub fn put_header(log: &[u8], format: u64, channels: u64, order: u64) -> Result<(Vec<u8>, usize), Refusal> {
    Shape::new(format, channels, order)?;
    put(log, 0, &[format as u8, channels as u8, order as u8], 11)
}

/// "Then per cell: the indication, 0 or 1, and 48 octets."
pub fn put_record(log: &[u8], place: u64, cell: &[u8], indication: bool) -> Result<(Vec<u8>, usize), Refusal> {
    refuse_if(cell.len() != CELL_OCTETS, 5)?;
    put(log, place, &[&[u8::from(indication)], cell].concat(), 12)
}

/// Whether a log has a sample marked 0 that isn't zero: the first record with one, or how many whole records were read.
pub enum Anything {
    Yes { record: u64 },
    No { records: u64 },
}

/// All records are read, up to the first framing fault or the end, and the first with such a sample is looked for then.
pub fn anything(log: &[u8]) -> Result<Anything, Refusal> {
    let Header { place, format, channels, order } = header(log)?;
    let mut receiver = Receiver { format, channels, order, started: false, last: 0, count: 0 };
    let mut place = place as u64;
    let mut sounding = vec![];
    while let Ok(Record::Cell { indication, start, next }) = record(log, place) {
        place = next as u64;
        sounding.push(match receiver.receive(&log[start..next], indication, [AMPLE_ROOM; 3]) {
            Ok((after, received)) => {
                receiver = after;
                received.entries.iter().any(|entry| entry.mark == 0 && entry.sample != 0)
            }
            Err(_) => false,
        });
    }
    match sounding.iter().position(|&sounds| sounds) {
        Some(first) => Ok(Anything::Yes { record: first as u64 }),
        None => Ok(Anything::No { records: sounding.len() as u64 }),
    }
}

/// What `linelist` prints for a log.
pub fn listing(log: &[u8]) -> String {
    listing_to(log, MOST_LISTED)
}

/// The same with another limit.
pub fn listing_to(log: &[u8], limit: u64) -> String {
    match header(log) {
        Err(refusal) => format!("log refused {refusal}\n"),
        Ok(header) => records_listed(log, &header, limit),
    }
}

/// What the walk along the records meets at a place. An octet past the limit is 13, whatever it is; a record that begins within
/// the limit and passes it is 11 by its first octet, 12 where the log ends within the limit, and else 13.
fn record_within(log: &[u8], place: u64, limit: u64) -> Result<Record, Refusal> {
    let length = log.len() as u64;
    refuse_if(place < length && place >= limit, 13)?;
    let met = record(log, place);
    let past = place < length && place + 1 + CELL_OCTETS as u64 > limit && length > limit;
    match met {
        Err(11) => met,
        _ if past => Err(13),
        _ => met,
    }
}

/// Cells that a listing counts.
#[derive(Default)]
struct Tally {
    sound: u64,
    missing: u64,
    refused: u64,
}

fn records_listed(log: &[u8], header: &Header, limit: u64) -> String {
    let Header { format, channels, order, .. } = *header;
    let mut text = format!("format {format} {channels} {order}\n");
    let mut receiver = Receiver { format, channels, order, started: false, last: 0, count: 0 };
    let mut tally = Tally::default();
    let mut place = header.place as u64;
    for index in 0.. {
        let line = match record_within(log, place, limit) {
            Ok(Record::End) => break,
            Ok(Record::Cell { indication, start, next }) => {
                place = next as u64;
                cell_line(&mut receiver, &mut tally, indication, &log[start..next])
            }
            Err(refusal) => {
                text += &format!("{index} broken {refusal}\n");
                break;
            }
        };
        text += &format!("{index} {line}\n");
    }
    let Tally { sound, missing, refused } = tally;
    text + &format!("end {sound} sound {missing} missing {refused} refused\n")
}

fn cell_line(receiver: &mut Receiver, tally: &mut Tally, indication: bool, cell: &[u8]) -> String {
    match receiver.receive(cell, indication, [AMPLE_ROOM; 3]) {
        Ok((after, received)) => {
            *receiver = after;
            tally.sound += 1;
            tally.missing += received.missing;
            format!("sound {} number {}", received.missing, received.number)
        }
        Err(refusal) => {
            tally.refused += 1;
            format!("refused {refusal}")
        }
    }
}

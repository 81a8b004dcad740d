//! Salvage of a log: the records that a fresh receiver takes, and a list of those that it doesn't.

use super::boxes::Receiver;
use super::log::{header, record, Header, Record, AMPLE_ROOM};
use super::Refusal;

pub struct Salvage {
    pub log: Vec<u8>,
    /// For each record left out its number, from 0, and its refusal.
    pub list: Vec<u64>,
    pub cut: usize,
}

/// All of it, whatever room a caller has.
pub fn salvage(log: &[u8]) -> Result<Salvage, Refusal> {
    let Header { mut place, format, channels, order } = header(log)?;
    let mut receiver = Receiver { format, channels, order, ..Receiver::default() };
    let mut saved = Salvage { log: log[..place].to_vec(), list: vec![], cut: 0 };
    for index in 0.. {
        let Ok(Record::Cell { indication, start, next }) = record(log, place as u64) else { break };
        match receiver.receive(&log[start..next], indication, [AMPLE_ROOM; 3]) {
            Ok((after, _)) => {
                receiver = after;
                saved.log.extend(&log[place..next]);
            }
            Err(refusal) => saved.list.extend([index, u64::from(refusal)]),
        }
        place = next;
    }
    saved.cut = log.len() - place;
    Ok(saved)
}

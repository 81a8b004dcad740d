//! A log of cells: writing one, reading one, and its list.

use crate::{face, unless_refused, Refusal, Setup};

const HEADER: usize = 3;
const RECORD: usize = 49;

/// Writes a log: its header, then a record for each cell as it comes off the line.
///
/// ```
/// use rimesatchel::{list, Log, Sender, Setup, Writer};
///
/// let setup = Setup { format: 0x56, channels: 2, order: 0 };
/// let mut sender = Sender::open(setup)?;
/// let mut writer = Writer::new(setup)?;
/// writer.push(&sender.send(&[7; 12], &[0; 12], true)?, true)?;
/// let log = writer.into_octets();
/// assert_eq!(list(&log), "format 86 2 0\n0 sound 0 number 0\nend 1 sound 0 missing 0 refused\n");
///
/// let read = Log::read(&log)?;
/// assert_eq!(read.setup, setup);
/// for record in read.records() {
///     assert!(record?.indication);
/// }
/// # Ok::<(), rimesatchel::Refusal>(())
/// ```
#[derive(Debug, Clone, PartialEq, Eq)]
pub struct Writer(Vec<u8>);

impl Writer {
    /// A log with no record. Refused 1, 2 or 3.
    pub fn new(setup: Setup) -> Result<Writer, Refusal> {
        let (mut log, mut next) = (vec![0; HEADER], 0);
        let refusal = face::log_put_header(&mut log, setup.numbers(), &mut next);
        unless_refused(refusal, Writer(log))
    }

    /// Adds a record. Refused 5 where the cell isn't 48 octets, and then the log is as it was.
    pub fn push(&mut self, cell: &[u8], indication: bool) -> Result<(), Refusal> {
        let (mut record, mut next) = ([0; RECORD], 0);
        let refusal = face::log_put_record(&mut record, 0, cell, indication, &mut next);
        unless_refused(refusal, ())?;
        self.0.extend(record);
        Ok(())
    }

    /// The log so far.
    pub fn octets(&self) -> &[u8] {
        &self.0
    }

    pub fn into_octets(self) -> Vec<u8> {
        self.0
    }
}

/// A log that is read: how it was sent, and its records.
#[derive(Debug, Clone, Copy, PartialEq, Eq)]
pub struct Log<'a> {
    pub setup: Setup,
    octets: &'a [u8],
    first: usize,
}

/// A cell as it came off the line.
#[derive(Debug, Clone, Copy, PartialEq, Eq)]
pub struct Record<'a> {
    pub indication: bool,
    /// 48 octets, in the log itself.
    pub cell: &'a [u8],
}

impl<'a> Log<'a> {
    /// Reads the header. Refused 11, 1, 2 or 3.
    pub fn read(octets: &'a [u8]) -> Result<Log<'a>, Refusal> {
        let mut header = [0; 4];
        let refusal = face::log_header(octets, &mut header);
        let [first, format, channels, order] = header;
        unless_refused(refusal, Log { setup: Setup { format, channels, order }, octets, first: first as usize })
    }

    /// The records, one after the other. A fault, 11 or 12, is the last.
    pub fn records(&self) -> Records<'a> {
        Records { octets: self.octets, place: Some(self.first) }
    }
}

/// The records of a log from some place on.
#[derive(Debug, Clone)]
pub struct Records<'a> {
    octets: &'a [u8],
    place: Option<usize>,
}

impl<'a> Iterator for Records<'a> {
    type Item = Result<Record<'a>, Refusal>;

    fn next(&mut self) -> Option<Self::Item> {
        let place = self.place.take()?;
        let mut record = [0; 4];
        let refusal = face::log_record(self.octets, place, &mut record);
        if let Some(refusal) = Refusal::new(refusal) {
            return Some(Err(refusal));
        }
        let [what, indication, start, next] = record.map(|number| number as usize);
        if what == 0 {
            return None;
        }
        self.place = Some(next);
        Some(Ok(Record { indication: indication == 1, cell: &self.octets[start..next] }))
    }
}

/// The list of a log, as the program `linelist` prints it. A log that can't be read has a list that says so.
pub fn list(log: &[u8]) -> String {
    let mut room = 256 + log.len();
    loop {
        let (mut run, mut listed) = (vec![0; room], [0; 2]);
        face::log_list(log, &mut run, &mut listed);
        if listed[1] == 1 {
            run.truncate(listed[0] as usize);
            return String::from_utf8(run).expect("a list is plain letters");
        }
        room *= 2;
    }
}

//! The two boxes, each with its own state.

use crate::{face, unless_refused, Refusal};

/// The subframe octet, the channels and the order that both ends were told by the call set-up.
#[derive(Debug, Clone, Copy, PartialEq, Eq)]
pub struct Setup {
    pub format: u32,
    pub channels: u32,
    pub order: u32,
}

impl Setup {
    pub(crate) fn numbers(self) -> [u32; 3] {
        [self.format, self.channels, self.order]
    }
}

/// What a subframe octet says: the bits of a sample and of what stands beside it, and the slots in a cell.
#[derive(Debug, Clone, Copy, PartialEq, Eq)]
pub struct Format {
    pub sample_bits: u32,
    pub ancillary_bits: u32,
    pub overhead_bits: u32,
    pub slots: u32,
}

impl Format {
    /// The format of this octet. Refused 1.
    ///
    /// ```
    /// use rimesatchel::Format;
    ///
    /// let format = Format::of(0x56)?;
    /// assert_eq!((format.sample_bits, format.slots), (24, 12));
    /// assert_eq!(Format::of(0x156).unwrap_err().number(), 1);
    /// # Ok::<(), rimesatchel::Refusal>(())
    /// ```
    pub fn of(octet: u32) -> Result<Format, Refusal> {
        let mut facts = [0; 4];
        let refusal = face::format(octet, &mut facts);
        let [sample_bits, ancillary_bits, overhead_bits, slots] = facts;
        unless_refused(refusal, Format { sample_bits, ancillary_bits, overhead_bits, slots })
    }

    /// The octets that one entry fills.
    pub fn octets(self) -> usize {
        (self.sample_bits + self.ancillary_bits + self.overhead_bits) as usize / 8
    }
}

/// Packs samples into cells.
#[derive(Debug, Clone, PartialEq, Eq)]
pub struct Sender(face::SenderState);

impl Sender {
    /// A sender whose first cell has number 0, without second numbers. Refused 1, 2 or 3.
    pub fn open(setup: Setup) -> Result<Sender, Refusal> {
        Sender::open_at(setup, 0, None)
    }

    /// A sender whose first cell has this number, and this second number where they are wanted. Refused 1 to 4.
    pub fn open_at(setup: Setup, number: u32, second: Option<u32>) -> Result<Sender, Refusal> {
        let mut state = [0; 7];
        let refusal = face::sender_open(setup.numbers(), number, second.is_some(), second.unwrap_or(0), &mut state);
        unless_refused(refusal, Sender(state))
    }

    /// The next cell: C×T samples and as many ancillary numbers in it. The indication may be given only where the cell's number
    /// is a multiple of 8. Refused 5, 6 or 7, and then the sender is as it was.
    pub fn send(&mut self, samples: &[u64], ancillary: &[u8], indication: bool) -> Result<[u8; 48], Refusal> {
        let mut cell = [0; 48];
        let refusal = face::send(&mut self.0, indication, samples, ancillary, &mut cell);
        unless_refused(refusal, cell)
    }

    /// Sends cell after cell, each of the next C×T entries, and writes its record into `log` from a place on, up to the end of the
    /// entries, the end of the log, or a cell with a number too large. The indication is 1 in every cell whose number is a multiple
    /// of 8 where `indications` says yes, else in none. Refused 5 where the runs aren't equally long, and then the sender and the
    /// log are as they were.
    ///
    /// ```
    /// use rimesatchel::{Sender, SendStop, Setup};
    ///
    /// let mut sender = Sender::open(Setup { format: 0x56, channels: 2, order: 0 })?;
    /// let mut log = [9; 100];
    /// let sent = sender.send_log(&[7; 36], &[0; 36], true, &mut log, 1)?; // three cells, and room for two
    /// assert_eq!((sent.next, sent.entries, sent.cells, sent.stop), (99, 24, 2, SendStop::NoRoom));
    /// assert_eq!((log[0], log[1], log[50], log[99]), (9, 1, 0, 9));
    /// # Ok::<(), rimesatchel::Refusal>(())
    /// ```
    pub fn send_log(
        &mut self,
        samples: &[u64],
        ancillary: &[u8],
        indications: bool,
        log: &mut [u8],
        place: usize,
    ) -> Result<SentLog, Refusal> {
        let mut counts = [0; 4];
        let refusal = face::send_log(&mut self.0, indications, samples, ancillary, log, place, &mut counts);
        let [next, entries, stop, cells] = counts;
        let stop = SendStop::of(stop);
        unless_refused(refusal, SentLog { next: next as usize, entries: entries as usize, cells: cells as usize, stop })
    }

    /// The state as the library keeps it, to be stored and gone on with.
    pub fn to_bytes(&self) -> [u8; 7] {
        self.0
    }

    /// A sender that goes on from a state. Any octets will do: what can't be is refused when it sends.
    pub fn from_bytes(state: [u8; 7]) -> Sender {
        Sender(state)
    }
}

/// How far sending into a log went.
#[derive(Debug, Clone, Copy, PartialEq, Eq)]
pub struct SentLog {
    /// The place to go on from.
    pub next: usize,
    /// The entries that the cells took.
    pub entries: usize,
    pub cells: usize,
    pub stop: SendStop,
}

/// Why sending into a log stopped.
#[derive(Debug, Clone, Copy, PartialEq, Eq)]
pub enum SendStop {
    /// Fewer entries are left than a cell takes.
    NoEntries,
    /// No record fits into the log any more.
    NoRoom,
    /// The next cell has a number too large for its bits.
    TooLarge,
}

impl SendStop {
    fn of(number: u64) -> SendStop {
        match number {
            0 => SendStop::NoEntries,
            12 => SendStop::NoRoom,
            _ => SendStop::TooLarge,
        }
    }
}

/// What a sample that was handed out is worth.
#[derive(Debug, Clone, Copy, PartialEq, Eq)]
pub enum Mark {
    /// As it was sent, as far as its protection bits tell.
    Sound,
    /// Its protection bits disagree; it is given as it came.
    Doubtful,
    /// Its cell never came, or was refused; sample and ancillary are 0.
    Missing,
}

/// A sample that was handed out, its ancillary number and its mark.
#[derive(Debug, Clone, Copy, PartialEq, Eq)]
pub struct Entry {
    pub sample: u64,
    pub ancillary: u8,
    pub mark: Mark,
}

/// What a receiver makes of a cell: the entries of the cells missing before it, and its own.
#[derive(Debug, Clone, PartialEq, Eq)]
pub struct Handed {
    pub missing: u8,
    pub number: u8,
    pub second: u8,
    pub indication: bool,
    /// Time after time, channels side by side; first those of the missing cells.
    pub entries: Vec<Entry>,
}

/// Takes cells, and hands out samples with their marks.
#[derive(Debug, Clone, PartialEq, Eq)]
pub struct Receiver(face::ReceiverState);

/// Room for fourteen missing cells and one more, of 48 slots each.
const ROOM: usize = 720;
/// No mark of the library's: an entry that still has it was not handed out.
const NO_MARK: u8 = 3;

impl Receiver {
    /// A receiver that has taken no cell yet. Refused 1, 2 or 3.
    pub fn open(setup: Setup) -> Result<Receiver, Refusal> {
        let mut state = [0; 9];
        let refusal = face::receiver_open(setup.numbers(), &mut state);
        unless_refused(refusal, Receiver(state))
    }

    /// How many cells were placed since the opening, sound and missing together.
    pub fn placed(&self) -> u32 {
        face::receiver_placed(&self.0)
    }

    /// Takes a cell as it came. Refused 5, 8, 15, 9 or 20, and then the receiver is as it was.
    pub fn receive(&mut self, cell: &[u8], indication: bool) -> Result<Handed, Refusal> {
        let (mut samples, mut ancillary, mut marks) = ([0; ROOM], [0; ROOM], [NO_MARK; ROOM]);
        let mut report = [0; 4];
        let runs = face::Runs { samples: &mut samples, ancillary: &mut ancillary, marks: &mut marks };
        let refusal = face::receive(&mut self.0, cell, indication, runs, &mut report);
        let [missing, number, second, indication] = report;
        let mut entries = Vec::new();
        for ((sample, ancillary), mark) in samples.into_iter().zip(ancillary).zip(marks) {
            let mark = match mark {
                0 => Mark::Sound,
                1 => Mark::Doubtful,
                2 => Mark::Missing,
                _ => break,
            };
            entries.push(Entry { sample, ancillary, mark });
        }
        unless_refused(refusal, Handed { missing, number, second, indication: indication == 1, entries })
    }

    /// Takes a cell as it came, into runs of the caller's: the entries of the missing cells, then its own, from their start; what
    /// stands past them stays. Fifteen times C×T entries are always room enough. Refused 5, 8, 15, 9, 20 or 10, and then the
    /// receiver and the runs are as they were.
    ///
    /// ```
    /// use rimesatchel::{face::Runs, Receiver, Setup};
    ///
    /// let mut receiver = Receiver::open(Setup { format: 0x08, channels: 1, order: 0 })?;
    /// let (mut samples, mut ancillary, mut marks) = ([7; 13], [7; 13], [7; 13]);
    /// let runs = Runs { samples: &mut samples, ancillary: &mut ancillary, marks: &mut marks };
    /// assert_eq!(receiver.receive_into(&[0; 48], false, runs)?.missing, 0);
    /// assert_eq!((samples[11], samples[12]), (0, 7));
    /// # Ok::<(), rimesatchel::Refusal>(())
    /// ```
    pub fn receive_into(&mut self, cell: &[u8], indication: bool, runs: face::Runs) -> Result<Report, Refusal> {
        let mut report = [0; 4];
        let refusal = face::receive(&mut self.0, cell, indication, runs, &mut report);
        let [missing, number, second, indication] = report;
        unless_refused(refusal, Report { missing, number, second, indication: indication == 1 })
    }

    /// The state as the library keeps it, to be stored and gone on with.
    pub fn to_bytes(&self) -> [u8; 9] {
        self.0
    }

    /// A receiver that goes on from a state. Any octets will do: what can't be is refused when a cell comes.
    pub fn from_bytes(state: [u8; 9]) -> Receiver {
        Receiver(state)
    }

    /// Judges the records of a log from a place on, and unpacks nothing: five octets a record go into `reports`, its refusal, then
    /// the missing count, number, second number and indication, zeros where it is refused. It goes on up to a record that is
    /// broken, the log's end, or the end of `reports`. Refused 1 to 4, which never
    /// happens to a receiver that was opened.
    ///
    /// ```
    /// use rimesatchel::{Receiver, Setup, Stop};
    ///
    /// let mut receiver = Receiver::open(Setup { format: 0x02, channels: 1, order: 0 })?;
    /// let mut reports = [9; 5];
    /// let walked = receiver.judge_log(&[0; 98], 0, &mut reports)?; // two records, and room for one
    /// assert_eq!((walked.next, walked.records, walked.stop), (49, 1, Stop::NoRoom));
    /// assert_eq!(reports, [0, 0, 0, 0, 0]);
    /// # Ok::<(), rimesatchel::Refusal>(())
    /// ```
    pub fn judge_log(&mut self, log: &[u8], place: usize, reports: &mut [u8]) -> Result<Walked, Refusal> {
        let mut counts = [0; 3];
        let refusal = face::judge_log(&mut self.0, log, place, reports, &mut counts);
        let [next, records, stop] = counts;
        let stop = Stop::of(stop);
        unless_refused(refusal, Walked { next: next as usize, records: records as usize, stop })
    }

    /// Receives the records of a log from a place on, into runs of the caller's: each cell's entries, with those of the cells
    /// missing before it, behind the last one's; what stands past them stays. A record that is refused 8, 15, 9 or 20 is passed over
    /// and counted. It goes on up to a record that is broken, the log's end, or a record whose entries have no room. Refused 5,
    /// where the runs aren't equally long, and then the receiver and the runs are as they were; 1 to 4 never happen to a receiver
    /// that was opened.
    ///
    /// ```
    /// use rimesatchel::{face::Runs, Receiver, Setup, Stop};
    ///
    /// let mut receiver = Receiver::open(Setup { format: 0x08, channels: 1, order: 0 })?;
    /// let (mut samples, mut ancillary, mut marks) = ([7; 20], [7; 20], [7; 20]);
    /// let runs = Runs { samples: &mut samples, ancillary: &mut ancillary, marks: &mut marks };
    /// let batch = receiver.receive_log(&[0; 98], 0, runs)?; // two records of 12 entries, and room for one
    /// assert_eq!((batch.next, batch.entries, batch.taken, batch.stop), (49, 12, 1, Stop::NoRoom));
    /// assert_eq!((samples[11], samples[12]), (0, 7));
    /// # Ok::<(), rimesatchel::Refusal>(())
    /// ```
    pub fn receive_log(&mut self, log: &[u8], place: usize, runs: face::Runs) -> Result<Batch, Refusal> {
        let mut counts = [0; 9];
        let refusal = face::receive_log(&mut self.0, log, place, runs, &mut counts);
        let [next, entries, stop, taken, missing, refused_8, refused_9, refused_15, refused_20] = counts;
        let stop = Stop::of(stop);
        let [next, entries] = [next, entries].map(|number| number as usize);
        unless_refused(
            refusal,
            Batch { next, entries, stop, taken, missing, refused_8, refused_9, refused_15, refused_20 },
        )
    }
}

/// How far a log was received.
#[derive(Debug, Clone, Copy, PartialEq, Eq)]
pub struct Batch {
    /// The place to go on from.
    pub next: usize,
    /// How many entries were written to each run.
    pub entries: usize,
    pub stop: Stop,
    /// Cells taken, and cells missing before them.
    pub taken: u64,
    pub missing: u64,
    /// Records refused, by the number.
    pub refused_8: u64,
    pub refused_9: u64,
    pub refused_15: u64,
    pub refused_20: u64,
}

/// What a receiver reports of a cell that it took.
#[derive(Debug, Clone, Copy, PartialEq, Eq)]
pub struct Report {
    pub missing: u8,
    pub number: u8,
    pub second: u8,
    pub indication: bool,
}

/// How far a walk through a log went.
#[derive(Debug, Clone, Copy, PartialEq, Eq)]
pub struct Walked {
    /// The place to go on from.
    pub next: usize,
    pub records: usize,
    pub stop: Stop,
}

/// Why a walk through a log stopped.
#[derive(Debug, Clone, Copy, PartialEq, Eq)]
pub enum Stop {
    End,
    /// Too little was lent for one record more.
    NoRoom,
    /// The record at the place is broken: refused 11 or 12.
    Broken(Refusal),
}

impl Stop {
    fn of(number: u64) -> Stop {
        match Refusal::new(number as u8) {
            None => Stop::End,
            Some(refusal) if refusal.number() == 10 => Stop::NoRoom,
            Some(refusal) => Stop::Broken(refusal),
        }
    }
}

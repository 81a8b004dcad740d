//! Demand 3 played out: a sender, a line that drops, spoils and repeats cells by a fixed pattern, a fresh receiver with room;
//! and what holds beyond fourteen lost cells in a row.
//!
//! What must be handed out is worked out here from what was sent and from each cell's fate alone.

use crate::answers::{Answerer, ANSWERERS};
use crate::case::{values, Case, Kind};
use crate::random::Random;

/// Octet, S, and how many numbers the ancillary field can have: one, 0, where there is no such field.
const WITH_OVERHEAD: [(u64, usize, u64); 7] =
    [(0x13, 24, 1), (0x15, 16, 1), (0x17, 12, 1), (0x52, 24, 16), (0x54, 16, 16), (0x56, 12, 16), (0x5A, 8, 16)];
const SEED: u64 = 62365;
/// Stands in the runs before each call: past the entries handed out it must still stand.
const UNTOUCHED: [u64; 3] = [u64::MAX, 0xA5, 0x5A];

/// Sample, ancillary, mark.
type Entry = [u64; 3];
const MISSING: Entry = [0, 0, 2];

#[derive(Clone, Copy, PartialEq)]
enum Fate {
    Whole,
    Lost,
    /// Altered in the first eight sequencing bits by this mask, and with garbage everywhere else or not.
    Spoiled(u8, bool),
}

/// Every way to alter one, two or three of eight bits: fewer than the four in which any two numbers differ.
fn masks() -> Vec<u8> {
    (1..=255u8).filter(|mask| mask.count_ones() <= 3).collect()
}

/// The line's pattern: faults before the first whole cell and after the last, every mask with and without garbage, and
/// gaps of 1, 13 and 14 cells that are lost, spoiled or both.
fn pattern() -> Vec<Fate> {
    let masks = masks();
    let mut fates = vec![Fate::Spoiled(1, false), Fate::Lost, Fate::Spoiled(7, true), Fate::Whole];
    for &mask in &masks {
        fates.extend([Fate::Spoiled(mask, false), Fate::Whole, Fate::Spoiled(mask, true), Fate::Whole, Fate::Whole]);
    }
    for gap in [1, 13, 14] {
        for lost_every in [1, 2, 20] {
            fates.extend(row(gap, lost_every));
            fates.push(Fate::Whole);
        }
    }
    fates.extend([Fate::Lost, Fate::Spoiled(0x91, true), Fate::Lost]);
    fates
}

/// So many cells in a row, each of them lost or spoiled.
fn row(gap: usize, lost_every: usize) -> impl Iterator<Item = Fate> {
    let masks = masks();
    (0..gap).map(move |cell| match cell % lost_every {
        0 => Fate::Lost,
        nth => Fate::Spoiled(masks[(7 * cell + gap) % masks.len()], nth % 2 == 0),
    })
}

/// Rows of more than fourteen cells. Behind them stand one or two whole cells: after fifteen the first of them is lost too.
const OUTAGES: [usize; 6] = [15, 16, 17, 31, 32, 200];

fn outages() -> Vec<Fate> {
    let mut fates = vec![Fate::Lost, Fate::Whole];
    for whole in [1, 2] {
        for gap in OUTAGES {
            fates.extend(row(gap, whole));
            fates.extend(vec![Fate::Whole; whole]);
        }
    }
    fates.extend([Fate::Lost, Fate::Spoiled(0x91, true)]);
    fates
}

/// How many more times the cells of a row come, over and over: seven of them, so that each kind of fate meets each number.
const AGAIN: [usize; 7] = [0, 1, 0, 2, 0, 17, 3];

/// What became of a cell, and how many more times it came, if it came.
type Trip = (Fate, usize);

fn once(fates: &[Fate]) -> Vec<Trip> {
    fates.iter().map(|&fate| (fate, 0)).collect()
}

fn repeated(fates: &[Fate]) -> Vec<Trip> {
    fates.iter().copied().zip(AGAIN.into_iter().cycle()).collect()
}

/// The call set-up of one reading.
#[derive(Clone, Copy)]
struct Call {
    format: u64,
    slots: usize,
    ancillaries: u64,
    channels: usize,
    order: u64,
}

impl Call {
    fn entries(&self) -> usize {
        self.channels * (self.slots / self.channels)
    }

    fn sample_bits(&self) -> u64 {
        let ancillary_bits = if self.ancillaries == 16 { 4 } else { 0 };
        384 / self.slots as u64 - ancillary_bits - 4
    }

    fn entry(&self, random: &mut Random) -> Entry {
        [random.below(1 << self.sample_bits()), random.below(self.ancillaries), 0]
    }

    fn setup(&self) -> Vec<u64> {
        vec![self.format, self.channels as u64, self.order]
    }
}

/// Turns over the chosen ones of the first eight sequencing bits; with garbage, any of the other bits.
fn spoil(cell: &mut [u8], slots: usize, mask: u8, garbage: bool, random: &mut Random) {
    let subframe = 384 / slots;
    for bit in 0..384 {
        let (slot, within) = (bit / subframe, bit % subframe);
        let number_bit = slot < 8 && within == subframe - 4;
        let altered = if number_bit { mask >> slot & 1 == 1 } else { garbage && random.one_in(2) };
        if altered {
            cell[bit / 8] ^= 0x80 >> (bit % 8);
        }
    }
}

/// What the receiver makes of each sent cell, however many are lost: how many cells are told missing before it, or that it isn't
/// taken.
/// After k lost ones since the last that was taken it is k modulo 16; where that is 15 the cell is refused and lost too.
fn taken(trips: &[Trip]) -> Vec<Option<usize>> {
    let mut lost_since = None;
    let mut take = |fate: Fate| {
        let missing = lost_since.unwrap_or(0) % 16;
        let takes = fate == Fate::Whole && missing != 15;
        lost_since = if takes { Some(0) } else { lost_since.map(|lost: usize| lost + 1) };
        takes.then_some(missing)
    };
    trips.iter().map(|&(fate, _)| take(fate)).collect()
}

/// What must be handed out whatever is lost: each cell that is taken, behind the places of the cells told missing before it.
fn shown(trips: &[Trip], sent: &[Vec<Entry>]) -> Vec<Entry> {
    let cells = taken(trips).into_iter().zip(sent).filter_map(|(missing, entries)| Some((missing?, entries)));
    cells.flat_map(|(missing, entries)| [vec![MISSING; missing * entries.len()], entries.clone()].concat()).collect()
}

/// By how many cells each cell that is taken is shown before its true place, both counted from the first one's.
fn slips(trips: &[Trip]) -> Vec<usize> {
    let cells: Vec<(usize, usize)> =
        taken(trips).into_iter().enumerate().filter_map(|(place, missing)| Some((place, missing?))).collect();
    let mut before = 0;
    let mut slip = |(place, missing): (usize, usize)| {
        let at = before + missing;
        before = at + 1;
        place - cells[0].0 - at
    };
    cells.iter().map(|&cell| slip(cell)).collect()
}

/// What must be handed out by demand 3: from the first whole cell to the last, each in its place, nothing else.
fn expected(trips: &[Trip], sent: &[Vec<Entry>]) -> Vec<Entry> {
    let first = trips.iter().position(|&(fate, _)| fate == Fate::Whole).unwrap_or(0);
    let end = trips.iter().rposition(|&(fate, _)| fate == Fate::Whole).map_or(0, |last| last + 1);
    let places = trips[first..end].iter().zip(&sent[first..end]);
    places
        .flat_map(
            |(&(fate, _), entries)| if fate == Fate::Whole { entries.clone() } else { vec![MISSING; entries.len()] },
        )
        .collect()
}

struct Ends {
    answer: Answerer,
    call: Call,
    sender: Vec<u64>,
    receiver: Vec<u64>,
}

impl Ends {
    fn open(answer: Answerer, call: Call) -> Option<Ends> {
        let wanted = call.slots >= 12;
        let second = if wanted { 9 } else { 0 };
        let [format, channels, order] = call.setup()[..] else { return None };
        let sender = answer(&Case::new(Kind::SenderOpen, values![format, channels, order, 5, wanted, second]))?;
        let receiver = answer(&Case::new(Kind::ReceiverOpen, values![format, channels, order]))?;
        Some(Ends { answer, call, sender: sender[1].run().to_vec(), receiver: receiver[1].run().to_vec() })
    }

    /// The cell, and the indication that it was sent with.
    fn send(&mut self, entries: &[Entry]) -> Option<(Vec<u8>, bool)> {
        let indication = self.sender[3] == 8;
        let samples: Vec<u64> = entries.iter().map(|entry| entry[0]).collect();
        let ancillary: Vec<u64> = entries.iter().map(|entry| entry[1]).collect();
        let inputs = values![&self.sender[..], indication, &samples[..], &ancillary[..], &[0u8; 48][..]];
        let answer = (self.answer)(&Case::new(Kind::Send, inputs))?;
        self.sender = answer[1].run().to_vec();
        (answer[0].number() == 0).then(|| (answer[2].octets().to_vec(), indication))
    }

    /// The refusal and the entries handed out, or a word on what was wrong.
    fn receive(&mut self, cell: &[u8], indication: bool) -> Result<(u64, Vec<Entry>), String> {
        let room = 15 * self.call.entries();
        let lent = UNTOUCHED.map(|entry| vec![entry; room]);
        let inputs = values![&self.receiver[..], cell, indication, &lent[0][..], &lent[1][..], &lent[2][..]];
        let answer = (self.answer)(&Case::new(Kind::Receive, inputs)).ok_or("not asked")?;
        self.receiver = answer[1].run().to_vec();
        let handed = if answer[0].number() == 0 { (answer[5].number() as usize + 1) * self.call.entries() } else { 0 };
        let entry = |at: usize| [2, 3, 4].map(|run| answer[run].run()[at]);
        if (handed..room).any(|at| entry(at) != UNTOUCHED) {
            return Err("an entry past those handed out was written".into());
        }
        Ok((answer[0].number(), (0..handed).map(entry).collect()))
    }

    /// A cell that comes, and again so many times: the entries handed out, all of them by the first delivery.
    fn deliver(
        &mut self,
        cell: &[u8],
        indication: bool,
        (fate, again): Trip,
        takes: bool,
    ) -> Result<Vec<Entry>, String> {
        let copies = if fate == Fate::Whole { 9 } else { 8 };
        let first = if takes { 0 } else { copies };
        let (refusal, handed) = self.receive(cell, indication)?;
        if refusal != first {
            return Err(format!("a cell got {refusal} for {first}"));
        }
        let state = self.receiver.clone();
        for _ in 0..again {
            let (refusal, more) = self.receive(cell, indication)?;
            if refusal != copies || !more.is_empty() || self.receiver != state {
                return Err(format!("a copy got {refusal} for {copies}, or left something behind"));
            }
        }
        Ok(handed)
    }
}

/// A line's pattern, and what must be handed out of it.
type Row = (Vec<Trip>, fn(&[Trip], &[Vec<Entry>]) -> Vec<Entry>);

/// The entries that had to be handed out and were, or what went wrong.
fn play(mut ends: Ends, (trips, must_show): &Row) -> Result<usize, String> {
    let call = ends.call;
    if let Some(slip) = slips(trips).iter().find(|&slip| slip % 16 != 0) {
        return Err(format!("a slip of {slip} cells"));
    }
    let mut random = Random::for_scenario(SEED, call.format * 1000 + call.channels as u64 * 2 + call.order);
    let mut sent = vec![];
    let mut handed = vec![];
    for (&trip, missing) in trips.iter().zip(taken(trips)) {
        let entries: Vec<Entry> = (0..call.entries()).map(|_| call.entry(&mut random)).collect();
        let (mut cell, mut indication) = ends.send(&entries).ok_or("a cell was refused by the sender")?;
        sent.push(entries);
        match trip.0 {
            Fate::Lost => continue,
            Fate::Whole => {}
            Fate::Spoiled(mask, garbage) => {
                spoil(&mut cell, call.slots, mask, garbage, &mut random);
                indication ^= garbage;
            }
        }
        handed.extend(ends.deliver(&cell, indication, trip, missing.is_some())?);
    }
    let must_be = must_show(trips, &sent);
    match must_be.iter().zip(&handed).position(|(wanted, given)| wanted != given) {
        Some(at) => Err(format!("entry {at}: {:?} handed out where {:?} must stand", handed[at], must_be[at])),
        None if handed.len() != must_be.len() => Err(format!("{} entries for {}", handed.len(), must_be.len())),
        // so many cells were placed
        None if ends.receiver[5] * call.entries() as u64 != must_be.len() as u64 => {
            Err(format!("{} cells placed for {}", ends.receiver[5], must_be.len() / call.entries()))
        }
        None => Ok(handed.len()),
    }
}

/// A format's readings with a few C and both orders: true where all come out right.
fn play_format(who: &str, answer: Answerer, (format, slots, ancillaries): (u64, usize, u64), rows: &[Row]) -> bool {
    let calls = [1, 2, 3, 5, slots - 1, slots]
        .into_iter()
        .flat_map(|channels| [0, 1].map(|order| Call { format, slots, ancillaries, channels, order }));
    let (mut readings, mut cells, mut copies, mut entries) = (0, 0, 0, 0);
    for (call, row) in calls.flat_map(|call| rows.iter().map(move |row| (call, row))) {
        let Some(ends) = Ends::open(answer, call) else {
            println!("{who}: {format:02X} hex: not linked");
            return true;
        };
        match play(ends, row) {
            Ok(handed) => (readings, entries) = (readings + 1, entries + handed),
            Err(fault) => {
                println!("{who}: {format:02X} hex, C = {}, order {}: {fault}", call.channels, call.order);
                return false;
            }
        }
        cells += row.0.len();
        copies += row.0.iter().filter(|trip| trip.0 != Fate::Lost).map(|trip| trip.1).sum::<usize>();
    }
    println!(
        "{who}: {format:02X} hex: {readings} readings, {cells} cells sent, {copies} copies, {entries} entries as they must be"
    );
    true
}

/// True where every format's story comes out right.
pub fn run() -> bool {
    let rows: [Row; 4] = [
        (once(&pattern()), expected),
        (repeated(&pattern()), expected),
        (once(&outages()), shown),
        (repeated(&outages()), shown),
    ];
    let verdicts: Vec<bool> = ANSWERERS
        .iter()
        .flat_map(|&(who, answer)| WITH_OVERHEAD.map(|format| play_format(who, answer, format, &rows)))
        .collect();
    verdicts.iter().all(|&right| right)
}

//! The sender and the receiver: their states, refusals in the paper's order, and what each call leaves.

use super::cells::{Entry, Shape, CELL_OCTETS};
use super::{refuse_if, Refusal};

const MISSING: Entry = Entry { sample: 0, ancillary: 0, mark: 2 };

#[derive(Clone, Copy, Default)]
pub struct Sender {
    pub format: u64,
    pub channels: u64,
    pub order: u64,
    pub number: u64,
    pub wanted: bool,
    pub second: u64,
    pub sent: bool,
}

impl Sender {
    /// Checks 1 to 4, of an opening and of a state alike.
    pub fn shape(&self) -> Result<Shape, Refusal> {
        let shape = Shape::new(self.format, self.channels, self.order)?;
        refuse_if(self.number > 15 || self.second > 15, 4)?;
        refuse_if(self.wanted && !shape.has_second(), 4)?;
        refuse_if(!self.wanted && self.second != 0, 4)?;
        Ok(shape)
    }

    /// The second number of the next cell: "adds 1 modulo 16 in each cell with indication 1 except its first".
    fn next_second(&self, indication: bool) -> u64 {
        if self.wanted && self.sent && indication {
            (self.second + 1) % 16
        } else {
            self.second
        }
    }

    /// The state afterwards and the cell, which the caller lent with `cell_len` octets.
    pub fn send(
        &self,
        indication: bool,
        samples: &[u64],
        ancillary: &[u64],
        cell_len: usize,
    ) -> Result<(Sender, Vec<u8>), Refusal> {
        let shape = self.shape()?;
        refuse_if(cell_len != CELL_OCTETS, 5)?;
        refuse_if(samples.len() != shape.entries() || ancillary.len() != shape.entries(), 5)?;
        let most_ancillary = if shape.format.ancillary { 15 } else { 0 };
        refuse_if(samples.iter().any(|&sample| sample >> shape.format.sample_bits != 0), 6)?;
        refuse_if(ancillary.iter().any(|&four| four > most_ancillary), 6)?;
        refuse_if(indication && !self.number.is_multiple_of(8), 7)?;
        let second = self.next_second(indication);
        let cell = shape.pack(self.number, second, samples, ancillary);
        Ok((Sender { number: (self.number + 1) % 16, second, sent: true, ..*self }, cell))
    }
}

#[derive(Clone, Copy, Default)]
pub struct Receiver {
    pub format: u64,
    pub channels: u64,
    pub order: u64,
    pub started: bool,
    pub last: u64,
    /// Cells placed since the opening, sound and missing together.
    pub count: u64,
}

/// What a cell brings: the entries to write from the start of the runs, and the report.
pub struct Received {
    pub entries: Vec<Entry>,
    pub missing: u64,
    pub number: u64,
    pub second: u64,
}

impl Receiver {
    /// Checks 1 to 4.
    pub fn shape(&self) -> Result<Shape, Refusal> {
        let shape = Shape::new(self.format, self.channels, self.order)?;
        refuse_if(self.last > 15, 4)?;
        refuse_if((!self.started || !shape.format.overhead) && self.last != 0, 4)?;
        refuse_if(!self.started && self.count != 0, 4)?;
        Ok(shape)
    }

    /// d, which is 1 at the first cell and without overhead.
    fn steps_to(&self, shape: &Shape, number: u64) -> u64 {
        if self.started && shape.format.overhead {
            (16 + number - self.last) % 16
        } else {
            1
        }
    }

    /// The state afterwards and what the cell brings, where the three runs have these lengths.
    pub fn receive(&self, cell: &[u8], indication: bool, lengths: [usize; 3]) -> Result<(Receiver, Received), Refusal> {
        let shape = self.shape()?;
        let [room, ancillary_len, marks_len] = lengths;
        refuse_if(cell.len() != CELL_OCTETS || room != ancillary_len || room != marks_len, 5)?;
        let (number, second) = if shape.format.overhead { shape.numbers_of(cell).ok_or(8)? } else { (0, 0) };
        // "The receiver must turn down such cells where the format carries overhead": after 8 and before 9.
        refuse_if(shape.format.overhead && indication && !number.is_multiple_of(8), 15)?;
        let steps = self.steps_to(&shape, number);
        refuse_if(steps == 0, 9)?;
        // "20 where the count would pass 4,294,967,295, after 9 and before 10"
        let count = self.count + steps;
        refuse_if(count > 4_294_967_295, 20)?;
        refuse_if(room < steps as usize * shape.entries(), 10)?;
        let missing = steps - 1;
        let mut entries = vec![MISSING; missing as usize * shape.entries()];
        entries.extend(shape.unpack(cell));
        Ok((Receiver { started: true, last: number, count, ..*self }, Received { entries, missing, number, second }))
    }
}

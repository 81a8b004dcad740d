//! The management port, written from clause 8 of the standard and its Tables 3 to 9: what the equipment and the
//! controlling entity do with a message. A port's record is octets 1 to 28 of its status message. What a box is opened
//! with is read from it by 6.2 and 6.3.

use super::{refuse_if, Refusal, Shape};

const RECORD: usize = 28;

const STATUS: u8 = 129;
const INPUT: u8 = 0;
const OUTPUT: u8 = 1;

const NO_SUCH_PORT: u8 = 0x00;
const DISABLED: u8 = 0x40;
const IN_USE: u8 = 0x60;
const IDLE: u8 = 0xC0;
const ACTIVE: u8 = 0xE0;

/// Places in a record.
const CODE: usize = 2;
const FORMAT: usize = 3;
const PACKING: usize = 4;
const REFERENCE: usize = 6;

/// What the network is to be sent.
#[derive(Clone, Copy)]
pub enum Network {
    Setup = 1,
    AddParty = 2,
    Release = 3,
    DropParty = 4,
}

/// What a message that isn't refused comes to.
#[derive(Default)]
pub struct Deed {
    /// A status message, where one is written.
    pub answer: Option<Vec<u8>>,
    /// What the network is asked, for which port, with which endpoint reference.
    pub asked: Option<(Network, usize, u16)>,
    /// A port's first endpoint reference from now on.
    stored: Option<(usize, u16)>,
}

/// "the data in octets 1 to 5": subsystem code, selector, and the three octets of the format.
struct Data {
    subsystem: u8,
    selector: u8,
    format: [u8; 3],
}

/// 8.3.5: zeros added, or the excess ignored.
fn brought_to(length: usize, message: &[u8]) -> Vec<u8> {
    message.iter().copied().chain(std::iter::repeat(0)).take(length).collect()
}

fn three(octets: &[u8]) -> [u8; 3] {
    [octets[0], octets[1], octets[2]]
}

fn number(octets: &[u8]) -> u16 {
    u16::from_be_bytes([octets[0], octets[1]])
}

fn records(ports: &[u8]) -> impl Iterator<Item = (usize, &[u8])> {
    ports.chunks_exact(RECORD).enumerate()
}

impl Data {
    /// F, P and R: which octets of the format the port isn't set to.
    fn unsupported(&self, record: &[u8]) -> [bool; 3] {
        [0, 1, 2].map(|aspect| record[FORMAT + aspect] != self.format[aspect])
    }

    fn names(&self, record: &[u8]) -> bool {
        record[0] == self.subsystem && record[1] == self.selector
    }

    fn fits(&self, record: &[u8]) -> bool {
        self.names(record) && self.unsupported(record) == [false; 3]
    }

    /// The port with the fewest aspects unsupported; `min_by_key` gives the first of several.
    fn best<'a>(&self, ports: &'a [u8]) -> Option<(usize, &'a [u8])> {
        let misfits = |record: &[u8]| self.unsupported(record).iter().filter(|&&differs| differs).count();
        records(ports).filter(|(_, record)| self.names(record)).min_by_key(|(_, record)| misfits(record))
    }

    /// The status message for these data.
    fn status(&self, ports: &[u8]) -> Vec<u8> {
        if self.subsystem > OUTPUT {
            return vec![STATUS, self.subsystem];
        }
        let best = self.best(ports);
        let code = match best {
            None => NO_SUCH_PORT,
            Some((_, record)) if self.fits(record) => record[CODE],
            Some((_, record)) => {
                self.unsupported(record).iter().fold(0b1_0000, |code, &differs| code << 1 | u8::from(differs))
            }
        };
        let mut message = vec![STATUS, self.subsystem, self.selector, code];
        message.extend(self.format);
        let told = if self.subsystem == INPUT { 2 } else { 22 };
        match best {
            Some((_, record)) if self.subsystem == INPUT || code == ACTIVE => {
                message.extend(&record[REFERENCE..REFERENCE + told]);
            }
            _ => message.resize(7 + told, 0),
        }
        message
    }
}

/// "the port is the source of a call" where its first endpoint reference isn't 0.
fn is_source(record: &[u8]) -> bool {
    number(&record[REFERENCE..]) != 0
}

/// "can be" the source of one: enabled.
fn can_be_source(record: &[u8]) -> bool {
    [IDLE, ACTIVE].contains(&record[CODE])
}

/// Octets 1 to 4 and 5 to 6 of Tables 4 and 5.
fn request(message: &[u8]) -> (Data, u16) {
    (Data { subsystem: INPUT, selector: message[1], format: three(&message[2..]) }, number(&message[5..]))
}

fn enquired(ports: &[u8], message: &[u8]) -> Deed {
    let data = Data { subsystem: message[1], selector: message[2], format: three(&message[3..]) };
    Deed { answer: Some(data.status(ports)), ..Deed::default() }
}

fn connected(ports: &[u8], message: &[u8]) -> Deed {
    let (data, reference) = request(message);
    let source = |record: &[u8]| data.fits(record) && (is_source(record) || can_be_source(record));
    match records(ports).find(|(_, record)| source(record)).filter(|_| reference != 0) {
        None => Deed { answer: Some(data.status(ports)), ..Deed::default() },
        Some((port, record)) if is_source(record) => {
            Deed { asked: Some((Network::AddParty, port, reference)), ..Deed::default() }
        }
        Some((port, _)) => {
            Deed { asked: Some((Network::Setup, port, 0)), stored: Some((port, reference)), ..Deed::default() }
        }
    }
}

fn disconnected(ports: &[u8], message: &[u8]) -> Deed {
    let (data, reference) = request(message);
    match records(ports).find(|(_, record)| data.fits(record) && is_source(record)) {
        None => Deed { answer: Some(data.status(ports)), ..Deed::default() },
        Some((port, _)) if reference == 0xFFFF => {
            Deed { asked: Some((Network::Release, port, 0)), stored: Some((port, 0)), ..Deed::default() }
        }
        Some((port, record)) => {
            let first = number(&record[REFERENCE..]) == reference;
            Deed { asked: Some((Network::DropParty, port, if first { 0 } else { reference })), ..Deed::default() }
        }
    }
}

/// The equipment takes a message, with so many octets of room for an answer.
pub fn equipment(ports: &mut [u8], message: &[u8], room: usize) -> Result<Deed, Refusal> {
    refuse_if(message.is_empty(), 24)?;
    let deed = match message[0] {
        1 => enquired(ports, &brought_to(6, message)),
        2 => connected(ports, &brought_to(27, message)),
        3 => disconnected(ports, &brought_to(7, message)),
        _ => Deed::default(),
    };
    refuse_if(deed.answer.as_ref().is_some_and(|answer| answer.len() > room), 25)?;
    if let Some((port, reference)) = deed.stored {
        let at = port * RECORD + REFERENCE;
        ports[at..at + 2].copy_from_slice(&reference.to_be_bytes());
    }
    Ok(deed)
}

/// "40, C0, and E0", and of an output port 60: octets 4 to 6 tell how the port is configured.
fn tells_format(subsystem: u8, code: u8) -> bool {
    match code {
        DISABLED | IDLE | ACTIVE => true,
        IN_USE => subsystem == OUTPUT,
        _ => false,
    }
}

/// The controlling entity takes a message.
pub fn controller(ports: &mut [u8], message: &[u8]) -> Result<(), Refusal> {
    refuse_if(message.is_empty(), 24)?;
    let message = brought_to(29, message);
    let (subsystem, code) = (message[1], message[3]);
    let recognised = tells_format(subsystem, code) || matches!(code, NO_SUCH_PORT | 0x81..=0x87);
    if message[0] != STATUS || subsystem > OUTPUT || !recognised {
        return Ok(());
    }
    let data = Data { subsystem, selector: message[2], format: three(&message[4..]) };
    let Some((port, _)) = data.best(ports) else { return Ok(()) };
    let record = &mut ports[port * RECORD..(port + 1) * RECORD];
    record[CODE] = code;
    if tells_format(subsystem, code) {
        record[FORMAT..FORMAT + 3].copy_from_slice(&data.format);
    }
    if subsystem == INPUT {
        record[REFERENCE..REFERENCE + 2].copy_from_slice(&message[7..9]);
    } else if code == ACTIVE {
        record[REFERENCE..].copy_from_slice(&message[7..29]);
    }
    Ok(())
}

/// Format, C and order of a record: "bits 6 to 1 show number of audio channels", "00 temporal grouping", "01 grouping by
/// channel".
pub fn port_settings(record: &[u8]) -> Result<[u64; 3], Refusal> {
    let (format, packing) = (u64::from(record[FORMAT]), u64::from(record[PACKING]));
    let (order, channels) = (packing >> 6, packing & 0b11_1111);
    Shape::new(format, channels, order).map(|_| [format, channels, order])
}

/// The packing octet. 6.3.2: "Where the number of channels is 1, or equal to the number of samples per cell, the coding for
/// temporal grouping shall be used."
pub fn port_packing(format: u64, channels: u64, order: u64) -> Result<u64, Refusal> {
    let shape = Shape::new(format, channels, order)?;
    let temporal = order == 0 || shape.channels == 1 || shape.channels == shape.format.slots;
    Ok(if temporal { channels } else { 0b0100_0000 | channels })
}

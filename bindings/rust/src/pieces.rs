//! A log from any reader, taken in pieces: it is never in memory as a whole.

use crate::face::pieces::{self as face, room, NOTES_ROOM, OUT_ROOM, TEXT_ROOM};
use crate::{unless_refused, Anything, Figures, Refusal};
use std::io::{self, ErrorKind, Read, Write};

const PIECE: usize = 65_536;

/// Some octets of the log; none at its end.
fn read(reader: &mut impl Read, piece: &mut [u8]) -> io::Result<usize> {
    loop {
        match reader.read(piece) {
            Err(why) if why.kind() == ErrorKind::Interrupted => {}
            answer => return answer,
        }
    }
}

/// Hands out piece after piece while that says that it wants more.
fn each_piece(mut reader: impl Read, mut take: impl FnMut(&[u8]) -> io::Result<bool>) -> io::Result<()> {
    let mut piece = vec![0; PIECE];
    loop {
        let octets = read(&mut reader, &mut piece)?;
        if octets == 0 || !take(&piece[..octets])? {
            return Ok(());
        }
    }
}

/// The list of a log, line by line, as it comes from a reader: the lines of [`list`](crate::list). A log that can't be read has a
/// list that says so.
///
/// ```
/// use rimesatchel::{lines, list};
///
/// let log = [&[0x56, 2, 0, 0][..], &[0; 60]].concat();
/// let read: Vec<String> = lines(&log[..]).collect::<Result<_, _>>()?;
/// assert_eq!(read.join("\n") + "\n", list(&log));
/// # Ok::<(), std::io::Error>(())
/// ```
pub fn lines<R: Read>(reader: R) -> Lines<R> {
    let (mut state, mut held) = ([0; 15], [0; 49]);
    face::list_start(&mut state, &mut held);
    Lines { reader: Some(reader), state, held, piece: vec![0; PIECE], text: vec![], at: 0 }
}

/// The lines of a list. After a failed read there is none.
#[derive(Debug)]
pub struct Lines<R> {
    /// None behind the log's end.
    reader: Option<R>,
    state: face::ListState,
    held: face::Held,
    piece: Vec<u8>,
    /// Whole lines, of which those from `at` on weren't handed out yet.
    text: Vec<u8>,
    at: usize,
}

impl<R: Read> Lines<R> {
    /// The lines of the next octets, or what ends the list.
    fn refill(&mut self) -> io::Result<()> {
        let Some(mut reader) = self.reader.take() else { return Ok(()) };
        let octets = read(&mut reader, &mut self.piece)?;
        let mut written = 0;
        (self.text, self.at) = (vec![0; room(TEXT_ROOM, octets)], 0);
        if octets == 0 {
            face::list_end(&self.state, &self.held, &mut self.text, &mut written);
        } else {
            self.reader = Some(reader);
            let piece = &self.piece[..octets];
            face::list_take(&mut self.state, &mut self.held, piece, &mut self.text, &mut written);
        }
        self.text.truncate(written as usize);
        Ok(())
    }
}

impl<R: Read> Iterator for Lines<R> {
    type Item = io::Result<String>;

    fn next(&mut self) -> Option<Self::Item> {
        while self.at == self.text.len() {
            self.reader.as_ref()?;
            if let Err(why) = self.refill() {
                return Some(Err(why));
            }
        }
        let rest = &self.text[self.at..];
        let end = rest.iter().position(|&octet| octet == b'\n').expect("a list's lines are whole");
        let line = String::from_utf8(rest[..end].to_vec()).expect("a list is plain letters");
        self.at += end + 1;
        Some(Ok(line))
    }
}

/// Salvages a log as it comes from a reader: the new log goes to `out`, and a line for each record left out and the counts, or
/// the header's refusal, to `notes`.
///
/// ```
/// use rimesatchel::salvage_from;
///
/// let (mut out, mut notes) = (vec![], vec![]);
/// salvage_from(&[0x56, 2, 0, 0, 7][..], &mut out, &mut notes)?;
/// assert_eq!((&out[..], &notes[..]), (&[0x56, 2, 0][..], &b"end 0 kept 0 left out 2 cut\n"[..]));
/// # Ok::<(), std::io::Error>(())
/// ```
pub fn salvage_from(reader: impl Read, mut out: impl Write, mut notes: impl Write) -> io::Result<()> {
    let (mut state, mut held) = ([0; 16], [0; 49]);
    face::salvage_start(&mut state, &mut held);
    let (mut saved, mut said) = (vec![0; room(OUT_ROOM, PIECE)], vec![0; room(NOTES_ROOM, PIECE)]);
    each_piece(reader, |piece| {
        let mut written = [0; 2];
        face::salvage_take(&mut state, &mut held, piece, &mut saved, &mut said, &mut written);
        out.write_all(&saved[..written[0] as usize])?;
        notes.write_all(&said[..written[1] as usize])?;
        Ok(true)
    })?;
    let mut written = 0;
    face::salvage_end(&state, &held, &mut said, &mut written);
    notes.write_all(&said[..written as usize])
}

/// Is there anything on a log at all? No more is read of it than the answer needs. Refused 11, 1, 2 or 3.
///
/// ```
/// use rimesatchel::{anything_from, Anything};
///
/// let log = [&[0x56, 2, 0][..], &[0; 98]].concat();
/// assert_eq!(anything_from(&log[..])?.unwrap(), Anything::No(2));
/// assert_eq!(anything_from(&log[..2])?.unwrap_err().number(), 11);
/// # Ok::<(), std::io::Error>(())
/// ```
pub fn anything_from(reader: impl Read) -> io::Result<Result<Anything, Refusal>> {
    let (mut state, mut held) = ([0; 14], [0; 49]);
    face::anything_start(&mut state, &mut held);
    each_piece(reader, |piece| {
        let mut more = 0;
        face::anything_take(&mut state, &mut held, piece, &mut more);
        Ok(more == 1)
    })?;
    let mut answer = [0; 2];
    let refusal = face::anything_end(&state, &held, &mut answer);
    Ok(unless_refused(refusal, Anything::of(answer)))
}

/// The figures of a log as it comes from a reader, as [`sheet`](crate::sheet) has them. Refused 19.
///
/// ```
/// use rimesatchel::{figures_from, sheet};
///
/// let log = [&[0x56, 2, 0][..], &[0; 98]].concat();
/// assert_eq!(figures_from(&log[..])?, Ok(sheet(&[&log]).unwrap().all));
/// # Ok::<(), std::io::Error>(())
/// ```
pub fn figures_from(reader: impl Read) -> io::Result<Result<Figures, Refusal>> {
    let (mut state, mut held) = ([0; 20], [0; 49]);
    face::figures_start(&mut state, &mut held);
    each_piece(reader, |piece| {
        face::figures_take(&mut state, &mut held, piece);
        Ok(true)
    })?;
    let mut row = [0; 10];
    let refusal = face::figures_end(&state, &mut row);
    Ok(unless_refused(refusal, Figures::of(row)))
}

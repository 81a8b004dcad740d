//! A log in pieces, put to the proved library piece by piece and to the plain implementation as a whole. A case has the log and
//! how many octets each piece has; what is left of the log is the last piece.

use super::by_library::Fenced;
use crate::case::{values, Answer, Case};
use crate::face::pieces::{self as face, room, NOTES_ROOM, OUT_ROOM, TEXT_ROOM};
use crate::plain::{self, Anything};

const LEFT_OVER: u8 = 0xA5;

/// The pieces of a case's log.
fn pieces(case: &Case) -> Vec<&[u8]> {
    let (mut rest, mut pieces) = (case.octets(0), vec![]);
    for &length in case.run(1) {
        let (piece, after) = rest.split_at(rest.len().min(length as usize));
        pieces.push(piece);
        rest = after;
    }
    pieces.push(rest);
    pieces
}

fn run(length: usize) -> Fenced<u8> {
    Fenced::around(&vec![LEFT_OVER; length], LEFT_OVER)
}

/// The octets that a call says it wrote. What is past them must be as it was.
fn written(run: Fenced<u8>, octets: u64) -> Vec<u8> {
    let mut back = run.back();
    let past = back.split_off(octets as usize);
    assert!(past.iter().all(|&octet| octet == LEFT_OVER), "written past what was said");
    back
}

/// The list, and how many calls with an octet of room too few were refused 21 and moved nothing: every one.
pub fn list_by_library(case: &Case) -> Option<Answer> {
    let (mut state, mut held, mut all, mut refused) = ([u64::MAX; 15], [LEFT_OVER; 49], vec![], 0);
    assert_eq!(face::list_start(&mut state, &mut held), 0);
    for piece in pieces(case) {
        let (enough, before) = (room(TEXT_ROOM, piece.len()), (state, held));
        let (mut short, mut octets) = (run(enough - 1), u64::MAX);
        let refusal = face::list_take(&mut state, &mut held, piece, short.lent(), &mut octets);
        refused += u64::from(refusal == 21 && octets == 0 && before == (state, held) && written(short, 0).is_empty());
        let mut text = run(enough);
        assert_eq!(face::list_take(&mut state, &mut held, piece, text.lent(), &mut octets), 0);
        all.extend(written(text, octets));
    }
    let (mut short, mut octets) = (run(TEXT_ROOM[0] - 1), u64::MAX);
    let refusal = face::list_end(&state, &held, short.lent(), &mut octets);
    refused += u64::from(refusal == 21 && octets == 0 && written(short, 0).is_empty());
    let mut text = run(TEXT_ROOM[0]);
    assert_eq!(face::list_end(&state, &held, text.lent(), &mut octets), 0);
    all.extend(written(text, octets));
    Some(values![0, &all[..], refused])
}

pub fn list_by_plain(case: &Case) -> Answer {
    values![0, plain::listing(case.octets(0)).as_bytes(), pieces(case).len() as u64 + 1]
}

/// The new log, the notes, and how many calls with an octet of room too few in either run were refused 21 and moved nothing.
pub fn salvage_by_library(case: &Case) -> Option<Answer> {
    let (mut state, mut held, mut refused) = ([u64::MAX; 16], [LEFT_OVER; 49], 0);
    let (mut saved, mut said) = (vec![], vec![]);
    assert_eq!(face::salvage_start(&mut state, &mut held), 0);
    for piece in pieces(case) {
        let enough = [room(OUT_ROOM, piece.len()), room(NOTES_ROOM, piece.len())];
        let (before, mut octets) = ((state, held), [u64::MAX; 2]);
        for short in [[1, 0], [0, 1]] {
            let (mut out, mut notes) = (run(enough[0] - short[0]), run(enough[1] - short[1]));
            let refusal = face::salvage_take(&mut state, &mut held, piece, out.lent(), notes.lent(), &mut octets);
            let same = before == (state, held) && written(out, 0).is_empty() && written(notes, 0).is_empty();
            refused += u64::from(refusal == 21 && octets == [0, 0] && same);
        }
        let (mut out, mut notes) = (run(enough[0]), run(enough[1]));
        assert_eq!(face::salvage_take(&mut state, &mut held, piece, out.lent(), notes.lent(), &mut octets), 0);
        saved.extend(written(out, octets[0]));
        said.extend(written(notes, octets[1]));
    }
    let (mut short, mut octets) = (run(NOTES_ROOM[0] - 1), u64::MAX);
    let refusal = face::salvage_end(&state, &held, short.lent(), &mut octets);
    refused += u64::from(refusal == 21 && octets == 0 && written(short, 0).is_empty());
    let mut notes = run(NOTES_ROOM[0]);
    assert_eq!(face::salvage_end(&state, &held, notes.lent(), &mut octets), 0);
    said.extend(written(notes, octets));
    Some(values![0, &saved[..], &said[..], refused])
}

pub fn salvage_by_plain(case: &Case) -> Answer {
    let (log, notes) = match plain::salvage(case.octets(0)) {
        Err(refusal) => (vec![], format!("log refused {refusal}\n")),
        Ok(saved) => {
            let left: String = saved.list.chunks(2).map(|two| format!("{} refused {}\n", two[0], two[1])).collect();
            let (kept, left_out) = ((saved.log.len() - 3) / 49, saved.list.len() / 2);
            let end = format!("end {kept} kept {left_out} left out {} cut\n", saved.cut);
            (saved.log, left + &end)
        }
    };
    values![0, &log[..], notes.as_bytes(), 2 * pieces(case).len() as u64 + 1]
}

/// The answer. It stands as soon as a call says that nothing more need be read: the rest is taken, and changes nothing.
pub fn anything_by_library(case: &Case) -> Option<Answer> {
    let (mut state, mut held, mut early, mut last) = ([u64::MAX; 14], [LEFT_OVER; 49], None, 1);
    assert_eq!(face::anything_start(&mut state, &mut held), 0);
    for piece in pieces(case) {
        let mut more = u64::MAX;
        assert_eq!(face::anything_take(&mut state, &mut held, piece, &mut more), 0);
        assert!(more == 0 || (more == 1 && early.is_none()), "more to be read behind an answer");
        if more == 0 && early.is_none() {
            early = Some(anything_end(&state, &held));
        }
        last = more;
    }
    let answer = anything_end(&state, &held);
    let found = matches!(plain::anything(case.octets(0)), Ok(Anything::Yes { .. }));
    assert!(last == 0 || !found, "more to be read behind a yes");
    assert!(early.is_none_or(|early| early == answer), "an answer that changed");
    Some(answer)
}

fn anything_end(state: &face::AnythingState, held: &face::Held) -> Answer {
    let mut answer = [u64::MAX; 2];
    let refusal = face::anything_end(state, held, &mut answer);
    values![u64::from(refusal), answer[0], answer[1]]
}

pub fn anything_by_plain(case: &Case) -> Answer {
    match plain::anything(case.octets(0)) {
        Ok(Anything::Yes { record }) => values![0, true, record],
        Ok(Anything::No { records }) => values![0, false, records],
        Err(refusal) => values![u64::from(refusal), 0, 0],
    }
}

pub fn figures_by_library(case: &Case) -> Option<Answer> {
    let (mut state, mut held, mut row) = ([u64::MAX; 20], [LEFT_OVER; 49], [u32::MAX; 10]);
    assert_eq!(face::figures_start(&mut state, &mut held), 0);
    for piece in pieces(case) {
        assert_eq!(face::figures_take(&mut state, &mut held, piece), 0);
    }
    let refusal = face::figures_end(&state, &mut row);
    Some(values![u64::from(refusal), &row.map(u64::from)[..]])
}

pub fn figures_by_plain(case: &Case) -> Answer {
    let log = case.octets(0);
    match plain::sheet(log, &[log.len() as u64], 10) {
        Ok(sheet) => values![0, &sheet.totals[..]],
        Err(refusal) => values![u64::from(refusal), &[0u64; 10][..]],
    }
}

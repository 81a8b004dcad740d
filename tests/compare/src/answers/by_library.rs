//! A case put to the proved library through the face: nothing where a number is wider than the face's type for it, or
//! where the part of the library isn't linked.

use super::line::line;
use super::slips::slips;
use super::{management, pieces};
use crate::case::{values, Answer, Case, Kind, Value};
use crate::face::{self, Entries, ReceiverState, Runs};

pub fn by_library(case: &Case) -> Option<Answer> {
    match case.kind {
        Kind::Format if cfg!(feature = "boxes") => format(case),
        Kind::SenderOpen if cfg!(feature = "boxes") => sender_open(case),
        Kind::ReceiverOpen if cfg!(feature = "boxes") => receiver_open(case),
        Kind::Send if cfg!(feature = "boxes") => send(case),
        Kind::Receive if cfg!(feature = "boxes") => receive(case),
        Kind::Line => line(case, by_library),
        Kind::Slip if cfg!(feature = "boxes") => slip(case),
        Kind::Slips => slips(case, by_library),
        Kind::StatusStep if cfg!(feature = "status") => status_step(case),
        Kind::StatusRun if cfg!(feature = "status") => status_run(case),
        Kind::CheckCharacter if cfg!(feature = "status") => check_character(case),
        Kind::ReadHeader if cfg!(feature = "log") => read_header(case),
        Kind::ReadRecord if cfg!(feature = "log") => read_record(case),
        Kind::JudgeLog if cfg!(feature = "log") => judge_log(case),
        Kind::SendLog if cfg!(feature = "log") => send_log(case),
        Kind::ReceiveLog if cfg!(feature = "log") => receive_log(case),
        Kind::Anything if cfg!(feature = "log") => anything(case),
        Kind::Salvage if cfg!(feature = "log") => salvage(case),
        Kind::PutHeader if cfg!(feature = "log") => put_header(case),
        Kind::PutRecord if cfg!(feature = "log") => put_record(case),
        Kind::LogList if cfg!(feature = "log") => log_list(case),
        Kind::Aes3Import if cfg!(feature = "cable") => aes3_import(case),
        Kind::Aes3Export if cfg!(feature = "cable") => aes3_export(case),
        Kind::Equipment => management::equipment_by_library(case),
        Kind::Controller => management::controller_by_library(case),
        Kind::PortSettings => management::port_settings_by_library(case),
        Kind::PortPacking => management::port_packing_by_library(case),
        Kind::UnitsExport if cfg!(feature = "units") => units_export(case),
        Kind::UnitRead if cfg!(feature = "units") => unit_read(case),
        Kind::CircuitsCheck if cfg!(feature = "circuits") => circuits_check(case),
        Kind::CircuitsPlan if cfg!(feature = "circuits") => circuits_plan(case),
        Kind::Sheet if cfg!(feature = "figures") => sheet(case),
        Kind::ListPieces if cfg!(feature = "log") => pieces::list_by_library(case),
        Kind::SalvagePieces if cfg!(feature = "log") => pieces::salvage_by_library(case),
        Kind::AnythingPieces if cfg!(feature = "log") => pieces::anything_by_library(case),
        Kind::FiguresPieces if cfg!(feature = "figures") => pieces::figures_by_library(case),
        _ => None,
    }
}

/// A lent run between entries that must stay: a box that writes past a run's ends breaks the fence.
pub(super) struct Fenced<T> {
    entries: Vec<T>,
    fence: T,
}

const FENCE_ENTRIES: usize = 3;

impl<T: Copy + PartialEq> Fenced<T> {
    pub(super) fn around(content: &[T], fence: T) -> Fenced<T> {
        let side = [fence; FENCE_ENTRIES];
        Fenced { entries: [&side, content, &side].concat(), fence }
    }

    pub(super) fn lent(&mut self) -> &mut [T] {
        let end = self.entries.len() - FENCE_ENTRIES;
        &mut self.entries[FENCE_ENTRIES..end]
    }

    /// The run afterwards. A broken fence comes along with it, so that the comparison shows it.
    pub(super) fn back(self) -> Vec<T> {
        let end = self.entries.len() - FENCE_ENTRIES;
        let fences = [&self.entries[..FENCE_ENTRIES], &self.entries[end..]].concat();
        if fences.iter().all(|&entry| entry == self.fence) {
            self.entries[FENCE_ENTRIES..end].to_vec()
        } else {
            self.entries
        }
    }
}

/// What arrays that a call fills hold before it: it must not show afterwards.
pub(super) const LEFT_OVER: u8 = 0xA5;

fn narrow<T: TryFrom<u64>>(numbers: &[u64]) -> Option<Vec<T>> {
    numbers.iter().map(|&number| T::try_from(number).ok()).collect()
}

fn narrow_array<T: TryFrom<u64>, const N: usize>(numbers: &[u64]) -> Option<[T; N]> {
    narrow(numbers)?.try_into().ok()
}

fn wide<T: Copy + Into<u64>>(numbers: &[T]) -> Vec<u64> {
    numbers.iter().map(|&number| number.into()).collect()
}

fn format(case: &Case) -> Option<Answer> {
    let mut facts = [u32::MAX; 4];
    let refusal = face::format(u32::try_from(case.number(0)).ok()?, &mut facts);
    let mut answer = values![u64::from(refusal)];
    answer.extend(facts.map(|number| Value::Number(number.into())));
    Some(answer)
}

fn sender_open(case: &Case) -> Option<Answer> {
    let numbers: Vec<u64> = case.inputs.iter().map(Value::number).collect();
    let [format, channels, order, number, _, second] = narrow_array(&numbers)?;
    let mut state = [LEFT_OVER; 7];
    let refusal = face::sender_open([format, channels, order], number, case.yes(4), second, &mut state);
    Some(values![u64::from(refusal), &wide(&state)[..]])
}

fn receiver_open(case: &Case) -> Option<Answer> {
    let numbers: Vec<u64> = case.inputs.iter().map(Value::number).collect();
    let mut state = [LEFT_OVER; 9];
    let refusal = face::receiver_open(narrow_array(&numbers)?, &mut state);
    Some(values![u64::from(refusal), &receiver_fields(&state)[..]])
}

/// A receiver's state as octets: its count is the sixth field, and four octets, least significant first.
fn receiver_octets(fields: &[u64]) -> Option<ReceiverState> {
    let (count, others) = fields.split_last()?;
    let count = u32::try_from(*count).ok()?;
    [&narrow(others)?[..], &count.to_le_bytes()].concat().try_into().ok()
}

/// Its fields, the count as the library tells it.
fn receiver_fields(state: &ReceiverState) -> Vec<u64> {
    let mut fields = wide(&state[..5]);
    fields.push(face::receiver_placed(state).into());
    fields
}

fn send(case: &Case) -> Option<Answer> {
    let mut state = narrow_array(case.run(0))?;
    let ancillary: Vec<u8> = narrow(case.run(3))?;
    let mut cell = Fenced::around(case.octets(4), LEFT_OVER);
    let refusal = face::send(&mut state, case.yes(1), case.run(2), &ancillary, cell.lent());
    Some(values![u64::from(refusal), &wide(&state)[..], &cell.back()[..]])
}

fn receive(case: &Case) -> Option<Answer> {
    let mut state = receiver_octets(case.run(0))?;
    let mut samples = Fenced::around(case.run(3), u64::MAX);
    let mut ancillary = Fenced::around(&narrow(case.run(4))?, LEFT_OVER);
    let mut marks = Fenced::around(&narrow(case.run(5))?, LEFT_OVER);
    let runs = Runs { samples: samples.lent(), ancillary: ancillary.lent(), marks: marks.lent() };
    let mut report = [LEFT_OVER; 4];
    let refusal = face::receive(&mut state, case.octets(1), case.yes(2), runs, &mut report);
    let (ancillary, marks) = (wide(&ancillary.back()), wide(&marks.back()));
    let after = receiver_fields(&state);
    let mut answer = values![u64::from(refusal), &after[..], &samples.back()[..], &ancillary[..], &marks[..]];
    answer.extend(report.map(|number| Value::Number(number.into())));
    Some(answer)
}

fn slip(case: &Case) -> Option<Answer> {
    let mut watch = narrow_array(case.run(0))?;
    let mut told = [LEFT_OVER; 2];
    let refusal = face::slip(&mut watch, &narrow_array(case.run(1))?, &mut told);
    Some(values![u64::from(refusal), &wide(&watch)[..], u64::from(told[0]), u64::from(told[1])])
}

fn status_step(case: &Case) -> Option<Answer> {
    let [bits, ancillary, mark] = narrow_array(&[case.number(0), case.number(2), case.number(3)])?;
    let mut block = [&[bits], case.octets(1)].concat().try_into().ok()?;
    let mut out = [LEFT_OVER; 25];
    let refusal = face::status_step(&mut block, ancillary, mark, &mut out);
    Some(values![u64::from(refusal), u64::from(block[0]), &block[1..], u64::from(out[0]), &out[1..]])
}

fn status_run(case: &Case) -> Option<Answer> {
    let bits = u8::try_from(case.number(0)).ok()?;
    let mut block = [&[bits], case.octets(1)].concat().try_into().ok()?;
    let (mut out, mut next) = ([LEFT_OVER; 25], u64::MAX);
    let (ancillary, marks) = (case.octets(2), case.octets(3));
    let entries = Entries { ancillary, marks, from: case.number(4), step: case.number(5) };
    let refusal = face::status_run(&mut block, entries, &mut out, &mut next);
    Some(values![u64::from(refusal), u64::from(block[0]), &block[1..], u64::from(out[0]), &out[1..], next])
}

/// Octet 23 isn't read, so where a case has none it holds anything.
fn check_character(case: &Case) -> Option<Answer> {
    let mut block = [LEFT_OVER; 24];
    block.get_mut(..case.octets(0).len())?.copy_from_slice(case.octets(0));
    Some(values![u64::from(face::check_character(&block))])
}

fn read_header(case: &Case) -> Option<Answer> {
    let mut header = [u32::MAX; 4];
    let refusal = face::log_header(case.octets(0), &mut header);
    let mut answer = values![u64::from(refusal)];
    answer.extend(header.map(|number| Value::Number(number.into())));
    Some(answer)
}

fn read_record(case: &Case) -> Option<Answer> {
    let place = usize::try_from(case.number(1)).ok()?;
    let mut record = [u64::MAX; 4];
    let refusal = face::log_record(case.octets(0), place, &mut record);
    let mut answer = values![u64::from(refusal)];
    answer.extend(record.map(Value::Number));
    Some(answer)
}

fn judge_log(case: &Case) -> Option<Answer> {
    let mut state = receiver_octets(case.run(0))?;
    let place = usize::try_from(case.number(2)).ok()?;
    let (mut reports, mut counts) = (Fenced::around(case.octets(3), LEFT_OVER), [u64::MAX; 3]);
    let refusal = face::judge_log(&mut state, case.octets(1), place, reports.lent(), &mut counts);
    let mut answer = values![u64::from(refusal), &receiver_fields(&state)[..], &reports.back()[..]];
    answer.extend(counts.map(Value::Number));
    Some(answer)
}

fn send_log(case: &Case) -> Option<Answer> {
    let mut state = narrow_array(case.run(0))?;
    let ancillary: Vec<u8> = narrow(case.run(3))?;
    let place = usize::try_from(case.number(5)).ok()?;
    let (mut log, mut counts) = (Fenced::around(case.octets(4), LEFT_OVER), [u64::MAX; 4]);
    let refusal = face::send_log(&mut state, case.yes(1), case.run(2), &ancillary, log.lent(), place, &mut counts);
    let mut answer = values![u64::from(refusal), &wide(&state)[..], &log.back()[..]];
    answer.extend(counts.map(Value::Number));
    Some(answer)
}

fn receive_log(case: &Case) -> Option<Answer> {
    let mut state = receiver_octets(case.run(0))?;
    let place = usize::try_from(case.number(2)).ok()?;
    let mut samples = Fenced::around(case.run(3), u64::MAX);
    let mut ancillary = Fenced::around(case.octets(4), LEFT_OVER);
    let mut marks = Fenced::around(case.octets(5), LEFT_OVER);
    let runs = Runs { samples: samples.lent(), ancillary: ancillary.lent(), marks: marks.lent() };
    let mut counts = [u64::MAX; 9];
    let refusal = face::receive_log(&mut state, case.octets(1), place, runs, &mut counts);
    let after = receiver_fields(&state);
    let mut answer =
        values![u64::from(refusal), &after[..], &samples.back()[..], &ancillary.back()[..], &marks.back()[..]];
    answer.extend(counts.map(Value::Number));
    Some(answer)
}

fn anything(case: &Case) -> Option<Answer> {
    let mut answer = [u64::MAX; 2];
    let refusal = face::anything(case.octets(0), &mut answer);
    Some(values![u64::from(refusal), answer[0], answer[1]])
}

fn salvage(case: &Case) -> Option<Answer> {
    let mut out = Fenced::around(case.octets(1), LEFT_OVER);
    let mut list = Fenced::around(case.run(2), u64::MAX);
    let mut counts = [u64::MAX; 3];
    let refusal = face::salvage(case.octets(0), out.lent(), list.lent(), &mut counts);
    let mut answer = values![u64::from(refusal), &out.back()[..], &list.back()[..]];
    answer.extend(counts.map(Value::Number));
    Some(answer)
}

fn put_header(case: &Case) -> Option<Answer> {
    let settings = narrow_array(&[case.number(1), case.number(2), case.number(3)])?;
    let (mut log, mut next) = (Fenced::around(case.octets(0), LEFT_OVER), u64::MAX);
    let refusal = face::log_put_header(log.lent(), settings, &mut next);
    Some(values![u64::from(refusal), &log.back()[..], next])
}

fn put_record(case: &Case) -> Option<Answer> {
    let place = usize::try_from(case.number(1)).ok()?;
    let (mut log, mut next) = (Fenced::around(case.octets(0), LEFT_OVER), u64::MAX);
    let refusal = face::log_put_record(log.lent(), place, case.octets(2), case.yes(3), &mut next);
    Some(values![u64::from(refusal), &log.back()[..], next])
}

fn log_list(case: &Case) -> Option<Answer> {
    let (mut run, mut listed) = (Fenced::around(case.octets(1), LEFT_OVER), [u64::MAX; 2]);
    let refusal = face::log_list(case.octets(0), run.lent(), &mut listed);
    Some(values![u64::from(refusal), &run.back()[..], listed[0], listed[1]])
}

fn aes3_import(case: &Case) -> Option<Answer> {
    let preambles = case.octets(0).try_into().ok()?;
    let (mut samples, mut ancillary) = ([u64::MAX; 2], [LEFT_OVER; 2]);
    let refusal = face::aes3_import(preambles, &narrow_array(case.run(1))?, &mut samples, &mut ancillary);
    Some(values![u64::from(refusal), &samples[..], &wide(&ancillary)[..]])
}

fn aes3_export(case: &Case) -> Option<Answer> {
    let samples = case.run(0).try_into().ok()?;
    let (mut preambles, mut subframes) = ([LEFT_OVER; 2], [u32::MAX; 2]);
    let refusal = face::aes3_export(samples, &narrow_array(case.run(1))?, &mut preambles, &mut subframes);
    Some(values![u64::from(refusal), &preambles[..], &wide(&subframes)[..]])
}

fn units_export(case: &Case) -> Option<Answer> {
    let settings = narrow_array(&[case.number(0), case.number(1)])?;
    let size = usize::try_from(case.number(2)).ok()?;
    let ancillary: Vec<u8> = narrow(case.run(4))?;
    let mut out = Fenced::around(case.octets(5), LEFT_OVER);
    let mut units = [u64::MAX; 3];
    let refusal = face::units_export(settings, size, case.run(3), &ancillary, out.lent(), &mut units);
    let mut answer = values![u64::from(refusal), &out.back()[..]];
    answer.extend(units.map(Value::Number));
    Some(answer)
}

fn unit_read(case: &Case) -> Option<Answer> {
    let settings = narrow_array(&[case.number(0), case.number(1)])?;
    let mut samples = Fenced::around(case.run(3), u64::MAX);
    let mut ancillary = Fenced::around(&narrow(case.run(4))?, LEFT_OVER);
    let mut entries = u64::MAX;
    let refusal = face::unit_read(settings, case.octets(2), samples.lent(), ancillary.lent(), &mut entries);
    Some(values![u64::from(refusal), &samples.back()[..], &wide(&ancillary.back())[..], entries])
}

fn circuits_check(case: &Case) -> Option<Answer> {
    let asked = narrow_array(&[case.number(0), case.number(1), case.number(2)])?;
    let (shares, allowances): (Vec<u32>, Vec<u32>) = (narrow(case.run(3))?, narrow(case.run(4))?);
    let mut answer = [u32::MAX; 2];
    let refusal = face::circuits_check(asked, &shares, &allowances, &mut answer);
    Some(values![u64::from(refusal), u64::from(answer[0]), u64::from(answer[1])])
}

fn circuits_plan(case: &Case) -> Option<Answer> {
    let [format, channels] = narrow_array(&[case.number(0), case.number(1)])?;
    let mut shares = Fenced::around(&narrow(case.run(2))?, u32::MAX);
    let refusal = face::circuits_plan(format, channels, shares.lent());
    Some(values![u64::from(refusal), &wide(&shares.back())[..]])
}

/// The rows are told where the sheet is given, and where a refused one has touched them.
fn sheet(case: &Case) -> Option<Answer> {
    let before = vec![0x5A5A_5A5A; case.number(2) as usize];
    let mut rows = Fenced::around(&before, u32::MAX);
    let mut totals = [7; 10];
    let refusal = face::sheet(case.octets(0), case.run(1), rows.lent(), &mut totals);
    let after = rows.back();
    let stays = refusal != 0 && after == before;
    let told = if stays { vec![] } else { wide(&after) };
    Some(values![u64::from(refusal), &told[..], &wide(&totals)[..]])
}

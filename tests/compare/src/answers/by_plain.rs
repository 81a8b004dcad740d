//! A case put to the plain implementation, under the rules of the face: a yes or no in a state is 0 or anything else,
//! it comes back as 0 or 1, and a refusal leaves all that was lent as it was.

use super::line::line;
use super::slips::slips;
use super::{management, pieces};
use crate::case::{values, Answer, Case, Kind, Value};
use crate::plain::{self, Anything, Block, Fault, Receiver, Record, Refusal, Sender, Shape};

pub fn by_plain(case: &Case) -> Answer {
    match case.kind {
        Kind::Format => format(case),
        Kind::SenderOpen => sender_open(case),
        Kind::ReceiverOpen => receiver_open(case),
        Kind::Send => send(case),
        Kind::Receive => receive(case),
        Kind::Line => line(case, |call| Some(by_plain(call))).expect("every call is answered"),
        Kind::Slip => slip(case),
        Kind::Slips => slips(case, |call| Some(by_plain(call))).expect("every call is answered"),
        Kind::StatusStep => status_step(case),
        Kind::StatusRun => status_run(case),
        Kind::CheckCharacter => values![u64::from(plain::check_character(&case.octets(0)[..23]))],
        Kind::ReadHeader => read_header(case),
        Kind::ReadRecord => read_record(case),
        Kind::JudgeLog => judge_log(case),
        Kind::SendLog => send_log(case),
        Kind::ReceiveLog => receive_log(case),
        Kind::PutHeader => {
            put(case.octets(0), plain::put_header(case.octets(0), case.number(1), case.number(2), case.number(3)))
        }
        Kind::PutRecord => {
            put(case.octets(0), plain::put_record(case.octets(0), case.number(1), case.octets(2), case.yes(3)))
        }
        Kind::LogList => log_list(case),
        Kind::Equipment => management::equipment_by_plain(case),
        Kind::Controller => management::controller_by_plain(case),
        Kind::PortSettings => management::port_settings_by_plain(case),
        Kind::PortPacking => management::port_packing_by_plain(case),
        Kind::Linelist => values![plain::listing(case.octets(0)).as_bytes()],
        Kind::LinelistLimit => values![plain::listing_to(case.octets(0), case.number(1)).as_bytes()],
        Kind::Anything => anything(case),
        Kind::Salvage => salvage(case),
        Kind::Sheet => sheet(case),
        Kind::ListPieces => pieces::list_by_plain(case),
        Kind::SalvagePieces => pieces::salvage_by_plain(case),
        Kind::AnythingPieces => pieces::anything_by_plain(case),
        Kind::FiguresPieces => pieces::figures_by_plain(case),
        Kind::Aes3Import => aes3_import(case),
        Kind::Aes3Export => aes3_export(case),
        Kind::UnitsExport => units_export(case),
        Kind::UnitRead => unit_read(case),
        Kind::CircuitsCheck => circuits_check(case),
        Kind::CircuitsPlan => circuits_plan(case),
    }
}

fn sender_of(state: &[u64]) -> Sender {
    let [format, channels, order, number, wanted, second, sent] = *state else {
        panic!("a sender's state has 7 fields")
    };
    Sender { format, channels, order, number, wanted: wanted != 0, second, sent: sent != 0 }
}

fn sender_state(sender: &Sender) -> [u64; 7] {
    let Sender { format, channels, order, number, wanted, second, sent } = *sender;
    [format, channels, order, number, u64::from(wanted), second, u64::from(sent)]
}

fn receiver_of(state: &[u64]) -> Receiver {
    let [format, channels, order, started, last, count] = *state else { panic!("a receiver's state has 6 fields") };
    Receiver { format, channels, order, started: started != 0, last, count }
}

fn receiver_state(receiver: &Receiver) -> [u64; 6] {
    let Receiver { format, channels, order, started, last, count } = *receiver;
    [format, channels, order, u64::from(started), last, count]
}

fn format(case: &Case) -> Answer {
    match Shape::new(case.number(0), 1, 0) {
        Ok(Shape { format, .. }) => {
            let four = |carried| if carried { 4 } else { 0u64 };
            values![
                0,
                u64::from(format.sample_bits),
                four(format.ancillary),
                four(format.overhead),
                format.slots as u64
            ]
        }
        Err(refusal) => values![u64::from(refusal), 0, 0, 0, 0],
    }
}

/// The refusal of an opening, and its state: zeros where it was refused.
fn opened<T>(checked: Result<T, Refusal>, state: &[u64]) -> Answer {
    match checked {
        Ok(_) => values![0, state],
        Err(refusal) => values![u64::from(refusal), &vec![0u64; state.len()][..]],
    }
}

fn sender_open(case: &Case) -> Answer {
    let fields: Vec<u64> = case.inputs.iter().map(Value::number).chain([0]).collect();
    let sender = sender_of(&fields);
    opened(sender.shape(), &sender_state(&sender))
}

fn receiver_open(case: &Case) -> Answer {
    let fields: Vec<u64> = case.inputs.iter().map(Value::number).chain([0, 0, 0]).collect();
    let receiver = receiver_of(&fields);
    opened(receiver.shape(), &receiver_state(&receiver))
}

fn send(case: &Case) -> Answer {
    let (state, cell) = (case.run(0), case.octets(4));
    match sender_of(state).send(case.yes(1), case.run(2), case.run(3), cell.len()) {
        Ok((after, packed)) => values![0, &sender_state(&after)[..], &packed[..]],
        Err(refusal) => values![u64::from(refusal), state, cell],
    }
}

fn receive(case: &Case) -> Answer {
    let (state, indication) = (case.run(0), case.yes(2));
    let mut runs = [3, 4, 5].map(|field| case.run(field).to_vec());
    let (refusal, after, report) =
        match receiver_of(state).receive(case.octets(1), indication, [0, 1, 2].map(|run| runs[run].len())) {
            Ok((after, received)) => {
                for (at, entry) in received.entries.iter().enumerate() {
                    runs[0][at] = entry.sample;
                    runs[1][at] = entry.ancillary;
                    runs[2][at] = entry.mark;
                }
                let report = [received.missing, received.number, received.second, u64::from(indication)];
                (0, receiver_state(&after).to_vec(), report)
            }
            Err(refusal) => (u64::from(refusal), state.to_vec(), [0; 4]),
        };
    let mut answer = values![refusal, &after[..], &runs[0][..], &runs[1][..], &runs[2][..]];
    answer.extend(report.map(Value::from));
    answer
}

fn slip(case: &Case) -> Answer {
    let watch = case.run(0).try_into().expect("a watch has 7 fields");
    let report = case.run(1).try_into().expect("a report has 4 fields");
    match plain::slip(&watch, &report) {
        Ok((after, [what, cells])) => values![0, &after[..], what, cells],
        Err(refusal) => values![u64::from(refusal), &watch[..], 0, 0],
    }
}

fn status_step(case: &Case) -> Answer {
    let octets = case.octets(1).try_into().expect("a block has 24 octets");
    let block = Block { bits: case.number(0), octets };
    match plain::step(&block, case.number(2), case.number(3)) {
        Ok((after, None)) => values![0, after.bits, &after.octets[..], 0, &[0u8; 24][..]],
        Ok((after, Some(handed))) => {
            values![0, after.bits, &after.octets[..], handed.character.number(), &handed.octets[..]]
        }
        Err(refusal) => values![u64::from(refusal), block.bits, &block.octets[..], 0, &[0u8; 24][..]],
    }
}

fn status_run(case: &Case) -> Answer {
    let octets = case.octets(1).try_into().expect("a block has 24 octets");
    let block = Block { bits: case.number(0), octets };
    match plain::run(&block, case.octets(2), case.octets(3), case.number(4), case.number(5)) {
        Ok((after, handed, next)) => {
            let (answer, out) = handed.map_or((0, [0; 24]), |handed| (handed.character.number(), handed.octets));
            values![0, after.bits, &after.octets[..], answer, &out[..], next]
        }
        Err(refusal) => values![u64::from(refusal), block.bits, &block.octets[..], 0, &[0u8; 24][..], 0],
    }
}

fn read_header(case: &Case) -> Answer {
    match plain::header(case.octets(0)) {
        Ok(header) => values![0, header.place as u64, header.format, header.channels, header.order],
        Err(refusal) => values![u64::from(refusal), 0, 0, 0, 0],
    }
}

fn read_record(case: &Case) -> Answer {
    let place = case.number(1);
    match plain::record(case.octets(0), place) {
        Ok(Record::Cell { indication, start, next }) => values![0, 1, indication, start as u64, next as u64],
        Ok(Record::End) => values![0, 0, 0, 0, place],
        Err(refusal) => values![u64::from(refusal), 0, 0, 0, 0],
    }
}

/// The single calls in a row: the record at the place, and the receiver's answer to it with room for all.
fn judge_log(case: &Case) -> Answer {
    const ROOM: [usize; 3] = [720; 3];
    let (log, mut reports) = (case.octets(1), case.octets(3).to_vec());
    let mut receiver = receiver_of(case.run(0));
    if let Err(refusal) = receiver.shape() {
        return values![u64::from(refusal), case.run(0), &reports[..], 0, 0, 0];
    }
    let (mut place, mut records) = (case.number(2), 0);
    let stop = loop {
        let (indication, start, next) = match plain::record(log, place) {
            Ok(Record::End) => break 0,
            Err(refusal) => break u64::from(refusal),
            Ok(Record::Cell { indication, start, next }) => (indication, start, next),
        };
        let Some(five) = reports.get_mut(5 * records..5 * records + 5) else { break 10 };
        five.fill(0);
        match receiver.receive(&log[start..start + 48], indication, ROOM) {
            Ok((after, received)) => {
                let report = [received.missing, received.number, received.second, u64::from(indication)];
                report.iter().zip(&mut five[1..]).for_each(|(&number, octet)| *octet = number as u8);
                receiver = after;
            }
            Err(refusal) => five[0] = refusal,
        }
        (place, records) = (next as u64, records + 1);
    };
    values![0, &receiver_state(&receiver)[..], &reports[..], place, records as u64, stop]
}

/// The single calls in a row: a cell of the next entries, and its record. The three stops are asked in their order.
fn send_log(case: &Case) -> Answer {
    let (samples, ancillary, mut log) = (case.run(2), case.run(3), case.octets(4).to_vec());
    let mut sender = sender_of(case.run(0));
    let refusal = match sender.shape() {
        Err(refusal) => u64::from(refusal),
        Ok(_) if samples.len() != ancillary.len() => 5,
        Ok(_) => 0,
    };
    if refusal != 0 {
        return values![refusal, case.run(0), &log[..], 0, 0, 0, 0];
    }
    let used = sender.shape().map_or(1, |shape| shape.entries());
    let (mut place, mut cells) = (case.number(5), 0);
    let stop = loop {
        let taken = used * cells..used * (cells + 1);
        let Some(next) = samples.get(taken.clone()) else { break 0 };
        if plain::put_record(&log, place, &[0; 48], false).is_err() {
            break 12;
        }
        let indication = case.yes(1) && sender.number.is_multiple_of(8);
        let (after, cell) = match sender.send(indication, next, &ancillary[taken], 48) {
            Ok(sent) => sent,
            Err(refusal) => break u64::from(refusal),
        };
        let (written, behind) = plain::put_record(&log, place, &cell, indication).expect("there is room");
        (sender, log, place, cells) = (after, written, behind as u64, cells + 1);
    };
    values![0, &sender_state(&sender)[..], &log[..], place, (cells * used) as u64, stop, cells as u64]
}

/// The single calls in a row: the record at the place, and the receiver's answer to it with what is left of the runs.
fn receive_log(case: &Case) -> Answer {
    let (log, mut samples) = (case.octets(1), case.run(3).to_vec());
    let (mut ancillary, mut marks) = (case.octets(4).to_vec(), case.octets(5).to_vec());
    let mut receiver = receiver_of(case.run(0));
    let unequal = samples.len() != ancillary.len() || samples.len() != marks.len();
    if let Err(refusal) = receiver.shape().and(if unequal { Err(5) } else { Ok(()) }) {
        let mut answer = values![u64::from(refusal), case.run(0), &samples[..], &ancillary[..], &marks[..]];
        answer.extend([0; 9].map(Value::Number));
        return answer;
    }
    let (mut place, mut at, mut taken, mut missing, mut refused) = (case.number(2), 0, 0, 0, [0; 4]);
    let stop = loop {
        let (indication, start, next) = match plain::record(log, place) {
            Ok(Record::End) => break 0,
            Err(refusal) => break u64::from(refusal),
            Ok(Record::Cell { indication, start, next }) => (indication, start, next),
        };
        match receiver.receive(&log[start..start + 48], indication, [samples.len() - at; 3]) {
            Ok((after, received)) => {
                for entry in &received.entries {
                    (samples[at], ancillary[at], marks[at]) = (entry.sample, entry.ancillary as u8, entry.mark as u8);
                    at += 1;
                }
                (receiver, taken, missing) = (after, taken + 1, missing + received.missing);
            }
            Err(10) => break 10,
            Err(refusal) => {
                let which = [8, 9, 15, 20].iter().position(|&number| number == refusal);
                refused[which.expect("a record is refused by one of these")] += 1;
            }
        }
        place = next as u64;
    };
    let state = receiver_state(&receiver);
    let mut answer = values![0, &state[..], &samples[..], &ancillary[..], &marks[..]];
    answer.extend([place, at as u64, stop, taken, missing].map(Value::Number));
    answer.extend(refused.map(Value::Number));
    answer
}

fn anything(case: &Case) -> Answer {
    match plain::anything(case.octets(0)) {
        Ok(Anything::Yes { record }) => values![0, true, record],
        Ok(Anything::No { records }) => values![0, false, records],
        Err(refusal) => values![u64::from(refusal), 0, 0],
    }
}

/// 21 where either run is shorter than all that goes into it.
fn salvage(case: &Case) -> Answer {
    let (mut out, mut list) = (case.octets(1).to_vec(), case.run(2).to_vec());
    let saved = plain::salvage(case.octets(0)).and_then(|saved| {
        if saved.log.len() > out.len() || saved.list.len() > list.len() {
            Err(21)
        } else {
            Ok(saved)
        }
    });
    match saved {
        Ok(saved) => {
            out[..saved.log.len()].copy_from_slice(&saved.log);
            list[..saved.list.len()].copy_from_slice(&saved.list);
            let (octets, left_out) = (saved.log.len() as u64, saved.list.len() as u64 / 2);
            values![0, &out[..], &list[..], octets, left_out, saved.cut as u64]
        }
        Err(refusal) => values![u64::from(refusal), &out[..], &list[..], 0, 0, 0],
    }
}

/// No rows where it is refused: the run stays.
fn sheet(case: &Case) -> Answer {
    match plain::sheet(case.octets(0), case.run(1), case.number(2) as usize) {
        Ok(sheet) => values![0, &sheet.rows.concat()[..], &sheet.totals[..]],
        Err(refusal) => values![u64::from(refusal), &[0u64; 0][..], &[0u64; 10][..]],
    }
}

/// What writing into a log leaves: the log as it was where it was refused.
fn put(log: &[u8], written: Result<(Vec<u8>, usize), Refusal>) -> Answer {
    match written {
        Ok((after, next)) => values![0, &after[..], next as u64],
        Err(refusal) => values![u64::from(refusal), log, 0],
    }
}

/// The list as far as the run goes.
fn log_list(case: &Case) -> Answer {
    let (text, run) = (plain::listing(case.octets(0)), case.octets(1));
    let listed = text.len().min(run.len());
    let after = [&text.as_bytes()[..listed], &run[listed..]].concat();
    values![0, &after[..], listed as u64, listed == text.len()]
}

fn aes3_import(case: &Case) -> Answer {
    match plain::import_frame(case.octets(0), case.run(1)) {
        Ok([first, second]) => {
            values![0, &[first.sample, second.sample][..], &[first.ancillary, second.ancillary][..]]
        }
        Err(refusal) => values![u64::from(refusal), &[0u64; 2][..], &[0u64; 2][..]],
    }
}

fn aes3_export(case: &Case) -> Answer {
    match plain::export_frame(case.run(0), case.run(1)) {
        Ok((preambles, subframes)) => values![0, &preambles[..], &subframes[..]],
        Err(refusal) => values![u64::from(refusal), &[0u8; 2][..], &[0u64; 2][..]],
    }
}

fn units_export(case: &Case) -> Answer {
    let settings = [case.number(0), case.number(1)];
    let mut out = case.octets(5).to_vec();
    match plain::export_units(settings, case.number(2), case.run(3), case.run(4), out.len()) {
        Ok(units) => {
            let octets = units.each.concat();
            out[..octets.len()].copy_from_slice(&octets);
            values![0, &out[..], octets.len() as u64, units.full, units.each.len() as u64]
        }
        Err(refusal) => values![u64::from(refusal), &out[..], 0, 0, 0],
    }
}

fn unit_read(case: &Case) -> Answer {
    let mut runs = [3, 4].map(|field| case.run(field).to_vec());
    let lengths = [0, 1].map(|run| runs[run].len());
    match plain::read_unit([case.number(0), case.number(1)], case.octets(2), lengths) {
        Ok(entries) => {
            for (at, entry) in entries.iter().enumerate() {
                runs[0][at] = entry.sample;
                runs[1][at] = entry.ancillary;
            }
            values![0, &runs[0][..], &runs[1][..], entries.len() as u64]
        }
        Err(refusal) => values![u64::from(refusal), &runs[0][..], &runs[1][..], 0],
    }
}

fn circuits_check(case: &Case) -> Answer {
    match plain::check_plan(case.number(0), case.number(1), case.number(2), case.run(3), case.run(4)) {
        Ok(None) => values![0, 1, 0],
        Ok(Some(Fault::Share(circuit))) => values![0, 2, circuit as u64],
        Ok(Some(Fault::Allowance(circuit))) => values![0, 3, circuit as u64],
        Ok(Some(Fault::Sum)) => values![0, 4, 0],
        Err(refusal) => values![u64::from(refusal), 0, 0],
    }
}

fn circuits_plan(case: &Case) -> Answer {
    match plain::plan(case.number(0), case.number(1), case.run(2).len()) {
        Ok(shares) => values![0, &shares[..]],
        Err(refusal) => values![u64::from(refusal), case.run(2)],
    }
}

//! The proved library's functions as include/rimesatchel.h declares them, and a safe call for each. Each answers what the header
//! says, mostly a refusal number; the types of the crate's own page stand above them.
//!
//! A slice carries its own length and two `&mut` never overlap, which is all that the header asks of a caller.

pub mod pieces;

pub type SenderState = [u8; 7];
pub type ReceiverState = [u8; 9];
pub type Report = [u8; 4];
pub type Watch = [u8; 7];
pub type StatusBlock = [u8; 25];
pub type StatusOut = [u8; 25];

/// What `slip` tells in the first octet of its answer.
pub mod slip_told {
    pub const NOTHING: u8 = 0;
    pub const BEFORE: u8 = 1;
    pub const ALONE: u8 = 2;
    pub const PERHAPS: u8 = 3;
}

/// What `status_step` answers in the first octet of `out`.
pub mod status_answer {
    pub const NEITHER: u8 = 0;
    pub const DOES_NOT_FIT: u8 = 1;
    pub const FITS: u8 = 2;
    pub const NONE_CARRIED: u8 = 3;
}

mod raw {
    use super::{ReceiverState, Report, SenderState, StatusBlock, StatusOut, Watch};

    extern "C" {
        pub fn rime_format(format: u32, facts: *mut [u32; 4]) -> u8;
        pub fn rime_sender_open(
            format: u32,
            channels: u32,
            order: u32,
            number: u32,
            wanted: bool,
            second: u32,
            state: *mut SenderState,
        ) -> u8;
        pub fn rime_send(
            state: *mut SenderState,
            indication: bool,
            samples: *const u64,
            samples_len: usize,
            ancillary: *const u8,
            ancillary_len: usize,
            cell: *mut u8,
            cell_len: usize,
        ) -> u8;
        pub fn rime_receiver_open(format: u32, channels: u32, order: u32, state: *mut ReceiverState) -> u8;
        pub fn rime_receiver_placed(state: *const ReceiverState) -> u32;
        pub fn rime_receive(
            state: *mut ReceiverState,
            cell: *const u8,
            cell_len: usize,
            indication: bool,
            samples: *mut u64,
            samples_len: usize,
            ancillary: *mut u8,
            ancillary_len: usize,
            marks: *mut u8,
            marks_len: usize,
            report: *mut Report,
        ) -> u8;
        pub fn rime_slip(watch: *mut Watch, report: *const Report, slip: *mut [u8; 2]) -> u8;
        pub fn rime_status_step(block: *mut StatusBlock, ancillary: u8, mark: u8, out: *mut StatusOut) -> u8;
        pub fn rime_status_run(
            block: *mut StatusBlock,
            ancillary: *const u8,
            ancillary_len: usize,
            marks: *const u8,
            marks_len: usize,
            from: u64,
            step: u64,
            out: *mut StatusOut,
            next: *mut u64,
        ) -> u8;
        pub fn rime_check_character(block: *const [u8; 24]) -> u8;
        pub fn rime_log_header(log: *const u8, log_len: usize, header: *mut [u32; 4]) -> u8;
        pub fn rime_log_record(log: *const u8, log_len: usize, place: usize, answer: *mut [u64; 4]) -> u8;
        pub fn rime_anything(log: *const u8, log_len: usize, answer: *mut [u64; 2]) -> u8;
        pub fn rime_salvage(
            log: *const u8,
            log_len: usize,
            out: *mut u8,
            out_len: usize,
            list: *mut u64,
            list_len: usize,
            counts: *mut [u64; 3],
        ) -> u8;
        pub fn rime_judge_log(
            state: *mut ReceiverState,
            log: *const u8,
            log_len: usize,
            place: usize,
            reports: *mut u8,
            reports_len: usize,
            counts: *mut [u64; 3],
        ) -> u8;
        pub fn rime_send_log(
            state: *mut SenderState,
            indications: bool,
            samples: *const u64,
            samples_len: usize,
            ancillary: *const u8,
            ancillary_len: usize,
            log: *mut u8,
            log_len: usize,
            place: usize,
            counts: *mut [u64; 4],
        ) -> u8;
        pub fn rime_receive_log(
            state: *mut ReceiverState,
            log: *const u8,
            log_len: usize,
            place: usize,
            samples: *mut u64,
            samples_len: usize,
            ancillary: *mut u8,
            ancillary_len: usize,
            marks: *mut u8,
            marks_len: usize,
            counts: *mut [u64; 9],
        ) -> u8;
        pub fn rime_log_put_header(
            log: *mut u8,
            log_len: usize,
            format: u32,
            channels: u32,
            order: u32,
            next: *mut u64,
        ) -> u8;
        pub fn rime_log_put_record(
            log: *mut u8,
            log_len: usize,
            place: usize,
            cell: *const u8,
            cell_len: usize,
            indication: bool,
            next: *mut u64,
        ) -> u8;
        pub fn rime_log_list(log: *const u8, log_len: usize, run: *mut u8, run_len: usize, listed: *mut [u64; 2])
            -> u8;
        pub fn rime_aes3_import(
            preambles: *const [u8; 2],
            subframes: *const [u32; 2],
            samples: *mut [u64; 2],
            ancillary: *mut [u8; 2],
        ) -> u8;
        pub fn rime_aes3_export(
            samples: *const [u64; 2],
            ancillary: *const [u8; 2],
            preambles: *mut [u8; 2],
            subframes: *mut [u32; 2],
        ) -> u8;
        pub fn rime_units_export(
            format: u32,
            channels: u32,
            size: usize,
            samples: *const u64,
            samples_len: usize,
            ancillary: *const u8,
            ancillary_len: usize,
            out: *mut u8,
            out_len: usize,
            units: *mut [u64; 3],
        ) -> u8;
        pub fn rime_unit_read(
            format: u32,
            channels: u32,
            unit: *const u8,
            unit_len: usize,
            samples: *mut u64,
            samples_len: usize,
            ancillary: *mut u8,
            ancillary_len: usize,
            entries: *mut u64,
        ) -> u8;
        pub fn rime_circuits_check(
            format: u32,
            channels: u32,
            frequency: u32,
            shares: *const u32,
            shares_len: usize,
            allowances: *const u32,
            allowances_len: usize,
            answer: *mut [u32; 2],
        ) -> u8;
        pub fn rime_circuits_plan(format: u32, channels: u32, shares: *mut u32, shares_len: usize) -> u8;
        pub fn rime_sheet(
            octets: *const u8,
            octets_len: usize,
            lengths: *const u64,
            lengths_len: usize,
            rows: *mut u32,
            rows_len: usize,
            totals: *mut [u32; 10],
        ) -> u8;
    }
}

pub fn format(octet: u32, facts: &mut [u32; 4]) -> u8 {
    unsafe { raw::rime_format(octet, facts) }
}

pub fn sender_open(
    [format, channels, order]: [u32; 3],
    number: u32,
    wanted: bool,
    second: u32,
    state: &mut SenderState,
) -> u8 {
    // SAFETY: see the head of this file; so below.
    unsafe { raw::rime_sender_open(format, channels, order, number, wanted, second, state) }
}

pub fn send(state: &mut SenderState, indication: bool, samples: &[u64], ancillary: &[u8], cell: &mut [u8]) -> u8 {
    let (cell_at, cell_len) = (cell.as_mut_ptr(), cell.len());
    let (samples_at, ancillary_at) = (samples.as_ptr(), ancillary.as_ptr());
    unsafe {
        raw::rime_send(state, indication, samples_at, samples.len(), ancillary_at, ancillary.len(), cell_at, cell_len)
    }
}

pub fn receiver_open([format, channels, order]: [u32; 3], state: &mut ReceiverState) -> u8 {
    unsafe { raw::rime_receiver_open(format, channels, order, state) }
}

pub fn receiver_placed(state: &ReceiverState) -> u32 {
    unsafe { raw::rime_receiver_placed(state) }
}

/// The three runs that the receiver writes to.
pub struct Runs<'a> {
    pub samples: &'a mut [u64],
    pub ancillary: &'a mut [u8],
    pub marks: &'a mut [u8],
}

pub fn receive(state: &mut ReceiverState, cell: &[u8], indication: bool, runs: Runs, report: &mut Report) -> u8 {
    let Runs { samples, ancillary, marks } = runs;
    unsafe {
        raw::rime_receive(
            state,
            cell.as_ptr(),
            cell.len(),
            indication,
            samples.as_mut_ptr(),
            samples.len(),
            ancillary.as_mut_ptr(),
            ancillary.len(),
            marks.as_mut_ptr(),
            marks.len(),
            report,
        )
    }
}

pub fn slip(watch: &mut Watch, report: &Report, slip: &mut [u8; 2]) -> u8 {
    unsafe { raw::rime_slip(watch, report, slip) }
}

pub fn status_step(block: &mut StatusBlock, ancillary: u8, mark: u8, out: &mut StatusOut) -> u8 {
    unsafe { raw::rime_status_step(block, ancillary, mark, out) }
}

/// Entries as the receiver wrote them, and which of them are a channel's: `from`, `from` + `step`, ..
pub struct Entries<'a> {
    pub ancillary: &'a [u8],
    pub marks: &'a [u8],
    pub from: u64,
    pub step: u64,
}

pub fn status_run(block: &mut StatusBlock, entries: Entries, out: &mut StatusOut, next: &mut u64) -> u8 {
    let Entries { ancillary, marks, from, step } = entries;
    let (ancillary_len, marks_len) = (ancillary.len(), marks.len());
    unsafe {
        raw::rime_status_run(block, ancillary.as_ptr(), ancillary_len, marks.as_ptr(), marks_len, from, step, out, next)
    }
}

pub fn check_character(block: &[u8; 24]) -> u8 {
    unsafe { raw::rime_check_character(block) }
}

pub fn log_header(log: &[u8], header: &mut [u32; 4]) -> u8 {
    unsafe { raw::rime_log_header(log.as_ptr(), log.len(), header) }
}

pub fn log_record(log: &[u8], place: usize, answer: &mut [u64; 4]) -> u8 {
    unsafe { raw::rime_log_record(log.as_ptr(), log.len(), place, answer) }
}

pub fn anything(log: &[u8], answer: &mut [u64; 2]) -> u8 {
    unsafe { raw::rime_anything(log.as_ptr(), log.len(), answer) }
}

pub fn salvage(log: &[u8], out: &mut [u8], list: &mut [u64], counts: &mut [u64; 3]) -> u8 {
    let (out_at, out_len) = (out.as_mut_ptr(), out.len());
    let (list_at, list_len) = (list.as_mut_ptr(), list.len());
    unsafe { raw::rime_salvage(log.as_ptr(), log.len(), out_at, out_len, list_at, list_len, counts) }
}

pub fn judge_log(state: &mut ReceiverState, log: &[u8], place: usize, reports: &mut [u8], counts: &mut [u64; 3]) -> u8 {
    let (reports, reports_len) = (reports.as_mut_ptr(), reports.len());
    unsafe { raw::rime_judge_log(state, log.as_ptr(), log.len(), place, reports, reports_len, counts) }
}

pub fn send_log(
    state: &mut SenderState,
    indications: bool,
    samples: &[u64],
    ancillary: &[u8],
    log: &mut [u8],
    place: usize,
    counts: &mut [u64; 4],
) -> u8 {
    let (samples, samples_len) = (samples.as_ptr(), samples.len());
    let (ancillary, ancillary_len) = (ancillary.as_ptr(), ancillary.len());
    let (log, log_len) = (log.as_mut_ptr(), log.len());
    unsafe {
        raw::rime_send_log(
            state,
            indications,
            samples,
            samples_len,
            ancillary,
            ancillary_len,
            log,
            log_len,
            place,
            counts,
        )
    }
}

pub fn receive_log(state: &mut ReceiverState, log: &[u8], place: usize, runs: Runs, counts: &mut [u64; 9]) -> u8 {
    let Runs { samples, ancillary, marks } = runs;
    unsafe {
        raw::rime_receive_log(
            state,
            log.as_ptr(),
            log.len(),
            place,
            samples.as_mut_ptr(),
            samples.len(),
            ancillary.as_mut_ptr(),
            ancillary.len(),
            marks.as_mut_ptr(),
            marks.len(),
            counts,
        )
    }
}

pub fn log_put_header(log: &mut [u8], [format, channels, order]: [u32; 3], next: &mut u64) -> u8 {
    unsafe { raw::rime_log_put_header(log.as_mut_ptr(), log.len(), format, channels, order, next) }
}

pub fn log_put_record(log: &mut [u8], place: usize, cell: &[u8], indication: bool, next: &mut u64) -> u8 {
    let (log_at, log_len) = (log.as_mut_ptr(), log.len());
    unsafe { raw::rime_log_put_record(log_at, log_len, place, cell.as_ptr(), cell.len(), indication, next) }
}

pub fn log_list(log: &[u8], run: &mut [u8], listed: &mut [u64; 2]) -> u8 {
    unsafe { raw::rime_log_list(log.as_ptr(), log.len(), run.as_mut_ptr(), run.len(), listed) }
}

pub fn aes3_import(preambles: &[u8; 2], subframes: &[u32; 2], samples: &mut [u64; 2], ancillary: &mut [u8; 2]) -> u8 {
    unsafe { raw::rime_aes3_import(preambles, subframes, samples, ancillary) }
}

pub fn aes3_export(samples: &[u64; 2], ancillary: &[u8; 2], preambles: &mut [u8; 2], subframes: &mut [u32; 2]) -> u8 {
    unsafe { raw::rime_aes3_export(samples, ancillary, preambles, subframes) }
}

pub fn units_export(
    [format, channels]: [u32; 2],
    size: usize,
    samples: &[u64],
    ancillary: &[u8],
    out: &mut [u8],
    units: &mut [u64; 3],
) -> u8 {
    let (out_at, out_len) = (out.as_mut_ptr(), out.len());
    let (samples_at, ancillary_at) = (samples.as_ptr(), ancillary.as_ptr());
    unsafe {
        raw::rime_units_export(
            format,
            channels,
            size,
            samples_at,
            samples.len(),
            ancillary_at,
            ancillary.len(),
            out_at,
            out_len,
            units,
        )
    }
}

pub fn unit_read(
    [format, channels]: [u32; 2],
    unit: &[u8],
    samples: &mut [u64],
    ancillary: &mut [u8],
    entries: &mut u64,
) -> u8 {
    let (samples_at, samples_len) = (samples.as_mut_ptr(), samples.len());
    let (ancillary_at, ancillary_len) = (ancillary.as_mut_ptr(), ancillary.len());
    unsafe {
        raw::rime_unit_read(
            format,
            channels,
            unit.as_ptr(),
            unit.len(),
            samples_at,
            samples_len,
            ancillary_at,
            ancillary_len,
            entries,
        )
    }
}

pub fn circuits_check(
    [format, channels, frequency]: [u32; 3],
    shares: &[u32],
    allowances: &[u32],
    answer: &mut [u32; 2],
) -> u8 {
    let (shares_at, allowances_at) = (shares.as_ptr(), allowances.as_ptr());
    unsafe {
        raw::rime_circuits_check(
            format,
            channels,
            frequency,
            shares_at,
            shares.len(),
            allowances_at,
            allowances.len(),
            answer,
        )
    }
}

pub fn circuits_plan(format: u32, channels: u32, shares: &mut [u32]) -> u8 {
    unsafe { raw::rime_circuits_plan(format, channels, shares.as_mut_ptr(), shares.len()) }
}

pub fn sheet(octets: &[u8], lengths: &[u64], rows: &mut [u32], totals: &mut [u32; 10]) -> u8 {
    let (octets_at, lengths_at, rows_at) = (octets.as_ptr(), lengths.as_ptr(), rows.as_mut_ptr());
    unsafe { raw::rime_sheet(octets_at, octets.len(), lengths_at, lengths.len(), rows_at, rows.len(), totals) }
}

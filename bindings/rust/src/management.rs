//! The management port's functions as include/rime_management.h declares them, and a safe call for each. It returns its
//! refusal, 0 where there is none. docs/MANAGEMENT.md says how they are used, and what to know.
//!
//! A slice carries its own length and two `&mut` never overlap, which is all that the header asks of a caller.

mod raw {
    #[link(name = "rime_management", kind = "static")]
    extern "C" {
        pub fn rime_equipment(
            ports: *mut u8,
            ports_len: usize,
            message: *const u8,
            message_len: usize,
            answer: *mut u8,
            answer_len: usize,
            report: *mut [u64; 4],
        ) -> u8;
        pub fn rime_controller(ports: *mut u8, ports_len: usize, message: *const u8, message_len: usize) -> u8;
        pub fn rime_port_settings(port: *const [u8; 28], settings: *mut [u32; 3]) -> u8;
        pub fn rime_port_packing(format: u32, channels: u32, order: u32, packing: *mut u8) -> u8;
    }
}

/// `rime_equipment`: what the equipment does with a message. Refused 24 or 25. The report is the octets of the answer,
/// and what the network is to be sent: 0 nothing, 1 SETUP, 2 ADD PARTY, 3 RELEASE, 4 DROP PARTY; for which port, and
/// with which endpoint reference (0 is the first party, and so in a SETUP).
pub fn equipment(ports: &mut [u8], message: &[u8], answer: &mut [u8], report: &mut [u64; 4]) -> u8 {
    let (ports_at, ports_len) = (ports.as_mut_ptr(), ports.len());
    let (answer_at, answer_len) = (answer.as_mut_ptr(), answer.len());
    // SAFETY: see the head of this file; so below.
    unsafe { raw::rime_equipment(ports_at, ports_len, message.as_ptr(), message.len(), answer_at, answer_len, report) }
}

/// `rime_controller`: what the controlling entity does with a message. Refused 24.
pub fn controller(ports: &mut [u8], message: &[u8]) -> u8 {
    let (ports_at, ports_len) = (ports.as_mut_ptr(), ports.len());
    unsafe { raw::rime_controller(ports_at, ports_len, message.as_ptr(), message.len()) }
}

/// `rime_port_settings`: what the box of a port is opened with, by its record: format, C and order. Refused 1, 2 or 3.
pub fn port_settings(port: &[u8; 28], settings: &mut [u32; 3]) -> u8 {
    unsafe { raw::rime_port_settings(port, settings) }
}

/// `rime_port_packing`: the packing octet of a record in these settings: order × 64 + C, but C alone for one channel and
/// for S of them. Refused 1, 2 or 3.
pub fn port_packing(format: u32, channels: u32, order: u32, packing: &mut u8) -> u8 {
    unsafe { raw::rime_port_packing(format, channels, order, packing) }
}

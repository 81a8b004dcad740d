//! Frames of an AES3 cable.

use crate::{face, unless_refused, Refusal};

/// A frame of the cable: the letters of its preambles, `b'X'`, `b'Y'` or `b'Z'`, and its two halves. Slot k of a half is the bit
/// worth 2^k.
#[derive(Debug, Clone, Copy, PartialEq, Eq)]
pub struct Frame {
    pub preambles: [u8; 2],
    pub subframes: [u32; 2],
}

/// Two entries of 56 hex: the frame's first half and its second.
#[derive(Debug, Clone, Copy, PartialEq, Eq)]
pub struct Pair {
    pub samples: [u64; 2],
    pub ancillary: [u8; 2],
}

/// Takes a frame off the cable. Refused 16 or 17.
///
/// ```
/// use rimesatchel::{export_frame, import_frame, Pair};
///
/// let pair = Pair { samples: [1000, 2000], ancillary: [8, 8] };
/// assert_eq!(import_frame(export_frame(pair)?)?, pair);
/// # Ok::<(), rimesatchel::Refusal>(())
/// ```
pub fn import_frame(frame: Frame) -> Result<Pair, Refusal> {
    let (mut samples, mut ancillary) = ([0; 2], [0; 2]);
    let refusal = face::aes3_import(&frame.preambles, &frame.subframes, &mut samples, &mut ancillary);
    unless_refused(refusal, Pair { samples, ancillary })
}

/// Makes a frame for the cable. Refused 6 or 29.
pub fn export_frame(pair: Pair) -> Result<Frame, Refusal> {
    let (mut preambles, mut subframes) = ([0; 2], [0; 2]);
    let refusal = face::aes3_export(&pair.samples, &pair.ancillary, &mut preambles, &mut subframes);
    unless_refused(refusal, Frame { preambles, subframes })
}

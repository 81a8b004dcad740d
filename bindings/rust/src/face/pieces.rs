//! A log in pieces: its list, its salvage, whether there is anything on it and its figures, each by three calls.

pub type ListState = [u64; 15];
pub type SalvageState = [u64; 16];
pub type AnythingState = [u64; 14];
pub type FiguresState = [u64; 20];
/// The octets of a header or a record that isn't whole yet.
pub type Held = [u8; 49];

mod raw {
    use super::{AnythingState, FiguresState, Held, ListState, SalvageState};

    extern "C" {
        pub fn rime_list_start(state: *mut ListState, held: *mut Held) -> u8;
        pub fn rime_list_take(
            state: *mut ListState,
            held: *mut Held,
            piece: *const u8,
            piece_len: usize,
            text: *mut u8,
            text_len: usize,
            written: *mut u64,
        ) -> u8;
        pub fn rime_list_end(
            state: *const ListState,
            held: *const Held,
            text: *mut u8,
            text_len: usize,
            written: *mut u64,
        ) -> u8;
        pub fn rime_salvage_start(state: *mut SalvageState, held: *mut Held) -> u8;
        pub fn rime_salvage_take(
            state: *mut SalvageState,
            held: *mut Held,
            piece: *const u8,
            piece_len: usize,
            out: *mut u8,
            out_len: usize,
            notes: *mut u8,
            notes_len: usize,
            written: *mut [u64; 2],
        ) -> u8;
        pub fn rime_salvage_end(
            state: *const SalvageState,
            held: *const Held,
            notes: *mut u8,
            notes_len: usize,
            written: *mut u64,
        ) -> u8;
        pub fn rime_anything_start(state: *mut AnythingState, held: *mut Held) -> u8;
        pub fn rime_anything_take(
            state: *mut AnythingState,
            held: *mut Held,
            piece: *const u8,
            piece_len: usize,
            more: *mut u64,
        ) -> u8;
        pub fn rime_anything_end(state: *const AnythingState, held: *const Held, answer: *mut [u64; 2]) -> u8;
        pub fn rime_figures_start(state: *mut FiguresState, held: *mut Held) -> u8;
        pub fn rime_figures_take(state: *mut FiguresState, held: *mut Held, piece: *const u8, piece_len: usize) -> u8;
        pub fn rime_figures_end(state: *const FiguresState, row: *mut [u32; 10]) -> u8;
    }
}

pub fn list_start(state: &mut ListState, held: &mut Held) -> u8 {
    unsafe { raw::rime_list_start(state, held) }
}

pub fn list_take(state: &mut ListState, held: &mut Held, piece: &[u8], text: &mut [u8], written: &mut u64) -> u8 {
    let (text_at, text_len) = (text.as_mut_ptr(), text.len());
    unsafe { raw::rime_list_take(state, held, piece.as_ptr(), piece.len(), text_at, text_len, written) }
}

pub fn list_end(state: &ListState, held: &Held, text: &mut [u8], written: &mut u64) -> u8 {
    unsafe { raw::rime_list_end(state, held, text.as_mut_ptr(), text.len(), written) }
}

pub fn salvage_start(state: &mut SalvageState, held: &mut Held) -> u8 {
    unsafe { raw::rime_salvage_start(state, held) }
}

pub fn salvage_take(
    state: &mut SalvageState,
    held: &mut Held,
    piece: &[u8],
    out: &mut [u8],
    notes: &mut [u8],
    written: &mut [u64; 2],
) -> u8 {
    let (out_at, out_len) = (out.as_mut_ptr(), out.len());
    let (notes_at, notes_len) = (notes.as_mut_ptr(), notes.len());
    let (piece, piece_len) = (piece.as_ptr(), piece.len());
    unsafe { raw::rime_salvage_take(state, held, piece, piece_len, out_at, out_len, notes_at, notes_len, written) }
}

pub fn salvage_end(state: &SalvageState, held: &Held, notes: &mut [u8], written: &mut u64) -> u8 {
    unsafe { raw::rime_salvage_end(state, held, notes.as_mut_ptr(), notes.len(), written) }
}

pub fn anything_start(state: &mut AnythingState, held: &mut Held) -> u8 {
    unsafe { raw::rime_anything_start(state, held) }
}

pub fn anything_take(state: &mut AnythingState, held: &mut Held, piece: &[u8], more: &mut u64) -> u8 {
    unsafe { raw::rime_anything_take(state, held, piece.as_ptr(), piece.len(), more) }
}

pub fn anything_end(state: &AnythingState, held: &Held, answer: &mut [u64; 2]) -> u8 {
    unsafe { raw::rime_anything_end(state, held, answer) }
}

pub fn figures_start(state: &mut FiguresState, held: &mut Held) -> u8 {
    unsafe { raw::rime_figures_start(state, held) }
}

pub fn figures_take(state: &mut FiguresState, held: &mut Held, piece: &[u8]) -> u8 {
    unsafe { raw::rime_figures_take(state, held, piece.as_ptr(), piece.len()) }
}

pub fn figures_end(state: &FiguresState, row: &mut [u32; 10]) -> u8 {
    unsafe { raw::rime_figures_end(state, row) }
}

/// The room that a piece of so many octets needs: the first of these, and the second for each record that it can make whole.
/// An end needs the first alone.
pub const TEXT_ROOM: [usize; 2] = [216, 76];
pub const OUT_ROOM: [usize; 2] = [3, 49];
pub const NOTES_ROOM: [usize; 2] = [216, 50];

pub fn room([first, each]: [usize; 2], piece: usize) -> usize {
    first + each * (piece / 49 + 1)
}

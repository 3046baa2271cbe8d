//! The calls of `libosierdrum.a`, declared once. A slice of the library passes as a pointer and then a length, which
//! counts elements.

use crate::Level;

#[repr(C)]
pub struct Count {
    pub refusal: u8,
    pub count: u64,
}

#[repr(C)]
pub struct Rank {
    pub refusal: u8,
    pub k: u64,
    pub place: u64,
    pub fixed: u64,
}

#[repr(C)]
pub struct Array {
    pub refusal: u8,
    pub fixed: u64,
}

#[repr(C)]
pub struct Explanation {
    pub refusal: u8,
    pub k: u64,
    pub place: u64,
}

#[repr(C)]
pub struct Exchanges {
    pub refusal: u8,
    pub count: u64,
    pub written: u64,
}

#[repr(C)]
pub struct Found {
    pub refusal: u8,
    pub place: u64,
}

#[repr(C)]
pub struct Place {
    pub refusal: u8,
    pub place: u64,
}

#[repr(C)]
pub struct Moves {
    pub refusal: u8,
    pub count: u64,
}

#[repr(C)]
pub struct Checked {
    pub refusal: u8,
    pub valid: u8,
}

extern "C" {
    pub fn osierdrum_count(n: u64, k: u64) -> Count;
    pub fn osierdrum_unrank(n: u64, k: u64, place: u64, out: *mut u8, out_len: usize) -> u8;
    pub fn osierdrum_rank(s: *const u8, s_len: usize) -> Rank;
    pub fn osierdrum_to_array(s: *const u8, s_len: usize, out: *mut u8, out_len: usize) -> Array;
    pub fn osierdrum_from_array(a: *const u8, a_len: usize, out: *mut u8, out_len: usize) -> u8;
    pub fn osierdrum_rows(n: u64, k: u64, place: u64, m: u64, o: u64, buf: *mut u8, buf_len: usize) -> u8;
    pub fn osierdrum_explain(s: *const u8, s_len: usize, levels: *mut Level, levels_len: usize) -> Explanation;
    pub fn osierdrum_exchanges(
        from: *const u8,
        from_len: usize,
        to: *const u8,
        to_len: usize,
        out: *mut u8,
        out_len: usize,
    ) -> Exchanges;
    pub fn osierdrum_from_inversions(a: *const u8, a_len: usize, out: *mut u8, out_len: usize) -> u8;
    pub fn osierdrum_to_inversions(s: *const u8, s_len: usize, out: *mut u8, out_len: usize) -> u8;
    pub fn osierdrum_find(
        n: u64,
        k: u64,
        place: u64,
        wishes: *const u8,
        wishes_len: usize,
        out: *mut u8,
        out_len: usize,
    ) -> Found;
    pub fn osierdrum_involution_count(n: u64) -> Count;
    pub fn osierdrum_involution_unrank(n: u64, place: u64, out: *mut u8, out_len: usize) -> u8;
    pub fn osierdrum_involution_rank(s: *const u8, s_len: usize) -> Place;
    pub fn osierdrum_bell_count(n: u64) -> Count;
    pub fn osierdrum_bell_unrank(n: u64, place: u64, out: *mut u8, out_len: usize) -> u8;
    pub fn osierdrum_bell_rank(s: *const u8, s_len: usize) -> Place;
    pub fn osierdrum_moves(s: *const u8, s_len: usize, out: *mut u8, out_len: usize) -> Moves;
    pub fn osierdrum_check_moves(s: *const u8, s_len: usize, moves: *const u8, moves_len: usize) -> Checked;
}

//! The calls exactly as `bankplover.h` has them.

pub const END: u8 = 255;
pub const WITNESS: usize = 8;
pub const OPENED: usize = 3;
pub const ENTRY: usize = 13;
pub const SQUARE: usize = 81;

extern "C" {
    pub fn bankplover_level_matches(level: u8, value: u8) -> bool;

    pub fn bankplover_change_matches(first: u8, second: u8, from: u8, to: u8) -> bool;

    pub fn bankplover_read(
        text: *const u8,
        text_length: usize,
        start: usize,
        area: *mut u8,
        area_length: usize,
        answer: *mut usize,
    ) -> u8;

    pub fn bankplover_well_formed(area: *const u8, area_length: usize) -> bool;

    pub fn bankplover_evaluate(
        area: *const u8,
        area_length: usize,
        prev: *const u8,
        prev_length: usize,
        cur: *const u8,
        cur_length: usize,
        old: u8,
        order: *const u8,
        order_length: usize,
        answer: *mut usize,
    ) -> u8;

    pub fn bankplover_judge(
        area: *const u8,
        area_length: usize,
        witness: *mut [usize; WITNESS],
        answer: *mut usize,
    ) -> u8;

    pub fn bankplover_square(
        area: *const u8,
        area_length: usize,
        square: *mut [u8; SQUARE],
        answer: *mut usize,
    ) -> u8;

    pub fn bankplover_open(
        book: *const u8,
        book_length: usize,
        stated: usize,
        opened: *mut [usize; OPENED],
        answer: *mut usize,
    ) -> u8;

    pub fn bankplover_append(
        book: *mut u8,
        book_length: usize,
        stated: usize,
        name: *const u8,
        name_length: usize,
        inputs: usize,
        rows: usize,
        finding: u8,
        witness: *const [usize; WITNESS],
        answer: *mut usize,
    ) -> u8;

    pub fn bankplover_fetch(
        book: *const u8,
        book_length: usize,
        stated: usize,
        k: usize,
        entry: *mut [usize; ENTRY],
        answer: *mut usize,
    ) -> u8;
}

//! The proved calls as C has them, in `rhoikandra.h` too: a lent slice is a pointer and a length. They ask nothing of the slices but that they are there.

use crate::Pool;

extern "C" {
    pub fn rhoikandra_open(
        image: *mut u64,
        image_len: usize,
        pools: *mut Pool,
        pools_len: usize,
    ) -> u64;

    pub fn rhoikandra_step(
        image: *mut u64,
        image_len: usize,
        pools: *mut Pool,
        pools_len: usize,
        body: *const u8,
        body_len: usize,
        time: *const u8,
        time_len: usize,
        seed: u64,
        out: *mut u8,
        out_len: usize,
        said: *mut u64,
        said_len: usize,
    );

    pub fn rhoikandra_figures(
        image: *const u64,
        image_len: usize,
        pools: *const Pool,
        pools_len: usize,
        trade: usize,
        seed: u64,
        out: *mut u64,
        out_len: usize,
    );

    pub fn rhoikandra_opening_fault(
        image: *const u64,
        image_len: usize,
        records: usize,
        out: *mut u64,
        out_len: usize,
    );

    pub fn rhoikandra_book_fault(
        image: *const u64,
        image_len: usize,
        pools: *const Pool,
        pools_len: usize,
        out: *mut u64,
        out_len: usize,
    );

    pub fn rhoikandra_tally(
        rows: *mut [u32; 3],
        rows_len: usize,
        body: *const u8,
        body_len: usize,
        said: *const u64,
        said_len: usize,
    );

    pub fn rhoikandra_frame(
        tape: *const u8,
        tape_len: usize,
        at: usize,
        found: *mut u64,
        found_len: usize,
    ) -> usize;
}

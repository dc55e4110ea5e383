//! What the archives export, under the names and types that C sees. build.rs links them; the crate interface holds these
//! declarations to the sources.

#![allow(unsafe_code, reason = "the one place where the archives are declared")]

/// The words of a picture's record, as many as the header's SPACETIME_RECORD_WORDS.
pub const RECORD_WORDS: usize = 17;

unsafe extern "C" {
    pub fn spacetime_get(
        symbols: u32,
        head: i64,
        cur: u8,
        left_symbols: *const u8,
        left_symbols_count: usize,
        left_lengths: *const u64,
        left_lengths_count: usize,
        right_symbols: *const u8,
        right_symbols_count: usize,
        right_lengths: *const u64,
        right_lengths_count: usize,
        position: i64,
        symbol: *mut u8,
    ) -> u32;

    pub fn spacetime_window(
        symbols: u32,
        head: i64,
        cur: u8,
        left_symbols: *const u8,
        left_symbols_count: usize,
        left_lengths: *const u64,
        left_lengths_count: usize,
        right_symbols: *const u8,
        right_symbols_count: usize,
        right_lengths: *const u64,
        right_lengths_count: usize,
        from: i64,
        out: *mut u8,
        out_count: usize,
    ) -> u32;

    pub fn spacetime_join(
        symbols: u32,
        head: i64,
        cur: u8,
        left_symbols: *mut u8,
        left_symbols_count: usize,
        left_lengths: *mut u64,
        left_lengths_count: usize,
        right_symbols: *mut u8,
        right_symbols_count: usize,
        right_lengths: *mut u64,
        right_lengths_count: usize,
        freed: *mut u64,
    ) -> u32;

    pub fn spacetime_rgba(
        index: *const u8,
        index_count: usize,
        palette: *const u8,
        out: *mut u8,
        out_count: usize,
    ) -> u32;

    pub fn spacetime_mix(from: *const u8, to: *const u8, t: f64, out: *mut u8);

    pub fn spacetime_fit_exact(
        width: u32,
        height: u32,
        symbols: u32,
        first_step: u64,
        has_cell_px: bool,
        cell_px: u32,
        heads: *const i64,
        heads_count: usize,
        has_written: bool,
        written_low: i64,
        written_high: i64,
        halted: bool,
        record: *mut u64,
    ) -> u32;

    pub fn spacetime_fit_overview(
        width: u32,
        height: u32,
        symbols: u32,
        total: u64,
        extent_low: i64,
        extent_high: i64,
        record: *mut u64,
    ) -> u32;

    pub fn spacetime_open(
        record: *mut u64,
        index: *mut u8,
        index_count: usize,
        store: *mut u8,
        store_count: usize,
    ) -> u32;

    pub fn spacetime_row(
        record: *mut u64,
        index: *mut u8,
        index_count: usize,
        store: *mut u8,
        store_count: usize,
        tallies: *mut u64,
        tallies_count: usize,
        head: i64,
        cur: u8,
        left_symbols: *const u8,
        left_symbols_count: usize,
        left_lengths: *const u64,
        left_lengths_count: usize,
        right_symbols: *const u8,
        right_symbols_count: usize,
        right_lengths: *const u64,
        right_lengths_count: usize,
        has_swept: bool,
        swept_low: i64,
        swept_high: i64,
        units: *mut u64,
    ) -> u32;

    pub fn spacetime_row_lines(record: *const u64, row: u32, found: *mut u64) -> u32;

    pub fn spacetime_range(record: *const u64, cells: *mut i64) -> u32;

    pub fn spacetime_locate(
        record: *const u64,
        store: *const u8,
        store_count: usize,
        x: u32,
        y: u32,
        found: *mut u64,
        cells: *mut i64,
    ) -> u32;

    pub fn spacetime_upright(
        record: *const u64,
        index: *const u8,
        index_count: usize,
        store: *const u8,
        store_count: usize,
        column: u32,
        first_row: u32,
        last_row: u32,
        answer: *mut u64,
    ) -> u32;

    pub fn spacetime_page(
        record: *const u64,
        index: *const u8,
        index_count: usize,
        page: *mut u8,
        page_count: usize,
    ) -> u32;

    pub fn spacetime_equal(
        record_a: *const u64,
        index_a: *const u8,
        index_a_count: usize,
        store_a: *const u8,
        store_a_count: usize,
        record_b: *const u64,
        index_b: *const u8,
        index_b_count: usize,
        store_b: *const u8,
        store_b_count: usize,
        answer: *mut u64,
    ) -> u32;
}

#[cfg(feature = "probe")]
unsafe extern "C" {
    pub fn probe_tallies(
        tallies: *mut u64,
        tallies_count: usize,
        first: u64,
        cells: u64,
        low: *const u64,
        low_count: usize,
        high: *const u64,
        high_count: usize,
    ) -> u32;

    pub fn probe_columns(
        width: u64,
        bins: bool,
        first: u64,
        cells: u64,
        size: u64,
        x0: u64,
        question: u32,
        a: u64,
        b: u64,
        found: *mut u64,
    ) -> u32;

    // SAFETY: numbers in, a number out, and no memory; any numbers are taken.
    pub safe fn probe_symbol_shade(symbol: u8, symbols: u32) -> u8;
    pub safe fn probe_tally_shade(tally: u64, cells: u64) -> u8;
}

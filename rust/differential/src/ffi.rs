//! Calls of the archives' functions. Every slice is lent out of the middle of a longer one, so that a byte changed beside it,
//! or in one that is lent to be read, is seen after the call.

#![allow(unsafe_code, reason = "the one place where the archives are called")]

use std::fmt::Debug;

use archives::{
    probe_columns, probe_tallies, spacetime_equal, spacetime_fit_exact, spacetime_fit_overview, spacetime_get,
    spacetime_join, spacetime_locate, spacetime_mix, spacetime_open, spacetime_page, spacetime_range, spacetime_rgba,
    spacetime_row, spacetime_row_lines, spacetime_upright, spacetime_window,
};

use crate::columns::Columns;
use crate::orders::{ExactOrder, Frame, OverviewOrder, Pair};
use crate::record::{Picture, Record, WORDS};
use crate::tape::{Side, Tape};

pub use archives::{probe_symbol_shade, probe_tally_shade};

/// What a call answered, what its output then held, and what it changed besides.
#[derive(Debug, PartialEq, Eq)]
pub struct Answer<T> {
    pub number: u32,
    pub output: Vec<T>,
    pub disturbed: Vec<&'static str>,
}

/// Calls a function in whose parameters a tape stands between others.
macro_rules! on_tape {
    ($function:ident($($before:expr),*; $tape:ident as $lent:ident; $($after:expr),*)) => {
        // SAFETY: each pointer is to a live and aligned slice of the length beside it, or to an array as long as the
        // function declares it; nothing else reads or writes any of them during the call, and the function writes its
        // outputs alone.
        unsafe {
            $function(
                $($before,)*
                $tape.head,
                $tape.cur,
                $lent.left_symbols.pointer(),
                $lent.left_symbols.length(),
                $lent.left_lengths.pointer(),
                $lent.left_lengths.length(),
                $lent.right_symbols.pointer(),
                $lent.right_symbols.length(),
                $lent.right_lengths.pointer(),
                $lent.right_lengths.length(),
                $($after),*
            )
        }
    };
}

pub fn get(tape: &Tape, position: i64) -> Answer<u8> {
    let mut lent = LentTape::new(tape);
    let mut symbol = Lent::unwritten(1);
    let number = on_tape!(spacetime_get(tape.symbols; tape as lent; position, symbol.pointer()));
    lent.answer(tape, number, &symbol)
}

pub fn window(tape: &Tape, from: i64, length: usize) -> Answer<u8> {
    let mut lent = LentTape::new(tape);
    let mut out = Lent::unwritten(length);
    let number = on_tape!(spacetime_window(tape.symbols; tape as lent; from, out.pointer(), out.length()));
    lent.answer(tape, number, &out)
}

/// What joining answered, what the tape's slices and the two words then held, and whose surroundings it changed.
#[derive(Debug, PartialEq, Eq)]
pub struct Joined {
    pub number: u32,
    pub left: Side,
    pub right: Side,
    pub freed: Vec<u64>,
    pub disturbed: Vec<&'static str>,
}

pub fn join(tape: &Tape) -> Joined {
    let mut lent = LentTape::new(tape);
    let mut freed = Lent::unwritten(2);
    let number = on_tape!(spacetime_join(tape.symbols; tape as lent; freed.pointer()));
    let guarded = [
        ("the memory around the left symbols", lent.left_symbols.guarded()),
        ("the memory around the left lengths", lent.left_lengths.guarded()),
        ("the memory around the right symbols", lent.right_symbols.guarded()),
        ("the memory around the right lengths", lent.right_lengths.guarded()),
        ("the memory around freed", freed.guarded()),
    ];
    let side = |symbols: &Lent<u8>, lengths: &Lent<u64>| Side {
        symbols: symbols.contents().to_vec(),
        lengths: lengths.contents().to_vec(),
    };
    Joined {
        number,
        left: side(&lent.left_symbols, &lent.left_lengths),
        right: side(&lent.right_symbols, &lent.right_lengths),
        freed: freed.contents().to_vec(),
        disturbed: guarded.iter().filter(|(_, kept)| !kept).map(|(what, _)| *what).collect(),
    }
}

struct LentTape {
    left_symbols: Lent<u8>,
    left_lengths: Lent<u64>,
    right_symbols: Lent<u8>,
    right_lengths: Lent<u64>,
}

impl LentTape {
    fn new(tape: &Tape) -> Self {
        Self {
            left_symbols: Lent::new(&tape.left.symbols),
            left_lengths: Lent::new(&tape.left.lengths),
            right_symbols: Lent::new(&tape.right.symbols),
            right_lengths: Lent::new(&tape.right.lengths),
        }
    }

    fn answer<T: Guarded>(&self, tape: &Tape, number: u32, output: &Lent<T>) -> Answer<T> {
        let Side { symbols: left_symbols, lengths: left_lengths } = &tape.left;
        let Side { symbols: right_symbols, lengths: right_lengths } = &tape.right;
        let kept = [
            ("the left symbols", self.left_symbols.holds(left_symbols)),
            ("the left lengths", self.left_lengths.holds(left_lengths)),
            ("the right symbols", self.right_symbols.holds(right_symbols)),
            ("the right lengths", self.right_lengths.holds(right_lengths)),
        ];
        output.answer(number, &kept)
    }
}

pub fn rgba(index: &[u8], palette: &[u8; 9], length: usize) -> Answer<u8> {
    let mut lent = Lent::new(index);
    let mut colours = Lent::new(palette);
    let mut out = Lent::unwritten(length);
    // SAFETY: as for the tapes; the palette has the nine bytes that the function declares.
    let number =
        unsafe { spacetime_rgba(lent.pointer(), lent.length(), colours.pointer(), out.pointer(), out.length()) };
    out.answer(number, &[("the index", lent.holds(index)), ("the palette", colours.holds(palette))])
}

/// A mix answers no number; it is taken as 0.
pub fn mix(from: [u8; 3], to: [u8; 3], t: f64) -> Answer<u8> {
    let mut first = Lent::new(&from);
    let mut second = Lent::new(&to);
    let mut out = Lent::unwritten(3);
    // SAFETY: each array has the three bytes that the function declares, and only the last one is written.
    unsafe { spacetime_mix(first.pointer(), second.pointer(), t, out.pointer()) };
    out.answer(0, &[("the first colour", first.holds(&from)), ("the second colour", second.holds(&to))])
}

/// What is handed in the place of a size or a pair that is missing: numbers that would be refused.
const NO_SIZE: u32 = u32::MAX;
const NO_PAIR: Pair = (i64::MAX, i64::MIN);

pub fn fit_exact(frame: Frame, order: &ExactOrder) -> Answer<u64> {
    let mut heads = Lent::new(&order.heads);
    let mut record = Lent::unwritten(WORDS);
    let (low, high) = order.written.unwrap_or(NO_PAIR);
    // SAFETY: the heads are a live and aligned slice of the length beside them; the record, which alone is written, has
    // the words that the function declares.
    let number = unsafe {
        spacetime_fit_exact(
            frame.width,
            frame.height,
            frame.symbols,
            order.first_step,
            order.size.is_some(),
            order.size.unwrap_or(NO_SIZE),
            heads.pointer(),
            heads.length(),
            order.written.is_some(),
            low,
            high,
            order.halted,
            record.pointer(),
        )
    };
    record.answer(number, &[("the heads", heads.holds(&order.heads))])
}

pub fn fit_overview(frame: Frame, order: OverviewOrder) -> Answer<u64> {
    let mut record = Lent::unwritten(WORDS);
    let (low, high) = order.extent;
    // SAFETY: the record has the words that the function declares.
    let number = unsafe {
        spacetime_fit_overview(frame.width, frame.height, frame.symbols, order.total, low, high, record.pointer())
    };
    record.answer(number, &[])
}

/// What opening answered and left behind. Of index and store these are the bytes that occur in them, each once.
#[derive(Debug, PartialEq, Eq)]
pub struct Opened {
    pub number: u32,
    pub record: Vec<u64>,
    pub index: Vec<u8>,
    pub store: Vec<u8>,
    pub disturbed: Vec<&'static str>,
}

/// Opens a picture with an index and a store of these lengths, which hold `u8::UNWRITTEN` before.
pub fn open(record: &Record, index: usize, store: usize) -> Opened {
    let mut words = Lent::new(&record.0);
    let mut pixels = Lent::unwritten(index);
    let mut symbols = Lent::unwritten(store);
    // SAFETY: each pointer is to a live and aligned slice of the length beside it, or to the words that the function
    // declares; none overlaps another.
    let number = unsafe {
        spacetime_open(words.pointer(), pixels.pointer(), pixels.length(), symbols.pointer(), symbols.length())
    };
    let guarded = [
        ("the memory around the record", words.holds(words.contents())),
        ("the memory around the index", pixels.holds(pixels.contents())),
        ("the memory around the store", symbols.holds(symbols.contents())),
    ];
    Opened {
        number,
        record: words.contents().to_vec(),
        index: occurring(pixels.contents()),
        store: occurring(symbols.contents()),
        disturbed: guarded.iter().filter(|(_, kept)| !kept).map(|(what, _)| *what).collect(),
    }
}

/// The bytes that occur, in the order of their first places.
fn occurring(bytes: &[u8]) -> Vec<u8> {
    let mut found = Vec::new();
    let mut rest = bytes;
    while let Some(&byte) = rest.first() {
        if !found.contains(&byte) {
            found.push(byte);
        }
        let past = rest.iter().position(|&other| other != byte).unwrap_or(rest.len());
        rest = &rest[past..];
    }
    found
}

/// What a picture's calls are lent, from call to call.
pub struct Lending {
    record: Lent<u64>,
    index: Lent<u8>,
    store: Lent<u8>,
    tallies: Lent<u64>,
}

impl Lending {
    pub fn new(record: &Record, index: &[u8], store: &[u8], tallies: &[u64]) -> Self {
        Self {
            record: Lent::new(&record.0),
            index: Lent::new(index),
            store: Lent::new(store),
            tallies: Lent::new(tallies),
        }
    }

    /// Opens the picture; an opening has no output.
    pub fn open(&mut self) -> Answer<u64> {
        // SAFETY: each pointer is to a live and aligned slice of the length beside it, or to the words that the function
        // declares; none overlaps another.
        let number = unsafe {
            spacetime_open(
                self.record.pointer(),
                self.index.pointer(),
                self.index.length(),
                self.store.pointer(),
                self.store.length(),
            )
        };
        Answer { number, output: Vec::new(), disturbed: self.disturbed() }
    }

    /// Draws the next row; the output is its units.
    pub fn row(&mut self, tape: &Tape, swept: Option<Pair>) -> Answer<u64> {
        self.row_handed(None, [self.index.length(), self.store.length(), self.tallies.length()], tape, swept)
    }

    /// A row call that may be handed another record than the picture's, and of index, store and tallies these lengths: of
    /// a longer one some of the guards behind it too.
    pub fn row_handed(
        &mut self,
        other: Option<&Record>,
        lengths: [usize; 3],
        tape: &Tape,
        swept: Option<Pair>,
    ) -> Answer<u64> {
        let own = [self.index.length(), self.store.length(), self.tallies.length()];
        assert!(lengths.iter().zip(own).all(|(&length, own)| length <= own + GUARDS), "more than there is is lent");
        let mut handed = other.map(|record| Lent::new(&record.0));
        let record = handed.as_mut().map_or_else(|| self.record.pointer(), Lent::pointer);
        let mut lent = LentTape::new(tape);
        let mut units = Lent::unwritten(1);
        let (low, high) = swept.unwrap_or(NO_PAIR);
        let number = on_tape!(spacetime_row(
            record,
            self.index.pointer(),
            lengths[0],
            self.store.pointer(),
            lengths[1],
            self.tallies.pointer(),
            lengths[2];
            tape as lent;
            swept.is_some(),
            low,
            high,
            units.pointer()
        ));
        let mut answer = lent.answer(tape, number, &units);
        answer.disturbed.extend(self.disturbed());
        if handed.zip(other).is_some_and(|(handed, other)| !handed.holds(&other.0)) {
            answer.disturbed.push("the other record");
        }
        answer
    }

    pub fn record(&self) -> &[u64] {
        self.record.contents()
    }

    pub fn index(&self) -> &[u8] {
        self.index.contents()
    }

    pub fn store(&self) -> &[u8] {
        self.store.contents()
    }

    pub fn tallies(&self) -> &[u64] {
        self.tallies.contents()
    }

    fn disturbed(&self) -> Vec<&'static str> {
        let guarded = [
            ("the memory around the record", self.record.guarded()),
            ("the memory around the index", self.index.guarded()),
            ("the memory around the store", self.store.guarded()),
            ("the memory around the tallies", self.tallies.guarded()),
        ];
        guarded.into_iter().filter(|(_, kept)| !kept).map(|(what, _)| what).collect()
    }
}

pub fn row_lines(record: &Record, row: u32) -> Answer<u64> {
    let mut words = Lent::new(&record.0);
    let mut found = Lent::unwritten(4);
    // SAFETY: the arrays have the words that the function declares, and only the second is written.
    let number = unsafe { spacetime_row_lines(words.pointer(), row, found.pointer()) };
    found.answer(number, &[("the record", words.holds(&record.0))])
}

pub fn range(record: &Record) -> Answer<i64> {
    let mut words = Lent::new(&record.0);
    let mut cells = Lent::unwritten(2);
    // SAFETY: the arrays have the words that the function declares, and only the second is written.
    let number = unsafe { spacetime_range(words.pointer(), cells.pointer()) };
    cells.answer(number, &[("the record", words.holds(&record.0))])
}

pub fn page(record: &Record, index: &[u8], length: usize) -> Answer<u8> {
    let mut words = Lent::new(&record.0);
    let mut pixels = Lent::new(index);
    let mut page = Lent::unwritten(length);
    // SAFETY: index and page are live slices of the lengths beside them, the record has its words, and the page alone is written.
    let number =
        unsafe { spacetime_page(words.pointer(), pixels.pointer(), pixels.length(), page.pointer(), page.length()) };
    page.answer(number, &[("the record", words.holds(&record.0)), ("the index", pixels.holds(index))])
}

pub fn upright(record: &Record, index: &[u8], store: &[u8], column: u32, first_row: u32, last_row: u32) -> Answer<u64> {
    let mut words = Lent::new(&record.0);
    let [mut pixels, mut symbols] = [index, store].map(Lent::new);
    let mut answer = Lent::unwritten(1);
    // SAFETY: index and store are live and aligned slices of the lengths beside them, the arrays have the words that the
    // function declares, and only the last one is written.
    let number = unsafe {
        spacetime_upright(
            words.pointer(),
            pixels.pointer(),
            pixels.length(),
            symbols.pointer(),
            symbols.length(),
            column,
            first_row,
            last_row,
            answer.pointer(),
        )
    };
    let kept = [
        ("the record", words.holds(&record.0)),
        ("the index", pixels.holds(index)),
        ("the store", symbols.holds(store)),
    ];
    answer.answer(number, &kept)
}

pub fn equal(first: Picture, second: Picture) -> Answer<u64> {
    let [mut words_a, mut words_b] = [first, second].map(|(record, _, _)| Lent::new(&record.0));
    let [mut pixels_a, mut pixels_b] = [first, second].map(|(_, index, _)| Lent::new(index));
    let [mut symbols_a, mut symbols_b] = [first, second].map(|(_, _, store)| Lent::new(store));
    let mut answer = Lent::unwritten(1);
    // SAFETY: as for an upright, of two pictures.
    let number = unsafe {
        spacetime_equal(
            words_a.pointer(),
            pixels_a.pointer(),
            pixels_a.length(),
            symbols_a.pointer(),
            symbols_a.length(),
            words_b.pointer(),
            pixels_b.pointer(),
            pixels_b.length(),
            symbols_b.pointer(),
            symbols_b.length(),
            answer.pointer(),
        )
    };
    let kept = [
        ("the first record", words_a.holds(&first.0.0)),
        ("the first index", pixels_a.holds(first.1)),
        ("the first store", symbols_a.holds(first.2)),
        ("the second record", words_b.holds(&second.0.0)),
        ("the second index", pixels_b.holds(second.1)),
        ("the second store", symbols_b.holds(second.2)),
    ];
    answer.answer(number, &kept)
}

/// What is lent to the clicks on a picture, from click to click.
pub struct Clicking<'a> {
    record: &'a Record,
    store: &'a [u8],
    words: Lent<u64>,
    symbols: Lent<u8>,
}

/// What a click answered, what its outputs then held, and whose surroundings it changed.
#[derive(Debug, PartialEq, Eq)]
pub struct Clicked {
    pub number: u32,
    pub found: Vec<u64>,
    pub cells: Vec<i64>,
    pub disturbed: Vec<&'static str>,
}

impl<'a> Clicking<'a> {
    pub fn new(record: &'a Record, store: &'a [u8]) -> Self {
        Self { record, store, words: Lent::new(&record.0), symbols: Lent::new(store) }
    }

    pub fn click(&mut self, x: u32, y: u32) -> Clicked {
        let mut found = Lent::unwritten(4);
        let mut cells = Lent::unwritten(2);
        // SAFETY: the store is a live and aligned slice of the length beside it, the arrays have the words that the
        // function declares, and only the last two are written.
        let number = unsafe {
            spacetime_locate(
                self.words.pointer(),
                self.symbols.pointer(),
                self.symbols.length(),
                x,
                y,
                found.pointer(),
                cells.pointer(),
            )
        };
        let guarded = [
            ("the memory around found", found.holds(found.contents())),
            ("the memory around cells", cells.holds(cells.contents())),
        ];
        Clicked {
            number,
            found: found.contents().to_vec(),
            cells: cells.contents().to_vec(),
            disturbed: guarded.iter().filter(|(_, kept)| !kept).map(|(what, _)| *what).collect(),
        }
    }

    /// Which of the two that are lent to be read are no longer what they were.
    pub fn disturbed(&self) -> Vec<&'static str> {
        let kept = [("the record", self.words.holds(&self.record.0)), ("the store", self.symbols.holds(self.store))];
        kept.iter().filter(|(_, kept)| !kept).map(|(what, _)| *what).collect()
    }
}

pub fn tallies(width: usize, first: u64, cells: u64, low: &[u64], high: &[u64]) -> Answer<u64> {
    let mut lows = Lent::new(low);
    let mut highs = Lent::new(high);
    let mut tallies = Lent::unwritten(width);
    // SAFETY: each pointer is to a live and aligned slice of the length beside it, and only the tallies are written.
    let number = unsafe {
        probe_tallies(
            tallies.pointer(),
            tallies.length(),
            first,
            cells,
            lows.pointer(),
            lows.length(),
            highs.pointer(),
            highs.length(),
        )
    };
    tallies.answer(number, &[("the lows", lows.holds(low)), ("the highs", highs.holds(high))])
}

/// Asks a question about columns, whose five numbers stand between the picture's width and the question.
fn on_columns(width: u64, columns: Columns, question: u32, a: u64, b: u64) -> Answer<u64> {
    let (bins, first, cells, size, x0) = columns.numbers();
    let mut found = Lent::unwritten(2);
    // SAFETY: the array has the two words that the function declares.
    let number = unsafe { probe_columns(width, bins, first, cells, size, x0, question, a, b, found.pointer()) };
    found.answer(number, &[])
}

pub fn locate(width: u64, columns: Columns, x: u64) -> Answer<u64> {
    on_columns(width, columns, 0, x, 0)
}

pub fn head(width: u64, columns: Columns, position: u64) -> Answer<u64> {
    on_columns(width, columns, 1, position, 0)
}

pub fn swept(width: u64, columns: Columns, low: u64, high: u64) -> Answer<u64> {
    on_columns(width, columns, 2, low, high)
}

pub trait Guarded: Copy + PartialEq + Debug {
    const GUARD: Self;
    /// What an output holds before a call: no symbol, and as a word an unlikely number.
    const UNWRITTEN: Self;
}

impl Guarded for u8 {
    const GUARD: Self = 0x5a;
    const UNWRITTEN: Self = 0xa5;
}

impl Guarded for u64 {
    const GUARD: Self = 0x5a5a_5a5a_5a5a_5a5a;
    const UNWRITTEN: Self = 0xa5a5_a5a5_a5a5_a5a5;
}

impl Guarded for i64 {
    const GUARD: Self = u64::GUARD.cast_signed();
    const UNWRITTEN: Self = u64::UNWRITTEN.cast_signed();
}

/// A slice between guards. An empty one still has an aligned pointer into live memory.
struct Lent<T> {
    memory: Vec<T>,
}

/// How many guards stand on either side.
const GUARDS: usize = 16;

impl<T: Guarded> Lent<T> {
    fn new(contents: &[T]) -> Self {
        Self { memory: [&[T::GUARD; GUARDS], contents, &[T::GUARD; GUARDS]].concat() }
    }

    fn unwritten(length: usize) -> Self {
        Self::new(&vec![T::UNWRITTEN; length])
    }

    fn pointer(&mut self) -> *mut T {
        self.memory.as_mut_ptr().wrapping_add(GUARDS)
    }

    fn length(&self) -> usize {
        self.memory.len() - 2 * GUARDS
    }

    fn contents(&self) -> &[T] {
        &self.memory[GUARDS..GUARDS + self.length()]
    }

    /// What a call answered whose output this is, beside slices that are kept or not.
    fn answer(&self, number: u32, kept: &[(&'static str, bool)]) -> Answer<T> {
        let around = ("the memory around the output", self.holds(self.contents()));
        let disturbed = kept.iter().chain([&around]).filter(|(_, kept)| !kept).map(|(what, _)| *what).collect();
        Answer { number, output: self.contents().to_vec(), disturbed }
    }

    /// Whether these contents stand between guards as they were.
    fn holds(&self, contents: &[T]) -> bool {
        self.contents() == contents && self.guarded()
    }

    /// Whether the guards are as they were.
    fn guarded(&self) -> bool {
        let (before, rest) = self.memory.split_at(GUARDS);
        let after = &rest[rest.len() - GUARDS..];
        before.iter().chain(after).all(|&guard| guard == T::GUARD)
    }
}

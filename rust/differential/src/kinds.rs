//! The kinds of comparison, one to a file.

mod bin_rows;
mod call_lists;
mod clicks;
mod colouring;
mod drawn_pictures;
mod drawn_rows;
mod edges;
mod equalities;
mod exact_pictures;
mod greys;
mod joins;
mod kept;
mod marks;
mod mixes;
mod overviews;
mod pages;
mod pixels;
mod random_tapes;
mod records;
mod refusals;
mod row_refusals;
mod small_tapes;
mod symbol_shades;
mod tallies;
mod tally_shades;
mod uprights;
mod worked;
mod worked_clicks;
mod worked_records;
mod worked_rows;

use random::Rng;

use crate::count::Count;

pub struct Kind {
    pub name: &'static str,
    pub run: fn(&mut Count, &mut Rng),
}

pub const ALL: [Kind; 30] = [
    Kind { name: "kept", run: kept::run },
    Kind { name: "worked", run: worked::run },
    Kind { name: "small-tapes", run: small_tapes::run },
    Kind { name: "random-tapes", run: random_tapes::run },
    Kind { name: "edges", run: edges::run },
    Kind { name: "refusals", run: refusals::run },
    Kind { name: "joins", run: joins::run },
    Kind { name: "symbol-shades", run: symbol_shades::run },
    Kind { name: "tally-shades", run: tally_shades::run },
    Kind { name: "greys", run: greys::run },
    Kind { name: "pixels", run: pixels::run },
    Kind { name: "tallies", run: tallies::run },
    Kind { name: "bin-rows", run: bin_rows::run },
    Kind { name: "mixes", run: mixes::run },
    Kind { name: "colouring", run: colouring::run },
    Kind { name: "worked-records", run: worked_records::run },
    Kind { name: "overviews", run: overviews::run },
    Kind { name: "exact-pictures", run: exact_pictures::run },
    Kind { name: "records", run: records::run },
    Kind { name: "worked-clicks", run: worked_clicks::run },
    Kind { name: "clicks", run: clicks::run },
    Kind { name: "worked-rows", run: worked_rows::run },
    Kind { name: "drawn-rows", run: drawn_rows::run },
    Kind { name: "drawn-pictures", run: drawn_pictures::run },
    Kind { name: "marks", run: marks::run },
    Kind { name: "row-refusals", run: row_refusals::run },
    Kind { name: "call-lists", run: call_lists::run },
    Kind { name: "uprights", run: uprights::run },
    Kind { name: "equalities", run: equalities::run },
    Kind { name: "pages", run: pages::run },
];

//! Cases that are kept by name: the inputs of docs/DIFFERENCES.md, and those that once showed something.

use random::Rng;

use crate::calls;
use crate::case::Verdict;
use crate::count::Count;

struct Kept {
    name: &'static str,
    apart: bool,
    text: &'static str,
}

const CASES: [Kept; 66] = [
    Kept {
        name: "the worked tape, whose left side joins to half of its runs and whose right side to none",
        apart: false,
        text: "join symbols=3 head=0 cur=1 left_symbols=0,0,1,1,0,2 left_lengths=3,4,5,6,7,8 right_symbols=0,0 \
               right_lengths=1,2",
    },
    Kept {
        name: "runs that join to one from L down to -L",
        apart: false,
        text: "join symbols=2 head=4611686018427387904 cur=0 left_symbols=1,1,1 \
               left_lengths=4611686018427387904,4611686018427387903,1 right_symbols= right_lengths=",
    },
    Kept {
        name: "runs that would join to one a cell longer than the domain",
        apart: false,
        text: "join symbols=2 head=4611686018427387904 cur=0 left_symbols=1,1 \
               left_lengths=9223372036854775808,1 right_symbols=1,1 right_lengths=1,1",
    },
    Kept {
        name: "a run from L down to -L, read at its far end",
        apart: true,
        text: "window symbols=2 head=4611686018427387904 cur=0 left_symbols=1 left_lengths=9223372036854775808 \
               right_symbols= right_lengths= from=-4611686018427387904 length=1",
    },
    Kept {
        name: "a run from -L up to L, read at its far end",
        apart: true,
        text: "window symbols=2 head=-4611686018427387904 cur=0 left_symbols= left_lengths= right_symbols=1 \
               right_lengths=9223372036854775808 from=4611686018427387904 length=1",
    },
    Kept {
        name: "the same run by get, which the original does not saturate",
        apart: false,
        text: "get symbols=2 head=4611686018427387904 cur=0 left_symbols=1 left_lengths=9223372036854775808 \
               right_symbols= right_lengths= position=-4611686018427387904",
    },
    Kept {
        name: "a window that starts on the last position and goes past it",
        apart: false,
        text: "window symbols=2 head=4611686018427387904 cur=1 left_symbols= left_lengths= right_symbols= \
               right_lengths= from=9223372036854775807 length=3",
    },
    Kept {
        name: "an empty window at the first position",
        apart: false,
        text: "window symbols=1 head=0 cur=0 left_symbols= left_lengths= right_symbols= right_lengths= \
               from=-9223372036854775808 length=0",
    },
    Kept {
        name: "two runs whose lengths sum to 2^64",
        apart: false,
        text: "get symbols=2 head=0 cur=0 left_symbols=1,1 left_lengths=9223372036854775808,9223372036854775808 \
               right_symbols= right_lengths= position=0",
    },
    Kept {
        name: "a share just under a tie, whose product with 56 the floats round onto it",
        apart: false,
        text: "tally_shade tally=348512776389426 cells=600514322394088",
    },
    Kept {
        name: "the same bin, whose ink is 8 past half an ink, where 9 are allowed",
        apart: false,
        text: "grey tally=348512776389426 cells=600514322394088",
    },
    Kept {
        name: "a bin whose ink meets the bound: 2 past half an ink",
        apart: false,
        text: "grey tally=105535838865170 cells=695294938405826",
    },
    Kept {
        name: "a run from L down to -L, in a bin over its far end",
        apart: true,
        text: "bin_row symbols=2 head=4611686018427387904 cur=1 left_symbols=1 left_lengths=9223372036854775808 \
               right_symbols= right_lengths= width=1 first=4611686018427387904 cells=2 swept=",
    },
    Kept {
        name: "a run from -L up to L, in a bin over its far end",
        apart: true,
        text: "bin_row symbols=2 head=-4611686018427387904 cur=1 left_symbols= left_lengths= right_symbols=1 \
               right_lengths=9223372036854775808 width=1 first=13835058055282163711 cells=2 swept=",
    },
    Kept {
        name: "worked picture 4 with the run to the right added first: the place of the last run is not kept",
        apart: false,
        text: "tallies width=4 first=9223372036854775808 cells=10 low=9223372036854775815,9223372036854775810 \
               high=9223372036854775817,9223372036854775810",
    },
    Kept {
        name: "every cell of the widest picture of the most cells",
        apart: false,
        text: "tallies width=4096 first=4611686018427387904 cells=1125899906842624 low=0 high=18446744073709551615",
    },
    Kept {
        name: "a head in the last cell, whose left border is in the bin before",
        apart: false,
        text: "head width=2 bins=1 first=9223372036854775808 cells=3 size=2 x0=0 position=9223372036854775810",
    },
    Kept {
        name: "a pixel in the right margin",
        apart: false,
        text: "locate width=20 bins=0 first=9223372036854775808 cells=3 size=6 x0=1 x=19",
    },
    Kept {
        name: "a mix of 0 to 1 just under a half, which is not rounded by adding a half and cutting",
        apart: false,
        text: "mix from=0,0,1 to=1,90,91 t=4602678819172646911",
    },
    Kept {
        name: "an output one byte too long",
        apart: false,
        text: "rgba index=1,254 palette=255,255,255,17,17,17,33,92,175 length=9",
    },
    Kept {
        name: "a window that begins as far before the domain as any",
        apart: false,
        text: "fit_exact width=4096 height=1 symbols=1 first_step=0 size=1 heads=-4611686018427387904 written= \
               halted=0",
    },
    Kept {
        name: "a window that ends beyond the domain",
        apart: false,
        text: "fit_exact width=4095 height=2 symbols=64 first_step=0 size=0 heads=4611686018427387904 written= \
               halted=1",
    },
    Kept {
        name: "rows past the last step",
        apart: false,
        text: "fit_exact width=4 height=4 symbols=2 first_step=18446744073709551614 size=1 heads=0,1,2,3 \
               written= halted=0",
    },
    Kept {
        name: "a written pair that does not fit the given size, so that the heads alone are shown",
        apart: false,
        text: "fit_exact width=9 height=6 symbols=2 first_step=0 size=2 heads=3,4,5 written=-10,10 halted=0",
    },
    Kept {
        name: "a head that leaves the width after the rows of the largest size",
        apart: false,
        text: "fit_exact width=8 height=8 symbols=2 first_step=0 size= heads=0,9 written= halted=0",
    },
    Kept {
        name: "a size of 0 and a row too many",
        apart: false,
        text: "fit_exact width=3 height=2 symbols=2 first_step=0 size=0 heads=0,0,0 written= halted=0",
    },
    Kept {
        name: "an order that fails checks 1 to 5 answers the first",
        apart: false,
        text: "fit_exact width=0 height=4097 symbols=65 first_step=0 size= heads= \
               written=4611686018427387905,0 halted=0",
    },
    Kept {
        name: "as many steps as there are, in the highest picture",
        apart: false,
        text: "fit_overview width=4096 height=4096 symbols=2 total=18446744073709551615 low=-2048 high=2047",
    },
    Kept {
        name: "bins over the whole domain",
        apart: false,
        text: "fit_overview width=4096 height=1 symbols=2 total=0 low=-4611686018427387904 \
               high=4611686018427387904",
    },
    Kept {
        name: "bins with a margin",
        apart: false,
        text: "range record=4,3,2,0,1,9223372036854775808,10,0,1,1,3,0,3,5,0,0,0",
    },
    Kept {
        name: "a count left of the window of as many cells as a tape has",
        apart: false,
        text: "open record=4,3,2,0,1,9223372036854775808,10,0,0,1,3,0,3,5,1,9223372036854775809,0 index=12 store=0",
    },
    Kept {
        name: "and one more",
        apart: false,
        text: "open record=4,3,2,0,1,9223372036854775808,10,0,0,1,3,0,3,5,1,9223372036854775810,0 index=12 store=0",
    },
    Kept {
        name: "a count right of the window of as many cells as a tape has",
        apart: false,
        text: "open record=4,3,2,0,1,9223372036854775808,10,0,0,1,3,0,3,5,1,0,9223372036854775809 index=12 store=0",
    },
    Kept {
        name: "and one more there",
        apart: false,
        text: "open record=4,3,2,0,1,9223372036854775808,10,0,0,1,3,0,3,5,1,0,9223372036854775810 index=12 store=0",
    },
    Kept {
        name: "a row between two halves of a tape that is written from -L to L",
        apart: false,
        text: "row record=1,1,2,0,0,9223372036854775808,1,1,0,1,1,0,1,0,0,0,0 index=1 store=1 tallies=0 symbols=2 \
               head=0 cur=1 left_symbols=1 left_lengths=4611686018427387904 right_symbols=1 \
               right_lengths=4611686018427387904 swept=",
    },
    Kept {
        name: "an opening whose lengths are both wrong, of a picture with rows drawn",
        apart: false,
        text: "open record=8,4,2,1,0,9223372036854775807,4,2,0,2,2,0,1,18446744073709551615,2,0,0 index=31 store=9",
    },
    Kept {
        name: "a run from L down to -L, in a row of one cell over its far end",
        apart: true,
        text: "row record=1,1,2,0,0,4611686018427387904,1,1,0,1,1,0,1,0,0,0,0 index=1 store=1 tallies=0 symbols=2 \
               head=4611686018427387904 cur=1 left_symbols=1 left_lengths=9223372036854775808 right_symbols= \
               right_lengths= swept=",
    },
    Kept {
        name: "a run from -L up to L, in a row of one bin over its far end",
        apart: true,
        text: "row record=1,1,2,0,1,13835058055282163711,2,0,0,1,1,0,1,0,0,0,0 index=1 store=0 tallies=1 symbols=2 \
               head=-4611686018427387904 cur=1 left_symbols= left_lengths= right_symbols=1 \
               right_lengths=9223372036854775808 swept=",
    },
    Kept {
        name: "a mark left and a mark right of the head with other ink between",
        apart: false,
        text: "picture; fit_overview width=4 height=1 symbols=3 total=0 low=0 high=9; row symbols=3 head=5 cur=0 \
               left_symbols=1,0,2 left_lengths=1,3,1 right_symbols=1,0,2 right_lengths=1,2,1 swept=",
    },
    Kept {
        name: "a row between others, whose margins hold anything before it",
        apart: false,
        text: "row record=20,10,3,0,0,9223372036854775808,3,6,1,2,5,0,1,4,1,0,0 index=200 store=15 tallies=0 symbols=3 \
               head=1 cur=2 left_symbols= left_lengths= right_symbols=1 right_lengths=1 swept=-4,0",
    },
    Kept {
        name: "a picture whose second row is refused, drawn from another tape and called once too often",
        apart: false,
        text: "picture; fit_exact width=8 height=4 symbols=2 first_step=0 size=2 heads=0,1 written=0,0 halted=0; \
               row symbols=2 head=0 cur=1 left_symbols= left_lengths= right_symbols= right_lengths= swept=; \
               row symbols=2 head=1 cur=2 left_symbols= left_lengths= right_symbols= right_lengths= swept=; \
               row symbols=2 head=1 cur=0 left_symbols=1 left_lengths=1 right_symbols= right_lengths= swept=; \
               row symbols=2 head=1 cur=0 left_symbols=1 left_lengths=1 right_symbols= right_lengths= swept=",
    },
    Kept {
        name: "a row with every fault but that of the record, of a picture with all rows drawn",
        apart: false,
        text: "row record=4,3,2,1,1,9223372036854775808,10,0,0,1,3,0,1,5,3,0,0 index=11 store=1 tallies=3 symbols=2 \
               head=4611686018427387905 cur=2 left_symbols=1 left_lengths= right_symbols= right_lengths= swept=1,0",
    },
    Kept {
        name: "a swept pair in an exact picture",
        apart: false,
        text: "row record=4,3,2,1,1,9223372036854775808,10,0,0,1,3,0,1,5,2,0,0 index=12 store=0 tallies=4 symbols=2 \
               head=0 cur=0 left_symbols= left_lengths= right_symbols= right_lengths= swept=0,0",
    },
    Kept {
        name: "a width past the largest",
        apart: false,
        text: "fit_overview width=4097 height=1 symbols=2 total=0 low=0 high=0",
    },
    Kept {
        name: "an alphabet past the largest",
        apart: false,
        text: "fit_overview width=4 height=3 symbols=65 total=0 low=0 high=0",
    },
    Kept {
        name: "an extent that ends past the domain",
        apart: false,
        text: "fit_overview width=4 height=3 symbols=2 total=0 low=0 high=4611686018427387905",
    },
    Kept {
        name: "an extent with its high end first",
        apart: false,
        text: "fit_overview width=4 height=3 symbols=2 total=0 low=1 high=0",
    },
    Kept {
        name: "more heads than rows",
        apart: false,
        text: "fit_exact width=4 height=1 symbols=2 first_step=0 size= heads=0,1 written= halted=0",
    },
    Kept {
        name: "bins over 2^50 cells and one",
        apart: false,
        text: "fit_overview width=1 height=1 symbols=2 total=0 low=0 high=1125899906842624",
    },
    Kept {
        name: "a row with index, store and tallies of other lengths",
        apart: false,
        text: "row record=4,3,2,0,1,9223372036854775808,10,0,0,1,3,0,3,5,0,0,0 index=11 store=1 tallies=3 symbols=2 \
               head=0 cur=0 left_symbols= left_lengths= right_symbols= right_lengths= swept=",
    },
    Kept {
        name: "colours for two pixels in seven bytes",
        apart: false,
        text: "rgba index=0,1 palette=255,255,255,17,17,17,33,92,175 length=7",
    },
    Kept {
        name: "a symbol past the alphabet, and a side whose lists differ in length",
        apart: false,
        text: "get symbols=2 head=0 cur=2 left_symbols=1 left_lengths= right_symbols= right_lengths= position=0",
    },
    Kept {
        name: "a head past the domain",
        apart: false,
        text: "get symbols=2 head=4611686018427387905 cur=0 left_symbols= left_lengths= right_symbols= \
               right_lengths= position=0",
    },
    Kept {
        name: "a row of a picture with all rows drawn",
        apart: false,
        text: "row record=4,3,2,0,1,9223372036854775808,10,0,0,1,3,0,3,5,3,0,0 index=12 store=0 tallies=4 symbols=2 \
               head=0 cur=0 left_symbols= left_lengths= right_symbols= right_lengths= swept=",
    },
    Kept {
        name: "a row whose left side has a blank outermost run and whose right side has neighbours of one symbol",
        apart: false,
        text: "row record=4,3,2,0,1,9223372036854775808,10,0,0,1,3,0,3,5,0,0,0 index=12 store=0 tallies=4 symbols=2 \
               head=2 cur=1 left_symbols=0,1 left_lengths=1,1 right_symbols=1,1 right_lengths=1,1 swept=",
    },
    Kept {
        name: "a row whose runs are not joined and reach past the domain",
        apart: false,
        text: "row record=4,3,2,0,1,9223372036854775808,10,0,0,1,3,0,3,5,0,0,0 index=12 store=0 tallies=4 symbols=2 \
               head=4611686018427387904 cur=1 left_symbols= left_lengths= right_symbols=1,1 right_lengths=1,1 swept=",
    },
    Kept {
        name: "a row with a blank run nearest the head on each side, which is joined",
        apart: false,
        text: "row record=4,3,2,0,1,9223372036854775808,10,0,0,1,3,0,3,5,0,0,0 index=12 store=0 tallies=4 symbols=2 \
               head=5 cur=1 left_symbols=1,0 left_lengths=1,2 right_symbols=1,0 right_lengths=1,1 swept=",
    },
    Kept {
        name: "the range of a record of no width",
        apart: false,
        text: "range record=0,3,2,0,1,9223372036854775808,10,0,0,1,3,0,3,5,0,0,0",
    },
    Kept {
        name: "an upright beside the picture",
        apart: false,
        text: "upright record=1,1,2,0,0,9223372036854775808,1,1,0,1,1,0,1,0,1,0,0 index=1 store=1 column=1 first_row=0 \
               last_row=0",
    },
    Kept {
        name: "the range of a record whose first position is 0",
        apart: false,
        text: "range record=4,3,2,0,1,9223372036854775808,10,0,0,1,3,0,3,5,0,0,0",
    },
    Kept {
        name: "a row with a margin, in memory that holds anything",
        apart: false,
        text: "row record=5,1,2,0,0,9223372036854775808,2,2,0,1,1,0,1,0,0,0,0 index=5 store=2 tallies=0 symbols=2 \
               head=0 cur=0 left_symbols= left_lengths= right_symbols= right_lengths= swept=",
    },
    Kept {
        name: "worked picture 4 with its head, units and tallies",
        apart: false,
        text: "row record=4,3,2,0,1,9223372036854775808,10,0,0,1,3,0,3,5,0,0,0 index=12 store=0 tallies=4 symbols=2 \
               head=2 cur=1 left_symbols= left_lengths= right_symbols= right_lengths= swept=",
    },
    Kept {
        name: "a column broken in its last row",
        apart: false,
        text: "upright record=1,2,2,0,0,9223372036854775808,1,1,0,1,2,0,1,1,2,0,0 index=1,0 store=1,0 column=0 first_row=0 \
               last_row=1",
    },
    Kept {
        name: "a head that passes over blank",
        apart: false,
        text: "upright record=1,2,2,0,0,9223372036854775808,1,1,0,1,2,0,1,1,2,0,0 index=255,64 store=0,1 column=0 first_row=0 \
               last_row=1",
    },
    Kept {
        name: "two pictures with the same bytes, of different sizes",
        apart: false,
        text: "equal record=1,2,2,0,0,9223372036854775808,1,1,0,1,2,0,1,1,0,0,0 index=1,0 store=0,0; and \
               record=2,1,2,0,0,9223372036854775808,2,1,0,1,1,0,1,0,0,0,0 index=1,0 store=0,0",
    },
    Kept {
        name: "two pictures that look equal, one hidden symbol apart",
        apart: false,
        text: "equal record=1,2,2,0,0,9223372036854775808,1,1,0,1,2,0,1,1,2,0,0 index=255,64 store=1,1; and \
               record=1,2,2,0,0,9223372036854775808,1,1,0,1,2,0,1,1,2,0,0 index=255,64 store=0,1",
    },
];

pub fn run(count: &mut Count, _: &mut Rng) {
    for Kept { name, apart, text } in CASES {
        let wanted = if apart { Verdict::Apart } else { Verdict::Equal };
        let judged = calls::replay(text);
        count.apart += u64::from(judged == Ok(Ok(Verdict::Apart)));
        count.equal(name, &judged, &Ok(Ok(wanted)));
    }
}

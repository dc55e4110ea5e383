//! Lists of row calls on one picture, with calls among them that are refused for every reason, and calls after the last row.

use random::Rng;

use super::drawn_pictures::source;
use super::records::{self, around};
use super::refusals::{self, HEADS};
use super::{exact_pictures, overviews};
use crate::calls::{Call, CallList, Fit, FitExact, FitOverview, Source};
use crate::count::Count;
use crate::orders::Frame;
use crate::plain::PlainPicture;
use crate::record::{BINS, DONE, EXACT, ROWS, Record, WORDS};

const LISTS: u64 = 16_000;

/// Exact and overview, cells and bins: the two words of their records.
const CLASSES: [(u64, u64); 4] = [(0, 0), (0, 1), (1, 0), (1, 1)];

/// The numbers that a row call answers.
const NUMBERS: [u32; 10] = [0, 7, 8, 9, 11, 12, 13, 14, 15, 19];

/// The highest of them.
const MOST: usize = 19;

pub fn run(count: &mut Count, rng: &mut Rng) {
    let mut answered = [[false; MOST + 1]; CLASSES.len()];
    for turn in 0..LISTS as usize {
        let class = turn % CLASSES.len();
        let list = any(rng, CLASSES[class], &mut answered[class]);
        count.take(&list);
    }
    for (class, answered) in CLASSES.iter().zip(answered) {
        let missing: Vec<u32> = NUMBERS.into_iter().filter(|&number| !answered[number as usize]).collect();
        count.equal(&format!("what no call on a picture with words 3 and 4 {class:?} answered"), &missing, &vec![]);
    }
}

/// A list on a picture of a class, and the numbers that its calls answer.
fn any(rng: &mut Rng, class: (u64, u64), answered: &mut [bool; MOST + 1]) -> CallList {
    let (fit, record) = any_fit(rng, class);
    let mut plain = PlainPicture::opened(&record, vec![0; record.tallies_length()]);
    let most = (3 * record.0[ROWS] + 3).min(24);
    let calls = (0..rng.within(1, most))
        .map(|_| {
            let call = any_call(rng, &plain);
            let number = call.draw(&mut plain).err().unwrap_or(0);
            answered[number as usize] = true;
            call
        })
        .collect();
    CallList { fit, calls }
}

fn any_fit(rng: &mut Rng, class: (u64, u64)) -> (Fit, Record) {
    loop {
        let (width, height) = (rng.within(1, 12) as u32, rng.within(1, 7) as u32);
        let any = rng.within(1, 64);
        let frame = Frame { width, height, symbols: rng.pick(&[1, 2, 2, 3, 64, any]) as u32 };
        let fit = if class.0 == 1 {
            Fit::Exact(FitExact { frame, order: exact_pictures::any_order(rng, frame) })
        } else {
            Fit::Overview(FitOverview { frame, order: overviews::any_order(rng, frame) })
        };
        match fit.model() {
            Ok(record) if (record.0[EXACT], record.0[BINS]) == class => return (fit, record),
            _ => {}
        }
    }
}

/// A call of any kind. One that is handed another record or other lengths, and would be accepted, is handed the
/// picture's own instead.
fn any_call(rng: &mut Rng, plain: &PlainPicture) -> Call {
    let record = plain.record();
    let Source { tape, swept } = source(rng, &record, None);
    let mut call = Call { tape, swept, record: None, longer: [0; 3] };
    if rng.one_in(2) {
        for _ in 0..rng.within(1, 2) {
            damage(rng, &record, &mut call);
        }
    }
    if call.refusal(plain) == 0 {
        call.record = None;
        call.longer = [0; 3];
    }
    call
}

fn damage(rng: &mut Rng, record: &Record, call: &mut Call) {
    match rng.below(8) {
        0 => {
            let word = rng.below(WORDS as u64) as usize;
            call.record = Some(record.with(word, rng.pick(&around(record, word))));
        }
        1 => call.record = Some(records::sound(rng)),
        2 => call.record = Some(record.with(DONE, record.0[ROWS])),
        place @ 3..=5 => call.longer[place as usize - 3] = rng.pick(&[1, -1, 16, 7, -7, i64::MIN]),
        6 => call.swept = Some((rng.pick(&HEADS), rng.pick(&HEADS))),
        _ => refusals::damage(rng, &mut call.tape),
    }
}

//! Random sound tapes, joined, and read around their borders and anywhere.

use random::Rng;

use crate::calls::{Get, Join, Window};
use crate::count::Count;
use crate::tape::Tape;
use crate::tapes::{landmarks, sound};

const TAPES: u32 = 40_000;

pub fn run(count: &mut Count, rng: &mut Rng) {
    for _ in 0..TAPES {
        let tape = sound(rng);
        count.take(&Join { tape: tape.clone() });
        let landmarks = landmarks(&tape);
        for _ in 0..16 {
            let position = position(rng, &landmarks);
            count.take(&Get { tape: tape.clone(), position });
        }
        for _ in 0..8 {
            count.take(&window(rng, &tape, &landmarks));
        }
    }
}

fn position(rng: &mut Rng, landmarks: &[i64]) -> i64 {
    if rng.one_in(8) { rng.number() as i64 } else { rng.pick(landmarks) }
}

fn window(rng: &mut Rng, tape: &Tape, landmarks: &[i64]) -> Window {
    let longest = if rng.one_in(40) { 5_000 } else { rng.pick(&[0, 1, 2, 8, 80]) };
    let length = rng.within(0, longest);
    let before = rng.within(0, length + 2) as i64;
    let from = position(rng, landmarks).saturating_sub(before);
    Window { tape: tape.clone(), from, length: length as usize }
}

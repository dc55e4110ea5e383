//! Mixes at every kind of float: next to every tie of the rounding, at and around the ends, and at any bits.

use random::Rng;

use crate::calls::Mix;
use crate::count::Count;

const RANDOM: u32 = 400_000;

/// The first channel of each pair that is tried at its ties.
const STARTS: [u8; 9] = [0, 1, 2, 17, 64, 127, 128, 254, 255];

pub fn run(count: &mut Count, rng: &mut Rng) {
    for a in STARTS {
        for b in 0..=u8::MAX {
            at_ties(count, rng, a, b);
        }
    }
    for t in ends() {
        for a in STARTS {
            for b in STARTS {
                count.take(&Mix { from: [a, b, a], to: [b, a, 255 - b], t });
            }
        }
    }
    for _ in 0..RANDOM {
        let [from, to] = [rng.number(), rng.number()].map(|bits| [bits as u8, (bits >> 8) as u8, (bits >> 16) as u8]);
        let any = rng.number();
        let share = (rng.number() as f64 / u64::MAX as f64).to_bits();
        let whole = (rng.below(65) as f64 / 64.0).to_bits();
        count.take(&Mix { from, to, t: rng.pick(&[any, share, share, whole]) });
    }
}

/// Shares whose mix of a and b is at or next to a half, and what they mix of b and a and of other bytes.
fn at_ties(count: &mut Count, rng: &mut Rng, a: u8, b: u8) {
    let (low, high) = (a.min(b), a.max(b));
    for byte in low..high {
        let tie = (f64::from(byte) + 0.5 - f64::from(a)) / (f64::from(b) - f64::from(a));
        for t in tie.to_bits() - 2..=tie.to_bits() + 2 {
            let other = rng.number();
            count.take(&Mix { from: [a, b, other as u8], to: [b, a, (other >> 8) as u8], t });
        }
    }
}

/// Zeros, ones, infinities, the least and the largest floats and NaNs of either sign, each with its neighbours.
fn ends() -> Vec<u64> {
    let numbers = [0.0, f64::MIN_POSITIVE, 0.35, 0.5 - f64::EPSILON / 4.0, 0.5, 1.0, 2.0, f64::MAX, f64::INFINITY];
    let payloads = [0x7ff0_0000_0000_0001, 0x7ff8_0000_0000_0000, 0x7ff8_dead_beef_0001, i64::MAX as u64];
    let bits = numbers.iter().map(|number| number.to_bits()).chain(payloads);
    let around = bits.flat_map(|bits| [bits.saturating_sub(1), bits, bits + 1]);
    around.flat_map(|bits| [bits, bits ^ (1 << 63)]).collect()
}

//! Mixes of colours, and the colours of index bytes.

use random::Rng;
use reference::{Palette, Rgb, rgba};

use crate::list::{Case, Kind, List};

const MIXES: u32 = 500;
const PALETTES: u32 = 30;

/// Background, ink and accent, three bytes each.
type Bytes = [u8; 9];

const LIGHT: Bytes = [0xff, 0xff, 0xff, 0x11, 0x11, 0x11, 0x21, 0x5c, 0xaf];
const DARK: Bytes = [0x0e, 0x0e, 0x0e, 0xf1, 0xf1, 0xf1, 0x7b, 0xa7, 0xf0];

pub fn add(list: &mut List, rng: &mut Rng) {
    mixes(list, rng);
    colourings(list, rng);
}

fn mixes(list: &mut List, rng: &mut Rng) {
    for t in ends() {
        for (from, to) in [([0, 1, 255], [90, 91, 0]), ([0, 0, 1], [1, 255, 0]), ([17, 128, 254], [17, 127, 255])] {
            mix(list, from, to, t);
        }
    }
    for (a, b) in [(0, 1), (0, 255), (1, 91), (90, 3), (254, 255), (128, 131)] {
        at_ties(list, a, b);
    }
    for _ in 0..MIXES {
        let [from, to] = [rng.number(), rng.number()].map(|bits| [bits as u8, (bits >> 8) as u8, (bits >> 16) as u8]);
        let any = rng.number();
        let share = (rng.number() as f64 / u64::MAX as f64).to_bits();
        let whole = (rng.below(65) as f64 / 64.0).to_bits();
        mix(list, from, to, rng.pick(&[any, share, share, whole]));
    }
}

/// Zeros, ones, a half and the number before it, the tint, infinities, the least and the largest floats and NaNs, each of
/// either sign and with its neighbours.
fn ends() -> Vec<u64> {
    let numbers = [0.0, f64::MIN_POSITIVE, 0.35, 0.5 - f64::EPSILON / 4.0, 0.5, 1.0, 2.0, f64::MAX, f64::INFINITY];
    let payloads = [0x7ff0_0000_0000_0001, 0x7ff8_0000_0000_0000, i64::MAX as u64 - 1];
    let bits = numbers.iter().map(|number| number.to_bits()).chain(payloads);
    let around = bits.flat_map(|bits| [bits.saturating_sub(1), bits, bits + 1]);
    around.flat_map(|bits| [bits, bits ^ (1 << 63)]).collect()
}

/// Shares whose mix of a and b is at or next to a half.
fn at_ties(list: &mut List, a: u8, b: u8) {
    let (low, high) = (a.min(b), a.max(b));
    for byte in (low..high).step_by(7) {
        let tie = (f64::from(byte) + 0.5 - f64::from(a)) / (f64::from(b) - f64::from(a));
        for t in tie.to_bits() - 1..=tie.to_bits() + 1 {
            mix(list, [a, b, a], [b, a, 255 - b], t);
        }
    }
}

fn mix(list: &mut List, from: [u8; 3], to: [u8; 3], t: u64) {
    let rgb = |[red, green, blue]: [u8; 3]| Rgb(red, green, blue);
    let Rgb(red, green, blue) = rgb(from).mix(rgb(to), f64::from_bits(t));
    let words = [from, to, [red, green, blue]].concat();
    let case = words.into_iter().fold(Case::default().word(t), Case::word);
    list.add(Kind::Mix, &case);
}

fn colourings(list: &mut List, rng: &mut Rng) {
    let every: Vec<u8> = (0..=u8::MAX).collect();
    let mut palettes: Vec<Bytes> = vec![LIGHT, DARK, [0; 9], [255; 9]];
    for at in 0..9 {
        let mut near = LIGHT;
        near[at] ^= 1;
        palettes.push(near);
    }
    palettes.extend((0..PALETTES).map(|_| std::array::from_fn(|_| rng.number() as u8)));
    for palette in &palettes {
        colouring(list, palette, &every);
    }
    for length in 0..=40 {
        let index: Vec<u8> = (0..length).map(|_| rng.number() as u8).collect();
        colouring(list, &rng.pick(&palettes), &index);
    }
}

fn colouring(list: &mut List, palette: &Bytes, index: &[u8]) {
    let rgb = |at: usize| Rgb(palette[at], palette[at + 1], palette[at + 2]);
    let colours = rgba(index, &Palette { background: rgb(0), ink: rgb(3), accent: rgb(6) });
    let case = palette.iter().fold(Case::default(), |case, &byte| case.word(byte));
    list.add(Kind::Rgba, &case.byte_list(index).byte_list(&colours));
}

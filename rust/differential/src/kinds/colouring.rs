//! Colouring: every index byte in LIGHT, DARK, palettes one byte away from LIGHT and random ones, every small length of
//! the index, and outputs that are not four bytes to an index byte.

use random::Rng;

use crate::calls::Rgba;
use crate::colours::{DARK, LIGHT, Palette};
use crate::count::Count;

const RANDOM_PALETTES: u32 = 20_000;
const LENGTHS: usize = 40;

pub fn run(count: &mut Count, rng: &mut Rng) {
    let every: Vec<u8> = (0..=u8::MAX).collect();
    let mut palettes: Vec<Palette> = vec![LIGHT, DARK, [0; 9], [255; 9]];
    for at in 0..9 {
        palettes.extend([1, 0x80, 0xff].map(|flipped| {
            let mut near = LIGHT;
            near[at] ^= flipped;
            near
        }));
    }
    palettes.extend((0..RANDOM_PALETTES).map(|_| palette(rng)));
    for &palette in &palettes {
        count.take(&Rgba { index: every.clone(), palette, length: 4 * every.len() });
    }
    for indexes in 0..=LENGTHS {
        for length in 0..=4 * LENGTHS + 8 {
            let index = (0..indexes).map(|_| rng.number() as u8).collect();
            let palette = if rng.one_in(2) { LIGHT } else { palette(rng) };
            count.take(&Rgba { index, palette, length });
        }
    }
    for indexes in [1000, 4095, 4096, 65_537] {
        let index: Vec<u8> = (0..indexes).map(|_| rng.number() as u8).collect();
        for length in [0, indexes, 4 * indexes - 1, 4 * indexes, 4 * indexes + 1, 4 * indexes + 4] {
            count.take(&Rgba { index: index.clone(), palette: LIGHT, length });
        }
    }
}

fn palette(rng: &mut Rng) -> Palette {
    std::array::from_fn(|_| rng.number() as u8)
}

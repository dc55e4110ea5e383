//! Every symbol with every count of an alphabet, and counts outside the domain.

use random::Rng;

use crate::calls::SymbolShade;
use crate::count::Count;

pub fn run(count: &mut Count, _: &mut Rng) {
    for symbols in (0..=66).chain([255, 256, 257, 319, 320, u32::MAX]) {
        for symbol in 0..=u8::MAX {
            count.take(&SymbolShade { symbol, symbols });
        }
    }
}

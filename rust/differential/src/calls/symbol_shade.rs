//! `symbol_shade` of the crate shade, by its probe.

use std::fmt;

use super::OUTSIDE;
use crate::case::{Case, Difference, Fields, Verdict, hold};
use crate::ffi;
use crate::tape::smaller_number;

#[derive(Clone)]
pub struct SymbolShade {
    pub symbol: u8,
    pub symbols: u32,
}

impl SymbolShade {
    pub fn read(fields: &Fields) -> Result<Self, String> {
        Ok(Self { symbol: fields.number("symbol")?, symbols: fields.number("symbols")? })
    }

    fn wanted(&self) -> u8 {
        if u32::from(self.symbol) < self.symbols && self.symbols <= 64 {
            reference::symbol_shade(self.symbols as usize, self.symbol)
        } else {
            OUTSIDE
        }
    }
}

impl Case for SymbolShade {
    fn compare(&self) -> Result<Verdict, Difference> {
        let shade = ffi::probe_symbol_shade(self.symbol, self.symbols);
        hold("the library", &shade, &self.wanted())?;
        Ok(Verdict::Equal)
    }

    fn smaller(&self) -> Vec<Self> {
        let symbol = smaller_number(u64::from(self.symbol)).into_iter();
        let symbols = smaller_number(u64::from(self.symbols)).into_iter();
        let symbol = symbol.map(|symbol| Self { symbol: symbol as u8, ..self.clone() });
        symbol.chain(symbols.map(|symbols| Self { symbols: symbols as u32, ..self.clone() })).collect()
    }
}

impl fmt::Display for SymbolShade {
    fn fmt(&self, f: &mut fmt::Formatter<'_>) -> fmt::Result {
        write!(f, "symbol_shade symbol={} symbols={}", self.symbol, self.symbols)
    }
}

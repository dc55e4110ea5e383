//! `spacetime_fit_exact`, with the range and the rows of the picture that it fits.

use std::fmt;

use reference::{Exact, Picture};

use super::{hold_library, hold_picture, opened};
use crate::case::{Case, Difference, Fields, Verdict, joined};
use crate::ffi;
use crate::orders::{ExactOrder, Frame};

#[derive(Clone)]
pub struct FitExact {
    pub frame: Frame,
    pub order: ExactOrder,
}

impl FitExact {
    /// A missing size is an empty list of sizes, and a missing pair an empty list of ends.
    pub fn read(fields: &Fields) -> Result<Self, String> {
        let written: Vec<i64> = fields.numbers("written")?;
        let order = ExactOrder {
            first_step: fields.number("first_step")?,
            size: fields.numbers("size")?.first().copied(),
            heads: fields.numbers("heads")?,
            written: written.first().copied().zip(written.get(1).copied()),
            halted: fields.number::<u8>("halted")? == 1,
        };
        Ok(Self { frame: super::read_frame(fields)?, order })
    }
}

impl Case for FitExact {
    fn compare(&self) -> Result<Verdict, Difference> {
        let Self { frame, order } = self;
        let wanted = order.fit(*frame);
        hold_library(&ffi::fit_exact(*frame, order), &wanted.map(|record| record.0.to_vec()))?;
        if let Ok(record) = wanted {
            let ExactOrder { first_step, size: cell_px, ref heads, written, halted } = *order;
            let order = Exact { first_step, cell_px, heads, written, halted };
            let Frame { width, height, symbols } = *frame;
            let drawn = || Picture::exact(width, height, symbols, &order).expect("a size that is taken");
            let undrawn = || Picture::exact_undrawn(width, height, symbols, &order);
            hold_picture(&record, || if opened(&record) { drawn() } else { undrawn() })?;
        }
        Ok(Verdict::Equal)
    }

    fn smaller(&self) -> Vec<Self> {
        let frames = self.frame.smaller().into_iter().map(|frame| Self { frame, ..self.clone() });
        let orders = self.order.smaller().into_iter().map(|order| Self { order, ..self.clone() });
        frames.chain(orders).collect()
    }
}

impl fmt::Display for FitExact {
    fn fmt(&self, f: &mut fmt::Formatter<'_>) -> fmt::Result {
        let Frame { width, height, symbols } = self.frame;
        let ExactOrder { first_step, size, heads, written, halted } = &self.order;
        let size: Vec<u32> = size.iter().copied().collect();
        let written: Vec<i64> = written.iter().flat_map(|&(low, high)| [low, high]).collect();
        write!(f, "fit_exact width={width} height={height} symbols={symbols} first_step={first_step}")?;
        write!(f, " size={} heads={}", joined(&size), joined(heads))?;
        write!(f, " written={} halted={}", joined(&written), u8::from(*halted))
    }
}

//! `spacetime_fit_overview`, with the range and the rows of the picture that it fits.

use std::fmt;

use reference::{Overview, Picture};

use super::{hold_library, hold_picture, opened};
use crate::case::{Case, Difference, Fields, Verdict};
use crate::ffi;
use crate::orders::{Frame, OverviewOrder};

#[derive(Clone)]
pub struct FitOverview {
    pub frame: Frame,
    pub order: OverviewOrder,
}

impl FitOverview {
    pub fn read(fields: &Fields) -> Result<Self, String> {
        let extent = (fields.number("low")?, fields.number("high")?);
        let order = OverviewOrder { total: fields.number("total")?, extent };
        Ok(Self { frame: super::read_frame(fields)?, order })
    }
}

impl Case for FitOverview {
    fn compare(&self) -> Result<Verdict, Difference> {
        let Self { frame, order } = *self;
        let wanted = order.fit(frame);
        hold_library(&ffi::fit_overview(frame, order), &wanted.map(|record| record.0.to_vec()))?;
        if let Ok(record) = wanted {
            let order = Overview { total: order.total, extent: order.extent };
            let Frame { width, height, symbols } = frame;
            let drawn = || Picture::overview(width, height, symbols, &order).expect("a size that is taken");
            let undrawn = || Picture::overview_undrawn(width, height, symbols, &order);
            hold_picture(&record, || if opened(&record) { drawn() } else { undrawn() })?;
        }
        Ok(Verdict::Equal)
    }

    fn smaller(&self) -> Vec<Self> {
        let frames = self.frame.smaller().into_iter().map(|frame| Self { frame, ..self.clone() });
        let orders = self.order.smaller().into_iter().map(|order| Self { order, ..self.clone() });
        frames.chain(orders).collect()
    }
}

impl fmt::Display for FitOverview {
    fn fmt(&self, f: &mut fmt::Formatter<'_>) -> fmt::Result {
        let Frame { width, height, symbols } = self.frame;
        let OverviewOrder { total, extent: (low, high) } = self.order;
        write!(f, "fit_overview width={width} height={height} symbols={symbols} total={total} low={low} high={high}")
    }
}

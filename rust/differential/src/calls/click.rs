//! `spacetime_locate` on any record and store: clicks on pixels of one picture, one after the other.

use std::fmt;

use random::Rng;
use reference::{Picture, caught};

use super::original_grid;
use crate::case::{Case, Difference, Fields, Verdict, hold, joined};
use crate::ffi::{Clicked, Clicking, Guarded};
use crate::record::{DONE, HEIGHT, Located, Record, SYMBOLS, WIDTH};
use crate::tape::smaller_number;

#[derive(Clone)]
pub struct Click {
    pub record: Record,
    /// How long the store is, and the seed of its bytes.
    pub store: usize,
    pub seed: u64,
    pub pixels: Vec<(u32, u32)>,
}

impl Click {
    pub fn read(fields: &Fields) -> Result<Self, String> {
        let (across, down): (Vec<u32>, Vec<u32>) = (fields.numbers("x")?, fields.numbers("y")?);
        Ok(Self {
            record: Record::read(fields)?,
            store: fields.number("store")?,
            seed: fields.number("seed")?,
            pixels: across.into_iter().zip(down).collect(),
        })
    }

    /// The store's bytes, of which none has to be a symbol of the picture's.
    fn bytes(&self) -> Vec<u8> {
        let mut rng = Rng::new(self.seed);
        let mut bytes: Vec<u8> = (0..self.store.div_ceil(8)).flat_map(|_| rng.number().to_le_bytes()).collect();
        bytes.truncate(self.store);
        bytes
    }
}

/// The original's picture for a sound record, with no memory for its pixels.
fn original(record: &Record, store: &[u8]) -> Picture {
    let words = &record.0;
    let size = (words[WIDTH] as u32, words[HEIGHT] as u32, words[SYMBOLS] as u32);
    Picture::of_grid(size, &original_grid(record), words[DONE] as u32, &[], store)
}

/// What the original locates, as the interface writes it.
fn written(located: Option<reference::Located>) -> Located {
    located.map_or(([0; 4], [0; 2]), |reference::Located { step, from, to, symbol }| {
        ([1, step, symbol.is_some().into(), symbol.map_or(0, u64::from)], [from, to])
    })
}

/// What the library's call answers and leaves where the model answers this.
pub fn clicked(located: Result<Located, u32>) -> Clicked {
    let (number, (found, cells)) = match located {
        Ok(located) => (0, located),
        Err(number) => (number, ([u64::UNWRITTEN; 4], [i64::UNWRITTEN; 2])),
    };
    Clicked { number, found: found.to_vec(), cells: cells.to_vec(), disturbed: Vec::new() }
}

impl Case for Click {
    fn compare(&self) -> Result<Verdict, Difference> {
        let Self { record, pixels, .. } = self;
        let store = self.bytes();
        let taken = record.sound() && store.len() == record.store_length();
        let picture = taken.then(|| original(record, &store));
        let mut clicking = Clicking::new(record, &store);
        for &(x, y) in pixels {
            let located = record.locate(&store, x, y);
            hold("the library", &clicking.click(x, y), &clicked(located))?;
            if let (Some(picture), Ok(located)) = (&picture, located) {
                hold("the original", &caught(|| picture.locate(x, y)).map(written), &Ok(located))?;
            }
        }
        hold("the library, of what it reads,", &clicking.disturbed(), &Vec::new())?;
        Ok(Verdict::Equal)
    }

    fn smaller(&self) -> Vec<Self> {
        let single = |&pixel: &(u32, u32)| Self { pixels: vec![pixel], ..self.clone() };
        if self.pixels.len() > 1 {
            return self.pixels.iter().map(single).collect();
        }
        let records = self.record.smaller().into_iter().map(|record| Self { record, ..self.clone() });
        let stores = smaller_number(self.store as u64).into_iter();
        let stores = stores.map(|store| Self { store: store as usize, ..self.clone() });
        let seeds = smaller_number(self.seed).into_iter().map(|seed| Self { seed, ..self.clone() });
        let less = |number: u32| smaller_number(number.into()).into_iter().map(|number| number as u32);
        let nearer = |&(x, y): &(u32, u32)| {
            let across = less(x).map(move |x| (x, y));
            across.chain(less(y).map(move |y| (x, y))).collect::<Vec<_>>()
        };
        let pixels = self.pixels.iter().flat_map(nearer).map(|pixel| single(&pixel));
        records.chain(stores).chain(seeds).chain(pixels).collect()
    }
}

impl fmt::Display for Click {
    fn fmt(&self, f: &mut fmt::Formatter<'_>) -> fmt::Result {
        let (across, down): (Vec<u32>, Vec<u32>) = self.pixels.iter().copied().unzip();
        let Self { record, store, seed, .. } = self;
        write!(f, "click {record} store={store} seed={seed} x={} y={}", joined(&across), joined(&down))
    }
}

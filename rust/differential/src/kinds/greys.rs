//! Bins at and next to every tie of the rounding, where an ink lies furthest from its tally, and anywhere. The run says how
//! much of what the bound leaves to the floats was met.

use random::Rng;

use crate::calls::{Grey, MOST_CELLS};
use crate::count::Count;

const LARGE_WINDOWS: u32 = 20_000;
const WINDOWS: u32 = 4_000;
const BINS: u32 = 500_000;

pub fn run(count: &mut Count, rng: &mut Rng) {
    let mut greys = Greys { count, measured: 0, past: 0, furthest: None, nearest: None };
    let powers = (0..=50).map(|bits| 1 << bits).flat_map(|power: u64| [power - 1, power, power + 1]);
    powers.for_each(|cells| greys.at_ties(cells));
    for _ in 0..LARGE_WINDOWS {
        greys.at_ties(rng.within(MOST_CELLS / 2, MOST_CELLS));
    }
    for _ in 0..WINDOWS {
        let cells = rng.of_any_size(MOST_CELLS);
        greys.at_ties(cells);
        greys.at_ties((cells / 112).max(1) * 112);
    }
    for _ in 0..BINS {
        let cells = rng.of_any_size(MOST_CELLS);
        greys.take(Grey { tally: rng.within(1, cells), cells });
    }
    greys.tell();
}

struct Greys<'a> {
    count: &'a mut Count,
    measured: u64,
    /// How many lie past half an ink.
    past: u64,
    /// The one that lies furthest past it, and the one that met most of what the bound leaves it.
    furthest: Option<Grey>,
    nearest: Option<Grey>,
}

impl Greys<'_> {
    /// Tallies whose share times 56 is at or near k + 1/2, which is (2k + 1) / 112 of the cells.
    fn at_ties(&mut self, cells: u64) {
        for k in 0..56 {
            let tie = (u128::from(cells) * (2 * k + 1) / 112) as u64;
            for tally in tie.saturating_sub(1)..=tie + 2 {
                self.take(Grey { tally, cells });
            }
        }
    }

    fn take(&mut self, grey: Grey) {
        if !grey.has_ink() {
            return;
        }
        self.count.take(&grey);
        self.measured += 1;
        if grey.past_half() > 0 {
            self.past += 1;
            self.furthest = Some(larger(self.furthest, grey, Grey::past_half));
            let part = |grey: Grey| ((grey.past_half() << 20) / grey.room().max(1), grey.room());
            self.nearest = Some(larger(self.nearest, grey, part));
        }
    }

    fn tell(&self) {
        println!("greys: {} of {} bins lie past half an ink", self.past, self.measured);
        for (what, grey) in [("furthest past", self.furthest), ("nearest to the bound", self.nearest)] {
            if let Some(grey) = grey {
                println!("greys: {what}: by {} where {} are allowed, {grey}", grey.past_half(), grey.room());
            }
        }
    }
}

fn larger<T: Ord>(so_far: Option<Grey>, grey: Grey, by: impl Fn(Grey) -> T) -> Grey {
    so_far.filter(|&so_far| by(so_far) >= by(grey)).unwrap_or(grey)
}

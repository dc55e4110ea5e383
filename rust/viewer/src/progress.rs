//! A bar for long runs, on standard error; none where that is no terminal, or a dumb one.

use std::time::{Duration, Instant};

use indicatif::{ProgressBar, ProgressDrawTarget, ProgressStyle};

use crate::terminal::is_dumb;

/// A run that is over by then needs no bar.
const LONG: Duration = Duration::from_millis(200);

pub struct Bar {
    started: Instant,
    shown: Option<ProgressBar>,
}

impl Bar {
    pub fn new() -> Self {
        Self { started: Instant::now(), shown: None }
    }

    /// Shows the steps done of those to do, once the run is a long one.
    pub fn at(&mut self, done: u64, of: u64) {
        if self.started.elapsed() < LONG || is_dumb() {
            return;
        }
        let bar = self.shown.get_or_insert_with(|| {
            let style = ProgressStyle::with_template("{bar:40} {human_pos} of {human_len} steps").expect("a template");
            ProgressBar::with_draw_target(Some(of), ProgressDrawTarget::stderr()).with_style(style)
        });
        // Setting draws, so a length that stands is left.
        if bar.length() != Some(of) {
            bar.set_length(of);
        }
        bar.set_position(done);
    }
}

impl Drop for Bar {
    fn drop(&mut self) {
        if let Some(bar) = &self.shown {
            bar.finish_and_clear();
        }
    }
}

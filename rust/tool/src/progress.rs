//! A bar on standard error while work takes more than a second.

use indicatif::{ProgressBar, ProgressDrawTarget, ProgressStyle};
use std::time::{Duration, Instant};

/// How long work goes on before a bar is shown.
const PATIENCE: Duration = Duration::from_secs(1);

/// How far the work on a source has come. The bar is cleared when this is dropped.
pub struct Progress {
    since: Instant,
    size: Option<u64>,
    wanted: bool,
    bar: Option<ProgressBar>,
}

impl Progress {
    /// A bar for a recording of so many bytes, or for one whose size isn't known; only if `wanted` and standard error is a terminal.
    pub fn new(size: Option<u64>, wanted: bool) -> Progress {
        Progress {
            since: Instant::now(),
            size,
            wanted: wanted && console::user_attended_stderr(),
            bar: None,
        }
    }

    /// Never a bar.
    pub fn none() -> Progress {
        Progress::new(None, false)
    }

    /// The work has come to this byte.
    pub fn reached(&mut self, byte: u64) {
        if !self.wanted || self.since.elapsed() < PATIENCE {
            return;
        }
        let (since, size) = (self.since, self.size);
        let bar = self.bar.get_or_insert_with(|| bar(since, size));
        // A recording that is still being written grows.
        if size.map_or(false, |size| size < byte) {
            bar.set_length(byte);
        }
        bar.set_position(byte);
    }
}

impl Drop for Progress {
    fn drop(&mut self) {
        if let Some(bar) = &self.bar {
            bar.finish_and_clear();
        }
    }
}

/// A bar, or without a size a spinner, for work that goes on since then.
fn bar(since: Instant, size: Option<u64>) -> ProgressBar {
    let template = match size {
        Some(_) => "[{wide_bar}] {bytes}/{total_bytes} {bytes_per_sec} {eta}",
        None => "{spinner} {bytes} {bytes_per_sec}",
    };
    let style = ProgressStyle::with_template(template)
        .unwrap_or_else(|_| ProgressStyle::default_bar())
        .progress_chars("=> ");
    ProgressBar::with_draw_target(size, ProgressDrawTarget::stderr())
        .with_style(style)
        .with_elapsed(since.elapsed())
}

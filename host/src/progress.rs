//! How far the work on chunks is: a bar with rate and time left on a terminal, plain lines elsewhere.
use crate::text::grouped;
use indicatif::{ProgressBar, ProgressDrawTarget, ProgressState, ProgressStyle};
use std::{
    fmt,
    time::{Duration, Instant},
};

pub struct Progress {
    bar: ProgressBar,
    /// What is counted.
    what: &'static str,
    /// The bar is not shown yet.
    waits: bool,
    total: usize,
    done: usize,
    printed: Instant,
    begun: Instant,
}

const PLAIN_EVERY: Duration = Duration::from_secs(5);
/// Lines that are worked out again in less time need no bar.
const WAIT: Duration = Duration::from_secs(1);

impl Progress {
    /// Of chunks that are swept.
    pub fn of(total: usize) -> Progress {
        Progress::shown(ProgressBar::new(total as u64), "chunks", false)
    }
    /// Of lines that are worked out again: shown only where that takes more than a second.
    pub fn again(total: usize) -> Progress {
        Progress::shown(ProgressBar::with_draw_target(Some(total as u64), ProgressDrawTarget::hidden()), "lines worked out again", true)
    }
    fn shown(bar: ProgressBar, what: &'static str, waits: bool) -> Progress {
        // The two last columns are left to the terminal's ^C.
        let template = format!("{{wide_bar}} {{human_pos}}/{{human_len}} {}, {{rate}} per second, {{eta}} left  ", what);
        if let Ok(style) = ProgressStyle::with_template(&template) {
            let rate = |state: &ProgressState, out: &mut dyn fmt::Write| {
                let _ = write!(out, "{:.0}", state.per_sec());
            };
            bar.set_style(style.with_key("rate", rate));
        }
        let total = bar.length().unwrap_or(0) as usize;
        Progress { bar, what, waits, total, done: 0, printed: Instant::now(), begun: Instant::now() }
    }
    pub fn add(&mut self, chunks: usize) {
        self.done += chunks;
        if self.waits && self.begun.elapsed() >= WAIT {
            self.waits = false;
            self.bar.set_draw_target(ProgressDrawTarget::stderr());
        }
        self.bar.inc(chunks as u64);
        if self.bar.is_hidden() && self.printed.elapsed() >= PLAIN_EVERY {
            self.printed = Instant::now();
            tell!("{}", plain(self.done, self.total, self.what, self.begun.elapsed()));
        }
    }
    pub fn end(&self) {
        self.bar.finish_and_clear();
    }
}

/// A line on how far it is, after this time.
fn plain(done: usize, total: usize, what: &str, taken: Duration) -> String {
    let rate = done as f64 / taken.as_secs_f64();
    let left = (total - done) as f64 / rate;
    format!("{} of {} {}, {:.0} per second, {:.0} s left", grouped(done), grouped(total), what, rate, left)
}

#[cfg(test)]
mod tests {
    use super::*;

    #[test]
    fn a_line_says_rate_and_time_left() {
        assert_eq!(plain(640, 16_384, "chunks", Duration::from_secs(5)), "640 of 16,384 chunks, 128 per second, 123 s left");
        assert_eq!(plain(64, 64, "chunks", Duration::from_millis(500)), "64 of 64 chunks, 128 per second, 0 s left");
    }
    #[test]
    fn what_is_added_counts_to_the_end() {
        for mut progress in [Progress::of(100), Progress::again(100)] {
            progress.add(64);
            progress.add(36);
            assert_eq!((progress.done, progress.total, progress.bar.position()), (100, 100, 100));
            progress.end();
        }
    }
    #[test]
    fn lines_worked_out_again_within_a_second_show_no_bar() {
        let mut progress = Progress::again(2);
        progress.add(1);
        assert!(progress.waits && progress.bar.is_hidden());
        progress.begun -= WAIT;
        progress.add(1);
        assert!(!progress.waits);
    }
}

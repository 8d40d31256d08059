//! Signals. Ctrl-C and those that ask a process to end: a sweep ends after the ranges that it has begun, and so does the working out of lines
//! again; an output that is not whole is removed. A limit on the size of files: the write fails, and does not end the process.
use signal_hook::{
    consts::{SIGHUP, SIGINT, SIGTERM, SIGXFSZ},
    flag,
};
use std::{
    fs,
    sync::{
        atomic::{AtomicBool, Ordering},
        Arc, OnceLock,
    },
};

#[derive(Default)]
struct Signals {
    /// A signal came while they were listened for.
    asked: Arc<AtomicBool>,
    /// They are no longer listened for: each ends the process at once, as it does a program that never listened.
    at_once: Arc<AtomicBool>,
}

static SIGNALS: OnceLock<Signals> = OnceLock::new();

/// Listens for the signals from now on. The second one ends the process at once. One that was ignored when the program was started stays so:
/// that is how `nohup` protects what it runs.
pub fn listen() {
    let signals = SIGNALS.get_or_init(|| {
        let signals = Signals::default();
        let status = fs::read_to_string("/proc/self/status").unwrap_or_default();
        for signal in [SIGHUP, SIGINT, SIGTERM] {
            if is_ignored(&status, signal) {
                continue;
            }
            // In this order: the first signal finds the flag not yet set.
            let set = flag::register_conditional_default(signal, signals.at_once.clone())
                .and_then(|_| flag::register_conditional_shutdown(signal, 130, signals.asked.clone()))
                .and_then(|_| flag::register(signal, signals.asked.clone()));
            if let Err(e) = set {
                tell!("warning: signal {} will end the program at once ({})", signal, e);
            }
        }
        signals
    });
    signals.at_once.store(false, Ordering::SeqCst);
}

/// Lets a write beyond the limit on the size of files fail with a reason. Without a handler the signal would end the process without a word.
pub fn outlive_file_limits() {
    // Where that fails, such a write still ends the process.
    let _ = flag::register(SIGXFSZ, Arc::default());
}

/// Listens for the signals while this work is done, which asks whether one came; so must the caller after it.
pub fn while_listening<T>(work: impl FnOnce() -> T) -> T {
    let listened = SIGNALS.get().map_or(false, |signals| !signals.at_once.load(Ordering::SeqCst));
    listen();
    let done = work();
    if let (false, Some(signals)) = (listened, SIGNALS.get()) {
        signals.at_once.store(true, Ordering::SeqCst);
    }
    done
}

/// Whether a signal came while they were listened for.
pub fn asked() -> bool {
    SIGNALS.get().map_or(false, |signals| signals.asked.load(Ordering::SeqCst))
}

/// Whether a signal came during [`while_listening`] and has yet to end the process. Where a command listens for longer, it sees to that itself.
pub fn is_due() -> bool {
    SIGNALS.get().map_or(false, |signals| signals.at_once.load(Ordering::SeqCst)) && asked()
}

/// Listens no longer: from now on a signal ends the process at once.
pub fn end_at_once() {
    if let Some(signals) = SIGNALS.get() {
        signals.at_once.store(true, Ordering::SeqCst);
    }
}

/// Whether a process of this /proc status ignores a signal.
fn is_ignored(status: &str, signal: i32) -> bool {
    let digits = status.lines().find_map(|line| line.strip_prefix("SigIgn:")).unwrap_or("0").trim();
    u64::from_str_radix(digits, 16).map_or(false, |signals| signals >> (signal - 1) & 1 == 1)
}

#[cfg(test)]
mod tests {
    use super::*;

    #[test]
    fn ignored_signals_are_read_from_the_status() {
        let status = "Name:\tx\nSigBlk:\tffffffffffffffff\nSigIgn:\t0000000000001001\nSigCgt:\tffffffffffffffff\n";
        assert!(is_ignored(status, SIGHUP));
        assert!(!is_ignored(status, SIGINT) && !is_ignored(status, SIGTERM));
        assert!(is_ignored("SigIgn:\t0000000000004000\n", SIGTERM));
        for unreadable in ["", "SigIgn:\n", "SigIgn:\tx\n"] {
            assert!(!is_ignored(unreadable, SIGHUP));
        }
    }
}

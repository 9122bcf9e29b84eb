//! Signals: whoever interrupts the command finds no half file, and a file that may not grow is an error like a full disk.
use std::fs;
use std::path::{Path, PathBuf};
use std::sync::atomic::AtomicBool;
use std::sync::{Arc, Mutex, MutexGuard, PoisonError};
use std::thread;

use signal_hook::consts::{SIGHUP, SIGINT, SIGTERM, SIGXFSZ};
use signal_hook::iterator::Signals;
use signal_hook::{flag, low_level};

/// The files that are not yet whole. Who takes one away or gives it its name holds the lock.
static PARTS: Mutex<Vec<PathBuf>> = Mutex::new(Vec::new());

fn parts() -> MutexGuard<'static, Vec<PathBuf>> {
    PARTS.lock().unwrap_or_else(PoisonError::into_inner)
}

/// A file that is to go where the command is interrupted, from before it is there.
pub fn watch_part(part: &Path) {
    parts().push(part.to_owned());
}

/// The file's end, by its new name or by its removal, with no signal in between.
pub fn settle_part<T>(part: &Path, end: impl FnOnce() -> T) -> T {
    let mut all = parts();
    let result = end();
    all.retain(|other| other != part);
    result
}

/// Whether the signal is one that the caller had this program ignore, as `nohup` does.
fn ignored(signal: i32) -> bool {
    let status = fs::read_to_string("/proc/self/status").unwrap_or_default();
    let mask = status.lines().find_map(|line| line.strip_prefix("SigIgn:"));
    let mask = mask.and_then(|digits| u64::from_str_radix(digits.trim(), 16).ok());
    mask.is_some_and(|mask| mask >> (signal - 1) & 1 == 1)
}

/// Takes the unfinished files away at a signal that ends the command, which then ends by it.
pub fn watch() {
    let ending = [SIGINT, SIGTERM, SIGHUP]
        .into_iter()
        .filter(|signal| !ignored(*signal));
    if let Ok(mut signals) = Signals::new(ending) {
        thread::spawn(move || {
            for signal in signals.forever() {
                let all = parts();
                for part in all.iter() {
                    let _ = fs::remove_file(part);
                }
                let _ = low_level::emulate_default_handler(signal);
            }
        });
    }
    // caught, it leaves the write with an error
    let _ = flag::register(SIGXFSZ, Arc::new(AtomicBool::new(false)));
}

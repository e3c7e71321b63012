//! Cases that do not end, as they come up where the Rust was changed.

use std::sync::atomic::{AtomicU64, Ordering::SeqCst};
use std::time::Duration;

/// The case that runs.
static RUNS: AtomicU64 = AtomicU64::new(0);

/// From now on this case runs.
pub fn begin(case: u64) {
    RUNS.store(case, SeqCst);
}

/// Calls `found` with a case that runs for three seconds, which no case does that ends.
pub fn watch(found: impl FnOnce(u64) + Send + 'static) {
    std::thread::spawn(move || found(first_to_stay()));
}

fn first_to_stay() -> u64 {
    let (mut case, mut tenths) = (RUNS.load(SeqCst), 0);
    while tenths < 30 {
        std::thread::sleep(Duration::from_millis(100));
        let runs = RUNS.load(SeqCst);
        tenths = if runs == case { tenths + 1 } else { 0 };
        case = runs;
    }
    case
}

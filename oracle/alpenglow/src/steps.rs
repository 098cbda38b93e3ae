//! Ends a run in which the commit's fill of bins does not end.
//!
//! Where the sum of the stakes wraps, its last bin is full while stake is left,
//! and the fill goes on for ever, taking memory. It adds to a `Stake` each time
//! around, so the stand-in for `AddAssign` counts here.

use std::cell::Cell;

/// Far above the additions of any run that ends.
const MOST: usize = 1 << 22;

thread_local! {
    static STEPS: Cell<usize> = const { Cell::new(0) };
}

/// Starts to count anew.
pub fn reset() {
    STEPS.set(0);
}

/// Counts one addition.
pub fn count() {
    STEPS.set(STEPS.get() + 1);
    assert!(STEPS.get() <= MOST, "stopped: the Rust does not end here");
}

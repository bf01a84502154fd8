//! Which branches a run has visited. Only the marked copy of the Rust calls `at`.
use std::{cell::RefCell, collections::BTreeSet};

thread_local! {
    static SEEN: RefCell<BTreeSet<String>> = RefCell::new(BTreeSet::new());
}

pub fn at(branch: &str) {
    SEEN.with_borrow_mut(|seen| {
        if !seen.contains(branch) {
            seen.insert(branch.to_string());
        }
    });
}

/// Both ways of a test.
pub fn test(branch: &str, taken: bool) {
    at(&format!("{branch}: {}", if taken { "yes" } else { "no" }));
}

/// A branch that counts apart for each number, as the order.
pub fn at_number(branch: &str, number: usize) {
    at(&format!("{branch} {number}"));
}

/// What was visited since the last call.
pub fn take() -> BTreeSet<String> {
    SEEN.with_borrow_mut(std::mem::take)
}

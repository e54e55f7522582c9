//! What nodes weigh in a norm (document 02, S-6): an input its weight, every other node 1. Inputs are the first nodes of the
//! Rust's store, so a node's number tells them.

use std::cell::RefCell;

thread_local! {
    /// Of the inputs in turn; none where all are 1.
    static WEIGHTS: RefCell<Vec<u128>> = const { RefCell::new(Vec::new()) };
}

/// The weights of the circuit that is mapped next.
pub fn set(weights: &[u64]) {
    let all_1 = weights.iter().all(|weight| *weight == 1);
    WEIGHTS.set(if all_1 {
        Vec::new()
    } else {
        weights.iter().copied().map(u128::from).collect()
    });
}

pub fn all_1() -> bool {
    WEIGHTS.with_borrow(Vec::is_empty)
}

pub fn of(node: usize) -> u128 {
    WEIGHTS.with_borrow(|weights| weights.get(node).copied().unwrap_or(1))
}

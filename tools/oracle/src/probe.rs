//! What the edits of build.rs record while the Rust maps one circuit.

use std::cell::Cell;

#[derive(Clone, Copy, Debug, Eq, PartialEq)]
pub enum Place {
    Before,
    Gate(usize),
    Outputs,
}

thread_local! {
    static PLACE: Cell<Place> = const { Cell::new(Place::Before) };
    static ATTEMPTS: Cell<u64> = const { Cell::new(0) };
    static CAP_MET: Cell<u64> = const { Cell::new(0) };
    static ONE_OVER: Cell<u64> = const { Cell::new(0) };
    static MOST_SOURCES: Cell<usize> = const { Cell::new(0) };
}

pub fn begin() {
    PLACE.set(Place::Before);
}

pub fn place() -> Place {
    PLACE.get()
}

/// A gate's name is its line number in the circuit text.
pub fn at_gate(name: &str) {
    PLACE.set(Place::Gate(
        name.parse().expect("a gate is named by its line"),
    ));
}

pub fn at_outputs() {
    PLACE.set(Place::Outputs);
}

/// Document 01's cap: more than T + 1 sources on both sides together count as
/// no composition.
pub fn over_cap(sources: usize, limit: usize) -> bool {
    ATTEMPTS.set(ATTEMPTS.get() + 1);
    MOST_SOURCES.set(MOST_SOURCES.get().max(sources));
    if sources == limit + 1 {
        ONE_OVER.set(ONE_OVER.get() + 1);
    }
    let over = sources > limit + 1;
    if over {
        CAP_MET.set(CAP_MET.get() + 1);
    }
    over
}

pub struct Cap {
    pub attempts: u64,
    pub met: u64,
    pub one_over: u64,
    pub most_sources: usize,
}

pub fn cap() -> Cap {
    Cap {
        attempts: ATTEMPTS.get(),
        met: CAP_MET.get(),
        one_over: ONE_OVER.get(),
        most_sources: MOST_SOURCES.get(),
    }
}

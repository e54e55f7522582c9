//! The Rust with weights that are wrong in one way, which its argument names, and otherwise as the oracle: circuits come on
//! standard input, answers go out.

#[macro_use]
#[path = "../copies.rs"]
mod copies;
rust_copied_to!("wrong");
#[allow(dead_code)]
#[path = "../answer.rs"]
mod answer;
#[allow(dead_code)]
#[path = "../probe.rs"]
mod probe;
#[path = "../reader.rs"]
mod reader;
#[path = "../service.rs"]
mod service;

/// The right weights, and where they are not used.
mod weights {
    use std::cell::RefCell;
    use std::sync::OnceLock;

    pub const WAYS: [(&str, &str); 11] = [
        ("order", "the two sides ordered without weights"),
        ("score", "the norm in the score without weights"),
        ("limit", "the limit of the search without weights"),
        ("form", "forms to realign to ranked without weights"),
        ("unary", "a gate on one wire validated without weights"),
        ("check", "an input counts 1 in Basic's last check"),
        ("dead", "an unused input counts in it too"),
        ("cache", "the candidate cache serves, whatever the weights"),
        ("once", "a term counts its weight, whatever its coefficient"),
        ("square", "a term counts its weight squared"),
        ("boot", "a bootstrap counts as the heaviest input"),
    ];

    thread_local! {
        static WEIGHTS: RefCell<Vec<u128>> = const { RefCell::new(Vec::new()) };
    }
    pub static WAY: OnceLock<String> = OnceLock::new();

    pub fn is_wrong(way: &str) -> bool {
        WAY.get().is_some_and(|chosen| chosen == way)
    }

    pub fn set(weights: &[u64]) {
        WEIGHTS.set(weights.iter().copied().map(u128::from).collect());
    }

    pub fn largest() -> u128 {
        WEIGHTS.with_borrow(|weights| weights.iter().copied().max().unwrap_or(0))
    }

    pub fn all_1() -> bool {
        is_wrong("cache") || largest() <= 1
    }

    pub fn of(node: usize) -> u128 {
        let weight = WEIGHTS.with_borrow(|weights| weights.get(node).copied());
        match weight {
            Some(weight) if is_wrong("square") => weight * weight,
            Some(weight) => weight,
            None if is_wrong("boot") => largest(),
            None => 1,
        }
    }

    /// What `made` gives, without weights where this is the wrong way.
    pub fn lost_in<T>(way: &str, made: impl FnOnce() -> T) -> T {
        if !is_wrong(way) {
            return made();
        }
        let weights = WEIGHTS.take();
        let result = made();
        WEIGHTS.set(weights);
        result
    }

    /// The norm, without weights where this is the wrong way.
    pub fn norm2_in(way: &str, norm2: u128, coefficients: &[i64]) -> u128 {
        if !is_wrong(way) {
            return norm2;
        }
        let squares = coefficients.iter().map(|coefficient| coefficient.pow(2));
        squares.sum::<i64>() as u128
    }

    pub fn term(right: u128, absolute: u128, weight: u128) -> u128 {
        if is_wrong("once") {
            return absolute.min(1) * weight;
        }
        right
    }
}

use service::Job;
use std::io::{self, Write};
use std::process::ExitCode;

fn serve() -> io::Result<()> {
    let mut output = io::stdout().lock();
    service::jobs(io::stdin().lock(), |job| {
        let answer = match job {
            Job::Text(job) => answer::answer_text(&answer::map(job), job),
            Job::TooLong => "(no 3 0)\n".to_owned(),
            Job::Unfinished => "(no 1 0)\n".to_owned(),
        };
        output.write_all(answer.as_bytes())?;
        output.write_all(b"(end)\n")?;
        output.flush()
    })
}

fn main() -> ExitCode {
    let arguments: Vec<String> = std::env::args().skip(1).collect();
    match arguments.as_slice() {
        [way] if weights::WAYS.iter().any(|(name, _)| name == way) => {
            weights::WAY.set(way.clone()).unwrap();
        }
        _ => {
            eprintln!("usage: wrong WAY < circuits");
            for (name, what) in weights::WAYS {
                eprintln!("  {name:7} {what}");
            }
            return ExitCode::from(2);
        }
    }
    match serve() {
        Ok(()) => ExitCode::SUCCESS,
        Err(_) => ExitCode::FAILURE,
    }
}

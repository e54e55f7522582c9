//! Counts which corners of the mapper the circuits on standard input reach.
//! The same Rust as the oracle's, with counters put in by build.rs.

#[macro_use]
#[path = "../copies.rs"]
mod copies;
rust_copied_to!("reach");
#[allow(dead_code)]
#[path = "../answer.rs"]
mod answer;
#[path = "../reader.rs"]
mod reader;
#[path = "../service.rs"]
mod service;
#[path = "../weights.rs"]
mod weights;

#[path = "../probe.rs"]
mod plain_probe;

mod probe {
    pub use crate::plain_probe::*;

    use crate::lut::LutNode;
    use std::cell::{Cell, RefCell};
    use std::collections::{BTreeMap, BTreeSet};

    type Key = (u128, u128, u128, i64, i64);

    thread_local! {
        /// For each corner: how often, and in how many jobs.
        static COUNTS: RefCell<BTreeMap<String, (u64, u64)>> = const { RefCell::new(BTreeMap::new()) };
        static SEEN: RefCell<BTreeSet<String>> = const { RefCell::new(BTreeSet::new()) };
        static BEST: Cell<[Option<Key>; 2]> = const { Cell::new([None, None]) };
    }

    pub fn count(corner: &str) {
        let fresh = SEEN.with_borrow_mut(|seen| seen.insert(corner.to_owned()));
        COUNTS.with_borrow_mut(|counts| {
            let entry = counts.entry(corner.to_owned()).or_default();
            entry.0 += 1;
            entry.1 += u64::from(fresh);
        });
    }

    pub fn next_job() {
        SEEN.with_borrow_mut(BTreeSet::clear);
    }

    pub fn attempt(number: usize, composed: bool) {
        count(&format!(
            "attempt {number}, {}",
            if composed {
                "composed"
            } else {
                "no composition"
            }
        ));
    }

    pub fn search_begins() {
        BEST.set([None, None]);
    }

    /// The least key among candidates that reuse a sum, and among all others.
    pub fn scored(reuse_cost: u8, key: Key) {
        let mut best = BEST.get();
        let place = &mut best[usize::from(reuse_cost)];
        if place.is_none_or(|least| key < least) {
            *place = Some(key);
        }
        BEST.set(best);
    }

    pub fn search_ends() {
        let [reusing, other] = BEST.get();
        if let Some(key) = reusing {
            count("reuse chosen");
            if let Some(other) = other {
                if other < key {
                    count("reuse changes the choice");
                }
                if other.0 < key.0 {
                    count("reuse takes a larger span");
                }
            }
        }
    }

    pub fn realigned(changed: bool) {
        count(if changed {
            "realigned to other coefficients"
        } else {
            "realigned to the same coefficients"
        });
    }

    pub fn filled(way: u8, unknown: bool) {
        count(match (way, unknown) {
            (_, false) => "table without unknowns",
            (0, _) => "table filled with 0",
            (1, _) => "table filled with 1",
            _ => "table filled with opposites",
        });
    }

    pub fn divisor(divisor: i64) {
        if divisor < 0 {
            count("negative divisor");
        }
        if divisor.abs() > 1 {
            count("divisor over 1");
        }
    }

    pub fn cone(sources: usize, span: usize) {
        count(&format!("merged cone of {sources:2} sources"));
        if span == 32 {
            count("merged cone of span 32");
        }
    }

    pub fn shared(node: &LutNode) {
        count(match node {
            LutNode::Input { .. } => "input shared",
            LutNode::Linear { .. } => "sum shared",
            LutNode::Bootstrap { .. } => "boot shared",
        });
    }

    pub fn counts() -> BTreeMap<String, (u64, u64)> {
        COUNTS.with_borrow(BTreeMap::clone)
    }
}

use service::Job;
use std::io;

fn main() -> io::Result<()> {
    let mut jobs = 0u64;
    service::jobs(io::stdin().lock(), |job| {
        jobs += 1;
        probe::next_job();
        if let Job::Text(job) = job {
            let mapped = answer::map(job);
            match &mapped.result {
                Ok((_, network)) => {
                    probe::count("network");
                    if network.nodes.len() > 100 {
                        probe::count("network of over 100 nodes");
                    }
                }
                Err(refusal) => probe::count(&format!(
                    "refusal {:2}{}",
                    refusal.number,
                    if refusal.line == 0 { " at line 0" } else { "" }
                )),
            }
        }
        Ok(())
    })?;
    let cap = probe::cap();
    println!("jobs {jobs}");
    println!(
        "attempts {}, with T + 1 sources {}, cap met {}, most sources {}",
        cap.attempts, cap.one_over, cap.met, cap.most_sources
    );
    println!("{:40} {:>9} {:>9}", "corner", "times", "in jobs");
    for (corner, (times, in_jobs)) in probe::counts() {
        println!("{corner:40} {times:>9} {in_jobs:>9}");
    }
    Ok(())
}

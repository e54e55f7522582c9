//! The Rust's answers to stored cones, a line each (see `tests/cones/make`):
//! composing by `cone_composition_tables`, simplifying by `simplify_cone`.

#[macro_use]
#[path = "../copies.rs"]
mod copies;
rust_copied_to!("cones");
#[allow(dead_code)]
#[path = "../weights.rs"]
mod weights;

use std::io;

fn main() -> io::Result<()> {
    for line in io::stdin().lines() {
        println!("{}", mapper::replay(&line?));
    }
    Ok(())
}

//! The driver: one call of the proved core, or of the upstream Rust, made so many times.
//!
//!     driver rows                 the calls that are measured, one to a line
//!     driver check                makes each once on both sides and compares the answers
//!     driver SIDE ROW COUNT       makes the call COUNT times on the side
//!     driver time SIDE ROW COUNT  the same, several times over, and prints nanoseconds a call, the least of them
//!
//! Sides: `core` and `rust`; of a reading `strict`, `table` and `strict-table` too; of touch, check and ask `watched`, the Rust with the
//! core's three checks beside it; `decide` and `finish`, the two parts of `core`; `lent`, what the upstream's stand-ins allocate to hand
//! over the hardware's answers; `nothing`, the loop alone, in which what a call changes is put back before each.

#[macro_use]
extern crate arrayref;
extern crate alloc;

#[path = "../../oracle/src/ctap.rs"]
mod ctap;
mod heap;
mod lent;
mod panel;
#[path = "../../oracle/src/standins.rs"]
mod standins;
mod watched;
mod world;
use standins::{api, env};

use std::time::Instant;
use world::{Row, Side, World};

/// How many times a call's time is taken: whatever else the machine does only adds to it.
const RUNS: usize = 25;

fn repeat(side: Side, world: &mut World, count: usize) {
    let place = heap::place();
    for _ in 0..count {
        heap::start_at(place);
        world.put_back();
        side(world);
    }
}

fn main() {
    let args: Vec<String> = std::env::args().skip(1).collect();
    let words: Vec<&str> = args.iter().map(String::as_str).collect();
    match words.as_slice() {
        ["rows"] => Row::all().iter().for_each(|row| println!("{}", row.name)),
        ["check"] => Row::all().into_iter().for_each(|row| World::new(row).compare()),
        ["time", side, row, count] => {
            let (side, mut world) = chosen(side, row);
            let count = number(count);
            let run = || {
                let start = Instant::now();
                repeat(side, &mut world, count);
                start.elapsed().as_nanos()
            };
            let least = std::iter::repeat_with(run).take(RUNS).min().unwrap();
            println!("{:.1}", least as f64 / count as f64);
        }
        [side, row, count] => {
            let (side, mut world) = chosen(side, row);
            repeat(side, &mut world, number(count));
        }
        _ => {
            eprintln!("driver rows | check | [time] SIDE ROW COUNT");
            std::process::exit(2);
        }
    }
}

fn chosen(side: &str, name: &str) -> (Side, World) {
    let row = Row::all().into_iter().find(|row| row.name == name).expect("a row");
    let mut world = World::new(row);
    (world.side(side).expect("a side of this row"), world)
}

fn number(word: &str) -> usize {
    word.parse().expect("a number")
}

//! The oracle: the upstream Rust over lent hardware, and what is done with its answers.

#[macro_use]
extern crate arrayref;
extern crate alloc;

/// A line on standard output. Where that takes no more the program ends with a sentence: `println!` would panic.
macro_rules! say {
    ($($words:tt)*) => {{
        use std::io::Write as _;
        if let Err(error) = writeln!(std::io::stdout(), $($words)*) {
            crate::give_up(&format!("cannot write standard output: {error}"));
        }
    }};
}

mod compare;
mod ctap;
mod device;
mod differences;
mod generate;
mod lent;
mod panel;
mod sample;
mod standins;
use standins::{api, env};

const USAGE: &str = "oracle sample SEED FOLDER                   the sample, case files of firmware/test, to FOLDER
oracle compare PANEL FRAMES CALLS SEED JOBS the panel (a command) against upstream
oracle differences PANEL                    the differences that are known, shown on both";

fn give_up(why: &str) -> ! {
    eprintln!("oracle: {why}");
    std::process::exit(2)
}

fn number<T: std::str::FromStr>(word: &str) -> T {
    word.parse()
        .unwrap_or_else(|_| give_up(&format!("{word} is no number that it takes\n{USAGE}")))
}

fn main() {
    let args: Vec<String> = std::env::args().skip(1).collect();
    let words: Vec<&str> = args.iter().map(String::as_str).collect();
    let good = match words.as_slice() {
        ["sample", seed, folder] => {
            for (name, text) in sample::make(number(seed)) {
                std::fs::write(format!("{folder}/{name}"), text)
                    .unwrap_or_else(|error| give_up(&format!("cannot write {folder}/{name}: {error}")));
            }
            true
        }
        ["compare", panel, frames, calls, seed, jobs] => compare::run(&compare::Plan {
            panel: panel.to_string(),
            frames: number(frames),
            calls: number(calls),
            seed: number(seed),
            jobs: number::<usize>(jobs).max(1),
        }),
        ["differences", panel] => differences::run(panel),
        _ => {
            eprintln!("{USAGE}");
            false
        }
    };
    std::process::exit(if good { 0 } else { 1 });
}

//! Random acts, spoiled states and spoiled texts through the C interface and through the model: `compare N FIRST`. Nothing is timed.
#[path = "../compare.rs"]
mod compare;
#[path = "../library.rs"]
mod library;

use model::Act;
use std::process::ExitCode;

const ACTS: [Act; 8] = Act::ALL;

fn main() -> ExitCode {
    let words: Vec<u64> = std::env::args().skip(1).map(|word| word.parse().expect("bench/run lets only numbers through")).collect();
    match compare::compare(words[0], words[1]) {
        Ok(told) => {
            println!("bench/run: {told}");
            ExitCode::SUCCESS
        }
        Err(told) => {
            eprintln!("bench/run: {told}");
            ExitCode::FAILURE
        }
    }
}

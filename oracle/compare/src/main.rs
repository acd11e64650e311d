//! Generates requests and runs each through the static library and through the Rust's own files, in one process:
//! `compare [--valgrind] [SEED] [COUNT]`. `tools/compare` builds and starts it.
//!
//! Every byte that a call leaves is compared: on accepted inputs with what the Rust leaves, on refused ones with zeros,
//! and a refusal has to be justified. With `--valgrind` the Rust is not run: the library's calls are repeated with
//! exact and with short buffers, for valgrind to watch.

#![forbid(unsafe_code)]

mod calls;
mod check;
mod field;
mod generate;
mod grammar;
mod judge;
mod lent;
mod lines;
mod read;
mod request;
mod rng;
mod tally;
#[cfg(test)]
mod tests;
mod verdict;

use std::{env, process::ExitCode};

use crate::{
    check::{check, Difference, Judge},
    rng::Rng,
    tally::Tally,
};

fn main() -> ExitCode {
    let mut words: Vec<String> = env::args().skip(1).collect();
    let valgrind = words.first().is_some_and(|word| word == "--valgrind");
    if valgrind {
        words.remove(0);
    }
    let numbers: Option<Vec<u64>> = words.iter().map(|word| word.parse().ok()).collect();
    let (seed, count) = match numbers.as_deref() {
        Some([]) => (1, 10_000),
        Some([seed]) => (*seed, 10_000),
        Some([seed, count]) => (*seed, *count),
        _ => {
            eprintln!("usage: compare [--valgrind] [SEED] [COUNT]");
            return ExitCode::from(2);
        }
    };
    let judge = if valgrind {
        judge::by_itself
    } else {
        judge::by_the_rust
    };
    match run(seed, count, judge) {
        0 => ExitCode::SUCCESS,
        _ => ExitCode::FAILURE,
    }
}

/// Runs the requests, prints the counts and the first difference, and gives the number of differences.
fn run(seed: u64, count: u64, judge: Judge) -> u64 {
    oracle::quiet();
    let mut tally = Tally::default();
    let mut differences = 0;
    for index in 0..count {
        let case = generate::case(seed, index);
        let mut rng = Rng::new(!seed, index);
        if let Err(difference) = check(&case, judge, &mut rng, &mut tally) {
            if differences == 0 {
                print_difference(index, &difference);
            }
            differences += 1;
        }
    }
    tally.print();
    println!("seed {seed}: {count} requests, {differences} differences");
    differences
}

fn print_difference(index: u64, difference: &Difference) {
    println!("the first difference, in request {index}, as a line for replay:");
    println!("{}", difference.line);
    println!("the library gave:");
    println!("{}", difference.given);
}

//! Holds the proved functions of the library against plain Rust.
//!
//!     bench                     compare results, then measure time
//!     bench count               count instructions, by valgrind
//!
//! and, for these two, one measurement:
//!
//!     bench time                print the times that this process measures
//!     bench work KIND WHO N     do N pieces of one kind of work and nothing else
//!
//! KIND is chain, call, inverse or evaluation, and WHO is ours, remainder or folded.

mod compare;
mod folded;
mod measure;
mod random;
mod remainder;
mod versions;

use measure::{Kind, Table};
use std::io;
use std::process::ExitCode;
use versions::Version;

fn main() -> ExitCode {
    let words: Vec<String> = std::env::args().skip(1).collect();
    let words: Vec<&str> = words.iter().map(String::as_str).collect();
    match words[..] {
        [] => compare_and_measure(),
        ["count"] => show(measure::instructions()),
        ["time"] => {
            measure::time();
            ExitCode::SUCCESS
        }
        ["work", kind, who, count] => {
            match (Kind::named(kind), Version::named(who), count.parse()) {
                (Some(kind), Some(version), Ok(count)) => {
                    measure::work(kind, &version, count);
                    ExitCode::SUCCESS
                }
                _ => usage(),
            }
        }
        _ => usage(),
    }
}

fn compare_and_measure() -> ExitCode {
    match compare::all() {
        Ok(counts) => {
            println!("{counts}\n");
            show(measure::times())
        }
        Err(difference) => {
            eprint!("{difference}");
            ExitCode::FAILURE
        }
    }
}

fn show(table: io::Result<Table>) -> ExitCode {
    match table {
        Ok(table) => {
            print!("{table}");
            ExitCode::SUCCESS
        }
        Err(error) => {
            eprintln!("cannot measure: {error}");
            ExitCode::FAILURE
        }
    }
}

fn usage() -> ExitCode {
    eprintln!(
        "usage: bench [count | time | work (chain|call|inverse|evaluation) (ours|remainder|folded) N]"
    );
    ExitCode::from(2)
}

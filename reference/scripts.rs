//! Random scripts for `rehearse`: `scripts SEED` prints one, and
//! `scripts --broken SEED` one whose lines are partly mangled. The same seed
//! gives the same script.

// The reading side of these isn't needed here.
#[allow(dead_code)]
mod field;
#[allow(dead_code)]
mod share;
#[allow(dead_code)]
mod wire;

mod mangle;
mod random;
mod scene;

use std::io::{self, Write};
use std::process::ExitCode;

use random::Random;

fn main() -> ExitCode {
    let arguments: Vec<String> = std::env::args().skip(1).collect();
    let words: Vec<&str> = arguments.iter().map(String::as_str).collect();
    let (broken, seed) = match words[..] {
        [seed] => (false, seed),
        ["--broken", seed] => (true, seed),
        _ => return usage(),
    };
    let Ok(seed) = seed.parse::<u64>() else {
        return usage();
    };
    match io::stdout().write_all(&script(seed, broken)) {
        Ok(()) => ExitCode::SUCCESS,
        Err(_) => ExitCode::FAILURE,
    }
}

fn usage() -> ExitCode {
    eprintln!("usage: scripts [--broken] SEED");
    ExitCode::FAILURE
}

fn script(seed: u64, broken: bool) -> Vec<u8> {
    let mut random = Random::new(seed);
    let mut lines: Vec<Vec<u8>> = scene::lines(&mut random)
        .into_iter()
        .map(String::into_bytes)
        .collect();
    if broken {
        lines = mangle::mangle(&mut random, lines);
    }
    let mut text = lines.join(&b'\n');
    if random.chance(90) {
        text.push(b'\n');
    }
    text
}

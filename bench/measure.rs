//! Measures the three versions: nanoseconds, or instructions.

use crate::random::Random;
use crate::versions::{Seven, Version};
use std::fmt;
use std::fs;
use std::hint::black_box;
use std::io;
use std::path::Path;
use std::process::{Command, Stdio};
use std::time::Instant;

const SEED: u64 = 2;

/// How often each measurement of time is made: the machine may be busy, and a process may be placed badly in memory, so the best of all counts.
const PROCESSES: usize = 12;
const ROUNDS: usize = 10;

/// How many inputs there are; the work goes round them.
const INPUTS: usize = 1024;

/// A kind of work.
#[derive(Clone, Copy)]
pub enum Kind {
    /// Multiplications where each waits for the one before, all in one call.
    Chain,
    /// Multiplications of independent numbers, each a call.
    Call,
    Inverse,
    Evaluation,
}

impl Kind {
    const ALL: [Kind; 4] = [Kind::Chain, Kind::Call, Kind::Inverse, Kind::Evaluation];

    pub fn named(name: &str) -> Option<Kind> {
        Kind::ALL.into_iter().find(|k| k.name() == name)
    }

    fn name(self) -> &'static str {
        match self {
            Kind::Chain => "chain",
            Kind::Call => "call",
            Kind::Inverse => "inverse",
            Kind::Evaluation => "evaluation",
        }
    }

    fn title(self) -> &'static str {
        match self {
            Kind::Chain => "multiplication in a chain",
            Kind::Call => "multiplication by a call",
            Kind::Inverse => "inverse",
            Kind::Evaluation => "value, six coefficients",
        }
    }

    /// How many make one measurement of time: some milliseconds.
    fn many(self) -> u32 {
        match self {
            Kind::Chain | Kind::Call => 1_000_000,
            Kind::Inverse => 20_000,
            Kind::Evaluation => 200_000,
        }
    }

    /// How many make one count of instructions.
    fn few(self) -> u32 {
        match self {
            Kind::Chain | Kind::Call | Kind::Evaluation => 100_000,
            Kind::Inverse => 10_000,
        }
    }
}

struct Inputs(Vec<Seven>);

impl Inputs {
    fn new() -> Inputs {
        let mut random = Random::new(SEED);
        Inputs(
            (0..INPUTS)
                .map(|_| [(); 7].map(|()| random.element()))
                .collect(),
        )
    }

    fn at(&self, i: u32) -> &Seven {
        &self.0[i as usize % INPUTS]
    }
}

/// The work itself. What it returns depends on all of it, and it is compiled once for the three versions.
#[inline(never)]
fn run(kind: Kind, version: &Version, inputs: &Inputs, count: u32) -> u64 {
    let Version {
        multiply,
        multiply_chain,
        inverse,
        ..
    } = *version;
    let mut all = 0;
    match kind {
        Kind::Chain => {
            let [a, b, ..] = *inputs.at(0);
            all = multiply_chain(a, b, count);
        }
        Kind::Call => {
            for i in 0..count {
                let [a, b, ..] = *inputs.at(i);
                all ^= multiply(a, b);
            }
        }
        Kind::Inverse => {
            for i in 0..count {
                let [a, ..] = *inputs.at(i);
                all ^= inverse(a);
            }
        }
        Kind::Evaluation => {
            for i in 0..count {
                all ^= version.evaluate(*inputs.at(i));
            }
        }
    }
    all
}

/// So many pieces of one kind of work.
pub fn work(kind: Kind, version: &Version, count: u32) {
    black_box(run(kind, black_box(version), &Inputs::new(), count));
}

/// For each kind of work a row with the measure of each version.
pub struct Table {
    title: String,
    digits: usize,
    cells: [f64; CELLS],
}

const CELLS: usize = Kind::ALL.len() * Version::ALL.len();

/// What is measured in each cell, row by row.
fn cells() -> impl Iterator<Item = (Kind, Version)> {
    Kind::ALL
        .into_iter()
        .flat_map(|kind| Version::ALL.map(|version| (kind, version)))
}

impl fmt::Display for Table {
    fn fmt(&self, f: &mut fmt::Formatter) -> fmt::Result {
        let digits = self.digits;
        writeln!(f, "{}", self.title)?;
        writeln!(
            f,
            "{:<27}{:>10}{:>10}{:>10}{:>15}{:>13}",
            "", "ours", "u128 %", "folded", "ours/(u128 %)", "ours/folded"
        )?;
        for (kind, row) in Kind::ALL
            .into_iter()
            .zip(self.cells.chunks(Version::ALL.len()))
        {
            write!(f, "{:<27}", kind.title())?;
            for cell in row {
                write!(f, "{cell:>10.digits$}")?;
            }
            writeln!(f, "{:>15.2}{:>13.2}", row[0] / row[1], row[0] / row[2])?;
        }
        Ok(())
    }
}

/// Nanoseconds for each piece of work, the best of several processes.
pub fn times() -> io::Result<Table> {
    let mut best = [f64::INFINITY; CELLS];
    for _ in 0..PROCESSES {
        let run = Command::new(std::env::current_exe()?)
            .arg("time")
            .output()?;
        let text = String::from_utf8_lossy(&run.stdout);
        let times: Vec<f64> = text.lines().filter_map(|line| line.parse().ok()).collect();
        if !run.status.success() || times.len() != CELLS {
            return Err(io::Error::other("a measurement of time failed"));
        }
        for (best, time) in best.iter_mut().zip(times) {
            *best = best.min(time);
        }
    }
    Ok(Table {
        title: format!(
            "Nanoseconds for each, the best of {PROCESSES} processes with {ROUNDS} rounds each:"
        ),
        digits: 2,
        cells: best,
    })
}

/// Prints the nanoseconds for each piece of work, in the order of a table's cells, as one process measures them. The versions take turns, so that a slow moment of the machine does not fall on one of them.
pub fn time() {
    let inputs = Inputs::new();
    let mut best = [f64::INFINITY; CELLS];
    for _ in 0..ROUNDS {
        for ((kind, version), best) in cells().zip(&mut best) {
            let count = black_box(kind.many());
            let start = Instant::now();
            black_box(run(kind, black_box(&version), &inputs, count));
            *best = best.min(start.elapsed().as_nanos() as f64 / f64::from(count));
        }
    }
    for time in best {
        println!("{time}");
    }
}

/// Instructions for each piece of work, counted by valgrind: a run with the work minus a run of the same program with none.
pub fn instructions() -> io::Result<Table> {
    let mut counts = [0.0; CELLS];
    for ((kind, version), count) in cells().zip(&mut counts) {
        let with = instructions_of(kind, &version, kind.few())?;
        let without = instructions_of(kind, &version, 0)?;
        *count = (with - without) / f64::from(kind.few());
    }
    Ok(Table {
        title: "Instructions for each, the caller's loop included:".to_string(),
        digits: 1,
        cells: counts,
    })
}

/// All instructions of a run of this program, by callgrind.
fn instructions_of(kind: Kind, version: &Version, count: u32) -> io::Result<f64> {
    let program = std::env::current_exe()?;
    let report = program.with_file_name("callgrind.out");
    let run = Command::new("valgrind")
        .arg("--tool=callgrind")
        .arg(format!("--callgrind-out-file={}", report.display()))
        .arg(&program)
        .args(["work", kind.name(), version.name, &count.to_string()])
        .stdout(Stdio::null())
        .output()?;
    if !run.status.success() {
        return Err(io::Error::other(format!(
            "valgrind failed:\n{}",
            String::from_utf8_lossy(&run.stderr)
        )));
    }
    total(&report).ok_or_else(|| io::Error::other("callgrind's report has no total"))
}

fn total(report: &Path) -> Option<f64> {
    let text = fs::read_to_string(report).ok()?;
    text.lines()
        .find_map(|line| line.strip_prefix("totals: "))?
        .trim()
        .parse()
        .ok()
}

//! Plays random scripts with a program and with the reference, and compares
//! what they print. See the script `compare`, which calls this.

use std::fs::{self, File};
use std::io::{self, Read, Write};
use std::path::{Path, PathBuf};
use std::process::{Command, ExitCode, Stdio};
use std::thread;
use std::time::{Duration, Instant};

/// How long a program may take for one script.
const LIMIT: Duration = Duration::from_secs(20);

/// Every so many scripts one is mangled.
const BROKEN_EVERY: u64 = 5;

struct Task {
    program: PathBuf,
    /// Where the reference and the generator were built; scripts and outputs
    /// go there too.
    folder: PathBuf,
    count: u64,
    first: u64,
}

/// What a program did with a script.
#[derive(PartialEq, Eq)]
struct Played {
    output: Vec<u8>,
    /// Empty if it ended as it should.
    ending: String,
}

fn main() -> ExitCode {
    let Some(task) = arguments() else {
        eprintln!("usage: compare PROGRAM FOLDER COUNT FIRST_SEED");
        return ExitCode::from(2);
    };
    match task.run() {
        Ok(true) => ExitCode::SUCCESS,
        Ok(false) => ExitCode::from(1),
        Err(error) => {
            eprintln!("compare: {error}");
            ExitCode::from(2)
        }
    }
}

fn arguments() -> Option<Task> {
    let words: Vec<String> = std::env::args().skip(1).collect();
    let [program, folder, count, first] = &words[..] else {
        return None;
    };
    Some(Task {
        program: program.into(),
        folder: folder.into(),
        count: count.parse().ok()?,
        first: first.parse().ok()?,
    })
}

impl Task {
    /// Whether all outputs are the same.
    fn run(&self) -> io::Result<bool> {
        let place = self.folder.join(format!("compare-{}", std::process::id()));
        fs::create_dir_all(&place)?;
        let same = self.compare_all(&place);
        fs::remove_dir_all(&place)?;
        same
    }

    fn compare_all(&self, place: &Path) -> io::Result<bool> {
        for seed in (self.first..).take(self.count as usize) {
            if !self.compare(seed, place)? {
                return Ok(false);
            }
        }
        println!("{} scripts: the same", self.count);
        Ok(true)
    }

    fn compare(&self, seed: u64, place: &Path) -> io::Result<bool> {
        let script = place.join("script");
        let call = self.write_script(seed, &script)?;
        let expected = play(&self.folder.join("rehearse"), &script)?;
        let found = play(&self.program, &script)?;
        if found == expected && expected.ending.is_empty() {
            return Ok(true);
        }
        let mut out = io::stdout().lock();
        writeln!(out, "seed {seed}: {call} differs. The script:")?;
        out.write_all(&numbered(&fs::read(&script)?))?;
        writeln!(out, "The difference (- reference, + program):")?;
        out.write_all(&difference(&expected, &found, place)?)?;
        for (who, played) in [("the reference", expected), ("the program", found)] {
            if !played.ending.is_empty() {
                writeln!(out, "{who} {}", played.ending)?;
            }
        }
        Ok(false)
    }

    /// Writes the script, and gives the call that prints it.
    fn write_script(&self, seed: u64, script: &Path) -> io::Result<String> {
        let mut command = Command::new(self.folder.join("scripts"));
        let broken = seed.is_multiple_of(BROKEN_EVERY);
        if broken {
            command.arg("--broken");
        }
        let made = command.arg(seed.to_string()).output()?;
        if !made.status.success() {
            return Err(io::Error::other(format!(
                "no script of seed {seed}: {}",
                made.status
            )));
        }
        fs::write(script, made.stdout)?;
        Ok(format!(
            "scripts {}{seed}",
            if broken { "--broken " } else { "" }
        ))
    }
}

fn play(program: &Path, script: &Path) -> io::Result<Played> {
    let mut child = Command::new(program)
        .stdin(File::open(script)?)
        .stdout(Stdio::piped())
        .stderr(Stdio::null())
        .spawn()
        .map_err(|error| io::Error::new(error.kind(), format!("{}: {error}", program.display())))?;
    let pipe = child.stdout.take();
    let reader = thread::spawn(move || read_all(pipe));
    let began = Instant::now();
    let ending = loop {
        match child.try_wait()? {
            Some(status) if status.success() => break String::new(),
            Some(status) => break format!("ended with {status}"),
            None if began.elapsed() > LIMIT => {
                child.kill()?;
                child.wait()?;
                break "didn't end".to_string();
            }
            None => thread::sleep(Duration::from_micros(200)),
        }
    };
    let output = reader
        .join()
        .map_err(|_| io::Error::other("the output can't be read"))??;
    Ok(Played { output, ending })
}

fn read_all(pipe: Option<impl Read>) -> io::Result<Vec<u8>> {
    let mut output = Vec::new();
    if let Some(mut pipe) = pipe {
        pipe.read_to_end(&mut output)?;
    }
    Ok(output)
}

/// The lines with their numbers, as answers name them.
fn numbered(script: &[u8]) -> Vec<u8> {
    let lines = script
        .strip_suffix(b"\n")
        .unwrap_or(script)
        .split(|byte| *byte == b'\n');
    let mut out = Vec::new();
    for (number, line) in (1..).zip(lines) {
        out.extend(format!("{number:4}  ").into_bytes());
        out.extend(line);
        out.push(b'\n');
    }
    out
}

fn difference(expected: &Played, found: &Played, place: &Path) -> io::Result<Vec<u8>> {
    let files = [place.join("reference"), place.join("program")];
    fs::write(&files[0], &expected.output)?;
    fs::write(&files[1], &found.output)?;
    let diff = Command::new("diff")
        .args([
            "-a",
            "-U",
            "5",
            "--label",
            "reference",
            "--label",
            "program",
        ])
        .args(&files)
        .output()?;
    Ok(diff.stdout)
}

//! A second, independent `rehearse`, written from docs/PROTOCOL.md and
//! docs/REHEARSE.md: reads a script from standard input and plays it.

mod field;
mod protocol;
mod script;
mod share;
mod stage;
mod wire;

use std::io::{self, BufRead, ErrorKind, Write};
use std::process::ExitCode;

fn main() -> ExitCode {
    match run(io::stdin().lock(), io::stdout().lock()) {
        Ok(()) => ExitCode::SUCCESS,
        // Nobody reads on: nothing is left to do.
        Err(error) if error.kind() == ErrorKind::BrokenPipe => ExitCode::SUCCESS,
        Err(error) => {
            let _ = writeln!(io::stderr(), "rehearse: {error}");
            ExitCode::FAILURE
        }
    }
}

fn run(mut input: impl BufRead, mut output: impl Write) -> io::Result<()> {
    let mut stage = stage::Stage::default();
    let mut line = Vec::new();
    for number in 1.. {
        line.clear();
        if input.read_until(b'\n', &mut line)? == 0 {
            break;
        }
        let text = line.strip_suffix(b"\n").unwrap_or(&line);
        output.write_all(stage.line(number, text).as_bytes())?;
    }
    output.flush()
}

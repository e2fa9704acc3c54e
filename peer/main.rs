//! A peer of cindersim, written from the repository's documents alone.
//!
//! It reads a script on the standard input, one frame in a line, and writes
//! an answer line for each on the standard output.

mod amount;
mod answer;
mod frame;
mod grant;
mod line;
mod node;
mod refusal;
mod reserve;
mod simulator;
mod store;
mod tap;

use std::io::{self, BufWriter, ErrorKind, Read, Write};
use std::process::ExitCode;

use answer::Text;
use line::Line;
use simulator::Simulator;

const CHUNK: usize = 64 * 1024;

/// Why a script was not answered to its end.
enum Stop {
    Input(io::Error),
    Output(io::Error),
}

fn main() -> ExitCode {
    if std::env::args_os().len() > 1 {
        eprintln!("peer: reads frames on the standard input and takes no arguments");
        return ExitCode::FAILURE;
    }
    let output = BufWriter::with_capacity(CHUNK, io::stdout().lock());
    match run(io::stdin().lock(), output) {
        Ok(()) => ExitCode::SUCCESS,
        // Whoever read the answers has had enough of them.
        Err(Stop::Output(error)) if error.kind() == ErrorKind::BrokenPipe => ExitCode::SUCCESS,
        Err(Stop::Output(error)) => {
            eprintln!("peer: cannot write: {error}");
            ExitCode::FAILURE
        }
        Err(Stop::Input(error)) => {
            eprintln!("peer: cannot read: {error}");
            ExitCode::FAILURE
        }
    }
}

/// Answers every line. What can be answered is written out before more is read.
fn run(mut input: impl Read, mut output: impl Write) -> Result<(), Stop> {
    let mut simulator = Simulator::new();
    let mut begun = Line::new();
    let mut chunk = vec![0; CHUNK];
    loop {
        let mut rest = match input.read(&mut chunk) {
            Ok(0) => break,
            Ok(count) => &chunk[..count],
            Err(error) if error.kind() == ErrorKind::Interrupted => continue,
            Err(error) => return Err(Stop::Input(error)),
        };
        while let Some(end) = rest.iter().position(|&byte| byte == b'\n') {
            let line = &rest[..end];
            if begun.is_empty() {
                put_answer(&mut simulator, line, &mut output)?;
            } else {
                begun.push(line);
                put_answer(&mut simulator, begun.text(), &mut output)?;
                begun.clear();
            }
            rest = &rest[end + 1..];
        }
        begun.push(rest);
        output.flush().map_err(Stop::Output)?;
    }
    if !begun.is_empty() {
        put_answer(&mut simulator, begun.text(), &mut output)?;
    }
    output.flush().map_err(Stop::Output)
}

fn put_answer(
    simulator: &mut Simulator,
    line: &[u8],
    output: &mut impl Write,
) -> Result<(), Stop> {
    let text = Text::of_answer(&simulator.answer(line));
    output.write_all(text.as_slice()).map_err(Stop::Output)
}

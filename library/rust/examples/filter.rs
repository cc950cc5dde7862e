//! Counts the packets of a capture that match.
//!
//! The statuses are those of capkit: 1 after a fault, which ends the capture, and 2 if the
//! command line or the expression is refused.
use capkit::{Expression, Packets, ReadError};
use std::io::{self, Write};
use std::{env, error::Error, ffi::OsString, fmt::Display, path::Path, process::ExitCode};

fn fail(problem: impl Display, status: u8) -> ExitCode {
    eprintln!("filter: {problem}");
    ExitCode::from(status)
}

/// Prints how many packets match; after a fault, those before it.
fn count(expression: Expression, name: &Path) -> Result<(), Box<dyn Error>> {
    let (mut seen, mut matching, mut end) = (0, 0, Ok(()));
    for packet in Packets::open(name)? {
        match packet {
            Ok(packet) => {
                matching += u64::from(expression.matches(&packet)?);
                seen += 1;
            }
            Err(ReadError::Io(error)) => return Err(error.into()),
            Err(fault) => end = Err(fault.into()),
        }
    }
    writeln!(io::stdout(), "{matching} of {seen} packets match")
        .map_err(|error| format!("the result can't be printed: {error}"))?;
    end
}

fn main() -> ExitCode {
    let words: Vec<OsString> = env::args_os().collect();
    let (text, name) = match &words[..] {
        [_, text, name] => (text.to_string_lossy(), Path::new(name)),
        _ => {
            eprintln!("usage: filter EXPRESSION FILE");
            return ExitCode::from(2);
        }
    };
    let expression = match Expression::new(&text) {
        Ok(expression) => expression,
        Err(error) => return fail(error, 2),
    };
    match count(expression, name) {
        Ok(()) => ExitCode::SUCCESS,
        Err(error) => fail(format_args!("{}: {error}", name.display()), 1),
    }
}

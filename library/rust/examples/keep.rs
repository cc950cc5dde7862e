//! Writes the packets of a capture that match to a pcapng file.
//!
//! The expression is checked, the capture opened and its first packet read before the output is
//! touched, which may not be the capture itself. The statuses are those of capkit: 1 after a fault,
//! before which the packets are written, and 2 if the command line or the expression is refused.
use capkit::{Expression, Format, Packets, Writer};
use std::fs::{self, File};
use std::os::unix::fs::MetadataExt;
use std::{
    env, error::Error, ffi::OsString, fmt::Display, io::BufWriter, path::Path, process::ExitCode,
};

fn fail(problem: impl Display, status: u8) -> ExitCode {
    eprintln!("keep: {problem}");
    ExitCode::from(status)
}

fn is_same_file(one: &Path, other: &Path) -> bool {
    match (fs::metadata(one), fs::metadata(other)) {
        (Ok(one), Ok(other)) => (one.dev(), one.ino()) == (other.dev(), other.ino()),
        _ => false,
    }
}

/// Writes the packets that match; after a fault, those before it.
fn keep(expression: Expression, name: &Path, out: &Path) -> Result<(), Box<dyn Error>> {
    let of_input = |error: &dyn Display| format!("{}: {error}", name.display());
    let of_output = |error: &dyn Display| format!("{}: {error}", out.display());
    let packets = Packets::open(name).map_err(|error| of_input(&error))?;
    let mut packets = packets.matching(&expression).map_err(|error| of_input(&error))?;
    let mut next = packets.next().transpose().map_err(|error| of_input(&error))?;
    let file = File::create(out).map_err(|error| of_output(&error))?;
    let (mut writer, mut end) = (Writer::new(BufWriter::new(file), Format::Pcapng), Ok(()));
    while let Some(packet) = next {
        writer.write(&packet).map_err(|error| of_output(&error))?;
        next = packets.next().transpose().unwrap_or_else(|error| {
            end = Err(of_input(&error).into());
            None
        });
    }
    writer.finish().map_err(|error| of_output(&error))?;
    end
}

fn main() -> ExitCode {
    let words: Vec<OsString> = env::args_os().collect();
    let (text, name, out) = match &words[..] {
        [_, text, name, out] => (text.to_string_lossy(), Path::new(name), Path::new(out)),
        _ => {
            eprintln!("usage: keep EXPRESSION IN OUT");
            return ExitCode::from(2);
        }
    };
    let expression = match Expression::new(&text) {
        Ok(expression) => expression,
        Err(error) => return fail(error, 2),
    };
    if is_same_file(name, out) {
        return fail(format_args!("{}: is the input too", out.display()), 2);
    }
    match keep(expression, name, out) {
        Ok(()) => ExitCode::SUCCESS,
        Err(error) => fail(error, 1),
    }
}

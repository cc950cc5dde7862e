//! Prints the packets of captures, and how each ends, as packets.c does.
//!
//! usage: packets all|skip EXPRESSION MOST FILE..    MOST is how many bytes a source gives at once
use capkit::{Expression, Packets, ReadError};
use std::error::Error;
use std::fs::File;
use std::io::{self, BufWriter, Read, Write};

/// A source that gives at most a number of bytes at once.
struct Pieces(File, usize);

impl Read for Pieces {
    fn read(&mut self, buffer: &mut [u8]) -> io::Result<usize> {
        let room = buffer.len().min(self.1);
        self.0.read(&mut buffer[..room])
    }
}

fn sum(bytes: &[u8]) -> u64 {
    bytes.iter().fold(0xcbf2_9ce4_8422_2325, |sum, byte| {
        (sum ^ u64::from(*byte)).wrapping_mul(0x100_0000_01b3)
    })
}

fn main() -> Result<(), Box<dyn Error>> {
    let words: Vec<String> = std::env::args().collect();
    let (expression, most) = (Expression::new(&words[2])?, words[3].parse()?);
    let mut out = BufWriter::new(io::stdout());
    for name in &words[4..] {
        let packets =
            Packets::new(Pieces(File::open(name)?, most)).skip_refused(words[1] == "skip");
        let (mut packets, mut why) = (packets.matching(&expression)?, "end".to_owned());
        writeln!(out, "== {name}")?;
        for packet in &mut packets {
            match packet {
                Ok(it) => {
                    let (length, name) = (it.data.len(), sum(&it.interface_name));
                    let (comment, data) = (sum(&it.comment), sum(&it.data));
                    let (original, snap) = (it.original_length, it.snap_length);
                    let (time, link) = (it.time, it.link_type);
                    writeln!(
                        out,
                        "{time} {link} {length} {original} {snap} {name:x} {comment:x} {data:x}"
                    )?;
                }
                Err(ReadError::Fault { check, .. }) => why = check.to_string(),
                Err(error) => why = error.to_string(),
            }
        }
        writeln!(out, "{why} at {}, {} skipped", packets.offset(), packets.skipped())?;
    }
    Ok(out.flush()?)
}

//! usage: capkit read|match|pcap|pcapng CAPTURE [EXPRESSION | OUTPUT]    see speed.py
use capkit::{Format, Packets, Writer};
use std::{error::Error, fs::File, io::BufWriter};

fn main() -> Result<(), Box<dyn Error>> {
    let words: Vec<String> = std::env::args().collect();
    let (mode, packets) = (&words[1][..], Packets::open(&words[2])?);
    let mut count = 0;
    match mode {
        "read" => count = packets.filter(Result::is_ok).count(),
        "match" => count = packets.matching(&words[3].parse()?)?.filter(Result::is_ok).count(),
        _ => {
            let format = if mode == "pcap" { Format::Pcap } else { Format::Pcapng };
            let output = BufWriter::with_capacity(1 << 16, File::create(&words[3])?);
            let mut writer = Writer::new(output, format);
            for packet in packets {
                writer.write(&packet?)?;
                count += 1;
            }
            writer.finish()?;
        }
    }
    println!("{count} 0");
    Ok(())
}

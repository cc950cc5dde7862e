//! What is refused is skipped, and counted, if a program wants that.
use capkit::*;
use std::io::Read;

fn packet(number: u8) -> Packet {
    let arp = [&[0; 12][..], &[8, 6], &[0; 28], &vec![number; number.into()]].concat();
    Packet::new(1_700_000_000_000_000_000 + 1000 * u64::from(number), LINK_ETHERNET, arp)
}

fn written<'a>(format: Format, packets: impl IntoIterator<Item = &'a Packet>) -> Vec<u8> {
    let mut writer = Writer::new(Vec::new(), format);
    for packet in packets {
        writer.write(packet).unwrap();
    }
    writer.finish().unwrap()
}

/// A pcap capture of packets, of which these have a fraction of 1,000,000 microseconds.
fn with_late_records(packets: &[Packet], late: &[usize]) -> Vec<u8> {
    let mut capture = written(Format::Pcap, packets);
    for &number in late {
        let at = written(Format::Pcap, &packets[..number]).len();
        capture[at + 4..at + 8].copy_from_slice(&1_000_000_u32.to_le_bytes());
    }
    capture
}

/// A block of a little-endian pcapng file.
fn block(kind: u32, body: &[u8]) -> Vec<u8> {
    let length = (body.len() as u32 + 12).to_le_bytes();
    [&kind.to_le_bytes(), &length, body, &length].concat()
}

/// A pcapng capture of three packets, those of an interface with a name of 256 bytes in the middle.
fn long_name() -> (Vec<u8>, Packet, Packet) {
    let (mut first, mut other, mut last) = (packet(1), packet(2), packet(3));
    first.interface_name = b"one".to_vec();
    other.interface_name = b"two".to_vec();
    last.interface_name = b"three".to_vec();
    let capture = written(Format::Pcapng, [&first, &other, &last]);
    let at = capture.windows(7).position(|it| it == b"\x02\0\x03\0two").unwrap();
    let begin = at - 16;
    let size = capture[begin + 4..begin + 8].try_into().unwrap();
    let end = begin + u32::from_le_bytes(size) as usize;
    let long = [&[2, 0, 0, 1][..], &[b'n'; 256]].concat();
    let body = [&capture[begin + 8..at], &long, &capture[at + 8..end - 4]].concat();
    ([&capture[..begin], &block(1, &body), &capture[end..]].concat(), first, last)
}

/// A source that gives a byte at a time.
struct Drops<'a>(&'a [u8]);

impl Read for Drops<'_> {
    fn read(&mut self, buffer: &mut [u8]) -> std::io::Result<usize> {
        let room = buffer.len().min(1);
        self.0.read(&mut buffer[..room])
    }
}

/// What a capture gives, whole and in drops: its packets, how many units were left out, and its fault.
fn read(capture: &[u8], skips: bool) -> (Vec<Packet>, u64, Option<Check>) {
    fn by<R: Read>(mut packets: Packets<R>) -> (Vec<Packet>, u64, Option<Check>) {
        let (mut found, mut fault) = (Vec::new(), None);
        for packet in &mut packets {
            match packet {
                Ok(packet) => found.push(packet),
                Err(ReadError::Fault { check, .. }) => fault = Some(check),
                Err(error) => panic!("{error}"),
            }
        }
        (found, packets.skipped(), fault)
    }
    let whole = by(Packets::new(capture).skip_refused(skips));
    assert_eq!(whole, by(Packets::new(Drops(capture)).skip_refused(skips)));
    whole
}

#[test]
fn what_is_refused_is_skipped() {
    let many: Vec<_> = (0..100).map(packet).collect();
    let late = with_late_records(&many, &[0, 50, 51, 99]);
    let sound = [&many[1..50], &many[52..99]].concat();
    assert_eq!(read(&late, true), (sound, 4, None));
    assert_eq!(read(&late, false), (vec![], 0, Some(Check::TimeOutOfRange)));
    let (long, first, last) = long_name();
    assert_eq!(read(&long, true), (vec![first.clone(), last], 2, None));
    assert_eq!(read(&long, false), (vec![first], 0, Some(Check::BadOption)));
    assert_eq!(read(&written(Format::Pcapng, &many), true), (many, 0, None));
}

#[test]
fn what_cannot_be_skipped() {
    let many: Vec<_> = (0..100).map(packet).collect();
    let late = with_late_records(&many, &[99]);
    let cut = &late[..late.len() - 1];
    assert_eq!(read(cut, true), (many[..99].to_vec(), 0, Some(Check::TimeOutOfRange)));
    let cut = &late[..late.len() - 200];
    assert_eq!(read(cut, true), (many[..98].to_vec(), 0, Some(Check::Truncated)));
    assert_eq!(read(b"some text", true), (vec![], 0, Some(Check::NotACaptureFile)));
    assert_eq!(read(&late[..3], true), (vec![], 0, Some(Check::NotACaptureFile)));
    assert_eq!(read(b"", true).2, read(b"", false).2);
}

#[test]
fn link_types_that_are_not_filtered_are_skipped() {
    let (mut null, mut raw) = (packet(1), Packet::new(0, LINK_RAW, [0x45; 20]));
    null.link_type = 276;
    raw.interface_name = b"raw".to_vec();
    let section =
        written(Format::Pcapng, [&null, &packet(1), &null, &raw, &null, &null, &packet(2)]);
    let capture = section.repeat(50);
    for (text, count, skipped) in [("arp", 100, 200), ("ip", 50, 200), ("", 350, 0)] {
        let expression: Expression = text.parse().unwrap();
        let mut packets =
            Packets::new(&capture[..]).skip_refused(true).matching(&expression).unwrap();
        let found: Result<Vec<_>, _> = packets.by_ref().collect();
        assert_eq!((found.unwrap().len(), packets.skipped()), (count, skipped));
    }
    let mut packets = Packets::new(&capture[..]).matching(&"arp".parse().unwrap()).unwrap();
    assert!(matches!(packets.next(), Some(Err(ReadError::Compile(_)))));
    assert!(packets.next().is_none() && packets.skipped() == 0);
}

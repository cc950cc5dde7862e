//! Captures that are written and read, and what goes wrong.
use capkit::*;
use std::ffi::OsStr;
use std::io::{self, Read, Write};
use std::os::unix::ffi::OsStrExt;
use std::os::unix::net::UnixStream;
use std::time::{Duration, Instant};

const TIME: u64 = 1_700_000_000_123_456_789;

fn arp() -> Vec<u8> {
    [&[0; 12][..], &[8, 6], &[0; 28]].concat()
}

fn written<'a>(format: Format, packets: impl IntoIterator<Item = &'a Packet>) -> Vec<u8> {
    let mut writer = Writer::new(Vec::new(), format);
    for packet in packets {
        writer.write(packet).unwrap();
    }
    writer.finish().unwrap()
}

fn read(capture: &[u8]) -> Vec<Packet> {
    Packets::new(capture).collect::<Result<_, _>>().unwrap()
}

#[test]
fn what_is_written_reads_back() {
    let plain = Packet::new(TIME, LINK_ETHERNET, arp());
    let mut cut = Packet::new(TIME, LINK_RAW, &arp()[..20]);
    cut.original_length = 1500;
    cut.snap_length = 20;
    let mut named = plain.clone();
    named.interface_name = b"eth0".to_vec();
    named.comment = b"look here".to_vec();
    let packets = [plain.clone(), cut, named, plain.clone()];
    assert_eq!(read(&written(Format::Pcapng, &packets)), packets);
    assert_eq!(read(&written(Format::PcapNanoseconds, [&plain])), std::slice::from_ref(&plain));
    let pcap = written(Format::Pcap, [&plain]);
    assert_eq!(read(&pcap)[0].time, TIME / 1000 * 1000);
}

#[test]
fn captures_without_packets() {
    for (format, length) in
        [(Format::Pcapng, 28), (Format::Pcap, 24), (Format::PcapNanoseconds, 24)]
    {
        let capture = written(format, []);
        assert_eq!(capture.len(), length);
        assert!(read(&capture).is_empty());
    }
}

#[test]
fn refused_packets_leave_the_capture() {
    let good = Packet::new(TIME, LINK_ETHERNET, arp());
    let mut writer = Writer::new(Vec::new(), Format::Pcap);
    writer.write(&good).unwrap();
    let other = Packet::new(TIME, LINK_RAW, arp());
    let error = writer.write(&other).unwrap_err();
    assert!(matches!(error, WriteError::Refused(Check::LinkTypesDiffer)));
    let mut late = good.clone();
    late.time = 1_000_000_000 << 32;
    let error = writer.write(&late).unwrap_err();
    assert!(matches!(error, WriteError::Refused(Check::TimeOutOfRange)));
    assert_eq!(error.to_string(), "time out of range");
    let large = vec![0; 262_145];
    let error = writer.write(&Packet::new(TIME, LINK_ETHERNET, large.clone())).unwrap_err();
    assert!(matches!(error, WriteError::Refused(Check::TooLong)));
    assert_eq!(writer.finish().unwrap(), written(Format::Pcap, [&good]));
    // As many interfaces as capkit writes, and one more.
    let mut writer = Writer::new(io::sink(), Format::Pcapng);
    let mut each = good.clone();
    for snap_length in (0..4096).chain(0..4096) {
        each.snap_length = snap_length;
        writer.write(&each).unwrap();
    }
    each.snap_length = 4096;
    let error = writer.write(&each).unwrap_err();
    assert!(matches!(error, WriteError::Refused(Check::TooManyOutputInterfaces)));
}

#[test]
fn a_packet_of_the_greatest_length() {
    let large = vec![7; 262_144];
    let packet = Packet::new(TIME, LINK_ETHERNET, large.clone());
    for format in [Format::Pcapng, Format::PcapNanoseconds] {
        assert_eq!(read(&written(format, [&packet])), std::slice::from_ref(&packet));
    }
}

#[test]
fn after_a_failed_write_every_call_fails() {
    let packet = Packet::new(TIME, LINK_ETHERNET, [0; 60]);
    let mut room = [0; 200];
    let mut writer = Writer::new(&mut room[..], Format::Pcapng);
    let results: Vec<_> = (0..4).map(|_| writer.write(&packet).is_ok()).collect();
    assert_eq!(results, [true, false, false, false]);
    assert!(matches!(writer.finish(), Err(WriteError::Io(_))));
}

#[test]
fn a_fault_comes_once_after_the_packets_before() {
    let packet = Packet::new(TIME, LINK_ETHERNET, arp());
    let mut capture = written(Format::Pcap, [&packet, &packet]);
    capture.pop();
    let mut packets = Packets::new(&capture[..]);
    assert_eq!(packets.next().unwrap().unwrap().time, TIME / 1000 * 1000);
    let error = packets.next().unwrap().unwrap_err();
    assert!(matches!(error, ReadError::Fault { offset: 82, check: Check::Truncated }));
    assert_eq!(error.to_string(), "offset 82: truncated");
    assert!(packets.next().is_none() && packets.next().is_none());
    assert_eq!(packets.offset(), 82);
    assert_eq!(format!("{packets:?}"), "Packets { offset: 82, .. }");
}

#[test]
fn files() {
    let odd = [b"-day \xff\n'", std::process::id().to_string().as_bytes()].concat();
    let name = std::env::temp_dir().join(OsStr::from_bytes(&odd));
    let packet = Packet::new(TIME, LINK_ETHERNET, [0; 60]);
    std::fs::write(&name, written(Format::Pcapng, [&packet])).unwrap();
    let mut packets = Packets::open(&name).unwrap();
    std::fs::remove_file(&name).unwrap();
    assert_eq!(packets.next().unwrap().unwrap(), packet);
    assert_eq!(Packets::open("/dev/null").unwrap().count(), 1);
    assert_eq!(Packets::open("missing.pcap").unwrap_err().kind(), io::ErrorKind::NotFound);
    let folder = Packets::open("/").unwrap().next().unwrap();
    assert!(matches!(folder, Err(ReadError::Io(_))));
    let after = packet.system_time().duration_since(std::time::UNIX_EPOCH).unwrap();
    assert_eq!(u128::from(packet.time), after.as_nanos());
}

/// A source that gives a byte at a time.
struct Drops<'a>(&'a [u8]);

impl Read for Drops<'_> {
    fn read(&mut self, buffer: &mut [u8]) -> io::Result<usize> {
        let room = buffer.len().min(1);
        self.0.read(&mut buffer[..room])
    }
}

#[test]
fn filtered_as_matches_says() {
    let raw = Packet::new(TIME, LINK_RAW, [&[0x45][..], &[0; 19]].concat());
    let arp = Packet::new(TIME, LINK_ETHERNET, arp());
    let other = Packet::new(TIME, LINK_ETHERNET, [0; 60]);
    let capture = written(Format::Pcapng, [&arp, &raw, &other, &arp, &raw]);
    for (text, count) in [("arp", 2), ("ip", 2), ("", 5), ("len > 41", 3)] {
        let expression: Expression = text.parse().unwrap();
        let packets = Packets::new(Drops(&capture)).matching(&expression).unwrap();
        let found: Vec<_> = packets.map(Result::unwrap).collect();
        assert_eq!(found.len(), count);
        assert!(found.iter().all(|packet| expression.matches(packet).unwrap()));
    }
    let other = written(Format::Pcapng, [&Packet::new(TIME, 276, [0; 60])]);
    let mut packets = Packets::new(&other[..]).matching(&"arp".parse().unwrap()).unwrap();
    assert!(matches!(packets.next(), Some(Err(ReadError::Compile(_)))));
}

#[test]
fn a_live_pipe_gives_each_packet_as_it_comes() {
    let packet = Packet::new(TIME, LINK_ETHERNET, arp());
    let capture = written(Format::Pcapng, [&packet, &packet]);
    let first = written(Format::Pcapng, [&packet]).len();
    let (source, mut end) = UnixStream::pair().unwrap();
    let mut packets = Packets::new(source);
    end.write_all(&capture[..first + 20]).unwrap();
    let begin = Instant::now();
    assert_eq!(packets.next().unwrap().unwrap(), packet);
    assert!(begin.elapsed() < Duration::from_millis(200));
    end.write_all(&capture[first + 20..]).unwrap();
    drop(end);
    assert_eq!(packets.next().unwrap().unwrap(), packet);
    assert!(packets.next().is_none());
}

#[test]
fn filters() {
    let ip = Expression::new("ip").unwrap();
    let raw = [&[0x45][..], &[0; 19]].concat();
    assert_eq!(ip.matches(&Packet::new(TIME, LINK_RAW, &raw[..])), Ok(true));
    assert_eq!(ip.matches(&Packet::new(TIME, LINK_ETHERNET, &raw[..])), Ok(false));
    let long = Filter::new("greater 1000", LINK_ETHERNET).unwrap();
    assert!(long.matches(&[], 1000) && !long.matches(&[], 999) && !long.is_portable());
    let same = Filter::from_instructions(long.instructions().to_vec());
    assert_eq!(same, Ok(long));
    // Addresses that no range or mask has in one.
    let hosts: Vec<_> =
        (0..600).map(|i| format!("host 10.0.{}.{}", i / 128, 2 * i % 256)).collect();
    assert!(Filter::new(&hosts.join(" or "), LINK_ETHERNET).unwrap().instructions().len() > 600);
}

#[test]
fn meanings() {
    let mut long = String::from("port 1 or 2");
    let mut meaning = String::from("(src or dst port 1) or (src or dst port 2)");
    for i in 3..400 {
        long += &format!(" or {i}");
        meaning = format!("({meaning}) or (src or dst port {i})");
    }
    assert_eq!(explain(&long), Ok(meaning));
    assert_eq!(explain(""), Ok(String::new()));
    let error = explain("tcp prt 80").unwrap_err();
    assert_eq!((error.status, error.place), (Status::UnknownWord, Some(5)));
}

#[test]
fn errors_as_text() {
    let back = Instruction { code: 5, k: 9, ..Default::default() };
    let error = Filter::from_instructions(vec![back]).unwrap_err();
    assert_eq!(error.to_string(), "jump out (instruction 0)");
    for (listing, shown) in [
        ("2\n6 0 0 0\n", "not a listing (at line 3)"),
        ("1\n128 0 0 0\n", "no return at the end (instruction 0)"),
    ] {
        assert_eq!(listing.parse::<Filter>().unwrap_err().to_string(), shown);
    }
}

//! Sources that have no bytes yet, fail or lie; errors and what they come from; threads.
use capkit::*;
use std::error::Error;
use std::io::{self, ErrorKind, Read, Write};
use std::os::unix::net::UnixStream;
use std::time::Duration;

/// A hundred packets, each of another length, and their capture.
fn hundred() -> (Vec<u8>, Vec<Packet>) {
    let mut packets = Vec::new();
    for number in 0..100 {
        let data = vec![number; 1 + 37 * usize::from(number)];
        let mut packet = Packet::new(1_700_000_000_123_456_789, LINK_ETHERNET, data);
        packet.comment = b"first"[..usize::from(number) % 6].to_vec();
        packets.push(packet);
    }
    let mut writer = Writer::new(Vec::new(), Format::Pcapng);
    for packet in &packets {
        writer.write(packet).unwrap();
    }
    (writer.finish().unwrap(), packets)
}

/// A source that gives a capture by these reads, each of at most a number of bytes or a failure, and then
/// the remainder at once.
struct Steps<'a> {
    capture: &'a [u8],
    steps: std::vec::IntoIter<Result<usize, ErrorKind>>,
}

impl Read for Steps<'_> {
    fn read(&mut self, buffer: &mut [u8]) -> io::Result<usize> {
        match self.steps.next() {
            None => self.capture.read(buffer),
            Some(Ok(most)) => {
                let room = buffer.len().min(most);
                self.capture.read(&mut buffer[..room])
            }
            Some(Err(kind)) => Err(kind.into()),
        }
    }
}

fn by(capture: &[u8], steps: Vec<Result<usize, ErrorKind>>) -> Packets<Steps<'_>> {
    Packets::new(Steps { capture, steps: steps.into_iter() })
}

/// The packets, and how the source failed between them.
fn all<R: Read>(packets: &mut Packets<R>) -> (Vec<Packet>, Vec<ErrorKind>) {
    let (mut found, mut failures) = (Vec::new(), Vec::new());
    for packet in packets {
        match packet {
            Ok(packet) => found.push(packet),
            Err(ReadError::Io(error)) => failures.push(error.kind()),
            Err(error) => panic!("{error}"),
        }
    }
    (found, failures)
}

#[test]
fn a_source_that_has_no_bytes_yet_does_not_end_the_packets() {
    let (capture, packets) = hundred();
    let (mut seed, passing) = (1_u32, [ErrorKind::WouldBlock, ErrorKind::TimedOut]);
    let mut next = |most: u32| {
        seed = seed.wrapping_mul(1_664_525).wrapping_add(1_013_904_223);
        (seed >> 8) % most
    };
    let long: Expression = "len > 1000".parse().unwrap();
    for round in 0..100 {
        let (mut steps, mut failures, mut left) = (Vec::new(), Vec::new(), capture.len());
        while left > 0 {
            let bits = 1 + next(16);
            let most = 1 + next(1 << bits) as usize;
            left -= most.min(left);
            steps.push(Ok(most));
            match next(4) {
                kind @ (0 | 1) => failures.push(passing[kind as usize]),
                2 => steps.push(Err(ErrorKind::Interrupted)),
                _ => continue,
            }
            if !matches!(steps.last(), Some(Err(_))) {
                steps.push(Err(failures[failures.len() - 1]));
            }
        }
        let mut reading = by(&capture, steps);
        if round % 2 == 1 {
            reading = reading.matching(&long).unwrap();
        }
        let (found, failed) = all(&mut reading);
        assert_eq!(failed, failures);
        assert_eq!(found, packets[if round % 2 == 1 { 28 } else { 0 }..]);
        assert_eq!(reading.offset(), capture.len() as u64);
    }
}

#[test]
fn a_timeout_of_a_socket() {
    let (capture, packets) = hundred();
    let (source, mut end) = UnixStream::pair().unwrap();
    source.set_read_timeout(Some(Duration::from_millis(10))).unwrap();
    let mut reading = Packets::new(source);
    let (mut found, mut timeouts) = (Vec::new(), 0);
    for piece in capture.chunks(30_000) {
        end.write_all(piece).unwrap();
        loop {
            match reading.next().unwrap() {
                Ok(packet) => found.push(packet),
                Err(ReadError::Io(error)) if error.kind() == ErrorKind::WouldBlock => break,
                Err(error) => panic!("{error}"),
            }
        }
        timeouts += 1;
    }
    drop(end);
    assert!(reading.next().is_none() && reading.next().is_none());
    assert!(timeouts > 2);
    assert_eq!(found, packets);
}

#[test]
fn other_failures_end_the_packets() {
    let (capture, _) = hundred();
    let mut reading = by(&capture, vec![Ok(1000), Err(ErrorKind::BrokenPipe)]);
    let (found, failures) = all(&mut reading);
    assert!(!found.is_empty() && found.len() < 100);
    assert_eq!(failures, [ErrorKind::BrokenPipe]);
    assert!(reading.next().is_none());
}

/// A source that says it gave more than there is room for.
struct Lies;

impl Read for Lies {
    fn read(&mut self, buffer: &mut [u8]) -> io::Result<usize> {
        Ok(buffer.len() + 1)
    }
}

#[test]
#[should_panic(expected = "more bytes than there is room for")]
fn a_source_that_lies() {
    Packets::new(Lies).next();
}

#[test]
fn errors_have_sources() {
    let folder = Packets::open("/").unwrap().next().unwrap().unwrap_err();
    let cause = folder.source().unwrap().downcast_ref::<io::Error>().unwrap();
    assert_eq!(cause.to_string(), folder.to_string());
    let fault = Packets::new(&b"some text"[..]).next().unwrap().unwrap_err();
    assert!(fault.source().is_none());

    let mut writer = Writer::new(Vec::new(), Format::Pcapng);
    writer.write(&Packet::new(0, 276, [0])).unwrap();
    let capture = writer.finish().unwrap();
    let mut reading = Packets::new(&capture[..]).matching(&"arp".parse().unwrap()).unwrap();
    let refused = reading.next().unwrap().unwrap_err();
    let cause = refused.source().unwrap().downcast_ref::<CompileError>().unwrap();
    assert_eq!(cause.status, Status::LinkType);

    let mut none = [];
    let full = Writer::new(&mut none[..], Format::Pcap).finish().unwrap_err();
    assert!(full.source().unwrap().is::<io::Error>());
    let late = Packet::new(u64::MAX, LINK_ETHERNET, []);
    let refused = Writer::new(io::sink(), Format::Pcap).write(&late).unwrap_err();
    assert!(refused.source().is_none());

    let listing = "1\n128 0 0 0\n".parse::<Filter>().unwrap_err();
    assert!(listing.source().unwrap().is::<ProgramError>());
}

/// An output that takes at most a number of bytes of each write, and of all.
struct Part {
    taken: Vec<u8>,
    each: usize,
    most: usize,
}

impl Write for Part {
    fn write(&mut self, bytes: &[u8]) -> io::Result<usize> {
        let room = self.each.min(self.most - self.taken.len()).min(bytes.len());
        self.taken.extend_from_slice(&bytes[..room]);
        Ok(room)
    }

    fn flush(&mut self) -> io::Result<()> {
        Ok(())
    }
}

#[test]
fn an_output_that_takes_a_part() {
    let (capture, packets) = hundred();
    let mut out = Part { taken: Vec::new(), each: 7, most: usize::MAX };
    let mut writer = Writer::new(&mut out, Format::Pcapng);
    for packet in &packets {
        writer.write(packet).unwrap();
    }
    writer.finish().unwrap();
    assert_eq!(out.taken, capture);

    // It is full: what it has are the first bytes, and every later call fails.
    let mut out = Part { taken: Vec::new(), each: 7, most: 5000 };
    let mut writer = Writer::new(&mut out, Format::Pcapng);
    let results: Vec<_> = packets.iter().map(|packet| writer.write(packet).is_ok()).collect();
    let written = results.iter().take_while(|is_written| **is_written).count();
    assert!(written > 0 && results[written..].iter().all(|is_written| !is_written));
    assert!(matches!(writer.finish(), Err(WriteError::Io(_))));
    assert_eq!(out.taken, capture[..5000]);
}

#[test]
fn threads() {
    fn is_shared<T: Send + Sync>() {}
    is_shared::<Expression>();
    is_shared::<Filter>();
    is_shared::<Packets<std::fs::File>>();
    is_shared::<Writer<Vec<u8>>>();
    let ip: Expression = "ip".parse().unwrap();
    let mut raw = Packet::new(0, LINK_RAW, [0x45; 20]);
    std::thread::scope(|scope| {
        for link_type in [LINK_ETHERNET, LINK_RAW, LINK_COOKED, 105, 276, LINK_RAW] {
            raw.link_type = link_type;
            let (packet, ip) = (raw.clone(), &ip);
            scope.spawn(move || {
                for _ in 0..1000 {
                    let matches = ip.matches(&packet);
                    assert_eq!(matches.is_err(), link_type == 105 || link_type == 276);
                    assert_eq!(matches.unwrap_or(false), link_type == LINK_RAW);
                }
            });
        }
    });
}

use crate::errors::{Check, ReadError, Status};
use crate::{ffi, CompileError, Expression, Filter};
use std::fs::File;
use std::io::{self, Read};
use std::iter::FusedIterator;
use std::path::Path;
use std::sync::Arc;
use std::time::{Duration, SystemTime, UNIX_EPOCH};
use std::{fmt, mem};

/// A packet of a capture. [`Packet::new`] makes one, whose fields can be set.
#[derive(Clone, Debug, PartialEq, Eq, Hash)]
#[non_exhaustive]
pub struct Packet {
    /// Nanoseconds since 1970-01-01 00:00:00 UTC.
    pub time: u64,
    /// The link type, as captures have it.
    pub link_type: u16,
    /// The bytes that were captured.
    pub data: Vec<u8>,
    /// How many bytes it had on the wire.
    pub original_length: u32,
    /// Its first comment; empty if there is none. Others aren't kept.
    pub comment: Vec<u8>,
    /// The name of its interface; empty if there is none.
    pub interface_name: Vec<u8>,
    /// The most bytes that were captured of a packet of its interface; 0: no limit.
    pub snap_length: u32,
}

impl Packet {
    /// A packet that was captured whole, without comment and name.
    #[must_use]
    pub fn new(time: u64, link_type: u16, data: impl Into<Vec<u8>>) -> Packet {
        let data = data.into();
        let original_length = data.len().try_into().unwrap_or(u32::MAX);
        let (comment, interface_name, snap_length) = (Vec::new(), Vec::new(), 262_144);
        Packet { time, link_type, data, original_length, comment, interface_name, snap_length }
    }

    /// When it was captured.
    #[must_use]
    pub fn system_time(&self) -> SystemTime {
        UNIX_EPOCH + Duration::from_nanos(self.time)
    }

    /// The line that `capkit print` prints of the packet, or with the link header `capkit print -e`,
    /// without its line feed; empty if the time is 2^63 or more.
    ///
    /// ```
    /// let packet = capkit::Packet::new(1_000_000_007, capkit::LINK_RAW, [0x45]);
    /// assert_eq!(packet.line(false), "1970-01-01 00:00:01.000000007 IP [short], length 1");
    /// ```
    #[must_use]
    pub fn line(&self, with_link: bool) -> String {
        let Packet { time, link_type, data, original_length: original, .. } = self;
        // SAFETY: the pointers and lengths are those of the bytes and of the buffer.
        let mut line = ffi::text_by(|buffer, room| unsafe {
            let (start, length, with_link) = (data.as_ptr(), data.len(), with_link.into());
            ffi::capkit_line(*link_type, *time, *original, start, length, with_link, buffer, room)
        });
        line.truncate(line.trim_end().len());
        line
    }
}

/// How many bytes are read at once: what fits into a processor's cache is filtered faster.
const PIECE: usize = 1 << 18;

/// The packets of a capture, pcap or pcapng, from a file, a pipe or bytes in memory: each as soon as its
/// bytes have come. It takes the memory of some units, however long the capture is. It is for one thread at a
/// time, to which it can be sent if the source can.
///
/// They end with the capture, or after the [`ReadError`] that ends it. A source that has no bytes yet doesn't
/// end them: after an error of the kind `WouldBlock` or `TimedOut` the next call reads on from there, and no
/// packet is lost or comes twice. What is `Interrupted` is tried again at once.
///
/// ```
/// let mut packets = capkit::Packets::new(&b"some text"[..]);
/// let fault = packets.next().unwrap().unwrap_err();
/// assert_eq!(fault.to_string(), "offset 0: not a capture file");
/// assert!(packets.next().is_none());
/// ```
#[must_use = "packets are read as they are asked for"]
pub struct Packets<R> {
    source: R,
    buffer: Vec<u8>,
    size: usize,
    base: u64,
    /// Whether the source has ended.
    is_whole: bool,
    is_over: bool,
    /// Whether what is refused is skipped,
    skips: bool,
    /// and how much of it was.
    skipped: u64,
    reader: ffi::Reader,
    table: Box<[ffi::Interface; ffi::MOST_INTERFACES]>,
    /// What has to match, with its program for a link type.
    wanted: Option<(Expression, Arc<Filter>, u16)>,
}

impl Packets<File> {
    /// The packets of a file.
    pub fn open(path: impl AsRef<Path>) -> io::Result<Packets<File>> {
        File::open(path).map(Packets::new)
    }
}

impl<R: Read> Packets<R> {
    /// The packets that are read from a source.
    pub fn new(source: R) -> Packets<R> {
        Packets {
            source,
            buffer: vec![0; ffi::MOST_UNIT + PIECE],
            size: 0,
            base: 0,
            is_whole: false,
            is_over: false,
            skips: false,
            skipped: 0,
            reader: ffi::Reader::default(),
            table: Box::new([ffi::Interface::NONE; ffi::MOST_INTERFACES]),
            wanted: None,
        }
    }

    /// Only the packets that match, which the library looks for.
    pub fn matching(mut self, expression: &Expression) -> Result<Packets<R>, CompileError> {
        let filter = expression.filter(crate::LINK_ETHERNET)?;
        self.wanted = Some((expression.clone(), filter, crate::LINK_ETHERNET));
        Ok(self)
    }

    /// Goes past what would end a capture that is otherwise sound: a unit that is refused for its time, link
    /// type or options, and, of packets [`matching`](Packets::matching) an expression, one of a link type for
    /// which it isn't compiled. No packet of a skipped interface has a time, so these packets are skipped
    /// in turn.
    ///
    /// ```
    /// # let capture = capkit::Writer::new(Vec::new(), capkit::Format::Pcap).finish()?;
    /// let mut packets = capkit::Packets::new(&capture[..]).skip_refused(true);
    /// for packet in &mut packets {
    ///     println!("{}", packet?.line(false));
    /// }
    /// println!("{} left out", packets.skipped());
    /// # Ok::<(), Box<dyn std::error::Error>>(())
    /// ```
    pub fn skip_refused(mut self, skips: bool) -> Packets<R> {
        self.skips = skips;
        self
    }

    /// How many units and packets were left out so far; see [`skip_refused`](Packets::skip_refused).
    #[must_use]
    pub fn skipped(&self) -> u64 {
        self.skipped
    }

    /// How far the capture was read, in bytes.
    #[must_use]
    pub fn offset(&self) -> u64 {
        self.base + self.reader.offset as u64
    }

    /// What the library's call finds.
    fn found(&mut self, packet: &mut ffi::Packet) -> u32 {
        let (table, room) = (self.table.as_mut_ptr(), self.table.len());
        let (buffer, size, reader) = (self.buffer.as_ptr(), self.size, &mut self.reader);
        // SAFETY: the pointers and lengths are those of the table, the buffer and the program.
        match &self.wanted {
            None => unsafe { ffi::capkit_next(reader, table, room, buffer, size, packet) },
            Some((_, filter, link)) => unsafe {
                let (insns, count) = (filter.instructions().as_ptr(), filter.instructions().len());
                ffi::capkit_next_match(
                    reader, table, room, buffer, size, insns, count, *link, packet,
                )
            },
        }
    }

    /// Goes past the unit at the reader's place, if it is refused and can be skipped.
    fn skip(&mut self) -> u32 {
        let (table, room) = (self.table.as_mut_ptr(), self.table.len());
        // SAFETY: the pointers and lengths are those of the table and the buffer.
        unsafe { ffi::capkit_skip(&mut self.reader, table, room, self.buffer.as_ptr(), self.size) }
    }

    /// Moves the remaining bytes to the start of the buffer, and reads more after them.
    fn fill(&mut self) -> io::Result<()> {
        let offset = mem::take(&mut self.reader.offset);
        self.buffer.copy_within(offset..self.size, 0);
        self.base += offset as u64;
        self.size -= offset;
        let room = &mut self.buffer[self.size..self.size + PIECE];
        let count = loop {
            match self.source.read(room) {
                Err(error) if error.kind() == io::ErrorKind::Interrupted => {}
                result => break result?,
            }
        };
        // The library reads as many, whatever the source says.
        assert!(count <= room.len(), "the source gave more bytes than there is room for");
        self.size += count;
        self.is_whole = count == 0;
        Ok(())
    }

    fn packet(&self, found: &ffi::Packet) -> Packet {
        let interfaces = &self.table[..self.reader.interfaces as usize];
        let name = interfaces.get(found.interface as usize).map(ffi::Interface::name);
        Packet {
            time: found.time,
            link_type: found.link_type,
            data: self.buffer[found.at..][..found.captured as usize].to_vec(),
            original_length: found.original,
            comment: self.comment(found),
            interface_name: name.unwrap_or_default().to_vec(),
            snap_length: found.snap,
        }
    }

    fn comment(&self, found: &ffi::Packet) -> Vec<u8> {
        let mut comment = vec![0; found.options_length as usize];
        if !comment.is_empty() {
            let (capture, text) = (self.buffer.as_ptr(), comment.as_mut_ptr());
            // SAFETY: the pointers and lengths are those of the capture and of the comment.
            let length = unsafe {
                ffi::capkit_comment(&self.reader, capture, self.size, found, text, comment.len())
            };
            comment.truncate(length);
        }
        comment
    }

    /// Whether a packet matches that isn't of the program's link type. If its link type can't be filtered, and
    /// such packets are skipped, it doesn't match, and is counted.
    fn is_wanted(&mut self, packet: &Packet) -> Result<bool, CompileError> {
        let (expression, filter, link) = match &mut self.wanted {
            Some(wanted) => wanted,
            None => return Ok(true),
        };
        match expression.filter(packet.link_type) {
            Ok(known) => (*filter, *link) = (known, packet.link_type),
            Err(error) if self.skips && error.status == Status::LinkType => {
                self.skipped += 1;
                return Ok(false);
            }
            Err(error) => return Err(error),
        }
        Ok(filter.matches(&packet.data, packet.original_length))
    }

    /// Handles a result without a packet, and returns whether to look for one again.
    fn read_on(&mut self, result: u32) -> Result<bool, ReadError> {
        let missing = if self.skips { self.skip() } else { result };
        let is_short = matches!(missing, ffi::END | ffi::TRUNCATED)
            || missing == ffi::NOT_A_CAPTURE_FILE && self.size - self.reader.offset < 4;
        match result {
            _ if missing == ffi::SKIPPED => self.skipped += 1,
            _ if is_short && !self.is_whole => self.fill().map_err(ReadError::Io)?,
            ffi::END => return Ok(false),
            _ => {
                let (offset, check) = (self.offset(), Check::of(result));
                return Err(ReadError::Fault { offset, check });
            }
        }
        Ok(true)
    }

    /// The next packet; None at the end.
    fn read(&mut self) -> Result<Option<Packet>, ReadError> {
        let mut found = ffi::Packet::default();
        loop {
            match self.found(&mut found) {
                ffi::PACKET => return Ok(Some(self.packet(&found))),
                ffi::ANOTHER_LINK_TYPE => {
                    let packet = self.packet(&found);
                    if self.is_wanted(&packet).map_err(ReadError::Compile)? {
                        return Ok(Some(packet));
                    }
                }
                result => {
                    if !self.read_on(result)? {
                        return Ok(None);
                    }
                }
            }
        }
    }
}

/// Whether the source may have bytes later.
fn is_passing(error: &ReadError) -> bool {
    let kinds = [io::ErrorKind::WouldBlock, io::ErrorKind::TimedOut];
    matches!(error, ReadError::Io(error) if kinds.contains(&error.kind()))
}

impl<R: Read> Iterator for Packets<R> {
    type Item = Result<Packet, ReadError>;

    fn next(&mut self) -> Option<Self::Item> {
        if self.is_over {
            return None;
        }
        match self.read() {
            Ok(Some(packet)) => Some(Ok(packet)),
            Ok(None) => {
                self.is_over = true;
                None
            }
            Err(error) => {
                self.is_over = !is_passing(&error);
                Some(Err(error))
            }
        }
    }
}

impl<R: Read> FusedIterator for Packets<R> {}

impl<R> fmt::Debug for Packets<R> {
    fn fmt(&self, f: &mut fmt::Formatter<'_>) -> fmt::Result {
        let offset = self.base + self.reader.offset as u64;
        f.debug_struct("Packets").field("offset", &offset).finish_non_exhaustive()
    }
}

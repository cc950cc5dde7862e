use crate::errors::Check;
use crate::{ffi, Packet, WriteError, LINK_ETHERNET};
use std::fmt;
use std::io::{self, Write};

/// How a capture is written.
#[derive(Clone, Copy, Debug, PartialEq, Eq)]
#[non_exhaustive]
pub enum Format {
    /// Times are in nanoseconds; comments and names of interfaces are kept.
    Pcapng,
    /// Times are cut to microseconds; comments and names of interfaces aren't kept.
    Pcap,
    /// The same with nanoseconds.
    PcapNanoseconds,
}

/// Writes packets to a capture, the same bytes as capkit(1) writes.
///
/// Each packet is one write, so an output that is a file is best a [`BufWriter`](io::BufWriter). A writer that is
/// dropped without [`finish`](Writer::finish) writes no header if there was no packet, and flushes nothing.
/// It is for one thread at a time, to which it can be sent if the output can.
///
/// ```
/// use capkit::{Format, Packet, Packets, Writer, LINK_ETHERNET};
///
/// let mut packet = Packet::new(1_700_000_000_000_000_000, LINK_ETHERNET, [0; 60]);
/// packet.comment = b"look here".to_vec();
/// let mut writer = Writer::new(Vec::new(), Format::Pcapng);
/// writer.write(&packet)?;
/// let capture = writer.finish()?;
///
/// assert_eq!(Packets::new(&capture[..]).next().unwrap().unwrap(), packet);
/// # Ok::<(), capkit::WriteError>(())
/// ```
#[must_use = "`finish` writes what is left, and says whether that failed"]
pub struct Writer<W> {
    out: W,
    format: Format,
    /// That of the last packet.
    link_type: Option<u16>,
    /// What is written of a pcapng file.
    state: ffi::Writer,
    interfaces: Vec<ffi::Interface>,
    buffer: Vec<u8>,
    /// How the output failed, if it did.
    failure: Option<io::ErrorKind>,
}

impl<W: Write> Writer<W> {
    /// Writes nothing yet: the file's header is written with the first packet.
    pub fn new(out: W, format: Format) -> Writer<W> {
        let (state, interfaces, buffer) = (ffi::Writer::default(), Vec::new(), vec![0; 4096]);
        Writer { out, format, link_type: None, state, interfaces, buffer, failure: None }
    }

    /// Appends a packet. After [`WriteError::Refused`] nothing of it is written, and others can be. After
    /// [`WriteError::Io`] every call fails: the output has all packets before this one, and of this one's bytes
    /// as many as it took.
    ///
    /// In a pcap file all packets have the link type of the first. A pcapng file has at most 4,096 interfaces
    /// (link type, snap length and name), of which [`Packets`](crate::Packets) reads the first 256.
    pub fn write(&mut self, packet: &Packet) -> Result<(), WriteError> {
        let units = match self.format {
            Format::Pcapng => self.block(packet)?,
            Format::Pcap | Format::PcapNanoseconds => self.record(packet)?,
        };
        self.link_type = Some(packet.link_type);
        self.put(&units)
    }

    /// Writes what is left, and gives the output back.
    pub fn finish(mut self) -> Result<W, WriteError> {
        let header =
            self.link_type.map_or_else(|| self.header(LINK_ETHERNET), |_| Ok(Vec::new()))?;
        self.put(&header)?;
        self.out.flush()?;
        Ok(self.out)
    }

    /// Writes units.
    fn put(&mut self, units: &[u8]) -> Result<(), WriteError> {
        if let Some(kind) = self.failure {
            return Err(WriteError::Io(kind.into()));
        }
        let written = self.out.write_all(units);
        self.failure = written.as_ref().err().map(io::Error::kind);
        Ok(written?)
    }

    fn nanoseconds(&self) -> u32 {
        (self.format == Format::PcapNanoseconds).into()
    }

    fn header(&mut self, link_type: u16) -> Result<Vec<u8>, WriteError> {
        let (format, nanoseconds) = (self.format, self.nanoseconds());
        // SAFETY: the buffer has the room that `units` passes.
        units(&mut self.buffer, |buffer, room, length| unsafe {
            match format {
                Format::Pcapng => ffi::capkit_write_section(buffer, room, length),
                _ => ffi::capkit_write_file_header(nanoseconds, link_type, buffer, room, length),
            }
        })
    }

    /// A packet's record, after the file's header if it is the first one.
    fn record(&mut self, packet: &Packet) -> Result<Vec<u8>, WriteError> {
        let mut bytes = match self.link_type {
            None => self.header(packet.link_type)?,
            Some(first) if first == packet.link_type => Vec::new(),
            Some(_) => return Err(WriteError::Refused(Check::LinkTypesDiffer)),
        };
        let (nanoseconds, time, original) =
            (self.nanoseconds(), packet.time, packet.original_length);
        let (data, size) = (packet.data.as_ptr(), packet.data.len());
        // SAFETY: the buffer has the room that `units` passes, the packet its length.
        let record = units(&mut self.buffer, |to, room, length| unsafe {
            ffi::capkit_write_record(nanoseconds, time, original, data, size, to, room, length)
        })?;
        bytes.extend_from_slice(&record);
        Ok(bytes)
    }

    /// A packet's block, after the units that come before it.
    fn block(&mut self, packet: &Packet) -> Result<Vec<u8>, WriteError> {
        let &Packet { time, link_type, original_length: original, snap_length: snap, .. } = packet;
        let Packet { data, comment, interface_name: name, .. } = packet;
        let info = ffi::Packet { time, link_type, original, snap, ..Default::default() };
        let (state, table) = (&mut self.state, &mut self.interfaces);
        table.resize(state.interfaces as usize + 1, ffi::Interface::NONE);
        // SAFETY: the buffer has the room that `units` passes, all others have their lengths.
        units(&mut self.buffer, |to, room, length| unsafe {
            ffi::capkit_writer_put(
                state,
                table.as_mut_ptr(),
                table.len(),
                &info,
                name.as_ptr(),
                name.len(),
                data.as_ptr(),
                data.len(),
                comment.as_ptr(),
                comment.len(),
                to,
                room,
                length,
            )
        })
    }
}

fn units(
    buffer: &mut Vec<u8>, call: impl FnMut(*mut u8, usize, *mut usize) -> u32,
) -> Result<Vec<u8>, WriteError> {
    ffi::units(buffer, call).map_err(|written| WriteError::Refused(Check::of(written)))
}

impl<W> fmt::Debug for Writer<W> {
    fn fmt(&self, f: &mut fmt::Formatter<'_>) -> fmt::Result {
        f.debug_struct("Writer").field("format", &self.format).finish_non_exhaustive()
    }
}

//! The calls of libcapkit, as capkit.h declares them.

pub const OK: u32 = 0;
pub const PACKET: u32 = 0;
pub const NOT_A_LISTING: u32 = 17;
pub const NOT_A_CAPTURE_FILE: u32 = 201;
pub const TRUNCATED: u32 = 202;
pub const END: u32 = 222;
pub const NO_ROOM_IN_BUFFER: u32 = 225;
pub const ANOTHER_LINK_TYPE: u32 = 226;
pub const UNIT_BEFORE: u32 = 227;
pub const SKIPPED: u32 = 228;
pub const MOST_INSNS: usize = 32_768;
pub const MOST_INTERFACES: usize = 256;
pub const MOST_UNIT: usize = 1 << 20;

#[repr(C)]
#[derive(Clone, Copy, Default)]
pub struct Reader {
    pub offset: usize,
    pub snap: u32,
    pub interfaces: u32,
    pub link_type: u16,
    pub has_link_type: u8,
    pub form: u8,
    pub big_endian: u8,
    pub nanoseconds: u8,
}

#[repr(C)]
#[derive(Clone, Copy, Default)]
pub struct Writer {
    pub interfaces: u32,
    pub has_section: u32,
}

#[repr(C)]
#[derive(Clone, Copy)]
pub struct Interface {
    pub units: u64,
    pub offset: i64,
    pub snap: u32,
    pub link_type: u16,
    pub name_length: u8,
    pub name: [u8; 255],
}

impl Interface {
    pub const NONE: Interface =
        Interface { units: 0, offset: 0, snap: 0, link_type: 0, name_length: 0, name: [0; 255] };

    pub fn name(&self) -> &[u8] {
        &self.name[..self.name_length.into()]
    }
}

#[repr(C)]
#[derive(Clone, Copy, Default)]
pub struct Packet {
    pub time: u64,
    pub at: usize,
    pub options_at: usize,
    pub captured: u32,
    pub original: u32,
    pub options_length: u32,
    pub interface: u32,
    pub snap: u32,
    pub link_type: u16,
}

extern "C" {
    pub fn capkit_bound(text: *const u8, length: usize, number: *mut usize) -> u32;
    pub fn capkit_explain(
        text: *const u8, length: usize, buffer: *mut u8, room: usize, number: *mut usize,
    ) -> u32;
    pub fn capkit_compile(
        text: *const u8, length: usize, link_type: u16, insns: *mut crate::Instruction,
        room: usize, number: *mut usize,
    ) -> u32;
    pub fn capkit_check(insns: *const crate::Instruction, count: usize, index: *mut usize) -> u32;
    pub fn capkit_matches(
        insns: *const crate::Instruction, count: usize, packet: *const u8, captured: usize,
        original: u32,
    ) -> u32;
    pub fn capkit_trace(
        insns: *const crate::Instruction, count: usize, packet: *const u8, captured: usize,
        original: u32, steps: *mut crate::Step, room: usize,
    ) -> usize;
    pub fn capkit_read_listing(
        text: *const u8, length: usize, insns: *mut crate::Instruction, room: usize,
        number: *mut usize,
    ) -> u32;
    pub fn capkit_write_listing(
        insns: *const crate::Instruction, count: usize, buffer: *mut u8, room: usize,
        length: *mut usize,
    ) -> u32;
    pub fn capkit_insn_text(
        insn: *const crate::Instruction, index: u32, buffer: *mut u8, room: usize,
    ) -> usize;
    pub fn capkit_line(
        link_type: u16, time: u64, original: u32, packet: *const u8, captured: usize,
        with_link: u32, buffer: *mut u8, room: usize,
    ) -> usize;
    pub fn capkit_portability(insns: *const crate::Instruction, count: usize) -> u32;
    pub fn capkit_next(
        reader: *mut Reader, interfaces: *mut Interface, room: usize, capture: *const u8,
        size: usize, packet: *mut Packet,
    ) -> u32;
    pub fn capkit_skip(
        reader: *mut Reader, interfaces: *mut Interface, room: usize, capture: *const u8,
        size: usize,
    ) -> u32;
    pub fn capkit_comment(
        reader: *const Reader, capture: *const u8, size: usize, packet: *const Packet,
        buffer: *mut u8, room: usize,
    ) -> usize;
    pub fn capkit_next_match(
        reader: *mut Reader, interfaces: *mut Interface, room: usize, capture: *const u8,
        size: usize, insns: *const crate::Instruction, count: usize, link_type: u16,
        packet: *mut Packet,
    ) -> u32;
    pub fn capkit_write_file_header(
        nanoseconds: u32, link_type: u16, buffer: *mut u8, room: usize, length: *mut usize,
    ) -> u32;
    pub fn capkit_write_record(
        nanoseconds: u32, time: u64, original: u32, packet: *const u8, captured: usize,
        buffer: *mut u8, room: usize, length: *mut usize,
    ) -> u32;
    pub fn capkit_write_section(buffer: *mut u8, room: usize, length: *mut usize) -> u32;
    pub fn capkit_writer_put(
        writer: *mut Writer, interfaces: *mut Interface, room: usize, packet: *const Packet,
        name: *const u8, name_length: usize, bytes: *const u8, captured: usize, comment: *const u8,
        comment_length: usize, buffer: *mut u8, size: usize, length: *mut usize,
    ) -> u32;
    pub fn capkit_text(number: u32, buffer: *mut u8, room: usize) -> usize;
}

/// The text that a call puts into a buffer, given its start and its room: at most 255 bytes.
pub fn text_by(call: impl Fn(*mut u8, usize) -> usize) -> String {
    let mut buffer = [0; 256];
    let length = call(buffer.as_mut_ptr(), buffer.len());
    String::from_utf8_lossy(&buffer[..length.min(buffer.len() - 1)]).into_owned()
}

/// What a number is called.
pub fn text(number: u32) -> String {
    // SAFETY: the buffer has `room` bytes.
    text_by(|buffer, room| unsafe { capkit_text(number, buffer, room) })
}

/// The units that a call puts into a buffer, given its start, its room and a place for the length;
/// or the number by which it is refused.
///
/// The call writes no more than the room, and `*length` bytes if it returns `OK`, after the last unit, or
/// `UNIT_BEFORE`.
pub fn units(
    buffer: &mut Vec<u8>, mut call: impl FnMut(*mut u8, usize, *mut usize) -> u32,
) -> Result<Vec<u8>, u32> {
    let (mut units, mut length) = (Vec::new(), 0);
    loop {
        let written = call(buffer.as_mut_ptr(), buffer.len(), &mut length);
        match written {
            NO_ROOM_IN_BUFFER => buffer.resize(length, 0),
            OK | UNIT_BEFORE => units.extend_from_slice(&buffer[..length]),
            _ => return Err(written),
        }
        if written == OK {
            return Ok(units);
        }
    }
}

//! Filter expressions of packets, and pcap and pcapng captures, by the proved library libcapkit.
//!
//! Every function of libcapkit is proved to meet its contract; this crate is a safe interface to it
//! and is tested. `build.rs` finds the library by pkg-config.
//!
//! ```no_run
//! use capkit::{Format, Packets, Writer};
//! use std::{fs::File, io::BufWriter};
//!
//! # fn main() -> Result<(), Box<dyn std::error::Error>> {
//! let mut writer = Writer::new(BufWriter::new(File::create("web.pcapng")?), Format::Pcapng);
//! for packet in Packets::open("day.pcap")?.matching(&"tcp port 80".parse()?)? {
//!     writer.write(&packet?)?;
//! }
//! writer.finish()?;
//! # Ok(())
//! # }
//! ```
#![deny(unsafe_op_in_unsafe_fn)]
#![warn(missing_docs)]

mod errors;
mod ffi;
mod filter;
mod reading;
mod writing;

pub use errors::{
    Check, CompileError, ListingError, ProgramError, ReadError, Rule, Status, WriteError,
};
pub use filter::{explain, Expression, Filter, Instruction, Step};
pub use reading::{Packet, Packets};
pub use writing::{Format, Writer};

/// Link types for which expressions are compiled, as captures have them: Ethernet,
pub const LINK_ETHERNET: u16 = 1;
/// raw IP,
pub const LINK_RAW: u16 = 101;
/// and Linux cooked captures.
pub const LINK_COOKED: u16 = 113;

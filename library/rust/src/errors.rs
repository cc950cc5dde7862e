use crate::ffi;
use std::{error, fmt, io};

/// An enum of numbers of capkit.h, which are called as the library says.
macro_rules! numbers {
    ($(#[$doc:meta])* $name:ident { $($variant:ident = $number:literal),* $(,)? }) => {
        $(#[$doc])*
        #[derive(Clone, Copy, Debug, PartialEq, Eq, Hash)]
        #[non_exhaustive]
        #[repr(u32)]
        pub enum $name {
            $(#[allow(missing_docs)] $variant = $number,)*
            /// A number that this version of the crate doesn't know.
            Unknown = u32::MAX,
        }

        impl $name {
            pub(crate) fn of(number: u32) -> $name {
                match number {
                    $($number => $name::$variant,)*
                    _ => $name::Unknown,
                }
            }
        }

        impl fmt::Display for $name {
            fn fmt(&self, f: &mut fmt::Formatter<'_>) -> fmt::Result {
                f.write_str(&ffi::text(*self as u32))
            }
        }
    };
}

numbers! {
    /// Why an expression isn't compiled.
    Status {
        // tools/library_numbers.py writes these from capkit.h.
        TooLong = 1, UnknownCharacter = 2, UnknownWord = 3, NumberTooLarge = 4,
        NotAnExpression = 5, NestedTooDeep = 6, QualifiersDoNotFit = 7, ValueOutOfRange = 8,
        BitsPastMask = 9, DivisionByZero = 10, TooManyWords = 11, ProgramTooLong = 12,
        NoMemory = 13, NotUtf8 = 14, LinkType = 15,
    }
}

numbers! {
    /// The rules of programs.
    Rule {
        // tools/library_numbers.py writes these from capkit.h.
        Empty = 101, TooMany = 102, UnknownCode = 103, JumpOut = 104, NoSuchWord = 105,
        DivisionByZero = 106, ShiftTooFar = 107, NoReturn = 108,
    }
}

numbers! {
    /// The checks of a capture's units, and of packets that are written.
    Check {
        // tools/library_numbers.py writes these from capkit.h.
        NotACaptureFile = 201, Truncated = 202, BadVersion = 203, TooLong = 204,
        BadBlockLength = 205, BadByteOrderMagic = 206, UnknownInterface = 207, BadOption = 208,
        BadBody = 209, TimeOutOfRange = 210, TooManyInterfaces = 211, BadTimeResolution = 212,
        BadLinkTypeField = 213, ObsoletePacketBlock = 214, LinkTypesDiffer = 218,
        TooManyOutputInterfaces = 221,
    }
}

/// Why an expression isn't compiled, and where in the text the fault is, in bytes from 1, if it has a
/// place.
#[derive(Clone, Copy, Debug, PartialEq, Eq)]
#[non_exhaustive]
pub struct CompileError {
    /// Why.
    pub status: Status,
    /// Where.
    pub place: Option<usize>,
}

impl CompileError {
    /// The number that a call gives for an expression.
    pub(crate) fn number_of(status: u32, number: usize) -> Result<usize, CompileError> {
        let place = matches!(status, 2..=4 | 14).then_some(number);
        let error = CompileError { status: Status::of(status), place };
        (status == ffi::OK).then_some(number).ok_or(error)
    }
}

impl fmt::Display for CompileError {
    fn fmt(&self, f: &mut fmt::Formatter<'_>) -> fmt::Result {
        self.status.fmt(f)?;
        self.place.map_or(Ok(()), |at| write!(f, " (at byte {at})"))
    }
}

/// The first rule that instructions break, and the index of the instruction, from 0.
#[derive(Clone, Copy, Debug, PartialEq, Eq)]
#[non_exhaustive]
pub struct ProgramError {
    /// The rule.
    pub rule: Rule,
    /// The index.
    pub index: usize,
}

impl fmt::Display for ProgramError {
    fn fmt(&self, f: &mut fmt::Formatter<'_>) -> fmt::Result {
        write!(f, "{} (instruction {})", self.rule, self.index)
    }
}

/// Why a text isn't the listing of a valid program.
#[derive(Clone, Copy, Debug, PartialEq, Eq)]
#[non_exhaustive]
pub enum ListingError {
    /// It isn't a listing: its first wrong line, from 1.
    Line(usize),
    /// Its instructions aren't a valid program.
    Program(ProgramError),
    /// Memory ran out.
    NoMemory,
}

impl fmt::Display for ListingError {
    fn fmt(&self, f: &mut fmt::Formatter<'_>) -> fmt::Result {
        match self {
            ListingError::Line(line) => {
                write!(f, "{} (at line {line})", ffi::text(ffi::NOT_A_LISTING))
            }
            ListingError::Program(error) => error.fmt(f),
            ListingError::NoMemory => Status::NoMemory.fmt(f),
        }
    }
}

/// Why a capture's packets end before its end.
#[derive(Debug)]
#[non_exhaustive]
pub enum ReadError {
    /// The unit at this offset fails a check.
    Fault {
        /// The offset of the unit, in bytes.
        offset: u64,
        /// The check that it fails.
        check: Check,
    },
    /// The source failed.
    Io(io::Error),
    /// No expression is compiled for a packet's link type.
    Compile(CompileError),
}

impl fmt::Display for ReadError {
    fn fmt(&self, f: &mut fmt::Formatter<'_>) -> fmt::Result {
        match self {
            ReadError::Fault { offset, check } => write!(f, "offset {offset}: {check}"),
            ReadError::Io(error) => error.fmt(f),
            ReadError::Compile(error) => error.fmt(f),
        }
    }
}

/// Why a packet isn't written.
#[derive(Debug)]
#[non_exhaustive]
pub enum WriteError {
    /// The format can't hold the packet; nothing of it was written.
    Refused(Check),
    /// The output failed, and may hold a part of the packet.
    Io(io::Error),
}

impl fmt::Display for WriteError {
    fn fmt(&self, f: &mut fmt::Formatter<'_>) -> fmt::Result {
        match self {
            WriteError::Refused(check) => check.fmt(f),
            WriteError::Io(error) => error.fmt(f),
        }
    }
}

impl error::Error for CompileError {}
impl error::Error for ProgramError {}

impl error::Error for ListingError {
    fn source(&self) -> Option<&(dyn error::Error + 'static)> {
        match self {
            ListingError::Program(error) => Some(error),
            _ => None,
        }
    }
}

impl error::Error for ReadError {
    fn source(&self) -> Option<&(dyn error::Error + 'static)> {
        match self {
            ReadError::Io(error) => Some(error),
            ReadError::Compile(error) => Some(error),
            ReadError::Fault { .. } => None,
        }
    }
}

impl error::Error for WriteError {
    fn source(&self) -> Option<&(dyn error::Error + 'static)> {
        match self {
            WriteError::Io(error) => Some(error),
            WriteError::Refused(_) => None,
        }
    }
}

impl From<io::Error> for WriteError {
    fn from(error: io::Error) -> WriteError {
        WriteError::Io(error)
    }
}

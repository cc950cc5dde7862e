use crate::errors::Rule;
use crate::{ffi, CompileError, ListingError, Packet, ProgramError, Status};
use std::collections::HashMap;
use std::fmt;
use std::str::FromStr;
use std::sync::{Arc, Mutex};

/// An instruction of a program, with the codes of classic BPF. Its layout is that of `struct
/// bpf_insn` of libpcap and of `struct sock_filter` of Linux.
#[repr(C)]
#[derive(Clone, Copy, Debug, Default, PartialEq, Eq, Hash)]
pub struct Instruction {
    /// The operation.
    pub code: u16,
    /// How many instructions a jump skips if its test holds,
    pub jt: u8,
    /// and if it doesn't.
    pub jf: u8,
    /// The operand.
    pub k: u32,
}

/// What a run is before one of its instructions.
#[repr(C)]
#[derive(Clone, Copy, Debug, Default, PartialEq, Eq)]
pub struct Step {
    /// That of the instruction, from 0.
    pub index: u32,
    /// The register A.
    pub a: u32,
    /// The register X.
    pub x: u32,
    /// The words of memory.
    pub memory: [u32; 16],
}

/// The program of an expression for packets of one link type. It is always valid, and threads may share one.
///
/// As text it is the listing that `capkit compile` and `tcpdump -ddd` print, and is parsed from it:
///
/// ```
/// let arp = capkit::Filter::new("arp", capkit::LINK_ETHERNET)?;
/// assert_eq!(arp.to_string(), "4\n40 0 0 12\n21 0 1 2054\n6 0 0 262144\n6 0 0 0\n");
/// assert_eq!(arp.to_string().parse(), Ok(arp));
/// # Ok::<(), capkit::CompileError>(())
/// ```
#[derive(Clone, Debug, PartialEq, Eq)]
pub struct Filter(Vec<Instruction>);

impl Filter {
    /// Compiles an expression.
    ///
    /// ```
    /// use capkit::{Filter, Status};
    ///
    /// let error = Filter::new("tcp prt 80", capkit::LINK_ETHERNET).unwrap_err();
    /// assert_eq!((error.status, error.place), (Status::UnknownWord, Some(5)));
    /// assert_eq!(error.to_string(), "unknown word (at byte 5)");
    /// ```
    pub fn new(expression: &str, link_type: u16) -> Result<Filter, CompileError> {
        let mut insns = vec![Instruction::default(); bound(expression)?];
        let (text, size) = (expression.as_ptr(), expression.len());
        let (to, room, mut number) = (insns.as_mut_ptr(), insns.len(), 0);
        // SAFETY: the pointers and lengths are those of the text and of the instructions.
        let status = unsafe { ffi::capkit_compile(text, size, link_type, to, room, &mut number) };
        insns.truncate(CompileError::number_of(status, number)?);
        Ok(Filter(insns))
    }

    /// A program from elsewhere, if it is valid.
    ///
    /// ```
    /// use capkit::{Filter, Instruction, Rule};
    ///
    /// let length = Instruction { code: 128, ..Default::default() };
    /// let error = Filter::from_instructions(vec![length]).unwrap_err();
    /// assert_eq!(error.rule, Rule::NoReturn);
    /// ```
    pub fn from_instructions(instructions: Vec<Instruction>) -> Result<Filter, ProgramError> {
        let mut index = 0;
        // SAFETY: the pointer and the length are those of the instructions.
        let rule =
            unsafe { ffi::capkit_check(instructions.as_ptr(), instructions.len(), &mut index) };
        if rule != ffi::OK {
            return Err(ProgramError { rule: Rule::of(rule), index });
        }
        Ok(Filter(instructions))
    }

    /// What the program returns on a packet, given the bytes that were captured of it and how many
    /// it had on the wire; 0 rejects it.
    #[must_use]
    pub fn run(&self, data: &[u8], original_length: u32) -> u32 {
        let (insns, count) = (self.0.as_ptr(), self.0.len());
        // SAFETY: the program is valid, and the pointers and lengths are those of the slices.
        unsafe { ffi::capkit_matches(insns, count, data.as_ptr(), data.len(), original_length) }
    }

    /// What a run on a packet is before each instruction that it meets; see [`run`](Filter::run).
    ///
    /// ```
    /// let arp = capkit::Filter::new("arp", capkit::LINK_ETHERNET)?;
    /// let steps = arp.trace(&[0; 14], 14);
    /// assert_eq!(steps.iter().map(|step| step.index).collect::<Vec<_>>(), [0, 1, 3]);
    /// assert_eq!(arp.text(0).unwrap(), "(000) ldh      [12]");
    /// # Ok::<(), capkit::CompileError>(())
    /// ```
    #[must_use]
    pub fn trace(&self, data: &[u8], original_length: u32) -> Vec<Step> {
        let mut steps = vec![Step::default(); self.0.len()];
        let (insns, most, to) = (self.0.as_ptr(), self.0.len(), steps.as_mut_ptr());
        let (start, size) = (data.as_ptr(), data.len());
        // SAFETY: the program is valid, and the pointers and lengths are those of the slices.
        let count =
            unsafe { ffi::capkit_trace(insns, most, start, size, original_length, to, most) };
        steps.truncate(count);
        steps
    }

    /// An instruction of the program as `tcpdump -d` prints it, by its index.
    #[must_use]
    pub fn text(&self, index: usize) -> Option<String> {
        let insn = self.0.get(index)?;
        // SAFETY: the buffer has `room` bytes.
        Some(ffi::text_by(|buffer, room| unsafe {
            ffi::capkit_insn_text(insn, index as u32, buffer, room)
        }))
    }

    /// Whether a packet matches; see [`run`](Filter::run).
    #[must_use]
    pub fn matches(&self, data: &[u8], original_length: u32) -> bool {
        self.run(data, original_length) != 0
    }

    /// The program.
    #[must_use]
    pub fn instructions(&self) -> &[Instruction] {
        &self.0
    }

    /// Puts the listing into a buffer, as far as there is room, and a NUL; the length of the whole.
    /// It is an error if memory runs out.
    fn listing_into(&self, buffer: &mut [u8]) -> Result<usize, fmt::Error> {
        let (insns, count) = (self.0.as_ptr(), self.0.len());
        let (to, room, mut length) = (buffer.as_mut_ptr(), buffer.len(), 0);
        // SAFETY: the pointers and lengths are those of the program and of the buffer.
        let status = unsafe { ffi::capkit_write_listing(insns, count, to, room, &mut length) };
        (status == ffi::OK).then_some(length).ok_or(fmt::Error)
    }

    /// Where else the program gives the same answers, as far as `capkit_portability` can say: on
    /// libpcap, and on a Linux socket.
    #[must_use]
    pub fn runs_on(&self) -> (bool, bool) {
        // SAFETY: the program is valid, and the pointer and the length are its.
        let bits = unsafe { ffi::capkit_portability(self.0.as_ptr(), self.0.len()) };
        (bits & 1 != 0, bits & 2 != 0)
    }

    /// Whether libpcap and a Linux socket give the same answers.
    #[must_use]
    pub fn is_portable(&self) -> bool {
        self.runs_on() == (true, true)
    }
}

impl fmt::Display for Filter {
    fn fmt(&self, f: &mut fmt::Formatter) -> fmt::Result {
        let length = self.listing_into(&mut [])?;
        let mut buffer = vec![0; length + 1];
        self.listing_into(&mut buffer)?;
        f.write_str(&String::from_utf8_lossy(&buffer[..length]))
    }
}

impl FromStr for Filter {
    type Err = ListingError;

    fn from_str(listing: &str) -> Result<Filter, ListingError> {
        let mut insns = vec![Instruction::default(); ffi::MOST_INSNS];
        let (text, length) = (listing.as_ptr(), listing.len());
        let (to, room, mut number) = (insns.as_mut_ptr(), insns.len(), 0);
        // SAFETY: the pointers and lengths are those of the text and of the instructions.
        let status = unsafe { ffi::capkit_read_listing(text, length, to, room, &mut number) };
        match status {
            ffi::OK => {
                Filter::from_instructions(insns[..number].to_vec()).map_err(ListingError::Program)
            }
            ffi::NOT_A_LISTING => Err(ListingError::Line(number)),
            _ => Err(ListingError::NoMemory),
        }
    }
}

/// How many instructions an expression's program has at most.
fn bound(expression: &str) -> Result<usize, CompileError> {
    let mut number = 0;
    // SAFETY: the pointer and the length are those of the text.
    let status = unsafe { ffi::capkit_bound(expression.as_ptr(), expression.len(), &mut number) };
    CompileError::number_of(status, number)
}

/// What an expression means, as an expression: in parentheses by its tree, with every qualifier
/// written out.
///
/// ```
/// let meaning = capkit::explain("tcp port 80 or 443 and host 10.0.0.1")?;
/// assert_eq!(
///     meaning,
///     "((tcp src or dst port 80) or (tcp src or dst port 443)) and (src or dst host 10.0.0.1)"
/// );
/// # Ok::<(), capkit::CompileError>(())
/// ```
pub fn explain(expression: &str) -> Result<String, CompileError> {
    let length = explain_into(expression, &mut [])?;
    let mut buffer = vec![0; length + 1];
    explain_into(expression, &mut buffer)?;
    buffer.pop();
    Ok(String::from_utf8_lossy(&buffer).into_owned())
}

/// Puts what an expression means into a buffer, as far as there is room, and a NUL; the length of
/// the whole.
fn explain_into(expression: &str, buffer: &mut [u8]) -> Result<usize, CompileError> {
    let (text, length) = (expression.as_ptr(), expression.len());
    let (to, room, mut number) = (buffer.as_mut_ptr(), buffer.len(), 0);
    // SAFETY: the pointers and lengths are those of the text and of the buffer.
    let status = unsafe { ffi::capkit_explain(text, length, to, room, &mut number) };
    CompileError::number_of(status, number)
}

/// An expression, compiled for each link type when a packet has it first. Threads may share one, and its clones
/// share the programs.
///
/// ```
/// let expression: capkit::Expression = "arp".parse()?;
/// let arp = [&[0; 12][..], &[8, 6], &[0; 28]].concat();
/// assert!(expression.matches(&capkit::Packet::new(0, capkit::LINK_ETHERNET, arp))?);
/// # Ok::<(), capkit::CompileError>(())
/// ```
#[derive(Clone, Debug)]
pub struct Expression {
    text: String,
    compiled: Arc<Mutex<HashMap<u16, Compiled>>>,
}

/// The filter of an expression for a link type, or why there is none.
type Compiled = Result<Arc<Filter>, CompileError>;

impl Expression {
    /// Checks an expression, which needs no link type.
    pub fn new(text: &str) -> Result<Expression, CompileError> {
        bound(text)?;
        Ok(Expression { text: text.to_owned(), compiled: Arc::default() })
    }

    /// The expression's filter for a link type.
    pub fn filter(&self, link_type: u16) -> Result<Arc<Filter>, CompileError> {
        let mut compiled = self.compiled.lock().unwrap_or_else(|poisoned| poisoned.into_inner());
        if let Some(known) = compiled.get(&link_type) {
            return known.clone();
        }
        let made = Filter::new(&self.text, link_type).map(Arc::new);
        if !matches!(made, Err(error) if error.status == Status::NoMemory) {
            compiled.insert(link_type, made.clone());
        }
        made
    }

    /// Whether a packet matches. It is an error if no expression is compiled for its link type.
    pub fn matches(&self, packet: &Packet) -> Result<bool, CompileError> {
        Ok(self.filter(packet.link_type)?.matches(&packet.data, packet.original_length))
    }
}

impl FromStr for Expression {
    type Err = CompileError;

    fn from_str(text: &str) -> Result<Expression, CompileError> {
        Expression::new(text)
    }
}

impl fmt::Display for Expression {
    fn fmt(&self, f: &mut fmt::Formatter<'_>) -> fmt::Result {
        f.write_str(&self.text)
    }
}

impl PartialEq for Expression {
    fn eq(&self, other: &Expression) -> bool {
        self.text == other.text
    }
}

impl Eq for Expression {}

//! OER and COER (ITU-T X.696) by Jilgomt's proved library, over slices. A word names a type, as in docs/TYPES.md.
//!
//! ```
//! let octets = [0x80, 0xff, 0x02, 0x06, 0xc0, 0x01, 0xff, 0x01, 0xff];
//! let (canonical, rest) = jilgomt::canonicalise("seq1", jilgomt::Mode::Oer, &octets)?;
//! assert_eq!(canonical, [0x00, 0xff]);
//! assert!(rest.is_empty());
//! # Ok::<(), jilgomt::Error>(())
//! ```
#![deny(unsafe_op_in_unsafe_fn)]

use std::fmt;

mod sys {
    #[repr(C)]
    #[derive(Default, Clone, Copy)]
    pub struct Answer {
        pub status: u32,
        pub kind: u32,
        pub consumed: usize,
        pub written: usize,
        pub size: usize,
        pub number: isize,
        pub tag_class: u32,
        pub tag_number: u32,
        pub flag: u32,
        pub reserved: u32,
    }

    extern "C" {
        pub fn jilgomt_canonicalise(
            word: *const u8, word_len: usize, mode: u32, levels: usize, input: *const u8, input_len: usize, out: *mut u8,
            out_len: usize, answer: *mut Answer,
        ) -> u32;
        pub fn jilgomt_check(
            word: *const u8, word_len: usize, mode: u32, levels: usize, input: *const u8, input_len: usize, answer: *mut Answer,
        ) -> u32;
        pub fn jilgomt_convert(
            from: *const u8, from_len: usize, to: *const u8, to_len: usize, mode: u32, levels: usize, input: *const u8,
            input_len: usize, out: *mut u8, out_len: usize, answer: *mut Answer,
        ) -> u32;
        pub fn jilgomt_kind_name(status: u32, kind: u32, out: *mut u8, out_len: usize) -> usize;
    }
}

/// How octets are read.
#[derive(Clone, Copy, Debug, PartialEq, Eq)]
pub enum Mode {
    /// By the basic rules, which take any encoding.
    Oer = 0,
    /// By the canonical rules.
    Coer = 1,
}

/// How many sequences, sets, lists and choices may be nested.
pub const LEVELS: usize = 128;

/// What was refused.
#[derive(Clone, Copy, Debug, PartialEq, Eq)]
pub enum Stage {
    /// Reading the input.
    Reading,
    /// Writing what was read.
    Writing,
    /// Reading the value as the other version.
    ReadingOther,
    /// Writing the value as the other version.
    WritingOther,
}

/// Why a call did nothing.
#[derive(Clone, Copy, Debug, PartialEq, Eq)]
pub enum Error {
    /// So many octets are missing where reading stopped.
    Incomplete { needed: usize },
    /// Another kind of refusal, by its number (`jilgomt_read_kind` and `jilgomt_write_kind` of jilgomt.h), with its fields.
    Refused { stage: Stage, kind: u32, size: usize, number: isize, tag: (u32, u32) },
    /// So many octets of room are needed.
    NoRoom { needed: usize },
    /// No type has the word.
    NoType,
    /// More than 1,024 levels were asked for.
    NoOptions,
}

impl Error {
    /// The name of the kind of a refusal, as `EmptyInteger`.
    pub fn kind_name(&self) -> String {
        let (status, kind) = match self {
            Error::Incomplete { .. } => (1, 1),
            Error::Refused { stage, kind, .. } => match stage {
                Stage::Reading | Stage::ReadingOther => (1, *kind),
                Stage::Writing | Stage::WritingOther => (2, *kind),
            },
            Error::NoRoom { .. } | Error::NoType | Error::NoOptions => return String::new(),
        };
        let mut name = vec![0; 64];
        // SAFETY: pointer and length are of one vector, which is borrowed for the call.
        let length = unsafe { sys::jilgomt_kind_name(status, kind, name.as_mut_ptr(), name.len()) };
        name.truncate(length);
        String::from_utf8_lossy(&name).into_owned()
    }
}

impl fmt::Display for Error {
    fn fmt(&self, f: &mut fmt::Formatter<'_>) -> fmt::Result {
        match self {
            Error::Incomplete { needed } => write!(f, "incomplete: {needed} more octets are needed"),
            Error::Refused { stage: Stage::Reading, .. } => write!(f, "reading refused: {}", self.kind_name()),
            Error::Refused { stage: Stage::Writing, .. } => write!(f, "writing refused: {}", self.kind_name()),
            Error::Refused { .. } => write!(f, "not a value of the other type: {}", self.kind_name()),
            Error::NoRoom { needed } => write!(f, "{needed} octets of room are needed"),
            Error::NoType => write!(f, "no such type"),
            Error::NoOptions => write!(f, "more than 1,024 levels"),
        }
    }
}

impl std::error::Error for Error {}

/// What became of octets that were handed in and of those that were written.
#[derive(Clone, Copy, Debug, PartialEq, Eq)]
pub struct Done {
    /// How many octets of the input were taken.
    pub consumed: usize,
    /// How many octets were written.
    pub written: usize,
}

/// What octets at the front of an input are.
#[derive(Clone, Copy, Debug, PartialEq, Eq)]
pub struct Checked {
    /// How many octets of the input were taken.
    pub consumed: usize,
    /// How many canonical octets the value has.
    pub canonical: usize,
    /// Whether the octets that were taken are these.
    pub is_canonical: bool,
}

fn known(answer: sys::Answer) -> Result<sys::Answer, Error> {
    let stage = match answer.status {
        0 => return Ok(answer),
        1 if answer.kind == 1 => return Err(Error::Incomplete { needed: answer.size }),
        1 => Stage::Reading,
        2 => Stage::Writing,
        3 => return Err(Error::NoRoom { needed: answer.written }),
        4 => return Err(Error::NoType),
        6 => Stage::ReadingOther,
        7 => Stage::WritingOther,
        _ => return Err(Error::NoOptions),
    };
    let tag = (answer.tag_class, answer.tag_number);
    Err(Error::Refused { stage, kind: answer.kind, size: answer.size, number: answer.number, tag })
}

/// Calls with room for the input and some more, and where that is too little with as much as is needed.
fn with_room(size: usize, mut call: impl FnMut(&mut [u8]) -> Result<Done, Error>) -> Result<(Vec<u8>, usize), Error> {
    let mut out = vec![0; size + 16];
    loop {
        match call(&mut out) {
            Ok(done) => {
                out.truncate(done.written);
                return Ok((out, done.consumed));
            }
            Err(Error::NoRoom { needed }) => out.resize(needed, 0),
            Err(e) => return Err(e),
        }
    }
}

/// Puts the canonical octets of the value whose encoding begins the input at the front of `out`; without room for them nothing.
pub fn canonicalise_into(word: &str, mode: Mode, levels: usize, input: &[u8], out: &mut [u8]) -> Result<Done, Error> {
    let mut answer = sys::Answer::default();
    // SAFETY: each pointer and length are of one slice that is borrowed for the call, `out` and `answer` exclusively. The
    // declaration is that of jilgomt.h.
    unsafe {
        sys::jilgomt_canonicalise(
            word.as_ptr(), word.len(), mode as u32, levels, input.as_ptr(), input.len(), out.as_mut_ptr(), out.len(), &mut answer,
        )
    };
    known(answer).map(|it| Done { consumed: it.consumed, written: it.written })
}

/// The canonical octets of the value whose encoding begins the input, and the octets behind it.
pub fn canonicalise<'a>(word: &str, mode: Mode, input: &'a [u8]) -> Result<(Vec<u8>, &'a [u8]), Error> {
    let (octets, consumed) = with_room(input.len(), |out| canonicalise_into(word, mode, LEVELS, input, out))?;
    Ok((octets, &input[consumed..]))
}

/// Whether the encoding that begins the input is canonical.
pub fn check(word: &str, mode: Mode, input: &[u8]) -> Result<Checked, Error> {
    let mut answer = sys::Answer::default();
    // SAFETY: as in `canonicalise_into`.
    unsafe {
        sys::jilgomt_check(word.as_ptr(), word.len(), mode as u32, LEVELS, input.as_ptr(), input.len(), &mut answer)
    };
    known(answer).map(|it| Checked { consumed: it.consumed, canonical: it.written, is_canonical: it.flag == 1 })
}

/// The canonical octets, as another version of the type, of the value whose encoding begins the input, and the octets behind it.
pub fn convert<'a>(from: &str, to: &str, mode: Mode, input: &'a [u8]) -> Result<(Vec<u8>, &'a [u8]), Error> {
    let (octets, consumed) = with_room(input.len(), |out| {
        let mut answer = sys::Answer::default();
        // SAFETY: as in `canonicalise_into`.
        unsafe {
            sys::jilgomt_convert(
                from.as_ptr(), from.len(), to.as_ptr(), to.len(), mode as u32, LEVELS, input.as_ptr(), input.len(),
                out.as_mut_ptr(), out.len(), &mut answer,
            )
        };
        known(answer).map(|it| Done { consumed: it.consumed, written: it.written })
    })?;
    Ok((octets, &input[consumed..]))
}

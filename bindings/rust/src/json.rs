//! Values as JSON, both ways, and declarations in rpcgen's dialect.

use crate::buffer::{fill, with_capacity, AT_OK};
use crate::declarations::{Checked, Declarations, Limits};
use crate::fault::{CheckFault, ReadFault};
use crate::sys;
use std::error::Error;
use std::fmt;

/// Why a JSON text spells no value of the kind within the limits. The place is that of the value or the key that the
/// reason is about, or another that is said here.
#[derive(Clone, Copy, Debug, PartialEq, Eq, Hash)]
#[non_exhaustive]
pub enum JsonReason {
    /// No JSON (RFC 8259), at the token that is refused; or no UTF-8.
    NotJson,
    /// A member that the struct or the union does not have.
    UnknownMember,
    /// A member that is not there, at the object.
    MissingMember,
    /// A member that stands twice, at its second key.
    MemberTwice,
    /// JSON of another form than the kind's.
    WrongType,
    /// A number out of the range of its type, or that no member of the enum has; a string in the place of a number
    /// that is none.
    OutOfRange,
    /// The same where its text has a `.`, an `e` or an `E`: a fraction, an exponent, or a word such as `"hello"`.
    NotWhole,
    /// A name that no member of the enum has.
    UnknownName,
    /// A string that is no pairs of hexadecimal digits.
    BadHex,
    /// More or fewer bytes or items than the kind has.
    WrongLength,
    /// A discriminant without an arm, at the value of `case`.
    NoArm,
    /// Brackets that nest above 4096 deep, at the first of these or the key before it; or a value below the limit on
    /// depth, at the text's end.
    TooDeep,
    /// A value above the limit on bytes, at the text's end.
    TooLarge,
    /// A reason that this crate does not know.
    Unknown(u32),
}

impl JsonReason {
    fn of(number: u32) -> Self {
        match number {
            sys::JSON_NOT_JSON => Self::NotJson,
            sys::JSON_UNKNOWN_MEMBER => Self::UnknownMember,
            sys::JSON_MISSING_MEMBER => Self::MissingMember,
            sys::JSON_MEMBER_TWICE => Self::MemberTwice,
            sys::JSON_WRONG_TYPE => Self::WrongType,
            sys::JSON_OUT_OF_RANGE => Self::OutOfRange,
            sys::JSON_NOT_WHOLE => Self::NotWhole,
            sys::JSON_UNKNOWN_NAME => Self::UnknownName,
            sys::JSON_BAD_HEX => Self::BadHex,
            sys::JSON_WRONG_LENGTH => Self::WrongLength,
            sys::JSON_NO_ARM => Self::NoArm,
            sys::JSON_TOO_DEEP => Self::TooDeep,
            sys::JSON_TOO_LARGE => Self::TooLarge,
            _ => Self::Unknown(number),
        }
    }
}

/// A reason, and its place in the text.
#[derive(Clone, Copy, Debug, PartialEq, Eq, Hash)]
pub struct JsonRefusal {
    /// Why.
    pub why: JsonReason,
    /// How many bytes of the text are before the place.
    pub at: usize,
    /// Its line, from 1. Only a line feed begins a line.
    pub line: usize,
    /// Its column, in bytes from 1.
    pub column: usize,
}

impl fmt::Display for JsonRefusal {
    fn fmt(&self, f: &mut fmt::Formatter<'_>) -> fmt::Result {
        write!(f, "refused {:?} at {}:{}", self.why, self.line, self.column)
    }
}

impl Error for JsonRefusal {}

/// Why no value is read from a JSON text.
#[derive(Clone, Copy, Debug, PartialEq, Eq, Hash)]
#[non_exhaustive]
pub enum JsonFault {
    /// The text spells no value of the kind within the limits.
    Refused(JsonRefusal),
    /// The name is that of no kind.
    NoKind,
    /// A limit is out of its range.
    BadLimits,
    /// Out of memory.
    NoMemory,
    /// A status that this crate does not know for the call.
    Unknown(u32),
}

impl JsonFault {
    fn of(status: u32, outcome: &sys::Outcome) -> Self {
        match status {
            sys::BAD_JSON => Self::Refused(JsonRefusal {
                why: JsonReason::of(outcome.why),
                at: outcome.at,
                line: outcome.line,
                column: outcome.column,
            }),
            sys::NO_KIND => Self::NoKind,
            sys::BAD_LIMITS => Self::BadLimits,
            sys::NO_MEMORY => Self::NoMemory,
            _ => Self::Unknown(status),
        }
    }
}

impl fmt::Display for JsonFault {
    fn fmt(&self, f: &mut fmt::Formatter<'_>) -> fmt::Result {
        match self {
            Self::Refused(refusal) => refusal.fmt(f),
            Self::NoKind => f.write_str("the name is that of no kind"),
            Self::BadLimits => f.write_str("a limit is out of its range"),
            Self::NoMemory => f.write_str("out of memory"),
            Self::Unknown(status) => write!(f, "the unknown status {status}"),
        }
    }
}

impl Error for JsonFault {}

impl Declarations {
    /// Reads declarations in rpcgen's dialect, where these names are defined for its lines of `#`, with a space between
    /// two (docs/LANGUAGE.md). [`ReadFault::BadName`] says that one of them is no name.
    ///
    /// ```
    /// # use oncrpc::{Declarations, Limits};
    /// let text = b"%#include <x.h>\n#ifdef RPC_HDR\ntypedef int here;\n#endif\n";
    /// let mut declarations = Declarations::read_dialect(text, "RPC_HDR RPC_XDR")?;
    /// assert_eq!(declarations.check("here", Limits::MOST, &[0; 4])?.used, 4);
    /// # Ok::<(), Box<dyn std::error::Error>>(())
    /// ```
    pub fn read_dialect(text: &[u8], names: &str) -> Result<Self, ReadFault> {
        let mut read = Self::none();
        let mut outcome = sys::Outcome::default();
        // SAFETY: text and names are slices, and handle and outcome are ours alone.
        let status = unsafe {
            sys::oncrpc_declarations_read_dialect(
                text.as_ptr(),
                text.len(),
                names.as_ptr(),
                names.len(),
                read.handle(),
                &mut outcome,
            )
        };
        match status {
            sys::OK => Ok(read),
            _ => Err(ReadFault::of(status, &outcome)),
        }
    }

    /// The value that begins the input as JSON (docs/FORMATS.md): with a line for each item and each member, or without
    /// spaces. It takes stack for each level of the value, which a limit on depth bounds.
    ///
    /// ```
    /// # use oncrpc::{Declarations, Limits};
    /// let mut declarations = Declarations::read(b"struct pair { int left; bool right; };")?;
    /// let (_, json) = declarations.to_json("pair", Limits::MOST, &[0, 0, 0, 5, 0, 0, 0, 1], false)?;
    /// assert_eq!(json, r#"{"left":5,"right":true}"#);
    /// # Ok::<(), Box<dyn std::error::Error>>(())
    /// ```
    pub fn to_json(
        &mut self,
        name: &str,
        limits: Limits,
        input: &[u8],
        is_indented: bool,
    ) -> Result<(Checked, String), CheckFault> {
        let mut text = Vec::new();
        let (mut status, mut outcome) = self.json_into(name, limits, input, is_indented, &mut text);
        if status == sys::NO_ROOM {
            text = with_capacity(outcome.at).ok_or(CheckFault::NoMemory)?;
            (status, outcome) = self.json_into(name, limits, input, is_indented, &mut text);
        }
        let found = Checked::of(status, &outcome)?;
        Ok((found, String::from_utf8(text).unwrap_or_default()))
    }

    /// The encoding of the value that the JSON text spells (docs/FORMATS.md): any text that says the same as that of
    /// [`Declarations::to_json`]. It takes stack for each level of the value, which a limit on depth bounds.
    ///
    /// ```
    /// # use oncrpc::{Declarations, JsonFault, JsonReason, Limits};
    /// let mut declarations = Declarations::read(b"struct pair { int left; bool right; };")?;
    /// let bytes = declarations.from_json("pair", Limits::MOST, r#"{"right": true, "left": 5}"#)?;
    /// assert_eq!(bytes, [0, 0, 0, 5, 0, 0, 0, 1]);
    /// let refused = declarations.from_json("pair", Limits::MOST, "{\n  \"right\": 1,\n  \"left\": 5\n}");
    /// assert!(matches!(refused, Err(JsonFault::Refused(it)) if it.why == JsonReason::WrongType && it.line == 2));
    /// # Ok::<(), Box<dyn std::error::Error>>(())
    /// ```
    pub fn from_json(&mut self, name: &str, limits: Limits, text: &str) -> Result<Vec<u8>, JsonFault> {
        self.from_json_bytes(name, limits, text.as_bytes())
    }

    /// The same of bytes, which are no JSON where they are no UTF-8.
    pub fn from_json_bytes(&mut self, name: &str, limits: Limits, text: &[u8]) -> Result<Vec<u8>, JsonFault> {
        let mut made = Vec::new();
        let (mut status, mut outcome) = self.spelled_into(name, limits, text, &mut made);
        if status == sys::NO_ROOM {
            made = with_capacity(outcome.at).ok_or(JsonFault::NoMemory)?;
            (status, outcome) = self.spelled_into(name, limits, text, &mut made);
        }
        match status {
            sys::OK => Ok(made),
            _ => Err(JsonFault::of(status, &outcome)),
        }
    }

    /// Puts the encoding into the vector where its capacity is enough.
    fn spelled_into(&mut self, name: &str, limits: Limits, text: &[u8], made: &mut Vec<u8>) -> (u32, sys::Outcome) {
        let mut outcome = sys::Outcome::default();
        let mut written = 0;
        // SAFETY: name and text are slices; at OK so many bytes were written; handle, buffer, count and outcome are
        // ours alone and lie apart.
        let (status, _) = unsafe {
            fill(made, AT_OK, |to, capacity| {
                let status = sys::oncrpc_declarations_from_json(
                    self.handle(),
                    name.as_ptr(),
                    name.len(),
                    limits.depth,
                    limits.bytes,
                    text.as_ptr(),
                    text.len(),
                    to,
                    capacity,
                    &mut written,
                    &mut outcome,
                );
                (status, written)
            })
        };
        (status, outcome)
    }

    /// Puts the text into the vector where its capacity is enough.
    fn json_into(
        &mut self,
        name: &str,
        limits: Limits,
        input: &[u8],
        is_indented: bool,
        text: &mut Vec<u8>,
    ) -> (u32, sys::Outcome) {
        let mut outcome = sys::Outcome::default();
        let mut written = 0;
        // SAFETY: name and input are slices; at OK and MORE_FOLLOWS so many bytes were written; handle, buffer, count
        // and outcome are ours alone and lie apart.
        let (status, _) = unsafe {
            fill(text, &[sys::OK, sys::MORE_FOLLOWS], |to, capacity| {
                let status = sys::oncrpc_declarations_to_json(
                    self.handle(),
                    name.as_ptr(),
                    name.len(),
                    limits.depth,
                    limits.bytes,
                    input.as_ptr(),
                    input.len(),
                    is_indented,
                    to,
                    capacity,
                    &mut written,
                    &mut outcome,
                );
                (status, written)
            })
        };
        (status, outcome)
    }
}

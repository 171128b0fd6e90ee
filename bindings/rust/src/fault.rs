//! Why bytes or texts are refused.

use crate::sys;
use std::error::Error;
use std::fmt;

/// Why bytes are refused. The place is that of the unit (four bytes) or of the node that the reason is about.
#[derive(Clone, Copy, Debug, PartialEq, Eq, Hash)]
#[non_exhaustive]
pub enum Reason {
    /// A boolean or an optional's flag that is neither 0 nor 1 (RFC 4506 sections 4.4, 4.19).
    BadBool,
    /// A number that no member of the enumeration has (RFC 4506 section 4.3).
    BadNumbered,
    /// A discriminant without an arm (RFC 4506 section 4.15).
    BadCase,
    /// A length or a count above its maximum (RFC 4506 sections 4.10 to 4.13); a record above its limit.
    TooLong,
    /// Padding that is not zero (RFC 4506 section 3).
    BadPadding,
    /// A node below the limit on depth.
    TooDeep,
    /// No value within the limit on bytes, which is the place.
    TooLarge,
    /// The bytes end inside the value or the record, at their count, which is the place.
    Truncated,
    /// A reason that this crate does not know.
    Unknown(u32),
}

impl Reason {
    pub(crate) fn of(number: u32) -> Self {
        match number {
            sys::BAD_BOOL => Self::BadBool,
            sys::BAD_NUMBERED => Self::BadNumbered,
            sys::BAD_CASE => Self::BadCase,
            sys::TOO_LONG => Self::TooLong,
            sys::BAD_PADDING => Self::BadPadding,
            sys::TOO_DEEP => Self::TooDeep,
            sys::TOO_LARGE => Self::TooLarge,
            sys::TRUNCATED => Self::Truncated,
            _ => Self::Unknown(number),
        }
    }
}

/// A reason and the count of bytes before the place that it is about.
#[derive(Clone, Copy, Debug, PartialEq, Eq, Hash)]
pub struct Refusal {
    /// Why.
    pub why: Reason,
    /// Where, in bytes from the first.
    pub at: usize,
}

impl Refusal {
    pub(crate) fn of(outcome: &sys::Outcome) -> Self {
        Self {
            why: Reason::of(outcome.why),
            at: outcome.at,
        }
    }
}

impl fmt::Display for Refusal {
    fn fmt(&self, f: &mut fmt::Formatter<'_>) -> fmt::Result {
        write!(f, "refused {:?} at {}", self.why, self.at)
    }
}

impl Error for Refusal {}

/// Why there is no value at the front of the bytes.
#[derive(Clone, Copy, Debug, PartialEq, Eq, Hash)]
#[non_exhaustive]
pub enum CheckFault {
    /// The bytes are refused.
    Refused(Refusal),
    /// The name is that of no kind.
    NoKind,
    /// A limit is out of its range.
    BadLimits,
    /// Out of memory.
    NoMemory,
    /// A status that this crate does not know for the call.
    Unknown(u32),
}

impl CheckFault {
    pub(crate) fn of(status: u32, outcome: &sys::Outcome) -> Self {
        match status {
            sys::REFUSED => Self::Refused(Refusal::of(outcome)),
            sys::NO_KIND => Self::NoKind,
            sys::BAD_LIMITS => Self::BadLimits,
            sys::NO_MEMORY => Self::NoMemory,
            _ => Self::Unknown(status),
        }
    }
}

impl fmt::Display for CheckFault {
    fn fmt(&self, f: &mut fmt::Formatter<'_>) -> fmt::Result {
        match self {
            Self::Refused(refusal) => refusal.fmt(f),
            Self::NoKind => f.write_str("the name is that of no kind"),
            Self::BadLimits => f.write_str("a limit is out of its range"),
            Self::NoMemory => f.write_str("out of memory"),
            Self::Unknown(status) => write!(f, "the unknown status {status}"),
        }
    }
}

impl Error for CheckFault {}

/// What is wrong with a text of declarations (docs/LANGUAGE.md explains each).
#[derive(Clone, Copy, Debug, PartialEq, Eq, Hash)]
#[non_exhaustive]
pub enum TextFaultKind {
    /// A character that no token has.
    BadCharacter,
    /// A number that is none of the language.
    BadNumber,
    /// A token that cannot stand there.
    Unexpected,
    /// `float`, `double` or `quadruple`.
    FloatingKind,
    /// A name that is declared twice.
    NameTwice,
    /// A name that is not declared.
    NameUnknown,
    /// A size that is none.
    NotASize,
    /// A number out of its range.
    OutOfRange,
    /// A typedef that leads to itself.
    TypedefLoop,
    /// A schema that is refused; the number says why.
    BadSchema(u32),
    /// More than 262144 bytes.
    TextTooLong,
    /// More than 32 bodies of types inside one another.
    NestedTooDeep,
    /// A fault that this crate does not know.
    Unknown(u32),
}

/// What is wrong with a text of declarations, and where.
#[derive(Clone, Copy, Debug, PartialEq, Eq, Hash)]
pub struct TextFault {
    /// What is wrong.
    pub kind: TextFaultKind,
    /// The line, from 1.
    pub line: usize,
    /// The column, in bytes from 1.
    pub column: usize,
}

impl TextFault {
    fn of(outcome: &sys::Outcome) -> Self {
        let kind = match outcome.why {
            sys::BAD_CHARACTER => TextFaultKind::BadCharacter,
            sys::BAD_NUMBER => TextFaultKind::BadNumber,
            sys::UNEXPECTED => TextFaultKind::Unexpected,
            sys::FLOATING_KIND => TextFaultKind::FloatingKind,
            sys::NAME_TWICE => TextFaultKind::NameTwice,
            sys::NAME_UNKNOWN => TextFaultKind::NameUnknown,
            sys::NOT_A_SIZE => TextFaultKind::NotASize,
            sys::OUT_OF_RANGE => TextFaultKind::OutOfRange,
            sys::TYPEDEF_LOOP => TextFaultKind::TypedefLoop,
            sys::BAD_SCHEMA => TextFaultKind::BadSchema(outcome.inner),
            sys::TEXT_TOO_LONG => TextFaultKind::TextTooLong,
            sys::NESTED_TOO_DEEP => TextFaultKind::NestedTooDeep,
            number => TextFaultKind::Unknown(number),
        };
        Self {
            kind,
            line: outcome.line,
            column: outcome.column,
        }
    }
}

/// Why a text was not read.
#[derive(Clone, Copy, Debug, PartialEq, Eq, Hash)]
#[non_exhaustive]
pub enum ReadFault {
    /// The text has an error.
    Undeclared(TextFault),
    /// One of the names to be defined is none: letters, digits and `_`, no digit first, and no value.
    BadName,
    /// Out of memory.
    NoMemory,
    /// A status that this crate does not know for the call.
    Unknown(u32),
}

impl ReadFault {
    pub(crate) fn of(status: u32, outcome: &sys::Outcome) -> Self {
        match status {
            sys::UNDECLARED => Self::Undeclared(TextFault::of(outcome)),
            sys::NO_KIND => Self::BadName,
            sys::NO_MEMORY => Self::NoMemory,
            _ => Self::Unknown(status),
        }
    }
}

impl fmt::Display for ReadFault {
    fn fmt(&self, f: &mut fmt::Formatter<'_>) -> fmt::Result {
        match self {
            Self::Undeclared(it) => write!(f, "declaration refused: {:?} at {}:{}", it.kind, it.line, it.column),
            Self::BadName => f.write_str("what is to be defined is no name"),
            Self::NoMemory => f.write_str("out of memory"),
            Self::Unknown(status) => write!(f, "the unknown status {status}"),
        }
    }
}

impl Error for ReadFault {}

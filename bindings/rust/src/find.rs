//! One part of a value by its path, and the number of a part.

use crate::declarations::{Declarations, Limits};
use crate::fault::Refusal;
use crate::parts::Part;
use crate::sys;
use std::error::Error;
use std::fmt;

/// Why no part is found.
#[derive(Clone, Copy, Debug, PartialEq, Eq, Hash)]
#[non_exhaustive]
pub enum FindFault {
    /// The value has no part with the path.
    NoSuchPart,
    /// The bytes are refused.
    Refused(Refusal),
    /// The name is that of no kind.
    NoKind,
    /// A limit is out of its range.
    BadLimits,
    /// Out of memory.
    NoMemory,
    /// A status that this crate does not know for the call.
    Unknown(u32),
}

impl FindFault {
    fn of(status: u32, outcome: &sys::Outcome) -> Self {
        match status {
            sys::NO_SUCH_PART => Self::NoSuchPart,
            sys::REFUSED => Self::Refused(Refusal::of(outcome)),
            sys::NO_KIND => Self::NoKind,
            sys::BAD_LIMITS => Self::BadLimits,
            sys::NO_MEMORY => Self::NoMemory,
            _ => Self::Unknown(status),
        }
    }
}

impl fmt::Display for FindFault {
    fn fmt(&self, f: &mut fmt::Formatter<'_>) -> fmt::Result {
        match self {
            Self::NoSuchPart => f.write_str("the value has no part with the path"),
            Self::Refused(refusal) => refusal.fmt(f),
            Self::NoKind => f.write_str("the name is that of no kind"),
            Self::BadLimits => f.write_str("a limit is out of its range"),
            Self::NoMemory => f.write_str("out of memory"),
            Self::Unknown(status) => write!(f, "the unknown status {status}"),
        }
    }
}

impl Error for FindFault {}

impl Declarations {
    /// The part that a path names, of the value that begins the input. No list of parts is made: memory is a frame for
    /// each open node. Its name is empty, since the path has it. More bytes may follow the value.
    ///
    /// A path is the names of fields and arms with dots between them, and `[i]` behind an array for the item i, from 0.
    /// The empty path is the value itself. Of an opaque or a string the content is meant. Optional data is its item,
    /// however often; where it is not there, a path to it names its flag, and no path leads on. (The paths of
    /// [`Parts::get`](crate::Parts::get) name the item of an optional by `[0]`.)
    ///
    /// ```
    /// # use oncrpc::{Declarations, FindFault, Limits};
    /// let mut declarations = Declarations::read(b"struct dir { string name<>; unsigned int sizes<>; dir *next; };")?;
    /// let input = b"\0\0\0\x03usr\0\0\0\0\x02\0\0\0\x07\0\0\0\x08\0\0\0\x01\0\0\0\x01a\0\0\0\0\0\0\0\0\0\0\0";
    /// assert_eq!(declarations.find("dir", Limits::MOST, input, "name")?.bytes, b"usr");
    /// assert_eq!(declarations.find("dir", Limits::MOST, input, "sizes[1]")?.u32(), Some(8));
    /// assert_eq!(declarations.find("dir", Limits::MOST, input, "next.name")?.bytes, b"a");
    /// assert_eq!(declarations.find("dir", Limits::MOST, input, "next.next")?.bool(), Some(false));
    /// let none = declarations.find("dir", Limits::MOST, input, "next.next.name");
    /// assert_eq!(none, Err(FindFault::NoSuchPart));
    /// # Ok::<(), Box<dyn std::error::Error>>(())
    /// ```
    pub fn find<'a>(&mut self, name: &str, limits: Limits, input: &'a [u8], path: &str) -> Result<Part<'a>, FindFault> {
        let (mut part, mut outcome) = (sys::ValuePart::default(), sys::Outcome::default());
        // SAFETY: name, input and path are slices; handle, part and outcome are ours alone and lie apart.
        let status = unsafe {
            sys::oncrpc_declarations_find(
                self.handle(),
                name.as_ptr(),
                name.len(),
                limits.depth,
                limits.bytes,
                input.as_ptr(),
                input.len(),
                path.as_ptr(),
                path.len(),
                &mut part,
                &mut outcome,
            )
        };
        match status {
            sys::OK => Ok(Part::of(&part, input, &[])),
            _ => Err(FindFault::of(status, &outcome)),
        }
    }

    /// The number of a part that was found by these declarations: of an integer, a bool, an enum, a discriminant, a
    /// flag or a length. `None` of another part. It takes no memory.
    ///
    /// ```
    /// # use oncrpc::{Declarations, Limits};
    /// let mut declarations = Declarations::read(b"enum level { LOW = -1, HIGH = 1 };")?;
    /// let part = declarations.find("level", Limits::MOST, &[0xff; 4], "")?;
    /// assert_eq!(declarations.number(&part), Some(-1));
    /// # Ok::<(), Box<dyn std::error::Error>>(())
    /// ```
    #[must_use]
    pub fn number(&mut self, part: &Part<'_>) -> Option<i128> {
        let lent = sys::ValuePart {
            count: part.bytes.len(),
            kind: part.kind,
            role: part.role.number(),
            ..sys::ValuePart::default()
        };
        let mut number = sys::Number::default();
        // SAFETY: the bytes are a slice; handle and number are ours alone and lie apart.
        let status = unsafe {
            sys::oncrpc_part_number(self.handle(), part.bytes.as_ptr(), part.bytes.len(), &lent, &mut number)
        };
        let told = if number.signed_number < 0 {
            number.signed_number.into()
        } else {
            number.number.into()
        };
        (status == sys::OK).then_some(told)
    }
}

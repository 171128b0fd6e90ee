//! The parts of a value, where they lie.

use crate::buffer::with_capacity;
use crate::declarations::{Checked, Declarations, Limits};
use crate::fault::CheckFault;
use crate::path::steps;
use crate::sys;
use std::fmt;
use std::iter::FusedIterator;
use std::slice;

/// What the bytes of a part are (RFC 4506 section 4). A number has its most significant byte first.
#[derive(Clone, Copy, Debug, PartialEq, Eq, Hash)]
#[non_exhaustive]
pub enum Role {
    /// An integer, a bool, an enum, a discriminant: 4 bytes, 8 of the hyper types.
    Number,
    /// Whether an optional item is there: 4 bytes, the number 0 or 1.
    Flag,
    /// How many bytes of content, or items, follow: 4 bytes.
    Length,
    /// The bytes of an opaque or a string, without the zeros behind them.
    Content,
    /// No bytes of its own: a struct, an array of fixed size, a void.
    Group,
    /// A role that this crate does not know.
    Unknown(u32),
}

impl Role {
    fn of(number: u32) -> Self {
        match number {
            sys::ROLE_NUMBER => Self::Number,
            sys::ROLE_FLAG => Self::Flag,
            sys::ROLE_LENGTH => Self::Length,
            sys::ROLE_CONTENT => Self::Content,
            sys::ROLE_GROUP => Self::Group,
            _ => Self::Unknown(number),
        }
    }

    pub(crate) fn number(self) -> u32 {
        match self {
            Self::Number => sys::ROLE_NUMBER,
            Self::Flag => sys::ROLE_FLAG,
            Self::Length => sys::ROLE_LENGTH,
            Self::Content => sys::ROLE_CONTENT,
            Self::Group => sys::ROLE_GROUP,
            Self::Unknown(number) => number,
        }
    }
}

/// The type of a part's kind (RFC 4506 sections 4.1 to 4.19).
#[derive(Clone, Copy, Debug, PartialEq, Eq, Hash)]
#[allow(missing_docs)]
#[non_exhaustive]
pub enum XdrType {
    Int,
    Unsigned,
    Hyper,
    UnsignedHyper,
    Bool,
    Enum,
    /// An opaque of fixed size.
    FixedOpaque,
    /// An opaque of variable size.
    Opaque,
    String,
    /// An array of fixed size.
    FixedArray,
    /// An array of variable size.
    Array,
    Struct,
    Union,
    Optional,
    Void,
    /// A type that this crate does not know.
    Unknown(u32),
}

impl XdrType {
    pub(crate) fn of(number: u32) -> Self {
        match number {
            sys::TYPE_INT => Self::Int,
            sys::TYPE_UNSIGNED => Self::Unsigned,
            sys::TYPE_HYPER => Self::Hyper,
            sys::TYPE_UNSIGNED_HYPER => Self::UnsignedHyper,
            sys::TYPE_BOOL => Self::Bool,
            sys::TYPE_ENUM => Self::Enum,
            sys::TYPE_FIXED_OPAQUE => Self::FixedOpaque,
            sys::TYPE_OPAQUE => Self::Opaque,
            sys::TYPE_STRING => Self::String,
            sys::TYPE_FIXED_ARRAY => Self::FixedArray,
            sys::TYPE_ARRAY => Self::Array,
            sys::TYPE_STRUCT => Self::Struct,
            sys::TYPE_UNION => Self::Union,
            sys::TYPE_OPTIONAL => Self::Optional,
            sys::TYPE_VOID => Self::Void,
            _ => Self::Unknown(number),
        }
    }
}

/// A part: each node of a value has one, and an opaque or a string of variable size two, its length and its content.
#[derive(Clone, Copy, Debug, PartialEq, Eq, Hash)]
pub struct Part<'a> {
    /// How many bytes of the input stand before it.
    pub at: usize,
    /// The bytes of the node itself, and not those inside it.
    pub bytes: &'a [u8],
    /// The name of the field or the arm; empty of the value itself and of items.
    pub name: &'a [u8],
    /// How deep its node is; the value itself is at 1.
    pub depth: u32,
    /// Which kind of the declarations its node has: the same number, the same kind.
    pub kind: u32,
    /// The type of that kind.
    pub xdr_type: XdrType,
    /// What its bytes are.
    pub role: Role,
}

impl<'a> Part<'a> {
    /// What a part of C tells, by the input and the names that it lies in.
    pub(crate) fn of(part: &sys::ValuePart, input: &'a [u8], names: &'a [u8]) -> Self {
        Self {
            at: part.at,
            bytes: &input[part.at..][..part.count],
            name: &names[part.name_at..][..part.name_count],
            depth: part.depth,
            kind: part.kind,
            xdr_type: XdrType::of(part.xdr_type),
            role: Role::of(part.role),
        }
    }
}

impl Part<'_> {
    /// The bytes, where there are as many as this.
    fn exactly<const COUNT: usize>(&self) -> Option<[u8; COUNT]> {
        self.bytes.try_into().ok()
    }

    fn has_number_of(&self, types: &[XdrType]) -> bool {
        self.role == Role::Number && types.contains(&self.xdr_type)
    }

    /// The number of an unsigned integer or of a length. A discriminant is read so too, since its part does not say
    /// whether it has a sign.
    #[must_use]
    pub fn u32(&self) -> Option<u32> {
        let is_one = self.role == Role::Length || self.has_number_of(&[XdrType::Unsigned, XdrType::Union]);
        self.exactly().filter(|_| is_one).map(u32::from_be_bytes)
    }

    /// The number of an integer or of an enumeration. A discriminant is read so too, since its part does not say whether
    /// it has a sign.
    #[must_use]
    pub fn i32(&self) -> Option<i32> {
        let is_one = self.has_number_of(&[XdrType::Int, XdrType::Enum, XdrType::Union]);
        self.exactly().filter(|_| is_one).map(i32::from_be_bytes)
    }

    /// The number of an unsigned hyper integer.
    #[must_use]
    pub fn u64(&self) -> Option<u64> {
        let is_one = self.has_number_of(&[XdrType::UnsignedHyper]);
        self.exactly().filter(|_| is_one).map(u64::from_be_bytes)
    }

    /// The number of a hyper integer.
    #[must_use]
    pub fn i64(&self) -> Option<i64> {
        let is_one = self.has_number_of(&[XdrType::Hyper]);
        self.exactly().filter(|_| is_one).map(i64::from_be_bytes)
    }

    /// What a boolean is, a discriminant of 0 or 1, or whether an optional item is there.
    #[must_use]
    pub fn bool(&self) -> Option<bool> {
        let is_one = self.role == Role::Flag || self.has_number_of(&[XdrType::Bool, XdrType::Union]);
        match self.exactly().filter(|_| is_one).map(u32::from_be_bytes)? {
            0 => Some(false),
            1 => Some(true),
            _ => None,
        }
    }
}

/// The parts of a value in the order of its bytes, a node before those inside it.
#[must_use]
pub struct Parts<'a> {
    input: &'a [u8],
    names: Vec<u8>,
    parts: Vec<sys::ValuePart>,
}

impl Parts<'_> {
    /// How many there are.
    #[must_use]
    pub fn len(&self) -> usize {
        self.parts.len()
    }

    /// No value is without parts.
    #[must_use]
    pub fn is_empty(&self) -> bool {
        self.parts.is_empty()
    }

    /// Each of them.
    pub fn iter(&self) -> Iter<'_> {
        Iter {
            input: self.input,
            names: &self.names,
            parts: self.parts.iter(),
        }
    }

    /// The part to which a path leads: of an opaque or a string its content, of any other node its only one. None where
    /// it leads to nothing. All parts before it are gone over.
    ///
    /// A path is the names of fields and arms, with dots between them, and `[i]` for the item i, from 0, of an array.
    /// The item of an optional is its item 0 (RFC 4506 section 4.19). The empty path leads to the value itself.
    ///
    /// ```
    /// # use oncrpc::{Declarations, Limits};
    /// let mut declarations = Declarations::read(b"struct dir { string name<>; unsigned int sizes<>; dir *next; };")?;
    /// let input = b"\0\0\0\x03usr\0\0\0\0\x02\0\0\0\x07\0\0\0\x08\0\0\0\x01\0\0\0\x01a\0\0\0\0\0\0\0\0\0\0\0";
    /// let (_, parts) = declarations.parts("dir", Limits::MOST, input)?;
    /// assert_eq!(parts.get("name").map(|part| part.bytes), Some(b"usr".as_slice()));
    /// assert_eq!(parts.get("sizes[1]").and_then(|part| part.u32()), Some(8));
    /// assert_eq!(parts.get("next").and_then(|part| part.bool()), Some(true));
    /// assert_eq!(parts.get("next[0].name").map(|part| part.bytes), Some(b"a".as_slice()));
    /// assert_eq!(parts.get("next[0].next[0]").map(|part| part.bytes), None);
    /// # Ok::<(), Box<dyn std::error::Error>>(())
    /// ```
    #[must_use]
    pub fn get(&self, path: &str) -> Option<Part<'_>> {
        let mut left = self.iter().peekable();
        let mut found = left.next()?;
        for step in steps(path) {
            found = step?.taken(found, &mut left)?;
        }
        let is_length = found.role == Role::Length && found.xdr_type != XdrType::Array;
        if is_length {
            left.next()
        } else {
            Some(found)
        }
    }
}

impl fmt::Debug for Parts<'_> {
    fn fmt(&self, f: &mut fmt::Formatter<'_>) -> fmt::Result {
        f.debug_list().entries(self).finish()
    }
}

impl<'a> IntoIterator for &'a Parts<'_> {
    type Item = Part<'a>;
    type IntoIter = Iter<'a>;

    fn into_iter(self) -> Iter<'a> {
        self.iter()
    }
}

/// The parts of a value, from [`Parts::iter`].
#[derive(Clone)]
#[must_use]
pub struct Iter<'a> {
    input: &'a [u8],
    names: &'a [u8],
    parts: slice::Iter<'a, sys::ValuePart>,
}

impl<'a> Iter<'a> {
    fn told(&self, part: &sys::ValuePart) -> Part<'a> {
        Part::of(part, self.input, self.names)
    }
}

impl<'a> Iterator for Iter<'a> {
    type Item = Part<'a>;

    fn next(&mut self) -> Option<Part<'a>> {
        self.parts.next().map(|part| self.told(part))
    }

    fn size_hint(&self) -> (usize, Option<usize>) {
        self.parts.size_hint()
    }

    fn nth(&mut self, count: usize) -> Option<Part<'a>> {
        self.parts.nth(count).map(|part| self.told(part))
    }
}

impl DoubleEndedIterator for Iter<'_> {
    fn next_back(&mut self) -> Option<Self::Item> {
        self.parts.next_back().map(|part| self.told(part))
    }
}

impl ExactSizeIterator for Iter<'_> {}

impl FusedIterator for Iter<'_> {}

impl fmt::Debug for Iter<'_> {
    fn fmt(&self, f: &mut fmt::Formatter<'_>) -> fmt::Result {
        f.debug_list().entries(self.clone()).finish()
    }
}

impl Declarations {
    /// Where the parts of the value that begins the input lie. Two vectors are made, for the parts and their names.
    pub fn parts<'a>(
        &mut self,
        name: &str,
        limits: Limits,
        input: &'a [u8],
    ) -> Result<(Checked, Parts<'a>), CheckFault> {
        let (mut parts, mut names) = (Vec::new(), Vec::new());
        let (mut status, mut found) = self.parts_into(name, limits, input, &mut parts, &mut names);
        if status == sys::NO_ROOM {
            parts = with_capacity(found.parts).ok_or(CheckFault::NoMemory)?;
            names = with_capacity(found.names).ok_or(CheckFault::NoMemory)?;
            (status, found) = self.parts_into(name, limits, input, &mut parts, &mut names);
        }
        let outcome = sys::Outcome {
            at: found.at,
            why: found.why,
            ..sys::Outcome::default()
        };
        let checked = Checked::of(status, &outcome)?;
        Ok((checked, Parts { input, names, parts }))
    }

    /// Puts parts and names into the vectors, which are empty, where their capacities are enough.
    fn parts_into(
        &mut self,
        name: &str,
        limits: Limits,
        input: &[u8],
        parts: &mut Vec<sys::ValuePart>,
        names: &mut Vec<u8>,
    ) -> (u32, sys::PartsOutcome) {
        let mut outcome = sys::PartsOutcome::default();
        // SAFETY: name and input are slices; handle, capacities and outcome are ours alone and lie apart.
        let status = unsafe {
            sys::oncrpc_declarations_parts(
                self.handle(),
                name.as_ptr(),
                name.len(),
                limits.depth,
                limits.bytes,
                input.as_ptr(),
                input.len(),
                parts.as_mut_ptr(),
                parts.capacity(),
                names.as_mut_ptr(),
                names.capacity(),
                &mut outcome,
            )
        };
        if matches!(status, sys::OK | sys::MORE_FOLLOWS) {
            // SAFETY: so many were written.
            unsafe {
                parts.set_len(outcome.parts);
                names.set_len(outcome.names);
            }
        }
        (status, outcome)
    }
}

//! The parts of a value one by one.

use crate::declarations::{Checked, Declarations, Limits};
use crate::fault::CheckFault;
use crate::parts::Part;
use crate::sys;
use std::error::Error;
use std::fmt;
use std::iter::FusedIterator;
use std::ptr;

/// How many bytes a buffer for names has at first.
const NAME: usize = 64;

/// Why a cursor gives no part.
#[derive(Clone, Copy, Debug, PartialEq, Eq, Hash)]
#[non_exhaustive]
pub enum CursorFault {
    /// Out of memory. The call may be made again.
    NoMemory,
    /// A status that this crate does not know for the call.
    Unknown(u32),
}

impl CursorFault {
    fn of(status: u32) -> Self {
        match status {
            sys::NO_MEMORY => Self::NoMemory,
            _ => Self::Unknown(status),
        }
    }
}

impl fmt::Display for CursorFault {
    fn fmt(&self, f: &mut fmt::Formatter<'_>) -> fmt::Result {
        match self {
            Self::NoMemory => f.write_str("out of memory"),
            Self::Unknown(status) => write!(f, "the unknown status {status}"),
        }
    }
}

impl Error for CursorFault {}

/// The parts of a value one by one, in the order of [`Parts`](crate::Parts): no list of them is made. Memory is a frame
/// for each open node, and one name.
///
/// The name of a part is empty, and [`Cursor::name`] has that of the last.
///
/// ```
/// # use oncrpc::{Declarations, Limits};
/// let mut declarations = Declarations::read(b"struct dir { string name<>; unsigned int sizes<>; bool last; };")?;
/// let input = b"\0\0\0\x03usr\0\0\0\0\x02\0\0\0\x07\0\0\0\x08\0\0\0\x01";
/// let mut cursor = declarations.cursor("dir", Limits::MOST, input)?;
/// let mut places = Vec::new();
/// while let Some(part) = cursor.next().transpose()? {
///     places.push(part.at);
///     if cursor.name() == b"sizes" {
///         cursor.skip_deeper(part.depth)?; // its items
///     }
/// }
/// assert_eq!(places, [0, 0, 4, 8, 20]);
/// # Ok::<(), Box<dyn std::error::Error>>(())
/// ```
#[derive(Debug)]
#[must_use]
pub struct Cursor<'d, 'a> {
    declarations: &'d mut Declarations,
    input: &'a [u8],
    handle: sys::PartsCursor,
    checked: Checked,
    name: Vec<u8>,
}

impl Declarations {
    /// A cursor before the first part of the value that begins the input, which is judged here.
    pub fn cursor<'d, 'a>(
        &'d mut self,
        name: &str,
        limits: Limits,
        input: &'a [u8],
    ) -> Result<Cursor<'d, 'a>, CheckFault> {
        let mut handle = sys::PartsCursor {
            at: ptr::null_mut(),
            live: false,
        };
        let mut outcome = sys::Outcome::default();
        // SAFETY: name and input are slices; both handles and the outcome are ours alone and lie apart.
        let status = unsafe {
            sys::oncrpc_declarations_parts_start(
                self.handle(),
                name.as_ptr(),
                name.len(),
                limits.depth,
                limits.bytes,
                input.as_ptr(),
                input.len(),
                &mut handle,
                &mut outcome,
            )
        };
        let checked = Checked::of(status, &outcome)?;
        Ok(Cursor {
            declarations: self,
            input,
            handle,
            checked,
            name: Vec::new(),
        })
    }
}

impl<'a> Cursor<'_, 'a> {
    /// What a check tells of the value.
    pub fn checked(&self) -> Checked {
        self.checked
    }

    /// The name of the part that was given last: that of the field or the arm; empty of the value itself and of items,
    /// and where none was given.
    #[must_use]
    pub fn name(&self) -> &[u8] {
        &self.name
    }

    /// Passes over the parts that come next, as long as they are deeper than `depth`. Behind a part with its depth that
    /// is all inside its node, and with its depth less 1 all that is left of the node around it.
    pub fn skip_deeper(&mut self, depth: u32) -> Result<(), CursorFault> {
        // SAFETY: the input is a slice; both handles are ours alone and lie apart.
        let status = unsafe {
            sys::oncrpc_declarations_parts_skip(
                self.declarations.handle(),
                &mut self.handle,
                self.input.as_ptr(),
                self.input.len(),
                depth,
            )
        };
        match status {
            sys::OK => Ok(()),
            _ => Err(CursorFault::of(status)),
        }
    }

    /// The next part, and its name where the buffer, which has room for one byte at least, has room for all of it.
    fn give(&mut self) -> (u32, sys::ValuePart) {
        let mut part = sys::ValuePart::default();
        self.name.clear();
        let spare = self.name.spare_capacity_mut();
        // SAFETY: input and buffer are slices; both handles and the part are ours alone and lie apart.
        let status = unsafe {
            sys::oncrpc_declarations_parts_next(
                self.declarations.handle(),
                &mut self.handle,
                self.input.as_ptr(),
                self.input.len(),
                &mut part,
                spare.as_mut_ptr().cast(),
                spare.len(),
            )
        };
        if status == sys::OK {
            // SAFETY: so many bytes were written.
            unsafe { self.name.set_len(part.name_count) };
        }
        (status, part)
    }

    /// The next part, with a buffer that is large enough for its name.
    fn give_named(&mut self) -> Result<(u32, sys::ValuePart), CursorFault> {
        self.name.clear();
        self.name.try_reserve(NAME).map_err(|_| CursorFault::NoMemory)?;
        let (status, part) = self.give();
        if status != sys::NO_ROOM {
            return Ok((status, part));
        }
        self.name
            .try_reserve(part.name_count)
            .map_err(|_| CursorFault::NoMemory)?;
        Ok(self.give())
    }
}

impl<'a> Iterator for Cursor<'_, 'a> {
    type Item = Result<Part<'a>, CursorFault>;

    fn next(&mut self) -> Option<Self::Item> {
        match self.give_named() {
            Ok((sys::OK, part)) => {
                let nameless = sys::ValuePart { name_count: 0, ..part };
                Some(Ok(Part::of(&nameless, self.input, &[])))
            }
            Ok((sys::NO_PART, _)) => None,
            Ok((status, _)) => Some(Err(CursorFault::of(status))),
            Err(fault) => Some(Err(fault)),
        }
    }
}

impl FusedIterator for Cursor<'_, '_> {}

// SAFETY: what the handle owns, a block of the heap and plain data, names no thread, as is proved of it.
unsafe impl Send for Cursor<'_, '_> {}

impl Drop for Cursor<'_, '_> {
    fn drop(&mut self) {
        // SAFETY: the handle is ours alone; one that holds none is left as it is.
        unsafe { sys::oncrpc_parts_free(&mut self.handle) }
    }
}

//! Declarations in the XDR language, and values of the kinds that they declare.

use crate::buffer::{fill, with_capacity};
use crate::fault::{CheckFault, ReadFault};
use crate::sys;
use std::ptr;

/// How deep a value may be, and how many bytes it may have.
#[derive(Clone, Copy, Debug, PartialEq, Eq, Hash)]
pub struct Limits {
    /// From 1, where the value itself is at 1, to 4096.
    pub depth: u32,
    /// From 4 to 16777216, a multiple of four.
    pub bytes: u32,
}

impl Limits {
    /// The greatest limits that are taken.
    pub const MOST: Self = Self {
        depth: sys::MOST_DEPTH,
        bytes: sys::MOST_BYTES,
    };
}

/// A value at the front of the bytes.
#[derive(Clone, Copy, Debug, PartialEq, Eq, Hash)]
#[must_use = "bytes may follow the value"]
pub struct Checked {
    /// How many bytes it has.
    pub used: usize,
    /// Whether at least one more byte follows it.
    pub more_follows: bool,
}

impl Checked {
    pub(crate) fn of(status: u32, outcome: &sys::Outcome) -> Result<Self, CheckFault> {
        match status {
            sys::OK | sys::MORE_FOLLOWS => Ok(Self {
                used: outcome.at,
                more_follows: status == sys::MORE_FOLLOWS,
            }),
            _ => Err(CheckFault::of(status, outcome)),
        }
    }
}

/// Declarations that were read. A check borrows them alone, and writes to what they hold: they are `Send` and not
/// `Sync`, so threads that share them take a lock.
///
/// ```compile_fail
/// fn shared<T: Sync>() {}
/// shared::<oncrpc::Declarations>();
/// ```
///
/// ```
/// # use oncrpc::{Declarations, Limits, Reason};
/// let mut declarations = Declarations::read(b"struct pair { int left; bool right; };")?;
/// let input = [0, 0, 0, 5, 0, 0, 0, 1, 9];
/// let (checked, lines) = declarations.show("pair", Limits::MOST, &input)?;
/// assert_eq!((checked.used, checked.more_follows), (8, true));
/// assert_eq!(lines, "struct\n  left: 5\n  right: TRUE\n");
/// # Ok::<(), Box<dyn std::error::Error>>(())
/// ```
#[derive(Debug)]
#[must_use]
pub struct Declarations {
    handle: sys::Declarations,
}

impl Declarations {
    /// A handle of none.
    pub(crate) fn none() -> Self {
        Self {
            handle: sys::Declarations {
                at: ptr::null_mut(),
                live: false,
            },
        }
    }

    /// Reads declarations in the XDR language (RFC 4506 section 6), at most 262144 bytes of them.
    pub fn read(text: &[u8]) -> Result<Self, ReadFault> {
        let mut read = Self::none();
        let mut outcome = sys::Outcome::default();
        // SAFETY: the text is a slice, and handle and outcome are ours alone.
        let status =
            unsafe { sys::oncrpc_declarations_read(text.as_ptr(), text.len(), &mut read.handle, &mut outcome) };
        match status {
            sys::OK => Ok(read),
            _ => Err(ReadFault::of(status, &outcome)),
        }
    }

    /// Tells whether a value of the kind begins the input. The name is one that the text declares, or that of a basic
    /// kind: `int`, `unsigned`, `hyper`, `unsigned-hyper`, `bool`, `opaque`, `string`. Or it is `P.V.N.K`, the K-th
    /// argument, from 1, of procedure N in version V of program P, or `P.V.N.result`. Builds no value.
    ///
    /// ```
    /// # use oncrpc::{CheckFault, Declarations, Limits, Reason, Refusal};
    /// let mut declarations = Declarations::read(b"")?;
    /// let refusal = Refusal { why: Reason::BadBool, at: 0 };
    /// assert_eq!(declarations.check("bool", Limits::MOST, &[0, 0, 0, 2]), Err(CheckFault::Refused(refusal)));
    /// # Ok::<(), Box<dyn std::error::Error>>(())
    /// ```
    pub fn check(&mut self, name: &str, limits: Limits, input: &[u8]) -> Result<Checked, CheckFault> {
        let mut outcome = sys::Outcome::default();
        // SAFETY: name and input are slices, and handle and outcome are ours alone.
        let status = unsafe {
            sys::oncrpc_declarations_check(
                &mut self.handle,
                name.as_ptr(),
                name.len(),
                limits.depth,
                limits.bytes,
                input.as_ptr(),
                input.len(),
                &mut outcome,
            )
        };
        Checked::of(status, &outcome)
    }

    /// The lines of the value that begins the input, one for each part, as `oncrpc show` prints them.
    pub fn show(&mut self, name: &str, limits: Limits, input: &[u8]) -> Result<(Checked, String), CheckFault> {
        let mut lines = Vec::new();
        let (mut status, mut outcome) = self.show_into(name, limits, input, &mut lines);
        if status == sys::NO_ROOM {
            lines = with_capacity(outcome.at).ok_or(CheckFault::NoMemory)?;
            (status, outcome) = self.show_into(name, limits, input, &mut lines);
        }
        let found = Checked::of(status, &outcome)?;
        Ok((found, as_text(lines)))
    }

    pub(crate) fn handle(&mut self) -> &mut sys::Declarations {
        &mut self.handle
    }

    /// Puts the lines into the vector where its capacity is enough.
    fn show_into(&mut self, name: &str, limits: Limits, input: &[u8], lines: &mut Vec<u8>) -> (u32, sys::Outcome) {
        let mut outcome = sys::Outcome::default();
        let mut written = 0;
        // SAFETY: name and input are slices; at OK and MORE_FOLLOWS so many bytes were written; handle, buffer, count
        // and outcome are ours alone and lie apart.
        let (status, _) = unsafe {
            fill(lines, &[sys::OK, sys::MORE_FOLLOWS], |to, capacity| {
                let status = sys::oncrpc_declarations_show(
                    &mut self.handle,
                    name.as_ptr(),
                    name.len(),
                    limits.depth,
                    limits.bytes,
                    input.as_ptr(),
                    input.len(),
                    to,
                    capacity,
                    &mut written,
                    &mut outcome,
                );
                (status, written)
            })
        };
        (status, outcome)
    }
}

/// The lines, which have no other characters than those of ASCII: one that is none would be a question mark. Asks for no
/// memory.
fn as_text(mut lines: Vec<u8>) -> String {
    lines
        .iter_mut()
        .filter(|byte| !byte.is_ascii())
        .for_each(|byte| *byte = b'?');
    String::from_utf8(lines).unwrap_or_default()
}

// SAFETY: what the handle owns, a block of the heap and plain data, names no thread, as is proved of it.
unsafe impl Send for Declarations {}

impl Drop for Declarations {
    fn drop(&mut self) {
        // SAFETY: the handle is ours alone; one that holds none is left as it is.
        unsafe { sys::oncrpc_declarations_free(&mut self.handle) }
    }
}

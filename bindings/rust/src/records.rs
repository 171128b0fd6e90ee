//! Record marking (RFC 5531 section 11).

use crate::buffer::{fill, with_capacity};
use crate::fault::Refusal;
use crate::sys;
use std::error::Error;
use std::fmt;

/// The greatest limit on the bytes of a record.
pub const MOST_RECORD: u32 = sys::MOST_RECORD;

/// Why a stream of records is not whole.
#[derive(Clone, Debug, PartialEq, Eq, Hash)]
#[non_exhaustive]
pub enum NormaliseFault {
    /// A record is above the limit, or the bytes end inside one.
    Refused {
        /// Why, and where.
        refusal: Refusal,
        /// The normal form of the records before it.
        before: Vec<u8>,
    },
    /// The limit is above [`MOST_RECORD`].
    BadLimit,
    /// Out of memory, or the input has more than 4294963200 bytes.
    NoMemory,
    /// A status that this crate does not know for the call.
    Unknown(u32),
}

impl fmt::Display for NormaliseFault {
    fn fmt(&self, f: &mut fmt::Formatter<'_>) -> fmt::Result {
        match self {
            Self::Refused { refusal, .. } => refusal.fmt(f),
            Self::BadLimit => f.write_str("the limit is out of its range"),
            Self::NoMemory => f.write_str("out of memory"),
            Self::Unknown(status) => write!(f, "the unknown status {status}"),
        }
    }
}

impl Error for NormaliseFault {}

/// The header of a fragment of so many bytes, for a sender: a record that is sent whole is this of its count and `true`,
/// and then its bytes. `None` where the count is above [`MOST_RECORD`].
pub fn fragment_header(count: usize, is_last: bool) -> Option<[u8; 4]> {
    let mut header = [0; 4];
    // SAFETY: the header is ours alone.
    let status = unsafe { sys::oncrpc_record_header(count, is_last, &mut header) };
    (status == sys::OK).then_some(header)
}

/// Each record of the input as one fragment, its last, where a record may have `limit` bytes.
///
/// ```
/// let two_fragments = b"\0\0\0\x02ab\x80\0\0\x01c";
/// assert_eq!(oncrpc::normalise(two_fragments, 3)?, b"\x80\0\0\x03abc");
/// # Ok::<(), Box<dyn std::error::Error>>(())
/// ```
pub fn normalise(input: &[u8], limit: u32) -> Result<Vec<u8>, NormaliseFault> {
    // A record has at least the header that is written for it, so no larger buffer is needed.
    let mut marked = with_capacity(input.len()).ok_or(NormaliseFault::NoMemory)?;
    let mut written = 0;
    let mut outcome = sys::Outcome::default();
    // SAFETY: the input is a slice; at OK and REFUSED so many bytes were written; buffer, count and outcome are ours
    // alone and lie apart.
    let (status, _) = unsafe {
        fill(&mut marked, &[sys::OK, sys::REFUSED], |to, capacity| {
            let status = sys::oncrpc_normalise(
                input.as_ptr(),
                input.len(),
                limit,
                to,
                capacity,
                &mut written,
                &mut outcome,
            );
            (status, written)
        })
    };
    match status {
        sys::OK => Ok(marked),
        sys::REFUSED => Err(NormaliseFault::Refused {
            refusal: Refusal::of(&outcome),
            before: marked,
        }),
        sys::BAD_LIMITS => Err(NormaliseFault::BadLimit),
        sys::NO_MEMORY => Err(NormaliseFault::NoMemory),
        _ => Err(NormaliseFault::Unknown(status)),
    }
}

//! A stream of records in fragments (RFC 5531 section 11), over the caller's own connection.

use crate::buffer::{fill, AT_OK};
use crate::fault::Refusal;
use crate::sys;
use std::error::Error;
use std::fmt;
use std::ptr;

/// Why a stream of records does not go on.
#[derive(Clone, Copy, Debug, PartialEq, Eq, Hash)]
#[non_exhaustive]
pub enum StreamFault {
    /// A header brings its record above the limit, or the stream ended inside a record; and where, in bytes from the
    /// stream's first.
    Refused(Refusal),
    /// The limit is above [`MOST_RECORD`](crate::MOST_RECORD).
    BadLimit,
    /// Out of memory.
    NoMemory,
    /// A status that this crate does not know for the call.
    Unknown(u32),
}

impl StreamFault {
    fn of(status: u32, outcome: &sys::Outcome) -> Self {
        match status {
            sys::REFUSED => Self::Refused(Refusal::of(outcome)),
            sys::BAD_LIMITS => Self::BadLimit,
            sys::NO_MEMORY => Self::NoMemory,
            _ => Self::Unknown(status),
        }
    }
}

impl fmt::Display for StreamFault {
    fn fmt(&self, f: &mut fmt::Formatter<'_>) -> fmt::Result {
        match self {
            Self::Refused(refusal) => refusal.fmt(f),
            Self::BadLimit => f.write_str("the limit is out of its range"),
            Self::NoMemory => f.write_str("out of memory"),
            Self::Unknown(status) => write!(f, "the unknown status {status}"),
        }
    }
}

impl Error for StreamFault {}

/// A reader of one stream: takes what was received, in any pieces, and hands out the records without the headers of
/// their fragments, in their order.
///
/// ```
/// # use oncrpc::Records;
/// let mut records = Records::start(65_536)?;
/// let (mut record, mut found) = (Vec::new(), Vec::new());
/// for mut piece in [b"\0\0\0\x02ab\x80".as_slice(), b"\0\0\x01c\x80\0\0\x01d"] {
///     while let Some(used) = records.feed(piece)? {
///         assert!(records.take(&mut record)?);
///         found.push(record.clone());
///         piece = &piece[used..];
///     }
/// }
/// records.end()?;
/// assert_eq!(found, [b"abc".to_vec(), b"d".to_vec()]);
/// # Ok::<(), Box<dyn std::error::Error>>(())
/// ```
#[derive(Debug)]
#[must_use]
pub struct Records {
    handle: sys::Records,
}

impl Records {
    /// A reader before the first byte of a stream whose records may have `limit` bytes. Of the stream it keeps one
    /// record at most, as it comes.
    pub fn start(limit: u32) -> Result<Self, StreamFault> {
        let mut started = Self {
            handle: sys::Records {
                at: ptr::null_mut(),
                live: false,
            },
        };
        let mut outcome = sys::Outcome::default();
        // SAFETY: handle and outcome are ours alone and lie apart.
        match unsafe { sys::oncrpc_records_start(&mut started.handle, limit, &mut outcome) } {
            sys::OK => Ok(started),
            status => Err(StreamFault::of(status, &outcome)),
        }
    }

    /// Takes bytes of the piece, which may be empty, up to the end of a record.
    ///
    /// `Some(used)`: a record is whole, and waits for [`Records::take`]. The first `used` bytes of the piece were
    /// taken, the last of which is the record's last; the others are to be fed again. While a record waits none is
    /// taken.
    /// `None`: all bytes were taken, and no record is whole. A fault is answered from then on.
    pub fn feed(&mut self, piece: &[u8]) -> Result<Option<usize>, StreamFault> {
        let mut outcome = sys::Outcome::default();
        // SAFETY: the piece is a slice; handle and outcome are ours alone and lie apart.
        let status = unsafe { sys::oncrpc_records_feed(&mut self.handle, piece.as_ptr(), piece.len(), &mut outcome) };
        match status {
            sys::OK => Ok(Some(outcome.at)),
            sys::MORE_WANTED => Ok(None),
            _ => Err(StreamFault::of(status, &outcome)),
        }
    }

    /// The record that waits. `record` is filled anew, and its capacity kept from call to call; false where none waits.
    /// Where `record` cannot grow the answer is `NoMemory`, and the record waits on.
    pub fn take(&mut self, record: &mut Vec<u8>) -> Result<bool, StreamFault> {
        let (mut status, count) = self.take_into(record);
        if status == sys::NO_ROOM {
            record.try_reserve_exact(count).map_err(|_| StreamFault::NoMemory)?;
            (status, _) = self.take_into(record);
        }
        match status {
            sys::OK => Ok(true),
            sys::NO_RECORD => Ok(false),
            _ => Err(StreamFault::Unknown(status)),
        }
    }

    fn take_into(&mut self, record: &mut Vec<u8>) -> (u32, usize) {
        let mut outcome = sys::Outcome::default();
        // SAFETY: at OK so many bytes were written; handle, buffer and outcome are ours alone and lie apart.
        unsafe {
            fill(record, AT_OK, |to, capacity| {
                let status = sys::oncrpc_records_take(&mut self.handle, to, capacity, &mut outcome);
                (status, outcome.at)
            })
        }
    }

    /// Whether the stream may end behind the bytes that were taken: between two records, or with a record that waits,
    /// which waits on. A fault is answered from then on.
    pub fn end(&mut self) -> Result<(), StreamFault> {
        let mut outcome = sys::Outcome::default();
        // SAFETY: handle and outcome are ours alone and lie apart.
        match unsafe { sys::oncrpc_records_end(&mut self.handle, &mut outcome) } {
            sys::OK => Ok(()),
            status => Err(StreamFault::of(status, &outcome)),
        }
    }
}

// SAFETY: what the handle owns, a block of the heap and plain data, names no thread, as is proved of it.
unsafe impl Send for Records {}

impl Drop for Records {
    fn drop(&mut self) {
        // SAFETY: the handle is ours alone; one that holds none is left as it is.
        unsafe { sys::oncrpc_records_free(&mut self.handle) }
    }
}

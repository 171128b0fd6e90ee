//! A connection to a registry, over the caller's own socket.

use crate::caller::Caller;
use crate::fault::Refusal;
use crate::registry::{Registry, Transport};
use crate::sys;
use std::error::Error;
use std::fmt;
use std::ptr;

/// Why a session does not go on.
#[derive(Clone, Copy, Debug, PartialEq, Eq, Hash)]
#[non_exhaustive]
pub enum SessionFault {
    /// A header brings its record above 65536 bytes; and where, in bytes from the connection's first.
    Refused(Refusal),
    /// Fewer bytes wait than are said to be written.
    TooMany,
    /// [`Session::start`] was told of [`Transport::Udp`].
    NoTransport,
    /// Out of memory.
    NoMemory,
    /// A status that this crate does not know for the call.
    Unknown(u32),
}

impl SessionFault {
    fn of(status: u32, outcome: &sys::Outcome) -> Self {
        match status {
            sys::REFUSED => Self::Refused(Refusal::of(outcome)),
            sys::BAD_LIMITS => Self::TooMany,
            sys::NO_TRANSPORT => Self::NoTransport,
            sys::NO_MEMORY => Self::NoMemory,
            _ => Self::Unknown(status),
        }
    }
}

impl fmt::Display for SessionFault {
    fn fmt(&self, f: &mut fmt::Formatter<'_>) -> fmt::Result {
        match self {
            Self::Refused(refusal) => refusal.fmt(f),
            Self::TooMany => f.write_str("fewer bytes wait to be written"),
            Self::NoTransport => f.write_str("the transport has no connections"),
            Self::NoMemory => f.write_str("out of memory"),
            Self::Unknown(status) => write!(f, "the unknown status {status}"),
        }
    }
}

impl Error for SessionFault {}

/// What a session did with a piece.
#[derive(Clone, Copy, Debug, PartialEq, Eq, Hash)]
pub enum Taken {
    /// All of it was taken, and no record is whole.
    More,
    /// The first `used` bytes were taken. With the last of these a record was whole, and it was answered.
    Answered {
        /// How many bytes. The others are to be fed again.
        used: usize,
    },
    /// None was taken: output is to be written first.
    OutputWaits,
}

/// One connection to a registry: takes what was received, in any pieces, and hands out what is to be sent.
///
/// ```
/// # use oncrpc::{fragment_header, Call, Caller, Registry, Session, Taken, Transport};
/// let mut registry = Registry::start(111, b"no peer knows it")?;
/// let mut session = Session::start(Transport::Tcp, Caller::default(), 65_536)?;
/// let call = Call { program: 100_000, version: 2, ..Call::default() }.write()?;
/// let piece = [&fragment_header(call.len(), true).unwrap()[..], &call].concat();
/// assert_eq!(session.feed(&mut registry, &piece)?, Taken::Answered { used: 44 });
/// let mut buffer = [0; 64];
/// let count = session.output(&mut buffer)?;
/// assert_eq!(buffer[..count][..4], [0x80, 0, 0, 24]);
/// assert_eq!(session.took(count)?, 0);
/// # Ok::<(), Box<dyn std::error::Error>>(())
/// ```
#[derive(Debug)]
#[must_use]
pub struct Session {
    handle: sys::Session,
}

impl Session {
    /// A session before the first byte of a connection of this caller, over [`Transport::Tcp`] or [`Transport::Local`].
    /// While more than `bound` bytes of its output wait, it takes nothing.
    pub fn start(over: Transport, caller: Caller, bound: u32) -> Result<Self, SessionFault> {
        let mut started = Self {
            handle: sys::Session {
                at: ptr::null_mut(),
                live: false,
            },
        };
        let netid = over.netid();
        let mut outcome = sys::Outcome::default();
        // SAFETY: netid is a slice; handle, caller and outcome are ours alone and lie apart.
        let status = unsafe {
            sys::oncrpc_session_start(
                &mut started.handle,
                netid.as_ptr(),
                netid.len(),
                &caller.told(),
                bound,
                &mut outcome,
            )
        };
        match status {
            sys::OK => Ok(started),
            _ => Err(SessionFault::of(status, &outcome)),
        }
    }

    /// Takes bytes of the piece, which may be empty, up to the end of a record, which the registry answers by who the
    /// caller is: the reply stands behind the output. `Refused` and `NoMemory` are answered from then on, and the
    /// connection is to be closed, once what waits was written.
    pub fn feed(&mut self, registry: &mut Registry, piece: &[u8]) -> Result<Taken, SessionFault> {
        let mut outcome = sys::Outcome::default();
        // SAFETY: the piece is a slice; both handles and the outcome are ours alone and lie apart.
        let status = unsafe {
            sys::oncrpc_session_feed(
                &mut self.handle,
                registry.handle(),
                piece.as_ptr(),
                piece.len(),
                &mut outcome,
            )
        };
        match status {
            sys::OK => Ok(Taken::Answered { used: outcome.at }),
            sys::MORE_WANTED => Ok(Taken::More),
            sys::OUTPUT_WAITS => Ok(Taken::OutputWaits),
            _ => Err(SessionFault::of(status, &outcome)),
        }
    }

    /// Puts the first bytes of the output into the buffer, as many as go into it, and says how many. They wait on,
    /// until [`Session::took`] tells that they were written.
    pub fn output(&mut self, buffer: &mut [u8]) -> Result<usize, SessionFault> {
        let mut outcome = sys::Outcome::default();
        // SAFETY: the buffer is a slice; handle, buffer and outcome are ours alone and lie apart.
        let status =
            unsafe { sys::oncrpc_session_output(&mut self.handle, buffer.as_mut_ptr(), buffer.len(), &mut outcome) };
        match status {
            sys::OK | sys::MORE_FOLLOWS => Ok(outcome.at),
            _ => Err(SessionFault::of(status, &outcome)),
        }
    }

    /// Tells that the first `count` bytes of the output were written, and says how many wait then. `TooMany`: fewer
    /// wait, and nothing is changed.
    pub fn took(&mut self, count: usize) -> Result<usize, SessionFault> {
        let mut outcome = sys::Outcome::default();
        // SAFETY: handle and outcome are ours alone and lie apart.
        match unsafe { sys::oncrpc_session_took(&mut self.handle, count, &mut outcome) } {
            sys::OK => Ok(outcome.at),
            status => Err(SessionFault::of(status, &outcome)),
        }
    }
}

// SAFETY: what the handle owns, a block of the heap and plain data, names no thread, as is proved of it.
unsafe impl Send for Session {}

impl Drop for Session {
    fn drop(&mut self) {
        // SAFETY: the handle is ours alone; one that holds none is left as it is.
        unsafe { sys::oncrpc_session_free(&mut self.handle) }
    }
}

//! The registry of RFC 1833, versions 2, 3 and 4 of program 100000, over the caller's own sockets.

use crate::buffer::{fill, AT_OK};
use crate::caller::Caller;
use crate::sys;
use std::error::Error;
use std::fmt;
use std::ptr;

/// The declarations of what the registry's procedures take and give (RFC 1833), for
/// [`Declarations::read`](crate::Declarations::read): the arguments of GETPORT are a `mapping`, or `100000.2.3.1`, and
/// its result is `100000.2.3.result`.
pub const REGISTRY_DECLARATIONS: &str = "\
struct rpcb { unsigned int r_prog; unsigned int r_vers;
    string r_netid<>; string r_addr<>; string r_owner<>; };
struct rp__list { rpcb rpcb_map; rp__list *rpcb_next; };
typedef rp__list *rpcblist;
struct mapping { unsigned int prog; unsigned int vers; unsigned int prot; unsigned int port; };
struct pm__list { mapping map; pm__list *next; };
typedef pm__list *pmaplist;
program PMAP_PROG {
    version PMAP_VERS {
        void PMAPPROC_NULL(void) = 0;
        bool PMAPPROC_SET(mapping) = 1;
        bool PMAPPROC_UNSET(mapping) = 2;
        unsigned int PMAPPROC_GETPORT(mapping) = 3;
        pmaplist PMAPPROC_DUMP(void) = 4;
    } = 2;
} = 100000;
program RPCBPROG {
    version RPCBVERS {
        void RPCBPROC_NULL(void) = 0;
        bool RPCBPROC_SET(rpcb) = 1;
        bool RPCBPROC_UNSET(rpcb) = 2;
        string RPCBPROC_GETADDR(rpcb) = 3;
        rpcblist RPCBPROC_DUMP(void) = 4;
    } = 3;
    version RPCBVERS4 {
        void RPCBPROC_NULL(void) = 0;
        bool RPCBPROC_SET(rpcb) = 1;
        bool RPCBPROC_UNSET(rpcb) = 2;
        string RPCBPROC_GETADDR(rpcb) = 3;
        rpcblist RPCBPROC_DUMP(void) = 4;
        string RPCBPROC_GETVERSADDR(rpcb) = 9;
    } = 4;
} = 100000;
";

/// What a record came over (RFC 5665 section 5.1).
#[derive(Clone, Copy, Debug, PartialEq, Eq, Hash)]
pub enum Transport {
    /// TCP.
    Tcp,
    /// UDP, by which a reply has at most 65507 bytes.
    Udp,
    /// A Unix socket of this host, for [`Registry::answer_from`] and [`Session::start`](crate::Session::start).
    Local,
}

impl Transport {
    pub(crate) fn netid(self) -> &'static [u8] {
        match self {
            Self::Tcp => b"tcp",
            Self::Udp => b"udp",
            Self::Local => b"local",
        }
    }
}

/// Why a registry did not do what it was asked.
#[derive(Clone, Copy, Debug, PartialEq, Eq, Hash)]
#[non_exhaustive]
pub enum RegistryFault {
    /// [`Registry::answer`] was told of [`Transport::Local`].
    NoTransport,
    /// Out of memory.
    NoMemory,
    /// A status that this crate does not know for the call.
    Unknown(u32),
}

impl RegistryFault {
    pub(crate) fn of(status: u32) -> Self {
        match status {
            sys::NO_TRANSPORT => Self::NoTransport,
            sys::NO_MEMORY => Self::NoMemory,
            _ => Self::Unknown(status),
        }
    }
}

impl fmt::Display for RegistryFault {
    fn fmt(&self, f: &mut fmt::Formatter<'_>) -> fmt::Result {
        match self {
            Self::NoTransport => f.write_str("the transport is none of the call"),
            Self::NoMemory => f.write_str("out of memory"),
            Self::Unknown(status) => write!(f, "the unknown status {status}"),
        }
    }
}

impl Error for RegistryFault {}

/// Rows in memory, at most 1024, each a program, a version, a netid, an address and an owner.
///
/// ```
/// # use oncrpc::{Auth, Call, Outcome, Registry, Reply, Transport};
/// let mut registry = Registry::start(111, b"no peer knows it")?;
/// assert!(registry.set(300, 7, b"tcp", b"1.2.3.4.8.1", b"1000")?);
/// let arguments = [300_u32, 7, 6, 0].map(u32::to_be_bytes).concat();
/// let call = Call { program: 100_000, version: 2, procedure: 3, arguments: &arguments, ..Call::default() };
/// let mut reply = Vec::new();
/// assert!(registry.answer(Transport::Udp, &call.write()?, &mut reply)?);
/// let outcome = Outcome::Success(&[0, 0, 8, 1]);
/// assert_eq!(Reply::read(&reply)?, Reply::Accepted { xid: 0, verifier: Auth::default(), outcome });
/// # Ok::<(), Box<dyn std::error::Error>>(())
/// ```
#[derive(Debug)]
#[must_use]
pub struct Registry {
    handle: sys::Registry,
}

impl Registry {
    /// A registry with the rows of its own: program 100000 in versions 2, 3 and 4, each over tcp and then over udp, at
    /// 0.0.0.0 and this port, owned by superuser. The seed is bytes that the peers cannot know: rows are found by
    /// hashes that depend on it. No answer does.
    pub fn start(port: u16, seed: &[u8]) -> Result<Self, RegistryFault> {
        let mut started = Self {
            handle: sys::Registry {
                at: ptr::null_mut(),
                live: false,
            },
        };
        let mut outcome = sys::Outcome::default();
        // SAFETY: the seed is a slice, and handle and outcome are ours alone.
        let status =
            unsafe { sys::oncrpc_registry_start(&mut started.handle, port, seed.as_ptr(), seed.len(), &mut outcome) };
        match status {
            sys::OK => Ok(started),
            _ => Err(RegistryFault::of(status)),
        }
    }

    /// Answers a record, which is as it is in a datagram or, over TCP, without the headers of its fragments. `reply` is
    /// filled anew, and its capacity kept from call to call; false where there is no reply, and nothing is to be sent.
    ///
    /// The registry is not told who sent the record, and the owner is what its AUTH_SYS claims: a peer that claims uid
    /// 0 can remove every row. Hand on SET and UNSET (procedures 1 and 2 of program 100000, [`Call::read`]) from peers
    /// that you trust alone, or call [`Registry::answer_from`].
    ///
    /// Where the registry is out of memory the reply is SYSTEM_ERR, and the rows are as they were. Where `reply` cannot
    /// grow the answer is `NoMemory`, and what was asked for is done: [`Registry::reply`] takes the reply.
    ///
    /// [`Call::read`]: crate::Call::read
    pub fn answer(&mut self, over: Transport, record: &[u8], reply: &mut Vec<u8>) -> Result<bool, RegistryFault> {
        let netid = over.netid();
        let mut outcome = sys::Outcome::default();
        // SAFETY: netid and record are slices; at OK so many bytes were written; handle, buffer and outcome are ours
        // alone and lie apart.
        let (status, count) = unsafe {
            fill(reply, AT_OK, |to, capacity| {
                let status = sys::oncrpc_registry_answer(
                    &mut self.handle,
                    netid.as_ptr(),
                    netid.len(),
                    record.as_ptr(),
                    record.len(),
                    to,
                    capacity,
                    &mut outcome,
                );
                (status, outcome.at)
            })
        };
        self.placed(status, count, reply)
    }

    /// The same by who sent the record, after rpcbind. SET and UNSET of [`Peer::Remote`](crate::Peer::Remote) are
    /// AUTH_TOOWEAK and change no row, unless it is trusted. The owner of a row is the user whom the kernel names, and
    /// nobody of another host is superuser. SET of a row that is there with its address and owner is TRUE. An address
    /// at 0.0.0.0 is told at the host that was called, where that is known.
    pub fn answer_from(
        &mut self,
        caller: Caller,
        over: Transport,
        record: &[u8],
        reply: &mut Vec<u8>,
    ) -> Result<bool, RegistryFault> {
        let netid = over.netid();
        let mut outcome = sys::Outcome::default();
        // SAFETY: netid and record are slices; at OK so many bytes were written; handle, caller, buffer and outcome are
        // ours alone and lie apart.
        let (status, count) = unsafe {
            fill(reply, AT_OK, |to, capacity| {
                let status = sys::oncrpc_registry_answer_from(
                    &mut self.handle,
                    &caller.told(),
                    netid.as_ptr(),
                    netid.len(),
                    record.as_ptr(),
                    record.len(),
                    to,
                    capacity,
                    &mut outcome,
                );
                (status, outcome.at)
            })
        };
        self.placed(status, count, reply)
    }

    /// The reply that waits since memory for it was refused, or false.
    pub fn reply(&mut self, reply: &mut Vec<u8>) -> Result<bool, RegistryFault> {
        let (status, count) = self.reply_into(reply);
        self.placed(status, count, reply)
    }

    /// Whether a reply stands in the buffer after this status. One that waits for a buffer of so many bytes gets it.
    fn placed(&mut self, status: u32, count: usize, reply: &mut Vec<u8>) -> Result<bool, RegistryFault> {
        let mut status = status;
        if status == sys::NO_ROOM {
            reply.try_reserve_exact(count).map_err(|_| RegistryFault::NoMemory)?;
            (status, _) = self.reply_into(reply);
        }
        match status {
            sys::OK => Ok(true),
            sys::SILENCE => Ok(false),
            _ => Err(RegistryFault::of(status)),
        }
    }

    pub(crate) fn handle(&mut self) -> &mut sys::Registry {
        &mut self.handle
    }

    fn reply_into(&mut self, reply: &mut Vec<u8>) -> (u32, usize) {
        let mut outcome = sys::Outcome::default();
        // SAFETY: at OK so many bytes were written; handle, buffer and outcome are ours alone and lie apart.
        unsafe {
            fill(reply, AT_OK, |to, capacity| {
                let status = sys::oncrpc_registry_reply(&mut self.handle, to, capacity, &mut outcome);
                (status, outcome.at)
            })
        }
    }

    /// Adds a row at the end. False where the netid or the address is empty, the netid has more than 64 bytes, the
    /// address more than 256 or the owner more than 10. False too where there is a row of this program, version and
    /// netid, or 1024 rows.
    pub fn set(
        &mut self,
        program: u32,
        version: u32,
        netid: &[u8],
        address: &[u8],
        owner: &[u8],
    ) -> Result<bool, RegistryFault> {
        let mut outcome = sys::Outcome::default();
        // SAFETY: netid, address and owner are slices; handle and outcome are ours alone.
        let status = unsafe {
            sys::oncrpc_registry_set(
                &mut self.handle,
                program,
                version,
                netid.as_ptr(),
                netid.len(),
                address.as_ptr(),
                address.len(),
                owner.as_ptr(),
                owner.len(),
                &mut outcome,
            )
        };
        changed(status)
    }

    /// Removes the row of this program, version and netid, or with an empty netid each row of the program and version,
    /// where the row is owned by `owner` or `owner` is superuser. False where there is none. Takes no memory.
    pub fn unset(&mut self, program: u32, version: u32, netid: &[u8], owner: &[u8]) -> Result<bool, RegistryFault> {
        let mut outcome = sys::Outcome::default();
        // SAFETY: netid and owner are slices; handle and outcome are ours alone.
        let status = unsafe {
            sys::oncrpc_registry_unset(
                &mut self.handle,
                program,
                version,
                netid.as_ptr(),
                netid.len(),
                owner.as_ptr(),
                owner.len(),
                &mut outcome,
            )
        };
        changed(status)
    }
}

// SAFETY: what the handle owns, a block of the heap and plain data, names no thread, as is proved of it.
unsafe impl Send for Registry {}

impl Drop for Registry {
    fn drop(&mut self) {
        // SAFETY: the handle is ours alone; one that holds none is left as it is.
        unsafe { sys::oncrpc_registry_free(&mut self.handle) }
    }
}

fn changed(status: u32) -> Result<bool, RegistryFault> {
    match status {
        sys::OK => Ok(true),
        sys::UNCHANGED => Ok(false),
        _ => Err(RegistryFault::of(status)),
    }
}

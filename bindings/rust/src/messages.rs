//! Calls, replies and AUTH_SYS (RFC 5531 sections 8, 9 and appendix A), read where they lie.
//!
//! A message is as it is in a datagram or a record: no header of a fragment stands before it.

use crate::buffer::{fill, with_capacity, AT_OK};
use crate::sys;
use std::error::Error;
use std::fmt;

/// A credential or a verifier: its flavor and the bytes of its body, at most 400, without their padding.
#[derive(Clone, Copy, Debug, Default, PartialEq, Eq, Hash)]
pub struct Auth<'a> {
    /// 0 is AUTH_NONE, 1 is AUTH_SYS; others are kept as they are.
    pub flavor: u32,
    /// The body.
    pub body: &'a [u8],
}

/// A call of version 2 of RPC.
///
/// ```
/// # use oncrpc::Call;
/// let call = Call { xid: 7, program: 100_000, version: 2, procedure: 4, ..Call::default() };
/// let message = call.write()?;
/// assert_eq!(message[..12], [0, 0, 0, 7, 0, 0, 0, 0, 0, 0, 0, 2]);
/// assert_eq!(Call::read(&message)?, call);
/// # Ok::<(), Box<dyn std::error::Error>>(())
/// ```
#[derive(Clone, Copy, Debug, Default, PartialEq, Eq, Hash)]
pub struct Call<'a> {
    /// The number by which the reply names the call.
    pub xid: u32,
    /// The program.
    pub program: u32,
    /// The program's version.
    pub version: u32,
    /// The procedure.
    pub procedure: u32,
    /// Who calls.
    pub credential: Auth<'a>,
    /// What proves it.
    pub verifier: Auth<'a>,
    /// All that follows.
    pub arguments: &'a [u8],
}

/// Why bytes are no call: the first fault in their order.
#[derive(Clone, Copy, Debug, PartialEq, Eq, Hash)]
#[non_exhaustive]
pub enum CallFault {
    /// Fewer than 12 bytes, a second number that is not a call's, or version 2 with fewer than 24 bytes.
    NotACall,
    /// A call of another version of RPC than 2.
    OtherVersion {
        /// The call's xid.
        xid: u32,
        /// The version of RPC.
        rpc_version: u32,
    },
    /// The credential is cut, has more than 400 bytes, or padding that is not zero.
    BadCredential {
        /// The call's xid.
        xid: u32,
    },
    /// The same of the verifier.
    BadVerifier {
        /// The call's xid.
        xid: u32,
    },
    /// A status that this crate does not know for the call.
    Unknown(u32),
}

/// Why bytes are no body of AUTH_SYS.
#[derive(Clone, Copy, Debug, PartialEq, Eq, Hash)]
#[non_exhaustive]
pub enum AuthSysFault {
    /// They are cut, have more behind them, more than 16 gids or 255 bytes of name, or padding that is not zero.
    NotAuthSys,
    /// Out of memory.
    NoMemory,
    /// A status that this crate does not know for the call.
    Unknown(u32),
}

/// Why a message is not written.
#[derive(Clone, Copy, Debug, PartialEq, Eq, Hash)]
#[non_exhaustive]
pub enum WriteFault {
    /// A credential with more than 400 bytes.
    BadCredential,
    /// A verifier with more than 400 bytes.
    BadVerifier,
    /// A body of AUTH_SYS with more than 16 gids, or with more than 255 bytes of name.
    NotAuthSys,
    /// Out of memory.
    NoMemory,
    /// A status that this crate does not know for the call.
    Unknown(u32),
}

/// The versions that are served, from the lowest to the highest.
#[derive(Clone, Copy, Debug, PartialEq, Eq, Hash)]
pub struct Versions {
    /// The lowest.
    pub low: u32,
    /// The highest.
    pub high: u32,
}

/// What an accepted call came to.
#[derive(Clone, Copy, Debug, PartialEq, Eq, Hash)]
pub enum Outcome<'a> {
    /// It was executed, and these are its results: all that follows.
    Success(&'a [u8]),
    /// The program is not served.
    ProgUnavail,
    /// The program is served in these versions.
    ProgMismatch(Versions),
    /// The procedure is not served.
    ProcUnavail,
    /// The arguments could not be read.
    GarbageArgs,
    /// The server could not do it: it was out of memory, for instance.
    SystemErr,
}

/// Why a call was denied.
#[derive(Clone, Copy, Debug, PartialEq, Eq, Hash)]
pub enum Denial {
    /// These versions of RPC are spoken.
    RpcMismatch(Versions),
    /// The caller is not known, by this `auth_stat`.
    AuthError(u32),
}

/// A reply.
///
/// ```
/// # use oncrpc::{Auth, Outcome, Reply};
/// let reply = Reply::Accepted { xid: 7, verifier: Auth::default(), outcome: Outcome::ProcUnavail };
/// let message = reply.write()?;
/// assert_eq!((message.len(), message[23]), (24, 3));
/// assert_eq!(Reply::read(&message)?, reply);
/// # Ok::<(), Box<dyn std::error::Error>>(())
/// ```
#[derive(Clone, Copy, Debug, PartialEq, Eq, Hash)]
pub enum Reply<'a> {
    /// The call was accepted.
    Accepted {
        /// The call's number.
        xid: u32,
        /// The server's verifier.
        verifier: Auth<'a>,
        /// What the call came to.
        outcome: Outcome<'a>,
    },
    /// The call was denied.
    Denied {
        /// The call's number.
        xid: u32,
        /// Why.
        denial: Denial,
    },
}

/// Why bytes are no reply: the first fault in their order.
#[derive(Clone, Copy, Debug, PartialEq, Eq, Hash)]
#[non_exhaustive]
pub enum ReplyFault {
    /// They end inside of the numbers or the verifier.
    Cut,
    /// The second number is not that of a reply.
    NotAReply,
    /// An unknown state.
    BadState,
    /// The verifier has more than 400 bytes, or padding that is not zero.
    BadVerifier,
    /// At least one byte follows a reply without results.
    BytesFollow,
    /// Out of memory.
    NoMemory,
    /// A status that this crate does not know for the call.
    Unknown(u32),
}

/// The body of a credential of the flavor AUTH_SYS (RFC 5531 appendix A). It is what the caller says, and proves
/// nothing.
///
/// ```
/// # use oncrpc::AuthSys;
/// let user = AuthSys { machine: b"box", uid: 1000, gid: 100, gids: vec![100, 4], ..AuthSys::default() };
/// let body = user.write()?;
/// assert_eq!((body.len(), AuthSys::read(&body)?), (32, user));
/// # Ok::<(), Box<dyn std::error::Error>>(())
/// ```
#[derive(Clone, Debug, Default, PartialEq, Eq, Hash)]
pub struct AuthSys<'a> {
    /// A number of the caller's.
    pub stamp: u32,
    /// The name of the caller's machine, at most 255 bytes.
    pub machine: &'a [u8],
    /// The user.
    pub uid: u32,
    /// The user's group.
    pub gid: u32,
    /// More groups, at most 16.
    pub gids: Vec<u32>,
}

/// Gives each fault its words.
macro_rules! says {
    ($($name:ident: $($variant:pat => $words:literal,)*;)*) => {$(
        impl fmt::Display for $name {
            fn fmt(&self, f: &mut fmt::Formatter<'_>) -> fmt::Result {
                f.write_str(match self { $($variant => $words,)* })
            }
        }

        impl Error for $name {}
    )*};
}

says! {
    CallFault:
        Self::NotACall => "no call",
        Self::OtherVersion { .. } => "a call of another version of RPC",
        Self::BadCredential { .. } => "a call with a bad credential",
        Self::BadVerifier { .. } => "a call with a bad verifier",
        Self::Unknown(_) => "a call with an unknown status",
    ;
    ReplyFault:
        Self::Cut => "a reply that is cut",
        Self::NotAReply => "no reply",
        Self::BadState => "a reply of no state",
        Self::BadVerifier => "a reply with a bad verifier",
        Self::BytesFollow => "bytes follow the reply",
        Self::NoMemory => "out of memory",
        Self::Unknown(_) => "a reply with an unknown status",
    ;
    AuthSysFault:
        Self::NotAuthSys => "no body of AUTH_SYS",
        Self::NoMemory => "out of memory",
        Self::Unknown(_) => "a body of AUTH_SYS with an unknown status",
    ;
    WriteFault:
        Self::BadCredential => "more than 400 bytes of credential",
        Self::BadVerifier => "more than 400 bytes of verifier",
        Self::NotAuthSys => "more than 16 gids or 255 bytes of name",
        Self::NoMemory => "out of memory",
        Self::Unknown(_) => "an unknown status",
    ;
}

/// The part of the message, which the library has found to lie inside of it.
fn lent<'a>(message: &'a [u8], part: &sys::Part) -> &'a [u8] {
    &message[part.at..][..part.count]
}

/// What a writer puts into a buffer of the size that it asks for when it has none. It gets where the buffer begins and
/// its size, and answers a status and a count.
fn written(write: impl Fn(*mut u8, usize) -> (u32, usize)) -> Result<Vec<u8>, WriteFault> {
    let mut message = Vec::new();
    // SAFETY: a writer has written `count` bytes at OK.
    let (mut status, needed) = unsafe { fill(&mut message, AT_OK, &write) };
    if status == sys::NO_ROOM {
        message = with_capacity(needed).ok_or(WriteFault::NoMemory)?;
        // SAFETY: as above.
        (status, _) = unsafe { fill(&mut message, AT_OK, &write) };
    }
    match status {
        sys::OK => Ok(message),
        sys::BAD_CREDENTIAL => Err(WriteFault::BadCredential),
        sys::BAD_VERIFIER => Err(WriteFault::BadVerifier),
        sys::NOT_AUTH_SYS => Err(WriteFault::NotAuthSys),
        sys::NO_MEMORY => Err(WriteFault::NoMemory),
        _ => Err(WriteFault::Unknown(status)),
    }
}

impl<'a> Call<'a> {
    /// Reads a call, and takes no memory.
    pub fn read(message: &'a [u8]) -> Result<Self, CallFault> {
        let mut call = sys::Call::default();
        // SAFETY: the message is a slice, and the call is ours alone.
        let status = unsafe { sys::oncrpc_call_read(message.as_ptr(), message.len(), &mut call) };
        match status {
            sys::OK => Ok(Self {
                xid: call.xid,
                program: call.program,
                version: call.version,
                procedure: call.procedure,
                credential: Auth {
                    flavor: call.credential_flavor,
                    body: lent(message, &call.credential),
                },
                verifier: Auth {
                    flavor: call.verifier_flavor,
                    body: lent(message, &call.verifier),
                },
                arguments: lent(message, &call.arguments),
            }),
            sys::OTHER_VERSION => Err(CallFault::OtherVersion {
                xid: call.xid,
                rpc_version: call.rpc_version,
            }),
            sys::BAD_CREDENTIAL => Err(CallFault::BadCredential { xid: call.xid }),
            sys::BAD_VERIFIER => Err(CallFault::BadVerifier { xid: call.xid }),
            sys::NOT_A_CALL => Err(CallFault::NotACall),
            _ => Err(CallFault::Unknown(status)),
        }
    }

    /// The bytes of the call.
    pub fn write(&self) -> Result<Vec<u8>, WriteFault> {
        let call = sys::Call {
            xid: self.xid,
            program: self.program,
            version: self.version,
            procedure: self.procedure,
            credential_flavor: self.credential.flavor,
            verifier_flavor: self.verifier.flavor,
            ..sys::Call::default()
        };
        written(|to, capacity| {
            let mut count = 0;
            // SAFETY: what is read are slices and a call; buffer and count are ours alone and lie apart.
            let status = unsafe {
                sys::oncrpc_call_write(
                    &call,
                    self.credential.body.as_ptr(),
                    self.credential.body.len(),
                    self.verifier.body.as_ptr(),
                    self.verifier.body.len(),
                    self.arguments.as_ptr(),
                    self.arguments.len(),
                    to,
                    capacity,
                    &mut count,
                )
            };
            (status, count)
        })
    }
}

impl<'a> Reply<'a> {
    /// Reads a reply, all of the bytes.
    pub fn read(message: &'a [u8]) -> Result<Self, ReplyFault> {
        let mut reply = sys::Reply::default();
        // SAFETY: the message is a slice, and the reply is ours alone.
        let status = unsafe { sys::oncrpc_reply_read(message.as_ptr(), message.len(), &mut reply) };
        match status {
            sys::OK => Self::of(message, &reply),
            sys::CUT => Err(ReplyFault::Cut),
            sys::NOT_A_REPLY => Err(ReplyFault::NotAReply),
            sys::BAD_STATE => Err(ReplyFault::BadState),
            sys::BAD_VERIFIER => Err(ReplyFault::BadVerifier),
            sys::BYTES_FOLLOW => Err(ReplyFault::BytesFollow),
            sys::NO_MEMORY => Err(ReplyFault::NoMemory),
            _ => Err(ReplyFault::Unknown(status)),
        }
    }

    /// The reply that the fields tell.
    fn of(message: &'a [u8], reply: &sys::Reply) -> Result<Self, ReplyFault> {
        let xid = reply.xid;
        let versions = Versions {
            low: reply.low,
            high: reply.high,
        };
        let accepted = |outcome| Self::Accepted {
            xid,
            verifier: Auth {
                flavor: reply.verifier_flavor,
                body: lent(message, &reply.verifier),
            },
            outcome,
        };
        let denied = |denial| Self::Denied { xid, denial };
        Ok(match reply.state {
            sys::SUCCESS => accepted(Outcome::Success(lent(message, &reply.results))),
            sys::PROG_UNAVAIL => accepted(Outcome::ProgUnavail),
            sys::PROG_MISMATCH => accepted(Outcome::ProgMismatch(versions)),
            sys::PROC_UNAVAIL => accepted(Outcome::ProcUnavail),
            sys::GARBAGE_ARGS => accepted(Outcome::GarbageArgs),
            sys::SYSTEM_ERR => accepted(Outcome::SystemErr),
            sys::RPC_MISMATCH => denied(Denial::RpcMismatch(versions)),
            sys::AUTH_ERROR => denied(Denial::AuthError(reply.auth_stat)),
            state => return Err(ReplyFault::Unknown(state)),
        })
    }

    /// The numbers of the reply, the body of its verifier and its results.
    fn parts(&self) -> (sys::Reply, &'a [u8], &'a [u8]) {
        let mut reply = sys::Reply::default();
        let (mut body, mut results): (&[u8], &[u8]) = (&[], &[]);
        match *self {
            Self::Accepted { xid, verifier, outcome } => {
                (reply.xid, reply.verifier_flavor, body) = (xid, verifier.flavor, verifier.body);
                reply.state = match outcome {
                    Outcome::Success(found) => {
                        results = found;
                        sys::SUCCESS
                    }
                    Outcome::ProgUnavail => sys::PROG_UNAVAIL,
                    Outcome::ProgMismatch(Versions { low, high }) => {
                        (reply.low, reply.high) = (low, high);
                        sys::PROG_MISMATCH
                    }
                    Outcome::ProcUnavail => sys::PROC_UNAVAIL,
                    Outcome::GarbageArgs => sys::GARBAGE_ARGS,
                    Outcome::SystemErr => sys::SYSTEM_ERR,
                };
            }
            Self::Denied { xid, denial } => {
                reply.xid = xid;
                reply.state = match denial {
                    Denial::RpcMismatch(Versions { low, high }) => {
                        (reply.low, reply.high) = (low, high);
                        sys::RPC_MISMATCH
                    }
                    Denial::AuthError(auth_stat) => {
                        reply.auth_stat = auth_stat;
                        sys::AUTH_ERROR
                    }
                };
            }
        }
        (reply, body, results)
    }

    /// The bytes of the reply.
    pub fn write(&self) -> Result<Vec<u8>, WriteFault> {
        let (reply, body, results) = self.parts();
        written(|to, capacity| {
            let mut count = 0;
            // SAFETY: what is read are slices and a reply; buffer and count are ours alone and lie apart.
            let status = unsafe {
                sys::oncrpc_reply_write(
                    &reply,
                    body.as_ptr(),
                    body.len(),
                    results.as_ptr(),
                    results.len(),
                    to,
                    capacity,
                    &mut count,
                )
            };
            (status, count)
        })
    }
}

impl<'a> AuthSys<'a> {
    /// Reads the body of a credential of the flavor 1, all of the bytes.
    pub fn read(body: &'a [u8]) -> Result<Self, AuthSysFault> {
        let mut auth = sys::AuthSys::default();
        // SAFETY: the body is a slice, and what is filled is ours alone.
        let status = unsafe { sys::oncrpc_auth_sys_read(body.as_ptr(), body.len(), &mut auth) };
        match status {
            sys::OK => {
                let own = &auth.gids[..auth.gid_count as usize];
                let mut gids = with_capacity(own.len()).ok_or(AuthSysFault::NoMemory)?;
                gids.extend_from_slice(own);
                Ok(Self {
                    stamp: auth.stamp,
                    machine: lent(body, &auth.machine),
                    uid: auth.uid,
                    gid: auth.gid,
                    gids,
                })
            }
            sys::NOT_AUTH_SYS => Err(AuthSysFault::NotAuthSys),
            sys::NO_MEMORY => Err(AuthSysFault::NoMemory),
            _ => Err(AuthSysFault::Unknown(status)),
        }
    }

    /// The bytes of the body.
    pub fn write(&self) -> Result<Vec<u8>, WriteFault> {
        let gid_count = u32::try_from(self.gids.len()).map_err(|_| WriteFault::NotAuthSys)?;
        let mut auth = sys::AuthSys {
            stamp: self.stamp,
            uid: self.uid,
            gid: self.gid,
            gid_count,
            ..Default::default()
        };
        for (to, gid) in auth.gids.iter_mut().zip(&self.gids) {
            *to = *gid;
        }
        written(|to, capacity| {
            let mut count = 0;
            // SAFETY: what is read are a slice and numbers; buffer and count are ours alone and lie apart.
            let status = unsafe {
                sys::oncrpc_auth_sys_write(
                    &auth,
                    self.machine.as_ptr(),
                    self.machine.len(),
                    to,
                    capacity,
                    &mut count,
                )
            };
            (status, count)
        })
    }
}

//! Who calls a registry.

use crate::sys;

/// Who sends a record.
#[derive(Clone, Copy, Debug, Default, PartialEq, Eq, Hash)]
pub enum Peer {
    /// Someone at another host.
    #[default]
    Remote,
    /// Someone at this host: from 127.x.x.x or ::1, or over a local socket.
    Local,
    /// The user of this host with this uid, as the kernel says: SO_PEERCRED of a local socket.
    LocalUser(u32),
}

/// What the program that has the socket knows of a call beside its bytes. By default it is someone at another host, who
/// is not trusted.
#[derive(Clone, Copy, Debug, Default, PartialEq, Eq, Hash)]
pub struct Caller {
    /// Who sends it.
    pub peer: Peer,
    /// The address of IPv4 to which the call came, where that is known.
    pub host: Option<[u8; 4]>,
    /// Whether SET and UNSET of [`Peer::Remote`] are taken.
    pub trusts_remote: bool,
}

impl Caller {
    pub(crate) fn told(self) -> sys::Caller {
        let (peer, uid) = match self.peer {
            Peer::Remote => (sys::PEER_REMOTE, 0),
            Peer::Local => (sys::PEER_LOCAL, 0),
            Peer::LocalUser(uid) => (sys::PEER_LOCAL_USER, uid),
        };
        sys::Caller {
            peer,
            uid,
            host: self.host.unwrap_or_default(),
            has_host: self.host.is_some(),
            trusts_remote: self.trusts_remote,
        }
    }
}

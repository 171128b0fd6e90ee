//! Universal addresses (RFC 5665 section 5.2.3.3).

use crate::buffer::{fill, with_capacity, AT_OK};
use crate::registry::RegistryFault;
use crate::sys;
use std::net::{Ipv4Addr, SocketAddrV4};

/// The longest address, `255.255.255.255.255.255`.
const LONGEST: usize = 23;

/// The host and the port of a universal address over IPv4: six numbers with dots between them, the last two the port's
/// high and low octet. `None` where the text is that of none.
///
/// ```no_run
/// let address = oncrpc::read_uaddr(b"127.0.0.1.8.1").unwrap();
/// assert_eq!(address.to_string(), "127.0.0.1:2049");
/// ```
pub fn read_uaddr(text: &[u8]) -> Option<SocketAddrV4> {
    let (mut host, mut port) = ([0; 4], 0);
    // SAFETY: the text is a slice, and host and port are ours alone and lie apart.
    let status = unsafe { sys::oncrpc_uaddr_read(text.as_ptr(), text.len(), &mut host, &mut port) };
    (status == sys::OK).then(|| SocketAddrV4::new(Ipv4Addr::from(host), port))
}

/// The universal address of a host and a port.
pub fn write_uaddr(address: SocketAddrV4) -> Result<Vec<u8>, RegistryFault> {
    let host = address.ip().octets();
    let mut text = with_capacity(LONGEST).ok_or(RegistryFault::NoMemory)?;
    let mut count = 0;
    // SAFETY: at OK so many bytes were written; host, buffer and count are ours alone and lie apart.
    let (status, _) = unsafe {
        fill(&mut text, AT_OK, |to, capacity| {
            let status = sys::oncrpc_uaddr_write(&host, address.port(), to, capacity, &mut count);
            (status, count)
        })
    };
    match status {
        sys::OK => Ok(text),
        _ => Err(RegistryFault::of(status)),
    }
}

//! The registry of RFC 1833 through the crate: rows, transports and replies, by the words of the messages.

use oncrpc::{
    fragment_header, read_uaddr, version, write_uaddr, Auth, AuthSys, Call, Declarations, Limits, Outcome, Registry,
    Reply, Row, Transport, MOST_RECORD, REGISTRY_DECLARATIONS,
};
use std::net::SocketAddrV4;

fn started() -> Registry {
    Registry::start(111, b"no peer knows it").unwrap()
}

/// A string of XDR (RFC 4506 section 4.11).
fn string(text: &[u8]) -> Vec<u8> {
    let mut bytes = (text.len() as u32).to_be_bytes().to_vec();
    bytes.extend_from_slice(text);
    bytes.resize(bytes.len().next_multiple_of(4), 0);
    bytes
}

/// The structure `rpcb` (RFC 1833 section 2.1).
fn rpcb(program: u32, version: u32, netid: &[u8], address: &[u8], owner: &[u8]) -> Vec<u8> {
    let numbers = [program, version].map(u32::to_be_bytes).concat();
    [numbers, string(netid), string(address), string(owner)].concat()
}

/// The vector that a reply is written into is not cleared first: behind the reply stands what stood there.
#[test]
fn a_reply_into_a_long_vector() {
    const LONG: usize = 1 << 20;
    let mut registry = started();
    let call = Call {
        xid: 5,
        program: 100_000,
        version: 2,
        ..Call::default()
    };
    let mut reply = vec![7; LONG];
    assert_eq!(
        registry.answer(Transport::Tcp, &call.write().unwrap(), &mut reply),
        Ok(true)
    );
    let count = reply.len();
    assert_eq!(count, 24);
    // SAFETY: so many bytes were written when the vector was made.
    unsafe { reply.set_len(LONG) };
    assert!(reply[count..].iter().all(|byte| *byte == 7));
}

/// The results of a call of the registry.
fn asked(registry: &mut Registry, over: Transport, version: u32, procedure: u32, arguments: &[u8]) -> Option<Vec<u8>> {
    let call = Call {
        xid: 5,
        program: 100_000,
        version,
        procedure,
        arguments,
        ..Call::default()
    };
    let mut reply = Vec::new();
    assert_eq!(registry.answer(over, &call.write().unwrap(), &mut reply), Ok(true));
    match Reply::read(&reply).unwrap() {
        Reply::Accepted {
            xid: 5,
            outcome: Outcome::Success(results),
            ..
        } => Some(results.to_vec()),
        Reply::Accepted {
            xid: 5,
            outcome: Outcome::SystemErr,
            ..
        } => None,
        other => panic!("{other:?}"),
    }
}

/// DUMP of version 3 lists the registry's own rows and then those that were set, each field as it was given (RFC 1833
/// section 2.2.1).
#[test]
fn rows_are_listed_as_they_were_set() {
    let mut registry = started();
    assert_eq!(registry.set(300, 7, b"tcp", b"1.2.3.4.8.1", b"1000"), Ok(true));
    assert_eq!(registry.set(300, 7, b"tcp", b"1.2.3.4.8.2", b"1000"), Ok(false));
    let mut wanted = Vec::new();
    for version in 2..5 {
        for netid in [b"tcp", b"udp"] {
            wanted.extend(
                [
                    vec![0, 0, 0, 1],
                    rpcb(100_000, version, netid, b"0.0.0.0.0.111", b"superuser"),
                ]
                .concat(),
            );
        }
    }
    let own = wanted.len();
    wanted.extend(
        [
            vec![0, 0, 0, 1],
            rpcb(300, 7, b"tcp", b"1.2.3.4.8.1", b"1000"),
            vec![0; 4],
        ]
        .concat(),
    );
    assert_eq!(asked(&mut registry, Transport::Tcp, 3, 4, &[]), Some(wanted.clone()));
    assert_eq!(registry.unset(300, 7, b"udp", b"1000"), Ok(false));
    assert_eq!(registry.unset(300, 7, b"tcp", b"1001"), Ok(false));
    assert_eq!(registry.unset(7, 300, b"tcp", b"1000"), Ok(false));
    assert_eq!(registry.unset(300, 7, b"tcp", b"1000"), Ok(true));
    wanted.truncate(own);
    wanted.extend([0; 4]);
    assert_eq!(asked(&mut registry, Transport::Tcp, 3, 4, &[]), Some(wanted));
}

/// GETADDR gives the address of the transport that the call came over (RFC 1833 section 2.2.1).
#[test]
fn a_transport_is_no_other() {
    let mut registry = started();
    assert_eq!(registry.set(300, 7, b"tcp", b"1.2.3.4.8.1", b"1000"), Ok(true));
    assert_eq!(registry.set(300, 7, b"udp", b"1.2.3.4.8.2", b"1000"), Ok(true));
    let asking = rpcb(300, 7, b"", b"", b"");
    for (over, address) in [(Transport::Tcp, b"1.2.3.4.8.1"), (Transport::Udp, b"1.2.3.4.8.2")] {
        assert_eq!(asked(&mut registry, over, 4, 3, &asking), Some(string(address)));
    }
}

/// Above 65507 bytes a reply does not go into a datagram.
#[test]
fn a_long_reply_goes_over_tcp_alone() {
    let mut registry = started();
    let address = [b'a'; 256];
    for program in 1000..1300 {
        assert_eq!(registry.set(program, 1, b"tcp", &address, b"me"), Ok(true));
    }
    let listed = asked(&mut registry, Transport::Tcp, 3, 4, &[]).unwrap();
    assert!(listed.len() > 65_507, "{}", listed.len());
    assert_eq!(asked(&mut registry, Transport::Udp, 3, 4, &[]), None);
}

/// The user of AUTH_SYS owns what it sets, and no other user removes it (RFC 1833 section 2.2.1).
#[test]
fn a_row_has_its_callers_user() {
    let mut registry = started();
    let changed = |registry: &mut Registry, procedure, uid| {
        let user = AuthSys {
            uid,
            gid: 9,
            stamp: 8,
            ..AuthSys::default()
        }
        .write()
        .unwrap();
        let row = rpcb(400, 1, b"tcp", b"1.2.3.4.8.1", b"");
        let credential = Auth { flavor: 1, body: &user };
        let call = Call {
            program: 100_000,
            version: 3,
            procedure,
            credential,
            arguments: &row,
            ..Call::default()
        };
        let mut reply = Vec::new();
        assert_eq!(
            registry.answer(Transport::Tcp, &call.write().unwrap(), &mut reply),
            Ok(true)
        );
        reply[24..] == [0, 0, 0, 1]
    };
    assert!(changed(&mut registry, 1, 1000));
    assert!(!changed(&mut registry, 2, 1001));
    assert!(changed(&mut registry, 2, 1000));
    assert!(changed(&mut registry, 1, 1000));
    assert!(
        changed(&mut registry, 2, 0),
        "who claims to be superuser removes every row"
    );
}

#[test]
fn what_is_no_call_has_no_reply() {
    let mut registry = started();
    let mut reply = vec![1; 100];
    assert_eq!(registry.answer(Transport::Udp, b"\0\0\0", &mut reply), Ok(false));
    assert!(reply.is_empty() && reply.capacity() >= 100);
    assert_eq!(registry.reply(&mut reply), Ok(false));
}

/// The rows that a registry lists in process are those that it was started with and given, in their order.
#[test]
fn rows_are_listed_in_process() {
    let mut registry = started();
    assert_eq!(registry.set(300, 7, b"local", b"/run/x", b""), Ok(true));
    let rows = registry.rows().unwrap();
    let own = |version, netid| Row {
        program: 100_000,
        version,
        netid,
        address: b"0.0.0.0.0.111",
        owner: b"superuser",
    };
    let mut wanted = Vec::new();
    for version in 2..5 {
        wanted.extend([own(version, b"tcp"), own(version, b"udp")]);
    }
    wanted.push(Row {
        program: 300,
        version: 7,
        netid: b"local",
        address: b"/run/x",
        owner: b"",
    });
    assert_eq!((rows.len(), rows.is_empty(), rows.iter().len()), (7, false, 7));
    assert_eq!(rows.iter().collect::<Vec<_>>(), wanted);
}

/// Universal addresses are read and written (RFC 5665 section 5.2.3.3).
#[test]
fn addresses_are_read_and_written() {
    for (text, address) in [
        ("127.0.0.1.8.1", "127.0.0.1:2049"),
        ("192.0.2.17.0.111", "192.0.2.17:111"),
        ("255.255.255.255.255.255", "255.255.255.255:65535"),
    ] {
        let address: SocketAddrV4 = address.parse().unwrap();
        assert_eq!(read_uaddr(text.as_bytes()), Some(address));
        assert_eq!(write_uaddr(address), Ok(text.as_bytes().to_vec()));
    }
    for text in [
        "",
        "127.0.0.1",
        "127.0.0.1.08.1",
        "127.0.0.1.8.256",
        "127.0.0.1.8.1.1",
        "::1.8.1",
    ] {
        assert_eq!(read_uaddr(text.as_bytes()), None, "{text}");
    }
}

/// The header of a fragment (RFC 5531 section 11).
#[test]
fn headers_are_those_of_fragments() {
    assert_eq!(fragment_header(3, true), Some([0x80, 0, 0, 3]));
    assert_eq!(fragment_header(3, false), Some([0, 0, 0, 3]));
    assert_eq!(fragment_header(MOST_RECORD as usize, true), Some([0xff; 4]));
    assert_eq!(fragment_header(MOST_RECORD as usize + 1, true), None);
    assert_eq!(fragment_header(usize::MAX, false), None);
}

/// The declarations name arguments and results of the registry's procedures, and are those of the header.
#[test]
fn the_registry_is_declared() {
    let header = include_str!("../../../include/oncrpc.h");
    let behind = header.split("#define ONCRPC_REGISTRY_DECLARATIONS").nth(1).unwrap();
    let lines = behind
        .lines()
        .skip(1)
        .map_while(|line| line.trim_start().strip_prefix('"'));
    let text: String = lines
        .map(|line| line.split("\\n\"").next().unwrap().to_owned() + "\n")
        .collect();
    assert_eq!(text, REGISTRY_DECLARATIONS);
    let mut declarations = Declarations::read(text.as_bytes()).unwrap();
    let arguments = [300, 7, 6, 0].map(u32::to_be_bytes).concat();
    for kind in ["mapping", "100000.2.3.1"] {
        assert_eq!(declarations.check(kind, Limits::MOST, &arguments).unwrap().used, 16);
    }
    let mut registry = started();
    assert_eq!(registry.set(300, 7, b"tcp", b"1.2.3.4.8.1", b"1000"), Ok(true));
    for (version, kind) in [(2, "100000.2.4.result"), (4, "rpcblist")] {
        let results = asked(&mut registry, Transport::Tcp, version, 4, &[]).unwrap();
        let checked = declarations.check(kind, Limits::MOST, &results).unwrap();
        assert_eq!((checked.used, checked.more_follows), (results.len(), false));
    }
    let port = asked(&mut registry, Transport::Tcp, 2, 3, &arguments).unwrap();
    assert_eq!(port, [0, 0, 8, 1]);
    assert_eq!(
        declarations
            .check("100000.2.3.result", Limits::MOST, &port)
            .unwrap()
            .used,
        4
    );
}

/// The library is of the version of this crate.
#[test]
fn the_version_is_that_of_the_crate() {
    let (major, minor, patch) = version();
    assert_eq!(format!("{major}.{minor}.{patch}"), env!("CARGO_PKG_VERSION"));
}

//! Connections to a registry through the crate, and answers by who calls.

use oncrpc::{
    fragment_header, Auth, AuthSys, Call, Caller, Peer, Reason, Refusal, Registry, RegistryFault, Reply, Session,
    SessionFault, Taken, Transport,
};

const LOCAL: Caller = Caller {
    peer: Peer::Local,
    host: None,
    trusts_remote: false,
};

const USER: Caller = Caller {
    peer: Peer::LocalUser(1000),
    host: None,
    trusts_remote: false,
};

fn started() -> Registry {
    Registry::start(111, b"no peer knows it").unwrap()
}

fn words(words: &[u32]) -> Vec<u8> {
    words.iter().flat_map(|word| word.to_be_bytes()).collect()
}

/// A call of version 2 of the registry, with xid 5, by a caller who claims to be user 0.
fn call(procedure: u32, arguments: &[u32]) -> Vec<u8> {
    let claimed = AuthSys::default().write().unwrap();
    let call = Call {
        xid: 5,
        program: 100_000,
        version: 2,
        procedure,
        credential: Auth {
            flavor: 1,
            body: &claimed,
        },
        arguments: &words(arguments),
        ..Call::default()
    };
    call.write().unwrap()
}

/// The call as one fragment (RFC 5531 section 11).
fn record(procedure: u32, arguments: &[u32]) -> Vec<u8> {
    let call = call(procedure, arguments);
    [&fragment_header(call.len(), true).unwrap()[..], &call].concat()
}

/// All that waits to be written.
fn drained(session: &mut Session) -> Vec<u8> {
    let (mut found, mut buffer) = (Vec::new(), [7; 10]);
    loop {
        let count = session.output(&mut buffer).unwrap();
        if count == 0 {
            return found;
        }
        found.extend_from_slice(&buffer[..count]);
        session.took(count).unwrap();
    }
}

/// SET over the connection of a user is that user's, whatever is claimed; from afar it is AUTH_TOOWEAK (RFC 5531
/// section 9).
#[test]
fn a_change_is_of_who_calls() {
    let mut registry = started();
    let set = record(1, &[300, 7, 6, 2049]);
    let mut afar = Session::start(Transport::Tcp, Caller::default(), 65_536).unwrap();
    assert_eq!(afar.feed(&mut registry, &set), Ok(Taken::Answered { used: set.len() }));
    assert_eq!(drained(&mut afar), words(&[0x8000_0014, 5, 1, 1, 1, 5]));
    let mut near = Session::start(Transport::Local, USER, 65_536).unwrap();
    for _ in 0..2 {
        assert_eq!(near.feed(&mut registry, &set), Ok(Taken::Answered { used: set.len() }));
        assert_eq!(drained(&mut near), words(&[0x8000_001c, 5, 1, 0, 0, 0, 0, 1]));
    }
    let rows = registry.rows().unwrap();
    assert_eq!(rows.iter().last().map(|row| row.owner), Some(&b"1000"[..]));
}

/// What comes in pieces is answered with the piece that has its last byte, and bytes of the next record are fed again.
#[test]
fn a_piece_ends_at_a_record() {
    let mut registry = started();
    let mut session = Session::start(Transport::Tcp, LOCAL, 0).unwrap();
    let null = record(0, &[]);
    let two = [&null[..], &null].concat();
    assert_eq!(session.feed(&mut registry, &two[..10]), Ok(Taken::More));
    let used = null.len() - 10;
    assert_eq!(session.feed(&mut registry, &two[10..]), Ok(Taken::Answered { used }));
    assert_eq!(session.feed(&mut registry, &null), Ok(Taken::OutputWaits));
    assert_eq!(session.took(29), Err(SessionFault::TooMany));
    assert_eq!(session.took(20), Ok(8));
    assert_eq!(drained(&mut session), words(&[0, 0]));
    assert_eq!(
        session.feed(&mut registry, &null),
        Ok(Taken::Answered { used: null.len() })
    );
}

/// A record above 65536 bytes is refused at its header, from then on.
#[test]
fn a_long_record_ends_the_connection() {
    let mut registry = started();
    let mut session = Session::start(Transport::Tcp, LOCAL, 0).unwrap();
    let refused = SessionFault::Refused(Refusal {
        why: Reason::TooLong,
        at: 0,
    });
    assert_eq!(session.feed(&mut registry, &words(&[0x8001_0001])), Err(refused));
    assert_eq!(session.feed(&mut registry, &record(0, &[])), Err(refused));
    assert_eq!(refused.to_string(), "refused TooLong at 0");
    assert!(drained(&mut session).is_empty());
}

/// An address at 0.0.0.0 is told at the host that was called (GETADDR of version 3, RFC 1833 section 2.2.1).
#[test]
fn an_address_is_told_at_the_host() {
    let mut registry = started();
    assert_eq!(registry.set(300, 7, b"tcp", b"0.0.0.0.8.1", b"1000"), Ok(true));
    let call = Call {
        program: 100_000,
        version: 3,
        procedure: 3,
        arguments: &words(&[300, 7, 0, 0, 0]),
        ..Call::default()
    };
    let at_host = Caller {
        host: Some([10, 9, 8, 7]),
        ..Caller::default()
    };
    let mut reply = Vec::new();
    for (caller, address) in [(Caller::default(), "0.0.0.0.8.1"), (at_host, "10.9.8.7.8.1")] {
        let answered = registry.answer_from(caller, Transport::Tcp, &call.write().unwrap(), &mut reply);
        assert_eq!(answered, Ok(true));
        assert!(matches!(Reply::read(&reply), Ok(Reply::Accepted { .. })));
        assert!(reply.ends_with(format!("{address}\0").as_bytes()) || reply.ends_with(address.as_bytes()));
    }
    assert_eq!(
        registry.answer_from(at_host, Transport::Udp, b"no call", &mut reply),
        Ok(false)
    );
}

/// A socket of the host has callers alone, and datagrams have no connections.
#[test]
fn a_transport_is_of_the_call() {
    let mut reply = Vec::new();
    let told = started().answer(Transport::Local, b"no call", &mut reply);
    assert_eq!(told, Err(RegistryFault::NoTransport));
    let started = Session::start(Transport::Udp, LOCAL, 0).map(|_| ());
    assert_eq!(started, Err(SessionFault::NoTransport));
}

//! Messages that real clients and rpcbind sent, read field by field against the words at their places (RFC 5531
//! section 9), and written back to the same bytes.

use oncrpc::{Auth, AuthSys, Call, Denial, Outcome, Reply, Versions};

/// Lines `call HEX` and `reply HEX`, and others that begin with `#` or blanks.
const CAPTURED: &str = include_str!("../../../tests/rows/captured.txt");

/// The bytes of the messages of one sort.
fn captured(sort: &str) -> Vec<Vec<u8>> {
    let hex = CAPTURED
        .lines()
        .filter_map(|line| line.strip_prefix(sort))
        .map(str::trim);
    let octets = |hex: &str| {
        let digits = |at: usize| u8::from_str_radix(&hex[at..at + 2], 16).unwrap();
        (0..hex.len()).step_by(2).map(digits).collect()
    };
    hex.map(octets).collect()
}

/// The word at a place.
fn word(bytes: &[u8], at: usize) -> u32 {
    u32::from_be_bytes(bytes[at..at + 4].try_into().unwrap())
}

/// The flavor and the body at a place, and the place behind its padding.
fn auth(bytes: &[u8], at: usize) -> (Auth<'_>, usize) {
    let count = word(bytes, at + 4) as usize;
    let body = &bytes[at + 8..at + 8 + count];
    let flavor = word(bytes, at);
    (Auth { flavor, body }, at + 8 + count.next_multiple_of(4))
}

#[test]
fn calls() {
    let calls = captured("call ");
    assert!(calls.len() >= 30, "{} calls", calls.len());
    for bytes in &calls {
        let (credential, behind) = auth(bytes, 24);
        let (verifier, behind) = auth(bytes, behind);
        let wanted = Call {
            xid: word(bytes, 0),
            program: word(bytes, 12),
            version: word(bytes, 16),
            procedure: word(bytes, 20),
            credential,
            verifier,
            arguments: &bytes[behind..],
        };
        assert_eq!(Call::read(bytes), Ok(wanted));
        assert_eq!(wanted.write().as_ref(), Ok(bytes));
    }
}

/// What a captured reply tells, none of which was denied.
fn replied(bytes: &[u8]) -> Reply<'_> {
    let (verifier, behind) = auth(bytes, 12);
    let versions = || Versions {
        low: word(bytes, behind + 4),
        high: word(bytes, behind + 8),
    };
    let outcome = match word(bytes, behind) {
        0 => Outcome::Success(&bytes[behind + 4..]),
        1 => Outcome::ProgUnavail,
        2 => Outcome::ProgMismatch(versions()),
        3 => Outcome::ProcUnavail,
        4 => Outcome::GarbageArgs,
        5 => Outcome::SystemErr,
        state => panic!("state {state}"),
    };
    let xid = word(bytes, 0);
    Reply::Accepted { xid, verifier, outcome }
}

#[test]
fn replies() {
    let replies = captured("reply ");
    assert!(replies.len() >= 30, "{} replies", replies.len());
    for bytes in &replies {
        let wanted = replied(bytes);
        assert_eq!(Reply::read(bytes), Ok(wanted));
        assert_eq!(wanted.write().as_ref(), Ok(bytes));
    }
    let versions = replies.iter().filter(|bytes| word(bytes, 20) == 2);
    assert!(versions.count() > 0, "no reply has versions");
}

/// The credential of the flavor 1 that each call of the user 1000 and the group 100 has, of the machine `box`.
#[test]
fn credentials() {
    let calls = captured("call ");
    let with_users = calls.iter().filter(|bytes| word(bytes, 24) == 1);
    let mut count = 0;
    for bytes in with_users {
        let (credential, _) = auth(bytes, 24);
        let body = credential.body;
        let name = word(body, 4) as usize;
        let behind = 8 + name.next_multiple_of(4);
        let gids = (0..word(body, behind + 8) as usize).map(|i| word(body, behind + 12 + 4 * i));
        let wanted = AuthSys {
            stamp: word(body, 0),
            machine: &body[8..8 + name],
            uid: word(body, behind),
            gid: word(body, behind + 4),
            gids: gids.collect(),
        };
        assert_eq!((wanted.machine, wanted.uid, wanted.gid), (b"box".as_slice(), 1000, 100));
        assert_eq!(AuthSys::read(body), Ok(wanted.clone()));
        assert_eq!(wanted.write().as_deref(), Ok(body));
        count += 1;
    }
    assert!(count >= 2, "{count} credentials");
}

/// Fields of one number each, no two alike, so that none stands for another (RFC 5531 section 9 and appendix A).
#[test]
fn no_two_fields_are_exchanged() {
    let auth = AuthSys {
        stamp: 1,
        machine: b"",
        uid: 2,
        gid: 3,
        gids: vec![4, 5],
    };
    let body = auth.write().unwrap();
    assert_eq!(body, [1, 0, 2, 3, 2, 4, 5].map(u32::to_be_bytes).concat());
    assert_eq!(AuthSys::read(&body), Ok(auth));
    let call = Call {
        xid: 1,
        program: 2,
        version: 3,
        procedure: 4,
        credential: Auth {
            flavor: 5,
            body: b"abcd",
        },
        verifier: Auth {
            flavor: 6,
            body: b"efgh",
        },
        arguments: b"ijkl",
    };
    let bytes = call.write().unwrap();
    let words = [
        1,
        0,
        2,
        2,
        3,
        4,
        5,
        4,
        u32::from_be_bytes(*b"abcd"),
        6,
        4,
        u32::from_be_bytes(*b"efgh"),
    ];
    assert_eq!(bytes, [words.map(u32::to_be_bytes).concat(), b"ijkl".to_vec()].concat());
    assert_eq!(Call::read(&bytes), Ok(call));
}

/// A reply of each state, by the words that RFC 5531 section 9 gives it.
#[test]
fn each_state() {
    let verifier = Auth {
        flavor: 7,
        body: b"abcd",
    };
    let versions = Versions { low: 2, high: 4 };
    let body = u32::from_be_bytes(*b"abcd");
    let accepted = |outcome| Reply::Accepted {
        xid: 9,
        verifier,
        outcome,
    };
    let denied = |denial| Reply::Denied { xid: 9, denial };
    let rows: [(Reply, &[u32]); 8] = [
        (accepted(Outcome::Success(b"\0\0\0\x05")), &[0, 7, 4, body, 0, 5]),
        (accepted(Outcome::ProgUnavail), &[0, 7, 4, body, 1]),
        (accepted(Outcome::ProgMismatch(versions)), &[0, 7, 4, body, 2, 2, 4]),
        (accepted(Outcome::ProcUnavail), &[0, 7, 4, body, 3]),
        (accepted(Outcome::GarbageArgs), &[0, 7, 4, body, 4]),
        (accepted(Outcome::SystemErr), &[0, 7, 4, body, 5]),
        (denied(Denial::RpcMismatch(versions)), &[1, 0, 2, 4]),
        (denied(Denial::AuthError(5)), &[1, 1, 5]),
    ];
    for (reply, words) in rows {
        let bytes: Vec<u8> = [&[9, 1], words]
            .concat()
            .into_iter()
            .flat_map(u32::to_be_bytes)
            .collect();
        assert_eq!(Reply::read(&bytes), Ok(reply));
        assert_eq!(reply.write(), Ok(bytes));
    }
}

//! Each outcome by its name: what a text, a value, a message or a stream has to be for it.

use std::collections::BTreeSet;

use oncrpc::{
    normalise, Auth, AuthSys, AuthSysFault, Call, CallFault, CheckFault, Checked, Declarations, Item, ItemReason,
    ItemsFault, Limits, NormaliseFault, ReadFault, Reason, Records, Refusal, Reply, ReplyFault, Role, StreamFault,
    TextFault, TextFaultKind, WriteFault, XdrType, MOST_RECORD,
};

const TEXT: &[u8] = b"
    enum colour { RED = 2 };
    union shape switch (colour c) { case RED: int side; };
    typedef opaque three[3];
    typedef opaque upto<3>;
    typedef string name<3>;
    typedef int pair[2];
    typedef int list<2>;
    struct all { unsigned int u; hyper h; unsigned hyper v; bool b; shape s; three f; upto o; name n; pair p; list l;
        int *m; };
    struct node { node *next; };
    union nothing switch (bool is) { case FALSE: void; case TRUE: int x; };
";

fn words(words: &[u32]) -> Vec<u8> {
    words.iter().copied().flat_map(u32::to_be_bytes).collect()
}

/// RFC 4506 sections 3 and 4: each reason, at its place.
#[test]
fn each_reason() {
    let most = Limits::MOST;
    let rows: [(&str, Limits, &[u32], Reason, usize); 10] = [
        ("bool", most, &[2], Reason::BadBool, 0),
        ("node", most, &[2], Reason::BadBool, 0),
        ("colour", most, &[3], Reason::BadNumbered, 0),
        ("nothing", most, &[2], Reason::BadBool, 0),
        ("shape", most, &[3], Reason::BadNumbered, 0),
        ("name", most, &[4], Reason::TooLong, 0),
        ("name", most, &[1, 0x6100_0001], Reason::BadPadding, 4),
        ("node", Limits { depth: 3, ..most }, &[1, 1, 1, 0], Reason::TooDeep, 4),
        ("pair", Limits { bytes: 4, ..most }, &[1, 1], Reason::TooLarge, 4),
        ("pair", most, &[1], Reason::Truncated, 4),
    ];
    let mut declarations = Declarations::read(TEXT).unwrap();
    for (name, limits, input, why, at) in rows {
        let refused = Err(CheckFault::Refused(Refusal { why, at }));
        let input = words(input);
        assert_eq!(declarations.check(name, limits, &input), refused, "{name}");
        assert_eq!(
            declarations.show(name, limits, &input).map(|_| ()),
            refused.map(|_: Checked| ()),
            "{name}"
        );
        assert_eq!(
            declarations.parts(name, limits, &input).map(|_| ()),
            refused.map(|_| ()),
            "{name}"
        );
    }
    let mut cases = Declarations::read(b"union u switch (int d) { case 1: void; };").unwrap();
    let refused = Err(CheckFault::Refused(Refusal {
        why: Reason::BadCase,
        at: 0,
    }));
    assert_eq!(cases.check("u", most, &words(&[2])), refused);
}

/// RFC 4506 section 4: a value that has all types but a void within a struct, by its items.
#[test]
fn each_item() {
    let mut declarations = Declarations::read(TEXT).unwrap();
    let items = [
        Item::Unsigned(u64::from(u32::MAX)),
        Item::Signed(-2),
        Item::Unsigned(u64::MAX),
        Item::Unsigned(1),
        Item::Signed(2),
        Item::Signed(-7),
        Item::Content(b"abc"),
        Item::Content(b"de"),
        Item::Content(b""),
        Item::Signed(1),
        Item::Signed(i64::from(i32::MAX)),
        Item::Count(1),
        Item::Signed(5),
        Item::Flag(true),
        Item::Signed(6),
    ];
    let wanted = words(&[
        u32::MAX,
        u32::MAX,
        0xffff_fffe,
        u32::MAX,
        u32::MAX,
        1,
        2,
        0xffff_fff9,
        0x6162_6300,
        2,
        0x6465_0000,
        0,
        1,
        0x7fff_ffff,
        1,
        5,
        1,
        6,
    ]);
    assert_eq!(declarations.write("all", Limits::MOST, &items), Ok(wanted));
    let none = declarations.write("node", Limits::MOST, &[Item::Flag(false)]);
    assert_eq!(none, Ok(words(&[0])));
}

/// Each reason against an item, at its place.
#[test]
fn each_item_reason() {
    use ItemReason::{NotInRange, PastEnd, Refused, Unfinished, WrongItem};
    let most = Limits::MOST;
    let (low, small) = (Limits { depth: 3, ..most }, Limits { bytes: 4, ..most });
    let one = Item::Signed(1);
    let rows: [(&str, Limits, &[Item<'_>], ItemReason, usize); 13] = [
        ("pair", most, &[one], Unfinished, 1),
        ("pair", most, &[], Unfinished, 0),
        ("int", most, &[one, one], PastEnd, 1),
        ("bool", most, &[Item::Flag(true)], WrongItem, 0),
        ("three", most, &[Item::Content(b"ab")], WrongItem, 0),
        ("int", most, &[Item::Signed(1 << 31)], NotInRange, 0),
        ("unsigned", most, &[Item::Signed(-1)], NotInRange, 0),
        ("bool", most, &[Item::Unsigned(2)], Refused(Reason::BadBool), 0),
        ("colour", most, &[one], Refused(Reason::BadNumbered), 0),
        ("list", most, &[Item::Count(3)], Refused(Reason::TooLong), 0),
        ("name", most, &[Item::Content(b"abcd")], Refused(Reason::TooLong), 0),
        ("node", low, &[Item::Flag(true)], Refused(Reason::TooDeep), 0),
        ("pair", small, &[one], Refused(Reason::TooLarge), 0),
    ];
    let mut declarations = Declarations::read(TEXT).unwrap();
    for (name, limits, items, why, at) in rows {
        let refused = Err(ItemsFault::BadItem { why, at });
        assert_eq!(declarations.write(name, limits, items), refused, "{name} {items:?}");
    }
    assert_eq!(declarations.write("folder", most, &[one]), Err(ItemsFault::NoKind));
    let shallow = Limits { depth: 0, ..most };
    assert_eq!(declarations.write("int", shallow, &[one]), Err(ItemsFault::BadLimits));
}

#[test]
fn other_faults_of_a_check() {
    let mut declarations = Declarations::read(TEXT).unwrap();
    assert_eq!(declarations.check("folder", Limits::MOST, &[]), Err(CheckFault::NoKind));
    for limits in [
        Limits { depth: 0, bytes: 4 },
        Limits { depth: 4096, bytes: 6 },
        Limits { depth: 4097, bytes: 8 },
    ] {
        assert_eq!(declarations.check("int", limits, &[]), Err(CheckFault::BadLimits));
    }
    let whole = |used, more_follows| Ok(Checked { used, more_follows });
    assert_eq!(
        declarations.check("int", Limits { depth: 1, bytes: 4 }, &[0; 4]),
        whole(4, false)
    );
    assert_eq!(
        declarations.check("int", Limits { depth: 1, bytes: 4 }, &[0; 5]),
        whole(4, true)
    );
    assert_eq!(
        Declarations::read(b"").map(|_| ()),
        Ok(()),
        "an empty text has no error"
    );
}

/// The greatest depth and count of bytes of a value, and of bytes of a record (RFC 5531 section 11).
#[test]
fn the_greatest_limits() {
    assert_eq!(
        (Limits::MOST.depth, Limits::MOST.bytes, MOST_RECORD),
        (4096, 16_777_216, 2_147_483_647)
    );
    let mut declarations = Declarations::read(TEXT).unwrap();
    let above = [(4097, 4), (4096, 16_777_220)].map(|(depth, bytes)| Limits { depth, bytes });
    for (limits, wanted) in [
        (Limits::MOST, None),
        (above[0], Some(CheckFault::BadLimits)),
        (above[1], Some(CheckFault::BadLimits)),
    ] {
        assert_eq!(declarations.check("int", limits, &[0; 4]).err(), wanted);
    }
    assert_eq!(Records::start(MOST_RECORD).map(|_| ()), Ok(()));
    assert_eq!(Records::start(MOST_RECORD + 1).map(|_| ()), Err(StreamFault::BadLimit));
}

/// Each error of a text, at its line and column (docs/LANGUAGE.md, "Refusals").
#[test]
fn each_error_of_a_text() {
    let nested = format!("{}int x;{} x;", "struct a {\n".repeat(33), "};".repeat(33));
    let long = "\n".repeat(262_145);
    let rows: [(&str, TextFaultKind, usize, usize); 13] = [
        ("\n $", TextFaultKind::BadCharacter, 2, 2),
        ("\n\nconst a = 08;", TextFaultKind::BadNumber, 3, 11),
        ("const = 1;", TextFaultKind::Unexpected, 1, 7),
        ("struct a { float x; };", TextFaultKind::FloatingKind, 1, 12),
        ("struct a { int b; int b; };", TextFaultKind::NameTwice, 1, 23),
        ("typedef b a;", TextFaultKind::NameUnknown, 1, 9),
        ("enum e { A = 1 }; typedef int a[A];", TextFaultKind::NotASize, 1, 33),
        ("typedef int a[4294967296];", TextFaultKind::OutOfRange, 1, 15),
        ("typedef a a;", TextFaultKind::TypedefLoop, 1, 11),
        ("\n struct a { a b; };", TextFaultKind::BadSchema(7), 2, 2),
        ("typedef opaque none[0];", TextFaultKind::BadSchema(2), 1, 9),
        (&long, TextFaultKind::TextTooLong, 1, 1),
        (
            &nested
                .replace("struct a {", "struct {")
                .replacen("struct {", "struct a {", 1),
            TextFaultKind::NestedTooDeep,
            33,
            8,
        ),
    ];
    for (text, kind, line, column) in rows {
        let Err(ReadFault::Undeclared(fault)) = Declarations::read(text.as_bytes()) else {
            panic!("{text:.40} was read");
        };
        assert_eq!(fault, TextFault { kind, line, column }, "{text:.40}");
    }
}

/// RFC 4506 sections 4.1 to 4.19: each type and each role, by a value that has all of them.
#[test]
fn each_type_and_role() {
    let mut declarations = Declarations::read(TEXT).unwrap();
    let mut input = words(&[7, 0, 8, 0, 9, 1, 2, 10]);
    input.extend_from_slice(b"abc\0");
    input.extend_from_slice(b"\0\0\0\x01d\0\0\0\0\0\0\x02ef\0\0");
    input.extend(words(&[11, 12, 1, 13, 1, 14]));
    let (checked, parts) = declarations.parts("all", Limits::MOST, &input).unwrap();
    assert_eq!(
        checked,
        Checked {
            used: input.len(),
            more_follows: false
        }
    );
    let rows: [(usize, usize, &str, u32, XdrType, Role); 19] = [
        (0, 0, "", 1, XdrType::Struct, Role::Group),
        (0, 4, "u", 2, XdrType::Unsigned, Role::Number),
        (4, 8, "h", 2, XdrType::Hyper, Role::Number),
        (12, 8, "v", 2, XdrType::UnsignedHyper, Role::Number),
        (20, 4, "b", 2, XdrType::Bool, Role::Number),
        (24, 4, "s", 2, XdrType::Union, Role::Number),
        (28, 4, "side", 3, XdrType::Int, Role::Number),
        (32, 3, "f", 2, XdrType::FixedOpaque, Role::Content),
        (36, 4, "o", 2, XdrType::Opaque, Role::Length),
        (40, 1, "o", 2, XdrType::Opaque, Role::Content),
        (44, 4, "n", 2, XdrType::String, Role::Length),
        (48, 2, "n", 2, XdrType::String, Role::Content),
        (52, 0, "p", 2, XdrType::FixedArray, Role::Group),
        (52, 4, "", 3, XdrType::Int, Role::Number),
        (56, 4, "", 3, XdrType::Int, Role::Number),
        (60, 4, "l", 2, XdrType::Array, Role::Length),
        (64, 4, "", 3, XdrType::Int, Role::Number),
        (68, 4, "m", 2, XdrType::Optional, Role::Flag),
        (72, 4, "", 3, XdrType::Int, Role::Number),
    ];
    assert_eq!(parts.len(), 19);
    for (part, (at, count, name, depth, xdr_type, role)) in parts.iter().zip(rows) {
        let found = (part.at, part.bytes, part.name, part.depth, part.xdr_type, part.role);
        assert_eq!(
            found,
            (at, &input[at..at + count], name.as_bytes(), depth, xdr_type, role)
        );
    }
    let kinds: Vec<u32> = parts.iter().map(|part| part.kind).collect();
    assert_eq!(kinds[6], kinds[13], "both are an int");
    let fields: BTreeSet<u32> = [1, 2, 3, 4, 5, 7, 8, 10, 12, 15, 17]
        .into_iter()
        .map(|i| kinds[i])
        .collect();
    assert_eq!((fields.len(), kinds[8]), (11, kinds[9]), "no two fields have one kind");
    let (red, none) = (words(&[2]), words(&[0]));
    let (_, parts) = declarations.parts("colour", Limits::MOST, &red).unwrap();
    assert_eq!(
        parts.iter().map(|part| part.xdr_type).collect::<Vec<_>>(),
        [XdrType::Enum]
    );
    let (_, parts) = declarations.parts("nothing", Limits::MOST, &none).unwrap();
    let found: Vec<_> = parts.iter().map(|part| (part.xdr_type, part.role)).collect();
    assert_eq!(found, [(XdrType::Union, Role::Number), (XdrType::Void, Role::Group)]);
}

/// A value that a byte follows is told as one by each of the three calls, with its lines and its parts.
#[test]
fn a_value_that_bytes_follow() {
    let mut declarations = Declarations::read(b"struct p { int x; string y<>; };").unwrap();
    let input = b"\0\0\0\x05\0\0\0\x01a\0\0\0?";
    let checked = Checked {
        used: 12,
        more_follows: true,
    };
    assert_eq!(declarations.check("p", Limits::MOST, input), Ok(checked));
    let lines = "struct\n  x: 5\n  y: \"a\"\n".to_string();
    assert_eq!(declarations.show("p", Limits::MOST, input), Ok((checked, lines)));
    let (found, parts) = declarations.parts("p", Limits::MOST, input).unwrap();
    let names: Vec<&[u8]> = parts.iter().map(|part| part.name).collect();
    assert_eq!((found, names), (checked, vec![b"".as_slice(), b"x", b"y", b"y"]));
}

/// RFC 5531 sections 8 and 9: what is no call, no reply and no credential.
#[test]
fn each_fault_of_a_message() {
    let call = |rest: &[u32]| Call::read(&words(&[&[7, 0], rest].concat())).unwrap_err();
    let body = [0_u32; 101];
    assert_eq!(Call::read(&[0; 11]), Err(CallFault::NotACall));
    assert_eq!(call(&[2, 1, 1]), CallFault::NotACall);
    assert_eq!(call(&[3]), CallFault::OtherVersion { xid: 7, rpc_version: 3 });
    assert_eq!(
        call(&[&[2, 1, 1, 1, 0, 404], &body[..], &[0, 0]].concat()),
        CallFault::BadCredential { xid: 7 }
    );
    assert_eq!(
        call(&[&[2, 1, 1, 1, 0, 0, 0, 404], &body[..]].concat()),
        CallFault::BadVerifier { xid: 7 }
    );
    let reply = |rest: &[u32]| Reply::read(&words(&[&[7], rest].concat())).unwrap_err();
    assert_eq!(reply(&[]), ReplyFault::Cut);
    assert_eq!(reply(&[2, 0, 0, 0, 0]), ReplyFault::NotAReply);
    assert_eq!(reply(&[1, 0, 0, 0, 6]), ReplyFault::BadState);
    assert_eq!(reply(&[1, 2, 0]), ReplyFault::BadState);
    assert_eq!(
        reply(&[&[1, 0, 0, 404], &body[..], &[0]].concat()),
        ReplyFault::BadVerifier
    );
    assert_eq!(reply(&[1, 0, 0, 0, 1, 0]), ReplyFault::BytesFollow);
    assert_eq!(AuthSys::read(&words(&[0, 0, 0, 0, 17])), Err(AuthSysFault::NotAuthSys));
    let long = Auth {
        flavor: 0,
        body: &[0; 401],
    };
    let call = Call {
        credential: long,
        ..Call::default()
    };
    assert_eq!(call.write(), Err(WriteFault::BadCredential));
    assert_eq!(
        Call {
            verifier: long,
            ..Call::default()
        }
        .write(),
        Err(WriteFault::BadVerifier)
    );
    assert_eq!(
        AuthSys {
            gids: vec![0; 17],
            ..AuthSys::default()
        }
        .write(),
        Err(WriteFault::NotAuthSys)
    );
    assert_eq!(
        AuthSys {
            machine: &[0; 256],
            ..AuthSys::default()
        }
        .write(),
        Err(WriteFault::NotAuthSys)
    );
}

/// RFC 5531 section 11: records above their limit, cut, and whole.
#[test]
fn each_fault_of_a_stream() {
    let too_long = Refusal {
        why: Reason::TooLong,
        at: 6,
    };
    let cut = Refusal {
        why: Reason::Truncated,
        at: 6,
    };
    let marked = b"\0\0\0\x02ab\x80\0\0\x01c";
    assert_eq!(normalise(marked, 3), Ok(b"\x80\0\0\x03abc".to_vec()));
    assert_eq!(
        normalise(marked, 2),
        Err(NormaliseFault::Refused {
            refusal: too_long,
            before: vec![]
        })
    );
    let before = b"\x80\0\0\x03abc".to_vec();
    let refusal = Refusal {
        why: Reason::Truncated,
        at: 12,
    };
    assert_eq!(
        normalise(b"\0\0\0\x02ab\x80\0\0\x01c\0", 3),
        Err(NormaliseFault::Refused { refusal, before })
    );
    assert_eq!(normalise(marked, 1 << 31), Err(NormaliseFault::BadLimit));
    assert_eq!(Records::start(1 << 31).map(|_| ()), Err(StreamFault::BadLimit));
    let mut records = Records::start(2).unwrap();
    assert_eq!(records.feed(marked), Err(StreamFault::Refused(too_long)));
    assert_eq!(records.end(), Err(StreamFault::Refused(too_long)));
    let mut records = Records::start(3).unwrap();
    assert_eq!(records.feed(&marked[..6]), Ok(None));
    let mut record = vec![9; 40];
    assert_eq!(records.take(&mut record), Ok(false));
    assert_eq!(records.feed(&marked[6..]), Ok(Some(5)));
    assert_eq!(
        records.feed(b"more"),
        Ok(Some(0)),
        "no byte is taken while a record waits"
    );
    assert_eq!(records.take(&mut record), Ok(true));
    assert_eq!((record.as_slice(), record.capacity() >= 40), (b"abc".as_slice(), true));
    assert_eq!(records.end(), Ok(()));
    let mut larger = Vec::new();
    assert_eq!(records.feed(marked), Ok(Some(11)));
    assert_eq!(records.take(&mut larger), Ok(true), "a vector that is too small grows");
    assert_eq!(larger, b"abc");
    let mut records = Records::start(3).unwrap();
    assert_eq!(records.feed(&marked[..6]), Ok(None));
    assert_eq!(records.end(), Err(StreamFault::Refused(cut)));
}

/// The vector that a record is taken into is not cleared: behind a short record stands the long one before it.
#[test]
fn a_short_record_after_a_long_one() {
    const LONG: usize = 1 << 20;
    let mut records = Records::start(MOST_RECORD).unwrap();
    let mut record = Vec::new();
    for (byte, count) in [(7, LONG), (9, 4)] {
        let content = vec![byte; count];
        assert_eq!(records.feed(&(1 << 31 | count as u32).to_be_bytes()), Ok(None));
        assert_eq!(records.feed(&content), Ok(Some(count)));
        assert_eq!(records.take(&mut record), Ok(true));
        assert_eq!(record, content);
    }
    // SAFETY: so many bytes were written by the first of the two.
    unsafe { record.set_len(LONG) };
    assert!(record[4..].iter().all(|byte| *byte == 7));
}

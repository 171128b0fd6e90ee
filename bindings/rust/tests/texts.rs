//! The text of each fault: a reason and a place as the program prints them (docs/FORMATS.md), and words that differ.

use oncrpc::{
    normalise, AuthSysFault, CallFault, CheckFault, Declarations, Item, ItemsFault, JsonFault, Limits, NormaliseFault,
    ReadFault, Records, RegistryFault, ReplyFault, StreamFault, WriteFault,
};
use std::collections::BTreeSet;
use std::error::Error;

/// The text of what a call refuses, as a caller sees it that hands it on.
fn text<T>(answer: Result<T, impl Error>) -> String {
    answer.err().map(|fault| fault.to_string()).unwrap_or_default()
}

#[test]
fn a_refusal_has_its_reason_and_its_place() {
    let mut declarations = Declarations::read(b"typedef opaque five<5>; typedef int pair[2];").unwrap();
    let most = Limits::MOST;
    let bad_padding = declarations.check("five", most, b"\0\0\0\x03abc\x01");
    assert_eq!(text(bad_padding), "refused BadPadding at 4");
    let cut = declarations.show("pair", most, &[0; 7]);
    assert_eq!(text(cut), "refused Truncated at 7");
    let two = b"\0\0\0\x02ab\x80\0\0\x03c";
    assert_eq!(text(normalise(two, 5)), "refused Truncated at 11");
    assert_eq!(text(normalise(two, 4)), "refused TooLong at 6");
    let mut records = Records::start(4).unwrap();
    assert_eq!(text(records.feed(two)), "refused TooLong at 6");
    let one = [Item::Signed(1)];
    assert_eq!(
        text(declarations.write("pair", most, &one)),
        "item 1 is refused: Unfinished"
    );
}

#[test]
fn a_refusal_of_json_has_its_line_and_its_column() {
    let mut declarations = Declarations::read(b"struct pair { int left; bool right; };").unwrap();
    let refused = declarations.from_json("pair", Limits::MOST, "{\"left\": 5,\n\"right\": 1}");
    assert_eq!(text(refused), "refused WrongType at 2:10");
}

#[test]
fn an_error_of_a_text_has_its_line_and_its_column() {
    let twice = Declarations::read(b"\nstruct a { int b; int b; };");
    assert_eq!(text(twice), "declaration refused: NameTwice at 2:23");
    let loops = Declarations::read(b"struct a { a x; };");
    assert_eq!(text(loops), "declaration refused: BadSchema(7) at 1:1");
}

/// Faults without a place, of which each kind's have texts of their own.
#[test]
fn each_fault_has_words_of_its_own() {
    let xid = 7;
    let of_a_call = [
        CallFault::NotACall,
        CallFault::OtherVersion { xid, rpc_version: 3 },
        CallFault::BadCredential { xid },
        CallFault::BadVerifier { xid },
        CallFault::Unknown(99),
    ];
    let of_a_reply = [
        ReplyFault::Cut,
        ReplyFault::NotAReply,
        ReplyFault::BadState,
        ReplyFault::BadVerifier,
        ReplyFault::BytesFollow,
        ReplyFault::NoMemory,
        ReplyFault::Unknown(99),
    ];
    let of_a_writer = [
        WriteFault::BadCredential,
        WriteFault::BadVerifier,
        WriteFault::NotAuthSys,
        WriteFault::NoMemory,
        WriteFault::Unknown(99),
    ];
    let texts: [Vec<String>; 10] = [
        of_a_call.map(|it| it.to_string()).into(),
        of_a_reply.map(|it| it.to_string()).into(),
        of_a_writer.map(|it| it.to_string()).into(),
        [
            AuthSysFault::NotAuthSys,
            AuthSysFault::NoMemory,
            AuthSysFault::Unknown(99),
        ]
        .map(|it| it.to_string())
        .into(),
        [
            CheckFault::NoKind,
            CheckFault::BadLimits,
            CheckFault::NoMemory,
            CheckFault::Unknown(99),
        ]
        .map(|it| it.to_string())
        .into(),
        [
            ItemsFault::NoKind,
            ItemsFault::BadLimits,
            ItemsFault::NoMemory,
            ItemsFault::Unknown(99),
        ]
        .map(|it| it.to_string())
        .into(),
        [
            JsonFault::NoKind,
            JsonFault::BadLimits,
            JsonFault::NoMemory,
            JsonFault::Unknown(99),
        ]
        .map(|it| it.to_string())
        .into(),
        [
            NormaliseFault::BadLimit,
            NormaliseFault::NoMemory,
            NormaliseFault::Unknown(99),
        ]
        .map(|it| it.to_string())
        .into(),
        [StreamFault::BadLimit, StreamFault::NoMemory, StreamFault::Unknown(99)]
            .map(|it| it.to_string())
            .into(),
        [RegistryFault::NoMemory, RegistryFault::Unknown(99)]
            .map(|it| it.to_string())
            .into(),
    ];
    for of_one in &texts {
        assert_eq!(of_one.iter().collect::<BTreeSet<_>>().len(), of_one.len(), "{of_one:?}");
        assert!(of_one.last().unwrap().contains("unknown status"), "{of_one:?}");
    }
    assert_eq!(ReadFault::NoMemory.to_string(), "out of memory");
    assert_eq!(CheckFault::NoKind.to_string(), "the name is that of no kind");
    assert_eq!(StreamFault::BadLimit.to_string(), "the limit is out of its range");
    assert_eq!(CallFault::NotACall.to_string(), "no call");
    assert_eq!(ReplyFault::Cut.to_string(), "a reply that is cut");
    assert_eq!(WriteFault::BadVerifier.to_string(), "more than 400 bytes of verifier");
    assert_eq!(AuthSysFault::NotAuthSys.to_string(), "no body of AUTH_SYS");
}

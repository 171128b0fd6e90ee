//! Values as JSON, there and back, and each reason against a text: the file of RFC 4506 section 7. Names to define for a
//! text in rpcgen's dialect.

use oncrpc::{
    CheckFault, Checked, Declarations, JsonFault, JsonReason, JsonRefusal, Limits, ReadFault, Reason, Refusal,
};

const TEXT: &[u8] = b"enum filekind { TEXT = 0, DATA = 1, EXEC = 2 };
    union filetype switch (filekind kind) {
    case TEXT: void; case DATA: string creator<255>; case EXEC: string interpretor<255>; };
    struct file { string filename<255>; filetype type; string owner<32>; opaque data<65535>; };
    union picked switch (int d) { case 1: void; };";

const INPUT: &[u8] = b"\0\0\0\x09sillyprog\0\0\0\0\0\0\x02\0\0\0\x04lisp\0\0\0\x04john\0\0\0\x06(quit)\0\0";

#[test]
fn there_and_back() {
    let mut file = Declarations::read(TEXT).unwrap();
    for is_indented in [false, true] {
        let (_, json) = file.to_json("file", Limits::MOST, INPUT, is_indented).unwrap();
        assert_eq!(file.from_json("file", Limits::MOST, &json).unwrap(), INPUT);
    }
    let other = r#" {"data": "287175697429", "owner": "\u006aohn",
        "type": {"interpretor": "lisp", "case": 2}, "filename": "sillyprog"} "#;
    assert_eq!(file.from_json("file", Limits::MOST, other).unwrap(), INPUT);
}

/// Of the union of the file, which bytes follow or not.
#[test]
fn both_layouts() {
    let mut file = Declarations::read(TEXT).unwrap();
    for (is_indented, wanted) in [
        (false, r#"{"case":"EXEC","interpretor":"lisp"}"#),
        (true, "{\n  \"case\": \"EXEC\",\n  \"interpretor\": \"lisp\"\n}"),
    ] {
        for (input, more_follows) in [(&INPUT[16..28], false), (&INPUT[16..29], true)] {
            let checked = Checked { used: 12, more_follows };
            let told = file.to_json("filetype", Limits::MOST, input, is_indented);
            assert_eq!(told, Ok((checked, wanted.to_string())));
        }
    }
}

/// RFC 4506 sections 3 and 4: bytes that are no value, and limits, as those of a check.
#[test]
fn no_json_of_what_is_no_value() {
    let mut file = Declarations::read(TEXT).unwrap();
    let filetype = &INPUT[16..28];
    for (limits, count, why, at) in [
        (Limits::MOST, 11, Reason::Truncated, 11),
        (Limits { depth: 1, bytes: 64 }, 12, Reason::TooDeep, 4),
        (Limits { depth: 9, bytes: 8 }, 12, Reason::TooLarge, 8),
    ] {
        let refused = Err(CheckFault::Refused(Refusal { why, at }));
        let told = file.to_json("filetype", limits, &filetype[..count], false);
        assert_eq!(told, refused, "{why:?}");
    }
    let none = file.to_json("folder", Limits::MOST, filetype, false);
    assert_eq!(none, Err(CheckFault::NoKind));
}

#[test]
fn each_reason() {
    let mut file = Declarations::read(TEXT).unwrap();
    let deep = "[".repeat(5000);
    let long = format!(r#"{{"case": 2, "interpretor": "{}"}}"#, "l".repeat(256));
    for (why, (at, line, column), name, text) in [
        (JsonReason::NotJson, (0, 1, 1), "int", ""),
        (
            JsonReason::UnknownMember,
            (1, 1, 2),
            "filetype",
            r#"{"more": 1, "case": 0}"#,
        ),
        (JsonReason::MissingMember, (0, 1, 1), "filetype", r#"{"case": 2}"#),
        (
            JsonReason::MemberTwice,
            (12, 2, 1),
            "filetype",
            "{\"case\": 0,\n\"case\": 0}",
        ),
        (JsonReason::WrongType, (0, 1, 1), "file", "[]"),
        (JsonReason::OutOfRange, (1, 1, 2), "int", " 2147483648"),
        (JsonReason::NotWhole, (0, 1, 1), "int", "1.5"),
        (JsonReason::UnknownName, (0, 1, 1), "filekind", r#""FOLDER""#),
        (JsonReason::BadHex, (0, 1, 1), "opaque", r#""0""#),
        (JsonReason::WrongLength, (27, 1, 28), "filetype", &long),
        (JsonReason::NoArm, (9, 1, 10), "picked", r#"{"case": 2}"#),
        (JsonReason::TooDeep, (4096, 1, 4097), "int", &deep),
    ] {
        let refusal = JsonRefusal { why, at, line, column };
        let read = file.from_json(name, Limits::MOST, text);
        assert_eq!(read, Err(JsonFault::Refused(refusal)), "{why:?}");
    }
}

#[test]
fn what_is_no_text_and_what_is_past_a_limit() {
    let mut file = Declarations::read(TEXT).unwrap();
    let cut = file.from_json_bytes("string", Limits::MOST, b"\"\xff\"");
    assert!(matches!(cut, Err(JsonFault::Refused(it)) if it.why == JsonReason::NotJson && it.at == 1));
    let text = r#"{"case": "EXEC", "interpretor": "lisp"}"#;
    for (limits, why) in [
        (Limits { depth: 1, bytes: 64 }, JsonReason::TooDeep),
        (Limits { depth: 9, bytes: 8 }, JsonReason::TooLarge),
    ] {
        let read = file.from_json("filetype", limits, text);
        assert!(matches!(read, Err(JsonFault::Refused(it)) if it.why == why && it.at == text.len()));
    }
    let none = file.from_json("folder", Limits::MOST, "{}");
    assert_eq!(none, Err(JsonFault::NoKind));
    let deep = Limits { depth: 0, bytes: 64 };
    assert_eq!(file.from_json("file", deep, "{}"), Err(JsonFault::BadLimits));
}

#[test]
fn names_to_define() {
    let text = b"#ifdef RPC_HDR\ntypedef u_int here;\n#endif\n";
    let mut read = Declarations::read_dialect(text, "RPC_XDR RPC_HDR").unwrap();
    assert_eq!(read.check("here", Limits::MOST, &[0; 4]).unwrap().used, 4);
    let mut read = Declarations::read_dialect(text, "RPC_HDRS").unwrap();
    assert_eq!(read.check("here", Limits::MOST, &[0; 4]), Err(CheckFault::NoKind));
    for names in ["BIG=1", "RPC_HDR 1BIG", "RPC-HDR", "RPC_HDR\n", "\u{e9}"] {
        let refused = Declarations::read_dialect(text, names).err();
        assert_eq!(refused, Some(ReadFault::BadName), "{names}");
    }
}

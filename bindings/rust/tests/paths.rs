//! The parts of a value by their paths, and what number each is, against bytes worked by hand (RFC 4506 section 4).

use oncrpc::{Declarations, Limits, Part, Parts, Role, XdrType};

const TEXT: &[u8] = b"
    enum colour { RED = 2, BLUE = -3 };
    union shape switch (int c) { case 2: hyper side; default: bool even; };
    struct all { int i; unsigned int u; hyper h; unsigned hyper v; bool b; colour c; opaque f[3]; string n<>;
        string names<>; opaque each<>; shape shapes[2]; int *m; };
    typedef string words<>;
    struct lists { words w<>; shape s<>; lists *next; };
";

fn words(words: &[u32]) -> Vec<u8> {
    words.iter().copied().flat_map(u32::to_be_bytes).collect()
}

/// What a part is as an `i32`, `u32`, `i64`, `u64` and `bool`.
type Numbers = (Option<i32>, Option<u32>, Option<i64>, Option<u64>, Option<bool>);

fn numbers(part: &Part) -> Numbers {
    (part.i32(), part.u32(), part.i64(), part.u64(), part.bool())
}

fn bytes<'a>(parts: &'a Parts<'_>, path: &str) -> Option<&'a [u8]> {
    parts.get(path).map(|part| part.bytes)
}

#[test]
fn each_number() {
    let mut input = words(&[0xFFFF_FFFF, 0xFFFF_FFFE, 0x8000_0000, 0, 0xFFFF_FFFF, 0xFFFF_FFFD, 1, 2]);
    input.extend_from_slice(b"abc\0\0\0\0\x02de\0\0\0\0\0\0\0\0\0\x01f\0\0\0");
    input.extend(words(&[2, 0xFFFF_FFFF, 0xFFFF_FFFC, 0xFFFF_FFFF, 0, 1, 7]));
    let mut declarations = Declarations::read(TEXT).unwrap();
    let (checked, parts) = declarations.parts("all", Limits::MOST, &input).unwrap();
    assert_eq!(checked.used, input.len());
    let at = |path: &str| numbers(&parts.get(path).unwrap());
    assert_eq!(at("i"), (Some(-1), None, None, None, None));
    assert_eq!(at("u"), (None, Some(u32::MAX - 1), None, None, None));
    assert_eq!(at("h"), (None, None, Some(i64::MIN), None, None));
    assert_eq!(at("v"), (None, None, None, Some(u64::MAX - 2), None));
    assert_eq!(at("b"), (None, None, None, None, Some(true)));
    assert_eq!(at("c"), (Some(2), None, None, None, None));
    assert_eq!(at("shapes[0]"), (Some(2), Some(2), None, None, None));
    assert_eq!(at("shapes[0].side"), (None, None, Some(-4), None, None));
    assert_eq!(at("shapes[1]"), (Some(-1), Some(u32::MAX), None, None, None));
    assert_eq!(at("shapes[1].even"), (None, None, None, None, Some(false)));
    assert_eq!(at("m"), (None, None, None, None, Some(true)));
    assert_eq!(at("m[0]"), (Some(7), None, None, None, None));
    for path in ["", "f", "n", "names", "each", "shapes"] {
        assert_eq!(at(path), (None, None, None, None, None), "{path}");
    }
    assert_eq!(bytes(&parts, "f"), Some(b"abc".as_slice()));
    assert_eq!(bytes(&parts, "n"), Some(b"de".as_slice()));
    assert_eq!(bytes(&parts, "names"), Some(b"".as_slice()));
    assert_eq!(bytes(&parts, "each"), Some(b"f".as_slice()));
    let lengths = parts.iter().filter(|part| part.role == Role::Length);
    assert_eq!(
        lengths.map(|part| part.u32()).collect::<Vec<_>>(),
        [Some(2), Some(0), Some(1)]
    );
}

/// Items that are two parts each, items inside of items, and a list in a list.
#[test]
fn each_path() {
    let mut input = b"\0\0\0\x02\0\0\0\x01a\0\0\0\0\0\0\x03bcd\0".to_vec();
    input.extend(words(&[2, 5, 1, 2, 0, 8, 1, 1, 0, 0, 0]));
    let mut declarations = Declarations::read(TEXT).unwrap();
    let (checked, parts) = declarations.parts("lists", Limits::MOST, &input).unwrap();
    assert_eq!((checked.used, checked.more_follows), (input.len(), false));
    assert_eq!(parts.get("w").and_then(|part| part.u32()), Some(2));
    assert_eq!(bytes(&parts, "w[0]"), Some(b"a".as_slice()));
    assert_eq!(bytes(&parts, "w[1]"), Some(b"bcd".as_slice()));
    assert_eq!(parts.get("s[0]").and_then(|part| part.i32()), Some(5));
    assert_eq!(parts.get("s[0].even").and_then(|part| part.bool()), Some(true));
    assert_eq!(parts.get("s[1].side").and_then(|part| part.i64()), Some(8));
    assert_eq!(bytes(&parts, "next[0].w[0]"), Some(b"".as_slice()));
    assert_eq!(parts.get("next[0].next").and_then(|part| part.bool()), Some(false));
    assert_eq!(parts.get("").map(|part| part.xdr_type), Some(XdrType::Struct));
    for path in [
        "w[2]",
        "w[-1]",
        "w[+1]",
        "w[00]",
        "w[01]",
        "w[]",
        "w[",
        "w[0",
        "w]",
        "w[0]w",
        "w[0].",
        "w[0].x",
        "w.x",
        "W",
        "ww",
        ".w",
        "w.",
        "w..x",
        "[0]",
        "s[0].side",
        "s[1].even",
        "s[0][0]",
        "s.even",
        "nex",
        "next.w",
        "next[0].nex",
        "next[1]",
        "next[0].next[0]",
        "next[0].next[0].w",
        "w[18446744073709551616]",
        " w",
        "s[0]even",
    ] {
        assert_eq!(parts.get(path), None, "{path}");
    }
}

#[test]
fn the_parts_are_counted() {
    let mut declarations = Declarations::read(b"").unwrap();
    let (_, parts) = declarations
        .parts("string", Limits::MOST, b"\0\0\0\x01a\0\0\0")
        .unwrap();
    let mut each = parts.iter();
    assert_eq!((each.len(), parts.len(), parts.is_empty()), (2, 2, false));
    assert_eq!(each.next_back().map(|part| part.role), Some(Role::Content));
    assert_eq!((each.len(), each.next().map(|part| part.role)), (1, Some(Role::Length)));
    assert_eq!((each.len(), each.next(), each.next_back()), (0, None, None));
    assert_eq!(parts.iter().nth(1), parts.iter().next_back());
    let mut roles = Vec::new();
    for part in &parts {
        roles.push(part.role);
    }
    assert_eq!(roles, [Role::Length, Role::Content]);
    assert_eq!(format!("{parts:?}"), format!("{:?}", parts.iter().collect::<Vec<_>>()));
}

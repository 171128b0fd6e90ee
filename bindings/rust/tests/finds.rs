//! One part by its path, numbers of parts, kinds and their members: the file of RFC 4506 section 7.

use oncrpc::{CursorFault, Declarations, FindFault, Kind, KindFault, Limits, Reason, Refusal, Role, XdrType};

const TEXT: &[u8] = b"enum filekind { TEXT = 0, DATA = 1, EXEC = 2 };
    union filetype switch (filekind kind) {
    case TEXT: void; case DATA: string creator<255>; case EXEC: string interpretor<255>; };
    struct file { string filename<255>; filetype type; string owner<32>; opaque data<65535>; };";

const INPUT: &[u8] = b"\0\0\0\x09sillyprog\0\0\0\0\0\0\x02\0\0\0\x04lisp\0\0\0\x04john\0\0\0\x06(quit)\0\0";

fn declared() -> Declarations {
    Declarations::read(TEXT).unwrap()
}

#[test]
fn each_part_of_the_file() {
    let mut file = declared();
    for (path, at, bytes, depth, role, number) in [
        ("", 0, b"".as_slice(), 1, Role::Group, None),
        ("filename", 4, b"sillyprog", 2, Role::Content, None),
        ("type", 16, b"\0\0\0\x02", 2, Role::Number, Some(2)),
        ("type.interpretor", 24, b"lisp", 3, Role::Content, None),
        ("owner", 32, b"john", 2, Role::Content, None),
        ("data", 40, b"(quit)", 2, Role::Content, None),
    ] {
        let part = file.find("file", Limits::MOST, INPUT, path).unwrap();
        assert_eq!(
            (part.at, part.bytes, part.depth, part.role),
            (at, bytes, depth, role),
            "{path}"
        );
        assert!(part.name.is_empty());
        assert_eq!(file.number(&part), number, "{path}");
    }
}

#[test]
fn each_fault() {
    let mut file = declared();
    for path in [
        "type.creator",
        "owner[0]",
        "x",
        ".",
        "type.",
        "type..interpretor",
        "[0]",
    ] {
        assert_eq!(
            file.find("file", Limits::MOST, INPUT, path),
            Err(FindFault::NoSuchPart),
            "{path}"
        );
    }
    let refusal = Refusal {
        why: Reason::Truncated,
        at: 47,
    };
    assert_eq!(
        file.find("file", Limits::MOST, &INPUT[..47], "type"),
        Err(FindFault::Refused(refusal))
    );
    assert_eq!(file.find("folder", Limits::MOST, INPUT, ""), Err(FindFault::NoKind));
    let none = Limits { depth: 0, bytes: 4 };
    assert_eq!(file.find("file", none, INPUT, ""), Err(FindFault::BadLimits));
    assert_eq!(FindFault::NoSuchPart.to_string(), "the value has no part with the path");
    assert_eq!(FindFault::Refused(refusal).to_string(), "refused Truncated at 47");
    assert_eq!(KindFault::NoMember.to_string(), "the kind has no such member");
}

#[test]
fn numbers_of_each_width() {
    let mut basic = Declarations::read(b"").unwrap();
    let bits = [0xff; 8];
    for (name, count, wanted) in [
        ("int", 4, -1),
        ("unsigned", 4, 4_294_967_295),
        ("hyper", 8, -1),
        ("unsigned-hyper", 8, 18_446_744_073_709_551_615_i128),
    ] {
        let part = basic.find(name, Limits::MOST, &bits[..count], "").unwrap();
        assert_eq!(basic.number(&part), Some(wanted), "{name}");
    }
    let least = [0x80, 0, 0, 0, 0, 0, 0, 0];
    let part = basic.find("hyper", Limits::MOST, &least, "").unwrap();
    assert_eq!(basic.number(&part), Some(i64::MIN.into()));
}

#[test]
fn kinds_and_members() {
    let mut file = declared();
    let (kind, union, level) = ["file", "filetype", "filekind"]
        .map(|name| file.kind_named(name).unwrap())
        .into();
    let told = file.kind(kind).unwrap();
    assert_eq!((told.xdr_type, told.members, told.size), (XdrType::Struct, 4, 0));
    let names: Vec<_> = (0..4).map(|at| file.member(kind, at).unwrap().name).collect();
    assert_eq!(names, ["filename", "type", "owner", "data"]);
    assert_eq!(file.member(kind, 4), Err(KindFault::NoMember));
    let data = file.member(kind, 3).unwrap().kind;
    let wanted = Kind {
        xdr_type: XdrType::Opaque,
        members: 0,
        size: 65535,
        item: 0,
    };
    assert_eq!(file.kind(data), Ok(wanted));
    assert_eq!(file.kind(union).map(|told| told.item), Ok(level));
    let arm = file.picked(union, 2).unwrap();
    assert_eq!((arm.name.as_str(), arm.number), ("interpretor", 2));
    assert_eq!(file.picked(union, 0).map(|arm| arm.name), Ok(String::new()));
    assert_eq!(
        file.picked(level, 1).map(|it| (it.name, it.kind)),
        Ok(("DATA".to_string(), level))
    );
    assert_eq!(file.picked(level, 3), Err(KindFault::NoMember));
    assert_eq!(file.kind(1024), Err(KindFault::NoKind));
    assert_eq!(file.kind_named("folder"), Err(KindFault::NoKind));
    let types: Vec<_> = file.types().map(|it| it.map(|it| (it.name, it.kind))).collect();
    let wanted = [("filekind", level), ("filetype", union), ("file", kind)];
    assert_eq!(types, wanted.map(|(name, kind)| Ok((name.to_string(), kind))));
    assert_eq!(Declarations::read(b"const SIZE = 4;").unwrap().types().count(), 0);
}

#[test]
fn each_part_by_a_cursor() {
    let mut file = declared();
    let wanted: Vec<_> = {
        let (_, parts) = file.parts("file", Limits::MOST, INPUT).unwrap();
        parts
            .iter()
            .map(|part| (part.at, part.bytes.to_vec(), part.name.to_vec(), part.depth, part.role))
            .collect()
    };
    let mut cursor = file.cursor("file", Limits::MOST, INPUT).unwrap();
    let mut found = Vec::new();
    while let Some(part) = cursor.next().transpose().unwrap() {
        found.push((
            part.at,
            part.bytes.to_vec(),
            cursor.name().to_vec(),
            part.depth,
            part.role,
        ));
    }
    assert!(cursor.next().is_none());
    assert_eq!(found, wanted);
}

#[test]
fn a_name_longer_than_its_room() {
    let name = "n".repeat(65);
    let mut types = Declarations::read(format!("struct wide {{ int {name}; int b; }};").as_bytes()).unwrap();
    let mut cursor = types.cursor("wide", Limits::MOST, b"\0\0\0\x01\0\0\0\x02\0").unwrap();
    assert!(cursor.checked().more_follows);
    let mut names = Vec::new();
    while let Some(part) = cursor.next().transpose().unwrap() {
        names.push((part.depth, String::from_utf8(cursor.name().to_vec()).unwrap()));
    }
    assert_eq!(names, [(1, String::new()), (2, name), (2, "b".to_string())]);
    assert_eq!(CursorFault::NoMemory.to_string(), "out of memory");
    assert_eq!(CursorFault::Unknown(36).to_string(), "the unknown status 36");
}

#[test]
fn what_is_deeper_is_passed_over() {
    let mut file = declared();
    let mut cursor = file.cursor("file", Limits::MOST, INPUT).unwrap();
    assert_eq!(cursor.checked().used, 48);
    let places: Vec<_> = cursor.by_ref().take(4).map(|part| part.unwrap().at).collect();
    assert_eq!((places, cursor.name()), (vec![0, 0, 4, 16], b"type".as_slice()));
    cursor.skip_deeper(2).unwrap();
    assert_eq!(cursor.next().unwrap().unwrap().at, 28);
    assert_eq!(cursor.name(), b"owner");
    cursor.skip_deeper(1).unwrap();
    assert!(cursor.next().is_none());
}

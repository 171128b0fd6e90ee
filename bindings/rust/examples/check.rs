//! Reads declarations once, checks inputs that nobody promised, shows one, looks into it and writes it, reads a call
//! and its reply, asks a registry, and reads a stream of records.
//!
//!     ./build-library && cd bindings/rust && cargo run --example check
use oncrpc::{
    normalise, Auth, AuthSys, Call, Declarations, Item, Limits, Outcome, Records, Registry, Reply, Role, Transport,
};
use std::error::Error;

/// After RFC 4506 section 7.
const TEXT: &[u8] = b"
    const MAXUSERNAME = 32;
    const MAXFILELEN = 65535;
    const MAXNAMELEN = 255;
    enum filekind { TEXT = 0, DATA = 1, EXEC = 2 };
    union filetype switch (filekind kind) {
    case TEXT: void;
    case DATA: string creator<MAXNAMELEN>;
    case EXEC: string interpretor<MAXNAMELEN>;
    };
    struct file {
        string filename<MAXNAMELEN>;
        filetype type;
        string owner<MAXUSERNAME>;
        opaque data<MAXFILELEN>;
    };
";

/// The value that the RFC gives, and then a byte that is no part of it.
const INPUT: &[u8] = b"\0\0\0\x09sillyprog\0\0\0\0\0\0\x02\0\0\0\x04lisp\0\0\0\x04john\0\0\0\x06(quit)\0\0\0";

fn checks(declarations: &mut Declarations) {
    for (name, count) in [("file", 48), ("file", 49), ("file", 47), ("bool", 4), ("folder", 48)] {
        match declarations.check(name, Limits::MOST, &INPUT[..count]) {
            Ok(found) => println!(
                "{name}, {count} bytes: {} used, more: {}",
                found.used, found.more_follows
            ),
            Err(fault) => println!("{name}, {count} bytes: {fault}"),
        }
    }
    let shallow = Limits {
        depth: 2,
        ..Limits::MOST
    };
    println!("depth 2: {:?}", declarations.check("file", shallow, INPUT));
}

fn messages() -> Result<(), Box<dyn Error>> {
    let user = AuthSys {
        stamp: 1,
        machine: b"box",
        uid: 1000,
        gid: 100,
        gids: vec![100, 4],
    };
    let credential = user.write()?;
    let auth = Auth {
        flavor: 1,
        body: &credential,
    };
    let call = Call {
        xid: 7,
        program: 100_000,
        version: 2,
        credential: auth,
        ..Call::default()
    };
    let bytes = call.write()?;
    let read = Call::read(&bytes)?;
    println!(
        "call of {} bytes: {}",
        bytes.len(),
        read == call && AuthSys::read(read.credential.body) == Ok(user)
    );
    println!("cut: {:?}, {:?}", Call::read(&bytes[..40]), Reply::read(&bytes));
    let reply = Reply::Accepted {
        xid: 7,
        verifier: Auth::default(),
        outcome: Outcome::Success(b"\0\0\x08\x01"),
    };
    let bytes = reply.write()?;
    println!("reply of {} bytes: {}", bytes.len(), Reply::read(&bytes)? == reply);
    println!(
        "long: {:?}",
        Call {
            credential: Auth {
                flavor: 0,
                body: &[0; 401]
            },
            ..call
        }
        .write()
    );
    Ok(())
}

/// Where the contents of the file lie.
fn contents(declarations: &mut Declarations) -> Result<(), Box<dyn Error>> {
    let (_, parts) = declarations.parts("file", Limits::MOST, INPUT)?;
    for part in parts.iter().filter(|part| part.role == Role::Content) {
        let (name, bytes) = (String::from_utf8_lossy(part.name), String::from_utf8_lossy(part.bytes));
        println!("{name} at {}: {bytes}", part.at);
    }
    Ok(())
}

/// Where its fields begin, by a cursor that passes over what is inside them.
fn fields(declarations: &mut Declarations) -> Result<(), Box<dyn Error>> {
    let mut cursor = declarations.cursor("file", Limits::MOST, INPUT)?;
    while let Some(part) = cursor.next().transpose()? {
        if part.depth == 2 && part.role != Role::Content {
            print!("{} at {}; ", String::from_utf8_lossy(cursor.name()), part.at);
            cursor.skip_deeper(2)?;
        }
    }
    println!("{} bytes", cursor.checked().used);
    Ok(())
}

/// The value that the RFC gives, by its items.
fn written(declarations: &mut Declarations) -> Result<(), Box<dyn Error>> {
    let items = [
        Item::Content(b"sillyprog"),
        Item::Signed(2),
        Item::Content(b"lisp"),
        Item::Content(b"john"),
        Item::Content(b"(quit)"),
    ];
    let bytes = declarations.write("file", Limits::MOST, &items)?;
    println!("written as in the RFC: {}", bytes == INPUT[..48]);
    println!("{:?}", declarations.write("file", Limits::MOST, &items[..4]));
    Ok(())
}

/// A row is added, and a call of version 2 asks for its port (RFC 1833 section 3).
fn registry() -> Result<(), Box<dyn Error>> {
    let mut registry = Registry::start(111, b"no peer knows it")?;
    let is_set = registry.set(100_003, 3, b"tcp", b"127.0.0.1.8.1", b"root")?;
    let arguments = [100_003u32, 3, 6, 0].map(u32::to_be_bytes).concat();
    let call = Call {
        xid: 9,
        program: 100_000,
        version: 2,
        procedure: 3,
        arguments: &arguments,
        ..Call::default()
    };
    let mut reply = Vec::new();
    let is_answered = registry.answer(Transport::Tcp, &call.write()?, &mut reply)?;
    println!("row: {is_set}, reply: {is_answered}, {:?}", Reply::read(&reply)?);
    println!(
        "again: {}",
        registry.set(100_003, 3, b"tcp", b"127.0.0.1.8.1", b"root")?
    );
    println!("no call: {}", registry.answer(Transport::Udp, b"\0\0\0", &mut reply)?);
    println!("removed: {}", registry.unset(100_003, 3, b"", b"root")?);
    Ok(())
}

/// A record of two fragments that comes in two pieces, and less than one (RFC 5531 section 11).
fn stream() -> Result<(), Box<dyn Error>> {
    let mut records = Records::start(100)?;
    let mut record = Vec::new();
    for mut piece in [b"\0\0\0\x02ab\x80\0".as_slice(), b"\0\x01c\x80\0\0\x03d"] {
        while let Some(used) = records.feed(piece)? {
            records.take(&mut record)?;
            println!("record: {}", String::from_utf8_lossy(&record));
            piece = &piece[used..];
        }
    }
    println!("end: {:?}", records.end());
    Ok(())
}

fn main() -> Result<(), Box<dyn Error>> {
    let mut declarations = Declarations::read(TEXT)?;
    checks(&mut declarations);
    let (found, lines) = declarations.show("file", Limits::MOST, INPUT)?;
    print!("{lines}");
    println!("{} bytes", found.used);
    contents(&mut declarations)?;
    fields(&mut declarations)?;
    written(&mut declarations)?;
    println!("{:?}", Declarations::read(b"struct a { int b; int b; };"));
    println!("{:?}", normalise(b"\0\0\0\x02ab\x80\0\0\x01c", 4));
    println!("{:?}", normalise(b"\0\0\0\x02ab\x80\0\0\x03c", 4));
    messages()?;
    registry()?;
    stream()
}

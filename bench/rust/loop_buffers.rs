//! A call of `bindings/rust` made over and over, behind a first one that is as large as the next ones or far larger: what
//! a buffer once held is to cost the later calls nothing.
//!
//! usage: loop_buffers WORK small|large COUNT    WORK is `record`, `reply`, `lines`, `parts` or `items`. `large` begins
//! with a record, a reply or a value of a mebibyte or so, and `small` with one as small as the COUNT that follow.

use oncrpc::{Call, Declarations, Item, Limits, Records, Registry, Transport, WriteFault, MOST_RECORD};
use std::error::Error;
use std::hint::black_box;

type Done = Result<(), Box<dyn Error>>;

/// The bytes of a large record, and of the content of a large value.
const LARGE: usize = 1 << 20;
/// The rows of a large registry, six of which are its own.
const ROWS: u32 = 1024;

/// A record of one fragment (RFC 5531 section 11).
fn marked(count: usize) -> Vec<u8> {
    let header = (1 << 31 | count as u32).to_be_bytes();
    [header.as_slice(), &vec![7; count]].concat()
}

/// An opaque of so many bytes (RFC 4506 section 4.10).
fn opaque(count: usize) -> Vec<u8> {
    [(count as u32).to_be_bytes().as_slice(), &vec![7; count]].concat()
}

/// Records that are taken into one vector.
fn records(first: usize, count: u64) -> Done {
    let mut records = Records::start(MOST_RECORD)?;
    let mut record = Vec::new();
    let mut take = |bytes: &[u8]| -> Done {
        assert_eq!(records.feed(bytes)?, Some(bytes.len()));
        assert!(records.take(&mut record)?);
        black_box(&record);
        Ok(())
    };
    take(&marked(first))?;
    let small = marked(4);
    for _ in 0..count {
        take(&small)?;
    }
    Ok(())
}

/// A call of a procedure of the registry.
fn asked(procedure: u32) -> Result<Vec<u8>, WriteFault> {
    let call = Call {
        program: 100_000,
        version: 3,
        procedure,
        ..Call::default()
    };
    call.write()
}

/// Replies of a registry into one vector: the first to DUMP or to NULL, the others to NULL (RFC 1833 section 3.2).
fn replies(first: u32, count: u64) -> Done {
    let mut registry = Registry::start(111, b"no peer knows it")?;
    for program in 6..ROWS {
        assert!(registry.set(program, 1, &[b'n'; 64], &[b'a'; 256], b"owner")?);
    }
    let mut reply = Vec::new();
    let mut answer = |record: &[u8]| -> Done {
        assert!(registry.answer(Transport::Tcp, record, &mut reply)?);
        black_box(&reply);
        Ok(())
    };
    answer(&asked(first)?)?;
    let null = asked(0)?;
    for _ in 0..count {
        answer(&null)?;
    }
    Ok(())
}

/// Values of bytes by a call that makes a vector for each.
fn values(first: usize, count: u64, mut call: impl FnMut(&mut Declarations, &[u8]) -> Done) -> Done {
    let mut declarations = Declarations::read(b"typedef opaque blob<>;")?;
    call(&mut declarations, &opaque(first))?;
    let small = opaque(4);
    for _ in 0..count {
        call(&mut declarations, &small)?;
    }
    Ok(())
}

fn lines(declarations: &mut Declarations, input: &[u8]) -> Done {
    let (checked, lines) = declarations.show("blob", Limits::MOST, input)?;
    assert_eq!(
        (checked.used, black_box(lines).len()),
        (input.len(), 2 * input.len() - 5)
    );
    Ok(())
}

fn parts(declarations: &mut Declarations, input: &[u8]) -> Done {
    assert_eq!(black_box(declarations.parts("blob", Limits::MOST, input)?).1.len(), 2);
    Ok(())
}

fn items(declarations: &mut Declarations, input: &[u8]) -> Done {
    let bytes = declarations.write("blob", Limits::MOST, &[Item::Content(&input[4..])])?;
    assert_eq!(black_box(bytes).len(), input.len());
    Ok(())
}

fn main() -> Done {
    let words: Vec<String> = std::env::args().skip(1).collect();
    let [work, size, count] = words.as_slice() else {
        return Err("usage: loop_buffers WORK small|large COUNT".into());
    };
    let count = count.parse()?;
    let first = if size == "large" { LARGE } else { 4 };
    match work.as_str() {
        "record" => records(first, count),
        "reply" => replies(if size == "large" { 4 } else { 0 }, count),
        "lines" => values(first, count, lines),
        "parts" => values(first, count, parts),
        "items" => values(first, count, items),
        _ => Err("no such work".into()),
    }
}

//! Values that own a handle go to another thread: made on one, used on a second, given back on a third.

use oncrpc::{Declarations, Limits, Records, Registry};
use std::error::Error;
use std::thread;

/// Gives a value to another thread, which uses it, and takes it back.
fn sent<T: Send + 'static>(it: T, used: fn(&mut T) -> bool) -> (T, bool) {
    let thread = thread::spawn(move || {
        let mut it = it;
        let is_right = used(&mut it);
        (it, is_right)
    });
    thread.join().expect("no thread panics")
}

#[test]
fn each_handle() -> Result<(), Box<dyn Error>> {
    let read = Declarations::read(b"struct pair { int left; bool right; };")?;
    let (read, checked) = sent(read, |it| {
        it.check("pair", Limits::MOST, &[0, 0, 0, 5, 0, 0, 0, 1]).is_ok_and(|it| it.used == 8)
    });
    let (registry, set) = sent(Registry::start(111, b"no peer knows it")?, |it| {
        it.set(300, 7, b"tcp", b"1.2.3.4.8.1", b"1000").is_ok_and(|it| it)
    });
    let (records, fed) = sent(Records::start(65_536)?, |it| {
        let mut record = Vec::new();
        it.feed(b"\x80\0\0\x02ab").is_ok_and(|it| it == Some(6))
            && it.take(&mut record).is_ok_and(|it| it)
            && record == b"ab"
    });
    assert!(checked && set && fed);
    thread::spawn(move || drop((read, registry, records))).join().expect("no thread panics");
    Ok(())
}

#[test]
fn a_cursor_goes_on_elsewhere() -> Result<(), Box<dyn Error>> {
    let mut read = Declarations::read(b"struct pair { int left; bool right; };")?;
    let mut cursor = read.cursor("pair", Limits::MOST, &[0, 0, 0, 5, 0, 0, 0, 1])?;
    let first = cursor.next().transpose()?.map(|part| part.at);
    let others = thread::scope(|scope| {
        let thread = scope.spawn(move || cursor.map(|part| part.map(|it| it.at)).collect::<Result<Vec<_>, _>>());
        thread.join().expect("no thread panics")
    });
    assert_eq!((first, others?), (Some(0), vec![0, 4]));
    Ok(())
}

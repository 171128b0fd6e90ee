//! The numbers and the layouts of `sys` are those that a C compiler makes of `include/oncrpc.h`.

use crate::sys::{LAYOUTS, NUMBERS};
use std::collections::BTreeSet;
use std::{env, fs};

/// `.ci/library` compiles the header into a program that prints a line for each number and each field, and names the
/// file of what it printed.
#[test]
#[ignore = "wants what a C compiler makes of the header: .ci/library names it in ONCRPC_LAYOUT"]
fn is_that_of_the_header() {
    let file = env::var_os("ONCRPC_LAYOUT").expect("ONCRPC_LAYOUT names a file");
    let text = fs::read_to_string(file).expect("the file is there");
    let of_header: BTreeSet<&str> = text.lines().collect();
    let numbers = NUMBERS.iter().map(|(name, number)| format!("{name} {number}"));
    let layouts = LAYOUTS
        .iter()
        .map(|(name, field, at, size)| format!("{name}.{field} {at} {size}"));
    let ours: Vec<String> = numbers.chain(layouts).collect();
    let ours: BTreeSet<&str> = ours.iter().map(String::as_str).collect();
    assert!(of_header.len() > 100, "only {} lines", of_header.len());
    assert_eq!(
        of_header.difference(&ours).collect::<Vec<_>>(),
        Vec::<&&str>::new(),
        "in the header alone"
    );
    assert_eq!(
        ours.difference(&of_header).collect::<Vec<_>>(),
        Vec::<&&str>::new(),
        "in bindings/rust alone"
    );
}

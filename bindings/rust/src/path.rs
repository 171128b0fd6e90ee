//! Paths to the parts of a value.

use crate::parts::{Iter, Part, Role, XdrType};
use std::iter::Peekable;

/// From a node to one inside it.
pub(crate) enum Step<'p> {
    /// The field or the arm of this name.
    Name(&'p [u8]),
    /// The item at this place, from 0.
    Item(usize),
}

/// The steps of a path, and `None` in place of the first one that is none.
pub(crate) fn steps(path: &str) -> impl Iterator<Item = Option<Step<'_>>> {
    let mut left = path;
    let mut is_first = true;
    std::iter::from_fn(move || {
        let step = next_step(&mut left, is_first)?;
        is_first = false;
        Some(step)
    })
}

/// The step at the front of what is left of a path, which it then no longer has.
fn next_step<'p>(left: &mut &'p str, is_first: bool) -> Option<Option<Step<'p>>> {
    if left.is_empty() {
        return None;
    }
    if let Some(item) = left.strip_prefix('[') {
        let (place, behind) = item.split_once(']').unwrap_or(("", ""));
        *left = behind;
        return Some(item_at(place));
    }
    let named = match left.strip_prefix('.') {
        Some(named) if !is_first => named,
        None if is_first => left,
        _ => return Some(None),
    };
    let (name, behind) = named.split_at(named.find(['.', '[']).unwrap_or(named.len()));
    *left = behind;
    Some((!name.is_empty()).then_some(Step::Name(name.as_bytes())))
}

/// A decimal number without a sign and without leading zeros.
fn item_at(place: &str) -> Option<Step<'static>> {
    let is_decimal = place == "0" || !place.starts_with(['0', '+']);
    place.parse().ok().filter(|_| is_decimal).map(Step::Item)
}

impl Step<'_> {
    /// The first part of the node inside `node` that the step leads to, where the parts behind `node` are left.
    pub(crate) fn taken<'a>(&self, node: Part<'a>, left: &mut Peekable<Iter<'a>>) -> Option<Part<'a>> {
        let has_names = matches!(node.xdr_type, XdrType::Struct | XdrType::Union);
        let has_items = matches!(node.xdr_type, XdrType::FixedArray | XdrType::Array | XdrType::Optional);
        let mut items = 0;
        while let Some(part) = left.next_if(|part| part.depth > node.depth) {
            if part.depth > node.depth + 1 || part.role == Role::Content && part.xdr_type != XdrType::FixedOpaque {
                continue;
            }
            let is_it = match self {
                Self::Name(name) => has_names && part.name == *name,
                Self::Item(at) => has_items && items == *at,
            };
            if is_it {
                return Some(part);
            }
            items += 1;
        }
        None
    }
}

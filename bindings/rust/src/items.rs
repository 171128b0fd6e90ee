//! Values that are written by their items.

use crate::buffer::{fill, with_capacity, AT_OK};
use crate::declarations::{Declarations, Limits};
use crate::fault::Reason;
use crate::sys;
use std::error::Error;
use std::fmt;

/// An item of a value (RFC 4506 section 4): what stands in the bytes of a part. They stand in the order of the value's
/// bytes. A struct, an array of fixed size and a void have none of their own; nor has the length of content.
#[derive(Clone, Copy, Debug, PartialEq, Eq, Hash)]
pub enum Item<'a> {
    /// An integer, a bool (0 or 1), an enum or a discriminant.
    Signed(i64),
    /// The same: each of these may stand in either.
    Unsigned(u64),
    /// Whether an optional item is there and its items follow.
    Flag(bool),
    /// How many items of an array of variable size follow.
    Count(u32),
    /// The bytes of an opaque or a string, without zeros behind them.
    Content(&'a [u8]),
}

/// Why items are refused. Of several reasons the first is told. They come in this order: the value is whole already, or
/// too deep before its first item; another item is due; a number is out of range; the item's bytes pass the limit. Then
/// come the others.
#[derive(Clone, Copy, Debug, PartialEq, Eq, Hash)]
#[non_exhaustive]
pub enum ItemReason {
    /// The bytes of the item would be refused.
    Refused(Reason),
    /// Another item is due, or content of another fixed size.
    WrongItem,
    /// The number does not go into the bytes of its type.
    NotInRange,
    /// Too many items: the value is whole before this one.
    PastEnd,
    /// Too few items: the value is not whole behind the last.
    Unfinished,
}

impl ItemReason {
    fn of(number: u32) -> Self {
        match number {
            sys::WRONG_ITEM => Self::WrongItem,
            sys::NOT_IN_RANGE => Self::NotInRange,
            sys::PAST_END => Self::PastEnd,
            sys::UNFINISHED => Self::Unfinished,
            _ => Self::Refused(Reason::of(number)),
        }
    }
}

/// Why no value is written.
#[derive(Clone, Copy, Debug, PartialEq, Eq, Hash)]
#[non_exhaustive]
pub enum ItemsFault {
    /// No value within the limits has the items up to the bad one. Those before it were taken: some value of the kind
    /// begins with them, perhaps none within the limits.
    BadItem {
        /// Why.
        why: ItemReason,
        /// How many items are before the bad one.
        at: usize,
    },
    /// The name is that of no kind.
    NoKind,
    /// A limit is out of its range.
    BadLimits,
    /// Out of memory.
    NoMemory,
    /// A status that this crate does not know for the call.
    Unknown(u32),
}

impl ItemsFault {
    fn of(status: u32, outcome: &sys::Outcome) -> Self {
        match status {
            sys::BAD_ITEM => Self::BadItem {
                why: ItemReason::of(outcome.why),
                at: outcome.at,
            },
            sys::NO_KIND => Self::NoKind,
            sys::BAD_LIMITS => Self::BadLimits,
            sys::NO_MEMORY => Self::NoMemory,
            _ => Self::Unknown(status),
        }
    }
}

impl fmt::Display for ItemsFault {
    fn fmt(&self, f: &mut fmt::Formatter<'_>) -> fmt::Result {
        match self {
            Self::BadItem { why, at } => write!(f, "item {at} is refused: {why:?}"),
            Self::NoKind => f.write_str("the name is that of no kind"),
            Self::BadLimits => f.write_str("a limit is out of its range"),
            Self::NoMemory => f.write_str("out of memory"),
            Self::Unknown(status) => write!(f, "the unknown status {status}"),
        }
    }
}

impl Error for ItemsFault {}

/// The items as C takes them, with their content in one vector; `None` where memory is refused.
fn lent(items: &[Item<'_>]) -> Option<(Vec<sys::Item>, Vec<u8>)> {
    let (mut told, mut data) = (with_capacity(items.len())?, Vec::new());
    for item in items {
        told.push(match *item {
            Item::Signed(signed_number) => sys::Item {
                form: sys::ITEM_SIGNED,
                signed_number,
                ..sys::Item::default()
            },
            Item::Unsigned(number) => sys::Item {
                form: sys::ITEM_UNSIGNED,
                number,
                ..sys::Item::default()
            },
            Item::Flag(is_there) => sys::Item {
                form: sys::ITEM_FLAG,
                number: is_there.into(),
                ..sys::Item::default()
            },
            Item::Count(count) => sys::Item {
                form: sys::ITEM_COUNT,
                count: usize::try_from(count).ok()?,
                ..sys::Item::default()
            },
            Item::Content(bytes) => {
                let at = data.len();
                data.try_reserve(bytes.len()).ok()?;
                data.extend_from_slice(bytes);
                sys::Item {
                    form: sys::ITEM_CONTENT,
                    at,
                    count: bytes.len(),
                    ..sys::Item::default()
                }
            }
        });
    }
    Some((told, data))
}

/// How many bytes are enough for the items: eight of each, and its content.
fn enough(items: usize, content: usize) -> Option<usize> {
    items.checked_mul(8)?.checked_add(content)
}

impl Declarations {
    /// The encoding of the value of the kind that has these items. Content is copied twice, first into one vector.
    ///
    /// ```no_run
    /// use oncrpc::{Declarations, Item, Limits};
    ///
    /// let mut declarations = Declarations::read(b"struct named { int id; string name<8>; };")?;
    /// let bytes = declarations.write("named", Limits::MOST, &[Item::Signed(-1), Item::Content(b"ab")])?;
    /// assert_eq!(bytes, *b"\xff\xff\xff\xff\0\0\0\x02ab\0\0");
    /// # Ok::<(), Box<dyn std::error::Error>>(())
    /// ```
    pub fn write(&mut self, name: &str, limits: Limits, items: &[Item<'_>]) -> Result<Vec<u8>, ItemsFault> {
        let (told, data) = lent(items).ok_or(ItemsFault::NoMemory)?;
        let capacity = enough(told.len(), data.len()).ok_or(ItemsFault::NoMemory)?;
        let mut bytes = with_capacity(capacity).ok_or(ItemsFault::NoMemory)?;
        let mut outcome = sys::Outcome::default();
        let mut written = 0;
        // SAFETY: name, items and data are slices; at OK so many bytes were written; handle, buffer, count and outcome
        // are ours alone and lie apart.
        let (status, _) = unsafe {
            fill(&mut bytes, AT_OK, |to, capacity| {
                let status = sys::oncrpc_declarations_write(
                    self.handle(),
                    name.as_ptr(),
                    name.len(),
                    limits.depth,
                    limits.bytes,
                    told.as_ptr(),
                    told.len(),
                    data.as_ptr(),
                    data.len(),
                    to,
                    capacity,
                    &mut written,
                    &mut outcome,
                );
                (status, written)
            })
        };
        match status {
            sys::OK => Ok(bytes),
            _ => Err(ItemsFault::of(status, &outcome)),
        }
    }
}

//! Kinds that were declared, and their members.

use crate::buffer::{fill, with_capacity, AT_OK};
use crate::declarations::Declarations;
use crate::parts::XdrType;
use crate::sys;
use std::error::Error;
use std::fmt;

/// A kind of the declarations (RFC 4506 section 4). What its type does not speak of is 0.
#[derive(Clone, Copy, Debug, PartialEq, Eq, Hash)]
pub struct Kind {
    /// Its type.
    pub xdr_type: XdrType,
    /// How many members an enum has, or fields a struct.
    pub members: usize,
    /// How many bytes an opaque or a string has, or items an array: so many of fixed size, else at most so many.
    pub size: u32,
    /// The kind of an array's items, of an optional's item or of a union's discriminant.
    pub item: u32,
}

/// A member of an enum, a field of a struct, an arm of a union, or a type.
#[derive(Clone, Debug, PartialEq, Eq, Hash)]
pub struct Member {
    /// Its name; empty of an arm that is void.
    pub name: String,
    /// Of an enum's member its number, of an arm the number that was asked for, else 0.
    pub number: i64,
    /// Of a field, an arm or a type its kind, of an enum's member that of the enum.
    pub kind: u32,
}

/// Why no kind or member is told.
#[derive(Clone, Copy, Debug, PartialEq, Eq, Hash)]
#[non_exhaustive]
pub enum KindFault {
    /// There is no such kind.
    NoKind,
    /// The kind has no such member, or there is no such kind.
    NoMember,
    /// Out of memory.
    NoMemory,
    /// A status that this crate does not know for the call.
    Unknown(u32),
}

impl KindFault {
    fn of(status: u32) -> Self {
        match status {
            sys::NO_KIND => Self::NoKind,
            sys::NO_MEMBER => Self::NoMember,
            _ => Self::Unknown(status),
        }
    }
}

impl fmt::Display for KindFault {
    fn fmt(&self, f: &mut fmt::Formatter<'_>) -> fmt::Result {
        match self {
            Self::NoKind => f.write_str("there is no such kind"),
            Self::NoMember => f.write_str("the kind has no such member"),
            Self::NoMemory => f.write_str("out of memory"),
            Self::Unknown(status) => write!(f, "the unknown status {status}"),
        }
    }
}

impl Error for KindFault {}

/// Asks for a member, and again with a buffer for its name.
fn told(mut ask: impl FnMut(*mut u8, usize, &mut sys::Member) -> u32) -> Result<Member, KindFault> {
    let (mut name, mut member) = (Vec::new(), sys::Member::default());
    let mut status = ask(name.as_mut_ptr(), 0, &mut member);
    if status == sys::NO_ROOM {
        name = with_capacity(member.name_count).ok_or(KindFault::NoMemory)?;
        // SAFETY: at OK so many bytes were written.
        (status, _) = unsafe {
            fill(&mut name, AT_OK, |to, capacity| {
                let status = ask(to, capacity, &mut member);
                (status, member.name_count)
            })
        };
    }
    match status {
        sys::OK => Ok(Member {
            name: String::from_utf8(name).unwrap_or_default(),
            number: member.number,
            kind: member.kind,
        }),
        _ => Err(KindFault::of(status)),
    }
}

impl Declarations {
    /// Which kind has the name, as [`check`](Self::check) takes names: its number, as of a [`Part`](crate::Part).
    ///
    /// ```
    /// # use oncrpc::{Declarations, KindFault, XdrType};
    /// let mut declarations = Declarations::read(b"enum kind { FILE = 1, FOLDER = 2 }; typedef kind kinds<9>;")?;
    /// let kinds = declarations.kind_named("kinds")?;
    /// let told = declarations.kind(kinds)?;
    /// assert_eq!((told.xdr_type, told.size), (XdrType::Array, 9));
    /// assert_eq!(declarations.kind(told.item)?.members, 2);
    /// assert_eq!(declarations.member(told.item, 0)?.name, "FILE");
    /// assert_eq!(declarations.picked(told.item, 2)?.name, "FOLDER");
    /// assert_eq!(declarations.picked(told.item, 3), Err(KindFault::NoMember));
    /// # Ok::<(), Box<dyn std::error::Error>>(())
    /// ```
    pub fn kind_named(&mut self, name: &str) -> Result<u32, KindFault> {
        let mut kind = 0;
        // SAFETY: the name is a slice; handle and kind are ours alone and lie apart.
        let status = unsafe { sys::oncrpc_declarations_named(self.handle(), name.as_ptr(), name.len(), &mut kind) };
        match status {
            sys::OK => Ok(kind),
            _ => Err(KindFault::of(status)),
        }
    }

    /// What the kind of this number is: that of a part, of another kind's item, or of a member.
    pub fn kind(&mut self, kind: u32) -> Result<Kind, KindFault> {
        let mut told = sys::Kind::default();
        // SAFETY: handle and kind are ours alone and lie apart.
        let status = unsafe { sys::oncrpc_declarations_kind(self.handle(), kind, &mut told) };
        match status {
            sys::OK => Ok(Kind {
                xdr_type: XdrType::of(told.xdr_type),
                members: told.members,
                size: told.size,
                item: told.item,
            }),
            _ => Err(KindFault::of(status)),
        }
    }

    /// The member of an enum, or the field of a struct, that `index` others are before. Other kinds have none.
    pub fn member(&mut self, kind: u32, index: usize) -> Result<Member, KindFault> {
        told(|to, capacity, member| {
            // SAFETY: so many bytes are lent; handle, buffer and member are ours alone and lie apart.
            unsafe { sys::oncrpc_declarations_member(self.handle(), kind, index, to, capacity, member) }
        })
    }

    /// The first member of an enum that has the number, or the arm of a union that stands under it: its default, where
    /// no other does.
    pub fn picked(&mut self, kind: u32, number: i64) -> Result<Member, KindFault> {
        told(|to, capacity, member| {
            // SAFETY: so many bytes are lent; handle, buffer and member are ours alone and lie apart.
            unsafe { sys::oncrpc_declarations_picked(self.handle(), kind, number, to, capacity, member) }
        })
    }

    /// The types that the text declares, in its order: the kind of each with its name. A fault ends them.
    ///
    /// ```
    /// # use oncrpc::Declarations;
    /// let mut declarations = Declarations::read(b"typedef opaque handle<64>; struct point { int x; int y; };")?;
    /// let names = declarations.types().map(|it| it.map(|it| it.name));
    /// assert_eq!(names.collect::<Result<Vec<_>, _>>()?, ["handle", "point"]);
    /// # Ok::<(), Box<dyn std::error::Error>>(())
    /// ```
    pub fn types(&mut self) -> impl Iterator<Item = Result<Member, KindFault>> + '_ {
        let mut next = Some(0);
        std::iter::from_fn(move || {
            let index = next.take()?;
            match self.type_at(index) {
                Err(KindFault::NoMember) => None,
                found => {
                    next = found.is_ok().then(|| index + 1);
                    Some(found)
                }
            }
        })
    }

    /// The type that `index` others of the text are before.
    fn type_at(&mut self, index: usize) -> Result<Member, KindFault> {
        told(|to, capacity, member| {
            // SAFETY: so many bytes are lent; handle, buffer and member are ours alone and lie apart.
            unsafe { sys::oncrpc_declarations_type(self.handle(), index, to, capacity, member) }
        })
    }
}

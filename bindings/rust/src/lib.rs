//! XDR (RFC 4506), messages and record marking of ONC RPC (RFC 5531), and the registry of rpcbind (RFC 1833), by proved
//! code.
//!
//! Safe calls of `liboncrpc`, over std alone. What each call promises is the contract of the function of C that it
//! makes, which a prover has accepted (`include/oncrpc.h` retells it). The code here only lends it the bytes and gives
//! its statuses names. A status that it does not know is `Unknown`. No call panics on any input, and no length that the
//! input declares reserves memory.
//!
//! ```
//! use oncrpc::{Declarations, Item, Limits};
//! let mut declarations = Declarations::read(b"struct point { int x; int y; };")?;
//! let bytes = declarations.write("point", Limits::MOST, &[Item::Signed(-1), Item::Signed(2)])?;
//! match declarations.check("point", Limits::MOST, &bytes) {
//!     Ok(found) => println!("{} bytes, more follow: {}", found.used, found.more_follows),
//!     Err(fault) => println!("{fault}"), // refused Truncated at 4
//! }
//! let (_, parts) = declarations.parts("point", Limits::MOST, &bytes)?;
//! assert_eq!(parts.get("y").and_then(|part| part.i32()), Some(2));
//! # Ok::<(), Box<dyn std::error::Error>>(())
//! ```
//!
//! # Linking
//!
//! `./build-library` at the top of the repository leaves `liboncrpc.a` in `library/`, and `./build-library FOLDER`
//! leaves it in FOLDER. The build script of this crate links it: from the folder that ONCRPC_LIBRARY names when cargo
//! runs, else from `library/`. Nothing else is linked, and no RUSTFLAGS are needed. A program names this folder:
//!
//! ```text
//! [dependencies]
//! oncrpc = { path = "../REPOSITORY/bindings/rust" }
//! ```
//!
//! Then `cargo build` is enough, or `ONCRPC_LIBRARY=FOLDER cargo build`, with the whole path of the folder. What is
//! built wants a processor with x86-64-v2.
#![deny(missing_docs)]

mod address;
mod buffer;
mod caller;
mod cursor;
mod declarations;
mod fault;
mod find;
mod items;
mod json;
mod kinds;
#[cfg(test)]
mod layout;
mod messages;
mod parts;
mod path;
mod records;
mod registry;
mod rows;
mod session;
mod stream;
mod sys;

pub use address::{read_uaddr, write_uaddr};
pub use caller::{Caller, Peer};
pub use cursor::{Cursor, CursorFault};
pub use declarations::{Checked, Declarations, Limits};
pub use fault::{CheckFault, ReadFault, Reason, Refusal, TextFault, TextFaultKind};
pub use find::FindFault;
pub use items::{Item, ItemReason, ItemsFault};
pub use json::{JsonFault, JsonReason, JsonRefusal};
pub use kinds::{Kind, KindFault, Member};
pub use messages::{
    Auth, AuthSys, AuthSysFault, Call, CallFault, Denial, Outcome, Reply, ReplyFault, Versions, WriteFault,
};
pub use parts::{Iter, Part, Parts, Role, XdrType};
pub use records::{fragment_header, normalise, NormaliseFault, MOST_RECORD};
pub use registry::{Registry, RegistryFault, Transport, REGISTRY_DECLARATIONS};
pub use rows::{Row, Rows};
pub use session::{Session, SessionFault, Taken};
pub use stream::{Records, StreamFault};

/// The three numbers of the version of the library that is linked.
pub fn version() -> (u32, u32, u32) {
    // SAFETY: it is given nothing.
    let version = unsafe { sys::oncrpc_version() };
    (version >> 16, version >> 8 & 255, version & 255)
}

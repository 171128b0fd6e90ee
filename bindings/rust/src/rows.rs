//! The rows of a registry, listed in process.

use crate::buffer::with_capacity;
use crate::registry::{Registry, RegistryFault};
use crate::sys;

/// A row: who serves a version of a program over a transport, where, and who set it (RFC 1833 section 2.1).
#[derive(Clone, Copy, Debug, PartialEq, Eq, Hash)]
pub struct Row<'a> {
    /// The program.
    pub program: u32,
    /// Its version.
    pub version: u32,
    /// The transport.
    pub netid: &'a [u8],
    /// Where it is served: a universal address, or what was set in its place.
    pub address: &'a [u8],
    /// Who set the row.
    pub owner: &'a [u8],
}

/// Rows in the order in which they were added.
pub struct Rows {
    rows: Vec<sys::RegistryRow>,
    texts: Vec<u8>,
}

impl Rows {
    /// How many there are.
    pub fn len(&self) -> usize {
        self.rows.len()
    }

    /// Whether there is none.
    pub fn is_empty(&self) -> bool {
        self.rows.is_empty()
    }

    /// Each of them.
    pub fn iter(&self) -> impl ExactSizeIterator<Item = Row<'_>> {
        self.rows.iter().map(|row| Row {
            program: row.program,
            version: row.version,
            netid: self.text(row.netid),
            address: self.text(row.address),
            owner: self.text(row.owner),
        })
    }

    fn text(&self, part: sys::Part) -> &[u8] {
        &self.texts[part.at..][..part.count]
    }
}

impl Registry {
    /// The rows of the registry, which stay as they are. Two vectors are made, for the rows and their texts.
    pub fn rows(&mut self) -> Result<Rows, RegistryFault> {
        let mut listed = Rows {
            rows: Vec::new(),
            texts: Vec::new(),
        };
        let (mut status, found) = self.rows_into(&mut listed);
        if status == sys::NO_ROOM {
            listed.rows = with_capacity(found.rows).ok_or(RegistryFault::NoMemory)?;
            listed.texts = with_capacity(found.bytes).ok_or(RegistryFault::NoMemory)?;
            (status, _) = self.rows_into(&mut listed);
        }
        match status {
            sys::OK => Ok(listed),
            _ => Err(RegistryFault::of(status)),
        }
    }

    /// Puts rows and texts into the vectors, which are empty, where their capacities are enough.
    fn rows_into(&mut self, listed: &mut Rows) -> (u32, sys::RowsOutcome) {
        let mut outcome = sys::RowsOutcome::default();
        // SAFETY: handle, capacities and outcome are ours alone and lie apart.
        let status = unsafe {
            sys::oncrpc_registry_rows(
                self.handle(),
                listed.rows.as_mut_ptr(),
                listed.rows.capacity(),
                listed.texts.as_mut_ptr(),
                listed.texts.capacity(),
                &mut outcome,
            )
        };
        if status == sys::OK {
            // SAFETY: so many were written.
            unsafe {
                listed.rows.set_len(outcome.rows);
                listed.texts.set_len(outcome.bytes);
            }
        }
        (status, outcome)
    }
}

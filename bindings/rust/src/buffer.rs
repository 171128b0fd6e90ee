//! Vectors that the library fills.

use crate::sys;

/// An empty vector with this capacity at least, or `None` where memory is refused.
pub(crate) fn with_capacity<T>(count: usize) -> Option<Vec<T>> {
    let mut made = Vec::new();
    made.try_reserve_exact(count).ok()?;
    Some(made)
}

/// Empties the vector, hands its whole capacity to a call of the library, and keeps what that wrote.
///
/// `write` gets where the capacity begins and how many items it holds, and answers a status and a count. The capacity
/// is not cleared first, which would cost its size at each call.
///
/// # Safety
///
/// At a status of `filled` the call has written the first `count` items, and `count` is at most the capacity.
pub(crate) unsafe fn fill<T>(
    items: &mut Vec<T>,
    filled: &[u32],
    write: impl FnOnce(*mut T, usize) -> (u32, usize),
) -> (u32, usize) {
    items.clear();
    let spare = items.spare_capacity_mut();
    let (status, count) = write(spare.as_mut_ptr().cast(), spare.len());
    if filled.contains(&status) {
        // SAFETY: as the caller promises.
        unsafe { items.set_len(count) };
    }
    (status, count)
}

/// The statuses of a call that has one status for all that it wrote.
pub(crate) const AT_OK: &[u32] = &[sys::OK];

#[cfg(test)]
mod tests {
    use super::*;

    /// A call that writes so many of these bytes at the front of what it is lent, and says so.
    fn writes(byte: u8, count: usize) -> impl FnOnce(*mut u8, usize) -> (u32, usize) {
        move |to, capacity| {
            assert!(count <= capacity);
            // SAFETY: so many bytes were lent.
            unsafe { to.write_bytes(byte, count) };
            (sys::OK, count)
        }
    }

    /// What no memory has room for is refused, and ends nothing.
    #[test]
    fn too_many_items_are_none() {
        assert!(with_capacity::<u8>(usize::MAX).is_none());
        assert!(with_capacity::<u64>(usize::MAX / 8).is_none());
        assert!(with_capacity::<u64>(3).is_some_and(|made| made.is_empty() && made.capacity() >= 3));
    }

    /// What a call does not write stays as an earlier one left it.
    #[test]
    fn nothing_is_cleared() {
        let mut items = with_capacity(1 << 20).unwrap();
        // SAFETY: each call writes as many bytes as it says, but for the last, which reports another status.
        unsafe {
            assert_eq!(fill(&mut items, AT_OK, writes(7, 1 << 20)), (sys::OK, 1 << 20));
            assert_eq!(fill(&mut items, AT_OK, writes(9, 4)), (sys::OK, 4));
            assert_eq!(fill(&mut items, AT_OK, |_, _| (sys::NO_ROOM, 5)), (sys::NO_ROOM, 5));
        }
        assert!(items.is_empty());
        // SAFETY: the first call wrote all of them.
        unsafe { items.set_len(1 << 20) };
        assert!(items[..4] == [9; 4] && items[4..].iter().all(|byte| *byte == 7));
    }
}

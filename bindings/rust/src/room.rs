//! Room that calls write to.

use crate::Position;
use std::collections::TryReserveError;
use std::mem::MaybeUninit;

/// Room for so many items, if there is memory for them.
pub(crate) fn reserved<T>(len: usize) -> Result<Vec<T>, TryReserveError> {
    let mut room = Vec::new();
    room.try_reserve_exact(len)?;
    Ok(room)
}

/// So many of an item, if there is memory for them.
pub(crate) fn room_for<T: Clone>(item: T, len: usize) -> Result<Vec<T>, TryReserveError> {
    let mut room = reserved(len)?;
    room.resize(len, item);
    Ok(room)
}

/// The items of an iterator that knows how many they are, if there is memory for them.
pub(crate) fn collected<T>(items: impl ExactSizeIterator<Item = T>) -> Result<Vec<T>, TryReserveError> {
    let mut room = reserved(items.len())?;
    room.extend(items);
    Ok(room)
}

/// The positions that a call writes into the room that it is given. It answers how many there are, and has written these, where they
/// find room; else it is made again.
pub(crate) fn positions_of<E: From<TryReserveError>>(
    room: usize,
    mut write: impl FnMut(&mut [MaybeUninit<Position>]) -> Result<u64, E>,
) -> Result<Vec<Position>, E> {
    let mut out = reserved(room)?;
    loop {
        let length = write(out.spare_capacity_mut())? as usize;
        if length <= out.capacity() {
            // SAFETY: so many positions were written.
            unsafe { out.set_len(length) };
            return Ok(out);
        }
        out = reserved(length)?;
    }
}

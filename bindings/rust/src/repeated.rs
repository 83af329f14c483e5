//! Layers that are handed in several times.

use crate::room::reserved;
use std::collections::{HashMap, TryReserveError};

/// The places of the layers that are unlike all before them, and for each layer the number of its own among these. Two are alike where
/// their bytes lie at one address and are as many, and they have one path: the library reads such a layer once.
pub(crate) fn firsts_and_places(layers: &[(&[u8], &str)]) -> Result<(Vec<usize>, Vec<u64>), TryReserveError> {
    let (mut firsts, mut places) = (reserved(layers.len())?, reserved(layers.len())?);
    let mut numbers = HashMap::new();
    numbers.try_reserve(layers.len())?;
    for (place, (bytes, path)) in layers.iter().enumerate() {
        let number = *numbers.entry((bytes.as_ptr(), bytes.len(), *path)).or_insert(firsts.len() as u64);
        if number == firsts.len() as u64 {
            firsts.push(place);
        }
        places.push(number);
    }
    Ok((firsts, places))
}

//! Questions about many commits in one call.

use crate::checked::Comparison;
use crate::room::{collected, reserved, room_for};
use crate::{codes, sys, Checked, Graph, ObjectId, PairError, Position, QueryError};

impl Graph {
    /// The positions of many ids, as [`Graph::lookup`] answers for one.
    ///
    /// # Errors
    ///
    /// Memory ran out.
    pub fn lookup_all(&self, ids: &[ObjectId]) -> Result<Vec<Option<Position>>, QueryError> {
        let mut bytes = reserved(ids.len() * self.id_len)?;
        // An id of another length is in no place: that of the null id.
        for id in ids {
            bytes.extend_from_slice(if id.as_bytes().len() == self.id_len { id.as_bytes() } else { &[0; 32][..self.id_len] });
        }
        let mut out = room_for(0, ids.len())?;
        // SAFETY: `raw` is open, and each pointer and length are those of a vector.
        unsafe { sys::cg_lookup_all(self.raw, bytes.as_ptr(), bytes.len(), self.id_len, out.as_mut_ptr(), out.len()) };
        let place = |(id, pos): (&ObjectId, u32)| {
            (pos != u32::MAX && id.as_bytes().len() == self.id_len).then_some(Position(pos))
        };
        Ok(collected(ids.iter().zip(out).map(place))?)
    }

    /// The ids at many positions.
    ///
    /// # Errors
    ///
    /// The index of the first position that is none, or that memory ran out.
    pub fn ids_at(&self, positions: &[Position]) -> Result<Vec<ObjectId>, PairError> {
        let no_memory = |_| PairError { index: 0, error: QueryError::OutOfMemory };
        let mut bytes = room_for(0, positions.len() * self.id_len).map_err(no_memory)?;
        let (places, count) = (positions.as_ptr().cast(), positions.len());
        // SAFETY: `raw` is open, each pointer and length are those of a slice, and a position is one number.
        let told = unsafe { sys::cg_ids_at(self.raw, places, count, bytes.as_mut_ptr(), bytes.len()) };
        if told.code != codes::OK {
            return Err(PairError { index: told.answered as usize, error: QueryError::NoSuchPosition });
        }
        let id = |bytes: &[u8]| ObjectId::try_from_bytes(bytes).expect("it is as long as an id");
        collected(bytes.chunks_exact(self.id_len).map(id)).map_err(no_memory)
    }
}

impl Checked {
    /// The merge bases of each pair, and how far its commits have come apart, as [`Checked::compare`] answers for one pair. The
    /// memory of the search is filled once for all pairs.
    ///
    /// # Errors
    ///
    /// The index of the first pair of which a position is none, or on which memory ran out.
    pub fn compare_all(&self, pairs: &[(Position, Position)]) -> Result<Vec<Comparison>, PairError> {
        let no_memory = |_| PairError { index: 0, error: QueryError::OutOfMemory };
        let two = |&(first, other): &(Position, Position)| sys::Two { first: first.0, other: other.0 };
        let asked = collected(pairs.iter().map(two)).map_err(no_memory)?;
        let mut answers = room_for(sys::Bases::default(), asked.len()).map_err(no_memory)?;
        let mut out = room_for(Position(0), asked.len()).map_err(no_memory)?;
        loop {
            let (room, len) = (out.as_mut_ptr().cast(), out.len());
            // SAFETY: `raw` is open, each pointer and length are those of a slice, and a position is one number.
            let told = unsafe {
                let (pairs, count) = (asked.as_ptr(), asked.len());
                sys::cg_merge_bases_of(self.as_ref().raw, pairs, count, answers.as_mut_ptr(), answers.len(), room, len)
            };
            match told.code {
                codes::OK if told.length as usize <= len => break,
                codes::OK => out = room_for(Position(0), told.length as usize).map_err(no_memory)?,
                codes::NO_SUCH_POSITION => {
                    return Err(PairError { index: told.answered as usize, error: QueryError::NoSuchPosition })
                }
                _ => return Err(PairError { index: told.answered as usize, error: QueryError::OutOfMemory }),
            }
        }
        let mut rest = &out[..];
        let mut compared = reserved(answers.len()).map_err(no_memory)?;
        for answer in answers {
            let (bases, after) = rest.split_at(answer.length as usize);
            rest = after;
            let bases = collected(bases.iter().copied()).map_err(no_memory)?;
            compared.push(Comparison { bases, ahead: answer.ahead, behind: answer.behind });
        }
        Ok(compared)
    }
}

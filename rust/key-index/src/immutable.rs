//! The immutable index.

use crate::ffi::{self, Handle, PositionCounts};
use crate::owned::Owned;
use crate::reads::reads_of_positions;
use crate::values::written;
use crate::{answer, Error, Values};
use std::fmt;

/// Keys by position, as those of the records of a log that only grows: each key is inserted once, at a position of its own, and positions
/// are removed from the front alone. It keeps eight bytes of each key, in one row by position, and answers the positions of all keys that
/// share these.
///
/// ```
/// # fn main() -> Result<(), key_index::Error> {
/// let mut log = key_index::Immutable::new(100, 3)?;
/// log.insert(b"cherry stone", 100)?;
/// log.insert(b"apple pie", 101)?;
/// log.insert(b"cherry syrup", 107)?;
/// let mut cherries: Vec<u64> = log.get(b"cherry s").collect();
/// cherries.sort();
/// assert_eq!(cherries, [100, 107]);
/// log.prune(101);
/// assert!(log.get(b"cherry s").eq([107]));
/// assert_eq!((log.items(), log.start(), log.pruned()), (2, 101, 1));
/// # Ok(())
/// # }
/// ```
pub struct Immutable {
    pub(crate) owned: Owned<Handle>,
}

reads_of_positions! { Immutable: key_index_c_positions key_index_c_is_indexed key_index_c_position_counts }

impl Immutable {
    /// An index with no positions, from a start on, with room for so many insertions in order. A search begins where the last of a key's
    /// eight bytes says: for keys shorter than that, and for keys that an attacker picks, take [`Immutable::with_seed`].
    ///
    /// # Errors
    ///
    /// [`Error::Memory`].
    pub fn new(start: u64, capacity: usize) -> Result<Self, Error> {
        Self::made(ffi::IMMUTABLE, 0, start, capacity)
    }

    /// The same by eight bytes of a hash of whole keys, by a random seed, which the caller draws at each start and keeps secret.
    ///
    /// # Errors
    ///
    /// [`Error::Memory`].
    pub fn with_seed(seed: u64, start: u64, capacity: usize) -> Result<Self, Error> {
        Self::made(ffi::IMMUTABLE_SEEDED, seed, start, capacity)
    }

    fn made(kind: u32, seed: u64, start: u64, capacity: usize) -> Result<Self, Error> {
        // SAFETY: the handle is fresh.
        let owned = Owned::made(|fresh| unsafe {
            ffi::key_index_c_new_immutable(fresh, kind, seed, start, capacity)
        })?;
        Ok(Immutable { owned })
    }

    /// Indexes a key at a position. The positions between take room, 8 bytes each.
    ///
    /// # Errors
    ///
    /// [`Error::Position`] exactly if the position is below the start or indexed; else [`Error::TooFar`] exactly if it is `usize::MAX` or
    /// more past the start; else [`Error::Memory`].
    pub fn insert(&mut self, key: &[u8], position: u64) -> Result<(), Error> {
        // SAFETY: the index was made and is not freed, as in each call below, and the key goes with its length.
        let status = unsafe {
            ffi::key_index_c_insert_at(self.owned.at(), key.as_ptr(), key.len(), position)
        };
        match status {
            ffi::BAD_ARGUMENT => Err(Error::Position),
            other => answer(other),
        }
    }

    /// Removes every position below one, which is the start from then on; a start that was passed changes nothing. It takes no memory.
    pub fn prune(&mut self, start: u64) {
        // SAFETY: as above.
        unsafe { ffi::key_index_c_prune(self.owned.at(), start) }
    }
}

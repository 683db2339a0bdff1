//! Readers of an index that is shared.

use crate::ffi::{self, Counts, Found, PositionCounts, Reader};
use crate::owned::Owned;
use crate::reads::{reads, reads_of_positions};
use crate::values::written;
use crate::{answer, Error, Immutable, Index, Kind, Neighbours, Values};
use std::alloc::{handle_alloc_error, Layout};
use std::fmt;
use std::marker::PhantomData;

/// A reader of an index that is shared. It reads as the index does, which stays as it is and is freed with its last reader. The only one left
/// can have it back, to change it.
///
/// ```
/// use key_index::{Index, Ordered};
/// use std::thread;
///
/// # fn main() -> Result<(), key_index::Error> {
/// let index = Index::<Ordered>::build(b"applecherry", &[5, 11], &[1, 2])?;
/// let reader = index.share().map_err(|(_, error)| error)?;
/// let other = reader.clone();
/// let found = thread::spawn(move || other.get(b"cherry")).join().unwrap();
/// assert!(found.eq([2]));
/// let mut index = reader.try_unshare().unwrap();
/// index.insert(b"plum", 3)?;
/// # Ok(())
/// # }
/// ```
pub struct Shared<K: Kind> {
    owned: Owned<Reader>,
    kind: PhantomData<K>,
}

reads! {
    Shared: key_index_c_reader_find key_index_c_reader_get key_index_c_reader_get_many key_index_c_reader_counts key_index_c_reader_neighbour
}

impl<K: Kind> Index<K> {
    /// Shares the index, and returns its first reader.
    ///
    /// # Errors
    ///
    /// The index as it was, and [`Error::Memory`].
    pub fn share(self) -> Result<Shared<K>, (Self, Error)> {
        let kind = self.kind;
        match self.owned.shared() {
            Ok(owned) => Ok(Shared { owned, kind }),
            Err(owned) => Err((Index { owned, kind }, Error::Memory)),
        }
    }
}

impl<K: Kind> Shared<K> {
    /// The index, to be changed again. It takes no memory.
    ///
    /// # Errors
    ///
    /// The reader, if there are others.
    pub fn try_unshare(self) -> Result<Index<K>, Self> {
        let kind = self.kind;
        match self.owned.unshared() {
            Ok(owned) => Ok(Index { owned, kind }),
            Err(owned) => Err(Shared { owned, kind }),
        }
    }

    /// One more reader of the index.
    ///
    /// # Errors
    ///
    /// [`Error::Memory`].
    pub fn try_clone(&self) -> Result<Self, Error> {
        let (owned, kind) = (self.owned.another()?, self.kind);
        Ok(Shared { owned, kind })
    }
}

/// One more reader of the index. Where there is no memory for it, the process ends; see [`Shared::try_clone`].
impl<K: Kind> Clone for Shared<K> {
    fn clone(&self) -> Self {
        self.try_clone().unwrap_or_else(no_memory)
    }
}

/// A reader of an [`Immutable`] index that is shared, as [`Shared`] is of an [`Index`].
///
/// ```
/// # fn main() -> Result<(), key_index::Error> {
/// let mut log = key_index::Immutable::new(100, 1)?;
/// log.insert(b"cherry stone", 100)?;
/// let reader = log.share().map_err(|(_, error)| error)?;
/// assert!(reader.clone().get(b"cherry s").eq([100]));
/// let mut log = reader.try_unshare().unwrap();
/// log.prune(101);
/// # Ok(())
/// # }
/// ```
pub struct SharedImmutable {
    owned: Owned<Reader>,
}

reads_of_positions! {
    SharedImmutable: key_index_c_reader_positions key_index_c_reader_is_indexed key_index_c_reader_position_counts
}

impl Immutable {
    /// Shares the index, and returns its first reader.
    ///
    /// # Errors
    ///
    /// The index as it was, and [`Error::Memory`].
    pub fn share(self) -> Result<SharedImmutable, (Self, Error)> {
        match self.owned.shared() {
            Ok(owned) => Ok(SharedImmutable { owned }),
            Err(owned) => Err((Immutable { owned }, Error::Memory)),
        }
    }
}

impl SharedImmutable {
    /// The index, to be changed again. It takes no memory.
    ///
    /// # Errors
    ///
    /// The reader, if there are others.
    pub fn try_unshare(self) -> Result<Immutable, Self> {
        match self.owned.unshared() {
            Ok(owned) => Ok(Immutable { owned }),
            Err(owned) => Err(SharedImmutable { owned }),
        }
    }

    /// One more reader of the index.
    ///
    /// # Errors
    ///
    /// [`Error::Memory`].
    pub fn try_clone(&self) -> Result<Self, Error> {
        let owned = self.owned.another()?;
        Ok(SharedImmutable { owned })
    }
}

/// One more reader of the index. Where there is no memory for it, the process ends; see [`SharedImmutable::try_clone`].
impl Clone for SharedImmutable {
    fn clone(&self) -> Self {
        self.try_clone().unwrap_or_else(no_memory)
    }
}

/// Ends the process as an allocation of Rust does.
fn no_memory<T>(_: Error) -> T {
    handle_alloc_error(Layout::new::<Reader>())
}

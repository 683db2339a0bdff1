//! In-memory indices that map shortened keys to lists of values, by a static library each call of which is proved.
//!
//! A store that keeps its records in a log inserts the position of each record under the record's key. The index keeps the first
//! eight bytes of the key and the position. It returns the positions of the records that may match a key, and the store compares the
//! full keys. Keys that agree in their first eight bytes share one list, the newest value first (in [`OrderedByOne`] and
//! [`OrderedByTwo`] last); a shorter key counts as if zeros stood behind it. A [`Seeded`] index keeps eight bytes of a hash of the whole
//! key instead. An [`Immutable`] one has keys by position, which are inserted once and removed from the front.
//!
//! ```
//! use key_index::{Index, Ordered};
//!
//! # fn main() -> Result<(), key_index::Error> {
//! let mut index = Index::<Ordered>::new()?;
//! index.insert(b"apple", 1)?;
//! index.insert(b"cherry stone", 2)?;
//! index.insert(b"cherry syrup", 3)?;
//! assert!(index.get(b"cherry stem").eq([3, 2]));
//! let (values, cycled) = index.next_translated_key(b"banana").unwrap();
//! assert!(values.eq([3, 2]) && !cycled);
//! # Ok(())
//! # }
//! ```
//!
//! # Threads
//!
//! Any number of threads may read an index at once, by `&self`. A call that changes it, by `&mut self`, is alone with it: made under a lock,
//!
//! ```
//! use key_index::{Error, Index, Unordered};
//! use std::sync::{Arc, RwLock};
//! use std::thread;
//!
//! # fn main() -> Result<(), Error> {
//! let index = Arc::new(RwLock::new(Index::<Unordered>::new()?));
//! let writer = Arc::clone(&index);
//! let inserted = thread::spawn(move || writer.write().unwrap().insert(b"apple", 1));
//! inserted.join().unwrap()?;
//! assert!(index.read().unwrap().get(b"apple").eq([1]));
//! # Ok(())
//! # }
//! ```
//!
//! by a thread that owns the index, to which others send what is to be done (below), or not made while the index has readers on several
//! threads ([`Shared`]). [`Index::build_in_ranges`] builds an index by several threads at once.
//!
//! ```
//! use key_index::{Error, Index, Ordered, Values};
//! use std::sync::mpsc::{channel, Sender};
//! use std::thread;
//!
//! enum Call {
//!     Insert(Vec<u8>, u64),
//!     Get(Vec<u8>, Sender<Values>),
//! }
//!
//! # fn main() -> Result<(), Error> {
//! let mut index = Index::<Ordered>::new()?;
//! let (sender, calls) = channel();
//! let owner = thread::spawn(move || -> Result<Index<Ordered>, Error> {
//!     for call in calls {
//!         match call {
//!             Call::Insert(key, value) => index.insert(&key, value)?,
//!             Call::Get(key, answer) => answer.send(index.get(&key)).unwrap(),
//!         }
//!     }
//!     Ok(index)
//! });
//! let (answer, answers) = channel();
//! sender.send(Call::Insert(b"apple".to_vec(), 1)).unwrap();
//! sender.send(Call::Get(b"apple".to_vec(), answer)).unwrap();
//! assert!(answers.recv().unwrap().eq([1]));
//! drop(sender);
//! assert_eq!(owner.join().unwrap()?.items(), 1);
//! # Ok(())
//! # }
//! ```
//!
//! # What is proved
//!
//! What is proved is the contract of each function that this crate calls, for callers that keep its conditions. This crate keeps them:
//! an index is made by its `new` and freed once, a call that changes it has it alone, and a pointer goes with its own length. Nobody checks
//! that the declarations in `ffi.rs` agree with the library's; a test compares sizes, and makes each call.

#![warn(clippy::pedantic)]

/// The examples of the crate's page, as tests.
#[cfg(doctest)]
#[doc = include_str!("../README.md")]
struct Page;

mod ffi;
mod immutable;
mod owned;
mod ranges;
mod reads;
mod shared;
mod values;

use ffi::{Counts, Found, Handle};
pub use immutable::Immutable;
use owned::Owned;
use reads::reads;
pub use shared::{Shared, SharedImmutable};
use std::fmt;
use std::marker::PhantomData;
use values::written;
pub use values::Values;

/// Why a call was refused. The index holds what it held, but for `insert_many`, which tells how many it has inserted.
#[derive(Clone, Copy, Debug, PartialEq, Eq, Hash)]
#[non_exhaustive]
pub enum Error {
    /// An allocation failed.
    Memory,
    /// The index holds `usize::MAX` values.
    Full,
    /// The position is `usize::MAX` or more past the start.
    TooFar,
    /// The position is below the start, or indexed.
    Position,
    /// The ends are none of so many keys.
    Ends,
}

impl fmt::Display for Error {
    fn fmt(&self, f: &mut fmt::Formatter<'_>) -> fmt::Result {
        f.write_str(match self {
            Error::Memory => "refused memory",
            Error::Full => "refused full",
            Error::TooFar => "refused far",
            Error::Position => "refused position",
            Error::Ends => "the ends are none of so many keys",
        })
    }
}

impl std::error::Error for Error {}

/// The error of a status. A call of this crate gets no other than these. A bad argument is one of ends, where the call doesn't see to it.
fn answer(status: u32) -> Result<(), Error> {
    match status {
        ffi::OK => Ok(()),
        ffi::FULL => Err(Error::Full),
        ffi::TOO_FAR => Err(Error::TooFar),
        ffi::BAD_ARGUMENT => Err(Error::Ends),
        _ => Err(Error::Memory),
    }
}

mod sealed {
    pub trait Sealed {
        const KIND: u32;
    }
}

/// A kind of index.
pub trait Kind: sealed::Sealed + Send + Sync + 'static {}

/// A kind that takes no seed.
pub trait Unseeded: Kind {}

/// A kind in partitions.
pub trait Partitioned: Unseeded {}

/// A kind with the next and the previous key.
pub trait Neighbours: Kind {}

macro_rules! kinds {
    ($($doc:literal $name:ident = $number:ident: $($more:ident)*;)*) => {$(
        #[doc = $doc]
        #[derive(Clone, Copy, Debug)]
        pub enum $name {}
        impl sealed::Sealed for $name {
            const KIND: u32 = ffi::$number;
        }
        impl Kind for $name {}
        $(impl $more for $name {})*
    )*};
}

kinds! {
    "A hashed map: the fastest look-ups." Unordered = UNORDERED: Unseeded;
    "A tree, with the next and the previous key." Ordered = ORDERED: Unseeded Neighbours;
    "A hashed map by a SHA-256 of whole keys and a secret seed, for keys that an attacker picks." Seeded = SEEDED:;
    "A hashed map for each first byte, by the eight bytes behind it. Empty it takes 18 KiB." UnorderedByOne = UNORDERED_BY_ONE: Unseeded Partitioned;
    "The same for each two first bytes. Empty it takes 4.5 MiB." UnorderedByTwo = UNORDERED_BY_TWO: Unseeded Partitioned;
    "Sorted arrays or a tree for each first byte, by the eight bytes behind it. The oldest value of a key comes first. Empty it takes 16 KiB."
    OrderedByOne = ORDERED_BY_ONE: Unseeded Partitioned Neighbours;
    "The same for each two first bytes. Empty it takes 4 MiB." OrderedByTwo = ORDERED_BY_TWO: Unseeded Partitioned Neighbours;
}

/// An index from the first eight bytes of keys, or of their hashes, to lists of values. Any number of threads may read it at once.
///
/// ```
/// # fn main() -> Result<(), key_index::Error> {
/// let mut index = key_index::Index::<key_index::Unordered>::new()?;
/// index.insert(b"apple", 1)?;
/// std::thread::scope(|scope| {
///     for _ in 0..2 {
///         scope.spawn(|| assert!(index.get(b"apple").eq([1])));
///     }
/// });
/// let keys = std::thread::spawn(move || index.keys()).join().unwrap();
/// assert_eq!(keys, 1);
/// # Ok(())
/// # }
/// ```
pub struct Index<K: Kind> {
    owned: Owned<Handle>,
    kind: PhantomData<K>,
}

reads! {
    Index: key_index_c_find key_index_c_get key_index_c_get_many key_index_c_counts key_index_c_neighbour
}

impl<K: Unseeded> Index<K> {
    /// An index with no values.
    ///
    /// # Errors
    ///
    /// [`Error::Memory`].
    pub fn new() -> Result<Self, Error> {
        Self::made(0)
    }

    /// The index that holds values under keys, as [`Index::insert_many`] inserts them into a new one.
    ///
    /// # Errors
    ///
    /// [`Error::Memory`]; [`Error::Ends`] as with `insert_many`.
    pub fn build(keys: &[u8], ends: &[usize], values: &[u64]) -> Result<Self, Error> {
        let mut index = Self::new()?;
        match index.insert_many(keys, ends, values) {
            Ok(()) => Ok(index),
            Err((_, error)) => Err(error),
        }
    }
}

impl Index<Seeded> {
    /// An index with no values, by a random seed, which the caller draws at each start and keeps secret.
    ///
    /// # Errors
    ///
    /// [`Error::Memory`].
    pub fn with_seed(seed: u64) -> Result<Self, Error> {
        Self::made(seed)
    }
}

impl<K: Kind> Index<K> {
    fn made(seed: u64) -> Result<Self, Error> {
        // SAFETY: the handle is fresh.
        let owned = Owned::made(|fresh| unsafe { ffi::key_index_c_new(fresh, K::KIND, seed) })?;
        Ok(Index {
            owned,
            kind: PhantomData,
        })
    }

    /// Inserts a value in front of those of its key, or behind them in an ordered index in partitions.
    ///
    /// # Errors
    ///
    /// [`Error::Memory`], or [`Error::Full`] exactly if there are `usize::MAX` values.
    pub fn insert(&mut self, key: &[u8], value: u64) -> Result<(), Error> {
        // SAFETY: the index was made and is not freed, as in each call below, and the key goes with its length.
        answer(unsafe { ffi::key_index_c_insert(self.owned.at(), key.as_ptr(), key.len(), value) })
    }

    /// Inserts values in turn, each as [`Index::insert`] does. The keys stand behind one another in `keys`, each up to its end.
    ///
    /// # Errors
    ///
    /// How many were inserted before one was refused, and why; [`Error::Ends`] with 0 if `ends` falls somewhere, goes past `keys`, or
    /// is not as long as `values`.
    pub fn insert_many(
        &mut self,
        keys: &[u8],
        ends: &[usize],
        values: &[u64],
    ) -> Result<(), (usize, Error)> {
        let (at, bytes, len) = (self.owned.at(), keys.as_ptr(), keys.len());
        let (ends, n) = (ends.as_ptr(), ends.len());
        let (values, many) = (values.as_ptr(), values.len());
        // SAFETY: keys, ends and values go with their lengths.
        let told = unsafe { ffi::key_index_c_insert_many(at, bytes, len, ends, n, values, many) };
        answer(told.status).map_err(|error| (told.count, error))
    }

    /// Removes a key with all its values.
    ///
    /// # Errors
    ///
    /// [`Error::Memory`], of an ordered index in partitions alone.
    pub fn remove(&mut self, key: &[u8]) -> Result<(), Error> {
        // SAFETY: the key goes with its length.
        answer(unsafe { ffi::key_index_c_remove(self.owned.at(), key.as_ptr(), key.len()) })
    }

    /// Removes the first value of a key that equals `value`, and tells whether there was one. It takes no memory.
    pub fn remove_value(&mut self, key: &[u8], value: u64) -> bool {
        // SAFETY: the key goes with its length.
        unsafe { ffi::key_index_c_remove_value(self.owned.at(), key.as_ptr(), key.len(), value) }
    }

    /// Puts `with` in the place of the first value of a key that equals `value`, and tells whether there was one. It takes no memory.
    pub fn replace_value(&mut self, key: &[u8], value: u64, with: u64) -> bool {
        // SAFETY: the key goes with its length.
        unsafe {
            ffi::key_index_c_replace_value(self.owned.at(), key.as_ptr(), key.len(), value, with)
        }
    }

    /// Keeps those values of a key for which a test is true, asked once on each in list order, and removes the others.
    ///
    /// # Errors
    ///
    /// [`Error::Memory`], of an ordered index in partitions alone.
    pub fn retain(
        &mut self,
        key: &[u8],
        mut should_retain: impl FnMut(u64) -> bool,
    ) -> Result<(), Error> {
        let mask: Vec<u8> = self
            .get(key)
            .map(|value| u8::from(should_retain(value)))
            .collect();
        let at = self.owned.at();
        // SAFETY: the key and the mask go with their lengths. The mask has a byte for each value.
        answer(unsafe {
            ffi::key_index_c_keep(at, key.as_ptr(), key.len(), mask.as_ptr(), mask.len())
        })
    }
}

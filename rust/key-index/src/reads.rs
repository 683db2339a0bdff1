//! The calls that read: one text for an index and for its readers.

macro_rules! reads {
    ($name:ident: $find:ident $get:ident $get_many:ident $counts:ident $neighbour:ident) => {
        impl<K: Kind> $name<K> {
            #[inline]
            fn find(&self, key: &[u8]) -> Found {
                // SAFETY: the key goes with its length.
                self.owned
                    .read(|at| unsafe { ffi::$find(at, key.as_ptr(), key.len()) })
            }

            /// The values of a key, in list order.
            #[inline]
            #[must_use]
            pub fn get(&self, key: &[u8]) -> Values {
                let found = self.find(key);
                if found.count < 2 {
                    return Values::at_most_one(found.first, found.count);
                }
                self.several(key)
            }

            #[cold]
            fn several(&self, key: &[u8]) -> Values {
                self.owned.read(|at| {
                    written(|values, room| {
                        // SAFETY: the key and the room for values go with their lengths.
                        unsafe { ffi::$get(at, key.as_ptr(), key.len(), values, room) }
                    })
                })
            }

            /// Writes the values of many keys to `values`, those of a key behind those of the key before it, and to `stops` where those of each key
            /// end. The keys stand behind one another in `keys`, each up to its end.
            ///
            /// # Errors
            ///
            /// [`Error::Ends`] if `ends` falls somewhere or goes past `keys`. Both vectors are empty then.
            pub fn get_many(
                &self,
                keys: &[u8],
                ends: &[usize],
                values: &mut Vec<u64>,
                stops: &mut Vec<usize>,
            ) -> Result<(), Error> {
                stops.clear();
                stops.resize(ends.len(), 0);
                values.resize(values.capacity().max(ends.len()), 0);
                loop {
                    // SAFETY: keys, ends, values and stops go with their lengths.
                    let told = self.owned.read(|at| unsafe {
                        ffi::$get_many(
                            at,
                            keys.as_ptr(),
                            keys.len(),
                            ends.as_ptr(),
                            ends.len(),
                            values.as_mut_ptr(),
                            values.len(),
                            stops.as_mut_ptr(),
                            stops.len(),
                        )
                    });
                    let all_written = told.count <= values.len();
                    values.resize(told.count, 0);
                    if let Err(error) = answer(told.status) {
                        stops.clear();
                        return Err(error);
                    }
                    if all_written {
                        return Ok(());
                    }
                }
            }

            /// Whether a key has a value.
            #[inline]
            #[must_use]
            pub fn contains(&self, key: &[u8]) -> bool {
                self.find(key).count > 0
            }

            fn counts(&self) -> Counts {
                // SAFETY: as above.
                self.owned.read(|at| unsafe { ffi::$counts(at) })
            }

            /// How many shortened keys there are.
            #[must_use]
            pub fn keys(&self) -> usize {
                self.counts().keys
            }

            /// How many values there are.
            #[must_use]
            pub fn items(&self) -> usize {
                self.counts().items
            }

            /// How many values were ever removed. The count stops at `u64::MAX`.
            #[must_use]
            pub fn pruned(&self) -> u64 {
                self.counts().pruned
            }

            /// Whether there is no value.
            #[must_use]
            pub fn is_empty(&self) -> bool {
                self.keys() == 0
            }
        }

        impl<K: Neighbours> $name<K> {
            /// The values of the least shortened key that is greater than that of the key, and false; if there is none, those of the first one, and
            /// true. `None` exactly if the index is empty.
            #[must_use]
            pub fn next_translated_key(&self, key: &[u8]) -> Option<(Values, bool)> {
                self.neighbour(ffi::NEXT, key)
            }

            /// The values of the greatest shortened key that is less than that of the key, and false; if there is none, those of the last one, and
            /// true. `None` exactly if the index is empty.
            #[must_use]
            pub fn prev_translated_key(&self, key: &[u8]) -> Option<(Values, bool)> {
                self.neighbour(ffi::PREV, key)
            }

            /// The values of the least shortened key. `None` exactly if the index is empty.
            #[must_use]
            pub fn first_translated_key(&self) -> Option<Values> {
                self.neighbour(ffi::FIRST, b"").map(|(values, _)| values)
            }

            /// The values of the greatest shortened key. `None` exactly if the index is empty.
            #[must_use]
            pub fn last_translated_key(&self) -> Option<Values> {
                self.neighbour(ffi::LAST, b"").map(|(values, _)| values)
            }

            /// The values of a neighbour, and whether it was found around the end. No list is empty.
            fn neighbour(&self, which: u32, key: &[u8]) -> Option<(Values, bool)> {
                let (key, len) = (key.as_ptr(), key.len());
                let mut cycled = false;
                let values = self.owned.read(|at| {
                    written(|values, room| {
                        // SAFETY: the key and the room for values go with their lengths.
                        let told = unsafe { ffi::$neighbour(at, which, key, len, values, room) };
                        cycled = told.cycled;
                        told.count
                    })
                });
                (values.len() > 0).then_some((values, cycled))
            }
        }

        impl<K: Kind> fmt::Debug for $name<K> {
            fn fmt(&self, f: &mut fmt::Formatter<'_>) -> fmt::Result {
                f.debug_struct(stringify!($name))
                    .field("keys", &self.keys())
                    .field("items", &self.items())
                    .field("pruned", &self.pruned())
                    .finish_non_exhaustive()
            }
        }
    };
}

macro_rules! reads_of_positions {
    ($name:ident: $positions:ident $is_indexed:ident $counts:ident) => {
        impl $name {
            /// The positions of a key, each once and in no particular order.
            #[must_use]
            pub fn get(&self, key: &[u8]) -> Values {
                let (key, len) = (key.as_ptr(), key.len());
                self.owned.read(|at| {
                    written(|positions, room| {
                        // SAFETY: the key and the room for positions go with their lengths.
                        unsafe { ffi::$positions(at, key, len, positions, room) }
                    })
                })
            }

            /// Whether a position is indexed.
            #[inline]
            #[must_use]
            pub fn is_indexed(&self, position: u64) -> bool {
                // SAFETY: as above.
                self.owned
                    .read(|at| unsafe { ffi::$is_indexed(at, position) })
            }

            fn counts(&self) -> PositionCounts {
                // SAFETY: as above.
                self.owned.read(|at| unsafe { ffi::$counts(at) })
            }

            /// How many positions are indexed.
            #[must_use]
            pub fn items(&self) -> usize {
                self.counts().items
            }

            /// Positions below this were pruned, or never indexed.
            #[must_use]
            pub fn start(&self) -> u64 {
                self.counts().start
            }

            /// How many positions were ever pruned. The count stops at `u64::MAX`.
            #[must_use]
            pub fn pruned(&self) -> u64 {
                self.counts().pruned
            }
        }

        impl fmt::Debug for $name {
            fn fmt(&self, f: &mut fmt::Formatter<'_>) -> fmt::Result {
                f.debug_struct(stringify!($name))
                    .field("items", &self.items())
                    .field("start", &self.start())
                    .field("pruned", &self.pruned())
                    .finish_non_exhaustive()
            }
        }
    };
}

pub(crate) use {reads, reads_of_positions};

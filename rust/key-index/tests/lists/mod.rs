//! What an index answers, by a `BTreeMap` of lists.

use key_index::{Error, Index, Kind, Shared, Values};
use key_index::{Ordered, OrderedByOne, OrderedByTwo, Seeded};
use key_index::{Unordered, UnorderedByOne, UnorderedByTwo};
use std::collections::BTreeMap;
use std::marker::PhantomData;
use std::ops::Bound::{Excluded, Unbounded};

/// Marsaglia's xorshift.
pub struct Random(pub u64);

impl Random {
    pub fn below(&mut self, bound: u64) -> u64 {
        self.0 ^= self.0 << 13;
        self.0 ^= self.0 >> 7;
        self.0 ^= self.0 << 17;
        (self.0 >> 8) % bound
    }
}

/// A key of up to ten bytes of few values.
pub fn some_key(random: &mut Random) -> Vec<u8> {
    let len = random.below(11);
    (0..len)
        .map(|place| if place < 5 { 7 } else { random.below(4) as u8 })
        .collect()
}

/// The first so many bytes of a key, with zeros behind a shorter one.
pub fn padded<const N: usize>(key: &[u8]) -> Vec<u8> {
    let mut short = key[..key.len().min(N)].to_vec();
    short.resize(N, 0);
    short
}

/// The neighbours of a key: the next one, the previous one, the first and the last.
type Near = [Option<(Values, bool)>; 4];

/// What reads: an index, or a reader of one that is shared.
pub trait Reads {
    fn get(&self, key: &[u8]) -> Values;
    fn contains(&self, key: &[u8]) -> bool;
    fn get_many(&self, keys: &[u8], ends: &[usize]) -> Result<(Vec<u64>, Vec<usize>), Error>;
    fn counts(&self) -> (usize, usize, u64);
    fn near(&self, key: &[u8]) -> Option<Near>;
}

/// A kind, with what its lists are.
pub trait Listed: Kind + Sized {
    /// Whether a new value comes first.
    const FIRST: bool;

    fn made() -> Result<Index<Self>, Error>;

    /// What the keys of one list share.
    fn group(key: &[u8]) -> Vec<u8>;

    fn near(index: &Index<Self>, key: &[u8]) -> Option<Near>;
    fn near_shared(index: &Shared<Self>, key: &[u8]) -> Option<Near>;
}

macro_rules! reads {
    ($type:ident $near:ident) => {
        impl<K: Listed> Reads for $type<K> {
            fn get(&self, key: &[u8]) -> Values {
                self.get(key)
            }

            fn contains(&self, key: &[u8]) -> bool {
                self.contains(key)
            }

            fn get_many(
                &self,
                keys: &[u8],
                ends: &[usize],
            ) -> Result<(Vec<u64>, Vec<usize>), Error> {
                let (mut values, mut stops) = (Vec::new(), Vec::new());
                self.get_many(keys, ends, &mut values, &mut stops)?;
                Ok((values, stops))
            }

            fn counts(&self) -> (usize, usize, u64) {
                assert_eq!(self.is_empty(), self.keys() == 0);
                (self.keys(), self.items(), self.pruned())
            }

            fn near(&self, key: &[u8]) -> Option<Near> {
                K::$near(self, key)
            }
        }
    };
}

reads!(Index near);
reads!(Shared near_shared);

macro_rules! near {
    (unordered $index:ident $key:ident) => {{
        let _ = ($index, $key);
        None
    }};
    (ordered $index:ident $key:ident) => {
        Some([
            $index.next_translated_key($key),
            $index.prev_translated_key($key),
            $index.first_translated_key().map(|values| (values, false)),
            $index.last_translated_key().map(|values| (values, false)),
        ])
    };
}

macro_rules! listed {
    ($($kind:ident: $order:ident, $first:literal, $made:expr, $group:expr;)*) => {$(
        impl Listed for $kind {
            const FIRST: bool = $first;

            fn made() -> Result<Index<Self>, Error> {
                $made
            }

            fn group(key: &[u8]) -> Vec<u8> {
                $group(key)
            }

            fn near(index: &Index<Self>, key: &[u8]) -> Option<Near> {
                near!($order index key)
            }

            fn near_shared(index: &Shared<Self>, key: &[u8]) -> Option<Near> {
                near!($order index key)
            }
        }
    )*};
}

// A byte or two pick the partition, and eight more are the index key there. Whole keys differ in their hashes.
listed! {
    Unordered: unordered, true, Index::new(), padded::<8>;
    Ordered: ordered, true, Index::new(), padded::<8>;
    Seeded: unordered, true, Index::with_seed(0x5eed), <[u8]>::to_vec;
    UnorderedByOne: unordered, true, Index::new(), padded::<9>;
    UnorderedByTwo: unordered, true, Index::new(), padded::<10>;
    OrderedByOne: ordered, false, Index::new(), padded::<9>;
    OrderedByTwo: ordered, false, Index::new(), padded::<10>;
}

/// What an index of a kind has to hold: a list for each group of keys.
pub struct Lists<K> {
    lists: BTreeMap<Vec<u8>, Vec<u64>>,
    pruned: u64,
    kind: PhantomData<K>,
}

impl<K: Listed> Lists<K> {
    pub fn new() -> Self {
        Lists {
            lists: BTreeMap::new(),
            pruned: 0,
            kind: PhantomData,
        }
    }

    /// Makes a random change of the index, and here.
    pub fn change(&mut self, index: &mut Index<K>, random: &mut Random) -> Result<(), Error> {
        let key = some_key(random);
        let short = K::group(&key);
        let value = random.below(50);
        let place = |list: &[u64]| list.iter().position(|held| *held == value);
        match random.below(77) {
            0 => {
                index.remove(&key)?;
                self.remove(&key);
            }
            1..=14 => {
                let place = place(self.get(&key));
                assert_eq!(index.remove_value(&key, value), place.is_some());
                if let Some(place) = place {
                    let list = self.lists.get_mut(&short).unwrap();
                    list.remove(place);
                    self.pruned += 1;
                    if list.is_empty() {
                        self.lists.remove(&short);
                    }
                }
            }
            15..=21 => {
                let place = place(self.get(&key));
                let found = index.replace_value(&key, value, value + 100);
                assert_eq!(found, place.is_some());
                if let Some(place) = place {
                    self.lists.get_mut(&short).unwrap()[place] = value + 100;
                }
            }
            22..=28 => {
                let mut shown = Vec::new();
                index.retain(&key, |held| {
                    shown.push(held);
                    held % 3 != value % 3
                })?;
                let mut list = self.lists.remove(&short).unwrap_or_default();
                assert_eq!(shown, list);
                list.retain(|held| held % 3 != value % 3);
                self.pruned += (shown.len() - list.len()) as u64;
                if !list.is_empty() {
                    self.lists.insert(short, list);
                }
            }
            29..=35 => {
                // The key, its front, and the key once more.
                let front = &key[..key.len() / 2];
                let keys = [&key[..], front, &key].concat();
                let ends = [key.len(), key.len() + front.len(), keys.len()];
                index
                    .insert_many(&keys, &ends, &[value, value + 1, value + 2])
                    .map_err(|(_, error)| error)?;
                self.insert(&key, value);
                self.insert(front, value + 1);
                self.insert(&key, value + 2);
            }
            _ => {
                index.insert(&key, value)?;
                self.insert(&key, value);
            }
        }
        Ok(())
    }

    pub fn insert(&mut self, key: &[u8], value: u64) {
        let list = self.lists.entry(K::group(key)).or_default();
        list.insert(if K::FIRST { 0 } else { list.len() }, value);
    }

    pub fn remove(&mut self, key: &[u8]) {
        let list = self.lists.remove(&K::group(key)).unwrap_or_default();
        self.pruned += list.len() as u64;
    }

    /// Adds the lists of other keys.
    pub fn add(&mut self, other: Self) {
        self.lists.extend(other.lists);
        self.pruned += other.pruned;
    }

    /// The list of a key.
    pub fn get(&self, key: &[u8]) -> &[u64] {
        self.lists.get(&K::group(key)).map_or(&[], Vec::as_slice)
    }

    /// Compares what an index answers of two random keys.
    pub fn compare(&self, index: &impl Reads, random: &mut Random) -> Result<(), Error> {
        let (asked, other) = (some_key(random), some_key(random));
        let list = self.get(&asked);
        assert_eq!(index.get(&asked).as_slice(), list);
        assert_eq!(index.contains(&asked), !list.is_empty());
        let keys = [&asked[..], &other].concat();
        let (values, stops) = index.get_many(&keys, &[asked.len(), keys.len()])?;
        let both = [list, self.get(&other)].concat();
        assert_eq!(stops, [list.len(), both.len()]);
        assert_eq!(values, both);
        if let Some(near) = index.near(&asked) {
            for (found, wanted) in near.iter().zip(self.near(&asked)) {
                let found = found.as_ref();
                assert_eq!(
                    found.map(|(list, cycled)| (list.as_slice(), *cycled)),
                    wanted
                );
            }
        }
        Ok(())
    }

    pub fn compare_counts(&self, index: &impl Reads) {
        let items = self.lists.values().map(Vec::len).sum();
        assert_eq!(index.counts(), (self.lists.len(), items, self.pruned));
    }

    /// Compares all that an index holds.
    pub fn compare_all(&self, index: &impl Reads) {
        for (group, list) in &self.lists {
            assert_eq!(index.get(group).as_slice(), list);
        }
        self.compare_counts(index);
    }

    /// The lists of the neighbours of a key, and whether they were found around the end.
    fn near(&self, key: &[u8]) -> [Option<(&[u64], bool)>; 4] {
        let short = K::group(key);
        fn found<'a>(
            entry: Option<(&'a Vec<u8>, &'a Vec<u64>)>,
            cycled: bool,
        ) -> Option<(&'a [u64], bool)> {
            entry.map(|(_, list)| (list.as_slice(), cycled))
        }
        let (mut all, mut below) = (self.lists.iter(), self.lists.range(..short.clone()));
        let mut above = self.lists.range((Excluded(short), Unbounded));
        let (next, prev, first) = (above.next(), below.next_back(), all.next());
        let last = all.next_back().or(first);
        [
            found(next, false).or(found(first, true)),
            found(prev, false).or(found(last, true)),
            found(first, false),
            found(last, false),
        ]
    }
}

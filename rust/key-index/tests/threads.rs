//! Threads that read and change indices, beside lists.

mod lists;

use key_index::{Error, Immutable, Index, Partitioned, Values};
use key_index::{Ordered, OrderedByOne, OrderedByTwo, Seeded};
use key_index::{Unordered, UnorderedByOne, UnorderedByTwo};
use lists::{padded, some_key, Listed, Lists, Random};
use std::collections::BTreeMap;
use std::sync::mpsc::{channel, Sender};
use std::sync::RwLock;
use std::thread;

/// Does something on eight threads at once, each with its number and random numbers of its own.
fn on_threads(run: impl Fn(u64, &mut Random) + Sync) {
    thread::scope(|scope| {
        for number in 0..8 {
            let run = &run;
            scope.spawn(move || run(number, &mut Random(number + 1)));
        }
    });
}

/// An index of a kind after random changes.
fn changed<K: Listed>() -> Result<(Index<K>, Lists<K>), Error> {
    let (mut index, mut lists) = (K::made()?, Lists::new());
    let mut random = Random(99);
    for _ in 0..5_000 {
        lists.change(&mut index, &mut random)?;
    }
    Ok((index, lists))
}

macro_rules! for_each_kind {
    ($test:ident $each:ident) => {
        #[test]
        fn $test() -> Result<(), Error> {
            $each::<Unordered>()?;
            $each::<Ordered>()?;
            $each::<Seeded>()?;
            $each::<UnorderedByOne>()?;
            $each::<UnorderedByTwo>()?;
            $each::<OrderedByOne>()?;
            $each::<OrderedByTwo>()
        }
    };
}

for_each_kind!(reads_at_once read);
for_each_kind!(changes_under_a_lock lock);
for_each_kind!(an_owner_and_a_channel own);
for_each_kind!(readers_of_a_shared_index share);

/// All threads read, and none changes anything.
fn read<K: Listed>() -> Result<(), Error> {
    let (index, lists) = changed::<K>()?;
    on_threads(|_, random| {
        for _ in 0..2_000 {
            lists.compare(&index, random).unwrap();
        }
        lists.compare_all(&index);
    });
    Ok(())
}

/// One thread changes an index under a lock, and the others read it.
fn lock<K: Listed>() -> Result<(), Error> {
    let locked = RwLock::new(changed::<K>()?);
    on_threads(|number, random| {
        for call in 0..2_000 {
            if number == 0 {
                let (index, lists) = &mut *locked.write().unwrap();
                lists.change(index, random).unwrap();
                continue;
            }
            let (index, lists) = &*locked.read().unwrap();
            lists.compare(index, random).unwrap();
            if call % 100 == 0 {
                lists.compare_counts(index);
            }
        }
    });
    let (index, lists) = locked.into_inner().unwrap();
    lists.compare_all(&index);
    Ok(())
}

/// What an index is asked for by a channel, the answers to which go to another one.
enum Call {
    Insert(Vec<u8>, u64),
    Remove(Vec<u8>),
    Get(Vec<u8>, Sender<Values>),
}

/// A thread owns an index, and others send it what it has to do, each with keys that begin with a byte of its own.
fn own<K: Listed>() -> Result<(), Error> {
    let (sender, calls) = channel();
    let mut index = K::made()?;
    let owner = thread::spawn(move || -> Result<Index<K>, Error> {
        for call in calls {
            match call {
                Call::Insert(key, value) => index.insert(&key, value)?,
                Call::Remove(key) => index.remove(&key)?,
                Call::Get(key, answer) => answer.send(index.get(&key)).unwrap(),
            }
        }
        Ok(index)
    });
    let clients = [1, 2, 3, 4, 5, 6, 7].map(|first| {
        let sender = sender.clone();
        thread::spawn(move || {
            let mut random = Random(u64::from(first));
            let mut lists = Lists::<K>::new();
            let (answer, answers) = channel();
            for value in 0..500 {
                let key = [&[first], &some_key(&mut random)[..]].concat();
                if random.below(8) == 0 {
                    lists.remove(&key);
                    sender.send(Call::Remove(key.clone())).unwrap();
                } else {
                    lists.insert(&key, value);
                    sender.send(Call::Insert(key.clone(), value)).unwrap();
                }
                sender.send(Call::Get(key.clone(), answer.clone())).unwrap();
                assert_eq!(answers.recv().unwrap().as_slice(), lists.get(&key));
            }
            lists
        })
    });
    drop(sender);
    let mut all = Lists::new();
    for client in clients {
        all.add(client.join().unwrap());
    }
    all.compare_all(&owner.join().unwrap()?);
    Ok(())
}

/// Each thread has a reader of its own, and asks the one of the first thread too. The index comes back when none of them is left.
fn share<K: Listed>() -> Result<(), Error> {
    let (index, mut lists) = changed::<K>()?;
    let first = index.share().map_err(|(_, error)| error)?;
    on_threads(|_, random| {
        let mut mine = first.clone();
        for _ in 0..1_000 {
            lists.compare(&mine, random).unwrap();
            lists.compare(&first, random).unwrap();
            if random.below(10) == 0 {
                let other = mine.try_clone().unwrap();
                mine = mine.try_unshare().err().unwrap();
                drop(std::mem::replace(&mut mine, other));
            }
        }
        lists.compare_all(&mine);
    });
    let mut index = first.try_unshare().ok().unwrap();
    let mut random = Random(99);
    for _ in 0..1_000 {
        lists.change(&mut index, &mut random)?;
    }
    lists.compare_all(&index);
    Ok(())
}

/// Who of several readers that give up gets the index: it is changed by one of them, or freed with the last one.
#[test]
fn readers_that_give_up() -> Result<(), Error> {
    for _ in 0..100 {
        let (index, lists) = (Ordered::made()?, Lists::<Ordered>::new());
        let first = index.share().map_err(|(_, error)| error)?;
        let clones = [first.clone(), first.clone(), first];
        let given = clones.map(|reader| thread::spawn(move || reader.try_unshare().ok()));
        let indices: Vec<_> = given
            .into_iter()
            .filter_map(|it| it.join().unwrap())
            .collect();
        assert!(indices.len() < 2);
        for mut index in indices {
            lists.compare_all(&index);
            index.insert(b"fig", 1)?;
            assert_eq!(index.items(), 1);
        }
    }
    Ok(())
}

/// Threads build an index in partitions, each of them a range of it.
fn build_in_ranges<K: Listed + Partitioned>() -> Result<(), Error> {
    let mut random = Random(99);
    let (mut keys, mut ends, mut values) = (Vec::new(), Vec::new(), Vec::new());
    let mut records = Vec::new();
    for value in 0..20_000 {
        let front: Vec<u8> = (0..random.below(3))
            .map(|_| random.below(256) as u8)
            .collect();
        let key = [front, some_key(&mut random)].concat();
        keys.extend(&key);
        ends.push(keys.len());
        values.push(value);
        records.push((key, value));
    }
    for threads in [0, 1, 2, 3, 8, 300] {
        let mut lists = Lists::<K>::new();
        for (key, value) in &records {
            lists.insert(key, *value);
        }
        let mut index = Index::<K>::build_in_ranges(threads, &keys, &ends, &values)?;
        lists.compare_all(&index);
        for _ in 0..300 {
            lists.change(&mut index, &mut random)?;
            lists.compare(&index, &mut random)?;
        }
        lists.compare_all(&index);
        // A range refuses ends of other keys, and so does the build.
        let [less, falling] = [&ends[..19_999], &[&ends[1..], &ends[..1]].concat()];
        for (ends, values) in [
            (less, &values[..]),
            (falling, &values),
            (&ends, &[]),
            (&[], &values),
        ] {
            let refused = Index::<K>::build_in_ranges(threads, &keys, ends, values);
            assert_eq!(refused.err(), Some(Error::Ends));
        }
        let short = Index::<K>::build_in_ranges(threads, &keys[1..], &ends, &values);
        assert_eq!(short.err(), Some(Error::Ends));
        assert!(Index::<K>::build_in_ranges(threads, b"", &[], &[])?.is_empty());
        let one = Index::<K>::build_in_ranges(threads, b"\xff\xff", &[2], &[7])?;
        assert!(one.get(b"\xff\xff").eq([7]));
    }
    Ok(())
}

#[test]
fn builds_in_ranges() -> Result<(), Error> {
    build_in_ranges::<UnorderedByOne>()?;
    build_in_ranges::<UnorderedByTwo>()?;
    build_in_ranges::<OrderedByOne>()?;
    build_in_ranges::<OrderedByTwo>()
}

/// Keys by position.
struct Positions {
    lists: BTreeMap<Vec<u8>, Vec<u64>>,
    group: fn(&[u8]) -> Vec<u8>,
}

impl Positions {
    const ALL: u64 = 3_000;

    fn insert(index: &mut Immutable, group: fn(&[u8]) -> Vec<u8>) -> Result<Self, Error> {
        let mut random = Random(99);
        let mut lists = BTreeMap::<_, Vec<u64>>::new();
        for position in 0..Self::ALL {
            let key = some_key(&mut random);
            index.insert(&key, position)?;
            lists.entry(group(&key)).or_default().push(position);
        }
        Ok(Positions { lists, group })
    }
}

macro_rules! compare_positions {
    ($index:expr, $positions:expr, $random:expr) => {
        let asked = some_key($random);
        let mut found: Vec<u64> = $index.get(&asked).collect();
        found.sort_unstable();
        let wanted = $positions.lists.get(&($positions.group)(&asked));
        assert_eq!(found, wanted.map_or(&[][..], Vec::as_slice));
        let position = $random.below(2 * Positions::ALL);
        assert_eq!($index.is_indexed(position), position < Positions::ALL);
        let counts = ($index.items() as u64, $index.start(), $index.pruned());
        assert_eq!(counts, (Positions::ALL, 0, 0));
    };
}

/// Threads read an immutable index at once, and then readers of it, where `group` tells which keys share an index key.
fn read_positions(mut index: Immutable, group: fn(&[u8]) -> Vec<u8>) -> Result<(), Error> {
    let positions = Positions::insert(&mut index, group)?;
    on_threads(|_, random| {
        for _ in 0..1_000 {
            compare_positions!(index, positions, random);
        }
    });
    let first = index.share().map_err(|(_, error)| error)?;
    on_threads(|_, random| {
        let mine = first.clone();
        for _ in 0..1_000 {
            compare_positions!(mine, positions, random);
            compare_positions!(first, positions, random);
        }
        assert!(mine.try_unshare().is_err());
    });
    let mut index = first.try_unshare().ok().unwrap();
    index.prune(Positions::ALL - 1);
    assert_eq!((index.items(), index.start()), (1, Positions::ALL - 1));
    Ok(())
}

#[test]
fn positions_at_once() -> Result<(), Error> {
    read_positions(Immutable::new(0, 0)?, padded::<8>)?;
    read_positions(Immutable::with_seed(0x5eed, 0, 0)?, <[u8]>::to_vec)
}

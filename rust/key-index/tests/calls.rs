//! Each call beside a `BTreeMap` of lists.

#[allow(dead_code)]
mod lists;

use key_index::{Error, Immutable, Index};
use key_index::{Ordered, OrderedByOne, OrderedByTwo, Seeded};
use key_index::{Unordered, UnorderedByOne, UnorderedByTwo};
use lists::{padded, some_key, Listed, Lists, Random};
use std::collections::BTreeMap;

/// Makes random calls, each compared with the lists.
fn session<K: Listed>(calls: u32, seed: u64) -> Result<(), Error> {
    let mut random = Random(seed);
    let (mut index, mut lists) = (K::made()?, Lists::<K>::new());
    for call in 0..calls {
        lists.change(&mut index, &mut random)?;
        lists.compare(&index, &mut random)?;
        if call % 100 == 0 {
            lists.compare_counts(&index);
        }
    }
    Ok(())
}

#[test]
fn unordered_beside_lists() -> Result<(), Error> {
    session::<Unordered>(60_000, 1)
}

#[test]
fn seeded_beside_lists() -> Result<(), Error> {
    session::<Seeded>(60_000, 3)
}

#[test]
fn ordered_beside_lists() -> Result<(), Error> {
    session::<Ordered>(60_000, 2)
}

#[test]
fn partitioned_beside_lists() -> Result<(), Error> {
    session::<UnorderedByOne>(30_000, 4)?;
    session::<UnorderedByTwo>(30_000, 5)?;
    session::<OrderedByOne>(30_000, 6)?;
    session::<OrderedByTwo>(30_000, 7)
}

/// Inserts random keys at positions about the start, and prunes, where `group` tells which keys share an index key.
fn positions(mut index: Immutable, seed: u64, group: fn(&[u8]) -> Vec<u8>) -> Result<(), Error> {
    let mut random = Random(seed);
    let (mut start, mut pruned) = (index.start(), 0);
    let mut keys = BTreeMap::new();
    for _ in 0..30_000 {
        let key = some_key(&mut random);
        let position = (start + random.below(60)).saturating_sub(10);
        if start <= position && !keys.contains_key(&position) {
            index.insert(&key, position)?;
            keys.insert(position, group(&key));
        } else {
            assert_eq!(index.insert(&key, position), Err(Error::Position));
        }
        if random.below(20) == 0 {
            let bound = (start + random.below(30)).saturating_sub(5);
            index.prune(bound);
            start = start.max(bound);
            let before = keys.len();
            keys.retain(|position, _| start <= *position);
            pruned += (before - keys.len()) as u64;
        }
        let asked = some_key(&mut random);
        let mut found: Vec<u64> = index.get(&asked).collect();
        found.sort_unstable();
        let wanted = keys.iter().filter(|(_, held)| **held == group(&asked));
        assert!(wanted.map(|(position, _)| *position).eq(found));
        assert_eq!(index.is_indexed(position), keys.contains_key(&position));
        assert_eq!(index.items(), keys.len());
        assert_eq!((index.start(), index.pruned()), (start, pruned));
    }
    assert!(pruned > 100);
    Ok(())
}

#[test]
fn immutable_beside_positions() -> Result<(), Error> {
    positions(Immutable::new(1 << 40, 7)?, 8, padded::<8>)?;
    positions(Immutable::with_seed(0x5eed, 0, 0)?, 9, <[u8]>::to_vec)
}

#[test]
fn lists_longer_than_a_buffer() -> Result<(), Error> {
    let mut index = Index::<Unordered>::new()?;
    for value in 0..1000 {
        index.insert(b"", value)?;
        assert!(index.get(b"\0").eq((0..=value).rev()));
    }
    assert_eq!(index.get(b"").len(), 1000);
    Ok(())
}

#[test]
fn ends_of_no_keys() -> Result<(), Error> {
    let mut index = Index::<Unordered>::new()?;
    for (ends, values) in [
        (&[2, 1][..], &[1, 2][..]),
        (&[5], &[1]),
        (&[1], &[]),
        (&[], &[1]),
    ] {
        assert_eq!(
            index.insert_many(b"figs", ends, values),
            Err((0, Error::Ends))
        );
    }
    let (mut values, mut stops) = (vec![1], vec![1]);
    assert_eq!(
        index.get_many(b"figs", &[2, 1], &mut values, &mut stops),
        Err(Error::Ends)
    );
    assert!(values.is_empty() && stops.is_empty());
    assert_eq!(index.insert_many(b"", &[], &[]), Ok(()));
    assert!(index.is_empty());
    assert_eq!(
        Index::<Unordered>::build(b"figs", &[2, 1], &[1, 2]).err(),
        Some(Error::Ends)
    );
    let built = Index::<OrderedByOne>::build(b"figsfigs", &[4, 8], &[1, 2])?;
    assert!(built.get(b"figs").eq([1, 2]));
    assert_eq!(built.items(), 2);
    Ok(())
}

#[test]
fn texts() -> Result<(), Error> {
    let mut index = Index::<Unordered>::new()?;
    index.insert(b"k", 1)?;
    assert_eq!(
        format!("{index:?}"),
        "Index { keys: 1, items: 1, pruned: 0, .. }"
    );
    assert_eq!(Error::Memory.to_string(), "refused memory");
    let error: Box<dyn std::error::Error> = Error::Full.into();
    assert_eq!(error.to_string(), "refused full");
    Ok(())
}

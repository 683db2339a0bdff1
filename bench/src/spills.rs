//! A partition that is flooded, and what its spill costs.
ghost use Rattle.std.specs.Prelude.{◌≤◌};

use crate::keys::Sample;
use crate::report::{Meter, Outcome, timed};
use key_index_flat::index::{Cursor, CursorState, Fault, Search, Unordered};
use key_index_flat::translator::EightCap;
use key_index_parts::index::partitioned::ordered;
use std::alloc::Global;

/// The index whose partitions spill.
type Index = ordered::Index<EightCap, u64, 1>;

/// The partition of all keys.
const PARTITION: u8 = 0x10;

/// At how many values a partition of `new` spills.
const DEFAULT_THRESHOLD: usize = 512;

/// How often a partition grows to its threshold and shrinks below half of it.
const WAVES: usize = 100;

/// Inserts value i under key i, whose first byte is that of the partition. Answers how many partitions spilled.
fn insert_all(index: &mut Index, keys: &[[u8; 32]]) -> Result<u64, Fault> {
    let mut value = 0u64;
    for key in keys {
        let mut key = *key;
        key[0] = PARTITION;
        index.insert(&key, value)?;
        value = value.wrapping_add(1);
    }
    Ok(index.spills())
}

/// Measures keys that all go into one partition, which spills at so many values.
fn flood<M: Meter>(
    alloc: Global,
    name: &str,
    threshold: usize,
    keys: &[[u8; 32]],
    report: &mut M,
) -> Outcome
    requires { 1 ≤ threshold }
{
    let mut index = Index::with_threshold(alloc, EightCap, threshold)?;
    timed(report, name, keys.len(), || insert_all(&mut index, keys))
}

/// The keys of a partition in their order.
fn rising(number: usize) -> [u8; 9] {
    let mut key = [PARTITION; 9];
    let bytes = (number as u64).to_be_bytes();
    for place in 0..8 {
        key[place + 1] = bytes[place];
    }
    key
}

/// Inserts a value under the keys from one number up to another.
fn insert_rising(index: &mut Index, from: usize, to: usize) -> Result<(), Fault> {
    for number in from..to {
        index.insert(&rising(number), 1)?;
    }
    Ok(())
}

/// Measures the insertion at which a partition of so many values spills: time by value.
fn spill<M: Meter>(alloc: Global, count: usize, report: &mut M) -> Outcome {
    let mut index = Index::with_threshold(alloc, EightCap, count.max(1))?;
    insert_rising(&mut index, 1, count)?;
    timed(report, "spill", count, || {
        insert_rising(&mut index, 0, 1)?;
        Ok(index.spills())
    })
}

/// Removes a number's key by `remove`, which moves a small partition back to arrays, or by a cursor, which moves nothing back.
fn take_rising(index: &mut Index, number: usize, by_cursor: bool) -> Result<(), Fault> {
    let key = rising(number);
    if !by_cursor {
        return index.remove(&key);
    }
    if let Some(mut cursor) = index.get_mut(&key)? {
        cursor.next();
        if cursor.state() == CursorState::Active {
            cursor.delete();
        }
    }
    Ok(())
}

/// Lets a partition grow from so many values to the default threshold and shrink again, so often. Answers how many values were moved.
fn rise_and_fall(index: &mut Index, left: usize, by_cursor: bool) -> Result<u64, Fault> {
    for _ in 0..WAVES {
        insert_rising(index, left, DEFAULT_THRESHOLD)?;
        for number in left..DEFAULT_THRESHOLD {
            take_rising(index, number, by_cursor)?;
        }
    }
    Ok(index.moved())
}

/// Measures a partition that grows to the default threshold and shrinks below half of it, so often: time by insertion and removal.
fn waves<M: Meter>(alloc: Global, name: &str, by_cursor: bool, report: &mut M) -> Outcome {
    let mut index = Index::with_threshold(alloc, EightCap, DEFAULT_THRESHOLD)?;
    let left = DEFAULT_THRESHOLD / 2 - 1;
    insert_rising(&mut index, 0, left)?;
    let edits = 2 * WAVES * (DEFAULT_THRESHOLD - left);
    timed(
        report,
        name,
        edits,
        || rise_and_fall(&mut index, left, by_cursor),
    )
}

/// Measures one partition.
pub(crate) fn run<M: Meter>(keys: &Sample, report: &mut M) -> Outcome {
    let (alloc, keys) = (keys.alloc, &keys.present);
    spill(alloc, keys.len(), report)?;
    flood(alloc, "flood", DEFAULT_THRESHOLD, keys, report)?;
    flood(alloc, "flood_arrays", usize::MAX, keys, report)?;
    waves(alloc, "waves", false, report)?;
    waves(alloc, "waves_in_tree", true, report)
}

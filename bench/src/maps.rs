//! The same operations of the standard library's maps, from the first eight bytes of a key to a value.
use crate::keys::Sample;
use crate::report::{Meter, Outcome, each};
use key_index_flat::index::Fault;
use key_index_flat::translator::{EightCap, Translator};
use std::collections::{BTreeMap, HashMap};
use std::ops::Bound;

/// Adds one to a value, if it is there, and answers it as it was.
#[inline]
fn add_one(value: Option<&mut u64>) -> u64 {
    match value {
        Some(value) => {
            let old = *value;
            *value = old.wrapping_add(1);
            old
        }
        None => 0,
    }
}

/// The value of the next key above, or else of the first.
#[inline]
fn next(map: &BTreeMap<u64, u64>, key: u64) -> u64 {
    let above = (Bound::Excluded(key), Bound::Unbounded);
    match map.range(above).next() {
        Some((_, value)) => *value,
        None => match map.first_key_value() {
            Some((_, value)) => *value,
            None => 0,
        },
    }
}

/// Measures the hashed map.
pub(crate) fn run_hash<M: Meter>(keys: &Sample, report: &mut M) -> Outcome {
    let mut map: HashMap<u64, u64> = HashMap::new(keys.alloc);
    each(report, "insert", &keys.present, |place, key| {
        map.insert(EightCap.transform(key), place)?;
        Ok(0)
    })?;
    let get = |_: u64, key: &[u8; 32]| Ok(map.get(&EightCap.transform(key)).copied().unwrap_or(0));
    each(report, "get", &keys.later, &get)?;
    each(report, "miss", &keys.absent, &get)?;
    each(report, "update", &keys.later, |_, key| {
        Ok(add_one(map.get_mut(&EightCap.transform(key))))
    })?;
    each(report, "remove", keys.half(), |_, key| {
        map.remove(&EightCap.transform(key));
        Ok(0)
    })
}

/// Measures the ordered map.
pub(crate) fn run_tree<M: Meter>(keys: &Sample, report: &mut M) -> Outcome {
    let mut map: BTreeMap<u64, u64> = BTreeMap::new(keys.alloc);
    each(report, "insert", &keys.present, |place, key| {
        map.insert(EightCap.transform(key), place)?;
        Ok(0)
    })?;
    let get = |_: u64, key: &[u8; 32]| Ok(map.get(&EightCap.transform(key)).copied().unwrap_or(0));
    each(report, "get", &keys.later, &get)?;
    each(report, "miss", &keys.absent, &get)?;
    each(report, "update", &keys.later, |_, key| {
        Ok(add_one(map.get_mut(&EightCap.transform(key))))
    })?;
    each(report, "next", keys.few(), |_, key| {
        Ok(next(&map, EightCap.transform(key)))
    })?;
    each(report, "remove", keys.half(), |_, key| {
        map.remove(&EightCap.transform(key));
        Ok(0)
    })
}

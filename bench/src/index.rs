//! The operations of an index.
use crate::keys::Sample;
use crate::report::{Failure, Meter, Outcome, each, timed};
use key_index_flat::index::{Cursor, CursorState, Factory, Fault, Ordered, Unordered, Values};
use key_index_flat::translator::EightCap;
use std::alloc::Global;

/// How many keys a batch has.
const BATCH: usize = 1024;

/// The sum of values.
#[inline]
pub(crate) fn sum(values: Values<'_, u64>) -> u64 {
    let mut sum = 0u64;
    for value in values {
        sum = sum.wrapping_add(*value);
    }
    sum
}

/// The sum of the values of all keys, by batches of so many.
pub(crate) fn many<I: Unordered<Value = u64>>(
    index: &I,
    size: usize,
    keys: &[[u8; 32]],
) -> Result<u64, Fault> {
    let mut sum = 0u64;
    for batch in keys.chunks(size.max(1)) {
        index.get_many(
            batch.iter(),
            |_, value: &u64| sum = sum.wrapping_add(*value),
        )?;
    }
    Ok(sum)
}

/// Adds one to the first value of a key, by a cursor, and answers the value before.
#[inline]
fn add_one<I: Unordered<Value = u64>>(index: &mut I, key: &[u8]) -> Result<u64, Fault> {
    let Some(mut cursor) = index.get_mut(key)? else {
        return Ok(0);
    };
    let value = cursor.next().copied().unwrap_or(0);
    if cursor.state() == CursorState::Active {
        cursor.update(value.wrapping_add(1));
    }
    Ok(value)
}

/// The sum of the values of the next index key above that of a key.
#[inline]
fn next<I: Ordered<Value = u64>>(index: &I, key: &[u8]) -> u64 {
    match index.next_translated_key(key) {
        Some((values, _)) => sum(values),
        None => 0,
    }
}

/// The sum of the values of the next index key below that of a key.
#[inline]
fn prev<I: Ordered<Value = u64>>(index: &I, key: &[u8]) -> u64 {
    match index.prev_translated_key(key) {
        Some((values, _)) => sum(values),
        None => 0,
    }
}

/// Inserts a value under each key.
fn insert_ones<I: Unordered<Value = u64>>(index: &mut I, keys: &[[u8; 32]]) -> Result<(), Fault> {
    for key in keys {
        index.insert(key, 1)?;
    }
    Ok(())
}

/// The sum of the values of the next index key and of the one before, for each key.
fn around<I: Ordered<Value = u64>>(index: &I, keys: &[[u8; 32]]) -> u64 {
    let mut sum = 0u64;
    for key in keys {
        sum = sum
            .wrapping_add(next(index, key))
            .wrapping_add(prev(index, key));
    }
    sum
}

/// Inserts a second and a third value under each key, and answers the sum of all values of the keys.
fn collide<I: Unordered<Value = u64>>(index: &mut I, keys: &[[u8; 32]]) -> Result<u64, Fault> {
    for value in [2u64, 3] {
        for key in keys {
            index.insert(key, value)?;
        }
    }
    let mut all = 0u64;
    for key in keys {
        all = all.wrapping_add(sum(index.get(key)));
    }
    Ok(all)
}

/// Measures the operations at lists of one value.
fn singles<I: Unordered<Value = u64>, M: Meter>(
    index: &mut I,
    keys: &Sample,
    report: &mut M,
) -> Outcome {
    each(report, "insert", &keys.present, |place, key| {
        index.insert(key, place)?;
        Ok(0)
    })?;
    each(report, "get", &keys.later, |_, key| Ok(sum(index.get(key))))?;
    let (later, absent) = (&keys.later, &keys.absent);
    timed(report, "many", later.len(), || many(index, BATCH, later))?;
    each(report, "miss", absent, |_, key| Ok(sum(index.get(key))))?;
    each(report, "update", &keys.later, |_, key| add_one(index, key))
}

/// Measures the operations at lists of several values, and the removal.
fn lists<I: Unordered<Value = u64>, M: Meter>(
    index: &mut I,
    keys: &Sample,
    report: &mut M,
) -> Outcome {
    let few = keys.few();
    let operations = few.len().saturating_mul(3);
    timed(report, "collide", operations, || collide(index, few))?;
    each(report, "retain", few, |_, key| {
        index.insert_and_retain(key, 4, |value: &u64| *value == 3)?;
        Ok(0)
    })?;
    each(report, "remove", keys.half(), |_, key| {
        index.remove(key)?;
        Ok(0)
    })
}

/// Makes an index, and measures that.
fn make<I: Factory + Drop, M: Meter>(
    alloc: Global,
    translator: I::Translator,
    report: &mut M,
) -> Result<I, Failure>
where
    I::Translator: Copy,
    requires { I.makes }
{
    let start = report.start()?;
    let index = I::new(alloc, translator)?;
    report.line("new", 1, start, 0)?;
    Ok(index)
}

/// Measures an index whose keys are in no order.
pub(crate) fn run<I: Factory<Value = u64> + Drop, M: Meter>(
    translator: I::Translator,
    keys: &Sample,
    report: &mut M,
) -> Outcome
where
    I::Translator: Copy,
    requires { I.makes }
{
    let mut index = make::<I, M>(keys.alloc, translator, report)?;
    singles(&mut index, keys, report)?;
    lists(&mut index, keys, report)
}

/// Measures an index whose keys are in order, and then the neighbours in one of a thousand keys at most. The large one is made first, as
/// most programs do.
pub(crate) fn run_ordered<
    I: Factory<Translator = EightCap, Value = u64> + Ordered + Drop,
    M: Meter,
>(keys: &Sample, report: &mut M) -> Outcome
    requires { I.makes }
{
    {
        let mut index = make::<I, M>(keys.alloc, EightCap, report)?;
        singles(&mut index, keys, report)?;
        each(report, "next", keys.few(), |_, key| Ok(next(&index, key)))?;
        lists(&mut index, keys, report)?;
    }
    let few = &keys.present[..keys.present.len().min(1000)];
    let mut index = I::new(keys.alloc, EightCap)?;
    insert_ones(&mut index, few)?;
    let operations = few.len().saturating_mul(2);
    timed(report, "gap", operations, || Ok(around(&index, few)))
}

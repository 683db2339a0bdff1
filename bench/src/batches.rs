//! Batches of keys: one by one, at once, and looking ahead.
use crate::index::{self, sum};
use crate::keys::Sample;
use crate::report::{Meter, Outcome, each, timed};
use key_index_flat::index::{Factory, Fault, Unordered};
use key_index_flat::translator::EightCap;
use key_index_parts::index::partitioned::ordered::{self, Ahead};

/// The index that looks ahead.
type Index = ordered::Index<EightCap, u64, 2>;

/// The sum of the values of all keys, by batches of so many.
fn many(index: &Index, size: usize, keys: &[[u8; 32]]) -> Result<u64, Fault> {
    index::many(index, size, keys)
}

/// The same, by batches that look ahead.
fn ahead(index: &Index, size: usize, keys: &[[u8; 32]]) -> Result<u64, Fault> {
    let mut sum = 0u64;
    for batch in keys.chunks(size.max(1)) {
        index.get_many_ahead(batch.iter(), |told: Ahead<'_, u64>| {
            if let Ahead::Visit(_, value) = told {
                sum = sum.wrapping_add(*value);
            }
        })?;
    }
    Ok(sum)
}

/// Measures the batches of an index of all keys.
pub(crate) fn run<M: Meter>(keys: &Sample, report: &mut M) -> Outcome {
    let start = report.start()?;
    let mut index = Index::new(keys.alloc, EightCap)?;
    report.line("new", 1, start, 0)?;
    each(report, "insert", &keys.present, |place, key| {
        index.insert(key, place)?;
        Ok(0)
    })?;
    let later = &keys.later;
    each(report, "get", later, |_, key| Ok(sum(index.get(key))))?;
    let count = later.len();
    timed(report, "many10", count, || many(&index, 10, later))?;
    timed(report, "ahead10", count, || ahead(&index, 10, later))?;
    timed(report, "many1000", count, || many(&index, 1000, later))?;
    timed(report, "ahead1000", count, || ahead(&index, 1000, later))?;
    timed(report, "many100000", count, || many(&index, 100_000, later))?;
    timed(report, "ahead100000", count, || {
        ahead(&index, 100_000, later)
    })
}

//! The build of an index in partitions.
ghost use Rattle.std.specs.Prelude.{◌≡◌, ℕ, ◌+◌, ◌*◌, ◌/◌, ◌<◌, ◌≤◌, length, slice_index, IfOk};
ghost use Rattle.key_index_parts.specs.Ops.{IsCuts};

use crate::keys::{Sample, numbered};
use crate::report::{Meter, Outcome, timed};
use key_index_flat::index::{Factory, Fault, Unordered};
use key_index_flat::translator::EightCap;
use key_index_parts::index::partitioned::{Op, Partitioned, build_in_ranges};
use std::alloc::Global;

/// The cuts between so many ranges of equal spans, the last of which also takes what is over.
pub(crate) fn equal_cuts(
    alloc: Global,
    partitions: usize,
    ranges: usize,
) -> Result<Vec<usize>, Fault>
    requires some { 0 < ranges }
    requires enough { ranges ≤ partitions }
    ensures cuts { IfOk result (λ cuts. IsCuts cuts.items partitions) }
    ensures ranges { IfOk result (λ cuts. length cuts.items ≡ ranges + 1) }
    ensures equal { IfOk result (λ cuts.
        (at : ℕ) → at < ranges → slice_index cuts.items at ≡ at * (partitions / ranges)) }
{
    let span = partitions / ranges;
    let mut cuts = Vec::new(alloc);
    for at in 0..ranges {
        cuts.push(at * span)?;
    }
    cuts.push(partitions)?;
    Ok(cuts)
}

/// Inserts a record, where its key has none.
fn insert<I: Unordered<Value = u64>>(index: &mut I, key: &[u8], value: u64) -> Result<(), Fault> {
    index.get_mut_or_insert(key, value)?;
    Ok(())
}

/// Inserts each record.
fn insert_all<I: Unordered<Value = u64>>(
    index: &mut I,
    records: Vec<(Vec<u8>, u64)>,
) -> Result<u64, Fault> {
    for (key, value) in records {
        insert(index, &key, value)?;
    }
    Ok(0)
}

/// Measures the records inserted by a call each.
fn one_by_one<I: Factory<Translator = EightCap, Value = u64> + Drop, M: Meter>(
    keys: &Sample,
    report: &mut M,
) -> Outcome
    requires { I.makes }
{
    let records = numbered(keys.alloc, &keys.present, |key, place| (key, place))?;
    let mut index = I::new(keys.alloc, EightCap)?;
    let operations = keys.present.len();
    timed(
        report,
        "one_by_one",
        operations,
        || insert_all(&mut index, records),
    )
}

/// Measures the records inserted by a build in so many ranges. An index of fewer partitions has no line.
fn in_ranges<I: Factory<Translator = EightCap, Value = u64> + Partitioned + Drop, M: Meter>(
    name: &str,
    ranges: usize,
    keys: &Sample,
    report: &mut M,
) -> Outcome
    requires makes { I.makes }
    requires some { 0 < ranges }
{
    let ops = numbered(
        keys.alloc,
        &keys.present,
        |key, place| Op::GetOrInsert(key, place),
    )?;
    let mut index = I::new(keys.alloc, EightCap)?;
    let partitions = index.partition_count();
    if partitions < ranges {
        return Ok(());
    }
    let cuts = equal_cuts(keys.alloc, partitions, ranges)?;
    let start = report.start()?;
    build_in_ranges(keys.alloc, &mut index, &cuts, ops)?;
    report.line(name, keys.present.len(), start, 0)
}

/// Measures the builds of an index in partitions.
pub(crate) fn run<I: Factory<Translator = EightCap, Value = u64> + Partitioned + Drop, M: Meter>(
    keys: &Sample,
    report: &mut M,
) -> Outcome
    requires { I.makes }
{
    one_by_one::<I, M>(keys, report)?;
    in_ranges::<I, M>("build1", 1, keys, report)?;
    in_ranges::<I, M>("build4", 4, keys, report)?;
    in_ranges::<I, M>("build16", 16, keys, report)
}

//! The operations of a snapshot, and the same of the standard library's ordered map of full keys.
use crate::build::equal_cuts;
use crate::keys::{Sample, numbered};
use crate::report::{Meter, Outcome, each};
use key_index::snapshot::{Record, Snapshot};
use key_index_flat::index::{Factory, Ordered};
use key_index_flat::translator::EightCap;
use key_index_parts::index::partitioned::Partitioned;
use std::collections::BTreeMap;
use std::ops::Bound;

/// In how many ranges an index is built.
const RANGES: usize = 16;

/// Measures setting position i of key i.
fn set<I: Ordered<Value = Record>, M: Meter>(
    snapshot: &mut Snapshot<I>,
    name: &str,
    keys: &[[u8; 32]],
    report: &mut M,
) -> Outcome {
    each(report, name, keys, |place, key| {
        snapshot.set(key, place)?;
        Ok(0)
    })
}

/// Measures a snapshot over an index.
pub(crate) fn run<I: Factory<Translator = EightCap, Value = Record> + Ordered + Drop, M: Meter>(
    keys: &Sample,
    report: &mut M,
) -> Outcome
    requires { I.makes }
{
    let mut snapshot = Snapshot::new(keys.alloc, I::new(keys.alloc, EightCap)?);
    set(&mut snapshot, "snapshot_set", &keys.present, report)?;
    set(&mut snapshot, "snapshot_set_again", &keys.later, report)?;
    let get = |_: u64, key: &[u8; 32]| Ok(snapshot.get(key).unwrap_or(0));
    each(report, "snapshot_get", &keys.later, &get)?;
    each(report, "snapshot_miss", &keys.absent, &get)?;
    let few = numbered(keys.alloc, keys.few(), |key, _| key)?;
    each(report, "snapshot_next", &few, |_, key| {
        Ok(snapshot.next(key).map_or(0, |(_, position)| position))
    })
}

/// Measures the ordered map of full keys.
pub(crate) fn run_map<M: Meter>(keys: &Sample, report: &mut M) -> Outcome {
    let alloc = keys.alloc;
    let mut map: BTreeMap<Vec<u8>, u64> = BTreeMap::new(alloc);
    for (name, keys) in [
        ("snapshot_set", &keys.present),
        ("snapshot_set_again", &keys.later),
    ] {
        each(report, name, keys, |place, key| {
            map.insert(key.to_vec(alloc)?, place)?;
            Ok(0)
        })?;
    }
    let get = |_: u64, key: &[u8; 32]| Ok(map.get(key.as_slice()).copied().unwrap_or(0));
    each(report, "snapshot_get", &keys.later, &get)?;
    each(report, "snapshot_miss", &keys.absent, &get)?;
    let few = numbered(keys.alloc, keys.few(), |key, _| key)?;
    each(report, "snapshot_next", &few, |_, key| {
        let above = (Bound::Excluded(key), Bound::Unbounded);
        Ok(map.range(above).next().map_or(0, |(_, position)| *position))
    })
}

/// Measures the build of a snapshot in ranges of equal spans.
fn run_build<
    I: Factory<Translator = EightCap, Value = Record> + Ordered + Partitioned + Drop,
    M: Meter,
>(keys: &Sample, report: &mut M) -> Outcome
    requires { I.makes }
{
    let alloc = keys.alloc;
    let records = numbered(
        alloc,
        &keys.present,
        |key, position| Record { key, position },
    )?;
    let index = I::new(alloc, EightCap)?;
    let partitions = index.partition_count();
    if partitions < RANGES {
        return Ok(());
    }
    let cuts = equal_cuts(alloc, partitions, RANGES)?;
    let start = report.start()?;
    let snapshot = Snapshot::build(alloc, index, &cuts, records)?;
    let count = keys.present.len();
    report.line("snapshot_build", count, start, snapshot.len() as u64)
}

/// Measures a snapshot over an index in partitions, and its build.
pub(crate) fn run_both<
    I: Factory<Translator = EightCap, Value = Record> + Ordered + Partitioned + Drop,
    M: Meter,
>(keys: &Sample, report: &mut M) -> Outcome
    requires { I.makes }
{
    run::<I, M>(keys, report)?;
    run_build::<I, M>(keys, report)
}

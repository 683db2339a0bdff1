//! The operations of the immutable index.
ghost use Rattle.std.specs.Prelude.{◌≡◌};
ghost use Rattle.key_index.specs.Immutable.{end_of};

use crate::keys::Sample;
use crate::report::{Meter, Outcome, each, timed};
use key_index::index::immutable::Index;
use key_index_flat::index::Fault;
use key_index_flat::translator::EightCap;

/// Indexes key i at position i.
fn insert_all(index: &mut Index<EightCap>, keys: &[[u8; 32]]) -> Result<u64, Fault>
    requires { end_of index.old ≡ 0 }
{
    let mut position = 0u64;
    for key in keys {
        let Some(next) = position.checked_add(1) else {
            return Err(Fault::TooFar);
        };
        index.insert(key, position)?;
        position = next;
    }
    Ok(0)
}

/// Measures the positions of each key.
fn get<M: Meter>(
    index: &Index<EightCap>,
    name: &str,
    keys: &[[u8; 32]],
    report: &mut M,
) -> Outcome {
    each(report, name, keys, |_, key| {
        let mut sum = 0u64;
        for position in index.get(key) {
            sum = sum.wrapping_add(position);
        }
        Ok(sum)
    })
}

/// Prunes so many positions, one at a time.
fn prune_each(index: &mut Index<EightCap>, count: usize) {
    for position in 0..count {
        index.prune(position as u64 + 1);
    }
}

/// Measures the immutable index.
pub(crate) fn run<M: Meter>(keys: &Sample, report: &mut M) -> Outcome {
    let start = report.start()?;
    let mut index = Index::new(keys.alloc, EightCap, 0, 0)?;
    report.line("new", 1, start, 0)?;
    let present = &keys.present;
    timed(report, "insert", present.len(), || {
        insert_all(&mut index, present)
    })?;
    get(&index, "get", &keys.later, report)?;
    get(&index, "miss", &keys.absent, report)?;
    let half = keys.half().len();
    timed(report, "prune", half, || {
        prune_each(&mut index, half);
        Ok(0)
    })
}

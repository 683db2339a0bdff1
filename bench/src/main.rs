//! The program `key_index_bench`: what each operation of an index costs, beside the maps of the standard library.
#![tactic(auto)]

ghost use Rattle.std.specs.Prelude.{◌≤◌};

mod batches;
mod build;
mod index;
mod keys;
mod maps;
mod positions;
mod report;
mod snapshots;
mod spills;

use key_index::snapshot::Record;
use key_index_flat::index::{Factory, Ordered, ordered, unordered};
use key_index_flat::translator::{EightCap, Hashed, SeededSha256};
use key_index_parts::index::partitioned::{self, Partitioned};
use keys::{Order, Sample};
use report::{Meter, Outcome, Report};
use std::alloc::Global;
use std::env;
use std::io::{self, Write};
use std::process::ExitCode;
use std::rt::Env;

/// The unordered index for keys that an attacker picks.
type HashedIndex = unordered::Index<Hashed<EightCap, SeededSha256>, u64>;

/// The partitioned ordered index of records.
type RecordIndex = partitioned::ordered::Index<EightCap, Record, 2>;

/// A seed for a hashed index, fixed so that each run measures the same.
const SEED: u64 = 0x6564_6362_6463_6261;

/// What is measured.
#[derive(Clone, Copy)]
enum Kind {
    Unordered,
    Hashed,
    Ordered,
    Punordered1,
    Punordered2,
    Punordered3,
    Pordered1,
    Pordered2,
    Pordered3,
    Immutable,
    StdHash,
    StdTree,
}

/// The kinds by the words for them.
const KINDS: [(&str, Kind); 12] = [
    ("unordered", Kind::Unordered),
    ("hashed", Kind::Hashed),
    ("ordered", Kind::Ordered),
    ("punordered1", Kind::Punordered1),
    ("punordered2", Kind::Punordered2),
    ("punordered3", Kind::Punordered3),
    ("pordered1", Kind::Pordered1),
    ("pordered2", Kind::Pordered2),
    ("pordered3", Kind::Pordered3),
    ("immutable", Kind::Immutable),
    ("std_hash", Kind::StdHash),
    ("std_tree", Kind::StdTree),
];

/// Which operations of a kind are measured.
#[derive(Clone, Copy)]
enum Measured {
    Calls(Order),
    Build,
    Snapshot,
    Spills,
    Batches,
}

/// The operations by the words for them.
const MEASURED: [(&str, Measured); 6] = [
    ("shuffled", Measured::Calls(Order::Shuffled)),
    ("inserted", Measured::Calls(Order::Inserted)),
    ("build", Measured::Build),
    ("snapshot", Measured::Snapshot),
    ("spills", Measured::Spills),
    ("batches", Measured::Batches),
];

/// What stands under a word.
fn named<T: Copy>(list: &[(&'static str, T)], word: &str) -> Option<(&'static str, T)> {
    for (name, named) in list {
        if *name == word {
            return Some((*name, *named));
        }
    }
    None
}

/// What the arguments ask for.
#[derive(Clone, Copy)]
struct Run {
    name: &'static str,
    kind: Kind,
    count: usize,
    what: Measured,
}

/// The run that the arguments ask for.
fn arguments(words: &[String]) -> Option<Run> {
    let (kind, count, what) = match words {
        [kind, count] => (kind, count, "shuffled"),
        [kind, count, what] => (kind, count, what.as_str()),
        _ => return None,
    };
    let (name, kind) = named(&KINDS, kind.as_str())?;
    let (_, what) = named(&MEASURED, what)?;
    let count = count.as_str().parse::<usize>().ok()?;
    Some(Run {
        name,
        kind,
        count,
        what,
    })
}

/// Writes the words of a list.
fn write_words<T, W: Write>(output: &mut W, list: &[(&'static str, T)]) -> io::Result<()> {
    let mut between = "";
    for (name, _) in list {
        write!(output, "{between}{name}")?;
        between = "|";
    }
    Ok(())
}

/// Writes what the arguments may be.
fn write_usage<W: Write>(output: &mut W) -> io::Result<()> {
    write!(output, "usage: key_index_bench ")?;
    write_words(output, &KINDS)?;
    write!(output, " COUNT [")?;
    write_words(output, &MEASURED)?;
    writeln!(output, "]")
}

/// Measures an index in partitions whose keys are in no order.
fn run_unordered<I: Factory<Translator = EightCap, Value = u64> + Partitioned + Drop, M: Meter>(
    what: Measured,
    keys: &Sample,
    report: &mut M,
) -> Outcome
    requires { I.makes }
{
    match what {
        Measured::Calls(_) => index::run::<I, M>(EightCap, keys, report),
        Measured::Build => build::run::<I, M>(keys, report),
        _ => Ok(()),
    }
}

/// Measures an index in partitions whose keys are in order.
fn run_ordered<
    I: Factory<Translator = EightCap, Value = u64> + Ordered + Partitioned + Drop,
    M: Meter,
>(what: Measured, keys: &Sample, report: &mut M) -> Outcome
    requires { I.makes }
{
    match what {
        Measured::Calls(_) => index::run_ordered::<I, M>(keys, report),
        Measured::Build => build::run::<I, M>(keys, report),
        _ => Ok(()),
    }
}

/// Measures the unordered index whose partitions are selected by so many bytes. It is passed on nowhere else, since that costs the
/// checker most.
fn punordered<const P: usize, M: Meter>(what: Measured, keys: &Sample, report: &mut M) -> Outcome
    requires least { 1 ≤ P }
    requires most { P ≤ 3 }
{
    run_unordered::<partitioned::unordered::Index<EightCap, u64, P>, M>(what, keys, report)
}

/// The same of the ordered index.
fn pordered<const P: usize, M: Meter>(what: Measured, keys: &Sample, report: &mut M) -> Outcome
    requires least { 1 ≤ P }
    requires most { P ≤ 3 }
{
    run_ordered::<partitioned::ordered::Index<EightCap, u64, P>, M>(what, keys, report)
}

/// Measures what the arguments ask for. What a kind doesn't have writes no line.
fn measure<M: Meter>(alloc: Global, run: Run, report: &mut M) -> Outcome {
    let order = match run.what {
        Measured::Calls(order) => order,
        _ => Order::Shuffled,
    };
    let keys = &Sample::new(alloc, run.count, order)?;
    match (run.kind, run.what) {
        (Kind::Unordered, Measured::Calls(_)) => {
            index::run::<unordered::Index<EightCap, u64>, M>(EightCap, keys, report)
        }
        (Kind::Hashed, Measured::Calls(_)) => {
            index::run::<HashedIndex, M>(Hashed::from_seed(SEED, EightCap), keys, report)
        }
        (Kind::Ordered, Measured::Calls(_)) => {
            index::run_ordered::<ordered::Index<EightCap, u64>, M>(keys, report)
        }
        (Kind::Ordered, Measured::Snapshot) => {
            snapshots::run::<ordered::Index<EightCap, Record>, M>(keys, report)
        }
        (Kind::Pordered1, Measured::Spills) => spills::run(keys, report),
        (Kind::Pordered2, Measured::Batches) => batches::run(keys, report),
        (Kind::Pordered2, Measured::Snapshot) => {
            snapshots::run_both::<RecordIndex, M>(keys, report)
        }
        (Kind::Punordered1, what) => punordered::<1, M>(what, keys, report),
        (Kind::Punordered2, what) => punordered::<2, M>(what, keys, report),
        (Kind::Punordered3, what) => punordered::<3, M>(what, keys, report),
        (Kind::Pordered1, what) => pordered::<1, M>(what, keys, report),
        (Kind::Pordered2, what) => pordered::<2, M>(what, keys, report),
        (Kind::Pordered3, what) => pordered::<3, M>(what, keys, report),
        (Kind::Immutable, Measured::Calls(_)) => positions::run(keys, report),
        (Kind::StdHash, Measured::Calls(_)) => maps::run_hash(keys, report),
        (Kind::StdTree, Measured::Calls(_)) => maps::run_tree(keys, report),
        (Kind::StdTree, Measured::Snapshot) => snapshots::run_map(keys, report),
        _ => Ok(()),
    }
}

/// The arguments without the program's name.
fn words<R: Env + AllocGlobal>(rt: &R) -> Option<Vec<String>> {
    env::args(rt).ok()?.skip(1).collect(rt.alloc()).ok()
}

fn main(rt: HostRuntime) -> ExitCode {
    let named = match words(&rt) {
        Some(words) => arguments(&words),
        None => None,
    };
    let Some(run) = named else {
        let _ = write_usage(&mut rt.stderr());
        return ExitCode::from(2);
    };
    let mut report = Report {
        clock: &rt,
        output: &mut rt.stdout(),
        kind: run.name,
        count: run.count,
    };
    match measure(rt.alloc(), run, &mut report) {
        Ok(()) => ExitCode::from(0),
        Err(_) => {
            let _ = writeln!(rt.stderr(), "failed");
            ExitCode::from(1)
        }
    }
}

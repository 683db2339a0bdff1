//! The lines of a run, and the timed loop.
use key_index_flat::index::Fault;
use std::io::{self, Write};
use std::time::{Clock, Duration, Instant};

/// Why a run ended early.
#[derive(Debug, Clone, Copy)]
pub(crate) enum Failure {
    /// A growth was refused.
    Refused(Fault),
    /// A clock could not be read, or a line not be written.
    Io,
}

impl From<Fault> for Failure {
    fn from(fault: Fault) -> Failure {
        Failure::Refused(fault)
    }
}

impl From<io::Error> for Failure {
    fn from(_: io::Error) -> Failure {
        Failure::Io
    }
}

/// What a measurement returns.
pub(crate) type Outcome = Result<(), Failure>;

/// Where the lines of one kind go, and the clock that they are timed by.
#[derive(Drop)]
pub(crate) struct Report<'a, C, W> {
    pub(crate) clock: &'a C,
    pub(crate) output: &'a mut W,
    pub(crate) kind: &'a str,
    pub(crate) count: usize,
}

/// What takes the time of operations, and writes it down.
pub(crate) trait Meter {
    /// The time at which operations start.
    fn start(&self) -> Result<Instant, Failure>;

    /// Writes what so many operations took since then, and the sum of the values that they found.
    fn line(&mut self, name: &str, operations: usize, start: Instant, sum: u64) -> Outcome;
}

impl<'a, C: Clock, W: Write> Meter for Report<'a, C, W> {
    fn start(&self) -> Result<Instant, Failure> {
        Ok(Instant::now(self.clock)?)
    }

    fn line(&mut self, name: &str, operations: usize, start: Instant, sum: u64) -> Outcome {
        let tenths = tenths_each(start.elapsed(self.clock)?, operations);
        let (kind, count) = (self.kind, self.count);
        let (whole, tenth) = (tenths / 10, tenths % 10);
        writeln!(self.output, "{kind} {name} {count} {whole}.{tenth} {sum}")?;
        Ok(())
    }
}

/// Tenths of a nanosecond for each operation, rounded down.
fn tenths_each(time: Duration, operations: usize) -> u128 {
    time.as_nanos().saturating_mul(10) / (operations as u128).max(1)
}

/// Measures so many operations, which a call makes. It answers the sum of the values that they find.
pub(crate) fn timed<M: Meter, F: FnOnce() -> Result<u64, Fault>>(
    report: &mut M,
    name: &str,
    operations: usize,
    run: F,
) -> Outcome
    requires { F.IsAlwaysCallable run }
{
    let start = report.start()?;
    let sum = run()?;
    report.line(name, operations, start, sum)
}

/// Measures an operation for each key, which is told the key's place, from 0, and answers the sum of the values that it finds.
pub(crate) fn each<K, M: Meter, F: FnMut(u64, &K) -> Result<u64, Fault>>(
    report: &mut M,
    name: &str,
    keys: &[K],
    mut call: F,
) -> Outcome
    requires { F.IsAlwaysCallable call }
{
    let start = report.start()?;
    let (mut place, mut sum) = (0u64, 0u64);
    for key in keys {
        sum = sum.wrapping_add(call(place, key)?);
        place = place.wrapping_add(1);
    }
    report.line(name, keys.len(), start, sum)
}

//! An index in partitions, built by several threads.

use crate::ffi::{self, Handle, Range};
use crate::owned::Owned;
use crate::{answer, Error, Index, Partitioned};
use std::mem::ManuallyDrop;
use std::panic::resume_unwind;
use std::thread::{self, Builder};

/// How many keys, about, tell how many records each partition gets.
const SAMPLE: usize = 4096;

/// Neighbouring partitions: the first, and how many.
type Part = (usize, usize);

impl<K: Partitioned> Index<K> {
    /// The index that [`Index::build`] makes, by so many threads at once, this one among them. Each goes through all keys and inserts those of
    /// some neighbouring partitions, so keys of few partitions keep few threads busy. Where a thread can't be started, this one does its part.
    ///
    /// ```
    /// use key_index::{Index, OrderedByOne};
    ///
    /// # fn main() -> Result<(), key_index::Error> {
    /// let (keys, ends) = (b"applecherryplum", [5, 11, 15]);
    /// let index = Index::<OrderedByOne>::build_in_ranges(4, keys, &ends, &[1, 2, 3])?;
    /// assert!(index.get(b"cherry").eq([2]));
    /// # Ok(())
    /// # }
    /// ```
    ///
    /// # Errors
    ///
    /// As with `build`.
    pub fn build_in_ranges(
        threads: usize,
        keys: &[u8],
        ends: &[usize],
        values: &[u64],
    ) -> Result<Self, Error> {
        let mut index = Self::new()?;
        let by_one = matches!(K::KIND, ffi::UNORDERED_BY_ONE | ffi::ORDERED_BY_ONE);
        let parts = parts(threads, if by_one { 1 << 8 } else { 1 << 16 }, keys, ends);
        let fill = |part| filled(&index.owned, part, keys, ends, values);
        let ranges: Vec<Result<_, Error>> = thread::scope(|scope| {
            let begin = |part| (part, Builder::new().spawn_scoped(scope, move || fill(part)));
            let others: Vec<_> = parts[1..].iter().copied().map(begin).collect();
            let mut ranges = vec![fill(parts[0])];
            ranges.extend(others.into_iter().map(|(part, thread)| match thread {
                Ok(thread) => thread.join().unwrap_or_else(|panic| resume_unwind(panic)),
                Err(_) => fill(part),
            }));
            ranges
        });
        for range in ranges {
            install(range?, &mut index.owned)?;
        }
        Ok(index)
    }
}

/// As many parts of the partitions as there are threads, or fewer, in which about as many records are. The first is always there.
fn parts(threads: usize, partitions: usize, keys: &[u8], ends: &[usize]) -> Vec<Part> {
    // The library tests the ends; here a key that is none counts as empty.
    let partition = |number: usize| {
        let start = number.checked_sub(1).map_or(0, |before| ends[before]);
        let key = keys.get(start..ends[number]).unwrap_or_default();
        let byte = |place| usize::from(*key.get(place).unwrap_or(&0));
        (byte(0) << 8 | byte(1)) / ((1 << 16) / partitions)
    };
    let step = (ends.len() / SAMPLE).max(1);
    let mut sample: Vec<usize> = (0..ends.len()).step_by(step).map(partition).collect();
    sample.sort_unstable();
    let threads = threads.clamp(1, partitions);
    let bound = |part| sample.get(sample.len() * part / threads).copied();
    let mut parts = Vec::new();
    let mut first = 0;
    for end in (1..threads).filter_map(bound).chain([partitions]) {
        if end > first {
            parts.push((first, end - first));
            first = end;
        }
    }
    parts
}

/// The range of a part, with those values whose keys are of its partitions.
fn filled(
    index: &Owned<Handle>,
    (first, count): Part,
    keys: &[u8],
    ends: &[usize],
    values: &[u64],
) -> Result<Owned<Range>, Error> {
    // SAFETY: the index was made, and the range is fresh.
    let mut range = Owned::made(|range| {
        index.read(|index| unsafe { ffi::key_index_c_range(index, range, first, count) })
    })?;
    // SAFETY: the range was made, and keys, ends and values go with their lengths.
    let told = unsafe {
        ffi::key_index_c_range_insert_many(
            range.at(),
            keys.as_ptr(),
            keys.len(),
            ends.as_ptr(),
            ends.len(),
            values.as_ptr(),
            values.len(),
        )
    };
    answer(told.status).map(|()| range)
}

/// Installs a range.
fn install(range: Owned<Range>, index: &mut Owned<Handle>) -> Result<(), Error> {
    let mut range = ManuallyDrop::new(range);
    // SAFETY: both were made. An installed range is no more.
    let status = unsafe { ffi::key_index_c_install(index.at(), range.at()) };
    if status != ffi::OK {
        drop(ManuallyDrop::into_inner(range));
    }
    answer(status)
}

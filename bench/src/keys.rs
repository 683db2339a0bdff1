//! Keys of 32 bytes, made by George Marsaglia's xorshift.
ghost use Rattle.std.specs.Prelude.{IsPermutation};

use key_index_flat::index::Fault;
use std::alloc::Global;

/// The present keys start here.
const PRESENT: u64 = 0x9e37_79b9_7f4a_7c15;

/// The absent keys start here.
const ABSENT: u64 = 0xd1b5_4a32_d192_ed03;

/// The shuffle starts here.
const SHUFFLE: u64 = 0x2545_f491_4f6c_dd1d;

/// The xorshift of 64 bits with the shifts 13, 7 and 17.
fn step(last: u64) -> u64 {
    let mut word = last;
    word ^= word << 13;
    word ^= word >> 7;
    word ^= word << 17;
    word
}

/// In which order the keys are used once they are inserted.
#[derive(Clone, Copy)]
pub(crate) enum Order {
    Shuffled,
    Inserted,
}

/// The keys of a run, and the allocator of what is measured over them.
#[derive(Drop)]
pub(crate) struct Sample {
    pub(crate) alloc: Global,
    /// Those that are inserted, in this order.
    pub(crate) present: Vec<[u8; 32]>,
    /// The same, in the order in which they are used then.
    pub(crate) later: Vec<[u8; 32]>,
    pub(crate) absent: Vec<[u8; 32]>,
}

impl Sample {
    /// So many present and absent keys.
    pub(crate) fn new(alloc: Global, count: usize, order: Order) -> Result<Sample, Fault> {
        let present = keys(alloc, count, PRESENT)?;
        let mut later = present.clone()?;
        if let Order::Shuffled = order {
            shuffle(&mut later);
        }
        let absent = keys(alloc, count, ABSENT)?;
        Ok(Sample {
            alloc,
            present,
            later,
            absent,
        })
    }

    /// The first tenth of those that are used.
    pub(crate) fn few(&self) -> &[[u8; 32]] {
        &self.later[..self.later.len() / 10]
    }

    /// The first half of those that are used.
    pub(crate) fn half(&self) -> &[[u8; 32]] {
        &self.later[..self.later.len() / 2]
    }
}

/// So many keys, each of four words, the low byte of a word first.
fn keys(alloc: Global, count: usize, start: u64) -> Result<Vec<[u8; 32]>, Fault> {
    let mut keys = Vec::with_capacity(alloc, count)?;
    let mut word = start;
    for _ in 0..count {
        let mut key = [0; 32];
        for place in 0..32 {
            if place % 8 == 0 {
                word = step(word);
            }
            key[place] = word.to_le_bytes()[place % 8];
        }
        keys.push(key)?;
    }
    Ok(keys)
}

/// Puts keys in a random order, by Fisher and Yates.
fn shuffle(keys: &mut [[u8; 32]])
    ensures { IsPermutation keys.old keys.new }
{
    let mut word = SHUFFLE;
    for last in (1..keys.len()).rev() {
        word = step(word);
        keys.swap(last, (word % (last as u64 + 1)) as usize);
    }
}

/// What a closure makes of each key, which it then owns, and of the key's place, from 0.
pub(crate) fn numbered<T: Drop, F: FnMut(Vec<u8>, u64) -> T>(
    alloc: Global,
    keys: &[[u8; 32]],
    mut make: F,
) -> Result<Vec<T>, Fault>
    requires { F.IsAlwaysCallable make }
{
    let mut made = Vec::with_capacity(alloc, keys.len())?;
    let mut place = 0u64;
    for key in keys {
        made.push(make(key.to_vec(alloc)?, place))?;
        place = place.wrapping_add(1);
    }
    Ok(made)
}

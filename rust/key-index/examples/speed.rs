//! What calls cost from Rust: `cargo run --release --example speed KIND N`, where KIND is `unordered` or `ordered`.
//!
//! The keys, their order and the lines are those of `key_index_bench KIND N`: nanoseconds an operation, and the sum of the values found.

use key_index::{Error, Index, Kind, Ordered, Unordered};
use std::time::Instant;

/// Marsaglia's xorshift.
fn next(state: &mut u64) -> u64 {
    *state ^= *state << 13;
    *state ^= *state >> 7;
    *state ^= *state << 17;
    *state
}

/// So many keys of 32 bytes.
fn keys(mut state: u64, many: usize) -> Vec<[u8; 32]> {
    let mut key = || {
        let mut bytes = [0; 32];
        for word in bytes.chunks_mut(8) {
            word.copy_from_slice(&next(&mut state).to_le_bytes());
        }
        bytes
    };
    (0..many).map(|_| key()).collect()
}

/// Fisher and Yates.
#[allow(clippy::cast_possible_truncation)]
fn shuffle(keys: &mut [[u8; 32]]) {
    let mut state = 0x2545_F491_4F6C_DD1D;
    for place in (1..keys.len()).rev() {
        keys.swap(place, (next(&mut state) % (place as u64 + 1)) as usize);
    }
}

/// Prints what an operation on each of so many keys cost.
#[allow(clippy::cast_precision_loss)]
fn line(
    name: &str,
    many: usize,
    operation: impl FnOnce() -> Result<u64, Error>,
) -> Result<(), Error> {
    let start = Instant::now();
    let sum = operation()?;
    let each = start.elapsed().as_nanos() as f64 / many.max(1) as f64;
    println!("{name} {many} {each:.1} {sum}");
    Ok(())
}

/// The sum of the values of each key.
fn sum<K: Kind>(index: &Index<K>, keys: &[[u8; 32]]) -> u64 {
    keys.iter()
        .flat_map(|key| index.get(key))
        .fold(0, u64::wrapping_add)
}

/// The sum of the values of keys that stand behind one another, by batches of 1,024.
fn sum_of_many<K: Kind>(index: &Index<K>, keys: &[u8]) -> Result<u64, Error> {
    let ends: Vec<usize> = (1..=1024).map(|count| count * 32).collect();
    let (mut values, mut stops) = (Vec::new(), Vec::new());
    let mut sum: u64 = 0;
    for batch in keys.chunks(1024 * 32) {
        let ends = &ends[..batch.len() / 32];
        index.get_many(batch, ends, &mut values, &mut stops)?;
        sum = values
            .iter()
            .fold(sum, |sum, value| sum.wrapping_add(*value));
    }
    Ok(sum)
}

fn measure<K: Kind>(mut index: Index<K>, many: usize) -> Result<(), Error> {
    let mut present = keys(0x9E37_79B9_7F4A_7C05, many);
    let absent = keys(0xD1B5_4A32_D192_ED03, many);
    line("insert", many, || {
        for (value, key) in (0..).zip(&present) {
            index.insert(key, value)?;
        }
        Ok(0)
    })?;
    shuffle(&mut present);
    line("get", many, || Ok(sum(&index, &present)))?;
    let behind_one_another = present.concat();
    line("many", many, || sum_of_many(&index, &behind_one_another))?;
    line("miss", many, || Ok(sum(&index, &absent)))?;
    line("contains", many, || {
        Ok(present
            .iter()
            .map(|key| u64::from(index.contains(key)))
            .sum())
    })?;
    let half = &present[..many / 2];
    line("remove", half.len(), || {
        for key in half {
            index.remove(key)?;
        }
        Ok(0)
    })
}

fn main() -> Result<(), Box<dyn std::error::Error>> {
    let words: Vec<String> = std::env::args().skip(1).collect();
    let [kind, many] = words.as_slice() else {
        return Err("usage: speed unordered|ordered N".into());
    };
    let many = many.parse()?;
    match kind.as_str() {
        "unordered" => measure(Index::<Unordered>::new()?, many)?,
        "ordered" => measure(Index::<Ordered>::new()?, many)?,
        other => return Err(format!("no kind {other}").into()),
    }
    Ok(())
}

//! The first session of the repository's README: commands of one line each, and their answers.
//!
//! `printf 'insert 0b02 1\ninsert 0bff 2\nget 0b\nremove 0b77\ncounts\n' | cargo run --example session`

use key_index::{Error, Index, Unordered};
use std::io::{stdin, BufRead};

/// The bytes of a key that is written in hexadecimal digits. A key keeps its first byte alone here, so keys that agree in it share a list.
fn key(digits: &str) -> Option<Vec<u8>> {
    let byte = |at| u8::from_str_radix(digits.get(at..at + 2)?, 16).ok();
    let bytes: Option<Vec<u8>> = (0..digits.len()).step_by(2).map(byte).collect();
    bytes.map(|mut bytes| {
        bytes.truncate(1);
        bytes
    })
}

fn told(result: Result<(), Error>) -> String {
    result.map_or_else(|error| error.to_string(), |()| "ok".into())
}

fn answer(index: &mut Index<Unordered>, line: &str) -> Option<String> {
    Some(match *line.split(' ').collect::<Vec<_>>() {
        ["insert", digits, value] => told(index.insert(&key(digits)?, value.parse().ok()?)),
        ["remove", digits] => told(index.remove(&key(digits)?)),
        ["get", digits] => match index.get(&key(digits)?).as_slice() {
            [] => "none".into(),
            values => values
                .iter()
                .fold("values".into(), |told, value| format!("{told} {value}")),
        },
        ["counts"] => format!(
            "keys {} items {} pruned {}",
            index.keys(),
            index.items(),
            index.pruned()
        ),
        _ => return None,
    })
}

fn main() -> Result<(), Box<dyn std::error::Error>> {
    let mut index = Index::new()?;
    for line in stdin().lock().lines() {
        let line = line?;
        let told = answer(&mut index, &line).ok_or_else(|| format!("bad line {line}"))?;
        println!("{told}");
    }
    Ok(())
}

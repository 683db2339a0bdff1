//! The index of a file of records, one `KEY VALUE` a line: each line's position is found by its key again.
//!
//! `cargo run --example records FILE KEY..` prints the newest line of each key, or `none`.

use key_index::{Index, Unordered};
use std::error::Error;
use std::fs::File;
use std::io::{BufRead, BufReader, Seek, SeekFrom};

/// The key of a line, which ends at its first space.
fn key_of(line: &str) -> &str {
    line.split(' ').next().unwrap_or_default()
}

/// Reads the line at a position.
fn line_at(file: &mut BufReader<File>, position: u64) -> std::io::Result<String> {
    let mut line = String::new();
    file.seek(SeekFrom::Start(position))?;
    file.read_line(&mut line)?;
    Ok(line.trim_end().to_owned())
}

fn main() -> Result<(), Box<dyn Error>> {
    let mut words = std::env::args().skip(1);
    let name = words.next().ok_or("usage: records FILE KEY..")?;
    let mut file = BufReader::new(File::open(name)?);
    let mut index = Index::<Unordered>::new()?;
    let mut position = 0;
    let mut line = String::new();
    while file.read_line(&mut line)? > 0 {
        index.insert(key_of(line.trim_end()).as_bytes(), position)?;
        position += line.len() as u64;
        line.clear();
    }
    for key in words {
        // Lines of other keys may share the first eight bytes, so the whole key is compared.
        let mut newest = String::from("none");
        for position in index.get(key.as_bytes()) {
            let line = line_at(&mut file, position)?;
            if key_of(&line) == key {
                newest = line;
                break;
            }
        }
        println!("{newest}");
    }
    Ok(())
}

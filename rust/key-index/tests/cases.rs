//! The sessions of the folder `cases` that make no other calls than this crate has, with the answers that are wanted there. Python 3 writes
//! them.

use key_index::{Error, Immutable, Index, Kind, Neighbours, Values};
use key_index::{Ordered, OrderedByOne, OrderedByTwo, Unordered, UnorderedByOne, UnorderedByTwo};
use std::collections::BTreeSet;
use std::process::Command;

type Lines<'a> = &'a [&'a str];

/// The values of a neighbour, and whether it was found around the end.
type Neighbour = Option<(Values, bool)>;

/// The bytes of a word such as x0b02, as many as the index of a session keeps.
fn bytes(word: &str, kept: usize) -> Vec<u8> {
    let byte = |at| u8::from_str_radix(&word[at..at + 2], 16).unwrap();
    (1..word.len()).step_by(2).map(byte).take(kept).collect()
}

fn told(result: Result<(), Error>) -> String {
    result.map_or_else(|error| error.to_string(), |()| "ok".into())
}

/// Numbers as words, or a word for none.
fn words(numbers: impl IntoIterator<Item = u64>, none: &str) -> String {
    let words: Vec<String> = numbers
        .into_iter()
        .map(|number| number.to_string())
        .collect();
    if words.is_empty() {
        none.into()
    } else {
        words.join(" ")
    }
}

/// Makes the calls of a session, and compares each answer.
fn check(lines: Lines, mut answer: impl FnMut(&[&str]) -> String) {
    for (number, line) in lines.iter().enumerate() {
        let (call, wanted) = line.split_once(" -> ").unwrap();
        let call: Vec<&str> = call.split(' ').collect();
        assert_eq!(answer(&call), wanted, "line {number}: {line}");
    }
}

/// The places of keys and their values, as pairs in the order of the places.
fn many<K: Kind>(index: &Index<K>, keys: &[Vec<u8>]) -> Vec<(u64, u64)> {
    let (mut values, mut stops) = (Vec::new(), Vec::new());
    let ends: Vec<usize> = keys
        .iter()
        .scan(0, |end, key| {
            *end += key.len();
            Some(*end)
        })
        .collect();
    index
        .get_many(&keys.concat(), &ends, &mut values, &mut stops)
        .unwrap();
    let place = |at: usize| stops.iter().filter(|stop| **stop <= at).count() as u64;
    values
        .into_iter()
        .enumerate()
        .map(|(at, value)| (place(at), value))
        .collect()
}

fn lists<K: Kind>(
    lines: Lines,
    kept: usize,
    mut index: Index<K>,
    neighbour: fn(&Index<K>, &str, &[u8]) -> Neighbour,
) {
    check(lines, |call| {
        let key = call
            .get(1)
            .map(|word| bytes(word, kept))
            .unwrap_or_default();
        match *call {
            ["insert", _, value] => told(index.insert(&key, value.parse().unwrap())),
            ["remove", _] => told(index.remove(&key)),
            ["get", _] => words(index.get(&key), "none"),
            ["empty"] => index.is_empty().to_string(),
            ["counts"] => format!("{} {} {}", index.keys(), index.items(), index.pruned()),
            ["retain", _, bits] => {
                let mut bits: u64 = bits.parse().unwrap();
                let mut asked = String::new();
                let retained = index.retain(&key, |value| {
                    asked += &format!("{value} ");
                    bits = bits.rotate_right(1);
                    bits >> 63 == 1
                });
                asked + &told(retained)
            }
            ["many", ..] => {
                let keys: Vec<Vec<u8>> = call[1..].iter().map(|word| bytes(word, kept)).collect();
                many(&index, &keys)
                    .iter()
                    .map(|(place, value)| format!("{place} {value} "))
                    .collect::<String>()
                    + "ok"
            }
            _ => neighbour(&index, call[0], &key).map_or("none".into(), |(values, cycled)| {
                words(values, "none") + if cycled { " cycled" } else { "" }
            }),
        }
    });
}

fn in_order<K: Neighbours>(index: &Index<K>, which: &str, key: &[u8]) -> Neighbour {
    match which {
        "next" => index.next_translated_key(key),
        "prev" => index.prev_translated_key(key),
        "first" => index.first_translated_key().map(|values| (values, false)),
        _ => index.last_translated_key().map(|values| (values, false)),
    }
}

fn no_order<K: Kind>(_: &Index<K>, which: &str, _: &[u8]) -> Neighbour {
    panic!("no index without an order answers {which}")
}

fn positions(lines: Lines, kept: usize, mut index: Immutable) {
    let key = |word: &str| {
        let mut key = bytes(word, kept);
        key.resize(kept, 0);
        key
    };
    check(lines, |call| match *call {
        ["insert", word, at] => match index.insert(&key(word), at.parse().unwrap()) {
            Err(Error::Position) => "unallowed".into(),
            result => told(result),
        },
        ["get", word] => {
            let mut positions: Vec<u64> = index.get(&key(word)).collect();
            positions.sort_unstable();
            words(positions, "none")
        }
        ["indexed", from, count] => {
            let from: u64 = from.parse().unwrap();
            let positions = (0..count.parse().unwrap())
                .map(|at| from + at)
                .filter(|at| index.is_indexed(*at));
            (words(positions, "") + " ok").trim_start().into()
        }
        ["prune", at] => {
            index.prune(at.parse().unwrap());
            "ok".into()
        }
        ["empty"] => (index.items() == 0).to_string(),
        _ => format!("{} {} {}", index.items(), index.start(), index.pruned()),
    });
}

#[test]
fn sessions_of_the_cases() -> Result<(), Error> {
    let script = concat!(env!("CARGO_MANIFEST_DIR"), "/../../tests/harness/sessions");
    let written = Command::new(script)
        .output()
        .expect("Python 3 runs tests/harness/sessions");
    let text = String::from_utf8(written.stdout).unwrap();
    let mut kinds = BTreeSet::new();
    for session in text.split("== ").skip(1) {
        let lines: Vec<&str> = session.lines().collect();
        let words: Vec<&str> = lines[0].split(' ').collect();
        let lines = &lines[1..];
        match words[0] {
            "unordered" => lists(lines, 1, Index::<Unordered>::new()?, no_order),
            "ordered" => lists(lines, 1, Index::<Ordered>::new()?, in_order),
            "ordered_by_eight" => lists(lines, 8, Index::<Ordered>::new()?, in_order),
            "punordered" => lists(lines, 2, Index::<UnorderedByOne>::new()?, no_order),
            "punordered_by_two" => lists(lines, 3, Index::<UnorderedByTwo>::new()?, no_order),
            "pordered" => lists(lines, 2, Index::<OrderedByOne>::new()?, in_order),
            "pordered_by_two" => lists(lines, 3, Index::<OrderedByTwo>::new()?, in_order),
            "immutable" => positions(lines, 2, Immutable::with_seed(7, 0, 0)?),
            "immutable_by_eight" => {
                let start = words.get(1).map_or(0, |start| start.parse().unwrap());
                positions(lines, 8, Immutable::new(start, 0)?);
            }
            other => panic!("no kind {other}"),
        }
        kinds.insert(words[0]);
    }
    assert!(written.status.success());
    assert_eq!(kinds.len(), 9, "{kinds:?}");
    Ok(())
}

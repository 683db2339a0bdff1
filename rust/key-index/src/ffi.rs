//! The functions of the static library, as `include/key_index.h` declares them.

use std::ffi::c_void;

/// One pointer: an index, or null.
#[repr(C)]
#[derive(Clone, Copy)]
pub struct Handle {
    pub at: *mut c_void,
}

/// One pointer: a reader of an index that is shared, or null.
#[repr(C)]
#[derive(Clone, Copy)]
pub struct Reader {
    pub at: *mut c_void,
}

/// One pointer: a range of an index, or null.
#[repr(C)]
#[derive(Clone, Copy)]
pub struct Range {
    pub at: *mut c_void,
}

/// How many values a key has, and the first one.
#[repr(C)]
#[derive(Clone, Copy, Debug, PartialEq, Eq)]
pub struct Found {
    pub count: usize,
    pub first: u64,
}

/// What is told of a neighbour.
#[repr(C)]
#[derive(Clone, Copy, Debug, PartialEq, Eq)]
pub struct Neighbour {
    pub count: usize,
    pub status: u32,
    pub cycled: bool,
}

/// What a call with many keys tells.
#[repr(C)]
#[derive(Clone, Copy, Debug, PartialEq, Eq)]
pub struct Many {
    pub count: usize,
    pub status: u32,
}

/// What an index counts.
#[repr(C)]
#[derive(Clone, Copy, Debug, PartialEq, Eq)]
pub struct Counts {
    pub keys: usize,
    pub items: usize,
    pub pruned: u64,
}

/// What an immutable index counts.
#[repr(C)]
#[derive(Clone, Copy, Debug, PartialEq, Eq)]
pub struct PositionCounts {
    pub items: usize,
    pub start: u64,
    pub pruned: u64,
}

pub const OK: u32 = 0;
pub const FULL: u32 = 2;
pub const TOO_FAR: u32 = 3;
pub const BAD_ARGUMENT: u32 = 4;

pub const UNORDERED: u32 = 0;
pub const ORDERED: u32 = 1;
pub const SEEDED: u32 = 2;
pub const UNORDERED_BY_ONE: u32 = 3;
pub const UNORDERED_BY_TWO: u32 = 4;
pub const ORDERED_BY_ONE: u32 = 5;
pub const ORDERED_BY_TWO: u32 = 6;
pub const IMMUTABLE: u32 = 7;
pub const IMMUTABLE_SEEDED: u32 = 8;

pub const NEXT: u32 = 0;
pub const PREV: u32 = 1;
pub const FIRST: u32 = 2;
pub const LAST: u32 = 3;

/// An index, a reader, a range, and a key's bytes.
type At = *mut Handle;
type ReaderAt = *mut Reader;
type RangeAt = *mut Range;
type Key = *const u8;

// Each pointer but a handle's goes with the length behind it. A line each, as in the header.
#[rustfmt::skip]
extern "C" {
    /// The version of the library: one of another doesn't link.
    #[link_name = "key_index_c_version_0_1_0"]
    pub static VERSION: u8;
    pub fn key_index_c_new(at: At, kind: u32, seed: u64) -> u32;
    pub fn key_index_c_new_immutable(at: At, kind: u32, seed: u64, start: u64, capacity: usize) -> u32;
    pub fn key_index_c_free(at: At);
    pub fn key_index_c_insert(at: At, key: Key, len: usize, value: u64) -> u32;
    pub fn key_index_c_insert_many(at: At, keys: Key, len: usize, ends: *const usize, n: usize, values: *const u64, n_again: usize) -> Many;
    pub fn key_index_c_get(at: At, key: Key, len: usize, values: *mut u64, room: usize) -> usize;
    pub fn key_index_c_get_many(at: At, keys: Key, len: usize, ends: *const usize, n: usize, values: *mut u64, room: usize, stops: *mut usize, n_again: usize) -> Many;
    pub fn key_index_c_find(at: At, key: Key, len: usize) -> Found;
    pub fn key_index_c_remove(at: At, key: Key, len: usize) -> u32;
    pub fn key_index_c_remove_value(at: At, key: Key, len: usize, value: u64) -> bool;
    pub fn key_index_c_replace_value(at: At, key: Key, len: usize, value: u64, with: u64) -> bool;
    pub fn key_index_c_keep(at: At, key: Key, len: usize, mask: Key, mask_len: usize) -> u32;
    pub fn key_index_c_counts(at: At) -> Counts;
    pub fn key_index_c_neighbour(at: At, which: u32, key: Key, len: usize, values: *mut u64, room: usize) -> Neighbour;
    pub fn key_index_c_insert_at(at: At, key: Key, len: usize, position: u64) -> u32;
    pub fn key_index_c_positions(at: At, key: Key, len: usize, positions: *mut u64, room: usize) -> usize;
    pub fn key_index_c_is_indexed(at: At, position: u64) -> bool;
    pub fn key_index_c_prune(at: At, start: u64);
    pub fn key_index_c_position_counts(at: At) -> PositionCounts;
    pub fn key_index_c_share(at: At, reader: ReaderAt) -> u32;
    pub fn key_index_c_unshare(reader: ReaderAt, at: At) -> u32;
    pub fn key_index_c_reader_clone(reader: ReaderAt, clone: ReaderAt) -> u32;
    pub fn key_index_c_reader_free(reader: ReaderAt);
    pub fn key_index_c_reader_get(reader: ReaderAt, key: Key, len: usize, values: *mut u64, room: usize) -> usize;
    pub fn key_index_c_reader_get_many(reader: ReaderAt, keys: Key, len: usize, ends: *const usize, n: usize, values: *mut u64, room: usize, stops: *mut usize, n_again: usize) -> Many;
    pub fn key_index_c_reader_find(reader: ReaderAt, key: Key, len: usize) -> Found;
    pub fn key_index_c_reader_counts(reader: ReaderAt) -> Counts;
    pub fn key_index_c_reader_neighbour(reader: ReaderAt, which: u32, key: Key, len: usize, values: *mut u64, room: usize) -> Neighbour;
    pub fn key_index_c_reader_positions(reader: ReaderAt, key: Key, len: usize, positions: *mut u64, room: usize) -> usize;
    pub fn key_index_c_reader_is_indexed(reader: ReaderAt, position: u64) -> bool;
    pub fn key_index_c_reader_position_counts(reader: ReaderAt) -> PositionCounts;
    pub fn key_index_c_range(at: At, range: RangeAt, first: usize, count: usize) -> u32;
    pub fn key_index_c_range_insert_many(range: RangeAt, keys: Key, len: usize, ends: *const usize, n: usize, values: *const u64, n_again: usize) -> Many;
    pub fn key_index_c_install(at: At, range: RangeAt) -> u32;
    pub fn key_index_c_range_free(range: RangeAt);
}

//! The types that cross: as the header declares them for C, which the compiler of the library takes too.

#[allow(dead_code)]
#[path = "../src/ffi.rs"]
mod ffi;

use ffi::{Counts, Found, Handle, Many, Neighbour, PositionCounts, Range, Reader};
use std::mem::{align_of, offset_of, size_of};

#[test]
fn the_declared_types_have_the_sizes_of_c() {
    assert_eq!((size_of::<Handle>(), align_of::<Handle>()), (8, 8));
    assert_eq!((size_of::<Reader>(), align_of::<Reader>()), (8, 8));
    assert_eq!((size_of::<Range>(), align_of::<Range>()), (8, 8));
    assert_eq!((size_of::<Found>(), align_of::<Found>()), (16, 8));
    assert_eq!((offset_of!(Found, count), offset_of!(Found, first)), (0, 8));
    assert_eq!((size_of::<Neighbour>(), align_of::<Neighbour>()), (16, 8));
    assert_eq!(
        (
            offset_of!(Neighbour, count),
            offset_of!(Neighbour, status),
            offset_of!(Neighbour, cycled)
        ),
        (0, 8, 12)
    );
    assert_eq!((size_of::<Counts>(), align_of::<Counts>()), (24, 8));
    assert_eq!(
        (
            offset_of!(Counts, keys),
            offset_of!(Counts, items),
            offset_of!(Counts, pruned)
        ),
        (0, 8, 16)
    );
    assert_eq!((size_of::<Many>(), align_of::<Many>()), (16, 8));
    assert_eq!((offset_of!(Many, count), offset_of!(Many, status)), (0, 8));
    assert_eq!(
        (size_of::<PositionCounts>(), align_of::<PositionCounts>()),
        (24, 8)
    );
    assert_eq!(
        (
            offset_of!(PositionCounts, items),
            offset_of!(PositionCounts, start),
            offset_of!(PositionCounts, pruned)
        ),
        (0, 8, 16)
    );
}

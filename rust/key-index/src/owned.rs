//! What the library made, and this crate frees.

use crate::ffi::{self, Handle, Range, Reader};
use crate::{answer, Error};
use std::mem::ManuallyDrop;
use std::ptr::null_mut;

/// What a caller keeps of the library: one pointer.
pub(crate) trait Held: Copy {
    const NONE: Self;
    const FREE: unsafe extern "C" fn(*mut Self);
}

impl Held for Handle {
    const NONE: Self = Handle { at: null_mut() };
    const FREE: unsafe extern "C" fn(*mut Self) = ffi::key_index_c_free;
}

impl Held for Reader {
    const NONE: Self = Reader { at: null_mut() };
    const FREE: unsafe extern "C" fn(*mut Self) = ffi::key_index_c_reader_free;
}

impl Held for Range {
    const NONE: Self = Range { at: null_mut() };
    const FREE: unsafe extern "C" fn(*mut Self) = ffi::key_index_c_range_free;
}

/// An index, a reader or a range, which is freed when it is dropped.
pub(crate) struct Owned<H: Held> {
    handle: H,
}

// SAFETY: the crate `key_index_c` proves that handles, readers and ranges are `Send`, and the index of the first two `Sync`; no call reads a
// range. A call that changes the index takes `&mut self`, so it is alone with it. A call that reads writes only to the handle that it gets,
// which is a copy of its own, below.
// One step is beyond the letter of the toolchain's guide. It has one call at a time get a handle, and a handle pass to another thread by a
// lock, a thread's start or join, or a sequentially consistent atomic. Here reads run at once, and an index is handed over by whatever
// orders memory, as by the release and acquire of a channel. Both need no more than that a call that reads has no store to the index; tests
// look for races in the compiled library.
unsafe impl<H: Held> Send for Owned<H> {}
unsafe impl<H: Held> Sync for Owned<H> {}

impl<H: Held> Owned<H> {
    /// What a call puts into a fresh handle, if it tells that it did.
    pub(crate) fn made(call: impl FnOnce(*mut H) -> u32) -> Result<Self, Error> {
        // SAFETY: the library never writes there. It is read so that only the library of this version links.
        assert!(unsafe { ffi::VERSION } != 0);
        let mut handle = H::NONE;
        answer(call(&mut handle))?;
        Ok(Owned { handle })
    }

    /// What a call puts into a fresh handle of another type in the place of this, if it tells that it did. Else this stays.
    fn turned<T: Held>(self, call: impl FnOnce(*mut H, *mut T) -> u32) -> Result<Owned<T>, Self> {
        let mut from = ManuallyDrop::new(self);
        let mut handle = T::NONE;
        if call(&mut from.handle, &mut handle) == ffi::OK {
            Ok(Owned { handle })
        } else {
            Err(ManuallyDrop::into_inner(from))
        }
    }

    /// The handle for a call that changes the index.
    #[inline]
    pub(crate) fn at(&mut self) -> *mut H {
        &mut self.handle
    }

    /// Makes a call that only reads. It takes the index out of its handle and puts it back, so it gets a copy.
    #[inline]
    pub(crate) fn read<T>(&self, call: impl FnOnce(*mut H) -> T) -> T {
        let mut copy = self.handle;
        call(&mut copy)
    }
}

impl Owned<Handle> {
    /// The first reader of the index, or the index if there is no memory.
    pub(crate) fn shared(self) -> Result<Owned<Reader>, Self> {
        // SAFETY: the index was made, and the reader is fresh.
        self.turned(|index, reader| unsafe { ffi::key_index_c_share(index, reader) })
    }
}

impl Owned<Reader> {
    /// The index, if this is its only reader, or the reader.
    pub(crate) fn unshared(self) -> Result<Owned<Handle>, Self> {
        // SAFETY: the reader was made, and the handle is fresh.
        self.turned(|reader, index| unsafe { ffi::key_index_c_unshare(reader, index) })
    }

    /// One more reader of the index.
    pub(crate) fn another(&self) -> Result<Self, Error> {
        // SAFETY: the reader was made, and the clone is fresh.
        Self::made(|clone| {
            self.read(|reader| unsafe { ffi::key_index_c_reader_clone(reader, clone) })
        })
    }
}

impl<H: Held> Drop for Owned<H> {
    fn drop(&mut self) {
        // SAFETY: it was made and is freed here alone.
        unsafe { H::FREE(self.at()) }
    }
}

//! The values of one key.

use std::iter::FusedIterator;

/// How many values a first call for several has room for.
const FEW: usize = 8;

/// The values of one key, in list order. They are copies, so the index may change meanwhile. Two and more have memory of their own.
#[derive(Clone, Debug)]
pub struct Values {
    // A sole value stays in a register: look-ups one after another overlap.
    one: u64,
    several: Option<Box<[u64]>>,
    left: usize,
}

impl Values {
    /// At most one value.
    #[inline]
    pub(crate) fn at_most_one(value: u64, len: usize) -> Values {
        Values {
            one: value,
            several: None,
            left: len,
        }
    }

    /// The values that are left.
    #[inline]
    #[must_use]
    pub fn as_slice(&self) -> &[u64] {
        let all = match &self.several {
            None => std::slice::from_ref(&self.one),
            Some(several) => several,
        };
        &all[all.len() - self.left.min(all.len())..]
    }
}

/// What a call writes to a place with room for so many, as far as that goes, where it tells how many there are.
pub(crate) fn written(mut call: impl FnMut(*mut u64, usize) -> usize) -> Values {
    let mut few = [0; FEW];
    let len = call(few.as_mut_ptr(), FEW);
    if len < 2 {
        return Values::at_most_one(few[0], len);
    }
    let several: Box<[u64]> = if len > FEW {
        let mut many = vec![0; len];
        call(many.as_mut_ptr(), len);
        many.into()
    } else {
        few[..len].into()
    };
    Values {
        one: 0,
        several: Some(several),
        left: len,
    }
}

impl Iterator for Values {
    type Item = u64;

    #[inline]
    fn next(&mut self) -> Option<u64> {
        let value = match &self.several {
            _ if self.left == 0 => return None,
            None => self.one,
            Some(several) => several[several.len() - self.left],
        };
        self.left -= 1;
        Some(value)
    }

    #[inline]
    fn size_hint(&self) -> (usize, Option<usize>) {
        (self.left, Some(self.left))
    }
}

impl ExactSizeIterator for Values {}

impl FusedIterator for Values {}

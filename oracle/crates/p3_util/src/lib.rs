//! Stands in for p3-util: logarithms to base 2.

#![no_std]

/// The logarithm of a power of two; another number panics.
#[inline]
pub const fn log2_strict_usize(n: usize) -> usize {
    assert!(n.is_power_of_two(), "not a power of two");
    n.trailing_zeros() as usize
}

/// The least k for which 2^k is at least n.
#[inline]
pub const fn log2_ceil_usize(n: usize) -> usize {
    n.next_power_of_two().trailing_zeros() as usize
}

#[cfg(test)]
mod tests {
    use super::*;

    #[test]
    fn logarithms() {
        assert_eq!([1, 2, 1 << 20].map(log2_strict_usize), [0, 1, 20]);
        assert_eq!([0, 1, 2, 3, 4, 5].map(log2_ceil_usize), [0, 0, 1, 2, 2, 3]);
    }

    #[test]
    #[should_panic]
    fn strict() {
        log2_strict_usize(12);
    }
}

//! Stands in for the crate foldhash, which is not among Debian's packages.
//!
//! The hasher decides no order in what the Rust computes: its hash maps are only looked up by key, and an `IndexMap` keeps
//! the order of insertion. So any hasher gives the same answers. This one multiplies and folds, as foldhash does, so that
//! it costs about as little.

pub mod fast {
    use std::hash::{BuildHasher, Hasher};

    // an odd number with its bits well spread
    const MULTIPLIER: u64 = 0xf39c_c060_5ced_c835;

    #[derive(Clone, Copy, Debug, Default)]
    pub struct RandomState;

    impl BuildHasher for RandomState {
        type Hasher = FoldHasher;

        #[inline]
        fn build_hasher(&self) -> FoldHasher {
            FoldHasher { state: 0x243f_6a88_85a3_08d3 }
        }
    }

    #[derive(Clone)]
    pub struct FoldHasher {
        state: u64,
    }

    impl FoldHasher {
        #[inline]
        fn fold(&mut self, word: u64) {
            let product = u128::from(self.state ^ word) * u128::from(MULTIPLIER);
            self.state = (product as u64) ^ ((product >> 64) as u64);
        }
    }

    impl Hasher for FoldHasher {
        #[inline]
        fn finish(&self) -> u64 {
            self.state
        }

        #[inline]
        fn write(&mut self, bytes: &[u8]) {
            for &byte in bytes {
                self.fold(u64::from(byte));
            }
        }

        #[inline]
        fn write_u32(&mut self, word: u32) {
            self.fold(u64::from(word));
        }

        #[inline]
        fn write_u64(&mut self, word: u64) {
            self.fold(word);
        }

        #[inline]
        fn write_usize(&mut self, word: usize) {
            self.fold(word as u64);
        }
    }
}

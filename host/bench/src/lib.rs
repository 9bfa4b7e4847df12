//! The meters that the proved ones are compared with: the same rules in plain C, and a Count-Min with counters of 64 bits.

use meter::Answer;

mod ffi {
    extern "C" {
        pub fn salsa_clear(d: usize, w: usize, memory: *mut u8, memory_len: usize, place: *mut u64, figure: *mut u64) -> u32;
        pub fn salsa_update(
            d: usize,
            w: usize,
            memory: *mut u8,
            memory_len: usize,
            key: *const u8,
            key_len: usize,
            amount: u32,
            place: *mut u64,
            figure: *mut u64,
        ) -> u32;
        pub fn salsa_estimate(
            d: usize,
            w: usize,
            memory: *const u8,
            memory_len: usize,
            key: *const u8,
            key_len: usize,
            place: *mut u64,
            figure: *mut u64,
        ) -> u32;
        pub fn salsa_unite(
            d: usize,
            w: usize,
            memory: *mut u8,
            memory_len: usize,
            source: *const u8,
            source_len: usize,
            place: *mut u64,
            figure: *mut u64,
        ) -> u32;
        pub fn salsa_image_write(
            d: usize,
            w: usize,
            memory: *const u8,
            memory_len: usize,
            words: *mut u32,
            words_len: usize,
            place: *mut u64,
            figure: *mut u64,
        ) -> u32;
        pub fn salsa_image_read(
            d: usize,
            w: usize,
            memory: *mut u8,
            memory_len: usize,
            words: *const u32,
            words_len: usize,
            place: *mut u64,
            figure: *mut u64,
        ) -> u32;
        pub fn salsa_feed_record(
            d: usize,
            w: usize,
            memory: *mut u8,
            memory_len: usize,
            before: u64,
            words: *const u32,
            words_len: usize,
            place: *mut u64,
            figure: *mut u64,
        ) -> u32;
        pub fn salsa_signed_clear(
            d: usize,
            w: usize,
            memory: *mut u8,
            memory_len: usize,
            place: *mut u64,
            figure: *mut u64,
        ) -> u32;
        pub fn salsa_signed_update(
            d: usize,
            w: usize,
            memory: *mut u8,
            memory_len: usize,
            key: *const u8,
            key_len: usize,
            amount: i32,
            place: *mut u64,
            figure: *mut u64,
        ) -> u32;
        pub fn salsa_signed_estimate(
            d: usize,
            w: usize,
            memory: *const u8,
            memory_len: usize,
            key: *const u8,
            key_len: usize,
            place: *mut u64,
            figure: *mut i64,
        ) -> u32;
        pub fn salsa_signed_unite(
            d: usize,
            w: usize,
            memory: *mut u8,
            memory_len: usize,
            source: *const u8,
            source_len: usize,
            place: *mut u64,
            figure: *mut u64,
        ) -> u32;
        pub fn salsa_signed_subtract(
            d: usize,
            w: usize,
            memory: *mut u8,
            memory_len: usize,
            source: *const u8,
            source_len: usize,
            place: *mut u64,
            figure: *mut u64,
        ) -> u32;
        pub fn hash_lanes(slots: *mut u32, d: usize, w: usize, key: *const u8, key_len: usize);
        pub fn hash_pairs(slots: *mut u32, d: usize, w: usize, key: *const u8, key_len: usize);
        pub fn countmin_update(d: usize, w: usize, counters: *mut u64, key: *const u8, key_len: usize, amount: u32);
        pub fn countmin_estimate(d: usize, w: usize, counters: *const u64, key: *const u8, key_len: usize) -> u64;
        pub fn countmin_unite(d: usize, w: usize, counters: *mut u64, source: *const u64);
    }
}

#[inline]
fn call<F: Default>(f: impl FnOnce(*mut u64, *mut F) -> u32) -> Answer<F> {
    let (mut place, mut figure) = (0, F::default());
    let number = f(&mut place, &mut figure);
    Answer { number, place, figure }
}

/// The same rules in plain C, in the shape of the proved calls.
pub mod plain {
    use super::{call, ffi};
    use meter::Answer;

    pub fn clear(d: usize, w: usize, memory: &mut [u8]) -> Answer {
        call(|p, f| unsafe { ffi::salsa_clear(d, w, memory.as_mut_ptr(), memory.len(), p, f) })
    }

    #[inline]
    pub fn update(d: usize, w: usize, memory: &mut [u8], key: &[u8], amount: u32) -> Answer {
        call(|p, f| unsafe { ffi::salsa_update(d, w, memory.as_mut_ptr(), memory.len(), key.as_ptr(), key.len(), amount, p, f) })
    }

    #[inline]
    pub fn estimate(d: usize, w: usize, memory: &[u8], key: &[u8]) -> Answer {
        call(|p, f| unsafe { ffi::salsa_estimate(d, w, memory.as_ptr(), memory.len(), key.as_ptr(), key.len(), p, f) })
    }

    pub fn unite(d: usize, w: usize, memory: &mut [u8], source: &[u8]) -> Answer {
        call(|p, f| unsafe { ffi::salsa_unite(d, w, memory.as_mut_ptr(), memory.len(), source.as_ptr(), source.len(), p, f) })
    }

    pub fn image_write(d: usize, w: usize, memory: &[u8], words: &mut [u32]) -> Answer {
        call(|p, f| unsafe { ffi::salsa_image_write(d, w, memory.as_ptr(), memory.len(), words.as_mut_ptr(), words.len(), p, f) })
    }

    pub fn image_read(d: usize, w: usize, memory: &mut [u8], words: &[u32]) -> Answer {
        call(|p, f| unsafe { ffi::salsa_image_read(d, w, memory.as_mut_ptr(), memory.len(), words.as_ptr(), words.len(), p, f) })
    }

    #[inline]
    pub fn feed_record(d: usize, w: usize, memory: &mut [u8], before: u64, words: &[u32]) -> Answer {
        call(|p, f| unsafe {
            ffi::salsa_feed_record(
                d,
                w,
                memory.as_mut_ptr(),
                memory.len(),
                before,
                words.as_ptr(),
                words.len(),
                p,
                f,
            )
        })
    }

    pub fn signed_clear(d: usize, w: usize, memory: &mut [u8]) -> Answer {
        call(|p, f| unsafe { ffi::salsa_signed_clear(d, w, memory.as_mut_ptr(), memory.len(), p, f) })
    }

    #[inline]
    pub fn signed_update(d: usize, w: usize, memory: &mut [u8], key: &[u8], amount: i32) -> Answer {
        call(|p, f| unsafe {
            ffi::salsa_signed_update(d, w, memory.as_mut_ptr(), memory.len(), key.as_ptr(), key.len(), amount, p, f)
        })
    }

    #[inline]
    pub fn signed_estimate(d: usize, w: usize, memory: &[u8], key: &[u8]) -> Answer<i64> {
        call(|p, f| unsafe { ffi::salsa_signed_estimate(d, w, memory.as_ptr(), memory.len(), key.as_ptr(), key.len(), p, f) })
    }

    pub fn signed_unite(d: usize, w: usize, memory: &mut [u8], source: &[u8]) -> Answer {
        call(|p, f| unsafe {
            ffi::salsa_signed_unite(d, w, memory.as_mut_ptr(), memory.len(), source.as_ptr(), source.len(), p, f)
        })
    }

    pub fn signed_subtract(d: usize, w: usize, memory: &mut [u8], source: &[u8]) -> Answer {
        call(|p, f| unsafe {
            ffi::salsa_signed_subtract(d, w, memory.as_mut_ptr(), memory.len(), source.as_ptr(), source.len(), p, f)
        })
    }
}

/// The hash alone: the slots of a key in the first d rows of w, d up to 8 and w a power of two from 2 on.
pub mod hash {
    use super::ffi;

    fn valid(d: usize, w: usize) -> bool {
        (1..=8).contains(&d) && w.is_power_of_two() && (2..=meter::LARGEST_WIDTH).contains(&w)
    }

    /// As the plain C version does it: four rows side by side.
    #[inline]
    pub fn lanes(slots: &mut [u32; 8], d: usize, w: usize, key: &[u8]) {
        assert!(valid(d, w));
        unsafe { ffi::hash_lanes(slots.as_mut_ptr(), d, w, key.as_ptr(), key.len()) };
    }

    /// By hand in SSE2: two rows to a vector register.
    #[inline]
    pub fn pairs(slots: &mut [u32; 8], d: usize, w: usize, key: &[u8]) {
        assert!(valid(d, w));
        unsafe { ffi::hash_pairs(slots.as_mut_ptr(), d, w, key.as_ptr(), key.len()) };
    }
}

/// Traffic made up from a seed, the same on every machine.
pub mod traffic {
    /// SplitMix64.
    pub struct Rng(pub u64);

    impl Rng {
        pub fn draw(&mut self) -> u64 {
            self.0 = self.0.wrapping_add(0x9e37_79b9_7f4a_7c15);
            let mut z = self.0;
            z = (z ^ (z >> 30)).wrapping_mul(0xbf58_476d_1ce4_e5b9);
            z = (z ^ (z >> 27)).wrapping_mul(0x94d0_49bb_1331_11eb);
            z ^ (z >> 31)
        }

        pub fn below(&mut self, n: usize) -> usize {
            (self.draw() % n as u64) as usize
        }
    }

    /// Ranks, from 0, by Zipf's law with exponent 1.
    pub struct Zipf(Vec<f64>);

    impl Zipf {
        pub fn new(ranks: usize) -> Zipf {
            let mut sum = 0.0;
            let sums = (1..=ranks).map(|rank| {
                sum += 1.0 / rank as f64;
                sum
            });
            Zipf(sums.collect())
        }

        pub fn pick(&self, rng: &mut Rng) -> usize {
            let last = self.0.len() - 1;
            let x = (rng.draw() >> 11) as f64 / (1u64 << 53) as f64 * self.0[last];
            self.0.partition_point(|&s| s < x).min(last)
        }
    }

    /// A packet's bytes, 64 to 1,500.
    pub fn packet(rng: &mut Rng) -> u32 {
        64 + rng.below(1_437) as u32
    }
}

/// A Count-Min with counters of 64 bits, d rows of w.
pub struct CountMin {
    d: usize,
    w: usize,
    counters: Vec<u64>,
}

impl CountMin {
    pub fn new(d: usize, w: usize) -> CountMin {
        assert!((1..=8).contains(&d) && w.is_power_of_two() && (2..=meter::LARGEST_WIDTH).contains(&w));
        CountMin {
            d,
            w,
            counters: vec![0; d * w],
        }
    }

    pub fn clear(&mut self) {
        self.counters.fill(0);
    }

    #[inline]
    pub fn update(&mut self, key: &[u8], amount: u32) {
        unsafe { ffi::countmin_update(self.d, self.w, self.counters.as_mut_ptr(), key.as_ptr(), key.len(), amount) }
    }

    #[inline]
    pub fn estimate(&self, key: &[u8]) -> u64 {
        unsafe { ffi::countmin_estimate(self.d, self.w, self.counters.as_ptr(), key.as_ptr(), key.len()) }
    }

    pub fn unite(&mut self, source: &CountMin) {
        assert!(self.d == source.d && self.w == source.w);
        unsafe { ffi::countmin_unite(self.d, self.w, self.counters.as_mut_ptr(), source.counters.as_ptr()) }
    }
}

//! The functions of include/meter.h. No compiler holds these lines against it; tests/declarations.rs does.

extern "C" {
    pub fn meter_clear(d: usize, w: usize, memory: *mut u8, memory_len: usize, place: *mut u64, figure: *mut u64) -> u32;
    pub fn meter_update(
        d: usize,
        w: usize,
        memory: *mut u8,
        memory_len: usize,
        key: *const u8,
        key_len: usize,
        amount: u32,
        place: *mut u64,
        figure: *mut u64,
    ) -> u32;
    pub fn meter_estimate(
        d: usize,
        w: usize,
        memory: *const u8,
        memory_len: usize,
        key: *const u8,
        key_len: usize,
        place: *mut u64,
        figure: *mut u64,
    ) -> u32;
    pub fn meter_widest(d: usize, w: usize, memory: *const u8, memory_len: usize, place: *mut u64, figure: *mut u64) -> u32;
    pub fn meter_unite(
        d: usize,
        w: usize,
        memory: *mut u8,
        memory_len: usize,
        source: *const u8,
        source_len: usize,
        place: *mut u64,
        figure: *mut u64,
    ) -> u32;
    pub fn meter_pack(m0: u8, m1: u8, m2: u8, m3: u8, place: *mut u64, figure: *mut u64) -> u32;
    pub fn meter_unpack(code: u32, merges: *mut u8, place: *mut u64, figure: *mut u64) -> u32;
    pub fn meter_image_write(
        d: usize,
        w: usize,
        memory: *const u8,
        memory_len: usize,
        words: *mut u32,
        words_len: usize,
        place: *mut u64,
        figure: *mut u64,
    ) -> u32;
    pub fn meter_image_read(
        d: usize,
        w: usize,
        memory: *mut u8,
        memory_len: usize,
        words: *const u32,
        words_len: usize,
        place: *mut u64,
        figure: *mut u64,
    ) -> u32;
    pub fn meter_feed_head(words: *const u32, words_len: usize, place: *mut u64, figure: *mut u64) -> u32;
    pub fn meter_feed_record(
        d: usize,
        w: usize,
        memory: *mut u8,
        memory_len: usize,
        before: u64,
        words: *const u32,
        words_len: usize,
        place: *mut u64,
        figure: *mut u64,
    ) -> u32;
    pub fn meter_feed_taken(words: *const u32, words_len: usize) -> usize;
    pub fn meter_watch_clear(list: *mut u8, list_len: usize, place: *mut u64, figure: *mut u64) -> u32;
    pub fn meter_watch_update(
        d: usize,
        w: usize,
        memory: *mut u8,
        memory_len: usize,
        list: *mut u8,
        list_len: usize,
        key: *const u8,
        key_len: usize,
        amount: u32,
        threshold: u64,
        place: *mut u64,
        figure: *mut u64,
    ) -> u32;
    pub fn meter_watch_remove(
        list: *mut u8,
        list_len: usize,
        key: *const u8,
        key_len: usize,
        place: *mut u64,
        figure: *mut u64,
    ) -> u32;
    pub fn meter_signed_clear(d: usize, w: usize, memory: *mut u8, memory_len: usize, place: *mut u64, figure: *mut u64) -> u32;
    pub fn meter_signed_update(
        d: usize,
        w: usize,
        memory: *mut u8,
        memory_len: usize,
        key: *const u8,
        key_len: usize,
        amount: i32,
        place: *mut u64,
        figure: *mut u64,
    ) -> u32;
    pub fn meter_signed_estimate(
        d: usize,
        w: usize,
        memory: *const u8,
        memory_len: usize,
        key: *const u8,
        key_len: usize,
        place: *mut u64,
        figure: *mut i64,
    ) -> u32;
    pub fn meter_signed_unite(
        d: usize,
        w: usize,
        memory: *mut u8,
        memory_len: usize,
        source: *const u8,
        source_len: usize,
        place: *mut u64,
        figure: *mut u64,
    ) -> u32;
    pub fn meter_signed_subtract(
        d: usize,
        w: usize,
        memory: *mut u8,
        memory_len: usize,
        source: *const u8,
        source_len: usize,
        place: *mut u64,
        figure: *mut u64,
    ) -> u32;
}

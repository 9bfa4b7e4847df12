//! The proved traffic meter, for Rust.
//!
//! [`Meter`] owns its memory, its depth `d` (rows) and its width `w` (slots of a row). Its methods give a [`Result`] whose error,
//! [`Refused`], says in words why a call was refused; a call that is refused changes nothing.
//!
//! ```
//! use meter::{Meter, Reason};
//!
//! let mut meter = Meter::new(4, 1024)?;
//! meter.update(b"tenant-17", 1_500)?;
//! meter.update(b"tenant-17", 64)?;
//! assert_eq!(meter.estimate(b"tenant-17")?, 1_564);
//!
//! // A key has 1 to 64 bytes.
//! let refused = meter.update(b"", 1).unwrap_err();
//! assert_eq!(refused.reason, Reason::KeyLength);
//! assert_eq!(refused.to_string(), "the key length is not 1 to 64 (number 4, place 0)");
//! # Ok::<(), meter::Refused>(())
//! ```
//!
//! A [`WatchList`] beside a meter keeps the keys that got heavy. A [`SignedMeter`] counts amounts that also go down: what changed from
//! one week to the next.
//!
//! The plain calls beside these are those of the proved library, one for one: they lend it a memory of exactly [`size`] bytes, and the
//! caller tells the depth and width that it was cleared with. They take any depth, any width and any content of what is lent. The
//! functions behind them are proved to do their work or to refuse it with a reason; the wrapper only passes slices on.
//!
//! ```
//! use meter::{clear, estimate, image_read, image_write, most_image_words, size, update, widest};
//!
//! let (d, w) = (4, 1024);
//! let mut memory = vec![0xaa; size(d, w).unwrap()];
//! clear(d, w, &mut memory).result()?;
//! update(d, w, &mut memory, b"tenant-17", 1_564).result()?;
//! assert_eq!(estimate(d, w, &memory, b"tenant-17").result()?, 1_564);
//! assert_eq!(widest(d, w, &memory).result()?, 1);
//!
//! let mut words = vec![0; most_image_words(d, w).unwrap()];
//! let count = image_write(d, w, &memory, &mut words).result()? as usize;
//! let mut copy = vec![0; memory.len()];
//! image_read(d, w, &mut copy, &words[..count]).result()?;
//! assert_eq!(copy, memory);
//! # Ok::<(), meter::Refused>(())
//! ```
#![warn(missing_docs)]

mod answer;
mod ffi;
mod meter;
mod signed;
mod watch;

pub use answer::{Answer, Reason, Refused};
pub use meter::Meter;
pub use signed::SignedMeter;
pub use watch::{Entries, Entry, WatchList, WATCH_PLACES, WATCH_SIZE};

/// The largest width of a meter: how many slots a row has at most.
pub const LARGEST_WIDTH: usize = 16_384;

/// The length of a meter's memory, if there is such a meter.
#[must_use]
pub fn size(d: usize, w: usize) -> Option<usize> {
    let valid = (1..=8).contains(&d) && (32..=LARGEST_WIDTH).contains(&w) && w.is_power_of_two();
    valid.then(|| d * (w + w / 8))
}

/// The most words that an image of such a meter has, if there is such a meter: a head, a layout word for every 32 slots, a word for
/// every slot and an end.
#[must_use]
pub fn most_image_words(d: usize, w: usize) -> Option<usize> {
    size(d, w).map(|_| d * w + d * w / 32 + 2)
}

/// The depth and width in the figure of an accepted [`feed_head`]: `d` in the low four bits, log2 `w` in the next five.
///
/// ```
/// assert_eq!(meter::head_geometry(0x51), (1, 32));
/// ```
#[must_use]
pub fn head_geometry(payload: u64) -> (usize, usize) {
    ((payload % 16) as usize, 1 << (payload / 16 % 32))
}

// Every call below lends the library what its slices point to, for the time of the call and no longer: pointer and length of a
// slice are valid together, also of an empty one, whose pointer is not null and is not followed. A `&mut` slice overlaps no other.

#[inline]
fn call(f: impl FnOnce(*mut u64, *mut u64) -> u32) -> Answer {
    call_from(u64::MAX, f)
}

/// A call whose figure is of any type. It is written by every call, like the place, whatever it was.
#[inline]
fn call_from<F>(mut figure: F, f: impl FnOnce(*mut u64, *mut F) -> u32) -> Answer<F> {
    let mut place = u64::MAX;
    let number = f(&mut place, &mut figure);
    Answer { number, place, figure }
}

/// Sets every byte of a memory to 0.
#[must_use = "the call may be refused"]
pub fn clear(d: usize, w: usize, memory: &mut [u8]) -> Answer {
    call(|place, figure| unsafe { ffi::meter_clear(d, w, memory.as_mut_ptr(), memory.len(), place, figure) })
}

/// Adds an amount to the key's counter in each row.
#[inline]
#[must_use = "the call may be refused"]
pub fn update(d: usize, w: usize, memory: &mut [u8], key: &[u8], amount: u32) -> Answer {
    call(|place, figure| unsafe {
        ffi::meter_update(
            d,
            w,
            memory.as_mut_ptr(),
            memory.len(),
            key.as_ptr(),
            key.len(),
            amount,
            place,
            figure,
        )
    })
}

/// The least figure of the key's counters.
#[inline]
#[must_use = "the call may be refused"]
pub fn estimate(d: usize, w: usize, memory: &[u8], key: &[u8]) -> Answer {
    call(|place, figure| unsafe {
        ffi::meter_estimate(d, w, memory.as_ptr(), memory.len(), key.as_ptr(), key.len(), place, figure)
    })
}

/// The largest level of any counter, 0 to 3: its counters have up to 8, 16, 32 or 64 bits.
#[must_use = "the call may be refused"]
pub fn widest(d: usize, w: usize, memory: &[u8]) -> Answer {
    call(|place, figure| unsafe { ffi::meter_widest(d, w, memory.as_ptr(), memory.len(), place, figure) })
}

/// Adds a source meter of the same depth and width into a meter.
#[must_use = "the call may be refused"]
pub fn unite(d: usize, w: usize, memory: &mut [u8], source: &[u8]) -> Answer {
    call(|place, figure| unsafe {
        ffi::meter_unite(
            d,
            w,
            memory.as_mut_ptr(),
            memory.len(),
            source.as_ptr(),
            source.len(),
            place,
            figure,
        )
    })
}

/// The layout code of four merge bytes.
#[must_use = "the call may be refused"]
pub fn pack(merges: [u8; 4]) -> Answer {
    let [m0, m1, m2, m3] = merges;
    call(|place, figure| unsafe { ffi::meter_pack(m0, m1, m2, m3, place, figure) })
}

/// The four merge bytes of a layout code; all 0 when refused.
#[must_use = "the call may be refused"]
pub fn unpack(code: u32) -> (Answer, [u8; 4]) {
    // All four are written, also when refused.
    let mut merges = [0xff; 4];
    let answer = call(|place, figure| unsafe { ffi::meter_unpack(code, merges.as_mut_ptr(), place, figure) });
    (answer, merges)
}

/// Writes a meter's image; words past it stay. The figure is the count of its words.
#[must_use = "the call may be refused"]
pub fn image_write(d: usize, w: usize, memory: &[u8], words: &mut [u32]) -> Answer {
    call(|place, figure| unsafe {
        ffi::meter_image_write(
            d,
            w,
            memory.as_ptr(),
            memory.len(),
            words.as_mut_ptr(),
            words.len(),
            place,
            figure,
        )
    })
}

/// Restores a meter from its image. The figure is the count of its words.
#[must_use = "the call may be refused"]
pub fn image_read(d: usize, w: usize, memory: &mut [u8], words: &[u32]) -> Answer {
    call(|place, figure| unsafe {
        ffi::meter_image_read(
            d,
            w,
            memory.as_mut_ptr(),
            memory.len(),
            words.as_ptr(),
            words.len(),
            place,
            figure,
        )
    })
}

/// The head of a feed: the first of the words. The figure is its payload, d in the low four bits and log2 w in the next five.
#[must_use = "the call may be refused"]
pub fn feed_head(words: &[u32]) -> Answer {
    call(|place, figure| unsafe { ffi::meter_feed_head(words.as_ptr(), words.len(), place, figure) })
}

/// Carries out the record or the end of a feed that the words start with, after so many words of the feed. The figure of an asking
/// record is the estimate.
#[inline]
#[must_use = "the call may be refused"]
pub fn feed_record(d: usize, w: usize, memory: &mut [u8], before: u64, words: &[u32]) -> Answer {
    call(|place, figure| unsafe {
        ffi::meter_feed_record(
            d,
            w,
            memory.as_mut_ptr(),
            memory.len(),
            before,
            words.as_ptr(),
            words.len(),
            place,
            figure,
        )
    })
}

/// How many words the record or the end takes that the words start with, so that the next record is found behind it. Of one with a
/// faulty word it says nothing.
#[inline]
#[must_use = "it does nothing else"]
pub fn feed_taken(words: &[u32]) -> usize {
    unsafe { ffi::meter_feed_taken(words.as_ptr(), words.len()) }
}

/// Sets every byte of a watch list to 0: no key, no mark.
#[must_use = "the call may be refused"]
pub fn watch_clear(list: &mut [u8]) -> Answer {
    call(|place, figure| unsafe { ffi::meter_watch_clear(list.as_mut_ptr(), list.len(), place, figure) })
}

/// An update of a meter that a watch list takes note of, or no change of either: a listed key's estimate is renewed, and one that is
/// not listed joins if its estimate is now at or above the threshold, or sets the mark where no place is free.
#[inline]
#[must_use = "the call may be refused"]
pub fn watch_update(d: usize, w: usize, memory: &mut [u8], list: &mut [u8], key: &[u8], amount: u32, threshold: u64) -> Answer {
    call(|place, figure| unsafe {
        ffi::meter_watch_update(
            d,
            w,
            memory.as_mut_ptr(),
            memory.len(),
            list.as_mut_ptr(),
            list.len(),
            key.as_ptr(),
            key.len(),
            amount,
            threshold,
            place,
            figure,
        )
    })
}

/// Takes a key off a watch list; one that is not listed changes nothing.
#[must_use = "the call may be refused"]
pub fn watch_remove(list: &mut [u8], key: &[u8]) -> Answer {
    call(|place, figure| unsafe {
        ffi::meter_watch_remove(list.as_mut_ptr(), list.len(), key.as_ptr(), key.len(), place, figure)
    })
}

/// Sets every byte of a signed meter's memory to 0. Its depth is odd.
#[must_use = "the call may be refused"]
pub fn signed_clear(d: usize, w: usize, memory: &mut [u8]) -> Answer {
    call(|place, figure| unsafe { ffi::meter_signed_clear(d, w, memory.as_mut_ptr(), memory.len(), place, figure) })
}

/// Adds an amount, times the key's sign in the row, to the key's counter in each row of a signed meter.
#[inline]
#[must_use = "the call may be refused"]
pub fn signed_update(d: usize, w: usize, memory: &mut [u8], key: &[u8], amount: i32) -> Answer {
    call(|place, figure| unsafe {
        ffi::meter_signed_update(
            d,
            w,
            memory.as_mut_ptr(),
            memory.len(),
            key.as_ptr(),
            key.len(),
            amount,
            place,
            figure,
        )
    })
}

/// The median of the key's counters in a signed meter, each times the key's sign in its row.
#[inline]
#[must_use = "the call may be refused"]
pub fn signed_estimate(d: usize, w: usize, memory: &[u8], key: &[u8]) -> Answer<i64> {
    call_from(i64::MAX, |place, figure| unsafe {
        ffi::meter_signed_estimate(d, w, memory.as_ptr(), memory.len(), key.as_ptr(), key.len(), place, figure)
    })
}

/// Adds a source, a signed meter of the same depth and width, into a signed meter.
#[must_use = "the call may be refused"]
pub fn signed_unite(d: usize, w: usize, memory: &mut [u8], source: &[u8]) -> Answer {
    call(|place, figure| unsafe {
        ffi::meter_signed_unite(
            d,
            w,
            memory.as_mut_ptr(),
            memory.len(),
            source.as_ptr(),
            source.len(),
            place,
            figure,
        )
    })
}

/// Takes a source, a signed meter of the same depth and width, away from a signed meter.
#[must_use = "the call may be refused"]
pub fn signed_subtract(d: usize, w: usize, memory: &mut [u8], source: &[u8]) -> Answer {
    call(|place, figure| unsafe {
        ffi::meter_signed_subtract(
            d,
            w,
            memory.as_mut_ptr(),
            memory.len(),
            source.as_ptr(),
            source.len(),
            place,
            figure,
        )
    })
}

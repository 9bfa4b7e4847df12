//! A signed meter that knows its own depth and width.

use crate::{Reason, Refused};
use std::fmt;

/// A meter of amounts that go up and down, a Count Sketch: it owns its memory and keeps the depth `d`, which is odd, and the width `w`
/// that it was made with, so that no call can be told others.
///
/// An estimate is the median over the rows, each of which gives the other keys of a counter signs of its own; it can be above the key's
/// total or below. Meters are added to one another and taken away from one another, so that the difference of two weeks tells which
/// keys changed.
///
/// Its merge bytes are valid and no counter holds minus zero: a memory that breaks the rule is refused before there is a meter, and
/// every call keeps it. So the only refusals are those that each method names. A method that is refused has changed nothing.
///
/// ```
/// use meter::{Reason, SignedMeter};
///
/// let mut last_week = SignedMeter::new(5, 1024)?;
/// last_week.update(b"tenant-17", 1_500)?;
/// last_week.update(b"tenant-18", 40)?;
///
/// let mut change = SignedMeter::new(5, 1024)?;
/// change.update(b"tenant-17", 900)?;
/// change.update(b"tenant-18", 45)?;
/// change.subtract(&last_week)?;
/// assert_eq!(change.estimate(b"tenant-17")?, -600);
/// assert_eq!(change.estimate(b"tenant-18")?, 5);
///
/// // A meter less itself: a copy is lent.
/// change.subtract(&change.clone())?;
/// assert_eq!(change.estimate(b"tenant-17")?, 0);
///
/// // A median needs an odd number of rows.
/// assert_eq!(SignedMeter::new(4, 1024).unwrap_err().reason, Reason::EvenDepth);
/// # Ok::<(), meter::Refused>(())
/// ```
#[derive(Clone, PartialEq, Eq)]
pub struct SignedMeter {
    d: usize,
    w: usize,
    bytes: Vec<u8>,
}

impl SignedMeter {
    /// A clear signed meter of `d` rows, 1, 3, 5 or 7, of `w` slots.
    ///
    /// Refused with [`Reason::Depth`], [`Reason::Width`] and [`Reason::EvenDepth`].
    ///
    /// ```
    /// # use meter::{Reason, SignedMeter};
    /// assert_eq!(SignedMeter::new(1, 32)?.bytes(), [0; 36]);
    /// assert_eq!(SignedMeter::new(9, 32).unwrap_err().reason, Reason::Depth);
    /// assert_eq!(SignedMeter::new(2, 33).unwrap_err().reason, Reason::Width);
    /// assert_eq!(SignedMeter::new(2, 32).unwrap_err().reason, Reason::EvenDepth);
    /// # Ok::<(), meter::Refused>(())
    /// ```
    pub fn new(d: usize, w: usize) -> Result<SignedMeter, Refused> {
        // Where there is no such meter, the call says which of the two is wrong.
        let mut bytes = vec![0; crate::size(d, w).unwrap_or(0)];
        crate::signed_clear(d, w, &mut bytes).result()?;
        Ok(SignedMeter { d, w, bytes })
    }

    /// The signed meter whose memory the bytes are. Nothing in them says `d`, `w` and that it is signed: they have to be those of a
    /// signed meter of this depth and width.
    ///
    /// Refused with [`Reason::Depth`], [`Reason::Width`], [`Reason::EvenDepth`], [`Reason::Length`], and, of any group,
    /// [`Reason::Content`] and [`Reason::MinusZero`].
    ///
    /// ```
    /// # use meter::{Reason, SignedMeter};
    /// let mut bytes = vec![0; 36];
    /// bytes[7] = 0x81; // -1
    /// assert!(SignedMeter::from_bytes(1, 32, bytes.clone()).is_ok());
    /// bytes[8] = 0x80;
    /// assert_eq!(SignedMeter::from_bytes(1, 32, bytes.clone()).unwrap_err().reason, Reason::MinusZero);
    /// bytes[35] = 0x80;
    /// assert_eq!(SignedMeter::from_bytes(1, 32, bytes).unwrap_err().reason, Reason::Content);
    /// ```
    pub fn from_bytes(d: usize, w: usize, bytes: Vec<u8>) -> Result<SignedMeter, Refused> {
        // The call that adds a source reads every group of it; any clear meter takes it.
        crate::signed_unite(d, w, &mut vec![0; bytes.len()], &bytes).result()?;
        Ok(SignedMeter { d, w, bytes })
    }

    /// The depth: how many rows there are, 1, 3, 5 or 7.
    #[must_use]
    pub fn d(&self) -> usize {
        self.d
    }

    /// The width: how many slots a row has, a power of two from 32 to 16,384.
    #[must_use]
    pub fn w(&self) -> usize {
        self.w
    }

    /// The memory: of each row `w` count bytes, then `w / 8` merge bytes.
    #[must_use]
    pub fn bytes(&self) -> &[u8] {
        &self.bytes
    }

    /// The memory without its depth and width.
    #[must_use]
    pub fn into_bytes(self) -> Vec<u8> {
        self.bytes
    }

    /// Sets every byte to 0.
    pub fn clear(&mut self) {
        // It tests d, w and the length only, which a meter has passed.
        let _ = crate::signed_clear(self.d, self.w, &mut self.bytes);
    }

    /// Adds an amount, times the key's sign in the row, to the key's counter in each row, or in none.
    ///
    /// Refused with [`Reason::KeyLength`] and [`Reason::CounterFull`].
    pub fn update(&mut self, key: &[u8], amount: i32) -> Result<(), Refused> {
        crate::signed_update(self.d, self.w, &mut self.bytes, key, amount)
            .result()
            .map(drop)
    }

    /// The median of the key's counters, each times the key's sign in its row.
    ///
    /// Refused with [`Reason::KeyLength`].
    pub fn estimate(&self, key: &[u8]) -> Result<i64, Refused> {
        crate::signed_estimate(self.d, self.w, &self.bytes, key).result()
    }

    /// Adds a source into this meter.
    ///
    /// Refused with [`Reason::OtherGeometry`] where the source has another depth or width, also where both are equally long, and
    /// with [`Reason::CounterFull`].
    pub fn unite(&mut self, source: &SignedMeter) -> Result<(), Refused> {
        self.same_geometry(source)?;
        crate::signed_unite(self.d, self.w, &mut self.bytes, &source.bytes)
            .result()
            .map(drop)
    }

    /// Takes a source away from this meter.
    ///
    /// Refused as [`SignedMeter::unite`] is.
    pub fn subtract(&mut self, source: &SignedMeter) -> Result<(), Refused> {
        self.same_geometry(source)?;
        crate::signed_subtract(self.d, self.w, &mut self.bytes, &source.bytes)
            .result()
            .map(drop)
    }

    fn same_geometry(&self, source: &SignedMeter) -> Result<(), Refused> {
        if (self.d, self.w) == (source.d, source.w) {
            return Ok(());
        }
        Err(Refused {
            reason: Reason::OtherGeometry,
            place: 0,
        })
    }
}

/// Depth and width, without the bytes.
impl fmt::Debug for SignedMeter {
    fn fmt(&self, f: &mut fmt::Formatter<'_>) -> fmt::Result {
        f.debug_struct("SignedMeter")
            .field("d", &self.d)
            .field("w", &self.w)
            .finish_non_exhaustive()
    }
}

//! A meter that knows its own depth and width.

use crate::{Reason, Refused};
use std::fmt;

/// A meter that owns its memory and keeps the depth `d` and the width `w` that it was made with, so that no call can be told
/// others.
///
/// Its merge bytes are valid: a memory or an image that breaks the rule is refused before there is a meter, and every call keeps it.
/// So the only refusals are those that each method names. A method that is refused has changed nothing.
///
/// ```
/// use meter::{Meter, Reason};
///
/// let mut here = Meter::new(4, 1024)?;
/// here.update(b"tenant-17", 1_500)?;
/// here.update(b"tenant-17", 64)?;
/// assert_eq!(here.estimate(b"tenant-17")?, 1_564);
/// assert_eq!(here.widest()?, 1);
///
/// // The image says d and w itself.
/// let mut there = Meter::from_image(&here.image()?)?;
/// assert_eq!(there, here);
/// there.unite(&here)?;
/// assert_eq!(there.estimate(b"tenant-17")?, 3_128);
///
/// // As long as 2 rows of 64 slots, and refused.
/// let mut narrow = Meter::new(2, 64)?;
/// let wide = Meter::new(1, 128)?;
/// assert_eq!(narrow.unite(&wide).unwrap_err().reason, Reason::OtherGeometry);
/// # Ok::<(), meter::Refused>(())
/// ```
#[derive(Clone, PartialEq, Eq)]
pub struct Meter {
    d: usize,
    w: usize,
    bytes: Vec<u8>,
}

impl Meter {
    /// A clear meter of `d` rows of `w` slots.
    ///
    /// Refused with [`Reason::Depth`] and [`Reason::Width`].
    ///
    /// ```
    /// # use meter::{Meter, Reason};
    /// assert_eq!(Meter::new(1, 32)?.bytes(), [0; 36]);
    /// assert_eq!(Meter::new(9, 32).unwrap_err().reason, Reason::Depth);
    /// assert_eq!(Meter::new(1, 33).unwrap_err().reason, Reason::Width);
    /// # Ok::<(), meter::Refused>(())
    /// ```
    pub fn new(d: usize, w: usize) -> Result<Meter, Refused> {
        // Where there is no such meter, the call says which of the two is wrong.
        let mut bytes = vec![0; crate::size(d, w).unwrap_or(0)];
        crate::clear(d, w, &mut bytes).result()?;
        Ok(Meter { d, w, bytes })
    }

    /// The meter whose memory the bytes are. Nothing in them says `d` and `w`: they have to be those of the meter they come from.
    ///
    /// Refused with [`Reason::Depth`], [`Reason::Width`], [`Reason::Length`] and [`Reason::Content`], of any group.
    ///
    /// ```
    /// # use meter::{Meter, Reason};
    /// let mut bytes = vec![0; 36];
    /// bytes[7] = 200;
    /// assert!(Meter::from_bytes(1, 32, bytes.clone()).is_ok());
    /// bytes[35] = 0x80;
    /// assert_eq!(Meter::from_bytes(1, 32, bytes).unwrap_err().reason, Reason::Content);
    /// ```
    pub fn from_bytes(d: usize, w: usize, bytes: Vec<u8>) -> Result<Meter, Refused> {
        // Of the calls that only read, this one reads every group.
        crate::widest(d, w, &bytes).result()?;
        Ok(Meter { d, w, bytes })
    }

    /// The meter that an image was written from; its head says `d` and `w`. The words are exactly one image.
    ///
    /// Refused with [`Reason::Word`] and [`Reason::Payload`] at the first faulty word, and with [`Reason::Depth`] and
    /// [`Reason::Width`] at place 0 where the head says what no meter has, a row of more than [`crate::LARGEST_WIDTH`] slots too.
    pub fn from_image(words: &[u32]) -> Result<Meter, Refused> {
        // The head of an image is that of a feed.
        let mut meter = Meter::from_feed_head(words)?;
        meter.read_image(words)?;
        Ok(meter)
    }

    /// The clear meter that a feed starts with; its head, the first of the words, says `d` and `w`. No other word is looked at.
    ///
    /// Refused with [`Reason::Word`], [`Reason::Payload`], [`Reason::Depth`] and [`Reason::Width`], all at place 0.
    ///
    /// ```
    /// # use meter::{Meter, Reason};
    /// let feed = [0x1000_0051, 0x5000_0001, 0x7041_0000, 0x8000_0000, 0x8000_012c, 0x6000_0001, 0x7041_0000, 0x4000_0007];
    /// let mut meter = Meter::from_feed_head(&feed)?;
    /// assert_eq!((meter.d(), meter.w()), (1, 32));
    /// meter.record(1, &feed[1..])?;
    /// assert_eq!(meter.record(5, &feed[5..])?, 300);
    /// assert_eq!(Meter::from_feed_head(&[]).unwrap_err().reason, Reason::Word);
    /// # Ok::<(), meter::Refused>(())
    /// ```
    pub fn from_feed_head(words: &[u32]) -> Result<Meter, Refused> {
        let (d, w) = crate::head_geometry(crate::feed_head(words).result()?);
        Meter::new(d, w)
    }

    /// The depth: how many rows there are, 1 to 8.
    #[must_use]
    pub fn d(&self) -> usize {
        self.d
    }

    /// The width: how many slots a row has, a power of two from 32 to 16,384.
    #[must_use]
    pub fn w(&self) -> usize {
        self.w
    }

    /// The memory: of each row `w` count bytes, then `w / 8` merge bytes.
    #[must_use]
    pub fn bytes(&self) -> &[u8] {
        &self.bytes
    }

    /// The memory without its depth and width.
    #[must_use]
    pub fn into_bytes(self) -> Vec<u8> {
        self.bytes
    }

    /// What a call is lent that has more than a meter to write.
    pub(crate) fn lent(&mut self) -> (usize, usize, &mut [u8]) {
        (self.d, self.w, &mut self.bytes)
    }

    /// Sets every byte to 0.
    pub fn clear(&mut self) {
        // It tests d, w and the length only, which a meter has passed.
        let _ = crate::clear(self.d, self.w, &mut self.bytes);
    }

    /// Adds an amount to the key's counter in each row, or in none.
    ///
    /// Refused with [`Reason::KeyLength`] and [`Reason::CounterFull`].
    pub fn update(&mut self, key: &[u8], amount: u32) -> Result<(), Refused> {
        crate::update(self.d, self.w, &mut self.bytes, key, amount).result().map(drop)
    }

    /// The least figure of the key's counters.
    ///
    /// Refused with [`Reason::KeyLength`].
    pub fn estimate(&self, key: &[u8]) -> Result<u64, Refused> {
        crate::estimate(self.d, self.w, &self.bytes, key).result()
    }

    /// The largest level of any counter, 0 to 3: its counters have up to 8, 16, 32 or 64 bits.
    ///
    /// A meter is never refused this; the result is that of the call behind it.
    pub fn widest(&self) -> Result<u8, Refused> {
        crate::widest(self.d, self.w, &self.bytes).result().map(|level| level as u8)
    }

    /// Adds a source meter into this one.
    ///
    /// Refused with [`Reason::OtherGeometry`] where the source has another depth or width, also where both are equally long, and
    /// with [`Reason::CounterFull`].
    pub fn unite(&mut self, source: &Meter) -> Result<(), Refused> {
        if (self.d, self.w) != (source.d, source.w) {
            return Err(Refused {
                reason: Reason::OtherGeometry,
                place: 0,
            });
        }
        crate::unite(self.d, self.w, &mut self.bytes, &source.bytes)
            .result()
            .map(drop)
    }

    /// The image: words that restore this meter, with its depth and width.
    ///
    /// A meter is never refused this; the result is that of the call behind it.
    pub fn image(&self) -> Result<Vec<u32>, Refused> {
        let mut words = vec![0; crate::most_image_words(self.d, self.w).unwrap_or(0)];
        let count = self.write_image(&mut words)?;
        words.truncate(count);
        Ok(words)
    }

    /// Writes the image into lent words and gives the count of its words; words past it stay. [`crate::most_image_words`] are
    /// always enough.
    ///
    /// Refused with [`Reason::TooFewWords`].
    ///
    /// ```
    /// # use meter::{most_image_words, Meter, Reason};
    /// let meter = Meter::new(1, 32)?;
    /// let mut words = vec![0; most_image_words(1, 32).unwrap()];
    /// assert_eq!(meter.write_image(&mut words)?, 35);
    /// assert_eq!(meter.write_image(&mut words[1..]).unwrap_err().reason, Reason::TooFewWords);
    /// # Ok::<(), meter::Refused>(())
    /// ```
    pub fn write_image(&self, words: &mut [u32]) -> Result<usize, Refused> {
        crate::image_write(self.d, self.w, &self.bytes, words)
            .result()
            .map(|count| count as usize)
    }

    /// Puts the meter that an image was written from in place of this one, and gives the count of the image's words. The words are
    /// exactly one image.
    ///
    /// Refused with [`Reason::Word`] and [`Reason::Payload`] at the first faulty word, and with [`Reason::OtherGeometry`] at
    /// place 0.
    pub fn read_image(&mut self, words: &[u32]) -> Result<usize, Refused> {
        crate::image_read(self.d, self.w, &mut self.bytes, words)
            .result()
            .map(|count| count as usize)
    }

    /// Carries out the record or the end of a feed that the words start with, after so many words of the feed. The figure of an
    /// asking record is the estimate, else 0. No word after the record is looked at.
    ///
    /// Refused with [`Reason::Word`], [`Reason::Payload`] and [`Reason::KeyLength`] at the first faulty word, and with
    /// [`Reason::CounterFull`].
    pub fn record(&mut self, before: u64, words: &[u32]) -> Result<u64, Refused> {
        crate::feed_record(self.d, self.w, &mut self.bytes, before, words).result()
    }
}

/// Depth and width, without the bytes.
impl fmt::Debug for Meter {
    fn fmt(&self, f: &mut fmt::Formatter<'_>) -> fmt::Result {
        f.debug_struct("Meter")
            .field("d", &self.d)
            .field("w", &self.w)
            .finish_non_exhaustive()
    }
}

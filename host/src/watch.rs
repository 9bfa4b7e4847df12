//! A watch list that knows its own layout.

use crate::{Meter, Reason, Refused};
use std::fmt;
use std::ops::Range;

/// The most keys of a watch list.
pub const WATCH_PLACES: usize = 64;

/// The bytes of a watch list.
pub const WATCH_SIZE: usize = 4_673;

// The layout: the key length of each place, the mark, the keys, the estimates.
const MARK: usize = 64;
const KEYS: usize = 65;
const KEY_SIZE: usize = 64;
const ESTIMATES: usize = 4_161;
const ESTIMATE_SIZE: usize = 8;

/// The heavy keys of a meter: up to 64 keys, in the order they joined, each with the estimate that it had at its last update through
/// the list. It is kept beside a [`Meter`] and owns its bytes.
///
/// A key joins when an update through the list leaves its estimate at or above the threshold handed in with it. Where all places are
/// taken, such a key sets the mark instead, which stays until the list is cleared. While the mark is off, and if all updates since
/// list and meter were cleared went through the list with one threshold, no key whose total reached the threshold is missing, but for
/// those taken off since their last update.
///
/// ```
/// use meter::{Meter, Reason, WatchList};
///
/// let mut meter = Meter::new(4, 1024)?;
/// let mut heavy = WatchList::new();
/// heavy.update(&mut meter, b"tenant-17", 1_500, 1_000)?;
/// heavy.update(&mut meter, b"tenant-18", 40, 1_000)?;
/// heavy.update(&mut meter, b"tenant-17", 64, 1_000)?;
/// for entry in &heavy {
///     assert_eq!((entry.key, entry.estimate), (&b"tenant-17"[..], 1_564));
/// }
/// assert_eq!((heavy.len(), heavy.is_marked()), (1, false));
/// assert_eq!(meter.estimate(b"tenant-18")?, 40);
///
/// assert!(heavy.remove(b"tenant-17")?);
/// assert!(heavy.is_empty() && heavy.get(b"tenant-17").is_none());
///
/// let refused = heavy.update(&mut meter, b"tenant-17", 1, 0).unwrap_err();
/// assert_eq!(refused.reason, Reason::ZeroThreshold);
/// # Ok::<(), meter::Refused>(())
/// ```
#[derive(Clone, PartialEq, Eq)]
pub struct WatchList {
    bytes: Box<[u8; WATCH_SIZE]>,
}

/// A key of a watch list, with its estimate.
#[derive(Clone, Copy, Debug, PartialEq, Eq, Hash)]
pub struct Entry<'a> {
    /// The key.
    pub key: &'a [u8],
    /// The estimate that it had at its last update through the list.
    pub estimate: u64,
}

impl WatchList {
    /// A clear list: no key, no mark.
    #[must_use]
    pub fn new() -> WatchList {
        let mut list = WatchList {
            bytes: Box::new([0; WATCH_SIZE]),
        };
        list.clear();
        list
    }

    /// The list that the bytes are. Bytes past a key and in free places may hold anything.
    ///
    /// Refused with [`Reason::Length`] and, where a key length is above 64, a length other than 0 follows a 0 or the mark is above 1,
    /// with [`Reason::Content`].
    ///
    /// ```
    /// # use meter::{Reason, WatchList, WATCH_SIZE};
    /// assert!(WatchList::from_bytes(vec![0; WATCH_SIZE]).is_ok());
    /// assert_eq!(WatchList::from_bytes(vec![0; 64]).unwrap_err().reason, Reason::Length);
    /// let mut bytes = vec![0; WATCH_SIZE];
    /// bytes[1] = 5;
    /// assert_eq!(WatchList::from_bytes(bytes).unwrap_err().reason, Reason::Content);
    /// ```
    pub fn from_bytes(bytes: Vec<u8>) -> Result<WatchList, Refused> {
        // The proved call says whether they are a list; what it takes off is taken off a copy.
        crate::watch_remove(&mut bytes.clone(), &[0]).result()?;
        match bytes.try_into() {
            Ok(bytes) => Ok(WatchList { bytes }),
            Err(_) => Err(Refused {
                reason: Reason::Length,
                place: 0,
            }),
        }
    }

    /// The bytes: 64 key lengths, the mark, 64 keys of 64 bytes, 64 estimates of eight bytes, lowest first.
    #[must_use]
    pub fn bytes(&self) -> &[u8] {
        &self.bytes[..]
    }

    /// The bytes without the list.
    #[must_use]
    pub fn into_bytes(self) -> Vec<u8> {
        self.bytes.to_vec()
    }

    /// Takes all keys off, and the mark.
    pub fn clear(&mut self) {
        // It tests the length only, which a list has.
        let _ = crate::watch_clear(&mut self.bytes[..]);
    }

    /// An update of a meter that the list takes note of, or no change of either.
    ///
    /// Refused with [`Reason::KeyLength`], [`Reason::ZeroThreshold`] and [`Reason::CounterFull`].
    pub fn update(&mut self, meter: &mut Meter, key: &[u8], amount: u32, threshold: u64) -> Result<(), Refused> {
        let (d, w, memory) = meter.lent();
        crate::watch_update(d, w, memory, &mut self.bytes[..], key, amount, threshold)
            .result()
            .map(drop)
    }

    /// Takes a key off, and says whether it was listed.
    ///
    /// Refused with [`Reason::KeyLength`].
    pub fn remove(&mut self, key: &[u8]) -> Result<bool, Refused> {
        let before = self.len();
        crate::watch_remove(&mut self.bytes[..], key).result()?;
        Ok(self.len() < before)
    }

    /// Whether a key that would have joined was left out because no place was free, since the list was cleared.
    #[must_use]
    pub fn is_marked(&self) -> bool {
        self.bytes[MARK] != 0
    }

    /// How many keys are listed, 0 to 64.
    #[must_use]
    pub fn len(&self) -> usize {
        self.bytes[..WATCH_PLACES].iter().take_while(|length| **length != 0).count()
    }

    /// Whether no key is listed.
    #[must_use]
    pub fn is_empty(&self) -> bool {
        self.len() == 0
    }

    /// The listed keys, in the order they joined.
    #[must_use]
    pub fn iter(&self) -> Entries<'_> {
        Entries {
            list: self,
            places: 0..self.len(),
        }
    }

    /// The estimate that a key had at its last update through the list, if it is listed. Of a key that bytes made by hand have twice it
    /// is the first one's, as for the calls.
    #[must_use]
    pub fn get(&self, key: &[u8]) -> Option<u64> {
        self.iter().find(|entry| entry.key == key).map(|entry| entry.estimate)
    }

    /// What a place below 64 has. A length byte of any value ends inside the bytes.
    fn at(&self, place: usize) -> Entry<'_> {
        let key = KEYS + place * KEY_SIZE;
        let estimate = ESTIMATES + place * ESTIMATE_SIZE;
        Entry {
            key: &self.bytes[key..key + usize::from(self.bytes[place])],
            estimate: self.bytes[estimate..estimate + ESTIMATE_SIZE]
                .iter()
                .rev()
                .fold(0, |number, byte| number << 8 | u64::from(*byte)),
        }
    }
}

impl Default for WatchList {
    fn default() -> WatchList {
        WatchList::new()
    }
}

impl<'a> IntoIterator for &'a WatchList {
    type Item = Entry<'a>;
    type IntoIter = Entries<'a>;

    fn into_iter(self) -> Entries<'a> {
        self.iter()
    }
}

/// The keys of a watch list, in the order they joined: [`WatchList::iter`].
#[derive(Clone, Debug)]
pub struct Entries<'a> {
    list: &'a WatchList,
    places: Range<usize>,
}

impl<'a> Iterator for Entries<'a> {
    type Item = Entry<'a>;

    fn next(&mut self) -> Option<Entry<'a>> {
        self.places.next().map(|place| self.list.at(place))
    }

    fn size_hint(&self) -> (usize, Option<usize>) {
        self.places.size_hint()
    }
}

impl DoubleEndedIterator for Entries<'_> {
    fn next_back(&mut self) -> Option<Self::Item> {
        self.places.next_back().map(|place| self.list.at(place))
    }
}

impl ExactSizeIterator for Entries<'_> {}

/// The keys and the mark, without unused bytes.
impl fmt::Debug for WatchList {
    fn fmt(&self, f: &mut fmt::Formatter<'_>) -> fmt::Result {
        f.debug_struct("WatchList")
            .field("entries", &self.iter().collect::<Vec<_>>())
            .field("marked", &self.is_marked())
            .finish()
    }
}

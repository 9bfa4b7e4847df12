//! The watch list of document 02, request 1, as places in a row: read from the bytes, changed as a list, written back.

use crate::{answer, good_key, good_shape, Answer, Memory, Refused};

const PLACES: usize = 64;

/// The bytes of a watch list: of each place a length, a key and an estimate, and one mark.
pub const WATCH_SIZE: usize = PLACES * (1 + 64 + 8) + 1;

/// A place: its key, empty if it is free, the bytes behind the key and the estimate.
#[derive(Clone, PartialEq, Eq, Debug)]
pub struct Place {
    pub key: Vec<u8>,
    pub behind: Vec<u8>,
    pub estimate: u64,
}

impl Place {
    /// A place as it is written: what the key leaves is 0.
    pub fn new(key: &[u8], estimate: u64) -> Place {
        Place {
            key: key.to_vec(),
            behind: vec![0; 64 - key.len()],
            estimate,
        }
    }
}

/// A watch list.
#[derive(Clone, PartialEq, Eq, Debug)]
pub struct Watch {
    pub marked: bool,
    /// All 64: those in use, then those that are free.
    pub places: Vec<Place>,
}

impl Watch {
    /// The list that bytes hold; none if they break the layout.
    pub fn parse(bytes: &[u8]) -> Option<Watch> {
        let (lengths, rest) = bytes.split_at_checked(PLACES)?;
        let (mark, rest) = rest.split_first()?;
        let (keys, estimates) = rest.split_at_checked(64 * PLACES)?;
        let gap = lengths.windows(2).any(|two| two[0] == 0 && two[1] != 0);
        if estimates.len() != 8 * PLACES || lengths.iter().any(|&n| n > 64) || gap || *mark > 1 {
            return None;
        }
        let places = lengths
            .iter()
            .zip(keys.chunks(64).zip(estimates.chunks(8)))
            .map(|(&length, (key, estimate))| {
                let (key, behind) = key.split_at(length as usize);
                Place {
                    key: key.to_vec(),
                    behind: behind.to_vec(),
                    estimate: u64::from_le_bytes(estimate.try_into().expect("eight bytes")),
                }
            })
            .collect();
        Some(Watch {
            marked: *mark == 1,
            places,
        })
    }

    /// The bytes, for comparison.
    pub fn bytes(&self) -> Vec<u8> {
        let mut bytes: Vec<u8> = self.places.iter().map(|place| place.key.len() as u8).collect();
        bytes.push(self.marked as u8);
        for place in &self.places {
            bytes.extend(place.key.iter().chain(&place.behind));
        }
        for place in &self.places {
            bytes.extend(place.estimate.to_le_bytes());
        }
        bytes
    }

    /// How many places are in use.
    pub fn used(&self) -> usize {
        self.places.iter().filter(|place| !place.key.is_empty()).count()
    }

    /// The first place that has a key.
    pub fn find(&self, key: &[u8]) -> Option<usize> {
        self.places.iter().position(|place| place.key == key)
    }

    fn note(&mut self, key: &[u8], estimate: u64, threshold: u64) {
        match (self.find(key), self.used()) {
            (Some(at), _) => self.places[at].estimate = estimate,
            (None, _) if estimate < threshold => {}
            (None, PLACES) => self.marked = true,
            (None, free) => self.places[free] = Place::new(key, estimate),
        }
    }

    fn take_off(&mut self, key: &[u8]) {
        let last = self.used();
        if let Some(at) = self.find(key) {
            self.places.remove(at);
            self.places.insert(last - 1, Place::new(b"", 0));
        }
    }
}

fn good_list(list: &[u8]) -> Result<(), Refused> {
    if list.len() == WATCH_SIZE {
        Ok(())
    } else {
        Err((3, 0))
    }
}

pub fn watch_clear(list: &mut [u8]) -> Answer {
    answer(good_list(list).map(|()| {
        list.fill(0);
        0
    }))
}

pub fn watch_update(d: usize, w: usize, memory: &mut Memory, list: &mut [u8], key: &[u8], amount: u32, threshold: u64) -> Answer {
    answer((|| {
        good_shape(d, w, memory.len())?;
        good_list(list)?;
        good_key(key)?;
        let meter = memory.meter(d, w);
        // An estimate reads the groups that the update does.
        meter.estimate(key)?;
        let mut watch = Watch::parse(list).ok_or((5, 0))?;
        if threshold == 0 {
            return Err((11, 0));
        }
        meter.update(key, amount)?;
        watch.note(key, meter.estimate(key)?, threshold);
        list.copy_from_slice(&watch.bytes());
        Ok(0)
    })())
}

pub fn watch_remove(list: &mut [u8], key: &[u8]) -> Answer {
    answer((|| {
        good_list(list)?;
        good_key(key)?;
        let mut watch = Watch::parse(list).ok_or((5, 0))?;
        watch.take_off(key);
        list.copy_from_slice(&watch.bytes());
        Ok(0)
    })())
}

#[cfg(test)]
mod tests {
    use super::*;

    /// A clear meter of one row, and a clear list.
    fn both() -> (Memory, Vec<u8>) {
        (Memory::new(&[0; 36]), vec![0; WATCH_SIZE])
    }

    fn update(both: &mut (Memory, Vec<u8>), key: &[u8], amount: u32, threshold: u64) -> u32 {
        watch_update(1, 32, &mut both.0, &mut both.1, key, amount, threshold).number
    }

    /// The keys in use, with their estimates.
    fn listed(list: &[u8]) -> Vec<(Vec<u8>, u64)> {
        let watch = Watch::parse(list).expect("a list");
        let used = watch.used();
        watch.places.into_iter().take(used).map(|p| (p.key, p.estimate)).collect()
    }

    fn keys(list: &[u8]) -> Vec<Vec<u8>> {
        listed(list).into_iter().map(|(key, _)| key).collect()
    }

    /// The layout by its offsets, as the readings give it.
    #[test]
    fn layout() {
        assert_eq!(WATCH_SIZE, 4_673);
        let mut both = both();
        assert_eq!(update(&mut both, b"ab", 300, 300), 0);
        assert_eq!(update(&mut both, b"c", 70_000, 300), 0);
        let mut expected = vec![0; WATCH_SIZE];
        (expected[0], expected[1]) = (2, 1);
        expected[65..67].copy_from_slice(b"ab");
        expected[65 + 64] = b'c';
        expected[4_161..4_163].copy_from_slice(&[0x2c, 1]);
        expected[4_169..4_172].copy_from_slice(&[0x70, 0x11, 1]);
        assert!(both.1 == expected);
    }

    #[test]
    fn joins_renewed_taken_off_joins_again() {
        let mut both = both();
        // Below, then at the threshold; by 0 a key can join too.
        assert_eq!(update(&mut both, b"a", 9, 10), 0);
        assert!(keys(&both.1).is_empty());
        assert_eq!(update(&mut both, b"a", 1, 10), 0);
        assert_eq!(update(&mut both, b"b", 10, 11), 0);
        assert_eq!(update(&mut both, b"b", 0, 10), 0);
        assert_eq!(listed(&both.1), [(b"a".to_vec(), 10), (b"b".to_vec(), 10)]);
        // Renewed whatever the threshold.
        assert_eq!(update(&mut both, b"a", 5, u64::MAX), 0);
        assert_eq!(listed(&both.1), [(b"a".to_vec(), 15), (b"b".to_vec(), 10)]);
        // A prefix is another key.
        assert_eq!(watch_remove(&mut both.1, b"ab").number, 0);
        assert_eq!(keys(&both.1), [b"a", b"b"]);
        assert_eq!(watch_remove(&mut both.1, b"a").number, 0);
        assert_eq!(keys(&both.1), [b"b"]);
        // The place behind is 0 again, and the key joins at another.
        assert!(both.1[65 + 64..65 + 128].iter().chain(&both.1[4_169..4_177]).all(|&b| b == 0));
        assert_eq!(update(&mut both, b"a", 0, 10), 0);
        assert_eq!(listed(&both.1), [(b"b".to_vec(), 10), (b"a".to_vec(), 15)]);
    }

    #[test]
    fn a_65th_sets_the_mark() {
        let mut both = both();
        for n in 0..64 {
            assert_eq!(update(&mut both, &[n], 1, 1), 0);
        }
        assert_eq!(both.1[64], 0);
        let full = keys(&both.1);
        // A listed key and one below the threshold set no mark.
        assert_eq!(update(&mut both, &[7], 1, 1), 0);
        assert_eq!(update(&mut both, &[64], 1, 1 << 40), 0);
        assert_eq!(both.1[64], 0);
        assert_eq!(update(&mut both, &[64], 1, 1), 0);
        assert_eq!((both.1[64], keys(&both.1)), (1, full));
        // It stays when a place is free again, and goes with a clearing.
        assert_eq!(watch_remove(&mut both.1, &[0]).number, 0);
        assert_eq!(update(&mut both, &[64], 1, 1), 0);
        assert_eq!((both.1[64], keys(&both.1).len()), (1, 64));
        assert_eq!(watch_clear(&mut both.1).number, 0);
        assert!(both.1.iter().all(|&b| b == 0));
    }

    /// Content made by hand: of a key that is there twice the first counts; unused bytes go along or stay.
    #[test]
    fn by_hand() {
        let mut both = both();
        let mut watch = Watch::parse(&both.1).expect("a list");
        for (at, key) in [b"x", b"y", b"x"].into_iter().enumerate() {
            watch.places[at] = Place::new(key, at as u64);
            watch.places[at].behind.fill(at as u8 + 1);
        }
        watch.places[3].behind.fill(9);
        watch.places[3].estimate = 9;
        both.1 = watch.bytes();
        let mut expected = watch.clone();
        assert_eq!(update(&mut both, b"x", 50, 1), 0);
        expected.places[0].estimate = 50;
        assert!(both.1 == expected.bytes());
        assert_eq!(watch_remove(&mut both.1, b"x").number, 0);
        expected.places[0] = watch.places[1].clone();
        expected.places[1] = watch.places[2].clone();
        expected.places[2] = Place::new(b"", 0);
        assert!(both.1 == expected.bytes());
        assert_eq!(watch_remove(&mut both.1, b"x").number, 0);
        expected.places[1] = Place::new(b"", 0);
        assert!(both.1 == expected.bytes());
    }

    /// Each line before the next: what applies is taken away one by one.
    #[test]
    fn order_of_numbers() {
        let damaged = [[0; 32].to_vec(), vec![0x80; 4]].concat();
        let full = [[0xff; 32].to_vec(), vec![0x7f; 4]].concat();
        let broken = vec![65; WATCH_SIZE];
        let sound = vec![0; WATCH_SIZE];
        let number = |d, w, memory: &[u8], list: &[u8], key: &[u8], threshold| {
            let (mut memory, mut lent) = (Memory::new(memory), list.to_vec());
            let given = watch_update(d, w, &mut memory, &mut lent, key, 1, threshold);
            assert!(given.number == 0 || lent == list, "a refused call changes nothing");
            assert_eq!((given.place, given.figure), (0, 0));
            given.number
        };
        assert_eq!(number(0, 33, &damaged[1..], &broken[1..], b"", 0), 1);
        assert_eq!(number(1, 33, &damaged[1..], &broken[1..], b"", 0), 2);
        assert_eq!(number(1, 32, &damaged[1..], &broken, b"", 0), 3);
        assert_eq!(number(1, 32, &damaged, &broken[1..], b"", 0), 3);
        assert_eq!(number(1, 32, &damaged, &broken, b"", 0), 4);
        assert_eq!(number(1, 32, &damaged, &sound, b"k", 0), 5);
        assert_eq!(number(1, 32, &full, &broken, b"k", 0), 5);
        assert_eq!(number(1, 32, &full, &sound, b"k", 0), 11);
        assert_eq!(number(1, 32, &full, &sound, b"k", 1), 6);
        assert_eq!(number(1, 32, &[0; 36], &sound, b"k", 1), 0);
        let remove = |list: &[u8], key: &[u8]| watch_remove(&mut list.to_vec(), key).number;
        assert_eq!(remove(&broken[1..], b""), 3);
        assert_eq!(remove(&broken, b""), 4);
        assert_eq!(remove(&broken, b"k"), 5);
        assert_eq!(remove(&sound, b"k"), 0);
        assert_eq!(watch_clear(&mut broken.clone()).number, 0);
        assert_eq!(watch_clear(&mut broken[1..].to_vec()).number, 3);
    }

    /// Each way of breaking a list, at its limit.
    #[test]
    fn broken() {
        let sound = |changes: &[(usize, u8)]| {
            let mut list = vec![0; WATCH_SIZE];
            for &(at, byte) in changes {
                list[at] = byte;
            }
            Watch::parse(&list).is_some()
        };
        assert!(sound(&[(0, 64), (1, 1)]));
        assert!(!sound(&[(0, 65)]));
        assert!(!sound(&[(0, 64), (1, 255)]));
        assert!(!sound(&[(1, 1)]));
        assert!(!sound(&[(0, 1), (63, 1)]));
        assert!(sound(&[(64, 1)]));
        assert!(!sound(&[(64, 2)]));
        assert!(sound(&[(65, 255), (4_672, 255)]));
    }
}

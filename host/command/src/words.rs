//! Words of feeds: 32 bits, high byte first in files; the top four bits are the kind, the low 28 the payload.

use meter::{feed_taken, Meter, Reason, Refused};
use std::collections::HashSet;

pub const HEAD: u32 = 1;
pub const END: u32 = 4;
pub const UPDATE: u32 = 5;
pub const ASK: u32 = 6;
pub const KEY: u32 = 7;
pub const AMOUNT: u32 = 8;

/// The most bytes of a key.
pub const LONGEST_KEY: usize = 64;

/// The words of the longest record: an update by a key of 64 bytes.
pub const LONGEST_RECORD: usize = 25;

/// The whole words of some bytes.
pub fn from_bytes(bytes: &[u8]) -> Vec<u32> {
    bytes.chunks_exact(4).map(word).collect()
}

/// The word of four bytes.
pub fn word(bytes: &[u8]) -> u32 {
    bytes.iter().fold(0, |word, byte| word << 8 | u32::from(*byte))
}

pub fn to_bytes(words: &[u32]) -> Vec<u8> {
    words.iter().flat_map(|word| word.to_be_bytes()).collect()
}

/// A key: 1 to 64 bytes.
#[derive(Clone, Copy)]
pub struct Key {
    bytes: [u8; LONGEST_KEY],
    length: usize,
}

impl Key {
    /// A key of these bytes, if they are 1 to 64.
    pub fn new(content: &[u8]) -> Option<Key> {
        let mut key = Key {
            bytes: [0; LONGEST_KEY],
            length: content.len(),
        };
        if content.is_empty() {
            return None;
        }
        key.bytes.get_mut(..content.len())?.copy_from_slice(content);
        Some(key)
    }

    /// The key of a record whose words were accepted.
    fn of_record(words: &[u32]) -> Option<Key> {
        let (first, rest) = words.split_first()?;
        let length = (first & 0x0fff_ffff) as usize;
        let bytes: Vec<u8> = rest
            .iter()
            .take(length.div_ceil(3))
            .flat_map(|word| word.to_be_bytes().into_iter().skip(1))
            .collect();
        Key::new(bytes.get(..length)?)
    }

    pub fn bytes(&self) -> &[u8] {
        &self.bytes[..self.length]
    }
}

/// Distinct keys, in the order they came.
#[derive(Default)]
pub struct Keys {
    pub all: Vec<Key>,
    known: HashSet<Vec<u8>>,
}

impl Keys {
    pub fn note(&mut self, key: Key) {
        if !self.known.contains(key.bytes()) {
            self.known.insert(key.bytes().to_vec());
            self.all.push(key);
        }
    }
}

/// A feed as it grows, as bytes.
pub struct Feed {
    bytes: Vec<u8>,
}

impl Feed {
    pub fn new(d: usize, w: usize) -> Feed {
        let mut feed = Feed { bytes: Vec::new() };
        feed.word(HEAD, d as u32 | w.ilog2() << 4);
        feed
    }

    fn word(&mut self, kind: u32, payload: u32) {
        self.bytes.extend_from_slice(&(kind << 28 | payload).to_be_bytes());
    }

    fn opening(&mut self, kind: u32, key: &Key) {
        self.word(kind, key.length as u32);
        for three in key.bytes().chunks(3) {
            let mut word = [(KEY << 4) as u8, 0, 0, 0];
            word[1..1 + three.len()].copy_from_slice(three);
            self.bytes.extend_from_slice(&word);
        }
    }

    pub fn update(&mut self, key: &Key, amount: u32) {
        self.opening(UPDATE, key);
        self.word(AMOUNT, amount >> 16);
        self.word(AMOUNT, amount & 0xffff);
    }

    pub fn ask(&mut self, key: &Key) {
        self.opening(ASK, key);
    }

    /// The feed with its end.
    pub fn ended(mut self) -> Vec<u8> {
        let before = self.bytes.len() / 4;
        self.word(END, (before % (1 << 28)) as u32);
        self.bytes
    }
}

/// A record of a feed.
pub enum Record {
    Update(Key, u32),
    Ask(Key),
}

/// A feed's records, one by one. Its words are judged by the proved calls alone.
pub struct Records {
    words: Vec<u32>,
    at: usize,
    /// Whether bytes short of a word follow the words.
    leftover: bool,
    /// Any meter will do: words are judged before it is looked at.
    judge: Meter,
}

impl Records {
    /// The clear meter of the feed's head, and the records behind that.
    pub fn open(bytes: &[u8]) -> Result<(Meter, Records), Refused> {
        let words = from_bytes(bytes);
        let meter = Meter::from_feed_head(&words)?;
        let records = Records {
            words,
            at: 1,
            leftover: !bytes.len().is_multiple_of(4),
            judge: Meter::new(1, 32)?,
        };
        Ok((meter, records))
    }

    /// How many words there are.
    pub fn words(&self) -> u64 {
        self.words.len() as u64
    }

    /// The next record and the word that it starts at; none at the end, which nothing follows.
    pub fn next(&mut self) -> Result<Option<(u64, Record)>, Refused> {
        let at = self.at;
        let ahead = &self.words[at..self.words.len().min(at + LONGEST_RECORD)];
        match self.judge.record(at as u64, ahead) {
            Ok(_) => {}
            // the words are sound; how full a meter gets is no matter of theirs
            Err(refused) if refused.reason == Reason::CounterFull => {}
            Err(refused) => {
                return Err(Refused {
                    place: refused.place + at as u64,
                    ..refused
                })
            }
        }
        let record = &ahead[..feed_taken(ahead)];
        self.at += record.len();
        let read = match (record[0] >> 28, Key::of_record(record), record) {
            (UPDATE, Some(key), [.., high, low]) => Record::Update(key, (high & 0xffff) << 16 | (low & 0xffff)),
            (ASK, Some(key), _) => Record::Ask(key),
            _ if self.at < self.words.len() || self.leftover => {
                return Err(Refused {
                    reason: Reason::Word,
                    place: self.at as u64,
                })
            }
            _ => return Ok(None),
        };
        Ok(Some((at as u64, read)))
    }
}

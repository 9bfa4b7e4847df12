//! What the tests share: seeds, lent buffers with guards, and memories, watch lists, keys, amounts and words to try.
#![allow(dead_code)]

use reference::{Memory, Place, Watch, WATCH_SIZE};
use std::collections::BTreeMap;
use std::ops::Range;

/// SplitMix64.
pub struct Rng(u64);

impl Rng {
    pub fn new(seed: u64) -> Rng {
        Rng(seed)
    }

    pub fn next(&mut self) -> u64 {
        self.0 = self.0.wrapping_add(0x9e37_79b9_7f4a_7c15);
        let mut z = self.0;
        z = (z ^ (z >> 30)).wrapping_mul(0xbf58_476d_1ce4_e5b9);
        z = (z ^ (z >> 27)).wrapping_mul(0x94d0_49bb_1331_11eb);
        z ^ (z >> 31)
    }

    pub fn below(&mut self, n: usize) -> usize {
        (self.next() % n as u64) as usize
    }

    pub fn within(&mut self, r: Range<usize>) -> usize {
        r.start + self.below(r.end - r.start)
    }

    /// True once in n times.
    pub fn once_in(&mut self, n: usize) -> bool {
        self.below(n) == 0
    }

    pub fn pick<T: Copy>(&mut self, of: &[T]) -> T {
        of[self.below(of.len())]
    }

    pub fn bytes(&mut self, n: usize) -> Vec<u8> {
        (0..n).map(|_| self.next() as u8).collect()
    }
}

/// The seed of a test: METER_SEED, or the same one each time; `METER_SEED=clock` takes the time. It is printed.
pub fn seed(test: &str) -> u64 {
    let seed = match std::env::var("METER_SEED") {
        Ok(s) if s == "clock" => std::time::SystemTime::now()
            .duration_since(std::time::UNIX_EPOCH)
            .expect("a clock")
            .as_nanos() as u64,
        Ok(s) => s.parse().expect("METER_SEED is a number or `clock`"),
        Err(_) => 1,
    };
    println!("{test}: seed {seed} (METER_SEED={seed} runs it again)");
    seed
}

/// The last of the numbers.
pub const LAST_NUMBER: u32 = 13;

/// How often each call gave each number.
#[derive(Default, Debug)]
pub struct Numbers(BTreeMap<(&'static str, u32), u64>);

impl Numbers {
    pub fn note(&mut self, call: &'static str, number: u32) {
        *self.0.entry((call, number)).or_default() += 1;
    }

    pub fn has(&self, call: &'static str, number: u32) -> bool {
        self.0.contains_key(&(call, number))
    }

    pub fn calls(&self) -> u64 {
        self.0.values().sum()
    }

    /// Prints the counts; fails where a possible number was never given, or one that is not possible was.
    pub fn finish(&self, possible: &[(&'static str, &[u32])]) {
        println!("{} calls; how often each gave each number:", self.calls());
        for (call, numbers) in possible {
            let counts = (0..=LAST_NUMBER).filter_map(|n| self.0.get(&(*call, n)).map(|count| format!("{n}: {count}")));
            println!("  {call:<12} {}", counts.collect::<Vec<_>>().join(", "));
            for n in 0..=LAST_NUMBER {
                assert_eq!(self.has(call, n), numbers.contains(&n), "{call} and number {n}");
            }
        }
    }
}

const GUARD: usize = 24;

/// A lent buffer, between guards that no call may touch.
#[derive(Clone)]
pub struct Lent<T> {
    all: Vec<T>,
    guard: T,
}

impl<T: Copy + PartialEq> Lent<T> {
    pub fn new(content: &[T], guard: T) -> Lent<T> {
        let mut all = vec![guard; GUARD];
        all.extend(content);
        all.extend(vec![guard; GUARD]);
        Lent { all, guard }
    }

    pub fn get(&self) -> &[T] {
        &self.all[GUARD..self.all.len() - GUARD]
    }

    pub fn get_mut(&mut self) -> &mut [T] {
        let end = self.all.len() - GUARD;
        &mut self.all[GUARD..end]
    }

    pub fn guards_stand(&self) -> bool {
        let end = self.all.len() - GUARD;
        self.all[..GUARD].iter().chain(&self.all[end..]).all(|x| *x == self.guard)
    }
}

pub fn lend_bytes(content: &[u8]) -> Lent<u8> {
    Lent::new(content, 0xa5)
}

pub fn lend_words(content: &[u32]) -> Lent<u32> {
    Lent::new(content, 0xdead_beef)
}

/// Amounts near every limit.
pub fn amount(rng: &mut Rng) -> u32 {
    match rng.below(8) {
        0 => 0,
        1 => 1,
        2 => rng.within(200..300) as u32,
        3 => rng.within(65_000..66_000) as u32,
        4 => u32::MAX - rng.below(3) as u32,
        5 => rng.next() as u32,
        6 => (rng.next() as u32) >> rng.below(32),
        _ => rng.below(256) as u32,
    }
}

/// A key; some are too short or too long.
pub fn key(rng: &mut Rng) -> Vec<u8> {
    let n = match rng.below(40) {
        0 => 0,
        1 => 65,
        2 => rng.within(65..300),
        3 => 64,
        4 => 1,
        _ => rng.within(1..65),
    };
    rng.bytes(n)
}

/// Keys that a meter takes, of all lengths; many are the start of others.
pub fn valid_keys(rng: &mut Rng, n: usize) -> Vec<Vec<u8>> {
    let long = rng.bytes(64);
    (0..n)
        .map(|_| {
            let length = rng.within(1..65);
            if rng.once_in(2) {
                long[..length].to_vec()
            } else {
                rng.bytes(length)
            }
        })
        .collect()
}

/// A watch list: clear; or made by hand of some of the keys, any of them more than once, often with anything in unused bytes.
pub fn list(rng: &mut Rng, keys: &[Vec<u8>]) -> Vec<u8> {
    let mut watch = Watch::parse(&[0; WATCH_SIZE]).expect("a clear list");
    if rng.once_in(4) {
        return watch.bytes();
    }
    watch.marked = rng.once_in(4);
    let used = rng.pick(&[0, 1, 2, 10, 62, 63, 64]);
    for place in watch.places.iter_mut().take(used) {
        *place = Place::new(&keys[rng.below(keys.len())], rng.next() >> rng.below(64));
    }
    if rng.once_in(2) {
        for place in &mut watch.places {
            place.behind = rng.bytes(place.behind.len());
            place.estimate = rng.next();
        }
    }
    watch.bytes()
}

/// Breaks a sound list, and says how.
pub fn break_list(rng: &mut Rng, list: &mut [u8]) -> &'static str {
    let used = list[..64].iter().take_while(|&&n| n != 0).count();
    match rng.below(3) {
        0 => {
            list[rng.below(64.min(used + 1))] = rng.within(65..256) as u8;
            "a length above 64"
        }
        1 if used >= 63 || used >= 2 && rng.once_in(2) => {
            list[rng.below(used - 1)] = 0;
            "a 0 before a length"
        }
        1 => {
            list[rng.within(used + 1..64)] = rng.within(1..65) as u8;
            "a length after a 0"
        }
        _ => {
            list[64] = rng.within(2..256) as u8;
            "a mark above 1"
        }
    }
}

/// Count bytes that are random, full, nearly full or nearly clear.
fn counts(rng: &mut Rng) -> [u8; 8] {
    let mut x = match rng.below(6) {
        0 => u64::MAX,
        1 => u64::MAX - rng.below(1 << 33) as u64,
        2 => 0,
        3 => rng.next() >> rng.below(64),
        _ => rng.next(),
    }
    .to_le_bytes();
    if rng.once_in(3) {
        x[rng.below(8)] = 255;
    }
    x
}

/// A memory of d rows of w slots with nothing merged, whose counters are below a limit.
pub fn unmerged(rng: &mut Rng, d: usize, w: usize, limit: usize) -> Vec<u8> {
    let mut bytes = vec![0; d * (w / 8 * 9)];
    for row in bytes.chunks_mut(w / 8 * 9) {
        row[..w].fill_with(|| rng.below(limit) as u8);
    }
    bytes
}

/// A memory of d rows of w slots: clear, with nothing merged, valid with random counters, mostly merged and full, with a damaged merge byte,
/// or random.
pub fn memory(rng: &mut Rng, d: usize, w: usize) -> Vec<u8> {
    let stride = w / 8 * 9;
    let mut bytes = vec![0; d * stride];
    let kind = rng.below(11);
    if kind == 0 {
        return bytes;
    }
    if kind == 10 {
        // Of the sums of two such meters none passes 255, or few do, or many.
        let limit = rng.pick(&[128, 130, 256]);
        return unmerged(rng, d, w, limit);
    }
    if kind == 1 {
        return rng.bytes(d * stride);
    }
    let merges = reference::valid_merges();
    // Of some meters most groups are merged whole, so that a union finds full counters.
    let whole = rng.pick(&[0, 0, 2, 4]);
    for r in 0..d {
        for g in 0..w / 8 {
            let merge = if rng.below(5) < whole { 0x7f } else { rng.pick(&merges) };
            let at = r * stride;
            let mut c = counts(rng);
            // Without this every union of two such meters would be full somewhere.
            if kind < 8 && merge == 0x7f {
                c[7] = rng.below(if kind < 6 { 3 } else { 128 }) as u8;
            }
            bytes[at + 8 * g..at + 8 * g + 8].copy_from_slice(&c);
            bytes[at + w + g] = merge;
        }
    }
    if kind == 2 {
        for _ in 0..rng.within(1..4) {
            let at = rng.below(d) * stride + w + rng.below(w / 8);
            bytes[at] = rng.next() as u8;
        }
    }
    bytes
}

/// Amounts of either sign near every limit of a signed meter's counters.
pub fn signed_amount(rng: &mut Rng) -> i32 {
    match rng.below(8) {
        0 => 0,
        1 => rng.pick(&[i32::MIN, i32::MIN + 1, i32::MAX, i32::MAX - 1]),
        2 => rng.pick(&[1, -1]),
        3 => rng.pick(&[127, 128, -127, -128]),
        4 => rng.pick(&[32_767, 32_768, -32_767, -32_768]),
        5 => rng.next() as i32,
        6 => (rng.next() as i32) >> rng.below(32),
        _ => rng.within(0..256) as i32 - 128,
    }
}

/// The counters of a valid layout: the slots of each.
pub fn counters(merge: u8) -> Vec<Range<usize>> {
    let merged = |bit: usize| usize::from(merge >> bit & 1);
    let mut all = Vec::new();
    let mut at = 0;
    while at < 8 {
        let level = merged(at & 6) + merged((at & 4) + 1) + merged(3);
        all.push(at..at + (1 << level));
        at += 1 << level;
    }
    all
}

/// What magnitudes of a counter of so many slots stay below.
pub fn signed_limit(slots: usize) -> i128 {
    1 << (8 * slots - 1)
}

/// The number in a counter's bytes, sign and magnitude; of minus zero 0.
pub fn signed_number(counter: &[u8]) -> i128 {
    let limit = signed_limit(counter.len());
    let bits = counter.iter().rev().fold(0, |bits, byte| bits << 8 | i128::from(*byte));
    if bits & limit == 0 {
        bits
    } else {
        limit - bits
    }
}

/// Puts a number into a counter's bytes.
pub fn put_signed(counter: &mut [u8], number: i128) {
    let limit = signed_limit(counter.len());
    assert!(number.abs() < limit);
    let bits = if number < 0 { limit - number } else { number };
    counter.copy_from_slice(&bits.to_le_bytes()[..counter.len()]);
}

/// Puts minus zero into a counter's bytes.
pub fn put_minus_zero(counter: &mut [u8]) {
    counter.fill(0);
    counter[counter.len() - 1] = 0x80;
}

/// A number for a counter of so many slots: at either end, near it, small or of any magnitude. Two numbers for a whole group overflow
/// only where the meter is full.
fn signed_figure(rng: &mut Rng, slots: usize, full: bool) -> i128 {
    let most = signed_limit(slots) - 1;
    let magnitude = match rng.below(8) {
        0 => 0,
        1 | 2 => most,
        3 => most - rng.below(300) as i128 % most,
        4 => rng.below(100) as i128,
        _ => i128::from(rng.next() >> rng.below(64)) % (most + 1),
    };
    let magnitude = if slots == 8 && !full { magnitude / 4 } else { magnitude };
    magnitude * rng.pick(&[1, -1])
}

/// A group of a memory of rows of w slots: the offsets of its count bytes and of its merge byte.
pub fn group_at(w: usize, row: usize, group: usize) -> (Range<usize>, usize) {
    let start = row * (w + w / 8);
    (start + 8 * group..start + 8 * group + 8, start + w + group)
}

/// Plants minus zero in some counter of a memory whose merge bytes are valid.
pub fn plant_minus_zero(rng: &mut Rng, bytes: &mut [u8], w: usize) {
    let row = rng.below(bytes.len() / (w + w / 8));
    let (counts, merge) = group_at(w, row, rng.below(w / 8));
    let all = counters(bytes[merge]);
    let slots = all[rng.below(all.len())].clone();
    put_minus_zero(&mut bytes[counts][slots]);
}

/// The memory of a signed meter: clear, with nothing merged, of any layouts and numbers, mostly merged whole, some full; or with minus
/// zeros, damaged merge bytes or both; or random.
pub fn signed_memory(rng: &mut Rng, d: usize, w: usize) -> Vec<u8> {
    let kind = rng.below(16);
    let mut bytes = vec![0; d * (w + w / 8)];
    if kind == 0 {
        return bytes;
    }
    if kind == 1 {
        return rng.bytes(bytes.len());
    }
    let merges = reference::valid_merges();
    let full = rng.once_in(4);
    let whole = rng.pick(&[0, 0, 2, 4]);
    // Of the sums of two such meters none passes 127, or few do, or many.
    let limit = rng.pick(&[64, 66, 128]);
    for row in 0..d {
        for group in 0..w / 8 {
            let (counts, at) = group_at(w, row, group);
            let merge = if rng.below(5) < whole { 0x7f } else { rng.pick(&merges) };
            if kind > 4 {
                bytes[at] = merge;
            }
            for slots in counters(bytes[at]) {
                let number = match kind {
                    2..=4 => rng.below(limit) as i128 * rng.pick(&[1, -1]),
                    _ => signed_figure(rng, slots.len(), full),
                };
                put_signed(&mut bytes[counts.clone()][slots], number);
            }
        }
    }
    if matches!(kind, 2 | 5 | 6) {
        for _ in 0..rng.within(1..4) {
            plant_minus_zero(rng, &mut bytes, w);
        }
    }
    if matches!(kind, 6 | 7) {
        let (_, merge) = group_at(w, rng.below(d), rng.below(w / 8));
        bytes[merge] = rng.next() as u8;
    }
    bytes
}

/// Every width of a meter.
pub fn widths() -> impl Iterator<Item = usize> {
    (5..=meter::LARGEST_WIDTH.ilog2()).map(|n| 1 << n)
}

/// A depth and a width as told: mostly the meter's own.
pub fn told(rng: &mut Rng, d: usize, w: usize) -> (usize, usize) {
    match rng.below(40) {
        0 => (rng.pick(&[0, 9, 10, 16, 256, usize::MAX, 1 << 32]), w),
        1 => (
            d,
            rng.pick(&[0, 1, 16, 31, 33, 48, 96, 16_383, 16_385, 32_768, 65_536, 1 << 32, usize::MAX]),
        ),
        2 => (0, 33),
        3 => (rng.within(1..9), w),
        // Any power of two, two too wide ones too.
        4 => (d, 32 << rng.below(12)),
        // Other rows of the same memory, too wide ones too.
        5 if d & 1 == 0 => (d / 2, w * 2),
        6 if d <= 4 && w > 32 => (d * 2, w / 2),
        _ => (d, w),
    }
}

/// Bytes of another length: one more or less, or none.
pub fn other_length(rng: &mut Rng, bytes: &[u8]) -> Vec<u8> {
    let mut bytes = bytes.to_vec();
    match rng.below(3) {
        0 => bytes.clear(),
        1 => drop(bytes.pop()),
        _ => bytes.push(0),
    }
    bytes
}

/// Damages words in up to two places.
pub fn damage(rng: &mut Rng, words: &mut Vec<u32>) {
    for _ in 0..rng.below(3) {
        let n = words.len();
        if n == 0 {
            words.push(rng.next() as u32);
            continue;
        }
        let at = match rng.below(4) {
            0 => 0,
            1 => n - 1,
            _ => rng.below(n),
        };
        match rng.below(9) {
            0 => words.truncate(at),
            1 => words.push(rng.pick(&[words[n - 1], 0x3000_0000, 0x4000_0000 | at as u32])),
            2 => words[at] ^= 1 << rng.below(32),
            3 => words[at] = (words[at] & 0x0fff_ffff) | (rng.below(16) as u32) << 28,
            4 => {
                let limits = [255, 256, 65_535, 65_536, 456_975, 456_976, 0xff_ffff, 0xfff_ffff];
                words[at] = (words[at] & 0xf000_0000) | rng.pick(&limits)
            }
            5 => drop(words.remove(at)),
            6 => words.insert(at, words[at]),
            7 => words[0] = 0x1000_0000 | rng.below(1 << 9) as u32,
            _ => words[at] = rng.next() as u32,
        }
    }
}

/// The image of a memory, or of a clear one where it is damaged; mostly damaged itself.
pub fn some_image(rng: &mut Rng, d: usize, w: usize, from: &mut Memory) -> Vec<u32> {
    let mut words = vec![0; d * w + d * w / 32 + 2];
    let mut count = reference::image_write(d, w, from, &mut words).figure as usize;
    if count == 0 {
        let mut clear = Memory::new(&vec![0; d * w / 8 * 9]);
        count = reference::image_write(d, w, &mut clear, &mut words).figure as usize;
    }
    words.truncate(count);
    damage(rng, &mut words);
    words
}

/// The words of an update or asking record.
pub fn record_words(key: &[u8], amount: Option<u32>) -> Vec<u32> {
    let kind = if amount.is_some() { 5 } else { 6 };
    let mut words = vec![kind << 28 | key.len() as u32];
    for part in key.chunks(3) {
        let byte = |i: usize| part.get(i).copied().unwrap_or(0) as u32;
        words.push(7 << 28 | byte(0) << 16 | byte(1) << 8 | byte(2));
    }
    if let Some(amount) = amount {
        words.push(8 << 28 | amount >> 16);
        words.push(8 << 28 | (amount & 0xffff));
    }
    words
}

/// A record or the end after `before` words, with more words behind it; often damaged.
pub fn record(rng: &mut Rng, before: u64, some_key: &[u8]) -> Vec<u32> {
    let mut words = match rng.below(5) {
        0 => vec![4 << 28 | (before % (1 << 28)) as u32],
        1 | 2 => record_words(some_key, Some(amount(rng))),
        _ => record_words(some_key, None),
    };
    if rng.once_in(8) {
        // A set bit in an unused byte of the last key word.
        let last = 1 + (some_key.len().max(1) - 1) / 3;
        if let Some(word) = words.get_mut(last) {
            *word |= 1 << rng.below(28);
        }
    }
    if rng.once_in(2) {
        damage(rng, &mut words);
    }
    if rng.once_in(3) {
        words.extend((0..rng.below(4)).map(|_| rng.next() as u32));
    }
    words
}

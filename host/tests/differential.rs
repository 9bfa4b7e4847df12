//! The proved calls beside an independent implementation of documents 01 and 02, on random lists of calls. After every call number,
//! place and figure are compared, and the whole content of everything that was lent.

mod common;

use common::{
    amount, break_list, damage, key, lend_bytes, lend_words, list, memory, other_length, record, seed, some_image, told,
    unmerged, valid_keys, widths, Lent, Numbers, Rng,
};
use meter::LARGEST_WIDTH;
use reference::{Memory, Record, Watch, WATCH_SIZE};
use std::collections::BTreeMap;
use std::time::Instant;

/// Which numbers each call can give.
const POSSIBLE: &[(&str, &[u32])] = &[
    ("clear", &[0, 1, 2, 3]),
    ("update", &[0, 1, 2, 3, 4, 5, 6]),
    ("estimate", &[0, 1, 2, 3, 4, 5]),
    ("widest", &[0, 1, 2, 3, 5]),
    ("unite", &[0, 1, 2, 3, 5, 6]),
    ("pack", &[0, 5]),
    ("unpack", &[0, 9]),
    ("image_write", &[0, 1, 2, 3, 5, 7]),
    ("image_read", &[0, 1, 2, 3, 8, 9, 10]),
    ("feed_head", &[0, 1, 2, 8, 9]),
    ("feed_record", &[0, 1, 2, 3, 4, 5, 6, 8, 9]),
];

/// Which numbers each call of a watch list can give.
const OF_LISTS: &[(&str, &[u32])] = &[
    ("watch_clear", &[0, 3]),
    ("watch_update", &[0, 1, 2, 3, 4, 5, 6, 11]),
    ("watch_remove", &[0, 3, 4, 5]),
];

/// What calls of a watch list come to, and the ways in which one was broken.
const EVENTS: &[&str] = &[
    "joined",
    "joined at its threshold",
    "joined by 0",
    "renewed",
    "renewed below the threshold",
    "renewed at the first of two places",
    "below the threshold",
    "marked",
    "taken off the first place",
    "taken off the last of 64 places",
    "taken off the first of two places",
    "not there to be taken off",
    "a length above 64",
    "a 0 before a length",
    "a length after a 0",
    "a mark above 1",
];

/// How often each call gave each number.
#[derive(Default)]
struct Tally {
    given: Numbers,
    /// The same of those at a word after the first.
    later: BTreeMap<(&'static str, u32), u64>,
    /// Of feed records, by what they are, where their words pass.
    records: BTreeMap<(&'static str, u32), u64>,
    events: BTreeMap<&'static str, u64>,
}

impl Tally {
    fn compare(&mut self, call: &'static str, proved: meter::Answer, model: reference::Answer) {
        assert_eq!(
            (proved.number, proved.place, proved.figure),
            (model.number, model.place, model.figure),
            "{call}: number, place and figure, proved and reference"
        );
        self.given.note(call, proved.number);
        if proved.place > 0 {
            *self.later.entry((call, proved.number)).or_default() += 1;
        }
    }

    fn event(&mut self, event: &'static str) {
        *self.events.entry(event).or_default() += 1;
    }

    fn finish(&self) {
        self.given.finish(POSSIBLE);
        println!("  at a word after the first: {:?}", self.later);
        for known in [("image_read", 8), ("image_read", 9), ("feed_record", 8), ("feed_record", 9)] {
            assert!(self.later.contains_key(&known), "{known:?} at a later word");
        }
        println!("  records whose words pass: {:?}", self.records);
        for known in [
            ("update", 0),
            ("update", 5),
            ("update", 6),
            ("asking", 0),
            ("asking", 5),
            ("end", 0),
        ] {
            assert!(self.records.contains_key(&known), "{known:?}");
        }
    }
}

/// A memory lent to the proved calls, and the same lent to the reference.
#[derive(Clone)]
struct Pair {
    proved: Lent<u8>,
    model: Memory,
}

impl Pair {
    fn new(bytes: &[u8]) -> Pair {
        Pair {
            proved: lend_bytes(bytes),
            model: Memory::new(bytes),
        }
    }

    fn compare(&self, call: &str) {
        assert!(self.proved.guards_stand(), "{call}: bytes beside the memory");
        assert!(self.proved.get() == self.model.to_bytes(), "{call}: the memory");
    }
}

/// A watch list lent to the proved calls, and the same lent to the reference.
#[derive(Clone)]
struct Lists {
    proved: Lent<u8>,
    model: Vec<u8>,
}

impl Lists {
    fn new(bytes: &[u8]) -> Lists {
        Lists {
            proved: lend_bytes(bytes),
            model: bytes.to_vec(),
        }
    }

    fn compare(&self, call: &str) {
        assert!(self.proved.guards_stand(), "{call}: bytes beside the list");
        assert!(self.proved.get() == self.model, "{call}: the list");
    }
}

struct List {
    rng: Rng,
    tally: Tally,
}

impl List {
    fn clear(&mut self, d: usize, w: usize, p: &mut Pair) {
        let a = meter::clear(d, w, p.proved.get_mut());
        self.tally.compare("clear", a, reference::clear(d, w, &mut p.model));
        p.compare("clear");
    }

    fn update(&mut self, d: usize, w: usize, p: &mut Pair, key: &[u8], amount: u32) {
        let a = meter::update(d, w, p.proved.get_mut(), key, amount);
        self.tally
            .compare("update", a, reference::update(d, w, &mut p.model, key, amount));
        p.compare("update");
    }

    fn estimate(&mut self, d: usize, w: usize, p: &mut Pair, key: &[u8]) {
        let a = meter::estimate(d, w, p.proved.get(), key);
        self.tally
            .compare("estimate", a, reference::estimate(d, w, &mut p.model, key));
        p.compare("estimate");
    }

    fn widest(&mut self, d: usize, w: usize, p: &mut Pair) {
        let a = meter::widest(d, w, p.proved.get());
        self.tally.compare("widest", a, reference::widest(d, w, &mut p.model));
        p.compare("widest");
    }

    fn unite(&mut self, d: usize, w: usize, p: &mut Pair, source: &mut Pair) {
        let a = meter::unite(d, w, p.proved.get_mut(), source.proved.get());
        self.tally
            .compare("unite", a, reference::unite(d, w, &mut p.model, &mut source.model));
        p.compare("unite");
        source.compare("unite, source");
    }

    fn image_write(&mut self, d: usize, w: usize, p: &mut Pair) {
        // The reference's own count tells which lengths are worth a try.
        let mut words = vec![0; 3 * d.min(8) * w.min(LARGEST_WIDTH) + 2];
        let count = reference::image_write(d, w, &mut p.model, &mut words).figure as usize;
        let lent = match self.rng.below(6) {
            0 => 0,
            1 => count.saturating_sub(1),
            2 => count + 1,
            3 => self.rng.below(count + 2),
            4 => count + self.rng.below(50),
            _ => count,
        };
        let before: Vec<u32> = (0..lent).map(|_| self.rng.next() as u32).collect();
        let mut proved = lend_words(&before);
        let mut model = before;
        let a = meter::image_write(d, w, p.proved.get(), proved.get_mut());
        self.tally
            .compare("image_write", a, reference::image_write(d, w, &mut p.model, &mut model));
        assert!(proved.guards_stand(), "image_write: words beside the lent ones");
        assert!(proved.get() == model, "image_write: the words");
        p.compare("image_write");
    }

    fn image_read(&mut self, d: usize, w: usize, p: &mut Pair, words: &[u32]) {
        let lent = lend_words(words);
        let a = meter::image_read(d, w, p.proved.get_mut(), lent.get());
        self.tally
            .compare("image_read", a, reference::image_read(d, w, &mut p.model, words));
        assert!(lent.guards_stand() && lent.get() == words, "image_read: the words");
        p.compare("image_read");
    }

    fn pack(&mut self, merges: [u8; 4]) {
        self.tally.compare("pack", meter::pack(merges), reference::pack(merges));
    }

    fn unpack(&mut self, code: u32) {
        let (proved, proved_merges) = meter::unpack(code);
        let (model, model_merges) = reference::unpack(code);
        self.tally.compare("unpack", proved, model);
        assert_eq!(proved_merges, model_merges, "unpack: the merge bytes");
    }

    fn feed_head(&mut self, words: &[u32]) {
        let lent = lend_words(words);
        self.tally
            .compare("feed_head", meter::feed_head(lent.get()), reference::feed_head(words));
        assert!(lent.guards_stand() && lent.get() == words, "feed_head: the words");
    }

    fn feed_record(&mut self, d: usize, w: usize, p: &mut Pair, before: u64, words: &[u32]) {
        let lent = lend_words(words);
        let a = meter::feed_record(d, w, p.proved.get_mut(), before, lent.get());
        let (model, record) = reference::feed_record(d, w, &mut p.model, before, words);
        self.tally.compare("feed_record", a, model);
        let kind = match record {
            Some(Record::Update(..)) => "update",
            Some(Record::Ask(_)) => "asking",
            Some(Record::End) => "end",
            None => "none",
        };
        *self.tally.records.entry((kind, a.number)).or_default() += 1;
        assert!(lent.guards_stand() && lent.get() == words, "feed_record: the words");
        p.compare("feed_record");
    }

    fn watch_clear(&mut self, l: &mut Lists) {
        let a = meter::watch_clear(l.proved.get_mut());
        self.tally.compare("watch_clear", a, reference::watch_clear(&mut l.model));
        l.compare("watch_clear");
    }

    fn watch_update(&mut self, (d, w): (usize, usize), p: &mut Pair, l: &mut Lists, key: &[u8], amount: u32, threshold: u64) {
        let lent = lend_bytes(key);
        let before = l.model.clone();
        let a = meter::watch_update(d, w, p.proved.get_mut(), l.proved.get_mut(), lent.get(), amount, threshold);
        let model = reference::watch_update(d, w, &mut p.model, &mut l.model, key, amount, threshold);
        self.tally.compare("watch_update", a, model);
        assert!(lent.guards_stand() && lent.get() == key, "watch_update: the key");
        p.compare("watch_update");
        l.compare("watch_update");
        if a.number != 0 {
            assert!(l.model == before, "watch_update: a refused call changes nothing");
            return;
        }
        let [before, after] = [&before, &l.model].map(|bytes| Watch::parse(bytes).expect("a list"));
        let estimate = after.find(key).map(|at| after.places[at].estimate);
        match (before.find(key), estimate) {
            (Some(at), _) => {
                self.tally.event("renewed");
                if estimate < Some(threshold) {
                    self.tally.event("renewed below the threshold");
                }
                if before.places[at + 1..].iter().any(|place| place.key == key) {
                    self.tally.event("renewed at the first of two places");
                }
            }
            (None, Some(estimate)) => {
                self.tally.event("joined");
                if estimate == threshold {
                    self.tally.event("joined at its threshold");
                }
                if amount == 0 {
                    self.tally.event("joined by 0");
                }
            }
            (None, None) if after.marked && !before.marked => self.tally.event("marked"),
            (None, None) if !after.marked => self.tally.event("below the threshold"),
            (None, None) => {}
        }
    }

    fn watch_remove(&mut self, l: &mut Lists, key: &[u8]) {
        let lent = lend_bytes(key);
        let before = l.model.clone();
        let a = meter::watch_remove(l.proved.get_mut(), lent.get());
        self.tally
            .compare("watch_remove", a, reference::watch_remove(&mut l.model, key));
        assert!(lent.guards_stand() && lent.get() == key, "watch_remove: the key");
        l.compare("watch_remove");
        if a.number != 0 {
            assert!(l.model == before, "watch_remove: a refused call changes nothing");
            return;
        }
        let before = Watch::parse(&before).expect("a list");
        match before.find(key) {
            None => self.tally.event("not there to be taken off"),
            Some(0) => self.tally.event("taken off the first place"),
            Some(63) => self.tally.event("taken off the last of 64 places"),
            Some(_) => {}
        }
        if before.places.iter().filter(|place| place.key == key).count() > 1 {
            self.tally.event("taken off the first of two places");
        }
    }

    /// A threshold: 0, 1, small, large, or close to what the key comes to.
    fn threshold(&mut self, (d, w): (usize, usize), p: &mut Pair, key: &[u8], amount: u32) -> u64 {
        let estimate = reference::estimate(d, w, &mut p.model, key).figure;
        match self.rng.below(16) {
            0 => 0,
            1..=5 => 1,
            6 | 7 => self.rng.within(2..2_000) as u64,
            8 => u64::MAX - self.rng.below(2) as u64,
            9 => self.rng.next() >> self.rng.below(64),
            10 => estimate,
            _ => estimate
                .saturating_add(u64::from(amount) + 1)
                .saturating_sub(self.rng.below(3) as u64),
        }
    }

    /// A list of calls on two meters of one geometry and two watch lists, by as many keys as a list has room for, fewer and more.
    fn run_watched(&mut self, d: usize, w: usize, calls: usize) {
        let count = self.rng.pick(&[4, 30, 90, 150]);
        let keys = valid_keys(&mut self.rng, count);
        let mut meters: Vec<Pair> = (0..2).map(|_| Pair::new(&memory(&mut self.rng, d, w))).collect();
        let mut lists: Vec<Lists> = (0..2).map(|_| Lists::new(&list(&mut self.rng, &keys))).collect();
        for _ in 0..calls {
            let (at, on) = (self.rng.below(2), self.rng.below(2));
            let (mut target, mut watch) = (meters[at].clone(), lists[on].clone());
            if self.rng.once_in(25) {
                target = Pair::new(&other_length(&mut self.rng, target.proved.get()));
            } else if self.rng.once_in(25) {
                watch = Lists::new(&other_length(&mut self.rng, &watch.model));
            } else if self.rng.once_in(12) {
                let event = break_list(&mut self.rng, &mut watch.model);
                self.tally.event(event);
                watch = Lists::new(&watch.model);
            }
            let told = told(&mut self.rng, d, w);
            let some_key = if self.rng.once_in(12) {
                key(&mut self.rng)
            } else {
                keys[self.rng.below(count)].clone()
            };
            let amount = amount(&mut self.rng);
            match self.rng.below(32) {
                0 if self.rng.once_in(3) => self.watch_clear(&mut watch),
                1 => self.clear(told.0, told.1, &mut target),
                2 => self.update(told.0, told.1, &mut target, &some_key, amount),
                3..=6 => self.watch_remove(&mut watch, &some_key),
                7 => {
                    let last = Watch::parse(&watch.model).and_then(|w| w.places.into_iter().rfind(|place| !place.key.is_empty()));
                    self.watch_remove(&mut watch, &last.map_or(some_key, |place| place.key))
                }
                8 => target = Pair::new(&memory(&mut self.rng, d, w)),
                9 => watch = Lists::new(&list(&mut self.rng, &keys)),
                _ => {
                    let threshold = self.threshold((d, w), &mut target, &some_key, amount);
                    self.watch_update(told, &mut target, &mut watch, &some_key, amount, threshold)
                }
            }
            if target.proved.get().len() == d * w / 8 * 9 {
                meters[at] = target;
            }
            if Watch::parse(&watch.model).is_some() {
                lists[on] = watch;
            }
        }
    }

    /// A list of calls on three meters of one geometry.
    fn run(&mut self, d: usize, w: usize, calls: usize) {
        let mut meters: Vec<Pair> = (0..3).map(|_| Pair::new(&memory(&mut self.rng, d, w))).collect();
        let mut keys: Vec<Vec<u8>> = (0..12).map(|_| key(&mut self.rng)).collect();
        keys.push(Vec::new());
        for _ in 0..calls {
            let at = self.rng.below(3);
            let mut target = meters[at].clone();
            let mut source = meters[(at + self.rng.below(3)) % 3].clone();
            if self.rng.once_in(25) {
                target = Pair::new(&other_length(&mut self.rng, target.proved.get()));
            } else if self.rng.once_in(25) {
                source = Pair::new(&other_length(&mut self.rng, source.proved.get()));
            }
            let (td, tw) = told(&mut self.rng, d, w);
            let some_key = self.rng.below(keys.len());
            let some_key = keys[some_key].clone();
            match self.rng.below(32) {
                0 => self.clear(td, tw, &mut target),
                1..=11 => {
                    let amount = amount(&mut self.rng);
                    self.update(td, tw, &mut target, &some_key, amount)
                }
                12..=16 => self.estimate(td, tw, &mut target, &some_key),
                17 => self.widest(td, tw, &mut target),
                18..=19 => self.unite(td, tw, &mut target, &mut source),
                20 => self.image_write(td, tw, &mut target),
                21..=22 => {
                    let words = some_image(&mut self.rng, d, w, &mut source.model);
                    self.image_read(td, tw, &mut target, &words)
                }
                23 => {
                    let mut words = vec![0x1000_0000 | self.rng.below(512) as u32];
                    damage(&mut self.rng, &mut words);
                    self.feed_head(&words)
                }
                24..=30 => {
                    let before = self.rng.next() >> self.rng.below(64);
                    let words = record(&mut self.rng, before, &some_key);
                    self.feed_record(td, tw, &mut target, before, &words)
                }
                _ => target = Pair::new(&memory(&mut self.rng, d, w)),
            }
            if target.proved.get().len() == d * w / 8 * 9 {
                meters[at] = target;
            }
        }
    }
}

/// A hundred calls to a list; the share of the largest meters is small, since each of their calls is compared whole.
#[test]
fn random_lists_of_calls() {
    let seed = seed("random_lists_of_calls");
    let start = Instant::now();
    let mut list = List {
        rng: Rng::new(seed),
        tally: Tally::default(),
    };
    while list.tally.given.calls() < 1_000_000 {
        let d = list.rng.within(1..9);
        let w = list.rng.pick(&[32, 32, 32, 32, 64, 64, 128]);
        list.run(d, w, 100);
    }
    for w in widths() {
        for d in [1, 3, 8] {
            list.run(d, w, (2_000_000 / (d * w)).clamp(30, 1000));
        }
    }
    for _ in 0..100_000 {
        let valid = reference::valid_merges();
        let merges = [0; 4].map(|_| {
            if list.rng.once_in(20) {
                list.rng.next() as u8
            } else {
                list.rng.pick(&valid)
            }
        });
        list.pack(merges);
        let code = list.rng.next() as u32 >> list.rng.below(32);
        list.unpack(code);
    }
    list.tally.finish();
    println!("{:.1} s", start.elapsed().as_secs_f64());
}

/// As above, with updates through watch lists and takings off: sound lists, lists made by hand, full ones and broken ones.
#[test]
fn random_lists_of_watch_calls() {
    let seed = seed("random_lists_of_watch_calls");
    let start = Instant::now();
    let mut list = List {
        rng: Rng::new(seed),
        tally: Tally::default(),
    };
    while list.tally.given.calls() < 300_000 {
        let d = list.rng.within(1..9);
        let w = list.rng.pick(&[32, 32, 64]);
        list.run_watched(d, w, 200);
    }
    for w in widths().skip(2) {
        for d in [1, 4, 8] {
            list.run_watched(d, w, (2_000_000 / (d * w)).clamp(30, 1_000));
        }
    }
    list.tally.given.finish(OF_LISTS);
    println!("  {:?}; {:.1} s", list.tally.events, start.elapsed().as_secs_f64());
    for event in EVENTS {
        assert!(list.tally.events.get(event) > Some(&20), "{event}");
    }
}

/// Every key length at every place and every mark, in lists with few and with many places in use: a call takes them, or refuses.
#[test]
fn all_lengths_and_marks() {
    let mut list = List {
        rng: Rng::new(0),
        tally: Tally::default(),
    };
    let clear = Pair::new(&[0; 36]);
    for used in [0, 1, 2, 62, 63, 64] {
        let mut bytes = vec![0; WATCH_SIZE];
        for place in 0..used {
            bytes[place] = 1 + place as u8;
            bytes[65 + 64 * place..][..64].fill(b'k');
        }
        for at in 0..65 {
            for byte in 0..=255 {
                let mut lists = Lists::new(&bytes);
                lists.model[at] = byte;
                lists.proved.get_mut()[at] = byte;
                let key = vec![b'k'; 1 + (at + usize::from(byte)) % 64];
                list.watch_remove(&mut lists.clone(), &key);
                list.watch_update((1, 32), &mut clear.clone(), &mut lists, &key, 1, 1);
            }
        }
    }
    println!("{:?}", list.tally.given);
    for call in ["watch_remove", "watch_update"] {
        assert!([0, 5].iter().all(|n| list.tally.given.has(call, *n)), "{call}");
    }
}

/// Every layout code, those just past the last, and every merge byte at each place.
#[test]
fn all_layout_codes() {
    let mut list = List {
        rng: Rng::new(0),
        tally: Tally::default(),
    };
    for code in (0..457_100).chain([1 << 28, u32::MAX]) {
        list.unpack(code);
        let (answer, merges) = meter::unpack(code);
        if answer.number == 0 {
            assert_eq!(meter::pack(merges).figure, code as u64);
        }
    }
    for merge in 0..=255 {
        for at in 0..4 {
            for rest in [0, 0x7f, 0x80] {
                let mut merges = [rest; 4];
                merges[at] = merge;
                list.pack(merges);
            }
        }
    }
}

/// Unions of meters with nothing merged but one group: every merge byte at every place, in the target, in the source and in both. Of the
/// other sums none passes 255, or some do, or in every group.
#[test]
fn unions_with_one_merge_byte() {
    let mut list = List {
        rng: Rng::new(seed("unions_with_one_merge_byte")),
        tally: Tally::default(),
    };
    for w in [32, 64, 128] {
        for g in 0..w / 8 {
            let at = g % 2 * (w / 8 * 9) + w + g;
            for merge in 0..=255 {
                for merged in [[true, false], [false, true], [true, true]] {
                    for limit in [128, 130, 256] {
                        let [mut target, mut source] = merged.map(|merged| {
                            let mut bytes = unmerged(&mut list.rng, 2, w, limit);
                            if merged {
                                bytes[at] = merge;
                            }
                            Pair::new(&bytes)
                        });
                        list.unite(2, w, &mut target, &mut source);
                    }
                }
            }
        }
    }
    println!("{:?}", list.tally.given);
    for number in [0, 5, 6] {
        assert!(list.tally.given.has("unite", number), "number {number}");
    }
}

/// Unions of meters with nothing merged: at every slot a sum of 255 or less, and one past it.
#[test]
fn unions_around_255() {
    let mut list = List {
        rng: Rng::new(seed("unions_around_255")),
        tally: Tally::default(),
    };
    for w in [32, 64, 128] {
        for slot in 0..w {
            let at = slot % 2 * (w / 8 * 9) + slot;
            for (a, b, stays) in [
                (0, 255, true),
                (255, 0, true),
                (127, 128, true),
                (128, 128, false),
                (255, 1, false),
                (1, 255, false),
                (255, 255, false),
            ] {
                let [mut target, mut source] = [a, b].map(|counter| {
                    let mut bytes = unmerged(&mut list.rng, 2, w, 128);
                    bytes[at] = counter;
                    Pair::new(&bytes)
                });
                list.unite(2, w, &mut target, &mut source);
                let united = target.proved.get();
                let merged = united.chunks(w / 8 * 9).any(|row| row[w..].iter().any(|merge| *merge != 0));
                assert_eq!(merged, !stays, "w {w}, slot {slot}: {a} and {b}");
            }
        }
    }
}

/// A row of 16,384 slots is taken by every call that is told a width. A wider one is refused with 2, whatever is lent, a memory of its
/// own length too, and nothing is changed.
#[test]
fn the_widest_row() {
    for (w, lent) in [LARGEST_WIDTH, 2 * LARGEST_WIDTH, 4 * LARGEST_WIDTH]
        .into_iter()
        .flat_map(|w| [(w, w / 8 * 9), (w, 36), (w, 0)])
    {
        let exact = lent == w / 8 * 9;
        // Where the width is taken, the length and then the merge bytes, which are not valid, decide.
        let number = |otherwise| match (w <= LARGEST_WIDTH, exact) {
            (false, _) => 2,
            (true, false) => 3,
            (true, true) => otherwise,
        };
        let before = vec![0xff; lent];
        let (mut memory, mut list, mut words) = (before.clone(), vec![0; WATCH_SIZE], [7; 3]);
        let (m, key) = (&mut memory, b"tenant-17");
        for (call, answer, otherwise) in [
            ("update", meter::update(1, w, m, key, 1), 5),
            ("estimate", meter::estimate(1, w, m, key), 5),
            ("widest", meter::widest(1, w, m), 5),
            ("unite", meter::unite(1, w, m, &before), 5),
            ("image_write", meter::image_write(1, w, m, &mut words), 5),
            ("image_read", meter::image_read(1, w, m, &[0x1000_0051]), 10),
            ("feed_record", meter::feed_record(1, w, m, 1, &[0x6000_0001, 0x7041_0000]), 5),
            ("watch_update", meter::watch_update(1, w, m, &mut list, key, 1, 1), 5),
            ("signed_update", meter::signed_update(1, w, m, key, 1), 5),
            ("signed_unite", meter::signed_unite(1, w, m, &before), 5),
            ("signed_subtract", meter::signed_subtract(1, w, m, &before), 5),
        ] {
            let given = (answer.number, answer.place, answer.figure);
            assert_eq!(given, (number(otherwise), 0, 0), "{call}: w {w}, {lent} bytes");
        }
        let answer = meter::signed_estimate(1, w, m, key);
        assert_eq!(
            (answer.number, answer.place, answer.figure),
            (number(5), 0, 0),
            "w {w}, {lent} bytes"
        );
        assert!(
            memory == before && list == [0; WATCH_SIZE] && words == [7; 3],
            "nothing is changed"
        );
        for clear in [meter::clear, meter::signed_clear] {
            let mut memory = before.clone();
            let answer = clear(1, w, &mut memory);
            assert_eq!((answer.number, answer.place, answer.figure), (number(0), 0, 0));
            let left = if answer.number == 0 { vec![0; lent] } else { before.clone() };
            assert!(memory == left, "w {w}, {lent} bytes: what a clearing leaves");
        }
    }
    // A feed's head by its logarithm; every other is tried at random.
    for log in 5..17 {
        let payload = log << 4 | 1;
        let expected = if log <= 14 { (0, 0, u64::from(payload)) } else { (2, 0, 0) };
        let answer = meter::feed_head(&[0x1000_0000 | payload]);
        assert_eq!((answer.number, answer.place, answer.figure), expected, "log2 w {log}");
    }
}

/// Lent slices may be empty.
#[test]
fn nothing_lent() {
    assert_eq!(meter::clear(1, 32, &mut []).number, 3);
    assert_eq!(meter::update(1, 32, &mut [], &[], 1).number, 3);
    assert_eq!(meter::update(1, 32, &mut [0; 36], &[], 1).number, 4);
    assert_eq!(meter::estimate(1, 32, &[], b"k").number, 3);
    assert_eq!(meter::widest(0, 0, &[]).number, 1);
    assert_eq!(meter::unite(1, 32, &mut [0; 36], &[]).number, 3);
    assert_eq!(meter::image_write(1, 32, &[0; 36], &mut []).number, 7);
    assert_eq!(meter::image_read(1, 32, &mut [0; 36], &[]).number, 8);
    assert_eq!(meter::feed_head(&[]).number, 8);
    assert_eq!(meter::feed_record(1, 32, &mut [0; 36], 0, &[]).number, 8);
    assert_eq!(meter::watch_clear(&mut []).number, 3);
    assert_eq!(meter::watch_update(1, 32, &mut [0; 36], &mut [], &[], 1, 1).number, 3);
    assert_eq!(
        meter::watch_update(1, 32, &mut [0; 36], &mut [0; WATCH_SIZE], &[], 1, 1).number,
        4
    );
    assert_eq!(meter::watch_remove(&mut [], &[]).number, 3);
    assert_eq!(meter::watch_remove(&mut [0; WATCH_SIZE], &[]).number, 4);
}

//! `Meter` and `WatchList` beside the independent implementation. A meter is told a depth and a width once, so what the plain calls are
//! tried with at random (tests/differential.rs) is tried here with every way to make a meter or a list and every way to be refused.

mod common;

use common::{amount, break_list, damage, key, list, memory, record, seed, some_image, valid_keys, Numbers, Rng, LAST_NUMBER};
use meter::{most_image_words, Entry, Meter, Reason, Refused, WatchList, LARGEST_WIDTH, WATCH_SIZE};
use reference::{Memory, Watch};

#[derive(Default)]
struct Tally(Numbers);

impl Tally {
    /// What the reference answered, as a result.
    fn compare<T>(
        &mut self,
        method: &'static str,
        proved: Result<T, Refused>,
        model: reference::Answer,
        figure: impl Fn(T) -> u64,
    ) {
        let proved = proved.map(figure).map_err(|refused| (refused.number(), refused.place));
        let expected = if model.number == 0 {
            Ok(model.figure)
        } else {
            Err((model.number, model.place))
        };
        assert_eq!(proved, expected, "{method}: proved and reference");
        self.0.note(method, model.number);
    }
}

fn model(meter: &Meter) -> Memory {
    Memory::new(meter.bytes())
}

/// A depth and a width, some of them of no meter.
fn geometry(rng: &mut Rng) -> (usize, usize) {
    let d = if rng.once_in(8) {
        rng.pick(&[0, 9, 15, 1 << 33, usize::MAX])
    } else {
        rng.within(1..9)
    };
    let w = if rng.once_in(8) {
        rng.pick(&[0, 1, 16, 33, 96, 16_385, 32_768, 65_536, 1 << 40, usize::MAX])
    } else {
        32 << rng.below(3)
    };
    (d, w)
}

/// A meter of random counters.
fn some_meter(rng: &mut Rng, d: usize, w: usize) -> Meter {
    loop {
        if let Ok(meter) = Meter::from_bytes(d, w, memory(rng, d, w)) {
            return meter;
        }
    }
}

/// The reference's answer to words that say their own d and w: the head by 8, 9, 1 and 2, then the image.
fn image_by_its_head(words: &[u32]) -> (reference::Answer, Option<(usize, usize, Vec<u8>)>) {
    let head = reference::feed_head(words);
    if head.number != 0 {
        return (head, None);
    }
    let (d, w) = (head.figure as usize & 15, 1 << (head.figure >> 4));
    let mut memory = Memory::new(&vec![0xee; d * w / 8 * 9]);
    let answer = reference::image_read(d, w, &mut memory, words);
    let read = (answer.number == 0).then(|| (d, w, memory.to_bytes()));
    (answer, read)
}

#[test]
fn made() {
    let mut rng = Rng::new(seed("made"));
    let mut tally = Tally::default();
    for _ in 0..20_000 {
        let (d, w) = geometry(&mut rng);

        let made = Meter::new(d, w);
        if let Ok(meter) = &made {
            assert_eq!((meter.d(), meter.w()), (d, w));
            assert!(meter.bytes().len() == d * w / 8 * 9 && meter.bytes().iter().all(|&b| b == 0));
        }
        let length = if made.is_ok() { d * w / 8 * 9 } else { 0 };
        let answer = reference::clear(d, w, &mut Memory::new(&vec![0; length]));
        tally.compare("new", made, answer, |_| 0);

        let (of_d, of_w) = (rng.within(1..9), 32 << rng.below(3));
        let mut bytes = memory(&mut rng, of_d, of_w);
        if rng.once_in(10) {
            bytes.pop();
        }
        let (d, w) = if rng.once_in(2) { (d, w) } else { (of_d, of_w) };
        let made = Meter::from_bytes(d, w, bytes.clone());
        if let Ok(meter) = &made {
            assert_eq!((meter.d(), meter.w(), meter.bytes()), (d, w, &bytes[..]));
        }
        let answer = reference::widest(d, w, &mut Memory::new(&bytes));
        tally.compare("from_bytes", made.map(|m| m.widest().expect("a level")), answer, u64::from);

        let mut words = some_image(&mut rng, of_d, of_w, &mut Memory::new(&bytes));
        if rng.once_in(10) && !words.is_empty() {
            words[0] = 0x1000_0000 | rng.below(600) as u32;
        }
        let (answer, read) = image_by_its_head(&words);
        let made = Meter::from_image(&words);
        if let Ok(meter) = &made {
            let found = (meter.d(), meter.w(), meter.bytes().to_vec());
            assert_eq!(Some(found), read);
            assert!(meter.image().as_deref() == Ok(&words), "its image is what was read");
        }
        tally.compare("from_image", made, answer, |_| words.len() as u64);

        let made = Meter::from_feed_head(&words);
        let answer = reference::feed_head(&words);
        if let Ok(meter) = &made {
            assert!(Ok(meter) == Meter::new(meter.d(), meter.w()).as_ref());
        }
        tally.compare("from_feed_head", made, answer, |m| {
            m.d() as u64 | u64::from(m.w().ilog2()) << 4
        });
    }
    tally.0.finish(&[
        ("new", &[0, 1, 2]),
        ("from_bytes", &[0, 1, 2, 3, 5]),
        ("from_image", &[0, 1, 2, 8, 9]),
        ("from_feed_head", &[0, 1, 2, 8, 9]),
    ]);
}

#[test]
fn methods() {
    let mut rng = Rng::new(seed("methods"));
    let mut tally = Tally::default();
    for _ in 0..1_500 {
        let (d, w) = (rng.within(1..9), 32 << rng.below(3));
        let mut meter = some_meter(&mut rng, d, w);
        let mut memory = model(&meter);
        let some_key = key(&mut rng);
        for _ in 0..20 {
            let other_key = if rng.once_in(2) { some_key.clone() } else { key(&mut rng) };
            match rng.below(12) {
                0 if rng.once_in(10) => {
                    meter.clear();
                    assert_eq!(reference::clear(d, w, &mut memory).number, 0);
                }
                0..=3 => {
                    let n = amount(&mut rng);
                    let answer = reference::update(d, w, &mut memory, &other_key, n);
                    tally.compare("update", meter.update(&other_key, n), answer, |()| 0);
                }
                4 | 5 => {
                    let answer = reference::estimate(d, w, &mut memory, &other_key);
                    tally.compare("estimate", meter.estimate(&other_key), answer, |figure| figure);
                }
                6 => {
                    let answer = reference::widest(d, w, &mut memory);
                    tally.compare("widest", meter.widest(), answer, u64::from);
                }
                7 => {
                    let source = some_meter(&mut rng, d, w);
                    let answer = reference::unite(d, w, &mut memory, &mut model(&source));
                    tally.compare("unite", meter.unite(&source), answer, |()| 0);
                }
                8 => {
                    let mut expected = vec![0x7777_7777; rng.below(2 * d * w)];
                    let mut words = expected.clone();
                    let answer = reference::image_write(d, w, &mut memory, &mut expected);
                    tally.compare("write_image", meter.write_image(&mut words), answer, |count| count as u64);
                    assert!(words == expected, "the words of an image and those past it");

                    let image = meter.image().expect("an image");
                    let mut expected = vec![0; most_image_words(d, w).expect("a meter")];
                    let count = reference::image_write(d, w, &mut memory, &mut expected).figure as usize;
                    assert!(image == expected[..count], "the image");
                }
                9 => {
                    let of_d = if rng.once_in(4) { rng.within(1..9) } else { d };
                    let mut source = model(&some_meter(&mut rng, of_d, w));
                    let words = some_image(&mut rng, of_d, w, &mut source);
                    let answer = reference::image_read(d, w, &mut memory, &words);
                    tally.compare("read_image", meter.read_image(&words), answer, |count| count as u64);
                }
                _ => {
                    let before = rng.next() >> rng.below(64);
                    let words = record(&mut rng, before, &other_key);
                    let (answer, _) = reference::feed_record(d, w, &mut memory, before, &words);
                    tally.compare("record", meter.record(before, &words), answer, |figure| figure);
                }
            }
            assert!(meter.bytes() == memory.to_bytes(), "the memory after a call");
            assert_eq!((meter.d(), meter.w()), (d, w));
        }
        let again = Meter::from_bytes(d, w, meter.clone().into_bytes());
        assert!(again.as_ref() == Ok(&meter), "no call leaves what is no meter");
    }
    tally.0.finish(&[
        ("update", &[0, 4, 6]),
        ("estimate", &[0, 4]),
        ("widest", &[0]),
        ("unite", &[0, 6]),
        ("write_image", &[0, 7]),
        ("read_image", &[0, 8, 9, 10]),
        ("record", &[0, 4, 6, 8, 9]),
    ]);
}

/// Meters whose memories are equally long are not united, where the plain call, told one geometry, cannot see it.
#[test]
fn equal_lengths() {
    let refused = Refused {
        reason: Reason::OtherGeometry,
        place: 0,
    };
    let mut tried = 0;
    for (d, w) in (1..=8).flat_map(|d| (5..=9).map(move |log| (d, 1 << log))) {
        for (of_d, of_w) in (1..=8).flat_map(|d| (5..=9).map(move |log| (d, 1 << log))) {
            let mut meter = Meter::new(d, w).expect("a meter");
            meter.update(b"tenant", 300).expect("accepted");
            let mut source = Meter::new(of_d, of_w).expect("a meter");
            source.update(b"tenant", 70_000).expect("accepted");
            let before = meter.clone();
            let outcome = meter.unite(&source);
            if (d, w) == (of_d, of_w) {
                assert_eq!((outcome, meter.estimate(b"tenant")), (Ok(()), Ok(70_300)));
                continue;
            }
            assert_eq!(outcome, Err(refused));
            assert!(meter == before, "nothing changed");
            assert_eq!(meter.read_image(&source.image().expect("an image")), Err(refused));
            assert!(meter == before, "nothing changed");
            if d * w == of_d * of_w {
                let mut plain = meter.clone().into_bytes();
                assert_eq!(meter::unite(d, w, &mut plain, source.bytes()).number, 0);
                tried += 1;
            }
        }
    }
    println!("{tried} pairs of equal length");
    assert_eq!(tried, 48);
    // The same bytes with other rows are another meter.
    let bytes = Meter::new(2, 64).expect("a meter").into_bytes();
    assert_ne!(Meter::from_bytes(2, 64, bytes.clone()), Meter::from_bytes(1, 128, bytes));
}

/// Every bit of an image turned over, every word doubled, cut short at every word: the answer, number and place, is the reference's.
#[test]
fn damaged_images() {
    let mut rng = Rng::new(seed("damaged_images"));
    let (mut accepted, mut refused) = (0, 0);
    for (d, w) in [(1, 32), (2, 32), (1, 64), (3, 64)] {
        let meter = some_meter(&mut rng, d, w);
        let image = meter.image().expect("an image");
        for at in 0..image.len() {
            let mut versions = vec![image[..at].to_vec()];
            versions.extend((0..32).map(|bit| {
                let mut words = image.clone();
                words[at] ^= 1 << bit;
                words
            }));
            let mut longer = image.clone();
            longer.insert(at, image[at]);
            versions.push(longer);
            let mut random = image.clone();
            damage(&mut rng, &mut random);
            versions.push(random);
            for words in versions {
                let (expected, read) = image_by_its_head(&words);
                match Meter::from_image(&words) {
                    Ok(other) => {
                        assert_eq!(Some((other.d(), other.w(), other.into_bytes())), read);
                        accepted += 1;
                    }
                    Err(e) => {
                        assert_eq!((e.number(), e.place), (expected.number, expected.place));
                        assert!(e.place <= words.len() as u64);
                        refused += 1;
                    }
                }
            }
        }
    }
    println!("{accepted} changed images accepted, {refused} refused");
    assert!(accepted > 100 && refused > 1_000);
}

/// What a list says of itself is what its bytes hold.
fn told_right(watch: &WatchList, bytes: &[u8], some_key: &[u8]) {
    assert!(watch.bytes() == bytes, "the list after a call");
    let expected = Watch::parse(bytes).expect("no call leaves what is no list");
    let used = expected.used();
    let entries: Vec<Entry> = expected.places[..used]
        .iter()
        .map(|place| Entry {
            key: &place.key,
            estimate: place.estimate,
        })
        .collect();
    assert_eq!((watch.len(), watch.is_empty()), (used, used == 0));
    assert_eq!(watch.is_marked(), expected.marked);
    assert_eq!(watch.iter().collect::<Vec<_>>(), entries);
    assert_eq!(watch.into_iter().len(), used);
    assert!(watch.iter().rev().eq(entries.into_iter().rev()), "from the last on");
    let estimate = expected.find(some_key).map(|at| expected.places[at].estimate);
    // An empty key is at no place, though free places are as short.
    assert_eq!(watch.get(some_key), estimate.filter(|_| !some_key.is_empty()));
}

#[test]
fn watch_lists() {
    let mut rng = Rng::new(seed("watch_lists"));
    let mut tally = Tally::default();
    let clear = WatchList::new();
    assert!(clear.bytes() == [0; WATCH_SIZE] && clear == WatchList::default());
    for _ in 0..3_000 {
        let (d, w) = (rng.within(1..9), 32 << rng.below(2));
        let mut meter = some_meter(&mut rng, d, w);
        let mut memory = model(&meter);
        let some_keys = valid_keys(&mut rng, 80);
        let mut bytes = list(&mut rng, &some_keys);

        let mut tried = bytes.clone();
        match rng.below(4) {
            0 => drop(tried.pop()),
            1 => tried.push(0),
            2 => drop(break_list(&mut rng, &mut tried)),
            _ => {}
        }
        let made = WatchList::from_bytes(tried.clone());
        if let Ok(watch) = &made {
            told_right(watch, &tried, &some_keys[0]);
            assert!(watch.clone().into_bytes() == tried);
        }
        let answer = reference::watch_remove(&mut tried, b"k");
        tally.compare("from_bytes", made, answer, |_| 0);

        let mut watch = WatchList::from_bytes(bytes.clone()).expect("a list");
        for _ in 0..30 {
            let some_key = if rng.once_in(8) {
                key(&mut rng)
            } else {
                some_keys[rng.below(some_keys.len())].clone()
            };
            match rng.below(12) {
                0 if rng.once_in(10) => {
                    watch.clear();
                    assert_eq!(reference::watch_clear(&mut bytes).number, 0);
                }
                0..=7 => {
                    let (n, threshold) = (amount(&mut rng), rng.pick(&[0, 1, 1, 1, 1_000, u64::MAX]));
                    let answer = reference::watch_update(d, w, &mut memory, &mut bytes, &some_key, n, threshold);
                    tally.compare("update", watch.update(&mut meter, &some_key, n, threshold), answer, |()| 0);
                }
                _ => {
                    let listed = watch.get(&some_key).is_some();
                    let answer = reference::watch_remove(&mut bytes, &some_key);
                    tally.compare("remove", watch.remove(&some_key), answer, |was| {
                        assert_eq!(was, listed, "whether it was listed");
                        0
                    });
                }
            }
            told_right(&watch, &bytes, &some_key);
            assert!(meter.bytes() == memory.to_bytes(), "the memory after a call");
        }
    }
    tally
        .0
        .finish(&[("from_bytes", &[0, 3, 5]), ("update", &[0, 4, 6, 11]), ("remove", &[0, 4])]);
}

/// Every number is a result, whatever was linked; each reason says its number and has words of its own.
#[test]
fn every_number() {
    let mut texts = std::collections::BTreeSet::new();
    for number in (0..300).chain([u32::MAX - 1, u32::MAX]) {
        let answer = meter::Answer {
            number,
            place: 5,
            figure: 9,
        };
        match answer.result() {
            Ok(figure) => assert_eq!((number, figure), (0, 9)),
            Err(refused) => {
                assert_eq!(
                    (refused.number(), refused.reason.number(), refused.place),
                    (number, number, 5)
                );
                assert_eq!(matches!(refused.reason, Reason::Unknown(_)), number > LAST_NUMBER);
                assert_eq!(refused.to_string(), format!("{} (number {number}, place 5)", refused.reason));
                texts.insert(refused.reason.to_string());
                let error: Box<dyn std::error::Error> = refused.into();
                assert_eq!(error.to_string(), refused.to_string());
            }
        }
    }
    assert_eq!(texts.len(), 14);
}

#[test]
fn debug_is_short() {
    let largest = Meter::new(8, LARGEST_WIDTH).expect("a meter");
    assert_eq!(format!("{largest:?}"), "Meter { d: 8, w: 16384, .. }");
    let mut watch = WatchList::new();
    watch.update(&mut largest.clone(), b"A", 300, 300).expect("accepted");
    assert_eq!(
        format!("{watch:?}"),
        "WatchList { entries: [Entry { key: [65], estimate: 300 }], marked: false }"
    );
}

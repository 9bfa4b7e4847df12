//! The laws of a watch list on compiled code, on random lists of updates through it and takings off, refused ones included, from a meter
//! and a list cleared together, with one threshold. The book beside them sees arguments and acceptance, and of the list what
//! `WatchList` tells of it.

mod common;

use common::{amount, seed, valid_keys, Rng};
use meter::{WatchList, WATCH_PLACES, WATCH_SIZE};
use reference::{Place, Watch};
use std::collections::{BTreeMap, BTreeSet};

/// What is known of the calls so far.
#[derive(Default)]
struct Book {
    totals: BTreeMap<Vec<u8>, u128>,
    /// Taken off since their last accepted update.
    off: BTreeSet<Vec<u8>>,
    /// The listed keys with their estimates, and the mark.
    entries: Vec<(Vec<u8>, u64)>,
    marked: bool,
}

#[derive(Default)]
struct Seen {
    calls: u64,
    refused: u64,
    /// Keys that had to be listed, and were.
    heavy: u64,
    /// Keys over the threshold that need not be listed, and were not.
    excused: u64,
    joined: u64,
    joined_again: u64,
    marked: u64,
    /// Lists with all places taken and no mark.
    full: u64,
}

/// What holds of the list after every call.
fn check(book: &Book, list: &[u8], threshold: u64, seen: &mut Seen) {
    let listed: BTreeSet<&[u8]> = book.entries.iter().map(|(key, _)| &key[..]).collect();
    assert_eq!(listed.len(), book.entries.len(), "no key is there twice");
    for (key, total) in &book.totals {
        if *total < u128::from(threshold) || book.marked {
            continue;
        }
        if listed.contains(&key[..]) {
            seen.heavy += 1;
        } else {
            assert!(book.off.contains(key), "a key of {total} is listed from {threshold} on");
            seen.excused += 1;
        }
    }
    for (key, estimate) in &book.entries {
        let total = book.totals.get(key).copied().unwrap_or(0);
        assert!(u128::from(*estimate) >= total, "{estimate} is at least {total}");
    }
    seen.full += u64::from(book.entries.len() == WATCH_PLACES && !book.marked);
    // Equal lists are equal bytes: these follow from the entries and the mark.
    let mut places: Vec<Place> = book
        .entries
        .iter()
        .map(|(key, estimate)| Place::new(key, *estimate))
        .collect();
    places.resize(WATCH_PLACES, Place::new(b"", 0));
    let expected = Watch {
        marked: book.marked,
        places,
    };
    assert!(expected.bytes() == list, "unused bytes are 0");
}

fn read(list: &[u8]) -> (Vec<(Vec<u8>, u64)>, bool) {
    let watch = WatchList::from_bytes(list.to_vec()).expect("a list");
    let entries = watch.iter().map(|entry| (entry.key.to_vec(), entry.estimate)).collect();
    (entries, watch.is_marked())
}

/// A call that is refused, whatever else it is handed.
fn refused_call(rng: &mut Rng, d: usize, w: usize, memory: &mut [u8], list: &mut [u8], key: &[u8], threshold: u64) -> u32 {
    let amount = amount(rng);
    match rng.below(7) {
        0 => meter::watch_update(d + 8, w, memory, list, key, amount, threshold).number,
        1 => meter::watch_update(d, w + 1, memory, list, key, amount, threshold).number,
        2 => meter::watch_update(d, w, &mut memory[1..], list, key, amount, threshold).number,
        3 => meter::watch_update(d, w, memory, &mut list[1..], key, amount, threshold).number,
        4 => meter::watch_update(d, w, memory, list, &[7; 65], amount, threshold).number,
        5 => meter::watch_update(d, w, memory, list, key, amount, 0).number,
        _ => meter::watch_remove(list, &[]).number,
    }
}

#[test]
fn heavy_keys_are_listed() {
    let mut rng = Rng::new(seed("heavy_keys_are_listed"));
    let mut seen = Seen::default();
    for _ in 0..1_500 {
        let (d, w) = (rng.within(1..9), rng.pick(&[32, 64, 256]));
        let threshold = rng.pick(&[1, 1, 300, 70_000, 1 << 32, u64::MAX]);
        let count = rng.pick(&[3, 30, 64, 90, 140]);
        let keys = valid_keys(&mut rng, count);
        let (mut memory, mut list) = (vec![0xff; d * w / 8 * 9], vec![0xff; WATCH_SIZE]);
        assert_eq!(meter::clear(d, w, &mut memory).number, 0);
        assert_eq!(meter::watch_clear(&mut list).number, 0);
        let mut book = Book::default();
        for _ in 0..300 {
            seen.calls += 1;
            let key = &keys[rng.below(count)];
            let before = (memory.clone(), list.clone());
            let was = book.entries.iter().position(|(listed, _)| listed == key);
            match rng.below(24) {
                0 => {
                    let number = refused_call(&mut rng, d, w, &mut memory, &mut list, key, threshold);
                    assert_ne!(number, 0);
                    assert!((memory.clone(), list.clone()) == before, "a refused call changes nothing");
                    seen.refused += 1;
                }
                1..=3 => {
                    assert_eq!(meter::watch_remove(&mut list, key).number, 0);
                    if let Some(at) = was {
                        book.off.insert(key.clone());
                        book.entries.remove(at);
                    }
                    assert!(memory == before.0, "no call of a list alone writes a memory");
                    assert!(
                        read(&list) == (book.entries.clone(), book.marked),
                        "the others in their order"
                    );
                }
                _ => {
                    let amount = amount(&mut rng);
                    let answer = meter::watch_update(d, w, &mut memory, &mut list, key, amount, threshold);
                    assert_eq!((answer.number, answer.place, answer.figure), (0, 0, 0));
                    *book.totals.entry(key.clone()).or_default() += u128::from(amount);
                    let estimate = meter::estimate(d, w, &memory, key).figure;
                    match was {
                        Some(at) => book.entries[at].1 = estimate,
                        None if estimate < threshold => {}
                        None if book.entries.len() == WATCH_PLACES => {
                            seen.marked += u64::from(!book.marked);
                            book.marked = true;
                        }
                        None => {
                            book.entries.push((key.clone(), estimate));
                            seen.joined += 1;
                            seen.joined_again += u64::from(book.off.contains(key));
                        }
                    }
                    book.off.remove(key);
                    assert!(
                        read(&list) == (book.entries.clone(), book.marked),
                        "the key, after all others"
                    );
                }
            }
            check(&book, &list, threshold, &mut seen);
        }
    }
    println!(
        "{} calls, {} of them refused; {} times a heavy key was listed, {} times one was off; {} joined, {} of them again; {} marks; {} full without",
        seen.calls, seen.refused, seen.heavy, seen.excused, seen.joined, seen.joined_again, seen.marked, seen.full
    );
    assert!(seen.heavy > 100_000 && seen.excused > 10_000);
    assert!(seen.joined > 10_000 && seen.joined_again > 1_000);
    assert!(seen.marked > 100 && seen.full > 100 && seen.refused > 1_000);
}

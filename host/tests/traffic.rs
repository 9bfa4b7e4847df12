//! Demand 3 on random lists of calls: after every call each estimate lies between the key's total and the least, over the rows, of
//! the totals of the level L blocks it lands in, and the widest level is L. Totals come from the traffic of a list, which sees the
//! calls' arguments and whether each was accepted, and no memory.

mod common;

use common::{amount, break_list, list, memory, record_words, seed, Rng};
use meter::LARGEST_WIDTH;
use std::collections::BTreeMap;

/// The traffic of a list of calls: pairs of key and amount, those of one key added up.
type Traffic = BTreeMap<Vec<u8>, u128>;

#[derive(Clone)]
struct Meter {
    memory: Vec<u8>,
    traffic: Traffic,
}

/// A block's total, by row, level and index.
fn totals(d: usize, w: usize, traffic: &Traffic) -> Vec<[Vec<u128>; 4]> {
    (0..d)
        .map(|r| {
            let mut levels = [0, 1, 2, 3].map(|n| vec![0; w >> n]);
            for (key, total) in traffic {
                for (n, blocks) in levels.iter_mut().enumerate() {
                    blocks[reference::slot(r, key, w) >> n] += total;
                }
            }
            levels
        })
        .collect()
}

/// The largest n of 1, 2, 3 for which some block of level n - 1 has a total of 2^(8 * 2^(n - 1)) or more, else 0.
fn level(totals: &[[Vec<u128>; 4]]) -> usize {
    (1..4)
        .rev()
        .find(|n| {
            let limit = 1u128 << (8 << (n - 1));
            totals.iter().any(|row| row[n - 1].iter().any(|&t| t >= limit))
        })
        .unwrap_or(0)
}

#[derive(Default)]
struct Seen {
    calls: u64,
    estimates: u64,
    exact: u64,
    refused: u64,
    full: u64,
    unions: u64,
    images: u64,
    watched: u64,
    levels: [u64; 4],
}

fn check(d: usize, w: usize, m: &mut Meter, keys: &[Vec<u8>], seen: &mut Seen) {
    let totals = totals(d, w, &m.traffic);
    let l = level(&totals);
    seen.levels[l] += 1;
    let widest = meter::widest(d, w, &m.memory);
    assert_eq!((widest.number, widest.figure), (0, l as u64), "the widest level is L");
    for key in keys {
        let answer = meter::estimate(d, w, &m.memory, key);
        assert_eq!(answer.number, 0, "every key is accepted");
        let asked = meter::feed_record(d, w, &mut m.memory, 0, &record_words(key, None));
        assert_eq!(asked, answer, "an asking record gives the estimate");
        let figure = answer.figure as u128;
        let least = m.traffic.get(key).copied().unwrap_or(0);
        let most = (0..d).map(|r| totals[r][l][reference::slot(r, key, w) >> l]).min().unwrap();
        assert!(least <= figure, "{figure} is at least the key's total {least}");
        assert!(figure <= most, "{figure} is at most {most}");
        seen.estimates += 1;
        seen.exact += (figure == least) as u64;
    }
}

/// One call on one of the meters, and which; its traffic follows what was accepted.
fn call(rng: &mut Rng, d: usize, w: usize, meters: &mut [Meter], keys: &[Vec<u8>], doubling: bool, seen: &mut Seen) -> usize {
    let at = rng.below(meters.len());
    let kind = if doubling && rng.once_in(2) { 1 } else { rng.below(30) };
    let source = meters[(at + rng.below(meters.len())) % meters.len()].clone();
    let m = &mut meters[at];
    let before = m.memory.clone();
    let key = &keys[rng.below(keys.len())];
    let accepted = match kind {
        0 if rng.once_in(4) => {
            let ok = meter::clear(d, w, &mut m.memory).number == 0;
            if ok {
                m.traffic.clear();
            }
            ok
        }
        // A union, often with a copy of the meter itself, which doubles it: so counters get full.
        1..=5 => {
            let ok = match meter::unite(d, w, &mut m.memory, &source.memory).number {
                0 => true,
                6 => {
                    seen.full += 1;
                    false
                }
                n => panic!("a union of listed meters gave {n}"),
            };
            if ok {
                for (key, total) in source.traffic {
                    *m.traffic.entry(key).or_default() += total;
                }
                seen.unions += 1;
            }
            ok
        }
        // Another meter's image in its place.
        6 => {
            let mut words = vec![0; 3 * d * w + 2];
            let count = meter::image_write(d, w, &source.memory, &mut words).figure as usize;
            let ok = meter::image_read(d, w, &mut m.memory, &words[..count]).number == 0;
            assert!(ok, "a listed meter's image is accepted");
            m.traffic = source.traffic;
            seen.images += 1;
            ok
        }
        // A feed's end and an asking record change nothing.
        12 => meter::feed_record(d, w, &mut m.memory, 5, &[0x4000_0005]).number == 0,
        13 => meter::feed_record(d, w, &mut m.memory, 5, &record_words(key, None)).number == 0,
        // Refused calls with anything at all.
        7 => meter::unite(d, w, &mut m.memory, &before[1..]).number == 0,
        8 => meter::clear(d, w + 1, &mut m.memory).number == 0,
        9 => meter::update(d, w, &mut m.memory, &[7; 65], 1).number == 0,
        10 => {
            let mut raw = memory(rng, d, w);
            let damaged = raw.len() - 1;
            raw[damaged] = 0x80;
            meter::unite(d, w, &mut m.memory, &raw).number == 0
        }
        11 => meter::image_read(d, w, &mut m.memory, &[0x1000_0051, 0x2000_0000]).number == 0,
        // An update through a watch list of any content is an update.
        14..=16 => {
            let (mut watch, amount) = (list(rng, keys), amount(rng));
            if rng.once_in(4) {
                break_list(rng, &mut watch);
            }
            let threshold = rng.pick(&[0, 1, 1_000, u64::MAX]);
            match meter::watch_update(d, w, &mut m.memory, &mut watch, key, amount, threshold).number {
                0 => {
                    *m.traffic.entry(key.clone()).or_default() += amount as u128;
                    seen.watched += 1;
                    true
                }
                5 | 11 => false,
                6 => {
                    seen.full += 1;
                    false
                }
                n => panic!("an update through a list gave {n}"),
            }
        }
        _ => {
            let amount = if rng.once_in(3) { amount(rng) } else { rng.below(100) as u32 };
            let answer = if rng.once_in(3) {
                meter::feed_record(d, w, &mut m.memory, rng.next(), &record_words(key, Some(amount)))
            } else {
                meter::update(d, w, &mut m.memory, key, amount)
            };
            match answer.number {
                0 => *m.traffic.entry(key.clone()).or_default() += amount as u128,
                6 => seen.full += 1,
                n => panic!("an update of a listed meter gave {n}"),
            }
            answer.number == 0
        }
    };
    seen.calls += 1;
    if !accepted {
        seen.refused += 1;
        assert!(m.memory == before, "a refused call changes nothing");
    }
    at
}

#[test]
fn estimates_lie_between_the_two_figures() {
    let mut rng = Rng::new(seed("estimates_lie_between_the_two_figures"));
    let mut seen = Seen::default();
    let mut sizes: Vec<(usize, usize, usize)> = (0..800)
        .map(|_| (rng.within(1..9), rng.pick(&[32, 32, 64, 256]), 120))
        .collect();
    sizes.extend([(8, LARGEST_WIDTH, 25), (1, LARGEST_WIDTH, 25), (4, 1_024, 200)]);
    for (d, w, calls) in sizes {
        let keys: Vec<Vec<u8>> = (0..rng.within(2..40))
            .map(|_| {
                let n = rng.within(1..65);
                rng.bytes(n)
            })
            .collect();
        let mut meters = vec![
            Meter {
                memory: vec![0xff; d * w / 8 * 9],
                traffic: Traffic::new(),
            };
            3
        ];
        for m in &mut meters {
            assert_eq!(meter::clear(d, w, &mut m.memory).number, 0);
        }
        let doubling = rng.once_in(4);
        for _ in 0..if doubling { 3 * calls } else { calls } {
            let at = call(&mut rng, d, w, &mut meters, &keys, doubling, &mut seen);
            check(d, w, &mut meters[at], &keys, &mut seen);
        }
    }
    println!(
        "{} calls, {} of them refused ({} for a full counter), {} unions, {} images, {} updates through lists; {} estimates, {} exact; levels {:?}",
        seen.calls, seen.refused, seen.full, seen.unions, seen.images, seen.watched, seen.estimates, seen.exact, seen.levels
    );
    assert!(seen.watched > 1_000, "updates through lists were accepted");
    assert!(seen.levels.iter().all(|&n| n > 100), "every L was reached");
    assert!(seen.full > 10, "a full counter was reached");
    assert!(seen.exact > 0 && seen.exact < seen.estimates);
}

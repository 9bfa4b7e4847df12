//! The proved meters beside the same rules in plain C and a Count-Min with counters of 64 bits, in one run: `bench/run`. With the argument
//! `watch` only what a watch list costs, with `signed` only signed meters.
//!
//! Each case is measured five times for each, turn by turn, by processor time, and the median is printed. Outputs are compared as
//! it goes. Memories are cleared, or copied from the same start, before each measured run, and that is not measured.

use bench::traffic::{packet, Rng, Zipf};
use bench::{hash, plain, CountMin};
use meter::LARGEST_WIDTH;
use std::cell::RefCell;
use std::hint::black_box;
use std::sync::OnceLock;

const ROUNDS: usize = 5;
const KEYS: usize = 100_000;
const CALLS: usize = 200_000;

/// Calls to measure: keys of one length side by side, and an amount for each, a packet's bytes.
struct Calls {
    length: usize,
    keys: Vec<u8>,
    amounts: Vec<u32>,
}

impl Calls {
    fn new(length: usize, zipf: bool) -> Calls {
        Calls::by(length, zipf, |_| {})
    }

    /// Calls by keys that something is done to.
    fn by(length: usize, zipf: bool, change: impl Fn(&mut [u8])) -> Calls {
        let mut rng = Rng(7);
        let mut names: Vec<Vec<u8>> = (0..KEYS).map(|_| (0..length).map(|_| rng.draw() as u8).collect()).collect();
        names.iter_mut().for_each(|name| change(name));
        let ranks = Zipf::new(KEYS);
        let mut keys = Vec::with_capacity(CALLS * length);
        let mut amounts = Vec::with_capacity(CALLS);
        for _ in 0..CALLS {
            let at = if zipf { ranks.pick(&mut rng) } else { rng.below(KEYS) };
            keys.extend(&names[at]);
            amounts.push(packet(&mut rng));
        }
        Calls { length, keys, amounts }
    }

    fn each(&self) -> impl Iterator<Item = (&[u8], u32)> {
        self.keys.chunks_exact(self.length).zip(self.amounts.iter().copied())
    }
}

/// The processor time of this thread, so that other programs on the machine count as little as can be.
fn processor_seconds() -> f64 {
    #[repr(C)]
    struct Timespec {
        seconds: i64,
        nanoseconds: i64,
    }
    extern "C" {
        fn clock_gettime(clock: i32, time: *mut Timespec) -> i32;
    }
    const CLOCK_THREAD_CPUTIME_ID: i32 = 3;
    let mut t = Timespec {
        seconds: 0,
        nanoseconds: 0,
    };
    assert_eq!(unsafe { clock_gettime(CLOCK_THREAD_CPUTIME_ID, &mut t) }, 0, "a clock");
    t.seconds as f64 + t.nanoseconds as f64 * 1e-9
}

fn seconds(f: impl FnOnce()) -> f64 {
    let start = processor_seconds();
    f();
    processor_seconds() - start
}

fn median(mut times: Vec<f64>) -> f64 {
    times.sort_by(f64::total_cmp);
    times[times.len() / 2]
}

/// Measures each in turn, five times: what it has to do before, and what is measured.
type Measured<'a> = (&'a mut dyn FnMut(), &'a mut dyn FnMut());

fn time(mut runs: Vec<Measured>) -> Vec<f64> {
    let mut times = vec![Vec::new(); runs.len()];
    for round in 0..ROUNDS {
        for i in 0..runs.len() {
            let at = (i + round) % runs.len();
            (runs[at].0)();
            times[at].push(seconds(|| (runs[at].1)()));
        }
    }
    times.into_iter().map(median).collect()
}

fn rate(calls: usize, time: f64) -> String {
    let r = calls as f64 / time;
    if r >= 1e5 {
        format!("{:.2} M", r / 1e6)
    } else if r >= 1e3 {
        format!("{:.1} k", r / 1e3)
    } else {
        format!("{r:.1}")
    }
}

fn heading(first: &str) {
    println!("\n| {first} | proved | plain C | Count-Min | speed, proved to C | speed, proved to Count-Min |");
    println!("|---|---|---|---|---|---|");
}

fn line(name: &str, calls: usize, times: &[f64]) {
    let count_min = times.get(2);
    println!(
        "| {name} | {} | {} | {} | {:.2} | {} |",
        rate(calls, times[0]),
        rate(calls, times[1]),
        count_min.map_or("–".into(), |t| rate(calls, *t)),
        times[1] / times[0],
        count_min.map_or("–".into(), |t| format!("{:.2}", t / times[0])),
    );
}

fn size(d: usize, w: usize) -> usize {
    meter::size(d, w).expect("a meter")
}

/// Updates and estimates.
fn keyed() {
    let mut updates = Vec::new();
    let mut estimates = Vec::new();
    for zipf in [false, true] {
        for length in [4, 13, 37] {
            let calls = Calls::new(length, zipf);
            for d in [1, 4, 8] {
                for w in [1_024, LARGEST_WIDTH] {
                    let name = format!("d {d}, w {w}, {length} bytes, {}", if zipf { "Zipf" } else { "uniform" });
                    let a_cell = RefCell::new(vec![0; size(d, w)]);
                    let b_cell = RefCell::new(vec![0; size(d, w)]);
                    let c_cell = RefCell::new(CountMin::new(d, w));
                    let times = time(vec![
                        (&mut || a_cell.borrow_mut().fill(0), &mut || {
                            let mut m = a_cell.borrow_mut();
                            for (key, amount) in calls.each() {
                                black_box(meter::update(d, w, &mut m, key, amount));
                            }
                        }),
                        (&mut || b_cell.borrow_mut().fill(0), &mut || {
                            let mut m = b_cell.borrow_mut();
                            for (key, amount) in calls.each() {
                                black_box(plain::update(d, w, &mut m, key, amount));
                            }
                        }),
                        (&mut || c_cell.borrow_mut().clear(), &mut || {
                            let mut m = c_cell.borrow_mut();
                            for (key, amount) in calls.each() {
                                m.update(key, amount);
                            }
                        }),
                    ]);
                    let (a, b, c) = (a_cell.into_inner(), b_cell.into_inner(), c_cell.into_inner());
                    assert!(a == b, "{name}: the proved memory and the C version's");
                    updates.push((name.clone(), times));

                    for (key, _) in calls.each() {
                        let figure = meter::estimate(d, w, &a, key);
                        assert_eq!(figure, plain::estimate(d, w, &b, key), "{name}: estimates");
                        assert!(
                            figure.number == 0 && figure.figure >= c.estimate(key),
                            "{name}: Count-Min's estimate"
                        );
                    }
                    let times = time(vec![
                        (&mut || {}, &mut || {
                            for (key, _) in calls.each() {
                                black_box(meter::estimate(d, w, &a, key));
                            }
                        }),
                        (&mut || {}, &mut || {
                            for (key, _) in calls.each() {
                                black_box(plain::estimate(d, w, &b, key));
                            }
                        }),
                        (&mut || {}, &mut || {
                            for (key, _) in calls.each() {
                                black_box(c.estimate(key));
                            }
                        }),
                    ]);
                    estimates.push((name, times));
                }
            }
        }
    }
    heading("update, calls a second");
    for (name, times) in &updates {
        line(name, CALLS, times);
    }
    heading("estimate, calls a second");
    for (name, times) in &estimates {
        line(name, CALLS, times);
    }
}

/// Speed by the number of rows.
fn by_rows() {
    println!("\n| w 1024, Zipf, speed, proved to C | d 1 | d 2 | d 3 | d 4 | d 5 | d 6 | d 7 | d 8 |");
    println!("|---|---|---|---|---|---|---|---|---|");
    let w = 1_024;
    let mut lines = Vec::new();
    for length in [4, 13, 37] {
        let calls = Calls::new(length, true);
        let (mut updates, mut estimates) = (Vec::new(), Vec::new());
        for d in 1..=8 {
            let (a, b) = (RefCell::new(vec![0; size(d, w)]), RefCell::new(vec![0; size(d, w)]));
            let times = time(vec![
                (&mut || a.borrow_mut().fill(0), &mut || {
                    let mut m = a.borrow_mut();
                    for (key, amount) in calls.each() {
                        black_box(meter::update(d, w, &mut m, key, amount));
                    }
                }),
                (&mut || b.borrow_mut().fill(0), &mut || {
                    let mut m = b.borrow_mut();
                    for (key, amount) in calls.each() {
                        black_box(plain::update(d, w, &mut m, key, amount));
                    }
                }),
            ]);
            updates.push(format!("{:.2}", times[1] / times[0]));
            let (a, b) = (a.into_inner(), b.into_inner());
            assert!(a == b, "d {d}: the proved memory and the C version's");
            let times = time(vec![
                (&mut || {}, &mut || {
                    for (key, _) in calls.each() {
                        black_box(meter::estimate(d, w, &a, key));
                    }
                }),
                (&mut || {}, &mut || {
                    for (key, _) in calls.each() {
                        black_box(plain::estimate(d, w, &b, key));
                    }
                }),
            ]);
            estimates.push(format!("{:.2}", times[1] / times[0]));
        }
        lines.push((format!("update, {length} bytes"), updates));
        lines.push((format!("estimate, {length} bytes"), estimates));
    }
    lines.sort_by_key(|(name, _)| name.starts_with("estimate"));
    for (name, ratios) in lines {
        println!("| {name} | {} |", ratios.join(" | "));
    }
}

/// The hash alone beside the calls that it is a part of.
fn hash_alone() {
    println!("\n| w 1024, Zipf, nanoseconds a call | the hash alone | two rows to a register | estimate, proved | estimate, plain C | update, proved | update, plain C |");
    println!("|---|---|---|---|---|---|---|");
    let w = 1_024;
    for length in [4, 13, 37] {
        let calls = Calls::new(length, true);
        for d in [1, 4, 8] {
            let cells = [RefCell::new(vec![0; size(d, w)]), RefCell::new(vec![0; size(d, w)])];
            let mut read = vec![0; size(d, w)];
            for (key, amount) in calls.each() {
                let (mut lanes, mut pairs) = ([0; 8], [0; 8]);
                hash::lanes(&mut lanes, d, w, key);
                hash::pairs(&mut pairs, d, w, key);
                assert_eq!(lanes[..d], pairs[..d], "slots");
                assert_eq!(meter::update(d, w, &mut read, key, amount).number, 0);
            }
            let times = time(vec![
                (&mut || {}, &mut || {
                    let mut slots = [0; 8];
                    for (key, _) in calls.each() {
                        hash::lanes(black_box(&mut slots), d, w, key);
                    }
                }),
                (&mut || {}, &mut || {
                    let mut slots = [0; 8];
                    for (key, _) in calls.each() {
                        hash::pairs(black_box(&mut slots), d, w, key);
                    }
                }),
                (&mut || {}, &mut || {
                    for (key, _) in calls.each() {
                        black_box(meter::estimate(d, w, &read, key));
                    }
                }),
                (&mut || {}, &mut || {
                    for (key, _) in calls.each() {
                        black_box(plain::estimate(d, w, &read, key));
                    }
                }),
                (&mut || cells[0].borrow_mut().fill(0), &mut || {
                    let mut m = cells[0].borrow_mut();
                    for (key, amount) in calls.each() {
                        black_box(meter::update(d, w, &mut m, key, amount));
                    }
                }),
                (&mut || cells[1].borrow_mut().fill(0), &mut || {
                    let mut m = cells[1].borrow_mut();
                    for (key, amount) in calls.each() {
                        black_box(plain::update(d, w, &mut m, key, amount));
                    }
                }),
            ]);
            let times: Vec<String> = times.iter().map(|t| format!("{:.1}", t * 1e9 / CALLS as f64)).collect();
            println!("| d {d}, {length} bytes | {} |", times.join(" | "));
        }
    }
}

/// A full list, of keys of one length that something is done to.
fn full_list(length: usize, change: impl Fn(&mut [u8])) -> Vec<u8> {
    let mut rng = Rng(8);
    let (mut memory, mut list) = (vec![0; size(1, 32)], vec![0; meter::WATCH_SIZE]);
    for _ in 0..meter::WATCH_PLACES {
        let mut key: Vec<u8> = (0..length).map(|_| rng.draw() as u8).collect();
        change(&mut key);
        let answer = meter::watch_update(1, 32, &mut memory, &mut list, &key, 1, 1);
        assert_eq!(answer.number, 0, "an update through the list");
    }
    assert!(list[63] > 0 && list[64] == 0, "64 keys");
    list
}

/// A line of what two lists add to an update, beside an estimate and an update on four rows.
fn line_of_lists(name: &str, d: usize, calls: &Calls, lists: [Vec<u8>; 2]) {
    let w = 1_024;
    // No key joins, so that what is measured is the same in every round.
    let threshold = u64::MAX;
    let memory = |d| RefCell::new(vec![0; size(d, w)]);
    let (plain, four) = (memory(d), memory(4));
    let noted = [0, 1].map(|at| (memory(d), RefCell::new(lists[at].clone())));
    let mut read = vec![0; size(d, w)];
    for (key, amount) in calls.each() {
        assert_eq!(meter::update(d, w, &mut read, key, amount).number, 0, "an update");
    }
    let update = |d, memory: &RefCell<Vec<u8>>| {
        let mut m = memory.borrow_mut();
        for (key, amount) in calls.each() {
            black_box(meter::update(d, w, &mut m, key, amount));
        }
    };
    let through = |(memory, list): &(RefCell<Vec<u8>>, RefCell<Vec<u8>>)| {
        let (mut m, mut list) = (memory.borrow_mut(), list.borrow_mut());
        for (key, amount) in calls.each() {
            black_box(meter::watch_update(d, w, &mut m, &mut list, key, amount, threshold));
        }
    };
    let times = time(vec![
        (&mut || plain.borrow_mut().fill(0), &mut || update(d, &plain)),
        (&mut || noted[0].0.borrow_mut().fill(0), &mut || through(&noted[0])),
        (&mut || noted[1].0.borrow_mut().fill(0), &mut || through(&noted[1])),
        (&mut || {}, &mut || {
            for (key, _) in calls.each() {
                black_box(meter::estimate(d, w, &read, key));
            }
        }),
        (&mut || four.borrow_mut().fill(0), &mut || update(4, &four)),
    ]);
    for ((memory, noted), list) in noted.into_iter().zip(&lists) {
        assert!(memory.into_inner() == read, "an update through a list is an update");
        assert!(noted.into_inner()[..4_161] == list[..4_161], "no key joined, and none left");
    }
    let [update, first, second, estimate, four] = [0, 1, 2, 3, 4].map(|at| times[at] * 1e9 / CALLS as f64);
    println!(
        "| {name} | {update:.1} | {first:.1} | {:.1} | {second:.1} | {:.1} | {estimate:.1} | {four:.1} |",
        first - update,
        second - update
    );
}

/// What a watch list adds to an update: of a key that is not among its 64, and of one at its first and at its last place.
fn watched() {
    println!("\n| w 1024, Zipf, nanoseconds a call | update | through a list of 64 other keys | it adds | of 64 of another length | it adds | estimate | update on 4 rows |");
    println!("|---|---|---|---|---|---|---|---|");
    // Long keys of one length that differ in the middle alone take the most work to tell apart.
    let alike: fn(&mut [u8]) = |key| {
        let middle = key.len() / 2 - 2;
        key[..middle].fill(b'k');
        key[middle + 4..].fill(b'k');
    };
    for (suffix, lengths, change) in [
        ("", &[4, 13, 37][..], (|_| {}) as fn(&mut [u8])),
        (", alike but for 4 in the middle", &[13, 37], alike),
    ] {
        for &length in lengths {
            let calls = Calls::by(length, true, change);
            for d in [1, 4, 8] {
                let lists = [length, length + 1].map(|length| full_list(length, change));
                line_of_lists(&format!("d {d}, {length} bytes{suffix}"), d, &calls, lists);
            }
        }
    }
    println!("\n| w 1024, one key, nanoseconds a call | update | listed at the first of 64 places | it adds | at the last | it adds | estimate | update on 4 rows |");
    println!("|---|---|---|---|---|---|---|---|");
    for length in [4, 13, 37] {
        let key = vec![b'k'; length];
        let calls = Calls::by(length, true, |name| name.copy_from_slice(&key));
        for d in [1, 4, 8] {
            let lists = [0, 63].map(|place| {
                let mut list = full_list(length, |_| {});
                list[65 + 64 * place..][..length].copy_from_slice(&key);
                list
            });
            line_of_lists(&format!("d {d}, {length} bytes"), d, &calls, lists);
        }
    }
}

/// What a whole meter holds.
#[derive(Clone, Copy)]
enum Kind {
    NothingMerged,
    /// Three packets a slot, for Zipf keys.
    Traffic,
    /// Every layout equally often, groups at random.
    AllLevels,
}

/// Packets for Zipf keys.
fn traffic(rng: &mut Rng, packets: usize) -> Vec<([u8; 8], u32)> {
    static RANKS: OnceLock<Zipf> = OnceLock::new();
    let ranks = RANKS.get_or_init(|| Zipf::new(KEYS));
    (0..packets)
        .map(|_| {
            let key = (ranks.pick(rng) as u64).wrapping_mul(0x9e37_79b9_7f4a_7c15).to_le_bytes();
            (key, packet(rng))
        })
        .collect()
}

/// A packet's bytes with plus or with minus.
fn changed(amount: u32, rng: &mut Rng) -> i32 {
    if rng.below(2) == 0 {
        amount as i32
    } else {
        -(amount as i32)
    }
}

const KINDS: [Kind; 3] = [Kind::NothingMerged, Kind::Traffic, Kind::AllLevels];

impl Kind {
    fn name(self) -> &'static str {
        match self {
            Kind::NothingMerged => "nothing merged",
            Kind::Traffic => "after traffic",
            Kind::AllLevels => "all levels",
        }
    }

    /// Such a signed meter, whose sum with any other such and difference from it are accepted.
    fn filled_signed(self, d: usize, w: usize, seed: u64) -> Vec<u8> {
        let mut rng = Rng(seed);
        let mut memory = self.filled(d, w, seed);
        match self {
            // Odd magnitudes below 64: so none is minus zero.
            Kind::NothingMerged => {
                for row in memory.chunks_mut(w / 8 * 9) {
                    row[..w].fill_with(|| (rng.draw() as u8 & 0xbf) | 1);
                }
            }
            Kind::Traffic => {
                memory.fill(0);
                for (key, amount) in traffic(&mut rng, 3 * w) {
                    let amount = changed(amount, &mut rng);
                    assert_eq!(meter::signed_update(d, w, &mut memory, &key, amount).number, 0, "an update");
                }
            }
            // Odd magnitudes, and a whole group's below 2^62.
            Kind::AllLevels => {
                for row in memory.chunks_mut(w / 8 * 9) {
                    let (counts, merges) = row.split_at_mut(w);
                    for (group, merge) in counts.chunks_mut(8).zip(merges) {
                        group.iter_mut().for_each(|byte| *byte |= 1);
                        if *merge == 0x7f {
                            group[7] = rng.draw() as u8 & 0xbf;
                        }
                    }
                }
            }
        }
        memory
    }

    /// Such a meter, whose union with any other such is accepted.
    fn filled(self, d: usize, w: usize, seed: u64) -> Vec<u8> {
        let mut rng = Rng(seed);
        let mut memory = vec![0; size(d, w)];
        match self {
            Kind::NothingMerged => {
                for row in memory.chunks_mut(w / 8 * 9) {
                    row[..w].fill_with(|| (rng.draw() % 128) as u8);
                }
            }
            Kind::Traffic => {
                for (key, amount) in traffic(&mut rng, 3 * w) {
                    assert_eq!(meter::update(d, w, &mut memory, &key, amount).number, 0, "an update");
                }
            }
            Kind::AllLevels => {
                let merges: Vec<u8> = (0..26).map(|code| meter::unpack(code).1[3]).collect();
                for row in memory.chunks_mut(w / 8 * 9) {
                    for g in 0..w / 8 {
                        let merge = merges[rng.below(26)];
                        row[8 * g..8 * g + 8].copy_from_slice(&rng.draw().to_le_bytes());
                        if merge == 0x7f {
                            row[8 * g + 7] /= 2;
                        }
                        row[w + g] = merge;
                    }
                }
            }
        }
        memory
    }
}

/// A call that puts a source into a meter.
type Combine = fn(usize, usize, &mut [u8], &[u8]) -> meter::Answer;

/// Puts each source into its start, by the proved call and by the C version; the times of both, and of what else is to be measured.
fn combine(
    (d, w): (usize, usize),
    [proved, plain]: [Combine; 2],
    starts: &[Vec<u8>],
    sources: &[Vec<u8>],
    other: Option<&mut dyn FnMut()>,
) -> Vec<f64> {
    let cells = [RefCell::new(starts.to_vec()), RefCell::new(starts.to_vec())];
    let restore = |at: usize| {
        for (m, start) in cells[at].borrow_mut().iter_mut().zip(starts) {
            m.copy_from_slice(start);
        }
    };
    let call = |at: usize, call: Combine| {
        for (m, source) in cells[at].borrow_mut().iter_mut().zip(sources) {
            black_box(call(d, w, m, source));
        }
    };
    let (mut nothing, mut restore_first, mut restore_second) = (|| {}, || restore(0), || restore(1));
    let (mut first, mut second) = (|| call(0, proved), || call(1, plain));
    let mut runs: Vec<Measured> = vec![(&mut restore_first, &mut first), (&mut restore_second, &mut second)];
    if let Some(other) = other {
        runs.push((&mut nothing, other));
    }
    let times = time(runs);
    let [a, b] = cells.map(RefCell::into_inner);
    assert!(a == b, "the proved memory and the C version's");
    assert!(a.iter().zip(starts).all(|(m, start)| m != start), "accepted");
    times
}

const WHOLE: [&str; 4] = ["union", "union with a copy", "image written", "image read"];

/// How many meters are taken in a round: so many that they have two million slots.
fn repeats(d: usize, w: usize) -> usize {
    (1 << 21) / (d * w)
}

/// A union of two meters of one kind and of one with its copy, an image written and an image read; how often, and the times of all.
/// No meter is taken twice in a round, so that what the processor remembers of one does not help with the next.
fn whole(d: usize, w: usize, kind: Kind) -> [(usize, Vec<f64>); 4] {
    let repeat = repeats(d, w);
    let mut seeds = 11..;
    let mut meters = || -> Vec<Vec<u8>> { (&mut seeds).take(repeat).map(|seed| kind.filled(d, w, seed)).collect() };
    let (starts, others) = (meters(), meters());

    let [unions, copies] = [&others, &starts].map(|sources| {
        let mut count_min = CountMin::new(d, w);
        let count_source = CountMin::new(d, w);
        let mut unite_count_min = || {
            for _ in 0..repeat {
                count_min.unite(black_box(&count_source));
            }
        };
        combine(
            (d, w),
            [meter::unite, plain::unite],
            &starts,
            sources,
            Some(&mut unite_count_min),
        )
    });

    let room = d * w + d * w / 32 + 2;
    let (mut x, mut y) = (vec![vec![0; room]; repeat], vec![vec![0; room]; repeat]);
    let writes = time(vec![
        (&mut || {}, &mut || {
            for (start, words) in starts.iter().zip(&mut x) {
                black_box(meter::image_write(d, w, start, words));
            }
        }),
        (&mut || {}, &mut || {
            for (start, words) in starts.iter().zip(&mut y) {
                black_box(plain::image_write(d, w, start, words));
            }
        }),
    ]);
    assert!(x == y, "images");
    for (start, words) in starts.iter().zip(&mut x) {
        let count = meter::image_write(d, w, start, words);
        assert_eq!(count.number, 0, "an image");
        words.truncate(count.figure as usize);
    }

    let (mut p, mut q) = (vec![vec![0; size(d, w)]; repeat], vec![vec![0; size(d, w)]; repeat]);
    let reads = time(vec![
        (&mut || {}, &mut || {
            for (m, image) in p.iter_mut().zip(&x) {
                black_box(meter::image_read(d, w, m, image));
            }
        }),
        (&mut || {}, &mut || {
            for (m, image) in q.iter_mut().zip(&x) {
                black_box(plain::image_read(d, w, m, image));
            }
        }),
    ]);
    assert!(p == starts && q == starts, "image read: the memory is restored");
    [unions, copies, writes, reads].map(|times| (repeat, times))
}

/// Records of a feed, one call each: their words side by side, and where each starts.
fn records(calls: &Calls, asking: bool) -> (Vec<u32>, Vec<usize>) {
    let (mut words, mut starts) = (Vec::new(), Vec::new());
    for (key, amount) in calls.each() {
        starts.push(words.len());
        words.push(if asking { 6 << 28 } else { 5 << 28 } | key.len() as u32);
        for part in key.chunks(3) {
            let byte = |i: usize| part.get(i).copied().unwrap_or(0) as u32;
            words.push(7 << 28 | byte(0) << 16 | byte(1) << 8 | byte(2));
        }
        if !asking {
            words.extend([8 << 28 | amount >> 16, 8 << 28 | amount & 0xffff]);
        }
    }
    (words, starts)
}

/// Update and asking records, Zipf keys of 13 bytes.
fn feeds() {
    heading("feed record, 13 bytes, Zipf, calls a second");
    let calls = Calls::new(13, true);
    let (updates, update_starts) = records(&calls, false);
    let (asks, ask_starts) = records(&calls, true);
    for (d, w) in [(1, 1_024), (4, 1_024), (4, LARGEST_WIDTH), (8, LARGEST_WIDTH)] {
        let (a, b) = (RefCell::new(vec![0; size(d, w)]), RefCell::new(vec![0; size(d, w)]));
        let times = time(vec![
            (&mut || a.borrow_mut().fill(0), &mut || {
                let mut m = a.borrow_mut();
                for &at in &update_starts {
                    black_box(meter::feed_record(d, w, &mut m, at as u64, &updates[at..]));
                }
            }),
            (&mut || b.borrow_mut().fill(0), &mut || {
                let mut m = b.borrow_mut();
                for &at in &update_starts {
                    black_box(plain::feed_record(d, w, &mut m, at as u64, &updates[at..]));
                }
            }),
        ]);
        let (mut a, mut b) = (a.into_inner(), b.into_inner());
        assert!(
            a == b && a.iter().any(|&x| x > 0),
            "update records: the proved memory and the C version's"
        );
        line(&format!("update, d {d}, w {w}"), CALLS, &times);
        for &at in &ask_starts {
            let answer = meter::feed_record(d, w, &mut a, at as u64, &asks[at..]);
            assert_eq!(
                answer,
                plain::feed_record(d, w, &mut b, at as u64, &asks[at..]),
                "asking records"
            );
            assert_eq!(answer.number, 0, "asking records");
        }
        let times = time(vec![
            (&mut || {}, &mut || {
                for &at in &ask_starts {
                    black_box(meter::feed_record(d, w, &mut a, at as u64, &asks[at..]));
                }
            }),
            (&mut || {}, &mut || {
                for &at in &ask_starts {
                    black_box(plain::feed_record(d, w, &mut b, at as u64, &asks[at..]));
                }
            }),
        ]);
        line(&format!("asking, d {d}, w {w}"), CALLS, &times);
    }
}

fn whole_meters() {
    heading("d 8, w 16,384, calls a second");
    for kind in KINDS {
        for (call, (repeat, times)) in WHOLE.iter().zip(&whole(8, LARGEST_WIDTH, kind)) {
            line(&format!("{call}, {}", kind.name()), *repeat, times);
        }
    }
}

/// Updates and estimates of signed meters, and sums and differences of whole ones.
fn signed() {
    let mut updates = Vec::new();
    let mut estimates = Vec::new();
    for length in [4, 13, 37] {
        let calls = Calls::new(length, true);
        let mut rng = Rng(9);
        let calls: Vec<(&[u8], i32)> = calls.each().map(|(key, amount)| (key, changed(amount, &mut rng))).collect();
        for d in [1, 3, 5, 7] {
            for w in [1_024, LARGEST_WIDTH] {
                let name = format!("d {d}, w {w}, {length} bytes");
                let (a, b) = (RefCell::new(vec![0; size(d, w)]), RefCell::new(vec![0; size(d, w)]));
                let times = time(vec![
                    (&mut || a.borrow_mut().fill(0), &mut || {
                        let mut m = a.borrow_mut();
                        for &(key, amount) in &calls {
                            black_box(meter::signed_update(d, w, &mut m, key, amount));
                        }
                    }),
                    (&mut || b.borrow_mut().fill(0), &mut || {
                        let mut m = b.borrow_mut();
                        for &(key, amount) in &calls {
                            black_box(plain::signed_update(d, w, &mut m, key, amount));
                        }
                    }),
                ]);
                let (a, b) = (a.into_inner(), b.into_inner());
                assert!(
                    a == b && a.iter().any(|&x| x > 0),
                    "{name}: the proved memory and the C version's"
                );
                updates.push((name.clone(), times));

                for &(key, _) in &calls {
                    let figure = meter::signed_estimate(d, w, &a, key);
                    assert_eq!(figure, plain::signed_estimate(d, w, &b, key), "{name}: estimates");
                    assert_eq!(figure.number, 0, "{name}: estimates");
                }
                let times = time(vec![
                    (&mut || {}, &mut || {
                        for &(key, _) in &calls {
                            black_box(meter::signed_estimate(d, w, &a, key));
                        }
                    }),
                    (&mut || {}, &mut || {
                        for &(key, _) in &calls {
                            black_box(plain::signed_estimate(d, w, &b, key));
                        }
                    }),
                ]);
                estimates.push((name, times));
            }
        }
    }
    heading("signed update, Zipf, calls a second");
    for (name, times) in &updates {
        line(name, CALLS, times);
    }
    heading("signed estimate, Zipf, calls a second");
    for (name, times) in &estimates {
        line(name, CALLS, times);
    }

    heading("signed meters, d 5, calls a second");
    let senses: [(&str, [Combine; 2]); 2] = [
        ("sum", [meter::signed_unite, plain::signed_unite]),
        ("difference", [meter::signed_subtract, plain::signed_subtract]),
    ];
    for w in [1_024, LARGEST_WIDTH] {
        let repeat = repeats(5, w);
        for kind in KINDS {
            let mut seeds = 11..;
            let [starts, others] = [0, 1].map(|_| -> Vec<Vec<u8>> {
                let seeds = (&mut seeds).take(repeat);
                seeds.map(|seed| kind.filled_signed(5, w, seed)).collect()
            });
            for (sense, calls) in senses {
                let times = combine((5, w), calls, &starts, &others, None);
                line(&format!("{sense}, w {w}, {}", kind.name()), repeat, &times);
            }
        }
    }
}

/// The cost of a call by the width: time for one group.
fn growth() {
    println!("\n| nanoseconds a group, d 8, proved (plain C) | w 32 | w 256 | w 1,024 | w 4,096 | w 16,384 |");
    println!("|---|---|---|---|---|---|");
    for kind in KINDS {
        let mut rows: [Vec<String>; 4] = Default::default();
        for w in [32, 256, 1_024, 4_096, LARGEST_WIDTH] {
            for (row, (repeat, times)) in rows.iter_mut().zip(&whole(8, w, kind)) {
                let groups = (repeat * w) as f64;
                row.push(format!("{:.1} ({:.1})", times[0] * 1e9 / groups, times[1] * 1e9 / groups));
            }
        }
        for (call, row) in WHOLE.iter().zip(&rows) {
            println!("| {call}, {} | {} |", kind.name(), row.join(" | "));
        }
    }
}

fn main() {
    let cpus = std::fs::read_to_string("/proc/cpuinfo").unwrap_or_default();
    let mut models = cpus
        .lines()
        .filter(|l| l.starts_with("model name"))
        .map(|l| l.split_once(": ").map_or("", |x| x.1));
    let model = models.next().unwrap_or("an unknown processor");
    println!(
        "{model}, {} processors. C: {}, -O3. Rust: {}.",
        1 + models.count(),
        env!("CC_VERSION"),
        env!("RUSTC_VERSION")
    );
    println!("Median of {ROUNDS} rounds; {CALLS} calls a round on {KEYS} keys.");
    match std::env::args().nth(1).as_deref() {
        Some("watch") => return watched(),
        Some("signed") => return signed(),
        _ => {}
    }
    keyed();
    by_rows();
    hash_alone();
    watched();
    feeds();
    whole_meters();
    growth();
    signed();
}

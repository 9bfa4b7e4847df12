//! The calls of a signed meter and `SignedMeter`: beside the independent implementation on random lists of calls, at the ends of every
//! counter and in every order of refusals; and beside an exact book of what was accepted.

mod common;

use common::{
    counters, group_at, key, lend_bytes, other_length, plant_minus_zero, put_minus_zero, put_signed, seed, signed_amount,
    signed_limit, signed_memory, signed_number, told, valid_keys, widths, Lent, Numbers, Rng,
};
use meter::{Reason, Refused, SignedMeter, LARGEST_WIDTH};
use reference::row_sign;

/// Which numbers each call can give.
const POSSIBLE: &[(&str, &[u32])] = &[
    ("clear", &[0, 1, 2, 3, 12]),
    ("update", &[0, 1, 2, 3, 4, 5, 6, 12, 13]),
    ("estimate", &[0, 1, 2, 3, 4, 5, 12, 13]),
    ("unite", &[0, 1, 2, 3, 5, 6, 12, 13]),
    ("subtract", &[0, 1, 2, 3, 5, 6, 12, 13]),
];

/// Whether a source is added or taken away.
#[derive(Clone, Copy, Debug, PartialEq, Eq)]
enum Sense {
    Unite,
    Subtract,
}

use Sense::{Subtract, Unite};

impl Sense {
    fn name(self) -> &'static str {
        match self {
            Unite => "unite",
            Subtract => "subtract",
        }
    }

    fn of(self, number: i128) -> i128 {
        match self {
            Unite => number,
            Subtract => -number,
        }
    }

    fn call(self, d: usize, w: usize, memory: &mut [u8], source: &[u8]) -> meter::Answer {
        match self {
            Unite => meter::signed_unite(d, w, memory, source),
            Subtract => meter::signed_subtract(d, w, memory, source),
        }
    }

    fn model(self, d: usize, w: usize, memory: &mut [u8], source: &[u8]) -> reference::Answer {
        match self {
            Unite => reference::signed_unite(d, w, memory, source),
            Subtract => reference::signed_subtract(d, w, memory, source),
        }
    }
}

/// A memory lent to the proved calls, and the same for the reference.
#[derive(Clone)]
struct Pair {
    proved: Lent<u8>,
    model: Vec<u8>,
}

impl Pair {
    fn new(bytes: &[u8]) -> Pair {
        Pair {
            proved: lend_bytes(bytes),
            model: bytes.to_vec(),
        }
    }
}

/// Makes each call of both, and compares answers and all that was lent.
#[derive(Default)]
struct Both(Numbers);

impl Both {
    fn compare<F: Copy + PartialEq + std::fmt::Debug>(
        &mut self,
        call: &'static str,
        proved: meter::Answer<F>,
        model: reference::Answer<F>,
        p: &Pair,
        before: &[u8],
    ) -> u32 {
        assert_eq!(
            (proved.number, proved.place, proved.figure),
            (model.number, model.place, model.figure),
            "{call}: number, place and figure, proved and reference"
        );
        assert_eq!(proved.place, 0, "{call}: no word is lent");
        assert!(p.proved.guards_stand(), "{call}: bytes beside the memory");
        assert!(p.proved.get() == p.model, "{call}: the memory");
        assert!(
            proved.number == 0 || p.model == before,
            "{call}: a refused call changes nothing"
        );
        self.0.note(call, proved.number);
        proved.number
    }

    fn clear(&mut self, d: usize, w: usize, p: &mut Pair) -> u32 {
        let before = p.model.clone();
        let a = meter::signed_clear(d, w, p.proved.get_mut());
        let b = reference::signed_clear(d, w, &mut p.model);
        self.compare("clear", a, b, p, &before)
    }

    fn update(&mut self, d: usize, w: usize, p: &mut Pair, key: &[u8], amount: i32) -> u32 {
        let (before, lent) = (p.model.clone(), lend_bytes(key));
        let a = meter::signed_update(d, w, p.proved.get_mut(), lent.get(), amount);
        let b = reference::signed_update(d, w, &mut p.model, key, amount);
        assert!(lent.guards_stand() && lent.get() == key, "update: the key");
        self.compare("update", a, b, p, &before)
    }

    fn estimate(&mut self, d: usize, w: usize, p: &Pair, key: &[u8]) -> u32 {
        let lent = lend_bytes(key);
        let a = meter::signed_estimate(d, w, p.proved.get(), lent.get());
        let b = reference::signed_estimate(d, w, &p.model, key);
        assert!(lent.guards_stand() && lent.get() == key, "estimate: the key");
        self.compare("estimate", a, b, p, &p.model)
    }

    fn combine(&mut self, sense: Sense, (d, w): (usize, usize), p: &mut Pair, source: &[u8]) -> u32 {
        let (before, lent) = (p.model.clone(), lend_bytes(source));
        let a = sense.call(d, w, p.proved.get_mut(), lent.get());
        let b = sense.model(d, w, &mut p.model, source);
        assert!(lent.guards_stand() && lent.get() == source, "{}: the source", sense.name());
        self.compare(sense.name(), a, b, p, &before)
    }

    /// A list of calls on three meters of one geometry.
    fn run(&mut self, rng: &mut Rng, d: usize, w: usize, calls: usize) {
        let mut meters: Vec<Pair> = (0..3).map(|_| Pair::new(&signed_memory(rng, d, w))).collect();
        let mut keys: Vec<Vec<u8>> = (0..12).map(|_| key(rng)).collect();
        keys.push(Vec::new());
        for _ in 0..calls {
            let at = rng.below(3);
            let mut target = meters[at].clone();
            let mut source = meters[(at + rng.below(3)) % 3].model.clone();
            if rng.once_in(25) {
                target = Pair::new(&other_length(rng, &target.model));
            } else if rng.once_in(25) {
                source = other_length(rng, &source);
            }
            let (td, tw) = told(rng, d, w);
            let some_key = keys[rng.below(keys.len())].clone();
            match rng.below(32) {
                0 => {
                    self.clear(td, tw, &mut target);
                }
                1..=14 => {
                    self.update(td, tw, &mut target, &some_key, signed_amount(rng));
                }
                15..=20 => {
                    self.estimate(td, tw, &target, &some_key);
                }
                21..=24 => {
                    self.combine(Unite, (td, tw), &mut target, &source);
                }
                25..=28 => {
                    self.combine(Subtract, (td, tw), &mut target, &source);
                }
                29 if target.model.len() == d * w / 8 * 9 => {
                    let mut bytes = target.model;
                    // Only a sound memory says where its counters are.
                    if reference::signed_unite(d, w, &mut bytes.clone(), &vec![0; bytes.len()]).number == 0 {
                        plant_minus_zero(rng, &mut bytes, w);
                    }
                    target = Pair::new(&bytes);
                }
                _ => target = Pair::new(&signed_memory(rng, d, w)),
            }
            if target.model.len() == d * w / 8 * 9 {
                meters[at] = target;
            }
        }
    }
}

/// A hundred calls to a list; the share of the largest meters is small, since each of their calls is compared whole.
#[test]
fn random_lists_of_calls() {
    let mut rng = Rng::new(seed("random_lists_of_calls"));
    let mut both = Both::default();
    while both.0.calls() < 400_000 {
        let d = if rng.once_in(20) {
            rng.within(1..9)
        } else {
            rng.pick(&[1, 3, 5, 7])
        };
        let w = rng.pick(&[32, 32, 32, 32, 64, 64, 128]);
        both.run(&mut rng, d, w, 100);
    }
    for w in widths() {
        for d in [1, 3, 5, 7] {
            both.run(&mut rng, d, w, (400_000 / (d * w)).clamp(12, 400));
        }
    }
    both.0.finish(POSSIBLE);
}

/// Two meters with nothing merged whose slots hold every pair of numbers, added up and taken away: most sums fit, and some merge.
#[test]
fn every_pair_of_slots() {
    let mut both = Both::default();
    let pairs: Vec<(i128, i128)> = (-127..128).flat_map(|a| (-127..128).map(move |b| (a, b))).collect();
    // Neighbours in one order, and far from each other in another, for rows of 32 and of 64.
    for (w, step) in [(32, 1), (64, 1), (64, 7_919)] {
        let ordered: Vec<(i128, i128)> = (0..pairs.len()).map(|n| pairs[n * step % pairs.len()]).collect();
        for some in ordered.chunks(w) {
            let mut memories = [vec![0; w / 8 * 9], vec![0; w / 8 * 9]];
            for (slot, (a, b)) in some.iter().enumerate() {
                put_signed(&mut memories[0][slot..=slot], *a);
                put_signed(&mut memories[1][slot..=slot], *b);
            }
            for sense in [Unite, Subtract] {
                let mut target = Pair::new(&memories[0]);
                assert_eq!(both.combine(sense, (1, w), &mut target, &memories[1]), 0);
                // Where the whole group is unmerged, every slot is the sum.
                for (slot, (a, b)) in some.iter().enumerate() {
                    if target.model[w + slot / 8] == 0 {
                        assert_eq!(signed_number(&target.model[slot..=slot]), a + sense.of(*b));
                    }
                }
            }
        }
    }
}

/// One group of any layout in meters with nothing merged, in the target, in the source and in both, valid or not: rows of 64 and more
/// have groups that lie beside it in a word of merge bytes.
#[test]
fn one_merge_byte() {
    let mut rng = Rng::new(seed("one_merge_byte"));
    let mut both = Both::default();
    for w in [32, 64, 128] {
        for group in 0..w / 8 {
            for merge in 0..=255 {
                for merged in [[true, false], [false, true], [true, true]] {
                    let limit = rng.pick(&[64, 66, 128]);
                    let [target, source] = merged.map(|merged| {
                        let mut bytes = vec![0; w / 8 * 9];
                        for slot in 0..w {
                            let number = rng.below(limit) as i128 * rng.pick(&[1, -1]);
                            put_signed(&mut bytes[slot..=slot], number);
                        }
                        if merged {
                            bytes[w + group] = merge;
                        }
                        bytes
                    });
                    for sense in [Unite, Subtract] {
                        both.combine(sense, (1, w), &mut Pair::new(&target), &source);
                    }
                }
            }
        }
    }
    println!("{:?}", both.0);
    for call in ["unite", "subtract"] {
        assert!(both.0.has(call, 0) && both.0.has(call, 5), "{call}");
    }
}

/// Minus zero at every slot of meters with nothing merged, in the target and in the source.
#[test]
fn minus_zero_in_unmerged_groups() {
    let mut both = Both::default();
    for w in [32, 64, 128] {
        for at in (0..w).chain(w / 8 * 9..w / 8 * 9 + w) {
            let others = [0x01, 0x7f, 0x81, 0xff][at % 4];
            let sound: Vec<u8> = (0..3 * w / 8 * 9)
                .map(|n| if n % (w / 8 * 9) < w { others } else { 0 })
                .collect();
            let mut bytes = sound.clone();
            bytes[at] = 0x80;
            for sense in [Unite, Subtract] {
                assert_eq!(both.combine(sense, (3, w), &mut Pair::new(&bytes), &sound), 13);
                assert_eq!(both.combine(sense, (3, w), &mut Pair::new(&sound), &bytes), 13);
                assert_eq!(both.combine(sense, (3, w), &mut Pair::new(&sound), &sound), 0);
            }
        }
    }
}

/// A memory of d rows of w slots in which a key's counter in every row is of a level and holds a figure, times the row's sign.
fn with_figure(d: usize, w: usize, key: &[u8], merge: u8, figure: i128) -> Vec<u8> {
    let mut bytes = vec![0; d * w / 8 * 9];
    for row in 0..d {
        let slot = reference::slot(row, key, w);
        let (counts, at) = group_at(w, row, slot / 8);
        bytes[at] = merge;
        let counter = counters(merge)
            .into_iter()
            .find(|slots| slots.contains(&(slot % 8)))
            .expect("a counter");
        put_signed(&mut bytes[counts][counter], figure * row_sign(row, key));
    }
    bytes
}

/// At both ends of a counter of every level, with amounts at both ends: what fits stays, what does not fit widens, and at 64 bits it
/// is refused.
#[test]
fn ends() {
    let mut both = Both::default();
    let amounts = [
        i32::MIN,
        i32::MIN + 1,
        -32_768,
        -129,
        -128,
        -127,
        -1,
        0,
        1,
        127,
        128,
        32_768,
        i32::MAX - 1,
        i32::MAX,
    ];
    let mut refused = 0;
    for (merge, slots) in [(0, 1), (0x55, 2), (0x77, 4), (0x7f, 8)] {
        let limit = signed_limit(slots);
        let mut figures: Vec<i128> = vec![0, 1, -1];
        for below in [1, 2, 100, 1 << 31, (1 << 31) - 1, (1 << 31) + 1, 1 << 32] {
            figures.extend([limit - below, below - limit]);
        }
        figures.retain(|figure| figure.abs() < limit);
        for d in [1, 3, 5, 7] {
            for key in [&b"k"[..], b"tenant-17", b"tenant-18"] {
                for &figure in &figures {
                    let bytes = with_figure(d, 32, key, merge, figure);
                    assert_eq!(
                        meter::signed_estimate(d, 32, &bytes, key).result(),
                        Ok(i64::try_from(figure).expect("a figure")),
                        "the figure that every row has"
                    );
                    for amount in amounts {
                        let mut pair = Pair::new(&bytes);
                        let sum = figure + i128::from(amount);
                        // No other counter holds anything.
                        let number = if sum.abs() < 1 << 63 { 0 } else { 6 };
                        assert_eq!(both.update(d, 32, &mut pair, key, amount), number, "{figure} and {amount}");
                        let left = if number == 0 { sum } else { figure };
                        assert_eq!(meter::signed_estimate(d, 32, &pair.model, key).figure, left as i64);
                        refused += number;
                        if sum.abs() < limit {
                            let merges = |bytes: &[u8]| bytes.chunks(36).flat_map(|row| row[32..].to_vec()).collect::<Vec<u8>>();
                            assert_eq!(merges(&pair.model), merges(&bytes), "what fits merges nothing");
                        }
                    }
                }
            }
        }
        // The same of whole meters: one figure and another.
        for &a in &figures {
            for &b in &figures {
                let [target, source] = [a, b].map(|figure| with_figure(3, 64, b"k", merge, figure));
                for sense in [Unite, Subtract] {
                    let mut pair = Pair::new(&target);
                    let sum = a + sense.of(b);
                    let number = if sum.abs() < 1 << 63 { 0 } else { 6 };
                    assert_eq!(
                        both.combine(sense, (3, 64), &mut pair, &source),
                        number,
                        "{sense:?} {a} and {b}"
                    );
                    let left = if number == 0 { sum } else { a };
                    assert_eq!(meter::signed_estimate(3, 64, &pair.model, b"k").figure, left as i64);
                    refused += number;
                }
            }
        }
    }
    assert!(refused > 6 * 100, "full counters");
    println!("{:?}", both.0);
}

/// Minus zero in every counter of every layout: in a group of the key it is found whichever counter is the key's, in another group by
/// calls on whole meters alone.
#[test]
fn every_minus_zero() {
    let mut both = Both::default();
    let mut rng = Rng::new(seed("every_minus_zero"));
    let (d, w, key) = (3, 64, b"tenant-17");
    let clear = vec![0; d * w / 8 * 9];
    for merge in reference::valid_merges() {
        for slots in counters(merge) {
            for row in 0..d {
                let own = reference::slot(row, key, w) / 8;
                for group in 0..w / 8 {
                    let mut bytes = small_signed_memory(&mut rng, d, w);
                    let (counts, at) = group_at(w, row, group);
                    bytes[at] = merge;
                    for slots in counters(merge) {
                        put_signed(&mut bytes[counts.clone()][slots], rng.pick(&[0, 1, -1, 127, -127]));
                    }
                    put_minus_zero(&mut bytes[counts][slots.clone()]);
                    let number = if group == own { 13 } else { 0 };
                    assert_eq!(both.update(d, w, &mut Pair::new(&bytes), key, 1), number);
                    assert_eq!(both.estimate(d, w, &Pair::new(&bytes), key), number);
                    for sense in [Unite, Subtract] {
                        assert_eq!(both.combine(sense, (d, w), &mut Pair::new(&bytes), &clear), 13);
                        assert_eq!(both.combine(sense, (d, w), &mut Pair::new(&clear), &bytes), 13);
                    }
                    assert_eq!(both.clear(d, w, &mut Pair::new(&bytes)), 0);
                }
            }
        }
    }
}

/// A sound memory whose numbers are small: no call finds a full counter in it.
fn small_signed_memory(rng: &mut Rng, d: usize, w: usize) -> Vec<u8> {
    let merges = reference::valid_merges();
    let mut bytes = vec![0; d * w / 8 * 9];
    for (row, group) in (0..d).flat_map(|row| (0..w / 8).map(move |group| (row, group))) {
        let (counts, at) = group_at(w, row, group);
        bytes[at] = if rng.once_in(2) { 0 } else { rng.pick(&merges) };
        for slots in counters(bytes[at]) {
            let number = rng.within(0..255) as i128 - 127;
            put_signed(&mut bytes[counts.clone()][slots], number);
        }
    }
    bytes
}

/// What is wrong with a group.
#[derive(Clone, Copy, Debug, PartialEq, Eq)]
enum Fault {
    None,
    MergeByte,
    MinusZero,
    /// An update or a combination of either sign overflows.
    Full,
}

impl Fault {
    const ALL: [Fault; 4] = [Fault::None, Fault::MergeByte, Fault::MinusZero, Fault::Full];

    /// Puts it into a group. A group that is full is so at this sign.
    fn plant(self, bytes: &mut [u8], counts: std::ops::Range<usize>, merge: usize, sign: i128) {
        match self {
            Fault::None => {}
            Fault::MergeByte => {
                bytes[counts].fill(0x80);
                bytes[merge] = 0x80;
            }
            Fault::MinusZero => {
                bytes[merge] = 0x07;
                put_minus_zero(&mut bytes[counts][4..5]);
            }
            Fault::Full => {
                bytes[merge] = 0x7f;
                put_signed(&mut bytes[counts], sign * (signed_limit(8) - 1));
            }
        }
    }

    /// The number of some faults, whatever their order.
    fn number(faults: &[Fault]) -> u32 {
        if faults.contains(&Fault::MergeByte) {
            5
        } else if faults.contains(&Fault::MinusZero) {
            13
        } else if faults.contains(&Fault::Full) {
            6
        } else {
            0
        }
    }
}

/// 5 before 13 before 6, wherever in the rows, in the meters and in their order each applies.
#[test]
fn faults_in_every_order() {
    let mut both = Both::default();
    let (d, w, key) = (3, 64, &b"tenant-17"[..]);
    let own = |row| group_at(w, row, reference::slot(row, key, w) / 8);
    // Of two groups in each of three rows, those of the key and others.
    for code in 0..Fault::ALL.len().pow(3) {
        let faults = [0, 1, 2].map(|n| Fault::ALL[code / Fault::ALL.len().pow(n) % Fault::ALL.len()]);
        let mut bytes = vec![0; d * w / 8 * 9];
        for (row, fault) in faults.iter().enumerate() {
            let (counts, merge) = own(row);
            fault.plant(&mut bytes, counts, merge, row_sign(row, key));
        }
        assert_eq!(
            both.update(d, w, &mut Pair::new(&bytes), key, 1),
            Fault::number(&faults),
            "{faults:?}"
        );
        // An estimate overflows nothing.
        let read: Vec<Fault> = faults.into_iter().filter(|fault| *fault != Fault::Full).collect();
        assert_eq!(
            both.estimate(d, w, &Pair::new(&bytes), key),
            Fault::number(&read),
            "{faults:?}"
        );

        // Three groups of whole meters, each fault in the target or in the source; a full counter meets 1 of its sign in the other.
        for sides in 0..8 {
            for rotated in 0..3 {
                for sense in [Unite, Subtract] {
                    let mut meters = [vec![0; d * w / 8 * 9], vec![0; d * w / 8 * 9]];
                    for (n, fault) in faults.iter().enumerate() {
                        let (row, group) = [(0, 7), (1, 0), (2, 4)][(n + rotated) % 3];
                        let (counts, merge) = group_at(w, row, group);
                        let side = sides >> n & 1;
                        let sign = if n == 1 { -1 } else { 1 };
                        fault.plant(&mut meters[side], counts.clone(), merge, sign);
                        if *fault == Fault::Full {
                            put_signed(&mut meters[1 - side][counts][..1], sense.of(sign));
                        }
                    }
                    let [target, source] = meters;
                    let number = both.combine(sense, (d, w), &mut Pair::new(&target), &source);
                    assert_eq!(number, Fault::number(&faults), "{sense:?} {faults:?}, {sides}, {rotated}");
                }
            }
        }
    }
}

/// 1, 2, 12, 3, 4 before what the groups hold: what applies is taken away one by one.
#[test]
fn order_of_arguments() {
    let mut both = Both::default();
    let damaged = vec![0x80; 36];
    let short = &damaged[1..];
    for (d, w, bytes, key, number) in [
        (0, 33, short, &b""[..], 1),
        (9, 33, short, b"", 1),
        (10, 32, short, b"", 1),
        (2, 33, short, b"", 2),
        (1, 16, short, b"", 2),
        (2, 32, short, b"", 12),
        (8, 32_768, short, b"", 2),
        (7, 65_536, short, b"", 2),
        (8, 16_384, short, b"", 12),
        (1, 32, short, b"", 3),
        (3, 32, &damaged, b"", 3),
        (1, 32, &damaged, b"", 4),
        (1, 32, &damaged, &[7; 65], 4),
    ] {
        assert_eq!(both.update(d, w, &mut Pair::new(bytes), key, 1), number);
        assert_eq!(both.estimate(d, w, &Pair::new(bytes), key), number);
        // These have no key; the memory of the last two is damaged, which a clearing does not look at.
        for sense in [Unite, Subtract] {
            let given = both.combine(sense, (d, w), &mut Pair::new(bytes), bytes);
            assert_eq!(given, if number == 4 { 5 } else { number });
        }
        let given = both.clear(d, w, &mut Pair::new(bytes));
        assert_eq!(given, if number == 4 { 0 } else { number });
    }
    // Every depth of a memory that would be right for it.
    for d in 1..=8 {
        let mut pair = Pair::new(&vec![0x80; d * 36]);
        let number = if d % 2 == 0 { 12 } else { 0 };
        assert_eq!(both.clear(d, 32, &mut pair), number);
        assert_eq!(both.update(d, 32, &mut pair, b"k", -1), number);
        assert_eq!(both.estimate(d, 32, &pair, b"k"), number);
        for sense in [Unite, Subtract] {
            let source = vec![0; d * 36];
            assert_eq!(both.combine(sense, (d, 32), &mut pair, &source), number);
            // Of another length only the source: 12 comes before.
            let given = both.combine(sense, (d, 32), &mut pair, &source[1..]);
            assert_eq!(given, if number == 12 { 12 } else { 3 });
        }
    }
}

/// Lent slices may be empty.
#[test]
fn nothing_lent() {
    assert_eq!(meter::signed_clear(1, 32, &mut []).number, 3);
    assert_eq!(meter::signed_update(1, 32, &mut [], &[], 1).number, 3);
    assert_eq!(meter::signed_update(1, 32, &mut [0; 36], &[], 1).number, 4);
    assert_eq!(meter::signed_estimate(1, 32, &[], b"k").number, 3);
    assert_eq!(meter::signed_estimate(1, 32, &[0; 36], &[]).number, 4);
    assert_eq!(meter::signed_unite(1, 32, &mut [0; 36], &[]).number, 3);
    assert_eq!(meter::signed_subtract(1, 32, &mut [], &[0; 36]).number, 3);
}

/// A meter less a copy of itself: all numbers are 0, and what was merged stays so.
#[test]
fn less_itself() {
    let mut rng = Rng::new(seed("less_itself"));
    for _ in 0..3_000 {
        let (d, w) = (rng.pick(&[1, 3, 5, 7]), rng.pick(&[32, 64, 128]));
        let Ok(mut meter) = SignedMeter::from_bytes(d, w, signed_memory(&mut rng, d, w)) else {
            continue;
        };
        let before = meter.clone();
        meter.subtract(&before).expect("accepted");
        for (row, left) in meter.bytes().chunks(w / 8 * 9).enumerate() {
            assert!(left[..w].iter().all(|&byte| byte == 0), "plus zero");
            let (_, merge) = group_at(w, row, 0);
            assert!(left[w..] == before.bytes()[merge..][..w / 8], "the layout is kept");
        }
        // Added back it is what it was.
        meter.unite(&before).expect("accepted");
        assert!(meter == before);
    }
}

// ---------------------------------------------------------------------------------------------------------------------------
// The book

/// A meter with the exact total of every slot in each row, by the arguments of accepted calls alone.
#[derive(Clone)]
struct Kept {
    memory: Vec<u8>,
    totals: Vec<i128>,
}

impl Kept {
    fn new(d: usize, w: usize) -> Kept {
        let mut memory = vec![0xff; d * w / 8 * 9];
        assert_eq!(meter::signed_clear(d, w, &mut memory).number, 0);
        Kept {
            memory,
            totals: vec![0; d * w],
        }
    }
}

#[derive(Default, Debug)]
struct Seen {
    refused: u64,
    full: u64,
    updates: u64,
    combined: u64,
    cleared: u64,
    /// Counters that were looked at, by level, and those of them below 0.
    levels: [u64; 4],
    negative: u64,
    /// Estimates that are the key's own total, and others.
    exact: u64,
    off: u64,
}

/// Each counter is the total of its block; what was merged before is merged; an estimate is the median.
fn check(d: usize, w: usize, m: &Kept, before: &[u8], keys: &[Vec<u8>], own: &[i128], seen: &mut Seen) {
    for (row, group) in (0..d).flat_map(|row| (0..w / 8).map(move |group| (row, group))) {
        let (counts, merge) = group_at(w, row, group);
        assert_eq!(m.memory[merge] & before[merge], before[merge], "no layout shrinks");
        for slots in counters(m.memory[merge]) {
            let counter = &m.memory[counts.clone()][slots.clone()];
            let first = row * w + 8 * group;
            let total: i128 = m.totals[first + slots.start..first + slots.end].iter().sum();
            assert_eq!(signed_number(counter), total, "row {row}, group {group}, slots {slots:?}");
            assert!(total != 0 || counter.iter().all(|&byte| byte == 0), "zero is plus");
            seen.levels[slots.len().ilog2() as usize] += u64::from(total != 0);
            seen.negative += u64::from(total < 0);
        }
    }
    for (key, own) in keys.iter().zip(own) {
        let mut figures: Vec<i128> = (0..d)
            .map(|row| {
                let slot = reference::slot(row, key, w);
                let (counts, merge) = group_at(w, row, slot / 8);
                let mut all = counters(m.memory[merge]).into_iter();
                let slots = all.find(|slots| slots.contains(&(slot % 8))).expect("a counter");
                row_sign(row, key) * signed_number(&m.memory[counts][slots])
            })
            .collect();
        figures.sort();
        let answer = meter::signed_estimate(d, w, &m.memory, key);
        assert_eq!((answer.number, i128::from(answer.figure)), (0, figures[d / 2]), "the median");
        if figures[d / 2] == *own {
            seen.exact += 1;
        } else {
            seen.off += 1;
        }
    }
}

/// A call that is refused, whatever the meter holds.
fn refused_call(rng: &mut Rng, d: usize, w: usize, memory: &mut [u8], key: &[u8]) -> u32 {
    let amount = signed_amount(rng);
    let mut source = vec![0; memory.len()];
    match rng.below(8) {
        0 => meter::signed_update(d + 8, w, memory, key, amount).number,
        1 => meter::signed_update(d, w + 1, memory, key, amount).number,
        2 => meter::signed_update(d + 1, w, memory, key, amount).number,
        3 => meter::signed_update(d, w, &mut memory[1..], key, amount).number,
        4 => meter::signed_update(d, w, memory, &[7; 65], amount).number,
        5 => meter::signed_clear(d + 1, w, memory).number,
        6 => {
            source[w] = 0x02;
            meter::signed_unite(d, w, memory, &source).number
        }
        _ => {
            source[0] = 0x80;
            meter::signed_subtract(d, w, memory, &source).number
        }
    }
}

#[test]
fn counters_are_totals() {
    let mut rng = Rng::new(seed("counters_are_totals"));
    let mut seen = Seen::default();
    for list in 0..500 {
        let (d, w) = (rng.pick(&[1, 3, 3, 5, 7]), rng.pick(&[32, 32, 64, 256]));
        let count = rng.within(2..40);
        let keys = valid_keys(&mut rng, count);
        // Of each meter what it counted for each key, and the meter.
        let mut meters = vec![(vec![0; count], Kept::new(d, w)); 3];
        // In some lists meters are doubled often, so that counters get full; in others amounts are small.
        let (doubling, small) = (list % 4 == 0, list % 4 == 1);
        for _ in 0..if doubling { 300 } else { 150 } {
            let at = rng.below(3);
            let (other_own, other) = meters[(at + rng.below(3)) % 3].clone();
            let (own, m) = &mut meters[at];
            let before = m.memory.clone();
            let mut shrinks = false;
            match rng.below(if doubling { 16 } else { 32 }) {
                0 if rng.once_in(10) => {
                    assert_eq!(meter::signed_clear(d, w, &mut m.memory).number, 0);
                    m.totals.fill(0);
                    own.fill(0);
                    shrinks = true;
                    seen.cleared += 1;
                }
                1 => {
                    let n = rng.below(count);
                    assert_ne!(refused_call(&mut rng, d, w, &mut m.memory, &keys[n]), 0);
                    assert!(m.memory == before, "a refused call changes nothing");
                    seen.refused += 1;
                }
                2..=8 if doubling || rng.once_in(4) => {
                    let sense = if rng.once_in(if doubling { 16 } else { 2 }) {
                        Subtract
                    } else {
                        Unite
                    };
                    let sums: Vec<i128> = m.totals.iter().zip(&other.totals).map(|(a, b)| a + sense.of(*b)).collect();
                    // Only a group that is one counter in either meter can be full.
                    let whole = |memory: &[u8], n: usize| memory[group_at(w, n / (w / 8), n % (w / 8)).1] == 0x7f;
                    let full = (0..d * w / 8).any(|n| {
                        (whole(&m.memory, n) || whole(&other.memory, n))
                            && sums[8 * n..8 * n + 8].iter().sum::<i128>().abs() >= 1 << 63
                    });
                    let number = sense.call(d, w, &mut m.memory, &other.memory).number;
                    assert_eq!(number, if full { 6 } else { 0 }, "full exactly if a group is");
                    if full {
                        assert!(m.memory == before, "a refused call changes nothing");
                        seen.full += 1;
                    } else {
                        m.totals = sums;
                        own.iter_mut().zip(other_own).for_each(|(own, other)| *own += sense.of(other));
                        seen.combined += 1;
                    }
                    for (row, group) in (0..d).flat_map(|row| (0..w / 8).map(move |group| (row, group))) {
                        let merge = group_at(w, row, group).1;
                        let merged = if full { 0 } else { other.memory[merge] };
                        assert_eq!(m.memory[merge] & merged, merged, "what the source merged is merged");
                    }
                }
                _ => {
                    let n = rng.below(count);
                    let amount = if small {
                        rng.within(0..41) as i32 - 20
                    } else {
                        signed_amount(&mut rng)
                    };
                    let number = meter::signed_update(d, w, &mut m.memory, &keys[n], amount).number;
                    if number == 0 {
                        for row in 0..d {
                            m.totals[row * w + reference::slot(row, &keys[n], w)] += row_sign(row, &keys[n]) * i128::from(amount);
                        }
                        own[n] += i128::from(amount);
                        seen.updates += 1;
                    } else {
                        assert_eq!((number, &m.memory), (6, &before));
                        seen.full += 1;
                    }
                }
            }
            let least = if shrinks { vec![0; before.len()] } else { before };
            let (own, m) = &meters[at];
            check(d, w, m, &least, &keys, own, &mut seen);
        }
    }
    println!("{seen:?}");
    assert!(seen.full > 100 && seen.combined > 5_000 && seen.updates > 20_000 && seen.cleared > 100);
    assert!(seen.refused > 1_000 && seen.negative > 10_000);
    assert!(seen.levels.iter().all(|&n| n > 1_000), "every level");
    assert!(seen.exact > 10_000 && seen.off > 10_000);
}

// ---------------------------------------------------------------------------------------------------------------------------
// SignedMeter

/// A result as the reference's answer has it.
fn same<F: Copy + PartialEq + std::fmt::Debug>(
    method: &'static str,
    proved: Result<F, Refused>,
    model: reference::Answer<F>,
    given: &mut Numbers,
) {
    let proved = proved.map_err(|refused| (refused.number(), refused.place));
    let expected = if model.number == 0 {
        Ok(model.figure)
    } else {
        Err((model.number, model.place))
    };
    assert_eq!(proved, expected, "{method}: proved and reference");
    given.note(method, model.number);
}

#[test]
fn made() {
    let mut rng = Rng::new(seed("made"));
    let mut given = Numbers::default();
    for _ in 0..20_000 {
        let (d, w) = (
            rng.within(0..10),
            rng.pick(&[0, 31, 32, 33, 64, 128, 16_384, 32_768, usize::MAX]),
        );
        let made = SignedMeter::new(d, w);
        if let Ok(meter) = &made {
            assert_eq!((meter.d(), meter.w()), (d, w));
            assert!(meter.bytes().len() == d * w / 8 * 9 && meter.bytes().iter().all(|&b| b == 0));
        }
        let length = meter::size(d, w).unwrap_or(0);
        let answer = reference::signed_clear(d, w, &mut vec![0; length]);
        same("new", made.map(|_| 0), answer, &mut given);

        let (of_d, of_w) = (rng.within(1..9), 32 << rng.below(3));
        let mut bytes = signed_memory(&mut rng, of_d, of_w);
        if rng.once_in(10) {
            bytes.pop();
        }
        let (d, w) = if rng.once_in(3) { (d, w) } else { (of_d, of_w) };
        let made = SignedMeter::from_bytes(d, w, bytes.clone());
        if let Ok(meter) = &made {
            assert_eq!((meter.d(), meter.w(), meter.bytes()), (d, w, &bytes[..]));
            assert!(meter.clone().into_bytes() == bytes);
        }
        let answer = reference::signed_unite(d, w, &mut vec![0; bytes.len()], &bytes);
        same("from_bytes", made.map(|_| 0), answer, &mut given);
    }
    given.finish(&[("new", &[0, 1, 2, 12]), ("from_bytes", &[0, 1, 2, 3, 5, 12, 13])]);
}

#[test]
fn methods() {
    let mut rng = Rng::new(seed("methods"));
    let mut given = Numbers::default();
    let some_meter = |rng: &mut Rng, d, w| loop {
        if let Ok(meter) = SignedMeter::from_bytes(d, w, signed_memory(rng, d, w)) {
            return meter;
        }
    };
    for _ in 0..3_000 {
        let (d, w) = (rng.pick(&[1, 3, 5, 7]), 32 << rng.below(3));
        let mut meter = some_meter(&mut rng, d, w);
        let mut memory = meter.bytes().to_vec();
        let some_key = key(&mut rng);
        for _ in 0..20 {
            let other_key = if rng.once_in(2) { some_key.clone() } else { key(&mut rng) };
            match rng.below(12) {
                0 if rng.once_in(10) => {
                    meter.clear();
                    memory.fill(0);
                }
                0..=5 => {
                    let amount = signed_amount(&mut rng);
                    let answer = reference::signed_update(d, w, &mut memory, &other_key, amount);
                    same("update", meter.update(&other_key, amount).map(|()| 0), answer, &mut given);
                }
                6 | 7 => {
                    let answer = reference::signed_estimate(d, w, &memory, &other_key);
                    same("estimate", meter.estimate(&other_key), answer, &mut given);
                }
                8 | 9 => {
                    let source = some_meter(&mut rng, d, w);
                    let answer = reference::signed_unite(d, w, &mut memory, source.bytes());
                    same("unite", meter.unite(&source).map(|()| 0), answer, &mut given);
                }
                _ => {
                    let source = some_meter(&mut rng, d, w);
                    let answer = reference::signed_subtract(d, w, &mut memory, source.bytes());
                    same("subtract", meter.subtract(&source).map(|()| 0), answer, &mut given);
                }
            }
            assert!(meter.bytes() == memory, "the memory after a call");
            assert_eq!((meter.d(), meter.w()), (d, w));
        }
        let again = SignedMeter::from_bytes(d, w, meter.clone().into_bytes());
        assert!(again.as_ref() == Ok(&meter), "no call leaves what is no meter");
    }
    given.finish(&[
        ("update", &[0, 4, 6]),
        ("estimate", &[0, 4]),
        ("unite", &[0, 6]),
        ("subtract", &[0, 6]),
    ]);
}

/// A source of another depth or width is refused; no two signed meters of different geometry are equally long, since their depths are odd.
#[test]
fn other_geometries() {
    let refused = Refused {
        reason: Reason::OtherGeometry,
        place: 0,
    };
    let all: Vec<(usize, usize)> = [1, 3, 5, 7]
        .iter()
        .flat_map(|d| (5..=9).map(move |log| (*d, 1 << log)))
        .collect();
    for &(d, w) in &all {
        for &(of_d, of_w) in &all {
            let mut meter = SignedMeter::new(d, w).expect("a meter");
            meter.update(b"tenant", -300).expect("accepted");
            let mut source = SignedMeter::new(of_d, of_w).expect("a meter");
            source.update(b"tenant", 70_000).expect("accepted");
            let before = meter.clone();
            let outcomes = [meter.unite(&source), meter.subtract(&source)];
            if (d, w) == (of_d, of_w) {
                assert_eq!((outcomes, meter.estimate(b"tenant")), ([Ok(()); 2], Ok(-300)));
            } else {
                assert_eq!(outcomes, [Err(refused); 2]);
                assert!(meter == before, "nothing changed");
                assert_ne!(meter.bytes().len(), source.bytes().len());
            }
        }
    }
}

#[test]
fn debug_is_short() {
    let largest = SignedMeter::new(7, LARGEST_WIDTH).expect("a meter");
    assert_eq!(format!("{largest:?}"), "SignedMeter { d: 7, w: 16384, .. }");
}

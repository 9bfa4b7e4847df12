//! The signed meter of document 02, request 3, on the lent bytes.
//!
//! A group is a list of counters, whole numbers. Updates, sums and differences are one search: from the totals of all blocks, as they
//! would be, the least layout that keeps what was merged and in which every total fits. So nothing here climbs or recurses.

use crate::{
    answer, first_slot, good_geometry, good_key, good_shape, hash, layouts, least_layout, level, limit, marks_within, slot,
    Answer, Refused, FIRST_SLOT, ROOT,
};

/// A magnitude that a counter of a level stays below.
fn bound(level: u32) -> i128 {
    limit(level) as i128 / 2
}

/// Whether a block is inside another, or is it.
fn inside(node: usize, of: usize) -> bool {
    level(node) <= level(of) && node >> (level(of) - level(node)) == of
}

/// A sound group: its counters, in slot order, each the node that it is at and its number.
#[derive(Clone, PartialEq, Eq, Debug)]
struct Group(Vec<(usize, i128)>);

/// What eight count bytes and a merge byte are in a memory.
type Raw = ([u8; 8], u8);

impl Group {
    /// Refused with 5 where the merge byte is none of the 26, and with 13 where a counter is minus zero.
    fn read((counts, merge): Raw) -> Result<Group, Refused> {
        let code = layouts().code[merge as usize].ok_or((5, 0))?;
        let mut counters = Vec::new();
        for &node in &layouts().all[code as usize].1 {
            let slots = &counts[first_slot(node)..][..1 << level(node)];
            let bits = slots.iter().rev().fold(0, |n, &byte| n * 256 + i128::from(byte));
            let number = match bits - bound(level(node)) {
                0 => return Err((13, 0)),
                magnitude if magnitude > 0 => -magnitude,
                _ => bits,
            };
            counters.push((node, number));
        }
        Ok(Group(counters))
    }

    fn write(&self) -> Raw {
        let mut counts = [0; 8];
        let mut merge = 0;
        for &(node, number) in &self.0 {
            merge |= marks_within(node);
            assert!(number.abs() < bound(level(node)), "a magnitude fits its counter");
            let mut rest = if number < 0 { bound(level(node)) - number } else { number };
            for byte in &mut counts[first_slot(node)..][..1 << level(node)] {
                *byte = (rest % 256) as u8;
                rest /= 256;
            }
        }
        (counts, merge)
    }

    fn merge(&self) -> u8 {
        self.0.iter().map(|&(node, _)| marks_within(node)).sum()
    }

    /// The total of each block; of a block inside a counter, which no layout here asks for, 0.
    fn totals(&self) -> [i128; 16] {
        let mut totals = [0; 16];
        for (block, total) in totals.iter_mut().enumerate().skip(ROOT) {
            *total = self
                .0
                .iter()
                .filter(|(node, _)| inside(*node, block))
                .map(|(_, number)| number)
                .sum();
        }
        totals
    }

    /// The group of these totals, with at least these marks; refused with 6 where they fit no layout.
    fn settled(marks: u8, totals: [i128; 16]) -> Result<Group, Refused> {
        let layout = least_layout(marks, |node| totals[node].abs() < bound(level(node))).ok_or((6, 0))?;
        Ok(Group(layout.iter().map(|&node| (node, totals[node])).collect()))
    }

    /// With a number added at a slot.
    fn plus(&self, slot: usize, number: i128) -> Result<Group, Refused> {
        let mut totals = self.totals();
        for (block, total) in totals.iter_mut().enumerate().skip(ROOT) {
            if inside(FIRST_SLOT + slot, block) {
                *total += number;
            }
        }
        Group::settled(self.merge(), totals)
    }

    /// With another group added so many times.
    fn combined(&self, times: i128, source: &Group) -> Result<Group, Refused> {
        let (mut totals, others) = (self.totals(), source.totals());
        for (total, other) in totals.iter_mut().zip(others) {
            *total += times * other;
        }
        Group::settled(self.merge() | source.merge(), totals)
    }

    fn number_at(&self, slot: usize) -> i128 {
        let holds = |&&(node, _): &&(usize, i128)| inside(FIRST_SLOT + slot, node);
        self.0.iter().find(holds).expect("every slot is in a counter").1
    }
}

/// All groups, if all are sound; else the first number in the order of the paper, which is the least.
fn all_sound(groups: Vec<Result<Group, Refused>>) -> Result<Vec<Group>, Refused> {
    match groups.iter().filter_map(|group| group.as_ref().err()).min() {
        Some(refused) => Err(*refused),
        None => Ok(groups.into_iter().flatten().collect()),
    }
}

/// Where a group lies in a memory of rows of w slots: its first count byte and its merge byte.
#[derive(Clone, Copy)]
struct Place {
    counts: usize,
    merge: usize,
}

impl Place {
    fn new(w: usize, row: usize, group: usize) -> Place {
        let start = row * (w + w / 8);
        Place {
            counts: start + 8 * group,
            merge: start + w + group,
        }
    }

    fn read(self, memory: &[u8]) -> Result<Group, Refused> {
        Group::read((
            memory[self.counts..][..8].try_into().expect("eight bytes"),
            memory[self.merge],
        ))
    }

    fn write(self, memory: &mut [u8], group: &Group) {
        let (counts, merge) = group.write();
        memory[self.counts..][..8].copy_from_slice(&counts);
        memory[self.merge] = merge;
    }
}

/// The sign that a row has for a key: minus where bit 15 of the row's hash is set.
pub fn row_sign(row: usize, key: &[u8]) -> i128 {
    if hash(row as u8, key) / (1 << 15) % 2 == 1 {
        -1
    } else {
        1
    }
}

fn good_signed_shape(d: usize, w: usize, length: usize) -> Result<(), Refused> {
    good_geometry(d, w)?;
    if d.is_multiple_of(2) {
        return Err((12, 0));
    }
    good_shape(d, w, length)
}

/// A key's group in each row.
fn places(d: usize, w: usize, key: &[u8]) -> Vec<Place> {
    (0..d).map(|row| Place::new(w, row, slot(row, key, w) / 8)).collect()
}

pub fn signed_clear(d: usize, w: usize, memory: &mut [u8]) -> Answer {
    answer(good_signed_shape(d, w, memory.len()).map(|()| {
        memory.fill(0);
        0
    }))
}

pub fn signed_update(d: usize, w: usize, memory: &mut [u8], key: &[u8], amount: i32) -> Answer {
    answer((|| {
        good_signed_shape(d, w, memory.len())?;
        good_key(key)?;
        let places = places(d, w, key);
        let groups = all_sound(places.iter().map(|place| place.read(memory)).collect())?;
        let mut sums = Vec::new();
        for (row, group) in groups.iter().enumerate() {
            sums.push(group.plus(slot(row, key, w) % 8, row_sign(row, key) * i128::from(amount))?);
        }
        for (place, group) in places.iter().zip(&sums) {
            place.write(memory, group);
        }
        Ok(0)
    })())
}

pub fn signed_estimate(d: usize, w: usize, memory: &[u8], key: &[u8]) -> Answer<i64> {
    answer((|| {
        good_signed_shape(d, w, memory.len())?;
        good_key(key)?;
        let groups = all_sound(places(d, w, key).iter().map(|place| place.read(memory)).collect())?;
        let figures = groups
            .iter()
            .enumerate()
            .map(|(row, group)| row_sign(row, key) * group.number_at(slot(row, key, w) % 8));
        let mut figures: Vec<i128> = figures.collect();
        figures.sort();
        Ok(i64::try_from(figures[d / 2]).expect("a magnitude below 2^63"))
    })())
}

pub fn signed_unite(d: usize, w: usize, memory: &mut [u8], source: &[u8]) -> Answer {
    answer(combine(d, w, memory, 1, source))
}

pub fn signed_subtract(d: usize, w: usize, memory: &mut [u8], source: &[u8]) -> Answer {
    answer(combine(d, w, memory, -1, source))
}

fn combine(d: usize, w: usize, memory: &mut [u8], times: i128, source: &[u8]) -> Result<u64, Refused> {
    good_signed_shape(d, w, memory.len())?;
    good_signed_shape(d, w, source.len())?;
    let places: Vec<Place> = (0..d)
        .flat_map(|row| (0..w / 8).map(move |group| Place::new(w, row, group)))
        .collect();
    let read = |from: &[u8]| -> Vec<Result<Group, Refused>> { places.iter().map(|place| place.read(from)).collect() };
    let mut groups = all_sound([read(memory), read(source)].concat())?;
    let others = groups.split_off(places.len());
    let mut combined = Vec::new();
    for (group, other) in groups.iter().zip(&others) {
        combined.push(group.combined(times, other)?);
    }
    for (place, group) in places.iter().zip(&combined) {
        place.write(memory, group);
    }
    Ok(0)
}

#[cfg(test)]
mod tests {
    use super::*;

    const CLEAR: Raw = ([0; 8], 0);

    fn group(raw: Raw) -> Group {
        let group = Group::read(raw).expect("a sound group");
        assert_eq!(group.write(), raw, "written as it was read");
        group
    }

    fn after(raw: Raw, slot: usize, number: i128) -> Result<Raw, Refused> {
        group(raw).plus(slot, number).map(|group| group.write())
    }

    /// The top bit is the sign, and its own value is what a magnitude stays below.
    #[test]
    fn sign_and_magnitude() {
        for (number, raw) in [
            (0, CLEAR),
            (127, ([127, 0, 0, 0, 0, 0, 0, 0], 0)),
            (-1, ([0x81, 0, 0, 0, 0, 0, 0, 0], 0)),
            (-127, ([0xff, 0, 0, 0, 0, 0, 0, 0], 0)),
            (128, ([0x80, 0, 0, 0, 0, 0, 0, 0], 0x01)),
            (-128, ([0x80, 0x80, 0, 0, 0, 0, 0, 0], 0x01)),
            (-32_767, ([0xff, 0xff, 0, 0, 0, 0, 0, 0], 0x01)),
            (-32_768, ([0, 0x80, 0, 0x80, 0, 0, 0, 0], 0x07)),
            (i128::from(i32::MAX), ([0xff, 0xff, 0xff, 0x7f, 0, 0, 0, 0], 0x07)),
            (i128::from(i32::MIN), ([0, 0, 0, 0x80, 0, 0, 0, 0x80], 0x7f)),
            ((1 << 63) - 1, ([0xff, 0xff, 0xff, 0xff, 0xff, 0xff, 0xff, 0x7f], 0x7f)),
            (1 - (1 << 63), ([0xff; 8], 0x7f)),
        ] {
            assert_eq!(after(CLEAR, 0, number), Ok(raw), "{number}");
            assert_eq!(
                after(raw, 0, -number).map(|raw| raw.0),
                Ok([0; 8]),
                "{number} and back to plus zero"
            );
        }
        for number in [1 << 63, -(1 << 63)] {
            assert_eq!(after(CLEAR, 0, number), Err((6, 0)));
        }
    }

    /// A sum that no longer fits takes in every counter of the sibling block, signed, and may fit then or not.
    #[test]
    fn widening() {
        // 127 + 1 and -127 of the sibling: 1 in the pair.
        assert_eq!(
            after(([127, 0xff, 0, 0, 0, 0, 0, 0], 0), 0, 1),
            Ok(([1, 0, 0, 0, 0, 0, 0, 0], 0x01))
        );
        // 32,767 + 1 does not fit the pair; with 5 and -6 of the next it is 32,767 in the half, whose other pair is merged too.
        assert_eq!(
            after(([0xff, 0x7f, 5, 0x86, 9, 0, 0, 0], 0x01), 1, 1),
            Ok(([0xff, 0x7f, 0, 0, 9, 0, 0, 0], 0x07))
        );
        // Both halves: 2^31 and -3 and 4.
        assert_eq!(
            after(([0xff, 0xff, 0xff, 0x7f, 0x83, 0, 4, 0], 0x07), 3, 1),
            Ok(([1, 0, 0, 0x80, 0, 0, 0, 0], 0x7f))
        );
    }

    #[test]
    fn sums_and_differences() {
        let a = group(([100, 0xe4, 0, 0, 0, 0, 0, 0], 0)); // 100, -100
        let b = group(([28, 0, 0, 0, 0, 0, 0, 0], 0));
        let written = |group: Result<Group, Refused>| group.map(|group| group.write());
        // 128 does not fit; with -100 it is 28.
        assert_eq!(written(a.combined(1, &b)), Ok(([28, 0, 0, 0, 0, 0, 0, 0], 0x01)));
        assert_eq!(written(a.combined(-1, &b)), Ok(([72, 0xe4, 0, 0, 0, 0, 0, 0], 0)));
        // What either merged is merged, and stays so at zero.
        let c = group(([100, 0, 0, 0, 1, 0, 0, 0x80], 0x70));
        assert_eq!(written(a.combined(-1, &c)).map(|raw| raw.1), Ok(0x70));
        assert_eq!(written(c.combined(-1, &c)), Ok(([0; 8], 0x70)));
        // The ends of a counter of 64 bits.
        let most = group(([0xff, 0xff, 0xff, 0xff, 0xff, 0xff, 0xff, 0x7f], 0x7f));
        let least = group(([0xff; 8], 0x7f));
        assert_eq!(written(most.combined(1, &b)), Err((6, 0)));
        assert_eq!(written(least.combined(-1, &b)), Err((6, 0)));
        assert_eq!(written(most.combined(1, &least)), Ok(([0; 8], 0x7f)));
        assert_eq!(written(most.combined(-1, &most)), Ok(([0; 8], 0x7f)));
        assert_eq!(written(most.combined(-1, &least)), Err((6, 0)));
    }

    #[test]
    fn unsound() {
        assert_eq!(Group::read(([0x80; 8], 0x02)), Err((5, 0)));
        for (merge, layout) in &layouts().all {
            for &node in layout {
                let mut counts = [1; 8];
                let slots = &mut counts[first_slot(node)..][..1 << level(node)];
                slots.fill(0);
                slots[slots.len() - 1] = 0x80;
                assert_eq!(Group::read((counts, *merge)), Err((13, 0)), "{merge:#x}, {node}");
            }
        }
        let sound = || Group::read(CLEAR);
        assert_eq!(all_sound(vec![sound(), Err((13, 0)), Err((5, 0))]), Err((5, 0)));
        assert_eq!(all_sound(vec![sound(), Err((13, 0)), sound()]), Err((13, 0)));
    }

    /// The middle one of three rows, each times its sign.
    #[test]
    fn medians() {
        let key = b"tenant-17";
        let mut memory = vec![0; 3 * 36];
        for (row, figure) in [(0, 9), (1, -70), (2, 40)] {
            let at = row * 36 + slot(row, key, 32);
            let number = figure * row_sign(row, key);
            memory[at] = if number < 0 { 128 - number } else { number } as u8;
        }
        assert_eq!(signed_estimate(3, 32, &memory, key), crate::accepted(9));
        assert_eq!(signed_update(3, 32, &mut memory, key, -20), crate::accepted(0));
        assert_eq!(signed_estimate(3, 32, &memory, key), crate::accepted(-11));
    }

    /// Each line before the next: what applies is taken away one by one.
    #[test]
    fn order_of_numbers() {
        let damaged = [[0x80; 32].to_vec(), vec![0x80; 4]].concat();
        let minus_zero = [[0x80; 32].to_vec(), vec![0; 4]].concat();
        let full = [[0xff; 32].to_vec(), vec![0x7f; 4]].concat();
        let update = |d, w, memory: &[u8], key: &[u8]| {
            // By either sign of the row one of the two overflows a full counter.
            let numbers = [-1, 1].map(|amount| {
                let mut lent = memory.to_vec();
                let number = signed_update(d, w, &mut lent, key, amount).number;
                assert!(number == 0 || lent == memory, "a refused call changes nothing");
                number
            });
            numbers[0].max(numbers[1])
        };
        assert_eq!(update(0, 33, &damaged[1..], b""), 1);
        assert_eq!(update(2, 33, &damaged[1..], b""), 2);
        assert_eq!(update(2, 32, &damaged[1..], b""), 12);
        assert_eq!(update(1, 32, &damaged[1..], b""), 3);
        assert_eq!(update(1, 32, &damaged, b""), 4);
        assert_eq!(update(1, 32, &damaged, b"k"), 5);
        assert_eq!(update(1, 32, &minus_zero, b"k"), 13);
        assert_eq!(update(1, 32, &full, b"k"), 6);
        assert_eq!(update(1, 32, &[0; 36], b"k"), 0);
        assert_eq!(signed_unite(1, 32, &mut full.clone(), &damaged).number, 5);
        assert_eq!(signed_unite(1, 32, &mut full.clone(), &minus_zero).number, 13);
        assert_eq!(signed_unite(1, 32, &mut full.clone(), &full).number, 6);
        assert_eq!(signed_subtract(1, 32, &mut full.clone(), &full).number, 0);
        assert_eq!(signed_clear(1, 32, &mut damaged.clone()).number, 0);
    }
}

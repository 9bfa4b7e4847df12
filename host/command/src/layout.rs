//! Where a meter's counters lie in its memory, after document 01: a row is w count bytes, then w / 8 merge bytes. Eight slots are a
//! group; of its merge byte bits 0, 2, 4, 6 mark the pairs, bits 1 and 5 the halves, bit 3 the group. A counter of level n has
//! 2^n slots, the lowest least significant.

use meter::Meter;

pub const LEVELS: usize = 4;

/// A counter and where it is.
#[derive(Clone, Copy, Debug, PartialEq, Eq)]
pub struct Counter {
    pub row: usize,
    /// Its first slot.
    pub slot: usize,
    pub level: usize,
    pub figure: u64,
}

impl Counter {
    pub fn slots(&self) -> usize {
        1 << self.level
    }
}

/// The bits of a counter of a level.
pub fn bits(level: usize) -> usize {
    8 << level
}

/// The level of the counter that slot k of a group is in.
fn level(merge: u8, k: usize) -> usize {
    let set = |bit: usize| merge >> bit & 1 == 1;
    if set(3) {
        3
    } else if set((k & 4) + 1) {
        2
    } else if set(k & 6) {
        1
    } else {
        0
    }
}

/// The counters of a row in slot order.
pub fn row(meter: &Meter, row: usize) -> Vec<Counter> {
    let stride = meter.w() / 8 * 9;
    let memory = meter.bytes().get(row * stride..).unwrap_or(&[]);
    let (counts, merges) = memory.split_at(meter.w().min(memory.len()));
    let mut counters = Vec::with_capacity(counts.len());
    let mut slot = 0;
    while slot < counts.len() {
        let level = level(merges[slot / 8], slot % 8);
        let bytes = &counts[slot..slot + (1 << level)];
        let figure = bytes.iter().rev().fold(0, |n, b| n << 8 | u64::from(*b));
        counters.push(Counter {
            row,
            slot,
            level,
            figure,
        });
        slot += bytes.len();
    }
    counters
}

/// What is in use of a meter: a counter is in use if its figure is not 0.
#[derive(Debug, Default, PartialEq, Eq)]
pub struct Use {
    /// By level: all counters, and those in use.
    pub counters: [u64; LEVELS],
    pub used: [u64; LEVELS],
    /// By row: counters in use, and the sum of their figures.
    pub rows: Vec<(u64, u128)>,
    pub largest: u64,
}

pub fn in_use(meter: &Meter) -> Use {
    let mut all = Use::default();
    for r in 0..meter.d() {
        let (mut used, mut total) = (0, 0);
        for counter in row(meter, r) {
            all.counters[counter.level] += 1;
            if counter.figure > 0 {
                all.used[counter.level] += 1;
                used += 1;
            }
            total += u128::from(counter.figure);
            all.largest = all.largest.max(counter.figure);
        }
        all.rows.push((used, total));
    }
    all
}

#[cfg(test)]
mod tests {
    use super::*;

    /// Document 01's cases P1 and P2 in the first group of a row of 32 slots.
    #[test]
    fn cases() {
        let mut memory = vec![0; 36];
        memory[..8].copy_from_slice(&[0, 255, 3, 0, 0xfd, 0xff, 95, 11]);
        memory[32] = 0x10;
        let counters = row(&Meter::from_bytes(1, 32, memory.clone()).unwrap(), 0);
        let first: Vec<_> = counters[..7].iter().map(|c| (c.slot, c.level, c.figure)).collect();
        let singles = [(0, 0, 0), (1, 0, 255), (2, 0, 3), (3, 0, 0)];
        assert_eq!(first, [&singles[..], &[(4, 1, 65_533), (6, 0, 95), (7, 0, 11)]].concat());
        assert_eq!(counters.len(), 7 + 24);

        memory[4..8].copy_from_slice(&65_644u32.to_le_bytes());
        memory[32] = 0x70;
        let counters = row(&Meter::from_bytes(1, 32, memory).unwrap(), 0);
        assert_eq!((counters[4].slot, counters[4].level, counters[4].figure), (4, 2, 65_644));
        assert_eq!(counters[5].slot, 8);
    }

    /// Every slot of a layout is in one counter, and the level is what a merge byte's bits say.
    #[test]
    fn whole_groups() {
        let mut memory = vec![0; 36];
        memory[..8].fill(255);
        memory[32] = 0x7f;
        let counters = row(&Meter::from_bytes(1, 32, memory).unwrap(), 0);
        assert_eq!((counters[0].level, counters[0].figure, counters[1].slot), (3, u64::MAX, 8));
    }
}

//! How far figures are off, by d and w, on traffic made up from fixed seeds: `bench/run accuracy`. The same on every machine.
//!
//! A figure is off if it is more than a tenth above what was added for its key. None is below.

use bench::traffic::{packet, Rng, Zipf};
use std::cmp::Reverse;

const PACKETS: usize = 1_000_000;
const SEEDS: [u64; 3] = [1, 2, 3];
const LENGTH: usize = 13;

/// How many keys there are, and of how many of the heaviest a share is given.
const CASES: [(usize, &[usize]); 3] = [
    (1_000, &[usize::MAX]),
    (10_000, &[usize::MAX, 100]),
    (100_000, &[usize::MAX, 1_000, 100]),
];

/// Packets by their key, and what each key has in all, heaviest first. Keys without a packet are left out.
struct Traffic {
    keys: Vec<[u8; LENGTH]>,
    packets: Vec<(usize, u32)>,
    totals: Vec<(usize, u64)>,
}

impl Traffic {
    fn new(keys: usize, seed: u64) -> Traffic {
        let mut rng = Rng(seed);
        let ranks = Zipf::new(keys);
        let mut sums = vec![0; keys];
        let keys = (0..keys).map(|_| std::array::from_fn(|_| rng.draw() as u8)).collect();
        let packets: Vec<(usize, u32)> = (0..PACKETS).map(|_| (ranks.pick(&mut rng), packet(&mut rng))).collect();
        for &(key, amount) in &packets {
            sums[key] += amount as u64;
        }
        let mut totals: Vec<(usize, u64)> = sums.into_iter().enumerate().filter(|&(_, total)| total > 0).collect();
        totals.sort_by_key(|&(key, total)| (Reverse(total), key));
        Traffic { keys, packets, totals }
    }

    /// Whether the figure of each key is off, heaviest first.
    fn off(&self, d: usize, w: usize) -> Vec<bool> {
        let mut memory = vec![0; meter::size(d, w).expect("a meter")];
        for &(key, amount) in &self.packets {
            assert_eq!(
                meter::update(d, w, &mut memory, &self.keys[key], amount).number,
                0,
                "an update"
            );
        }
        let off = |&(key, total): &(usize, u64)| {
            let answer = meter::estimate(d, w, &memory, &self.keys[key]);
            assert!(answer.number == 0 && answer.figure >= total, "no figure is below");
            (answer.figure - total) * 10 > total
        };
        self.totals.iter().map(off).collect()
    }
}

fn thousands(n: usize) -> String {
    let digits = n.to_string();
    let parts: Vec<&str> = digits
        .as_bytes()
        .rchunks(3)
        .rev()
        .map(|p| std::str::from_utf8(p).unwrap())
        .collect();
    parts.join(",")
}

fn main() {
    let cases = CASES.map(|(keys, heaviest)| (keys, heaviest, SEEDS.map(|seed| Traffic::new(keys, seed))));
    let bytes: u64 = cases[0].2[0].packets.iter().map(|&(_, amount)| amount as u64).sum();
    println!("Share of keys whose figure is off by more than a tenth. Keys of {LENGTH} bytes by Zipf's law with exponent 1;");
    println!(
        "{} packets of 64 to 1,500 bytes, {} MB in all; {} seeds, taken together. Keys without a packet are left out:",
        thousands(PACKETS),
        bytes / 1_000_000,
        SEEDS.len()
    );
    let seen = |traffic: &[Traffic]| thousands(traffic.iter().map(|t| t.totals.len()).sum::<usize>() / traffic.len());
    let left: Vec<String> = cases
        .iter()
        .map(|c| format!("{} of {}", seen(&c.2), thousands(c.0)))
        .collect();
    println!("{} have packets.\n", left.join(", "));

    let mut heading = "| w | d | bytes of memory |".to_string();
    for (keys, heaviest, _) in &cases {
        for &n in *heaviest {
            heading += &match n {
                usize::MAX => format!(" {} keys |", thousands(*keys)),
                _ => format!(" heaviest {} of {} |", thousands(n), thousands(*keys)),
            };
        }
    }
    println!("{heading}\n|{}", "---|".repeat(heading.matches('|').count() - 1));
    for w in [1_024, 4_096, meter::LARGEST_WIDTH] {
        for d in [2, 4, 8] {
            let mut line = format!(
                "| {} | {d} | {} |",
                thousands(w),
                thousands(meter::size(d, w).expect("a meter"))
            );
            for (_, heaviest, traffic) in &cases {
                let off: Vec<Vec<bool>> = traffic.iter().map(|t| t.off(d, w)).collect();
                for &n in *heaviest {
                    let taken: Vec<bool> = off.iter().flat_map(|o| &o[..n.min(o.len())]).copied().collect();
                    let share = taken.iter().filter(|&&is_off| is_off).count() as f64 * 100.0 / taken.len() as f64;
                    line += &format!(" {share:.1} % |");
                }
            }
            println!("{line}");
        }
    }
}

//! `meter compare`: which keys changed from one period to another.

use crate::ask::show;
use crate::cli::{geometry, usage, Arguments, Failure, Outcome};
use crate::feed::{counted_by, packets, read_text, Skipped};
use crate::files::{self, Output, Progress};
use crate::image;
use crate::packet::By;
use crate::words::{Key, Keys, Record, Records};
use meter::{Refused, SignedMeter};
use std::cmp::Reverse;
use std::ffi::{OsStr, OsString};
use std::os::unix::ffi::OsStrExt;

pub const HELP: &str = "\
Says which keys changed most from one period to another: a line for each, the
key and its change, + or -.

usage: meter compare BEFORE AFTER [--geometry D W] [--top N] [--ip]
       meter compare --text BEFORE AFTER [--geometry D W] [--top N] [--ip]
       meter compare --from-pcap BEFORE AFTER --key src|dst|flow
                     [--geometry D W] [--top N] [--ip]

BEFORE and AFTER are feeds, or text or captures as meter feed takes them; one of
them may be -, standard input. One signed meter counts the updates of BEFORE
with minus and those of AFTER with plus, and is asked for each key of either. So
a change is an estimate, and can be above the true one or below. What the inputs
say of their own d and w does not count, and questions are passed over.

  --text             both are text
  --from-pcap        both are captures; the amount of a packet is its length
  --key              the key of a packet, as for meter feed
  --geometry D W     the signed meter, D 1, 3, 5 or 7; left out, 5 rows of 4096
  --top N            the N largest changes of either sign; left out, 10
  --ip               keys of 4 and of 16 bytes are shown as IP addresses

The largest change comes first, and equal ones in the order in which their keys
came. Keys whose change is 0 are left out. An amount above 2147483647 is counted
in parts. If anything is refused, nothing is listed; packets without a key are
skipped and counted on standard error.
";

const DEFAULT: (usize, usize) = (5, 4096);
const DEFAULT_TOP: usize = 10;

/// Counts in one signed meter what came before and what came after.
struct Change {
    meter: SignedMeter,
    keys: Keys,
}

impl Change {
    fn new(d: usize, w: usize) -> Outcome<Change> {
        Ok(Change {
            meter: image::expect(SignedMeter::new(d, w))?,
            keys: Keys::default(),
        })
    }

    /// Counts an amount with a sign, in parts where it is more than one update takes.
    fn count(&mut self, key: Key, amount: u32, sign: i32) -> Result<(), Refused> {
        let mut left = amount;
        while left > 0 {
            let part = i32::try_from(left).unwrap_or(i32::MAX);
            self.meter.update(key.bytes(), sign * part)?;
            left -= part.unsigned_abs();
        }
        self.keys.note(key);
        Ok(())
    }

    /// Counts the updates of a feed, or of text.
    fn count_feed(&mut self, file: &OsStr, text: bool, sign: i32, progress: &mut Progress) -> Outcome {
        let content = if text {
            read_text(file, progress)?
        } else {
            files::read_all(file, progress)?
        };
        let faulty = |r| Failure::Refused(format!("{}: {}", files::name(file), crate::faulty_word(&r, &content)));
        let (_, mut records) = Records::open(&content).map_err(faulty)?;
        while let Some((at, record)) = records.next().map_err(faulty)? {
            progress.at(at, Some(records.words()), "words");
            if let Record::Update(key, amount) = record {
                self.count(key, amount, sign).map_err(|r| full(file, r))?;
            }
        }
        Ok(())
    }

    /// Counts the packets of a capture.
    fn count_capture(&mut self, file: &OsStr, by: By, sign: i32, progress: &mut Progress) -> Outcome<Skipped> {
        packets(file, by, progress, |key, length| {
            self.count(key, length, sign).map_err(|r| full(file, r))
        })
    }

    /// The largest changes, largest first, those of 0 left out.
    fn largest(&self, top: usize, progress: &mut Progress) -> Outcome<Vec<(&Key, i64)>> {
        let mut changes = Vec::new();
        for (n, key) in self.keys.all.iter().enumerate() {
            progress.at(n as u64, Some(self.keys.all.len() as u64), "keys");
            match image::expect(self.meter.estimate(key.bytes()))? {
                0 => {}
                change => changes.push((key, change)),
            }
        }
        // equal ones stay in order
        changes.sort_by_key(|(_, change)| Reverse(change.unsigned_abs()));
        changes.truncate(top);
        Ok(changes)
    }
}

/// An update that was refused.
fn full(file: &OsStr, r: Refused) -> Failure {
    Failure::Refused(format!("{}: number {}: {}", files::name(file), r.number(), r.reason))
}

/// The two files to compare.
fn two(arguments: &Arguments) -> Outcome<[&OsStr; 2]> {
    let given = match arguments.values("--from-pcap") {
        Some(_) if !arguments.rest.is_empty() => return usage("--from-pcap reads two captures and nothing else"),
        Some(captures) => captures,
        None => &arguments.rest[..],
    };
    let [before, after] = given else {
        return usage("two files, BEFORE and AFTER, are compared");
    };
    if before == "-" && after == "-" {
        return usage("standard input can be read once");
    }
    Ok([before, after])
}

fn signed_geometry(arguments: &Arguments) -> Outcome<(usize, usize)> {
    let Some([d, w]) = arguments.values("--geometry") else {
        return Ok(DEFAULT);
    };
    let (d, w) = geometry(d.as_bytes(), w.as_bytes()).or_else(usage)?;
    if d % 2 == 0 {
        return usage(format_args!("d of a signed meter is odd, not {d} (number 12)"));
    }
    Ok((d, w))
}

pub fn run(given: &[OsString]) -> Outcome {
    let options = [
        ("--text", 0),
        ("--from-pcap", 2),
        ("--key", 1),
        ("--geometry", 2),
        ("--top", 1),
        ("--ip", 0),
    ];
    let arguments = Arguments::parse(given, &options)?;
    let files = two(&arguments)?;
    let (d, w) = signed_geometry(&arguments)?;
    let top = arguments.top()?.unwrap_or(DEFAULT_TOP);
    let (text, captures) = (arguments.has("--text"), arguments.has("--from-pcap"));
    if text && captures {
        return usage("--text or --from-pcap, not both");
    }
    if arguments.has("--key") && !captures {
        return usage("--key goes with --from-pcap");
    }
    let by = if captures { Some(counted_by(&arguments)?) } else { None };

    let mut change = Change::new(d, w)?;
    let mut progress = Progress::new("compare");
    let mut skipped = Vec::new();
    for (file, sign) in files.into_iter().zip([-1, 1]) {
        match by {
            Some(by) => skipped.push((file, change.count_capture(file, by, sign, &mut progress)?)),
            None => change.count_feed(file, text, sign, &mut progress)?,
        }
    }
    let largest = change.largest(top, &mut progress)?;
    drop(progress);
    let mut output = Output::standard()?;
    for (key, change) in largest {
        output.put(format!("{} {change:+}\n", show(key.bytes(), arguments.has("--ip"))).as_bytes())?;
    }
    output.flush()?;
    for (file, skipped) in skipped {
        skipped.say(&format!("compare: {}", files::name(file)));
    }
    Ok(())
}

#[cfg(test)]
mod tests {
    use super::*;

    /// An amount in parts, and a counter that such an amount fills. No input of a size to test with fills one, so the meter is handed in.
    #[test]
    fn parts() {
        let key = Key::new(b"A").unwrap();
        for amount in [0, 1, 0x7fff_ffff, 0x8000_0000, 0xffff_fffe, 0xffff_ffff] {
            for sign in [-1, 1] {
                let mut change = Change::new(3, 32).unwrap();
                change.count(key, amount, sign).unwrap();
                let expected = i64::from(sign) * i64::from(amount);
                assert_eq!(change.meter.estimate(b"A").unwrap(), expected);
                let listed = change.largest(1, &mut Progress::none()).unwrap();
                assert_eq!(listed.len(), usize::from(amount > 0));
            }
        }
        let full = [[0xff; 32].to_vec(), vec![0x7f; 4]].concat();
        let mut outcomes = [-1, 1].map(|sign| {
            let mut change = Change::new(1, 32).unwrap();
            change.meter = SignedMeter::from_bytes(1, 32, full.clone()).unwrap();
            change.count(key, u32::MAX, sign).map_err(|r| r.number())
        });
        outcomes.sort();
        assert_eq!(outcomes, [Ok(()), Err(6)]);
    }
}

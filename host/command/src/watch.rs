//! `meter watch`: the heavy keys of a feed.

use crate::ask::show;
use crate::cli::{decimal, refused, shown, usage, Arguments, Failure, Outcome};
use crate::feed::read_text;
use crate::files::{self, Progress};
use crate::words::{Record, Records};
use meter::{Entry, Meter, Refused, WatchList};
use std::cmp::Reverse;
use std::ffi::OsString;
use std::os::unix::ffi::OsStrExt;

pub const HELP: &str = "\
Runs a feed into a clear meter and lists the keys that got heavy: up to 64, each
with the estimate that its last update left.

usage: meter watch [FEED] --threshold N [--sort] [--ip]
       meter watch --text [TEXT] --threshold N [--sort] [--ip]

A file left out or - is standard input. A key joins the list once its estimate
is N or more. An estimate is never below what was counted for the key, so no key
of N or more is missing, unless the last line says that the list was full: it
has room for 64. Questions in the feed are passed over.

  --threshold N   1 to 18446744073709551615
  --text          the file is text, as meter feed takes it
  --sort          the largest estimate first, and equal ones in the order they
                  joined; else all are in that order
  --ip            keys of 4 and of 16 bytes are shown as IP addresses

A feed with a faulty word is refused with the word, its number and the reason,
and nothing is listed. An update that would make a counter of 64 bits overflow
is refused with number 6 on standard error, and the feed goes on.
";

/// Counts a feed's updates into a meter and its list; what is refused is told with the word that its record starts at.
fn count(
    records: &mut Records,
    meter: &mut Meter,
    list: &mut WatchList,
    threshold: u64,
    progress: &mut Progress,
    mut refused: impl FnMut(u64, Refused, &mut Progress),
) -> Result<(), Refused> {
    while let Some((at, record)) = records.next()? {
        progress.at(at, Some(records.words()), "words");
        if let Record::Update(key, amount) = record {
            if let Err(r) = list.update(meter, key.bytes(), amount, threshold) {
                refused(at, r, progress);
            }
        }
    }
    Ok(())
}

/// The list as a table, and its mark in words.
fn table(list: &WatchList, threshold: u64, sort: bool, ip: bool) -> String {
    let mut entries: Vec<(usize, Entry)> = list.iter().enumerate().collect();
    if sort {
        // equal estimates stay in order
        entries.sort_by_key(|(_, entry)| Reverse(entry.estimate));
    }
    let mut text = String::new();
    if !entries.is_empty() {
        let digits = list.iter().map(|entry| entry.estimate.to_string().len()).max();
        let width = digits.unwrap_or(0).max("estimate".len());
        text.push_str(&format!("joined  {:>width$}  key\n", "estimate"));
        for (place, entry) in &entries {
            let (joined, name) = (place + 1, show(entry.key, ip));
            text.push_str(&format!("{joined:>6}  {:>width$}  {name}\n", entry.estimate));
        }
        text.push('\n');
    }
    let keys = match entries.len() {
        0 => "no key".to_string(),
        1 => "1 key".to_string(),
        n => format!("{n} keys"),
    };
    let mark = if list.is_marked() {
        "the list was full: some heavy keys are not listed"
    } else {
        "none is left out"
    };
    text.push_str(&format!("{keys} of {threshold} or more; {mark}\n"));
    text
}

pub fn run(given: &[OsString]) -> Outcome {
    let options = [("--threshold", 1), ("--text", 0), ("--sort", 0), ("--ip", 0)];
    let arguments = Arguments::parse(given, &options)?;
    let file = arguments.file()?;
    let threshold = match arguments.value("--threshold").map(OsStrExt::as_bytes) {
        None => return usage("--threshold N says what is heavy"),
        Some(digits) => match decimal(digits) {
            Some(0) => return usage("a threshold is at least 1, not 0 (number 11)"),
            Some(threshold) => threshold,
            None => return usage(format_args!("a threshold is a number below 2^64, not {}", shown(digits))),
        },
    };
    let name = files::name(file);
    let mut progress = Progress::new("watch");
    let content = if arguments.has("--text") {
        read_text(file, &mut progress)?
    } else {
        files::read_all(file, &mut progress)?
    };
    let mut list = WatchList::new();
    let mut clean = true;
    let counted = Records::open(&content).and_then(|(mut meter, mut records)| {
        let say = |at, r: Refused, progress: &mut Progress| {
            clean = false;
            progress.hide();
            crate::say(format_args!(
                "meter watch: {name}: record at word {at} refused: number {}: {}",
                r.number(),
                r.reason
            ));
        };
        count(&mut records, &mut meter, &mut list, threshold, &mut progress, say)
    });
    drop(progress);
    if let Err(r) = counted {
        return refused(format_args!("{name}: {}", crate::faulty_word(&r, &content)));
    }
    files::print(table(&list, threshold, arguments.has("--sort"), arguments.has("--ip")))?;
    if clean {
        Ok(())
    } else {
        Err(Failure::Quiet)
    }
}

#[cfg(test)]
mod tests {
    use super::*;
    use crate::words::{Feed, Key};
    use meter::Reason;

    /// A full counter refuses an update and the feed goes on. No feed of a size to test with fills one, so the meter is handed in.
    #[test]
    fn a_full_counter() {
        let mut feed = Feed::new(1, 32);
        for (key, amount) in [(b"A", 1), (b"B", 0)] {
            feed.update(&Key::new(key).unwrap(), amount);
        }
        let (_, mut records) = Records::open(&feed.ended()).unwrap();
        let full = [[0xff; 32].to_vec(), vec![0x7f; 4]].concat();
        let (mut meter, mut list) = (Meter::from_bytes(1, 32, full).unwrap(), WatchList::new());
        let mut told = Vec::new();
        let tell = |at, r: Refused, _: &mut Progress| told.push((at, r.reason));
        count(&mut records, &mut meter, &mut list, 7, &mut Progress::none(), tell).unwrap();
        assert_eq!(told, [(1, Reason::CounterFull)]);
        assert_eq!(
            table(&list, 7, false, false),
            format!(
                "joined  {:>20}  key\n     1  {}  B\n\n1 key of 7 or more; none is left out\n",
                "estimate",
                u64::MAX
            )
        );
    }
}

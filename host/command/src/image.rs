//! `meter image`: what is in an image, whether words are one, and its counters. Reading and writing images for the others.

use crate::cli::{refused, usage, Arguments, Failure, Outcome};
use crate::files::{self, Output, Progress};
use crate::layout::{self, bits, Use, LEVELS};
use crate::words;
use meter::{Meter, Reason, Refused, LARGEST_WIDTH};
use std::ffi::{OsStr, OsString};
use std::fmt::Write;

pub const HELP: &str = "\
Says what is in an image.

usage: meter image info [IMAGE] [--json]
       meter image check [IMAGE]
       meter image dump [IMAGE] [--used]

A file left out or - is standard input.

  info     d, w, words, the widest level, counters and slots by level, the total
           of each row. A counter is in use if its figure is not 0. Every row
           counts all traffic, so the totals of the rows are equal.
  check    whether the words are an image; if not, the first faulty word, its
           number and the reason, and status 1
  dump     the counters as JSON, a line each: row, first slot, level, bits,
           figure

  --json   info as one line of JSON
  --used   dump only counters that are in use
";

/// The meter of an image's bytes.
pub fn parse(bytes: &[u8]) -> Result<Meter, Refused> {
    let meter = Meter::from_image(&words::from_bytes(bytes))?;
    no_leftover(bytes)?;
    Ok(meter)
}

/// Bytes short of a word that follow a sound image follow its end.
pub fn no_leftover(bytes: &[u8]) -> Result<(), Refused> {
    if bytes.len().is_multiple_of(4) {
        return Ok(());
    }
    Err(Refused {
        reason: Reason::Word,
        place: (bytes.len() / 4) as u64,
    })
}

/// The bytes of an image file. No image is longer than the largest meter's, so one word more is enough to tell that words are none.
pub fn read(file: &OsStr) -> Outcome<Vec<u8>> {
    let most = meter::most_image_words(8, LARGEST_WIDTH).unwrap_or(0);
    files::read_at_most(file, 4 * (most + 1))
}

/// The meter of an image file.
pub fn load(file: &OsStr) -> Outcome<Meter> {
    let bytes = read(file)?;
    match parse(&bytes) {
        Ok(meter) => Ok(meter),
        Err(r) => refused(format_args!(
            "{}: not an image: {}",
            files::name(file),
            crate::faulty_word(&r, &bytes)
        )),
    }
}

/// A call of a sound meter that cannot be refused, said in words if it is.
pub fn expect<T>(answer: Result<T, Refused>) -> Outcome<T> {
    answer.map_err(|r| Failure::Refused(format!("number {}: {}", r.number(), r.reason)))
}

/// Writes a meter's image.
pub fn save(file: &OsStr, meter: &Meter) -> Outcome {
    files::write(file, &words::to_bytes(&expect(meter.image())?))
}

pub fn run(given: &[OsString]) -> Outcome {
    let Some((what, given)) = given.split_first() else {
        return usage("info, check or dump?");
    };
    match what.to_str() {
        Some("info") => info(&Arguments::parse(given, &[("--json", 0)])?),
        Some("check") => check(&Arguments::parse(given, &[])?),
        Some("dump") => dump(&Arguments::parse(given, &[("--used", 0)])?),
        _ => usage(format_args!("info, check or dump, not {}", what.to_string_lossy())),
    }
}

fn check(arguments: &Arguments) -> Outcome {
    let file = arguments.file()?;
    let meter = load(file)?;
    let words = expect(meter.image())?.len();
    let (name, d, w) = (files::name(file), meter.d(), meter.w());
    let rows = if d == 1 { "row" } else { "rows" };
    files::print(format!("{name}: an image of {d} {rows} of {w} slots, {words} words\n"))
}

fn info(arguments: &Arguments) -> Outcome {
    let meter = load(arguments.file()?)?;
    let words = expect(meter.image())?.len();
    let widest = expect(meter.widest())?;
    let in_use = layout::in_use(&meter);
    let text = if arguments.has("--json") {
        json(&meter, words, widest, &in_use)
    } else {
        table(&meter, words, widest, &in_use)
    };
    match text {
        Ok(text) => files::print(text),
        Err(error) => refused(error),
    }
}

fn table(meter: &Meter, words: usize, widest: u8, in_use: &Use) -> Result<String, std::fmt::Error> {
    let mut text = String::new();
    writeln!(text, "d {}", meter.d())?;
    writeln!(text, "w {}", meter.w())?;
    writeln!(text, "words {words}")?;
    writeln!(text, "memory {} bytes", meter.bytes().len())?;
    writeln!(text, "widest level {widest} ({} bits)", bits(widest.into()))?;
    writeln!(text)?;
    writeln!(text, "level  bits  counters    in use     slots  slots in use")?;
    for level in 0..LEVELS {
        let (counters, used) = (in_use.counters[level], in_use.used[level]);
        writeln!(
            text,
            "{level:>5}  {:>4}  {counters:>8}  {used:>8}  {:>8}  {:>12}",
            bits(level),
            counters << level,
            used << level
        )?;
    }
    writeln!(text)?;
    writeln!(text, "  row    in use  total")?;
    for (row, (used, total)) in in_use.rows.iter().enumerate() {
        writeln!(text, "{row:>5}  {used:>8}  {total}")?;
    }
    Ok(text)
}

fn json(meter: &Meter, words: usize, widest: u8, in_use: &Use) -> Result<String, std::fmt::Error> {
    let mut text = String::new();
    write!(
        text,
        "{{\"d\":{},\"w\":{},\"words\":{words},\"memory\":{},\"widest\":{widest},\"levels\":[",
        meter.d(),
        meter.w(),
        meter.bytes().len()
    )?;
    for level in 0..LEVELS {
        let comma = if level == 0 { "" } else { "," };
        let (counters, used) = (in_use.counters[level], in_use.used[level]);
        write!(
            text,
            "{comma}{{\"level\":{level},\"bits\":{},\"counters\":{counters},\"used\":{used},\"slots\":{},\"slots_used\":{}}}",
            bits(level),
            counters << level,
            used << level
        )?;
    }
    text.push_str("],\"rows\":[");
    for (row, (used, total)) in in_use.rows.iter().enumerate() {
        let comma = if row == 0 { "" } else { "," };
        write!(text, "{comma}{{\"row\":{row},\"used\":{used},\"total\":{total}}}")?;
    }
    text.push_str("]}\n");
    Ok(text)
}

fn dump(arguments: &Arguments) -> Outcome {
    let meter = load(arguments.file()?)?;
    let mut output = Output::standard()?;
    let mut progress = Progress::beside_lines("image");
    let mut done = 0;
    for row in 0..meter.d() {
        for c in layout::row(&meter, row) {
            done += 1;
            progress.at(done, None, "counters");
            if c.figure == 0 && arguments.has("--used") {
                continue;
            }
            let line = format!(
                "{{\"row\":{},\"slot\":{},\"level\":{},\"bits\":{},\"figure\":{}}}\n",
                c.row,
                c.slot,
                c.level,
                bits(c.level),
                c.figure
            );
            output.put(line.as_bytes())?;
        }
    }
    output.flush()
}

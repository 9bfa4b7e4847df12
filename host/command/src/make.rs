//! `meter new`, `meter unite` and `meter size`.

use crate::cli::{decimal, geometry, refused, shown, usage, Arguments, Outcome};
use crate::files::{self, Progress};
use crate::image;
use crate::words;
use meter::Meter;
use std::ffi::OsString;
use std::fmt::Write;
use std::os::unix::ffi::OsStrExt;

pub const NEW_HELP: &str = "\
Writes the image of a clear meter.

usage: meter new D W -o IMAGE

D is the number of rows, 1 to 8, and W the slots of a row, a power of two from
32 to 16384; meter size D W says what that means. -o - is standard output.
";

pub fn new(given: &[OsString]) -> Outcome {
    let arguments = Arguments::parse(given, &[("-o", 1)])?;
    let (d, w) = two(&arguments)?;
    let output = arguments.needed_output()?;
    files::not_to_a_terminal(output)?;
    image::save(output, &image::expect(Meter::new(d, w))?)
}

/// D and W as the only arguments.
fn two(arguments: &Arguments) -> Outcome<(usize, usize)> {
    let [d, w] = &arguments.rest[..] else {
        return usage("two numbers, D and W, are needed");
    };
    geometry(d.as_bytes(), w.as_bytes()).or_else(usage)
}

pub const UNITE_HELP: &str = "\
Adds images of meters of the same d and w up into one.

usage: meter unite IMAGE.. -o OUT

The meter of OUT has counted all that the meters of the images have. One of the
images may be -, standard input; -o - is standard output. Nothing is written if
an image is refused, is of another d or w than the first (number 10) or would
make a counter of 64 bits overflow (number 6).
";

pub fn unite(given: &[OsString]) -> Outcome {
    let arguments = Arguments::parse(given, &[("-o", 1)])?;
    let output = arguments.needed_output()?;
    files::not_to_a_terminal(output)?;
    let Some((first, others)) = arguments.rest.split_first() else {
        return usage("no image to unite");
    };
    if arguments.rest.iter().filter(|file| *file == "-").count() > 1 {
        return usage("standard input can be read once");
    }
    let mut sum = image::load(first)?;
    let mut source = sum.clone();
    let mut progress = Progress::new("unite");
    for (n, file) in others.iter().enumerate() {
        progress.now_at(n as u64, Some(others.len() as u64), "images");
        let bytes = image::read(file)?;
        // Read into a meter of the first one's d and w, so that the proved call tells another geometry.
        let read = source.read_image(&words::from_bytes(&bytes));
        if let Err(r) = read.and_then(|_| image::no_leftover(&bytes)) {
            return refused(format_args!("{}: {}", files::name(file), crate::faulty_word(&r, &bytes)));
        }
        if let Err(r) = sum.unite(&source) {
            return refused(format_args!("{}: number {}: {}", files::name(file), r.number(), r.reason));
        }
    }
    image::save(output, &sum)
}

pub const SIZE_HELP: &str = "\
Says what a meter of d rows of w slots takes, and what it tells apart.

usage: meter size D W [--total T]

Prints the bytes of its memory, the words of an image at least and at most, and
a counter's share of all traffic if that is spread evenly over a row. A figure
is above the key's own total by what other keys put into its counter, in the
best of the rows.

  --total T   the shares of this total too, in its unit, rounded up
";

pub fn size(given: &[OsString]) -> Outcome {
    let arguments = Arguments::parse(given, &[("--total", 1)])?;
    let (d, w) = two(&arguments)?;
    let total = match arguments.value("--total").map(OsStrExt::as_bytes) {
        None => None,
        Some(digits) => match decimal(digits) {
            Some(total) => Some(total),
            None => return usage(format_args!("a total is a number below 2^64, not {}", shown(digits))),
        },
    };
    match describe(d, w, total) {
        Ok(text) => files::print(text),
        Err(error) => refused(error),
    }
}

fn describe(d: usize, w: usize, total: Option<u64>) -> Result<String, std::fmt::Error> {
    let mut text = String::new();
    let memory = meter::size(d, w).unwrap_or(0);
    let most = meter::most_image_words(d, w).unwrap_or(0);
    // Of each 32 slots a layout word and four counters of three words.
    let least = 2 + d * w / 32 * 13;
    writeln!(text, "d {d}, w {w}")?;
    writeln!(text, "memory {memory} bytes")?;
    writeln!(
        text,
        "image at least {least} words ({} bytes), every counter of level 3",
        4 * least
    )?;
    writeln!(
        text,
        "image at most {most} words ({} bytes), every counter of level 0",
        4 * most
    )?;
    writeln!(text)?;
    writeln!(
        text,
        "Each row counts the whole total and spreads it over its slots. An even share of the total for a counter is:"
    )?;
    for level in 0..4 {
        let (slots, bits) = (1usize << level, 8 << level);
        let share = percent(slots, w);
        write!(text, "level {level}  {bits:>2} bits  {slots} of {w} slots  {share}")?;
        if let Some(total) = total {
            let part = (u128::from(total) << level).div_ceil(w as u128);
            write!(text, "  {part} of {total}")?;
        }
        text.push('\n');
    }
    let rows = if d == 1 {
        "The one row".to_string()
    } else {
        format!("The best of the {d} rows")
    };
    writeln!(
        text,
        "{rows} decides: a figure is never below the key's total, and above it by what others put there."
    )?;
    Ok(text)
}

/// A share in percent with four digits behind the point, rounded to the nearest.
fn percent(part: usize, of: usize) -> String {
    let ten_thousandths = (part * 1_000_000 + of / 2) / of;
    format!("{}.{:04}%", ten_thousandths / 10_000, ten_thousandths % 10_000)
}

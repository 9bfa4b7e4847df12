//! The command `meter`: feeds, images and pictures of the proved traffic meter.

mod ask;
mod chart;
mod cli;
mod compare;
mod feed;
mod files;
mod image;
mod layout;
mod make;
mod packet;
mod pcap;
mod run;
mod text;
mod watch;
mod words;

use cli::{usage, Failure, Outcome};
use meter::Refused;
use std::ffi::OsString;
use std::fmt;
use std::io::{self, Write};
use std::process::ExitCode;

const HELP: &str = "\
Feeds, images and pictures of a traffic meter whose counting is proved.

usage: meter SUBCOMMAND ...

  feed     make a feed from text or from a capture file, or turn one into text
  run      run a feed and print a line for its head, each record and its end
  image    info, check or dump: what is in an image, whether it is one, its
           counters
  unite    add images up into one
  ask      what a meter's image has counted for keys
  watch    run a feed and list the keys that got heavy
  compare  which keys changed most from one feed, text or capture to another
  new      write the image of a clear meter
  size     what d rows of w slots take, and what they tell apart
  chart    draw an image

  --help, --version

meter SUBCOMMAND --help says more. A file named - is standard input or output.
Words in files have 32 bits, high byte first.

The status is 0 if all was accepted, 1 if anything was refused or could not be
read or written, 2 for wrong usage.
";

/// A subcommand: its help and what it does.
type Subcommand = (&'static str, fn(&[OsString]) -> Outcome);

fn subcommand(name: &str) -> Option<Subcommand> {
    Some(match name {
        "feed" => (feed::HELP, feed::run),
        "run" => (run::HELP, run::run),
        "image" => (image::HELP, image::run),
        "unite" => (make::UNITE_HELP, make::unite),
        "ask" => (ask::HELP, ask::run),
        "watch" => (watch::HELP, watch::run),
        "compare" => (compare::HELP, compare::run),
        "new" => (make::NEW_HELP, make::new),
        "size" => (make::SIZE_HELP, make::size),
        "chart" => (chart::HELP, chart::run),
        _ => return None,
    })
}

fn asks_for_help(given: &[OsString]) -> bool {
    given.iter().take_while(|a| *a != "--").any(|a| a == "--help" || a == "-h")
}

fn carry_out(given: &[OsString]) -> Outcome {
    let Some((first, rest)) = given.split_first() else {
        return usage("a subcommand is missing");
    };
    match first.to_str() {
        Some("--help" | "-h" | "help") => files::print(HELP),
        Some("--version" | "-V") => files::print(concat!("meter ", env!("CARGO_PKG_VERSION"), "\n")),
        name => match name.and_then(subcommand) {
            Some((help, _)) if asks_for_help(rest) => files::print(help),
            Some((_, run)) => run(rest),
            None => usage(format_args!("no subcommand {}", first.to_string_lossy())),
        },
    }
}

/// A line on standard error. Whether anyone reads it changes nothing.
pub fn say(line: fmt::Arguments) {
    let _ = writeln!(io::stderr(), "{line}");
}

/// Which of the words in these bytes was refused, by what number and why.
pub fn faulty_word(refused: &Refused, bytes: &[u8]) -> String {
    let place = refused.place;
    let rest = usize::try_from(place)
        .ok()
        .and_then(|place| bytes.get(place.checked_mul(4)?..))
        .unwrap_or(&[]);
    let word = match rest.len() {
        0 => "missing".to_string(),
        1 => "cut after 1 byte".to_string(),
        n @ 2..=3 => format!("cut after {n} bytes"),
        _ => format!("{:08X}", words::word(&rest[..4])),
    };
    format!("word {place} ({word}): number {}: {}", refused.number(), refused.reason)
}

fn main() -> ExitCode {
    let given: Vec<OsString> = std::env::args_os().skip(1).collect();
    let name = match given.first().and_then(|first| first.to_str()) {
        Some(name) if subcommand(name).is_some() => format!("meter {name}"),
        _ => "meter".to_string(),
    };
    match carry_out(&given) {
        Ok(()) => ExitCode::SUCCESS,
        Err(Failure::Quiet) => ExitCode::from(1),
        Err(Failure::Refused(text)) => {
            say(format_args!("{name}: {text}"));
            ExitCode::from(1)
        }
        Err(Failure::Usage(text)) => {
            say(format_args!("{name}: {text}\n{name} --help says how it is used"));
            ExitCode::from(2)
        }
    }
}

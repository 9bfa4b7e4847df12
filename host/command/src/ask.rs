//! `meter ask`: figures of keys.

use crate::cli::{refused, shown, usage, Arguments, Outcome};
use crate::files::{self, Output, Progress};
use crate::image;
use crate::text;
use crate::words::Key;
use std::collections::HashSet;
use std::ffi::OsString;
use std::net::IpAddr;
use std::os::unix::ffi::OsStrExt;

pub const HELP: &str = "\
Says what a meter's image has counted for keys: a line for each, the key and its
figure. A figure is never below what was counted for the key.

usage: meter ask IMAGE KEY.. [--top N] [--ip]
       meter ask IMAGE [KEY..] --keys FILE [--top N] [--ip]

A key is 1 to 64 bytes without blanks, or 0x and hexadecimal digits for any
bytes. Keys that start with - come after --. IMAGE or FILE may be -, standard
input.

  --keys FILE   more keys, a line each; blank lines and lines that start with #
                are skipped
  --top N       the N keys with the largest figures, largest first, each key
                once; equal figures in the order given
  --ip          keys are IP addresses, as 192.0.2.17, 2001:db8::1 or in
                hexadecimal digits: those of meter feed --key src|dst
";

/// A key and what it was called.
struct Asked {
    key: Key,
    name: String,
}

fn parse(part: &[u8], ip: bool) -> Result<Asked, String> {
    if ip {
        return parse_address(part).ok_or_else(|| format!("{} is no IP address", shown(part)));
    }
    let key = text::parse_key(part)?;
    let name = show(key.bytes(), false);
    Ok(Asked { key, name })
}

/// An address as people write it, or as `meter feed --list` does.
fn parse_address(part: &[u8]) -> Option<Asked> {
    let address = match std::str::from_utf8(part).ok()?.parse() {
        Ok(address) => address,
        Err(_) if text::is_hexadecimal(part) => address_of(text::parse_key(part).ok()?.bytes())?,
        Err(_) => return None,
    };
    let key = match address {
        IpAddr::V4(four) => Key::new(&four.octets()),
        IpAddr::V6(sixteen) => Key::new(&sixteen.octets()),
    }?;
    let name = address.to_string();
    Some(Asked { key, name })
}

/// A key by its name: as an address, if that is asked for and it is one, else as text has it.
pub fn show(key: &[u8], ip: bool) -> String {
    match address_of(key).filter(|_| ip) {
        Some(address) => address.to_string(),
        None => {
            let mut name = String::new();
            text::show_key(key, &mut name);
            name
        }
    }
}

/// The address that a key of 4 or 16 bytes is.
fn address_of(bytes: &[u8]) -> Option<IpAddr> {
    let four = <[u8; 4]>::try_from(bytes).map(IpAddr::from);
    four.or_else(|_| <[u8; 16]>::try_from(bytes).map(IpAddr::from)).ok()
}

pub fn run(given: &[OsString]) -> Outcome {
    let arguments = Arguments::parse(given, &[("--keys", 1), ("--top", 1), ("--ip", 0)])?;
    let Some((file, parts)) = arguments.rest.split_first() else {
        return usage("an image is missing");
    };
    let top = arguments.top()?;
    let ip = arguments.has("--ip");
    let keys = arguments.value("--keys");
    if parts.is_empty() && keys.is_none() {
        return usage("no key to ask for");
    }
    if file == "-" && keys.is_some_and(|keys| keys == "-") {
        return usage("standard input can be read once");
    }
    let mut asked = Vec::new();
    for part in parts {
        match parse(part.as_bytes(), ip) {
            Ok(one) => asked.push(one),
            Err(what) => return refused(format_args!("key {}: {what}", shown(part.as_bytes()))),
        }
    }
    let meter = image::load(file)?;
    let mut progress = Progress::new("ask");
    if let Some(keys) = keys {
        let content = files::read_all(keys, &mut progress)?;
        for (n, line) in text::lines(&content).enumerate() {
            let (part, count) = text::parts(line);
            let one = match count {
                0 => continue,
                _ if part[0].starts_with(b"#") => continue,
                1 => parse(part[0], ip),
                _ => Err("one key a line".to_string()),
            };
            match one {
                Ok(one) => asked.push(one),
                Err(what) => return refused(format_args!("{}: line {}: {what}", files::name(keys), n + 1)),
            }
        }
    }
    let mut figures = Vec::with_capacity(asked.len());
    let mut known = HashSet::new();
    for (n, one) in asked.iter().enumerate() {
        progress.at(n as u64, Some(asked.len() as u64), "keys");
        if top.is_some() && !known.insert(one.key.bytes()) {
            continue;
        }
        figures.push((image::expect(meter.estimate(one.key.bytes()))?, &one.name));
    }
    if let Some(top) = top {
        // equal figures stay in order
        figures.sort_by_key(|(figure, _)| std::cmp::Reverse(*figure));
        figures.truncate(top);
    }
    drop(progress);
    let mut output = Output::standard()?;
    for (figure, name) in figures {
        output.put(format!("{name} {figure}\n").as_bytes())?;
    }
    output.flush()
}

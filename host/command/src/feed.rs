//! `meter feed`: feeds from text and from captures, and back to text.

use crate::cli::{geometry, refused, usage, Arguments, Outcome};
use crate::files::{self, Input, Progress};
use crate::packet::{self, By, Skip};
use crate::pcap::Capture;
use crate::text;
use crate::words::{Feed, Key, Keys};
use std::ffi::{OsStr, OsString};
use std::os::unix::ffi::OsStrExt;

pub const HELP: &str = "\
Makes a feed from text or from a capture file, or turns a feed into text.

usage: meter feed [TEXT] [-o FEED]
       meter feed --text [FEED] [-o TEXT]
       meter feed --from-pcap CAPTURE --key src|dst|flow [--geometry D W]
                  [--ask | --list] [-o FEED]

A file left out or - is standard input or output. If anything is refused,
nothing is written.

The text has a line for the meter, for each record and for the end:

    meter D W            d rows of w slots; left out, 4 rows of 4096
    update KEY AMOUNT    an amount is 0 to 4294967295
    ask KEY
    end

A key is 1 to 64 bytes without blanks, or 0x and hexadecimal digits for any
bytes. Blank lines and lines that start with # are skipped. A line ends with a
newline, or with a return and a newline.

  --text             turn a feed into text
  --from-pcap FILE   make a feed from a capture: classic pcap, Ethernet, of
                     either byte order and time unit
  --key src|dst      the key is the IP address, 4 or 16 bytes
  --key flow         the key is source address, destination address, source
                     port, destination port and protocol: 13 bytes for IPv4,
                     37 for IPv6. Fragments and protocols without ports have
                     ports 0.
  --geometry D W     the meter of the capture's feed; left out, 4 rows of 4096
  --ask              ask for each distinct key before the end
  --list             write no feed but its distinct keys, a line of hexadecimal
                     digits each; meter ask --keys takes them
  -o FILE            the file to write

The amount of a packet is its length on the wire. VLAN tags are passed over.
Packets that are not IP, were captured too short to show the key, or have a
malformed IP head are skipped and counted on standard error. A damaged capture
is refused with its offset.
";

pub fn run(given: &[OsString]) -> Outcome {
    let options = [
        ("--text", 0),
        ("--from-pcap", 1),
        ("--key", 1),
        ("--geometry", 2),
        ("--ask", 0),
        ("--list", 0),
        ("-o", 1),
    ];
    let arguments = Arguments::parse(given, &options)?;
    if let Some(capture) = arguments.value("--from-pcap") {
        if arguments.has("--text") || !arguments.rest.is_empty() {
            return usage("--from-pcap reads its capture and nothing else");
        }
        return from_capture(capture, &arguments);
    }
    for option in ["--key", "--geometry", "--ask", "--list"] {
        if arguments.has(option) {
            return usage(format_args!("{option} goes with --from-pcap"));
        }
    }
    if arguments.has("--text") {
        to_text(&arguments)
    } else {
        from_text(&arguments)
    }
}

/// The feed that a file of text describes.
pub fn read_text(file: &OsStr, progress: &mut Progress) -> Outcome<Vec<u8>> {
    let content = files::read_all(file, progress)?;
    text::to_feed(&content, progress)
        .or_else(|mistake| refused(format_args!("{}: line {}: {}", files::name(file), mistake.line, mistake.what)))
}

fn from_text(arguments: &Arguments) -> Outcome {
    let file = arguments.file()?;
    files::not_to_a_terminal(arguments.output())?;
    let feed = read_text(file, &mut Progress::new("feed"))?;
    files::write(arguments.output(), &feed)
}

fn to_text(arguments: &Arguments) -> Outcome {
    let file = arguments.file()?;
    let mut progress = Progress::new("feed");
    let content = files::read_all(file, &mut progress)?;
    let made = text::from_feed(&content, &mut progress);
    drop(progress);
    match made {
        Ok(text) => files::write(arguments.output(), text.as_bytes()),
        Err(r) => refused(format_args!("{}: {}", files::name(file), crate::faulty_word(&r, &content))),
    }
}

/// What `--key` says that a capture is counted by.
pub fn counted_by(arguments: &Arguments) -> Outcome<By> {
    match arguments.value("--key").map(OsStr::as_bytes) {
        Some(b"src") => Ok(By::Source),
        Some(b"dst") => Ok(By::Destination),
        Some(b"flow") => Ok(By::Flow),
        Some(other) => usage(format_args!("--key is src, dst or flow, not {}", crate::cli::shown(other))),
        None => usage("--key src, dst or flow says what to count by"),
    }
}

/// How many packets of a capture have no key, and why.
#[derive(Default)]
pub struct Skipped {
    packets: u64,
    not_ip: u64,
    short: u64,
    malformed: u64,
}

impl Skipped {
    /// A line for whoever waits, if there are any.
    pub fn say(&self, of: &str) {
        let all = self.not_ip + self.short + self.malformed;
        if all > 0 {
            crate::say(format_args!(
                "meter {of}: {all} of {} packets skipped: {} not IP, {} captured too short, {} malformed",
                self.packets, self.not_ip, self.short, self.malformed
            ));
        }
    }
}

/// Hands out the key and the length of each packet of a capture that has a key.
pub fn packets(capture: &OsStr, by: By, progress: &mut Progress, mut each: impl FnMut(Key, u32) -> Outcome) -> Outcome<Skipped> {
    let mut capture = Capture::open(Input::open(capture)?)?;
    let mut skipped = Skipped::default();
    loop {
        let (at, length) = capture.position();
        progress.now_at(at, length, "bytes");
        let Some(packet) = capture.next()? else {
            return Ok(skipped);
        };
        skipped.packets += 1;
        match packet::key(packet.bytes, by) {
            Ok(key) => each(key, packet.original)?,
            Err(Skip::NotIp) => skipped.not_ip += 1,
            Err(Skip::Short) => skipped.short += 1,
            Err(Skip::Malformed) => skipped.malformed += 1,
        }
    }
}

fn from_capture(capture: &OsStr, arguments: &Arguments) -> Outcome {
    let by = counted_by(arguments)?;
    let (d, w) = match arguments.values("--geometry") {
        Some([d, w]) => geometry(d.as_bytes(), w.as_bytes()).or_else(usage)?,
        _ => text::DEFAULT,
    };
    let (ask, list) = (arguments.has("--ask"), arguments.has("--list"));
    if ask && list {
        return usage("--ask or --list, not both");
    }
    if !list {
        files::not_to_a_terminal(arguments.output())?;
    }
    let mut feed = Feed::new(d, w);
    let mut keys = Keys::default();
    let skipped = packets(capture, by, &mut Progress::new("feed"), |key, length| {
        if !list {
            feed.update(&key, length);
        }
        if ask || list {
            keys.note(key);
        }
        Ok(())
    })?;
    if list {
        let mut text = String::new();
        for key in &keys.all {
            text::show_hexadecimal(key.bytes(), &mut text);
            text.push('\n');
        }
        files::write(arguments.output(), text.as_bytes())?;
    } else {
        for key in &keys.all {
            feed.ask(key);
        }
        files::write(arguments.output(), &feed.ended())?;
    }
    skipped.say("feed");
    Ok(())
}

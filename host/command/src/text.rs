//! Feeds as text, and keys as text.
//!
//! ```text
//! meter D W            d rows of w slots; left out, 4 rows of 4096
//! update KEY AMOUNT
//! ask KEY
//! end
//! ```

use crate::cli::{decimal, geometry, shown};
use crate::files::Progress;
use crate::words::{Feed, Key, Record, Records};
use meter::Refused;
use std::fmt::Write;

pub const DEFAULT: (usize, usize) = (4, 4096);

/// A mistake in a text, and its line, counted from 1.
#[derive(Debug, PartialEq, Eq)]
pub struct Mistake {
    pub line: u64,
    pub what: String,
}

/// Whether a part of a text is a key in hexadecimal digits, be they right or wrong.
pub fn is_hexadecimal(part: &[u8]) -> bool {
    part.starts_with(b"0x") || part.starts_with(b"0X")
}

/// The key that a part of a text stands for: its own bytes, or any bytes in hexadecimal after 0x.
pub fn parse_key(part: &[u8]) -> Result<Key, String> {
    let wrong_length = |n| format!("a key has 1 to 64 bytes, not {n} (number 4)");
    if !is_hexadecimal(part) {
        return Key::new(part).ok_or_else(|| wrong_length(part.len()));
    }
    let digits = &part[2..];
    let slip = || "0x needs an even number of hexadecimal digits".to_string();
    if digits.is_empty() || !digits.len().is_multiple_of(2) {
        return Err(slip());
    }
    let nibble = |digit: u8| (digit as char).to_digit(16).map(|n| n as u8).ok_or_else(slip);
    let mut bytes = Vec::with_capacity(digits.len() / 2);
    for two in digits.chunks_exact(2) {
        bytes.push(nibble(two[0])? << 4 | nibble(two[1])?);
    }
    Key::new(&bytes).ok_or_else(|| wrong_length(bytes.len()))
}

/// A key as a part of a text: its bytes if they are printable and not taken for hexadecimal digits, else 0x and digits.
pub fn show_key(key: &[u8], text: &mut String) {
    if key.iter().all(u8::is_ascii_graphic) && !is_hexadecimal(key) {
        text.extend(key.iter().map(|b| *b as char));
    } else {
        show_hexadecimal(key, text);
    }
}

/// A key as 0x and digits.
pub fn show_hexadecimal(key: &[u8], text: &mut String) {
    text.push_str("0x");
    for byte in key {
        for digit in [byte >> 4, byte & 15] {
            text.push(char::from_digit(u32::from(digit), 16).unwrap_or('?'));
        }
    }
}

/// The lines of a text without what ends them: a newline, or a return and a newline. A byte order mark is no part of the first.
pub fn lines(text: &[u8]) -> impl Iterator<Item = &[u8]> {
    let text = text.strip_prefix(b"\xef\xbb\xbf").unwrap_or(text);
    // after a last newline there is no other line
    let text = text.strip_suffix(b"\n").unwrap_or(text);
    text.split(|b| *b == b'\n')
        .map(|line| line.strip_suffix(b"\r").unwrap_or(line))
}

/// The parts of a line between blanks, up to four: more than any line has.
pub fn parts(line: &[u8]) -> ([&[u8]; 4], usize) {
    let mut parts = [&b""[..]; 4];
    let mut n = 0;
    for part in line.split(|b| matches!(b, b' ' | b'\t')).filter(|part| !part.is_empty()) {
        if n == parts.len() {
            break;
        }
        parts[n] = part;
        n += 1;
    }
    (parts, n)
}

/// The feed that a text describes.
pub fn to_feed(text: &[u8], progress: &mut Progress) -> Result<Vec<u8>, Mistake> {
    let mut feed = None;
    let mut ended = false;
    let mut number = 0;
    let mut read = 0;
    for line in lines(text) {
        number += 1;
        read += line.len() as u64 + 1;
        progress.at(read, Some(text.len() as u64), "bytes");
        take_line(line, &mut feed, &mut ended).map_err(|what| Mistake { line: number, what })?;
    }
    match feed {
        Some(feed) if ended => Ok(Feed::ended(feed)),
        _ => Err(Mistake {
            line: number,
            what: "the text has no end".to_string(),
        }),
    }
}

fn take_line(line: &[u8], feed: &mut Option<Feed>, ended: &mut bool) -> Result<(), String> {
    let (part, n) = parts(line);
    if n == 0 || part[0].starts_with(b"#") {
        return Ok(());
    }
    if *ended {
        return Err("nothing comes after end".to_string());
    }
    let expect = |count: usize, form: &str| {
        if n == count {
            Ok(())
        } else {
            Err(format!("expected: {form}"))
        }
    };
    if part[0] == b"meter" {
        expect(3, "meter D W")?;
        if feed.is_some() {
            return Err("meter comes first".to_string());
        }
        let (d, w) = geometry(part[1], part[2])?;
        *feed = Some(Feed::new(d, w));
        return Ok(());
    }
    let feed = feed.get_or_insert_with(|| Feed::new(DEFAULT.0, DEFAULT.1));
    match part[0] {
        b"update" => {
            expect(3, "update KEY AMOUNT")?;
            let key = parse_key(part[1])?;
            let amount = decimal(part[2]).and_then(|amount| u32::try_from(amount).ok());
            let Some(amount) = amount else {
                return Err(format!("an amount is 0 to 4294967295, not {}", shown(part[2])));
            };
            feed.update(&key, amount);
        }
        b"ask" => {
            expect(2, "ask KEY")?;
            feed.ask(&parse_key(part[1])?);
        }
        b"end" => {
            expect(1, "end")?;
            *ended = true;
        }
        other => return Err(format!("expected meter, update, ask or end, not {}", shown(other))),
    }
    Ok(())
}

/// The text of a feed.
pub fn from_feed(bytes: &[u8], progress: &mut Progress) -> Result<String, Refused> {
    let (meter, mut records) = Records::open(bytes)?;
    let mut text = format!("meter {} {}\n", meter.d(), meter.w());
    while let Some((at, record)) = records.next()? {
        progress.at(at, Some(records.words()), "words");
        match record {
            Record::Update(key, amount) => {
                text.push_str("update ");
                show_key(key.bytes(), &mut text);
                // a text has no way to refuse
                let _ = write!(text, " {amount}");
            }
            Record::Ask(key) => {
                text.push_str("ask ");
                show_key(key.bytes(), &mut text);
            }
        }
        text.push('\n');
    }
    text.push_str("end\n");
    Ok(text)
}

#[cfg(test)]
mod tests {
    use super::*;

    fn key(part: &[u8]) -> Vec<u8> {
        parse_key(part).unwrap().bytes().to_vec()
    }

    #[test]
    fn keys() {
        assert_eq!(key(b"tenant-a"), b"tenant-a");
        assert_eq!(key(b"a\0b"), b"a\0b");
        assert_eq!(key(b"0x41004a"), b"A\0J");
        assert_eq!(key(b"0X41"), b"A");
        assert_eq!(key(b"x"), b"x");
        assert_eq!(key(&[b'k'; 64]).len(), 64);
        for wrong in [&b"0x"[..], b"0x4", b"0x4g", b"0X4G", &[b'k'; 65], b""] {
            assert!(parse_key(wrong).is_err(), "{wrong:?}");
        }
    }

    #[test]
    fn shown_keys_are_read_back() {
        for content in [
            &b"tenant"[..],
            b"0x41",
            b"0X",
            b"0",
            b"a b",
            b"\0",
            b"\xff\xfe",
            b"#",
            b"0xzz",
        ] {
            let mut text = String::new();
            show_key(content, &mut text);
            assert_eq!(key(text.as_bytes()), content, "{text}");
        }
    }
}

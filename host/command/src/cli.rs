//! Arguments, failures and their exit statuses.

use meter::LARGEST_WIDTH;
use std::ffi::{OsStr, OsString};
use std::fmt;
use std::os::unix::ffi::OsStrExt;

/// Why a subcommand did not do all that it was asked for.
#[derive(Debug)]
pub enum Failure {
    /// The command line makes no sense: status 2.
    Usage(String),
    /// Something was refused, or could not be read or written: status 1.
    Refused(String),
    /// All that there is to say was said, or nobody listens any more: status 1.
    Quiet,
}

pub type Outcome<T = ()> = Result<T, Failure>;

pub fn usage<T>(text: impl fmt::Display) -> Outcome<T> {
    Err(Failure::Usage(text.to_string()))
}

pub fn refused<T>(text: impl fmt::Display) -> Outcome<T> {
    Err(Failure::Refused(text.to_string()))
}

/// What a subcommand takes: options with the number of values of each.
pub type Options = [(&'static str, usize)];

/// The arguments of a subcommand, sorted into options and the rest.
#[derive(Debug, Default)]
pub struct Arguments {
    options: Vec<(&'static str, Vec<OsString>)>,
    pub rest: Vec<OsString>,
}

impl Arguments {
    pub fn parse(given: &[OsString], options: &Options) -> Outcome<Arguments> {
        let mut parsed = Arguments::default();
        let mut given = given.iter();
        while let Some(argument) = given.next() {
            let bytes = argument.as_bytes();
            if bytes == b"--" {
                parsed.rest.extend(given.cloned());
                break;
            }
            if bytes.len() < 2 || bytes[0] != b'-' {
                parsed.rest.push(argument.clone());
                continue;
            }
            // --name=value is --name value
            let cut = bytes.iter().position(|b| *b == b'=').filter(|_| bytes.starts_with(b"--"));
            let name = &bytes[..cut.unwrap_or(bytes.len())];
            let Some(&(known, count)) = options.iter().find(|(known, _)| known.as_bytes() == name) else {
                return usage(format_args!("no option {}", argument.to_string_lossy()));
            };
            if parsed.has(known) {
                return usage(format_args!("{known} is given twice"));
            }
            let mut values = Vec::new();
            if let Some(cut) = cut {
                if count == 0 {
                    return usage(format_args!("{known} takes no value"));
                }
                values.push(OsStr::from_bytes(&bytes[cut + 1..]).to_os_string());
            }
            while values.len() < count {
                match given.next() {
                    Some(value) => values.push(value.clone()),
                    None if count == 1 => return usage(format_args!("{known} needs a value")),
                    None => return usage(format_args!("{known} needs {count} values")),
                }
            }
            parsed.options.push((known, values));
        }
        Ok(parsed)
    }

    pub fn has(&self, option: &str) -> bool {
        self.options.iter().any(|(name, _)| *name == option)
    }

    pub fn values(&self, option: &str) -> Option<&[OsString]> {
        self.options
            .iter()
            .find(|(name, _)| *name == option)
            .map(|(_, values)| &values[..])
    }

    pub fn value(&self, option: &str) -> Option<&OsStr> {
        self.values(option).and_then(|values| values.first()).map(OsString::as_os_str)
    }

    /// The one file to read; left out, standard input.
    pub fn file(&self) -> Outcome<&OsStr> {
        match &self.rest[..] {
            [] => Ok(OsStr::new("-")),
            [file] => Ok(file),
            [_, second, ..] => usage(format_args!("one file is read; what is {}?", second.to_string_lossy())),
        }
    }

    /// How many `--top` says.
    pub fn top(&self) -> Outcome<Option<usize>> {
        let Some(digits) = self.value("--top").map(OsStrExt::as_bytes) else {
            return Ok(None);
        };
        match decimal(digits) {
            Some(n) => Ok(Some(usize::try_from(n).unwrap_or(usize::MAX))),
            None => usage(format_args!("--top takes a number, not {}", shown(digits))),
        }
    }

    /// The file to write; left out, standard output.
    pub fn output(&self) -> &OsStr {
        self.value("-o").unwrap_or(OsStr::new("-"))
    }

    /// The file to write, of a subcommand that has to be told one.
    pub fn needed_output(&self) -> Outcome<&OsStr> {
        match self.value("-o") {
            Some(file) => Ok(file),
            None => usage("-o FILE says where to write"),
        }
    }
}

/// A decimal number: digits only.
pub fn decimal(digits: &[u8]) -> Option<u64> {
    if digits.is_empty() || !digits.iter().all(u8::is_ascii_digit) {
        return None;
    }
    digits
        .iter()
        .try_fold(0u64, |n, digit| n.checked_mul(10)?.checked_add(u64::from(digit - b'0')))
}

/// A geometry from two numbers as text.
pub fn geometry(d: &[u8], w: &[u8]) -> Result<(usize, usize), String> {
    let depth = decimal(d).filter(|d| (1..=8).contains(d));
    let Some(depth) = depth else {
        return Err(format!("d is 1 to 8, not {} (number 1)", shown(d)));
    };
    let width = decimal(w).filter(|w| (32..=LARGEST_WIDTH as u64).contains(w) && w.is_power_of_two());
    let Some(width) = width else {
        return Err(format!(
            "w is a power of two from 32 to {LARGEST_WIDTH}, not {} (number 2)",
            shown(w)
        ));
    };
    Ok((depth as usize, width as usize))
}

/// Bytes from outside for a message: what is not printable as an escape, and no more than a line has room for.
pub fn shown(bytes: &[u8]) -> String {
    const ROOM: usize = 40;
    let mut text: String = bytes.iter().take(ROOM).map(|b| b.escape_ascii().to_string()).collect();
    if bytes.len() > ROOM {
        text.push_str("...");
    }
    if text.is_empty() {
        text.push_str("nothing");
    }
    text
}

#[cfg(test)]
mod tests {
    use super::*;

    fn given(words: &[&str]) -> Vec<OsString> {
        words.iter().map(OsString::from).collect()
    }

    #[test]
    fn options_and_the_rest() {
        let options = [("-o", 1), ("--geometry", 2), ("--text", 0)];
        let parsed = Arguments::parse(
            &given(&["a", "-o", "x", "--geometry", "4", "64", "-", "--", "--text"]),
            &options,
        )
        .unwrap();
        assert_eq!(parsed.rest, given(&["a", "-", "--text"]));
        assert_eq!(parsed.value("-o"), Some(OsStr::new("x")));
        assert_eq!(parsed.values("--geometry").unwrap().len(), 2);
        assert!(!parsed.has("--text"));
        for wrong in [
            &["--geometry", "4"][..],
            &["-o"],
            &["-o", "a", "-o", "b"],
            &["--what"],
            &["--text=1"],
        ] {
            assert!(matches!(Arguments::parse(&given(wrong), &options), Err(Failure::Usage(_))));
        }
    }

    #[test]
    fn decimals() {
        assert_eq!(decimal(b"0042"), Some(42));
        assert_eq!(decimal(b"18446744073709551615"), Some(u64::MAX));
        for wrong in [&b""[..], b"+1", b"-1", b"1 ", b"0x1", b"18446744073709551616"] {
            assert_eq!(decimal(wrong), None);
        }
    }
}

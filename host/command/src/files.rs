//! Files to read and write, `-` being standard input and output; and progress for whoever waits.

use crate::cli::{refused, Failure, Outcome};
use std::ffi::{OsStr, OsString};
use std::fs::{self, File, OpenOptions};
use std::io::{self, ErrorKind, IsTerminal, Read, Write};
use std::os::fd::AsFd;
use std::path::{Path, PathBuf};
use std::thread::sleep;
use std::time::{Duration, Instant};

/// What messages call a file.
pub fn name(file: &OsStr) -> String {
    if file == "-" {
        return "standard input".to_string();
    }
    file.to_string_lossy().into_owned()
}

/// A file to read, and its length if it has one.
pub struct Input {
    file: File,
    pub name: String,
    pub length: Option<u64>,
}

impl Input {
    pub fn open(file: &OsStr) -> Outcome<Input> {
        let name = name(file);
        let opened = if file == "-" {
            io::stdin().as_fd().try_clone_to_owned().map(File::from)
        } else {
            File::open(file)
        };
        match opened {
            Ok(file) => {
                let length = file.metadata().ok().filter(|m| m.is_file()).map(|m| m.len());
                Ok(Input { file, name, length })
            }
            Err(error) => refused(format_args!("{name}: {error}")),
        }
    }

    /// The bytes up to the end, or so many of them.
    fn up_to(&mut self, most: usize, progress: &mut Progress) -> Outcome<Vec<u8>> {
        let mut bytes = Vec::new();
        let mut room = vec![0; 1 << 16];
        while bytes.len() < most {
            match self.read(&mut room) {
                Ok(0) => break,
                Ok(n) => bytes.extend_from_slice(&room[..n.min(most - bytes.len())]),
                Err(error) => return refused(format_args!("{}: {error}", self.name)),
            }
            progress.now_at(bytes.len() as u64, self.length, "bytes read");
        }
        Ok(bytes)
    }
}

/// An input that does not wait for its writer is tried again.
impl Read for Input {
    fn read(&mut self, room: &mut [u8]) -> io::Result<usize> {
        loop {
            match self.file.read(room) {
                Err(error) if error.kind() == ErrorKind::Interrupted => {}
                Err(error) if error.kind() == ErrorKind::WouldBlock => sleep(Duration::from_millis(1)),
                other => return other,
            }
        }
    }
}

/// All bytes of a file.
pub fn read_all(file: &OsStr, progress: &mut Progress) -> Outcome<Vec<u8>> {
    Input::open(file)?.up_to(usize::MAX, progress)
}

/// So many bytes of a file, fewer if it has no more.
pub fn read_at_most(file: &OsStr, most: usize) -> Outcome<Vec<u8>> {
    Input::open(file)?.up_to(most, &mut Progress::none())
}

/// Standard output without the line buffer of `std`, which would write every line by itself.
pub struct Output {
    file: File,
    held: Vec<u8>,
}

impl Output {
    pub fn standard() -> Outcome<Output> {
        match io::stdout().as_fd().try_clone_to_owned() {
            Ok(fd) => Ok(Output::to(File::from(fd))),
            Err(error) => refused(format_args!("standard output: {error}")),
        }
    }

    pub fn to(file: File) -> Output {
        Output {
            file,
            held: Vec::with_capacity(1 << 16),
        }
    }

    pub fn put(&mut self, bytes: &[u8]) -> Outcome {
        self.held.extend_from_slice(bytes);
        if self.held.len() >= 1 << 16 {
            self.flush()?;
        }
        Ok(())
    }

    pub fn flush(&mut self) -> Outcome {
        let result = write_patiently(&mut self.file, &self.held);
        self.held.clear();
        match result {
            Ok(()) => Ok(()),
            Err(error) if error.kind() == ErrorKind::BrokenPipe => Err(Failure::Quiet),
            Err(error) => refused(format_args!("standard output: {error}")),
        }
    }
}

/// Writes all bytes. An output that does not wait for its reader is tried again, so that no line is torn.
fn write_patiently(file: &mut File, mut bytes: &[u8]) -> io::Result<()> {
    while !bytes.is_empty() {
        match file.write(bytes) {
            Ok(0) => return Err(ErrorKind::WriteZero.into()),
            Ok(n) => bytes = &bytes[n..],
            Err(error) if error.kind() == ErrorKind::Interrupted => {}
            Err(error) if error.kind() == ErrorKind::WouldBlock => sleep(Duration::from_millis(1)),
            Err(error) => return Err(error),
        }
    }
    Ok(())
}

/// Prints a text on standard output.
pub fn print(text: impl AsRef<[u8]>) -> Outcome {
    let mut output = Output::standard()?;
    output.put(text.as_ref())?;
    output.flush()
}

/// Bytes that no terminal can show are not sent to one.
pub fn not_to_a_terminal(file: &OsStr) -> Outcome {
    if file == "-" && io::stdout().is_terminal() {
        return crate::cli::usage("words are no text for a terminal: -o FILE or a pipe takes them");
    }
    Ok(())
}

/// Writes a file whole or not at all: beside it first, then in its place. A device or a pipe is written as it is.
pub fn write(file: &OsStr, bytes: &[u8]) -> Outcome {
    if file == "-" {
        return print(bytes);
    }
    match write_file(Path::new(file), bytes) {
        Ok(()) => Ok(()),
        Err(error) if error.kind() == ErrorKind::BrokenPipe => Err(Failure::Quiet),
        Err(error) => refused(format_args!("{}: {error}", name(file))),
    }
}

fn write_file(file: &Path, bytes: &[u8]) -> io::Result<()> {
    // behind a link the file itself is replaced and the link stays
    let target = match fs::canonicalize(file) {
        Ok(target) => target,
        Err(error) if error.kind() == ErrorKind::NotFound => file.to_path_buf(),
        Err(error) => return Err(error),
    };
    let there = fs::metadata(&target).ok();
    if there.as_ref().is_some_and(|there| !there.is_file()) {
        return write_patiently(&mut OpenOptions::new().write(true).open(&target)?, bytes);
    }
    let beside = beside(&target)?;
    let written = (|| {
        let mut new = OpenOptions::new().write(true).create_new(true).open(&beside)?;
        if let Some(there) = there {
            new.set_permissions(there.permissions())?;
        }
        write_patiently(&mut new, bytes)?;
        new.sync_all()?;
        fs::rename(&beside, &target)
    })();
    if written.is_err() {
        // it may never have been made; the first error is the one to tell
        let _ = fs::remove_file(&beside);
    }
    written
}

fn beside(target: &Path) -> io::Result<PathBuf> {
    let Some(last) = target.file_name() else {
        return Err(ErrorKind::InvalidInput.into());
    };
    let mut name = OsString::from(".");
    name.push(last);
    name.push(format!(".{}.new", std::process::id()));
    Ok(target.with_file_name(name))
}

/// Says on standard error how far the work is, if that is a terminal and the work takes more than a second.
pub struct Progress {
    what: &'static str,
    due: Option<Instant>,
    shown: bool,
    calls: u32,
}

impl Progress {
    pub fn new(what: &'static str) -> Progress {
        Progress::watched(what, io::stderr().is_terminal())
    }

    /// Of work that prints as it goes: said only where its lines go elsewhere.
    pub fn beside_lines(what: &'static str) -> Progress {
        Progress::watched(what, io::stderr().is_terminal() && !io::stdout().is_terminal())
    }

    /// Of work that is too short to be waited for.
    pub fn none() -> Progress {
        Progress::watched("", false)
    }

    fn watched(what: &'static str, watched: bool) -> Progress {
        Progress {
            what,
            due: watched.then(|| Instant::now() + Duration::from_secs(1)),
            shown: false,
            calls: 0,
        }
    }

    /// So much is done, of so much if that is known. Cheap enough to be called for every record.
    pub fn at(&mut self, done: u64, all: Option<u64>, unit: &str) {
        self.calls = self.calls.wrapping_add(1);
        if self.calls.is_multiple_of(1024) {
            self.now_at(done, all, unit);
        }
    }

    /// The same for longer pieces of work and for input that may be slow: looks at the clock every time.
    pub fn now_at(&mut self, done: u64, all: Option<u64>, unit: &str) {
        let Some(due) = self.due else { return };
        let now = Instant::now();
        if now < due {
            return;
        }
        self.due = Some(now + Duration::from_millis(200));
        self.shown = true;
        let share = match all {
            Some(all) if all > 0 => format!(", {}%", done.min(all) * 100 / all),
            _ => String::new(),
        };
        // nothing depends on it
        let _ = write!(io::stderr(), "\r\x1b[Kmeter {}: {done} {unit}{share}", self.what);
    }

    /// Makes room for a line.
    pub fn hide(&mut self) {
        if self.shown {
            self.shown = false;
            let _ = write!(io::stderr(), "\r\x1b[K");
        }
    }
}

impl Drop for Progress {
    fn drop(&mut self) {
        self.hide();
    }
}

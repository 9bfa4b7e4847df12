//! What the tests share: the command, folders of their own, numbers at random.
#![allow(dead_code)]

use std::ffi::{c_char, CStr};
use std::fs::{self, File, OpenOptions};
use std::io::Write;
use std::os::fd::FromRawFd;
use std::os::unix::fs::OpenOptionsExt;
use std::path::{Path, PathBuf};
use std::process::{Command, Output, Stdio};
use std::sync::atomic::{AtomicUsize, Ordering};
use std::thread;

pub const METER: &str = env!("CARGO_BIN_EXE_meter");

/// The repository.
pub fn root() -> PathBuf {
    Path::new(env!("CARGO_MANIFEST_DIR")).join("../..")
}

/// The program of document 01, that the tests hold the command against.
pub fn run_feed() -> PathBuf {
    let program = match std::env::var_os("RUN_FEED") {
        Some(program) => PathBuf::from(program),
        None => root().join("target/bin/run_feed"),
    };
    assert!(
        program.exists(),
        "{} is not there: ./run at the root of the repository builds it; RUN_FEED names another",
        program.display()
    );
    program
}

/// What a program does with an input.
pub fn run(program: impl AsRef<Path>, arguments: &[&str], input: &[u8]) -> Output {
    let mut child = Command::new(program.as_ref())
        .args(arguments)
        .stdin(Stdio::piped())
        .stdout(Stdio::piped())
        .stderr(Stdio::piped())
        .spawn()
        .expect("the program");
    let mut stdin = child.stdin.take().expect("its input");
    let input = input.to_vec();
    // a program that stops early reads no further
    let writer = thread::spawn(move || stdin.write_all(&input).is_ok());
    let output = child.wait_with_output().expect("its output");
    writer.join().expect("the writer");
    output
}

pub fn meter(arguments: &[&str], input: &[u8]) -> Output {
    run(METER, arguments, input)
}

pub fn text(bytes: &[u8]) -> String {
    String::from_utf8_lossy(bytes).into_owned()
}

/// Standard output of a run that has to succeed, with nothing on standard error.
pub fn good(arguments: &[&str], input: &[u8]) -> Vec<u8> {
    let output = meter(arguments, input);
    assert_eq!(output.status.code(), Some(0), "{arguments:?}: {}", text(&output.stderr));
    assert_eq!(text(&output.stderr), "", "{arguments:?}");
    output.stdout
}

/// Standard error of a run that has to be refused, with nothing on standard output.
pub fn bad(arguments: &[&str], input: &[u8], status: i32) -> String {
    let output = meter(arguments, input);
    let message = text(&output.stderr);
    assert_eq!(output.status.code(), Some(status), "{arguments:?}: {message}");
    assert!(output.stdout.is_empty(), "{arguments:?} wrote {}", text(&output.stdout));
    assert!(
        message.starts_with("meter") && message.ends_with('\n'),
        "{arguments:?}: {message}"
    );
    message
}

/// A terminal: its end for a program, and the end at which is read what the program prints there. None where the system has none.
pub fn terminal() -> Option<(File, File)> {
    extern "C" {
        fn posix_openpt(flags: i32) -> i32;
        fn grantpt(fd: i32) -> i32;
        fn unlockpt(fd: i32) -> i32;
        fn ptsname_r(fd: i32, name: *mut c_char, length: usize) -> i32;
    }
    const READ_AND_WRITE: i32 = 0o2;
    const NOT_OURS: i32 = 0o400;
    let mut name: [c_char; 64] = [0; 64];
    let (reader, name) = unsafe {
        let fd = posix_openpt(READ_AND_WRITE | NOT_OURS);
        if fd < 0 {
            return None;
        }
        let reader = File::from_raw_fd(fd);
        let made = (grantpt(fd), unlockpt(fd), ptsname_r(fd, name.as_mut_ptr(), name.len()));
        assert_eq!(made, (0, 0, 0), "a terminal");
        (reader, CStr::from_ptr(name.as_ptr()))
    };
    let mut open = OpenOptions::new();
    let program = open.read(true).write(true).custom_flags(NOT_OURS);
    let program = program.open(name.to_str().expect("its name")).expect("its other end");
    Some((program, reader))
}

/// A folder that goes when the test is over.
pub struct Folder(PathBuf);

impl Folder {
    pub fn new() -> Folder {
        static NUMBER: AtomicUsize = AtomicUsize::new(0);
        let name = format!("{}-{}", std::process::id(), NUMBER.fetch_add(1, Ordering::Relaxed));
        let folder = Path::new(env!("CARGO_TARGET_TMPDIR")).join(name);
        fs::create_dir_all(&folder).expect("a folder");
        Folder(folder)
    }

    pub fn path(&self, name: &str) -> String {
        self.0.join(name).to_str().expect("a path of text").to_string()
    }

    pub fn put(&self, name: &str, content: &[u8]) -> String {
        let path = self.path(name);
        fs::write(&path, content).expect("a file");
        path
    }

    /// The names in the folder, in order.
    pub fn names(&self) -> Vec<String> {
        let entries = fs::read_dir(&self.0).expect("the folder");
        let mut names: Vec<_> = entries
            .map(|e| e.expect("an entry").file_name().to_string_lossy().into_owned())
            .collect();
        names.sort();
        names
    }
}

impl Drop for Folder {
    fn drop(&mut self) {
        let _ = fs::remove_dir_all(&self.0);
    }
}

/// SplitMix64.
pub struct Rng(u64);

impl Rng {
    /// From METER_SEED, or the same one each time.
    pub fn new(test: &str) -> Rng {
        let seed = std::env::var("METER_SEED").ok().and_then(|s| s.parse().ok()).unwrap_or(1);
        println!("{test}: seed {seed} (METER_SEED={seed} runs it again)");
        Rng(seed)
    }

    pub fn next(&mut self) -> u64 {
        self.0 = self.0.wrapping_add(0x9e37_79b9_7f4a_7c15);
        let mut z = self.0;
        z = (z ^ (z >> 30)).wrapping_mul(0xbf58_476d_1ce4_e5b9);
        z = (z ^ (z >> 27)).wrapping_mul(0x94d0_49bb_1331_11eb);
        z ^ (z >> 31)
    }

    pub fn below(&mut self, n: usize) -> usize {
        (self.next() % n as u64) as usize
    }

    /// Any width of a meter.
    pub fn width(&mut self) -> usize {
        32 << self.below(meter::LARGEST_WIDTH.ilog2() as usize - 4)
    }

    pub fn bytes(&mut self, n: usize) -> Vec<u8> {
        (0..n).map(|_| self.next() as u8).collect()
    }
}

pub fn to_bytes(words: &[u32]) -> Vec<u8> {
    words.iter().flat_map(|word| word.to_be_bytes()).collect()
}

pub fn to_words(bytes: &[u8]) -> Vec<u32> {
    bytes
        .chunks_exact(4)
        .map(|four| u32::from_be_bytes([four[0], four[1], four[2], four[3]]))
        .collect()
}

/// The words of an update, or of an asking record if there is no amount.
pub fn record(key: &[u8], amount: Option<u32>) -> Vec<u32> {
    let kind = if amount.is_some() { 5 } else { 6 };
    let mut words = vec![kind << 28 | key.len() as u32];
    for three in key.chunks(3) {
        let mut word = [0x70, 0, 0, 0];
        word[1..=three.len()].copy_from_slice(three);
        words.push(u32::from_be_bytes(word));
    }
    if let Some(amount) = amount {
        words.extend([0x8000_0000 | amount >> 16, 0x8000_0000 | (amount & 0xffff)]);
    }
    words
}

pub fn head(d: usize, w: usize) -> u32 {
    0x1000_0000 | d as u32 | w.ilog2() << 4
}

/// A feed of random records by a few keys.
pub fn random_feed(rng: &mut Rng, d: usize, w: usize, records: usize) -> Vec<u32> {
    let keys: Vec<Vec<u8>> = (0..12)
        .map(|_| {
            let n = 1 + rng.below(64);
            rng.bytes(n)
        })
        .collect();
    let mut words = vec![head(d, w)];
    for _ in 0..records {
        let key = &keys[rng.below(keys.len())];
        let amount = (rng.next() as u32) >> rng.below(32);
        words.extend(record(key, (rng.below(3) > 0).then_some(amount)));
    }
    words.push(0x4000_0000 | words.len() as u32);
    words
}

/// A feed of these updates, of one row of 32.
pub fn feed(updates: &[(&[u8], u32)]) -> Vec<u8> {
    let mut words = vec![head(1, 32)];
    for (key, amount) in updates {
        words.extend(record(key, Some(*amount)));
    }
    words.push(0x4000_0000 | words.len() as u32);
    to_bytes(&words)
}

/// A key as it is shown: itself if it is printable, else in hexadecimal digits.
pub fn named(key: &[u8]) -> String {
    if key.iter().all(u8::is_ascii_graphic) && !key.starts_with(b"0x") && !key.starts_with(b"0X") {
        return text(key);
    }
    let digits: String = key.iter().map(|byte| format!("{byte:02x}")).collect();
    format!("0x{digits}")
}

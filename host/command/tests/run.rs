//! `meter run` beside the program of document 01, and on a live pipe.

mod common;

use common::{bad, good, head, meter, random_feed, record, root, run, run_feed, text, to_bytes, Folder, Rng, METER};
use std::fs;
use std::io::{BufRead, BufReader, Write};
use std::process::{Child, ChildStdin, Command, Stdio};
use std::sync::mpsc::{channel, Receiver};
use std::thread;
use std::time::Duration;

/// Runs a feed through both and compares what they print. The status is 0 if and only if the feed ended and nothing stopped it.
fn same(name: &str, feed: &[u8]) -> String {
    let expected = run(run_feed(), &[], feed);
    let output = meter(&["run"], feed);
    assert_eq!(text(&output.stdout), text(&expected.stdout), "{name}");
    let last = text(&output.stdout).lines().last().unwrap_or_default().to_string();
    let message = text(&output.stderr);
    if last.starts_with("end ") {
        assert_eq!((output.status.code(), message.as_str()), (Some(0), ""), "{name}");
    } else {
        assert_eq!(output.status.code(), Some(1), "{name}");
        // "stopped N at I" in words
        let parts: Vec<&str> = last.split(' ').collect();
        let words = format!(
            "meter run: standard input: stopped at word {}: number {}: ",
            parts[3], parts[1]
        );
        assert!(
            message.starts_with(&words) && message.lines().count() == 1,
            "{name}: {message}"
        );
    }
    last
}

fn hex(digits: &str) -> Vec<u8> {
    let digits: Vec<u8> = digits.bytes().filter(u8::is_ascii_hexdigit).collect();
    digits
        .chunks_exact(2)
        .map(|two| u8::from_str_radix(&text(two), 16).unwrap())
        .collect()
}

/// The lines are also those that stand beside each feed, computed from document 01 by another model.
#[test]
fn feeds_of_the_repository() {
    let mut count = 0;
    for folder in ["tests/feeds", "examples"] {
        for entry in fs::read_dir(root().join(folder)).unwrap() {
            let path = entry.unwrap().path();
            let feed = match path.extension().and_then(|e| e.to_str()) {
                Some("feed") => fs::read(&path).unwrap(),
                Some("hex") => hex(&fs::read_to_string(&path).unwrap()),
                _ => continue,
            };
            let name = path.display().to_string();
            same(&name, &feed);
            let expected = fs::read_to_string(path.with_extension("out")).unwrap();
            assert_eq!(text(&meter(&["run", "-"], &feed).stdout), expected, "{name}");
            count += 1;
        }
    }
    assert!(count > 150, "{count} feeds");
}

#[test]
fn random_feeds() {
    let mut rng = Rng::new("random_feeds");
    let mut lasts = std::collections::BTreeMap::new();
    for n in 0..500 {
        let (d, w, records) = (1 + rng.below(8), 32 << rng.below(8), rng.below(60));
        let mut words = random_feed(&mut rng, d, w, records);
        let at = rng.below(words.len());
        match rng.below(8) {
            // valid
            0 | 1 => {}
            2 => words[at] ^= 1 << rng.below(32),
            3 => words[at] = (words[at] & 0x0fff_ffff) | (rng.next() as u32) << 28,
            4 => words[at] = rng.next() as u32,
            5 => words.insert(at, rng.next() as u32),
            6 => {
                words.remove(at);
            }
            _ => words.push(rng.next() as u32),
        }
        let mut feed = to_bytes(&words);
        match rng.below(6) {
            0 => feed.truncate(rng.below(feed.len() + 1)),
            1 => feed.push(0),
            _ => {}
        }
        let last = same(&format!("random feed {n}"), &feed);
        let kind: Vec<&str> = last.split(' ').take(if last.starts_with("end") { 1 } else { 2 }).collect();
        *lasts.entry(kind.join(" ")).or_insert(0) += 1;
    }
    println!("random feeds by their last line: {lasts:?}");
    for kind in ["end", "stopped 4", "stopped 8", "stopped 9"] {
        assert!(lasts.contains_key(kind), "no feed with {kind}");
    }
}

#[test]
fn every_cut_of_a_feed() {
    let mut rng = Rng::new("every_cut_of_a_feed");
    let feed = to_bytes(&random_feed(&mut rng, 2, 64, 6));
    for cut in 0..feed.len() {
        let last = same(&format!("cut at {cut}"), &feed[..cut]);
        assert!(last.starts_with("stopped 8 at "));
    }
}

#[test]
fn pieces_of_any_length() {
    let mut rng = Rng::new("pieces_of_any_length");
    let feed = to_bytes(&random_feed(&mut rng, 4, 256, 4000));
    let expected = good(&["run"], &feed);
    for piece in [1, 3, 4, 7, 101, 4093, 65_537] {
        let (mut child, mut input, lines) = live(&["run"]);
        for part in feed.chunks(piece) {
            input.write_all(part).unwrap();
        }
        drop(input);
        let printed: String = lines.iter().map(|line| line + "\n").collect();
        assert_eq!(printed.as_bytes(), expected, "pieces of {piece}");
        assert!(child.wait().unwrap().success());
    }
}

/// The command with its input open, and its lines as they come.
fn live(arguments: &[&str]) -> (Child, ChildStdin, Receiver<String>) {
    let mut child = Command::new(METER)
        .args(arguments)
        .stdin(Stdio::piped())
        .stdout(Stdio::piped())
        .stderr(Stdio::null())
        .spawn()
        .unwrap();
    let input = child.stdin.take().unwrap();
    let output = BufReader::new(child.stdout.take().unwrap());
    let (sender, lines) = channel();
    thread::spawn(move || {
        for line in output.lines() {
            if sender.send(line.unwrap()).is_err() {
                return;
            }
        }
    });
    (child, input, lines)
}

fn next(lines: &Receiver<String>) -> String {
    lines.recv_timeout(Duration::from_secs(20)).expect("a line")
}

fn silent(lines: &Receiver<String>) {
    let line = lines.recv_timeout(Duration::from_millis(60));
    assert!(line.is_err(), "{line:?} before its record was there");
}

/// A line comes once its record is complete, before the next is written, and no sooner.
#[test]
fn a_live_pipe() {
    let (mut child, mut input, lines) = live(&["run"]);
    input.write_all(&to_bytes(&[head(1, 32)])).unwrap();
    assert_eq!(next(&lines), "geometry 1 32");
    let mut words = 1;
    for i in 1..=20u32 {
        let key = vec![b'k'; 1 + 3 * i as usize];
        let update = to_bytes(&record(&key, Some(300)));
        input.write_all(&update[..update.len() - 1]).unwrap();
        if i % 5 == 0 {
            silent(&lines);
        }
        input.write_all(&update[update.len() - 1..]).unwrap();
        assert_eq!(next(&lines), "updated");
        let ask = to_bytes(&record(&key, None));
        input.write_all(&ask).unwrap();
        assert!(next(&lines).starts_with("estimate "));
        words += (update.len() + ask.len()) / 4;
    }
    input.write_all(&to_bytes(&[0x4000_0000 | words as u32])).unwrap();
    assert_eq!(next(&lines), "end 40");
    silent(&lines);
    drop(input);
    assert!(child.wait().unwrap().success());
}

/// A fault is told at its word, though the record goes on.
#[test]
fn a_fault_on_a_live_pipe() {
    let (mut child, mut input, lines) = live(&["run"]);
    input
        .write_all(&to_bytes(&[head(1, 32), 0x5000_0040, 0x7041_4141, 0x8000_0000]))
        .unwrap();
    assert_eq!(next(&lines), "geometry 1 32");
    assert_eq!(next(&lines), "stopped 8 at 3");
    assert_eq!(child.wait().unwrap().code(), Some(1));

    // a byte after the end
    let (mut child, mut input, lines) = live(&["run"]);
    input.write_all(&to_bytes(&[head(1, 32), 0x4000_0001])).unwrap();
    assert_eq!(next(&lines), "geometry 1 32");
    assert_eq!(next(&lines), "end 0");
    input.write_all(b"x").unwrap();
    assert_eq!(next(&lines), "stopped 8 at 2");
    assert_eq!(child.wait().unwrap().code(), Some(1));
}

#[test]
fn wide_feeds_and_images() {
    let folder = Folder::new();
    let feed = to_bytes(&random_feed(&mut Rng::new("wide_feeds_and_images"), 8, 8192, 30));
    let stopped = meter(&["run"], &feed);
    assert_eq!(text(&stopped.stdout), "stopped 3 at 0\n");
    assert!(text(&stopped.stderr).contains("--wide"));
    let image = folder.path("wide.image");
    assert!(text(&good(&["run", "--wide", "-o", &image], &feed)).starts_with("geometry 8 8192\n"));
    assert!(text(&good(&["image", "check", &image], b"")).contains("8 rows of 8192 slots"));

    // a feed that stops leaves no image, and what was there stays
    let kept = folder.put("kept", b"as before");
    assert_eq!(
        meter(&["run", "--wide", "-o", &kept], &feed[..feed.len() - 1]).status.code(),
        Some(1)
    );
    assert_eq!(meter(&["run", "-o", &folder.path("none")], &feed).status.code(), Some(1));
    assert_eq!(fs::read(&kept).unwrap(), b"as before");
    assert_eq!(folder.names(), ["kept", "wide.image"]);
}

#[test]
fn wrong_usage() {
    bad(&["run", "a", "b"], b"", 2);
    bad(&["run", "--what"], b"", 2);
    bad(&["run", "-o", "-"], b"", 2);
    assert!(bad(&["run", "no such file"], b"", 1).contains("no such file: "));
}

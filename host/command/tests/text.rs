//! `meter feed` from text and back.

mod common;

use common::{bad, good, meter, random_feed, record, root, text, to_bytes, Folder, Rng};
use std::fs;

#[test]
fn examples() {
    let mut count = 0;
    for entry in fs::read_dir(root().join("examples")).unwrap() {
        let path = entry.unwrap().path();
        if path.extension().is_some_and(|e| e == "txt") {
            let feed = fs::read(path.with_extension("feed")).unwrap();
            assert_eq!(good(&["feed", path.to_str().unwrap()], b""), feed, "{}", path.display());
            assert_eq!(good(&["feed"], &fs::read(&path).unwrap()), feed);
            // back to text: what is left without comments
            let lines: Vec<String> = fs::read_to_string(&path)
                .unwrap()
                .lines()
                .filter(|line| !line.starts_with('#'))
                .map(|line| format!("{line}\n"))
                .collect();
            assert_eq!(text(&good(&["feed", "--text"], &feed)), lines.concat());
            count += 1;
        }
    }
    assert!(count >= 2);
}

/// The feed of a text of one update by this key.
fn one(key: &[u8]) -> Vec<u8> {
    let mut words = vec![0x1000_00c4];
    words.extend(record(key, Some(7)));
    words.push(0x4000_0000 | words.len() as u32);
    to_bytes(&words)
}

#[test]
fn keys_keep_every_byte() {
    let cases: [(&[u8], &[u8]); 10] = [
        (b"tenant-a", b"tenant-a"),
        (b"a\0b", b"a\0b"),
        (b"\0", b"\0"),
        (b"0x00", b"\0"),
        (b"0x610062", b"a\0b"),
        (b"0X41", b"A"),
        (b"0xDEADbeef", b"\xde\xad\xbe\xef"),
        (b"caf\xc3\xa9", b"caf\xc3\xa9"),
        (b"a\rb", b"a\rb"),
        (b"\xff\xfe", b"\xff\xfe"),
    ];
    for (part, key) in cases {
        let line = [b"update ", part, b" 7\nend\n"].concat();
        assert_eq!(good(&["feed"], &line), one(key), "{part:?}");
        let line = [b"update\t ", part, b"\t 7 \r\n \r\n# over\r\nend\r\n"].concat();
        assert_eq!(good(&["feed"], &line), one(key), "{part:?} with returns");
    }
}

#[test]
fn lines_end_as_they_like() {
    let feed = good(&["feed"], b"meter 1 32\nupdate A 300\nask A\nend\n");
    for other in [
        &b"meter 1 32\r\nupdate A 300\r\nask A\r\nend\r\n"[..],
        b"meter 1 32\r\nupdate A 300\nask A\r\nend\r",
        b"meter 1 32\nupdate A 300\nask A\nend",
        b"\xef\xbb\xbfmeter 1 32\nupdate A 300\nask A\nend\n\n  \n# no more\n",
        b"#\n\n\tmeter 01 0032\n  update A 0000000000300\n ask A\nend\n",
    ] {
        assert_eq!(good(&["feed", "-"], other), feed, "{}", text(other));
    }
    // no meter: 4 rows of 4096
    assert_eq!(good(&["feed"], b"end"), to_bytes(&[0x1000_00c4, 0x4000_0001]));
}

#[test]
fn mistakes_are_named_with_their_line() {
    let long = format!("ask {}\nend", "k".repeat(65));
    let long_digits = format!("ask 0x{}\nend", "41".repeat(65));
    let cases: [(&str, u32, &str); 27] = [
        ("start", 1, "expected meter, update, ask or end, not start"),
        ("meter 9 32\nend", 1, "d is 1 to 8, not 9 (number 1)"),
        ("meter 0 32\nend", 1, "d is 1 to 8, not 0 (number 1)"),
        (
            "meter 1 33\nend",
            1,
            "w is a power of two from 32 to 16384, not 33 (number 2)",
        ),
        ("meter 1 32768\nend", 1, "not 32768 (number 2)"),
        ("meter 1\nend", 1, "expected: meter D W"),
        ("meter 1 32 3\nend", 1, "expected: meter D W"),
        ("ask A\nmeter 1 32\nend", 2, "meter comes first"),
        ("meter 1 32\nmeter 1 32\nend", 2, "meter comes first"),
        ("update A\nend", 1, "expected: update KEY AMOUNT"),
        ("update A 1 2\nend", 1, "expected: update KEY AMOUNT"),
        (
            "\n\nupdate A 4294967296\nend",
            3,
            "an amount is 0 to 4294967295, not 4294967296",
        ),
        ("update A -1\nend", 1, "an amount is 0 to 4294967295, not -1"),
        ("update A +1\nend", 1, "not +1"),
        ("update A 1e3\nend", 1, "not 1e3"),
        ("update A 99999999999999999999999\nend", 1, "an amount is"),
        ("ask A B\nend", 1, "expected: ask KEY"),
        ("ask 0x0\nend", 1, "0x needs an even number of hexadecimal digits"),
        ("ask 0x\nend", 1, "0x needs an even number"),
        ("ask 0X4G\nend", 1, "0x needs an even number"),
        (&long, 1, "a key has 1 to 64 bytes, not 65 (number 4)"),
        (&long_digits, 1, "a key has 1 to 64 bytes, not 65 (number 4)"),
        ("end\r\nask A\r\n", 2, "nothing comes after end"),
        ("end 1", 1, "expected: end"),
        ("ask A\r\n", 1, "the text has no end"),
        ("", 1, "the text has no end"),
        ("ask A\nupd\u{7}te A 1\nend", 2, "not upd\\x07te"),
    ];
    let folder = Folder::new();
    for (lines, line, what) in cases {
        let message = bad(&["feed"], lines.as_bytes(), 1);
        let start = format!("meter feed: standard input: line {line}: ");
        assert!(message.starts_with(&start) && message.contains(what), "{lines:?}: {message}");
        assert_eq!(message.lines().count(), 1);

        // with a file to write, that file is as before, or not there
        let input = folder.put("text", lines.as_bytes());
        let kept = folder.put("kept", b"as before");
        bad(&["feed", &input, "-o", &kept], b"", 1);
        bad(&["feed", &input, "-o", &folder.path("new")], b"", 1);
        assert_eq!(fs::read(&kept).unwrap(), b"as before");
        assert_eq!(folder.names(), ["kept", "text"]);
    }
}

#[test]
fn a_feed_goes_to_text_and_back() {
    let mut rng = Rng::new("a_feed_goes_to_text_and_back");
    for _ in 0..40 {
        let (d, w, records) = (1 + rng.below(8), rng.width(), rng.below(200));
        let feed = to_bytes(&random_feed(&mut rng, d, w, records));
        let lines = good(&["feed", "--text"], &feed);
        assert_eq!(good(&["feed"], &lines), feed);
    }
}

#[test]
fn a_faulty_feed_has_no_text() {
    let feed = to_bytes(&[0x1000_0051, 0x5000_0001, 0x7041_0000, 0x8000_0000, 0x8000_012c, 0x4000_0005]);
    assert_eq!(text(&good(&["feed", "--text"], &feed)), "meter 1 32\nupdate A 300\nend\n");
    for cut in 0..feed.len() {
        let message = bad(&["feed", "--text"], &feed[..cut], 1);
        let place = cut / 4;
        let word = ["missing", "cut after 1 byte", "cut after 2 bytes", "cut after 3 bytes"][cut % 4];
        assert!(
            message.contains(&format!("word {place} ({word}): number 8: ")),
            "{cut}: {message}"
        );
    }
    let follows = [&feed[..], b"x"].concat();
    assert!(bad(&["feed", "--text"], &follows, 1).contains("word 6 (cut after 1 byte): number 8"));
    let mut wrong = feed.clone();
    wrong[15] = 1;
    wrong[12] = 0x70;
    assert!(bad(&["feed", "--text"], &wrong, 1).contains("word 3 (70000001): number 8"));
    let mut wrong = feed.clone();
    wrong[11] = 1;
    assert!(bad(&["feed", "--text"], &wrong, 1).contains("word 2 (70410001): number 9"));
    let mut wrong = feed;
    wrong[7] = 65;
    assert!(bad(&["feed", "--text"], &wrong, 1).contains("word 1 (50000041): number 4: the key length"));
}

#[test]
fn many_lines() {
    let mut lines = String::from("meter 4 64\n");
    for i in 0..200_000 {
        lines.push_str(&format!("update tenant-{} {}\n", i % 977, i));
    }
    lines.push_str("end\n");
    let output = meter(&["feed"], lines.as_bytes());
    assert!(output.status.success());
    assert_eq!(text(&good(&["feed", "--text"], &output.stdout)), lines);
}

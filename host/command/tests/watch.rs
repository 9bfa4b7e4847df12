//! `meter watch` beside the independent implementation.

mod common;

use common::{bad, feed, good, meter, named, random_feed, text, to_bytes, Folder, Rng};
use reference::{feed_record, watch_update, Memory, Record, Watch, WATCH_SIZE};

/// The list that the reference comes to.
fn watched(d: usize, w: usize, words: &[u32], threshold: u64) -> Watch {
    let (mut memory, mut list) = (Memory::new(&vec![0; d * w / 8 * 9]), vec![0; WATCH_SIZE]);
    let mut at = 1;
    loop {
        // The words alone, into a meter of their own.
        let (_, record) = feed_record(1, 32, &mut Memory::new(&[0; 36]), at as u64, &words[at..]);
        match record.expect("a record") {
            Record::Update(key, amount) => {
                let answer = watch_update(d, w, &mut memory, &mut list, &key, amount, threshold);
                assert_eq!(answer.number, 0);
                at += 3 + key.len().div_ceil(3);
            }
            Record::Ask(key) => at += 1 + key.len().div_ceil(3),
            Record::End => return Watch::parse(&list).expect("a list"),
        }
    }
}

/// What a line of the table says: when the key joined, its estimate and its name.
fn line(line: &str) -> (usize, u64, String) {
    let parts: Vec<&str> = line.split_whitespace().collect();
    assert_eq!(parts.len(), 3, "{line}");
    (parts[0].parse().unwrap(), parts[1].parse().unwrap(), parts[2].into())
}

#[test]
fn random_feeds() {
    let mut rng = Rng::new("random_feeds");
    let (mut listed, mut left) = (0, 0);
    for _ in 0..120 {
        let (d, w) = (1 + rng.below(8), rng.width());
        let words = random_feed(&mut rng, d, w, 60);
        let threshold = 1 + (rng.next() >> (20 + rng.below(44)));
        let expected = watched(d, w, &words, threshold);
        let used = expected.used();
        let mut rows: Vec<(usize, u64, String)> = expected.places[..used]
            .iter()
            .enumerate()
            .map(|(at, place)| (at + 1, place.estimate, named(&place.key)))
            .collect();
        for sorted in [false, true] {
            let n = threshold.to_string();
            let mut arguments = vec!["watch", "--threshold", &n];
            if sorted {
                arguments.push("--sort");
                rows.sort_by_key(|(_, estimate, _)| std::cmp::Reverse(*estimate));
            }
            let output = text(&good(&arguments, &to_bytes(&words)));
            let lines: Vec<&str> = output.lines().collect();
            let end = format!("of {threshold} or more; none is left out");
            assert!(lines[lines.len() - 1].ends_with(&end), "{output}");
            if used == 0 {
                assert_eq!(output, format!("no key {end}\n"));
                continue;
            }
            let found: Vec<_> = lines[1..=used].iter().map(|text| line(text)).collect();
            assert_eq!(found, rows);
            assert_eq!((lines[used + 1], lines.len()), ("", used + 3));
        }
        listed += used;
        left += usize::from(used == 0);
    }
    println!("{listed} keys listed; {left} lists with none");
    assert!(listed > 300 && left > 3);
}

const LINES: &str = "\
meter 4 1024
update tenant-a 999
update tenant-b 70000
# asks are passed over
ask tenant-a
update tenant-a 1
update tenant-c 20
update 0x0a000001 5000
end
";

#[test]
fn tables() {
    let folder = Folder::new();
    let lines = folder.put("text", LINES.as_bytes());
    let feed = folder.path("feed");
    good(&["feed", &lines, "-o", &feed], b"");
    let expected = "\
joined  estimate  key
     1     70000  tenant-b
     2      1000  tenant-a
     3      5000  0x0a000001

3 keys of 1000 or more; none is left out
";
    let all: [&[&str]; 3] = [
        &["watch", &feed, "--threshold", "1000"],
        &["watch", "--text", &lines, "--threshold=1000"],
        &["watch", "--threshold", "1000", "--text", "-"],
    ];
    for arguments in all {
        assert_eq!(text(&good(arguments, LINES.as_bytes())), expected, "{arguments:?}");
    }
    let sorted = "\
joined  estimate  key
     1     70000  tenant-b
     3      5000  10.0.0.1
     2      1000  tenant-a

3 keys of 1000 or more; none is left out
";
    assert_eq!(
        text(&good(&["watch", &feed, "--threshold", "1000", "--sort", "--ip"], b"")),
        sorted
    );
    assert_eq!(
        text(&good(&["watch", &feed, "--threshold", "5001"], b"")),
        "joined  estimate  key\n     1     70000  tenant-b\n\n1 key of 5001 or more; none is left out\n"
    );
    assert_eq!(
        text(&good(&["watch", &feed, "--threshold", "18446744073709551615"], b"")),
        "no key of 18446744073709551615 or more; none is left out\n"
    );
}

/// A 65th heavy key is said in words; the first 64 are there.
#[test]
fn a_full_list() {
    let keys: Vec<[u8; 2]> = (0..70).map(|n| [b'k', b'0' + n]).collect();
    let updates: Vec<(&[u8], u32)> = keys.iter().map(|key| (&key[..], 9)).collect();
    for (count, end) in [
        (64, "64 keys of 9 or more; none is left out\n"),
        (
            65,
            "64 keys of 9 or more; the list was full: some heavy keys are not listed\n",
        ),
        (
            70,
            "64 keys of 9 or more; the list was full: some heavy keys are not listed\n",
        ),
    ] {
        let output = text(&good(&["watch", "--threshold", "9"], &feed(&updates[..count])));
        assert!(output.ends_with(&format!("\n\n{end}")), "{output}");
        for (at, row) in output.lines().skip(1).take(64).enumerate() {
            assert_eq!(line(row).2.as_bytes(), keys[at]);
        }
    }
}

#[test]
fn faulty_words_list_nothing() {
    let feed = feed(&[(b"A", 300), (b"B", 20)]);
    good(&["watch", "--threshold", "1"], &feed);
    for cut in 0..feed.len() {
        let message = bad(&["watch", "--threshold", "1"], &feed[..cut], 1);
        assert!(
            message.starts_with("meter watch: standard input: word ") && message.contains("): number 8: "),
            "{cut}: {message}"
        );
    }
    let follows = [&feed[..], &[0; 4]].concat();
    assert!(bad(&["watch", "--threshold", "1"], &follows, 1).contains("word 10 (00000000): number 8: "));
    for (at, byte, said) in [
        (3, 0x59, "word 0 (10000059): number 1: the depth"),
        (2, 2, "word 0 (10000251): number 9: "),
        (7, 65, "word 1 (50000041): number 4: the key length"),
        (11, 1, "word 2 (70410001): number 9: "),
        (39, 7, "word 9 (40000007): number 9: "),
    ] {
        let mut wrong = feed.clone();
        wrong[at] = byte;
        let message = bad(&["watch", "--threshold", "1"], &wrong, 1);
        assert!(message.contains(said), "{at}: {message}");
    }
    let message = bad(&["watch", "--text", "--threshold", "1"], b"update A 1\nupdate A\nend\n", 1);
    assert_eq!(message, "meter watch: standard input: line 2: expected: update KEY AMOUNT\n");
}

#[test]
fn wrong_usage() {
    for (wrong, said) in [
        (&["watch"][..], "--threshold N says what is heavy"),
        (&["watch", "--threshold", "0"], "a threshold is at least 1, not 0 (number 11)"),
        (
            &["watch", "--threshold", "18446744073709551616"],
            "below 2^64, not 18446744073709551616",
        ),
        (&["watch", "--threshold", "-1"], "below 2^64, not -1"),
        (&["watch", "--threshold"], "--threshold needs a value"),
        (&["watch", "a", "b", "--threshold", "1"], "one file is read; what is b?"),
        (&["watch", "--threshold", "1", "--what"], "no option --what"),
    ] {
        let message = bad(wrong, b"", 2);
        assert!(message.contains(said), "{wrong:?}: {message}");
    }
    assert_eq!(meter(&["watch", "--threshold", "1"], &feed(&[])).status.code(), Some(0));
}

//! `meter compare` beside the independent implementation.

mod common;

use common::{bad, feed, good, meter, named, random_feed, text, to_bytes, Folder, Rng};
use reference::{feed_record, signed_estimate, signed_update, Memory, Record};

/// The updates of a feed.
fn updates(words: &[u32]) -> Vec<(Vec<u8>, u32)> {
    let (mut at, mut all) = (1, Vec::new());
    loop {
        // The words alone, into a meter of their own.
        let (_, record) = feed_record(1, 32, &mut Memory::new(&[0; 36]), at as u64, &words[at..]);
        match record.expect("a record") {
            Record::Update(key, amount) => {
                at += 3 + key.len().div_ceil(3);
                all.push((key, amount));
            }
            Record::Ask(key) => at += 1 + key.len().div_ceil(3),
            Record::End => return all,
        }
    }
}

/// The lines that the reference comes to: before with minus, then after with plus, each amount in the largest parts there are.
fn compared(d: usize, w: usize, before: &[u32], after: &[u32], top: usize) -> Vec<String> {
    let mut memory = vec![0; d * w / 8 * 9];
    let mut keys = Vec::new();
    for (words, sign) in [(before, -1), (after, 1)] {
        for (key, amount) in updates(words) {
            let mut left = i64::from(amount);
            while left > 0 {
                let part = left.min(i64::from(i32::MAX));
                let answer = signed_update(d, w, &mut memory, &key, sign * part as i32);
                assert_eq!(answer.number, 0);
                left -= part;
            }
            if !keys.contains(&key) {
                keys.push(key);
            }
        }
    }
    let mut changes: Vec<(Vec<u8>, i64)> = keys
        .into_iter()
        .map(|key| {
            let answer = signed_estimate(d, w, &memory, &key);
            (key, answer.figure)
        })
        .filter(|(_, change)| *change != 0)
        .collect();
    changes.sort_by_key(|(_, change)| -change.abs());
    let lines = changes.iter().map(|(key, change)| format!("{} {change:+}", named(key)));
    lines.take(top).collect()
}

#[test]
fn random_feeds() {
    let mut rng = Rng::new("random_feeds");
    let folder = Folder::new();
    let (mut up, mut down) = (0, 0);
    for n in 0..120 {
        let [before, after] = [0, 1].map(|_| random_feed(&mut rng, 1, 32, 40));
        let [first, second] = [("before", &before), ("after", &after)].map(|(name, words)| folder.put(name, &to_bytes(words)));
        let (d, w) = ([1, 3, 5, 7][rng.below(4)], rng.width());
        let top = rng.below(30);
        let (d_text, w_text, top_text) = (d.to_string(), w.to_string(), top.to_string());
        let mut arguments = vec!["compare", &first, &second];
        // Left out, 5 rows of 4096 and the ten largest changes.
        let expected = match n % 3 {
            0 => compared(5, 4096, &before, &after, 10),
            _ => {
                arguments.extend(["--geometry", &d_text, &w_text, "--top", &top_text]);
                compared(d, w, &before, &after, top)
            }
        };
        let output = text(&good(&arguments, b""));
        assert_eq!(output.lines().collect::<Vec<_>>(), expected, "{arguments:?}");
        up += expected.iter().filter(|line| line.contains(" +")).count();
        down += expected.iter().filter(|line| line.contains(" -")).count();
    }
    println!("{up} keys went up, {down} went down");
    assert!(up > 200 && down > 200);
}

const BEFORE: &str = "\
meter 4 64
update tenant-a 1500
update tenant-b 4294967295
update tenant-c 7
update tenant-d 300
ask tenant-z
update 0x0a000001 20
end
";

const AFTER: &str = "\
update tenant-a 900
update tenant-c 7
update tenant-e 300
update tenant-d 40
update tenant-d 4
update tenant-f 0
end
";

const CHANGES: &str = "\
tenant-b -4294967295
tenant-a -600
tenant-e +300
tenant-d -256
0x0a000001 -20
";

#[test]
fn lines() {
    let folder = Folder::new();
    let [before, after] = [("before", BEFORE), ("after", AFTER)].map(|(name, lines)| folder.put(name, lines.as_bytes()));
    let feeds = [&before, &after].map(|lines| {
        let feed = format!("{lines}.feed");
        good(&["feed", lines, "-o", &feed], b"");
        feed
    });
    let all: [(&[&str], &str); 5] = [
        (&["compare", "--text", &before, &after], ""),
        (&["compare", &feeds[0], &feeds[1]], ""),
        (&["compare", "--text", "-", &after], BEFORE),
        (&["compare", "--text", &before, "--", "-"], AFTER),
        (
            &["compare", "--text", &before, &after, "--geometry", "5", "4096", "--top=10"],
            "",
        ),
    ];
    for (arguments, input) in all {
        assert_eq!(text(&good(arguments, input.as_bytes())), CHANGES, "{arguments:?}");
    }
    // The other way about every sign is the other, and keys come in the order of the other.
    let back = text(&good(&["compare", "--text", &after, &before, "--top", "99", "--ip"], b""));
    assert_eq!(
        back,
        "tenant-b +4294967295\ntenant-a +600\ntenant-e -300\ntenant-d +256\n10.0.0.1 +20\n"
    );
    let most = text(&good(&["compare", "--text", &before, &after, "--top", "2"], b""));
    assert_eq!(most, CHANGES.split_inclusive('\n').take(2).collect::<String>());
    // What did not change is not listed.
    for nothing in [&["--top", "0", &before, &after], &["--top", "9", &after, &after]] {
        assert_eq!(good(&[&["compare", "--text"], &nothing[..]].concat(), b""), b"");
    }
}

/// A capture of IPv4 packets: the last byte of source and destination, and the length; a length of 0 is no IP.
fn capture(packets: &[(u8, u8, u32)]) -> Vec<u8> {
    let mut bytes = to_bytes(&[0xa1b2_c3d4, 0x0002_0004, 0, 0, 65_535, 1]);
    for &(source, destination, length) in packets {
        let kind = if length == 0 { [8, 6] } else { [8, 0] };
        let ip = [vec![0x45], vec![0; 11], vec![10, 0, 0, source, 192, 0, 2, destination]].concat();
        bytes.extend(to_bytes(&[0, 0, 34, length.max(60)]));
        bytes.extend([vec![0; 12], kind.to_vec(), ip].concat());
    }
    bytes
}

#[test]
fn captures() {
    let folder = Folder::new();
    let before = folder.put("before", &capture(&[(1, 7, 1_500), (2, 7, 60), (1, 8, 1_500)]));
    let after = folder.put("after", &capture(&[(2, 7, 90), (3, 8, 400), (1, 7, 100)]));
    let skipping = folder.put("skipping", &capture(&[(2, 7, 90), (0, 0, 0), (3, 8, 400), (1, 7, 100)]));
    let compare = |files: [&str; 2], by: &str, more: &[&str]| {
        let start = ["compare", "--from-pcap", files[0], files[1], "--key", by];
        meter(&[&start[..], more].concat(), b"")
    };
    let printed = |by: &str, more: &[&str]| {
        let output = compare([&before, &after], by, more);
        assert_eq!((output.status.code(), text(&output.stderr)), (Some(0), String::new()));
        text(&output.stdout)
    };
    assert_eq!(printed("src", &["--ip"]), "10.0.0.1 -2900\n10.0.0.3 +400\n10.0.0.2 +30\n");
    assert_eq!(printed("src", &["--top", "1"]), "0x0a000001 -2900\n");
    assert_eq!(printed("dst", &["--ip"]), "192.0.2.7 -1370\n192.0.2.8 -1100\n");
    assert_eq!(printed("flow", &["--ip"]).lines().count(), 4);

    let output = compare([&before, &skipping], "src", &["--ip"]);
    assert_eq!(output.status.code(), Some(0));
    assert_eq!(text(&output.stdout), "10.0.0.1 -2900\n10.0.0.3 +400\n10.0.0.2 +30\n");
    let said = format!("meter compare: {skipping}: 1 of 4 packets skipped: 1 not IP, 0 captured too short, 0 malformed\n");
    assert_eq!(text(&output.stderr), said);
}

#[test]
fn what_is_refused_lists_nothing() {
    let folder = Folder::new();
    let good_feed = feed(&[(b"A", 300), (b"B", 20)]);
    let file = folder.put("feed", &good_feed);
    good(&["compare", &file, "-"], &good_feed);
    for cut in 0..good_feed.len() {
        for files in [[&file, "-"], ["-", &file]] {
            let message = bad(&["compare", files[0], files[1]], &good_feed[..cut], 1);
            assert!(
                message.starts_with("meter compare: standard input: word ") && message.contains("): number 8: "),
                "{cut}: {message}"
            );
        }
    }
    let message = bad(&["compare", "--text", "-", &file], b"update A 1\nupdate A\nend\n", 1);
    assert_eq!(
        message,
        "meter compare: standard input: line 2: expected: update KEY AMOUNT\n"
    );
    let cut = folder.put("cut", &capture(&[(1, 7, 1_500)])[..50]);
    let sound = folder.put("sound", &capture(&[(1, 7, 1_500)]));
    for files in [[&cut, &sound], [&sound, &cut]] {
        let message = bad(&["compare", "--from-pcap", files[0], files[1], "--key", "src"], b"", 1);
        assert!(message.contains("cut: offset 24: a packet is cut"), "{message}");
    }
    let missing = folder.path("missing");
    assert!(bad(&["compare", &file, &missing], b"", 1).contains("missing: No such file"));
}

#[test]
fn wrong_usage() {
    for (wrong, said) in [
        (&["compare"][..], "two files, BEFORE and AFTER, are compared"),
        (&["compare", "a"], "two files"),
        (&["compare", "a", "b", "c"], "two files"),
        (&["compare", "-", "-"], "standard input can be read once"),
        (
            &["compare", "--from-pcap", "-", "-", "--key", "src"],
            "standard input can be read once",
        ),
        (&["compare", "--from-pcap", "a"], "--from-pcap needs 2 values"),
        (
            &["compare", "--from-pcap", "a", "b", "c", "--key", "src"],
            "two captures and nothing else",
        ),
        (
            &["compare", "--from-pcap", "a", "b"],
            "--key src, dst or flow says what to count by",
        ),
        (
            &["compare", "--from-pcap", "a", "b", "--key", "port"],
            "--key is src, dst or flow, not port",
        ),
        (
            &["compare", "--from-pcap", "a", "b", "--key", "src", "--text"],
            "--text or --from-pcap, not both",
        ),
        (&["compare", "a", "b", "--key", "src"], "--key goes with --from-pcap"),
        (
            &["compare", "a", "b", "--geometry", "4", "64"],
            "d of a signed meter is odd, not 4 (number 12)",
        ),
        (
            &["compare", "a", "b", "--geometry", "9", "64"],
            "d is 1 to 8, not 9 (number 1)",
        ),
        (&["compare", "a", "b", "--geometry", "4", "65"], "not 65 (number 2)"),
        (&["compare", "a", "b", "--geometry", "5"], "--geometry needs 2 values"),
        (&["compare", "a", "b", "--top", "x"], "--top takes a number, not x"),
        (&["compare", "a", "b", "--what"], "no option --what"),
    ] {
        let message = bad(wrong, b"", 2);
        assert!(message.contains(said), "{wrong:?}: {message}");
    }
}

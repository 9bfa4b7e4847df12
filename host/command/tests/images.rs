//! Images: info, check, dump, unite, ask, new, size, chart.

mod common;
#[path = "../../tests/common/wide_image.rs"]
mod wide_image;

use common::{bad, good, meter, text, to_bytes, to_words, Folder, Rng};
use meter::{Meter, LARGEST_WIDTH};
use std::fs;

/// A meter whose counters are random at every level.
fn random_meter(rng: &mut Rng, d: usize, w: usize) -> Meter {
    let merges = reference::valid_merges();
    let mut bytes = Vec::new();
    for _ in 0..d {
        for _ in 0..w {
            let byte = rng.next() as u8;
            bytes.push(if rng.below(3) == 0 { byte } else { 0 });
        }
        for _ in 0..w / 8 {
            bytes.push(merges[rng.below(merges.len())]);
        }
    }
    Meter::from_bytes(d, w, bytes).unwrap()
}

fn image(meter: &Meter) -> Vec<u8> {
    to_bytes(&meter.image().unwrap())
}

/// Row, first slot, level and figure of each counter, from an image's words alone.
fn counters(words: &[u32], d: usize, w: usize) -> Vec<(usize, usize, usize, u64)> {
    let mut counters = Vec::new();
    let mut words = words[1..].iter().map(|word| word & 0x0fff_ffff);
    for row in 0..d {
        for slots in (0..w).step_by(32) {
            let (_, merges) = reference::unpack(words.next().unwrap());
            let mut slot = 0;
            while slot < 32 {
                let (merge, k) = (merges[slot / 8], slot % 8);
                let level = match (merge & 8, merge & (2 << (k & 4)), merge & (1 << (k & 6))) {
                    (0, 0, 0) => 0,
                    (0, 0, _) => 1,
                    (0, _, _) => 2,
                    _ => 3,
                };
                let figure = (0..[1, 1, 2, 3][level]).fold(0, |n, _| n << 24 | u64::from(words.next().unwrap()));
                counters.push((row, slots + slot, level, figure));
                slot += 1 << level;
            }
        }
    }
    counters
}

#[test]
fn dump_has_every_counter() {
    let mut rng = Rng::new("dump_has_every_counter");
    for _ in 0..20 {
        let (d, w) = (1 + rng.below(8), 32 << rng.below(6));
        let bytes = image(&random_meter(&mut rng, d, w));
        let lines: Vec<String> = counters(&to_words(&bytes), d, w)
            .iter()
            .map(|(row, slot, level, figure)| {
                let bits = 8 << level;
                format!("{{\"row\":{row},\"slot\":{slot},\"level\":{level},\"bits\":{bits},\"figure\":{figure}}}\n")
            })
            .collect();
        assert_eq!(text(&good(&["image", "dump"], &bytes)), lines.concat());
        let used: Vec<&str> = lines
            .iter()
            .map(String::as_str)
            .filter(|line| !line.ends_with(":0}\n"))
            .collect();
        assert_eq!(text(&good(&["image", "dump", "--used", "-"], &bytes)), used.concat());
    }
}

#[test]
fn info_of_random_meters() {
    let mut rng = Rng::new("info_of_random_meters");
    for _ in 0..20 {
        let (d, w) = (1 + rng.below(8), 32 << rng.below(6));
        let meter = random_meter(&mut rng, d, w);
        let bytes = image(&meter);
        let counters = counters(&to_words(&bytes), d, w);
        let json = text(&good(&["image", "info", "--json"], &bytes));
        let plain = text(&good(&["image", "info"], &bytes));
        let words = bytes.len() / 4;
        let widest = meter.widest().unwrap();
        assert!(json.starts_with(&format!(
            "{{\"d\":{d},\"w\":{w},\"words\":{words},\"memory\":{},\"widest\":{widest},",
            meter.bytes().len()
        )));
        for line in [
            format!("d {d}"),
            format!("w {w}"),
            format!("words {words}"),
            format!("widest level {widest} ({} bits)", 8 << widest),
        ] {
            assert!(plain.lines().any(|l| l == line), "{line}");
        }
        for level in 0..4 {
            let all = counters.iter().filter(|c| c.2 == level);
            let (n, used) = (all.clone().count(), all.filter(|c| c.3 > 0).count());
            let (bits, slots, slots_used) = (8 << level, n << level, used << level);
            assert!(json.contains(&format!(
                "{{\"level\":{level},\"bits\":{bits},\"counters\":{n},\"used\":{used},\"slots\":{slots},\"slots_used\":{slots_used}}}"
            )));
            let row: Vec<String> = [level, bits, n, used, slots, slots_used].map(|n| n.to_string()).to_vec();
            assert!(
                plain
                    .lines()
                    .any(|line| line.split_whitespace().eq(row.iter().map(String::as_str))),
                "{row:?}"
            );
        }
        for row in 0..d {
            let all = counters.iter().filter(|c| c.0 == row && c.3 > 0);
            let (used, total) = (all.clone().count(), all.map(|c| u128::from(c.3)).sum::<u128>());
            assert!(json.contains(&format!("{{\"row\":{row},\"used\":{used},\"total\":{total}}}")));
            let row = [row.to_string(), used.to_string(), total.to_string()];
            assert!(
                plain
                    .lines()
                    .any(|line| line.split_whitespace().eq(row.iter().map(String::as_str))),
                "{row:?}"
            );
        }
    }
}

#[test]
fn check_names_the_faulty_word() {
    let folder = Folder::new();
    let clear = image(&Meter::new(1, 32).unwrap());
    let file = folder.put("clear", &clear);
    assert_eq!(
        text(&good(&["image", "check", &file], b"")),
        format!("{file}: an image of 1 row of 32 slots, 35 words\n")
    );
    for cut in 0..clear.len() {
        let message = bad(&["image", "check"], &clear[..cut], 1);
        assert!(
            message.starts_with(&format!("meter image: standard input: not an image: word {} (", cut / 4)),
            "{message}"
        );
        assert!(message.contains("): number 8: "), "{message}");
    }
    let with = |at: usize, word: u32| {
        let mut bytes = clear.clone();
        bytes[4 * at..4 * at + 4].copy_from_slice(&word.to_be_bytes());
        bytes
    };
    for (bytes, what) in [
        (with(0, 0x1000_0059), "word 0 (10000059): number 1: "),
        (with(0, 0x1000_0041), "word 0 (10000041): number 2: "),
        (with(0, 0x1000_0251), "word 0 (10000251): number 9: "),
        (with(0, 0x2000_0051), "word 0 (20000051): number 8: "),
        (with(1, 0x2006_f910), "word 1 (2006F910): number 9: "),
        (with(7, 0x3000_0100), "word 7 (30000100): number 9: "),
        (with(33, 0x4000_0000), "word 33 (40000000): number 8: "),
        (with(34, 0x4000_0021), "word 34 (40000021): number 9: "),
        ([&clear[..], &[0]].concat(), "word 35 (cut after 1 byte): number 8: "),
        ([&clear[..], &[0; 4]].concat(), "word 35 (00000000): number 8: "),
    ] {
        for arguments in [
            &["image", "check"][..],
            &["image", "info"],
            &["image", "dump"],
            &["ask", "-", "A"],
            &["unite", "-", "-o", "-"],
            &["chart", "-o", "-"],
        ] {
            let message = bad(arguments, &bytes, 1);
            assert!(message.contains(what), "{arguments:?}: {message} is not {what}");
        }
    }
}

/// An image that was written while rows could be wider is none any more: its head says a width that no meter has, and to a union, which
/// has d and w from the first image, it is of another width.
#[test]
fn an_image_of_wider_rows() {
    let folder = Folder::new();
    let file = folder.put("wider", &to_bytes(&wide_image::words()));
    let out = folder.path("out");
    for arguments in [
        &["image", "check", &file][..],
        &["image", "info", &file],
        &["image", "dump", &file],
        &["ask", &file, "tenant-7"],
        &["chart", &file, "-o", "-"],
        &["unite", &file, "-o", &out],
    ] {
        let message = bad(arguments, b"", 1);
        let what = "/wider: not an image: word 0 (10000102): number 2: the width is not a power of two from 32 to 16,384\n";
        assert!(message.ends_with(what), "{arguments:?}: {message}");
    }
    let first = folder.put("first", &image(&Meter::new(2, LARGEST_WIDTH).unwrap()));
    let message = bad(&["unite", &first, &file, "-o", &out], b"", 1);
    assert!(message.contains("/wider: word 0 (10000102): number 10: "), "{message}");
    assert_eq!(folder.names(), ["first", "wider"]);
}

#[test]
fn unions() {
    let mut rng = Rng::new("unions");
    let folder = Folder::new();
    let mut sum = Meter::new(3, 64).unwrap();
    let mut files = Vec::new();
    for n in 0..4 {
        let mut meter = Meter::new(3, 64).unwrap();
        for _ in 0..50 {
            let key = rng.bytes(4);
            let amount = (rng.next() as u32) >> rng.below(32);
            meter.update(&key, amount).unwrap();
        }
        sum.unite(&meter).unwrap();
        files.push(folder.put(&format!("{n}"), &image(&meter)));
    }
    let out = folder.path("out");
    let all: Vec<&str> = [
        &["unite"],
        &files.iter().map(String::as_str).collect::<Vec<_>>()[..],
        &["-o", &out],
    ]
    .concat();
    good(&all, b"");
    assert_eq!(fs::read(&out).unwrap(), image(&sum));
    // one alone, from standard input, into what it is united with, to standard output
    assert_eq!(good(&["unite", "-", "-o", "-"], &image(&sum)), image(&sum));
    let clear = folder.path("clear");
    good(&["new", "3", "64", "-o", &clear], b"");
    good(&["unite", &clear, &out, "-o", &clear], b"");
    assert_eq!(fs::read(&clear).unwrap(), image(&sum));

    // as long, and of another geometry
    let other = folder.put("other", &image(&Meter::new(6, 32).unwrap()));
    let message = bad(&["unite", &out, &other, "-o", &clear], b"", 1);
    assert!(message.contains("/other: word 0 (10000056): number 10: "), "{message}");
    // too full
    let mut bytes = vec![0; 36];
    bytes[7] = 0x80;
    bytes[32] = 0x7f;
    let full = folder.put("full", &image(&Meter::from_bytes(1, 32, bytes).unwrap()));
    let message = bad(&["unite", &full, &full, "-o", &clear], b"", 1);
    assert!(message.contains("/full: number 6: "), "{message}");
    assert_eq!(fs::read(&clear).unwrap(), image(&sum));

    bad(&["unite", "-o", &clear], b"", 2);
    bad(&["unite", &out], b"", 2);
    bad(&["unite", "-", "-", "-o", &clear], &image(&sum), 2);
}

#[test]
fn figures() {
    let folder = Folder::new();
    let mut one = Meter::new(4, 1024).unwrap();
    for (key, amount) in [(&b"b"[..], 70), (b"a", 70_000), (b"c", 70), (b"d", 5), (b"\0\xff", 300)] {
        one.update(key, amount).unwrap();
    }
    for key in [&b"a"[..], b"b", b"c", b"d", b"\0\xff"] {
        assert!(one.estimate(key).unwrap() > 0);
    }
    let file = folder.put("image", &image(&one));
    assert_eq!(
        text(&good(&["ask", &file, "d", "0X00ff", "nobody", "0x61"], b"")),
        "d 5\n0x00ff 300\nnobody 0\na 70000\n"
    );
    assert_eq!(text(&good(&["ask", "-", "a"], &image(&one))), "a 70000\n");
    assert_eq!(text(&good(&["ask", &file, "--", "-x", "a"], b"")), "-x 0\na 70000\n");

    // equal figures stay in order, and each key comes once
    let keys = folder.put("keys", b"# tenants\r\n\r\nd\r\nb\r\nc\r\n  a \r\n0x62\r\n0x00ff");
    let all = "d 5\nb 70\nc 70\na 70000\nb 70\n0x00ff 300\n";
    assert_eq!(text(&good(&["ask", &file, "--keys", &keys], b"")), all);
    let top = ["a 70000\n", "0x00ff 300\n", "b 70\n", "c 70\n", "d 5\n"];
    for n in 0..8 {
        let expected = top[..n.min(5)].concat();
        assert_eq!(
            text(&good(&["ask", &file, "--keys", &keys, "--top", &n.to_string()], b"")),
            expected
        );
    }
    assert_eq!(
        text(&good(&["ask", &file, "c", "--keys", "-", "--top=1"], b"b\nd\n")),
        "c 70\n"
    );

    // only blanks are no part of a key
    assert_eq!(
        text(&good(&["ask", &file, "--keys", "-"], b"\ta\t \na\x0c\n\ra\r\n")),
        "a 70000\n0x610c 0\n0x0d61 0\n"
    );

    let wrong = folder.put("wrong", b"a\n\nb c\n");
    assert!(bad(&["ask", &file, "--keys", &wrong], b"", 1).contains("/wrong: line 3: one key a line"));
    let wrong = folder.put("wrong", b"a\n0x4\n");
    assert!(bad(&["ask", &file, "--keys", &wrong], b"", 1).contains("/wrong: line 2: 0x needs"));
    assert!(bad(&["ask", &file, &"k".repeat(65)], b"", 1).contains("not 65 (number 4)"));
    for key in ["abcd", "0abc", "0x4141", "10.0.0", "1.2.3.4.5", "::g"] {
        assert!(
            bad(&["ask", &file, "--ip", key], b"", 1).contains(" is no IP address"),
            "{key}"
        );
    }
    assert!(bad(&["ask", &file, "--ip", "10.0.0"], b"", 1).contains("10.0.0 is no IP address"));
    for wrong in [
        &["ask"][..],
        &["ask", &file],
        &["ask", &file, "a", "--top", "x"],
        &["ask", "-", "--keys", "-"],
    ] {
        bad(wrong, b"", 2);
    }
}

/// The figures of `size` are those of meters.
#[test]
fn sizes() {
    let help = text(&good(&["new", "--help"], b""));
    assert!(help.contains(&format!("32 to {LARGEST_WIDTH}; ")), "{help}");
    for (d, w) in [(1, 32), (4, 4096), (8, LARGEST_WIDTH)] {
        let lines = text(&good(&["size", &d.to_string(), &w.to_string(), "--total", "1000000"], b""));
        let memory = d * w / 8 * 9;
        let most = Meter::new(d, w).unwrap().image().unwrap().len();
        let row = [vec![0; w], vec![0x7f; w / 8]].concat();
        let least = Meter::from_bytes(d, w, row.repeat(d)).unwrap().image().unwrap().len();
        for line in [
            format!("d {d}, w {w}"),
            format!("memory {memory} bytes"),
            format!("image at least {least} words ({} bytes), every counter of level 3", 4 * least),
            format!("image at most {most} words ({} bytes), every counter of level 0", 4 * most),
        ] {
            assert!(lines.lines().any(|l| l == line), "{line} is not in\n{lines}");
        }
        for level in 0..4 {
            let share = (1_000_000usize << level).div_ceil(w);
            let line = lines.lines().find(|l| l.starts_with(&format!("level {level} "))).unwrap();
            assert!(line.ends_with(&format!("  {share} of 1000000")), "{line}");
        }
    }
    let lines = text(&good(&["size", "1", "32"], b""));
    assert!(lines.contains("level 0   8 bits  1 of 32 slots  3.1250%\n"), "{lines}");
    assert!(lines.contains("level 3  64 bits  8 of 32 slots  25.0000%\n"), "{lines}");
    for wrong in [
        &["size"][..],
        &["size", "4"],
        &["size", "9", "32"],
        &["size", "1", "48"],
        &["size", "1", "32768"],
        &["size", "1", "32", "--total", "-1"],
    ] {
        bad(wrong, b"", 2);
    }
}

#[test]
fn clear_meters() {
    for (d, w) in [(1, 32), (8, LARGEST_WIDTH)] {
        let words = to_words(&good(&["new", &d.to_string(), &w.to_string(), "-o", "-"], b""));
        assert_eq!(Meter::from_image(&words).unwrap(), Meter::new(d, w).unwrap());
    }
    for wrong in [
        &["new", "1", "32"][..],
        &["new", "1", "-o", "-"],
        &["new", "0", "32", "-o", "-"],
        &["new", "1", "32768", "-o", "-"],
    ] {
        bad(wrong, b"", 2);
    }
}

/// Every tag is closed, and nothing is left open.
fn well_formed(svg: &str) {
    let mut open: Vec<&str> = Vec::new();
    let mut rest = svg;
    while let Some(start) = rest.find('<') {
        assert!(!rest[..start].contains('>'), "a bracket in text");
        let end = start + rest[start..].find('>').expect("a tag's end");
        let tag = &rest[start + 1..end];
        assert_eq!(tag.matches('"').count() % 2, 0, "{tag}");
        if let Some(name) = tag.strip_prefix('/') {
            assert_eq!(open.pop(), Some(name));
        } else if !tag.ends_with('/') {
            open.push(tag.split(' ').next().unwrap());
        }
        rest = &rest[end + 1..];
    }
    assert!(open.is_empty());
    assert_eq!(rest, "\n");
}

#[test]
fn charts() {
    let mut rng = Rng::new("charts");
    let folder = Folder::new();
    for (d, w) in [(1, 32), (2, 512), (3, 1024), (8, 4096), (8, LARGEST_WIDTH)] {
        let meter = random_meter(&mut rng, d, w);
        let file = folder.put("rack <7> & \"8\".image", &image(&meter));
        let svg = folder.path("out.svg");
        good(&["chart", &file, "-o", &svg], b"");
        let svg = fs::read_to_string(&svg).unwrap();
        well_formed(&svg);
        assert!(svg.starts_with("<svg xmlns=\"http://www.w3.org/2000/svg\" "));
        assert!(svg.contains(">rack &lt;7&gt; &amp; &quot;8&quot;.image</text>"));
        let widest = meter.widest().unwrap();
        assert!(svg.contains(&format!("widest level {widest} ({} bits)", 8 << widest)));
        for row in 0..d {
            assert!(svg.contains(&format!(">row {row}</text>")));
            assert!(svg.contains(&format!("<title>row {row}, slot")));
        }
        // the histogram's figures are those of info
        let info = text(&good(&["image", "info", &file], b""));
        for level in 0..4 {
            let line = info
                .lines()
                .find(|line| line.split_whitespace().next() == Some(&level.to_string()))
                .unwrap();
            let part: Vec<&str> = line.split_whitespace().collect();
            let plain = svg.replace(',', "");
            let label = match part[2] {
                "0" => ">none</text>".to_string(),
                counters => format!(">{} in use of {counters}</text>", part[3]),
            };
            assert!(plain.contains(&label), "level {level}");
        }
    }
    let clear = text(&good(&["chart", "-o", "-"], &image(&Meter::new(2, 32).unwrap())));
    well_formed(&clear);
    assert!(clear.contains(">standard input</text>") && clear.contains("2 rows of 32 slots"));
    assert!(!clear.contains("<title>row"), "a clear meter has no counter to show");

    let file = folder.put("image", &image(&Meter::new(2, 32).unwrap()));
    bad(&["chart", &file], b"", 2);
    bad(&["chart", &file, "-o", &file], b"", 2);
    assert_eq!(
        meter(&["chart", &file, "-o", &folder.path("no/folder.svg")], b"")
            .status
            .code(),
        Some(1)
    );
}

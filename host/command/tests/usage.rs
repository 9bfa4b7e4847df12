//! Help, exit statuses, files written whole, pipes that close.

mod common;

use common::{bad, good, head, meter, random_feed, record, terminal, text, to_bytes, Folder, Rng, METER};
use meter::LARGEST_WIDTH;
use std::fs;
use std::io::{Read, Write};
use std::os::unix::fs::{symlink, PermissionsExt};
use std::process::{Command, Stdio};
use std::thread;
use std::time::Duration;

const SUBCOMMANDS: [&str; 10] = [
    "feed", "run", "image", "unite", "ask", "watch", "compare", "new", "size", "chart",
];

#[test]
fn help_and_version() {
    let all = text(&good(&["--help"], b""));
    for name in SUBCOMMANDS {
        assert!(all.contains(&format!("\n  {name:<8} ")), "{name}");
        let help = text(&good(&[name, "--help"], b""));
        assert!(help.contains(&format!("usage: meter {name}")), "{help}");
        assert!(help.lines().all(|line| line.chars().count() <= 80), "{name}");
        assert_eq!(text(&good(&[name, "whatever", "-h"], b"")), help);
    }
    assert_eq!(
        text(&good(&["image", "info", "--help"], b"")),
        text(&good(&["image", "--help"], b""))
    );
    assert_eq!(
        text(&good(&["--version"], b"")),
        format!("meter {}\n", env!("CARGO_PKG_VERSION"))
    );
}

#[test]
fn wrong_usage_is_2() {
    for wrong in [
        &[][..],
        &["what"],
        &["--what"],
        &["image"],
        &["image", "what"],
        &["image", "info", "a", "b"],
        &["feed", "a", "b"],
        &["feed", "-x"],
        &["feed", "-o"],
    ] {
        let message = bad(wrong, b"", 2);
        assert!(message.contains("--help says how it is used"), "{message}");
    }
}

#[test]
fn what_cannot_be_read_or_written_is_1() {
    let folder = Folder::new();
    let missing = folder.path("missing");
    for wrong in [
        &["feed", &missing][..],
        &["feed", "--text", &missing],
        &["feed", "--from-pcap", &missing, "--key", "src"],
        &["run", &missing],
        &["image", "info", &missing],
        &["unite", &missing, "-o", "-"],
        &["ask", &missing, "A"],
        &["watch", &missing, "--threshold", "1"],
        &["compare", &missing, "-"],
        &["compare", "--from-pcap", &missing, "-", "--key", "src"],
        &["chart", &missing, "-o", "-"],
    ] {
        assert!(bad(wrong, b"", 1).contains("missing: No such file"), "{wrong:?}");
    }
    bad(&["feed", &folder.path("")], b"", 1);
    let nowhere = folder.path("no/folder");
    assert!(bad(&["new", "1", "32", "-o", &nowhere], b"", 1).contains("no/folder: No such file"));
    bad(&["new", "1", "32", "-o", &folder.path("")], b"", 1);
    assert!(folder.names().is_empty());
}

#[test]
fn files_are_replaced_whole() {
    let folder = Folder::new();
    let clear = good(&["new", "1", "32", "-o", "-"], b"");
    let file = folder.put("image", b"something else");
    fs::set_permissions(&file, fs::Permissions::from_mode(0o640)).unwrap();
    good(&["new", "1", "32", "-o", &file], b"");
    assert_eq!(fs::read(&file).unwrap(), clear);
    assert_eq!(fs::metadata(&file).unwrap().permissions().mode() & 0o777, 0o640);

    // behind a link the file is written and the link stays
    let link = folder.path("link");
    symlink("image", &link).unwrap();
    good(&["new", "1", "64", "-o", &link], b"");
    assert!(fs::symlink_metadata(&link).unwrap().is_symlink());
    assert_ne!(fs::read(&file).unwrap(), clear);
    assert_eq!(folder.names(), ["image", "link"]);

    // what is no file is written as it is
    let output = meter(&["new", "1", "32", "-o", "/dev/stdout"], b"");
    assert_eq!((output.status.code(), output.stdout), (Some(0), clear));
}

/// Nobody reads on: the command stops with 1, and says nothing.
#[test]
fn closed_pipes() {
    let folder = Folder::new();
    let image = folder.path("image");
    good(&["new", "8", &LARGEST_WIDTH.to_string(), "-o", &image], b"");
    let feed = to_bytes(&random_feed(&mut Rng::new("closed_pipes"), 1, 32, 100_000));
    let empty = folder.put("empty", &to_bytes(&[head(1, 32), 0x4000_0001]));
    for (arguments, input) in [
        (&["image", "dump", &image][..], &b""[..]),
        (&["run"], &feed),
        (&["feed", "--text"], &feed),
        (&["watch", "--threshold", "1"], &feed),
        (&["compare", &empty, "-"], &feed),
        (&["chart", &image, "-o", "-"], b""),
        (&["--help"], b""),
    ] {
        let mut child = Command::new(METER)
            .args(arguments)
            .stdin(Stdio::piped())
            .stdout(Stdio::piped())
            .stderr(Stdio::piped())
            .spawn()
            .unwrap();
        let mut output = child.stdout.take().unwrap();
        if arguments[0] == "run" {
            // it reads some and then no more
            let mut stdin = child.stdin.take().unwrap();
            let _ = stdin.write_all(&input[..4]);
            let mut some = [0; 4];
            output.read_exact(&mut some).unwrap();
            drop(output);
            let _ = stdin.write_all(&input[4..]);
        } else {
            drop(output);
            let _ = child.stdin.take().unwrap().write_all(input);
        }
        let mut message = String::new();
        child.stderr.take().unwrap().read_to_string(&mut message).unwrap();
        let status = child.wait().unwrap().code();
        // help is so short that it may be written before the pipe is closed
        if arguments[0] != "--help" {
            assert_eq!((status, message.as_str()), (Some(1), ""), "{arguments:?}");
        }
        assert!(!message.contains("panicked"), "{message}");
    }
}

/// What the command prints where the reader is while its input comes in pieces, a pause after each.
fn said(arguments: &[&str], pieces: &[Vec<u8>], pause: Duration, output: [Stdio; 2], mut reader: impl Read + Send) -> String {
    let [stdout, stderr] = output;
    let mut child = Command::new(METER)
        .args(arguments)
        .stdin(Stdio::piped())
        .stdout(stdout)
        .stderr(stderr)
        .spawn()
        .unwrap();
    let mut input = child.stdin.take().unwrap();
    let mut all = Vec::new();
    thread::scope(|scope| {
        // a terminal that its last writer has left ends in an error
        scope.spawn(|| reader.read_to_end(&mut all));
        for piece in pieces {
            input.write_all(piece).unwrap();
            thread::sleep(pause);
        }
        drop(input);
        assert!(child.wait().unwrap().success(), "{arguments:?}");
    });
    text(&all)
}

/// Progress is said on a terminal only, and only if the work takes more than a second; then its line is cleared. What prints its own
/// lines as it goes says none beside them, but `ask` prints only at its end.
#[test]
fn progress() {
    let folder = Folder::new();
    let image = folder.path("image");
    good(&["new", "1", "32", "-o", &image], b"");
    let update = record(b"A", Some(300));
    let feed = [vec![head(1, 32)], update.clone(), update, vec![0x4000_0009]].map(|words| to_bytes(&words));
    let packet = [to_bytes(&[0, 0, 34, 60]), vec![0; 12], vec![8, 0, 0x45], vec![0; 19]].concat();
    let capture = [
        to_bytes(&[0xa1b2_c3d4, 0x0002_0004, 0, 0, 65_535, 1]),
        packet.clone(),
        packet.clone(),
        packet,
    ];
    let lines = |lines: [&str; 4]| lines.map(|line| line.as_bytes().to_vec());
    let text = lines(["meter 1 32\n", "update A 1\n", "ask A\n", "end\n"]);
    let keys = lines(["A\n", "B\n", "C\n", "D\n"]);
    // arguments, input, the unit of progress, and lines if the terminal has them too
    let cases: [(&[&str], _, _, _); 4] = [
        (&["feed"], text, " bytes read", ""),
        (&["feed", "--from-pcap", "-", "--key", "src"], capture, " bytes", ""),
        (&["run"], feed, " records", ""),
        (
            &["ask", &image, "--keys", "-"],
            keys,
            " bytes read",
            "A 0\r\nB 0\r\nC 0\r\nD 0\r\n",
        ),
    ];
    thread::scope(|scope| {
        for (arguments, pieces, unit, lines) in &cases {
            let (at_once, slowly) = (Duration::ZERO, Duration::from_secs(1));
            let on_terminal = move |pause| {
                let (program, reader) = terminal()?;
                let stdout = match *lines {
                    "" => Stdio::null(),
                    _ => program.try_clone().unwrap().into(),
                };
                Some(said(arguments, pieces, pause, [stdout, program.into()], reader))
            };
            scope.spawn(move || match on_terminal(slowly) {
                Some(said) => {
                    let start = format!("\r\x1b[Kmeter {}: ", arguments[0]);
                    assert!(said.starts_with(&start) && said.contains(unit), "{said:?}");
                    assert_eq!(said.rsplit("\r\x1b[K").next(), Some(*lines), "{said:?}");
                }
                None => println!("SKIPPED: no terminal, so progress was not seen"),
            });
            scope.spawn(move || {
                if let Some(said) = on_terminal(at_once) {
                    assert_eq!(said, *lines);
                }
            });
            scope.spawn(move || {
                let (reader, writer) = std::io::pipe().unwrap();
                assert_eq!(said(arguments, pieces, slowly, [Stdio::null(), writer.into()], reader), "");
            });
        }
    });
}

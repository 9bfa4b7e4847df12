//! `meter feed --from-pcap`, on captures built here.

mod common;

use common::{bad, good, meter, text, Folder, Rng};

#[derive(Clone, Copy)]
struct Form {
    high_first: bool,
    nanoseconds: bool,
}

const FORMS: [Form; 4] = [
    Form {
        high_first: true,
        nanoseconds: false,
    },
    Form {
        high_first: true,
        nanoseconds: true,
    },
    Form {
        high_first: false,
        nanoseconds: false,
    },
    Form {
        high_first: false,
        nanoseconds: true,
    },
];

impl Form {
    fn long(self, n: u32) -> [u8; 4] {
        if self.high_first {
            n.to_be_bytes()
        } else {
            n.to_le_bytes()
        }
    }

    fn short(self, n: u16) -> [u8; 2] {
        if self.high_first {
            n.to_be_bytes()
        } else {
            n.to_le_bytes()
        }
    }

    fn head(self, most: u32, link: u32) -> Vec<u8> {
        let magic = if self.nanoseconds { 0xa1b2_3c4d } else { 0xa1b2_c3d4 };
        let mut bytes = self.long(magic).to_vec();
        bytes.extend(self.short(2));
        bytes.extend(self.short(4));
        for n in [0, 0, most, link] {
            bytes.extend(self.long(n));
        }
        bytes
    }

    fn packet(self, frame: &[u8], original: u32) -> Vec<u8> {
        let mut bytes = Vec::new();
        for n in [1_700_000_000, 999_999, frame.len() as u32, original] {
            bytes.extend(self.long(n));
        }
        bytes.extend(frame);
        bytes
    }

    fn capture(self, frames: &[(Vec<u8>, u32)]) -> Vec<u8> {
        let mut bytes = self.head(65_535, 1);
        for (frame, original) in frames {
            bytes.extend(self.packet(frame, *original));
        }
        bytes
    }
}

/// An Ethernet frame: VLAN tags, then what it carries.
fn frame(tags: &[u16], kind: u16, packet: &[u8]) -> Vec<u8> {
    let mut bytes = vec![0xee; 12];
    for tag in tags {
        bytes.extend(tag.to_be_bytes());
        bytes.extend([0x20, 0x07]);
    }
    bytes.extend(kind.to_be_bytes());
    bytes.extend(packet);
    bytes
}

const PORTS: [u8; 4] = [0x04, 0xd2, 0x00, 0x50];

/// An IPv4 packet from 10.0.0.1 to 192.0.2.17 with ports 1234 and 80, or whatever they are, and options of so many words.
fn version4(protocol: u8, fragment: u16, options: usize) -> Vec<u8> {
    let mut bytes = vec![0x45 + options as u8, 0, 0, 60, 0, 1];
    bytes.extend(fragment.to_be_bytes());
    bytes.extend([64, protocol, 0, 0, 10, 0, 0, 1, 192, 0, 2, 17]);
    bytes.extend(vec![1; 4 * options]);
    bytes.extend(PORTS);
    bytes.extend([0; 8]);
    bytes
}

/// An IPv6 packet from 2001:db8::1 to 2001:db8::2 whose first head after its own is of that kind.
fn version6(next: u8, rest: &[u8]) -> Vec<u8> {
    let mut bytes = vec![0x60, 0, 0, 0, 0, 20, next, 64];
    for last in [1, 2] {
        bytes.extend([0x20, 0x01, 0x0d, 0xb8, 0, 0, 0, 0, 0, 0, 0, 0, 0, 0, 0, last]);
    }
    bytes.extend(rest);
    bytes
}

const ADDRESSES6: &str = "20010db800000000000000000000000120010db8000000000000000000000002";

/// The updates of a capture's feed as text.
fn updates(capture: &[u8], key: &str) -> Vec<String> {
    let output = meter(&["feed", "--from-pcap", "-", "--key", key], capture);
    assert!(output.status.success(), "{}", text(&output.stderr));
    let lines = text(&good(&["feed", "--text"], &output.stdout));
    let lines: Vec<&str> = lines.lines().collect();
    assert_eq!((lines[0], lines[lines.len() - 1]), ("meter 4 4096", "end"));
    lines[1..lines.len() - 1]
        .iter()
        .map(|line| line.strip_prefix("update ").unwrap().to_string())
        .collect()
}

/// The flow's key of one frame.
fn flow(bytes: Vec<u8>) -> String {
    let lines = updates(&FORMS[2].capture(&[(bytes, 1500)]), "flow");
    assert_eq!(lines.len(), 1);
    lines[0].strip_suffix(" 1500").unwrap().to_string()
}

#[test]
fn every_form() {
    let frames = [
        (frame(&[], 0x0800, &version4(6, 0, 0)), 1500),
        (frame(&[0x8100], 0x0800, &version4(17, 0, 3)), 4_000_000_000),
        (frame(&[0x88a8, 0x8100], 0x86dd, &version6(6, &PORTS)), 90),
    ];
    for form in FORMS {
        let capture = form.capture(&frames);
        let (v4, v6) = ("0xc0000211", "0x20010db8000000000000000000000002");
        assert_eq!(
            updates(&capture, "dst"),
            [format!("{v4} 1500"), format!("{v4} 4000000000"), format!("{v6} 90")]
        );
        let (v4, v6) = ("0x0a000001", "0x20010db8000000000000000000000001");
        assert_eq!(
            updates(&capture, "src"),
            [format!("{v4} 1500"), format!("{v4} 4000000000"), format!("{v6} 90")]
        );
        assert_eq!(
            updates(&capture, "flow"),
            [
                "0x0a000001c000021104d2005006 1500".to_string(),
                "0x0a000001c000021104d2005011 4000000000".to_string(),
                format!("0x{ADDRESSES6}04d2005006 90")
            ]
        );
    }
}

#[test]
fn flows_of_version_4() {
    let flow = |protocol, fragment| flow(frame(&[], 0x0800, &version4(protocol, fragment, 0)));
    for protocol in [6, 17, 33, 132, 136] {
        assert_eq!(flow(protocol, 0x4000), format!("0x0a000001c000021104d20050{protocol:02x}"));
    }
    // no ports: ICMP, GRE; a first, a middle and a last fragment
    for (protocol, fragment) in [(1, 0), (47, 0), (17, 0x2000), (17, 0x2010), (17, 0x0010)] {
        assert_eq!(flow(protocol, fragment), format!("0x0a000001c000021100000000{protocol:02x}"));
    }
}

#[test]
fn flows_of_version_6() {
    let flow = |next, rest: &[u8]| flow(frame(&[0x9100], 0x86dd, &version6(next, rest)));
    let with = |ports: &str, protocol: u8| format!("0x{ADDRESSES6}{ports}{protocol:02x}");
    assert_eq!(flow(17, &PORTS), with("04d20050", 17));
    assert_eq!(flow(58, &[]), with("00000000", 58));
    assert_eq!(flow(59, &[]), with("00000000", 59));
    assert_eq!(flow(50, &[1, 2, 3, 4]), with("00000000", 50));
    // hop by hop of 16 bytes, routing of 8, destination of 8, authentication of 12, then TCP
    let chain = [
        &[43, 1][..],
        &[0; 14],
        &[60, 0],
        &[0; 6],
        &[51, 0],
        &[0; 6],
        &[6, 1],
        &[0; 10],
        &PORTS,
    ]
    .concat();
    assert_eq!(flow(0, &chain), with("04d20050", 6));
    // fragments: the first, one in the middle, the last, and a packet in one piece
    for (offset, ports) in [(1, "00000000"), (9, "00000000"), (8, "00000000"), (0, "04d20050")] {
        let rest = [&[17, 0, 0, offset, 0, 0, 0, 7][..], &PORTS].concat();
        assert_eq!(flow(44, &rest), with(ports, 17), "offset {offset}");
    }
}

#[test]
fn skipped_packets_are_counted() {
    let whole = frame(&[0x8100], 0x0800, &version4(6, 0, 0));
    let mut frames = vec![(whole.clone(), 1500)];
    // address resolution; a length in place of a kind
    frames.push((frame(&[], 0x0806, &[0; 28]), 42));
    frames.push((frame(&[], 100, &[0; 28]), 114));
    // a head that is not what its kind says, and one that is too short to be
    frames.push((frame(&[], 0x0800, &version6(6, &PORTS)), 99));
    frames.push((frame(&[], 0x86dd, &version4(6, 0, 10)), 99));
    let mut short = version4(6, 0, 0);
    short[0] = 0x44;
    frames.push((frame(&[], 0x0800, &short), 99));
    // captured up to the ports, and up to the address; nothing captured
    frames.push((whole[..14 + 4 + 20].to_vec(), 1500));
    frames.push((whole[..14 + 4 + 19].to_vec(), 1500));
    frames.push((Vec::new(), 1500));
    let capture = FORMS[0].capture(&frames);
    for (key, counted, message) in [
        (
            "src",
            2,
            "meter feed: 7 of 9 packets skipped: 2 not IP, 2 captured too short, 3 malformed\n",
        ),
        (
            "flow",
            1,
            "meter feed: 8 of 9 packets skipped: 2 not IP, 3 captured too short, 3 malformed\n",
        ),
    ] {
        let output = meter(&["feed", "--from-pcap", "-", "--key", key], &capture);
        assert_eq!((output.status.code(), text(&output.stderr).as_str()), (Some(0), message));
        assert_eq!(updates(&capture, key).len(), counted);
    }
}

#[test]
fn geometry_asking_and_lists() {
    let frames = [
        (frame(&[], 0x0800, &version4(6, 0, 0)), 100),
        (frame(&[], 0x86dd, &version6(6, &PORTS)), 70),
        (frame(&[], 0x0800, &version4(17, 0, 0)), 200),
    ];
    let capture = FORMS[3].capture(&frames);
    let from = ["feed", "--from-pcap", "-", "--key", "src"];
    let with = |more: &[&'static str]| [&from[..], more].concat();
    let feed = good(&with(&["--geometry", "2", "64", "--ask"]), &capture);
    let six = "0x20010db8000000000000000000000001";
    assert_eq!(
        text(&good(&["feed", "--text"], &feed)),
        format!("meter 2 64\nupdate 0x0a000001 100\nupdate {six} 70\nupdate 0x0a000001 200\nask 0x0a000001\nask {six}\nend\n")
    );
    assert_eq!(
        text(&good(&["run"], &feed)),
        "geometry 2 64\nupdated\nupdated\nupdated\nestimate 300\nestimate 70\nend 5\n"
    );
    let list = good(&with(&["--list"]), &capture);
    assert_eq!(text(&list), format!("0x0a000001\n{six}\n"));

    // from a capture to addresses by what they sent
    let folder = Folder::new();
    let (keys, image) = (folder.put("keys", &list), folder.path("image"));
    good(&["run", "-o", &image], &feed);
    assert_eq!(
        text(&good(&["ask", &image, "--ip", "--keys", &keys, "--top", "9"], b"")),
        "10.0.0.1 300\n2001:db8::1 70\n"
    );
    assert_eq!(
        text(&good(&["ask", &image, "--ip", "10.0.0.1", "2001:db8::1"], b"")),
        "10.0.0.1 300\n2001:db8::1 70\n"
    );

    // an address whose bytes are letters stays an address
    let mut packet = version4(6, 0, 0);
    packet[12..16].copy_from_slice(b"ABCD");
    let capture = FORMS[0].capture(&[(frame(&[], 0x0800, &packet), 64)]);
    assert_eq!(text(&good(&with(&["--list"]), &capture)), "0x41424344\n");
    good(&["run", "-o", &image], &good(&from, &capture));
    let asked = good(&["ask", &image, "--ip", "--keys", "-"], b"0x41424344\n65.66.67.68\n");
    assert_eq!(text(&asked), "65.66.67.68 64\n65.66.67.68 64\n");
}

#[test]
fn damage_is_refused_with_its_offset() {
    let sound = FORMS[0].capture(&[(frame(&[], 0x0800, &version4(6, 0, 0)), 1500)]);
    let frame_length = sound.len() - 40;
    let refused = |bytes: &[u8], what: &str| {
        let message = bad(&["feed", "--from-pcap", "-", "--key", "src"], bytes, 1);
        let whole = format!("meter feed: standard input: offset {what}");
        assert!(message.starts_with(&whole), "{message} is not {whole}");
    };
    let with = |at: usize, n: u32| {
        let mut bytes = sound.clone();
        bytes[at..at + 4].copy_from_slice(&n.to_be_bytes());
        bytes
    };
    refused(b"", "0: 0 bytes are no capture file");
    refused(&with(0, 0x0a0d_0d0a), "0: the file is pcapng");
    refused(&with(0, 0x1f8b_0800), "0: the file is compressed");
    refused(&with(0, 0xa1b2_cd34), "0: a1b2cd34 is not how a pcap file begins");
    refused(&with(4, 0x0001_0004), "4: the format's version is 1, not 2");
    refused(&with(20, 101), "20: the link type is 101");
    refused(&with(32, 65_536), "32: 65536 captured bytes, and at most 65535 can be");
    refused(&with(36, frame_length as u32 - 1), "32: ");
    refused(&with(32, frame_length as u32 + 1), "24: a packet is cut");
    // no limit in the head is one of 256 KiB
    for most in [0, 0x7fff_ffff] {
        let mut bytes = with(32, 262_145);
        bytes[16..20].copy_from_slice(&u32::to_be_bytes(most));
        refused(&bytes, "32: 262145 captured bytes, and at most 262144 can be");
    }
    // check sums' length beside the link type is no fault
    assert_eq!(updates(&with(20, 0x5400_0001), "src").len(), 1);
}

/// Cut anywhere, a capture is fine between packets and refused elsewhere; nothing is written then.
#[test]
fn every_cut_of_a_capture() {
    let frames = [
        (
            frame(&[0x8100], 0x86dd, &version6(44, &[17, 0, 0, 0, 0, 0, 0, 7, 4, 210, 0, 80])),
            90,
        ),
        (frame(&[], 0x0800, &version4(6, 0, 0)), 1500),
    ];
    let capture = FORMS[2].capture(&frames);
    let ends = [24, 24 + 16 + frames[0].0.len(), capture.len()];
    for cut in 0..=capture.len() {
        let output = meter(&["feed", "--from-pcap", "-", "--key", "flow"], &capture[..cut]);
        let expected = if ends.contains(&cut) { 0 } else { 1 };
        assert_eq!(output.status.code(), Some(expected), "cut at {cut}: {}", text(&output.stderr));
        assert_eq!(output.stdout.is_empty(), expected == 1, "cut at {cut}");
        assert_eq!(text(&output.stderr).contains(": offset "), expected == 1, "cut at {cut}");
    }
}

/// Whatever is changed, the command ends with 0 or 1, and writes a whole feed or nothing.
#[test]
fn changed_bytes() {
    let mut rng = Rng::new("changed_bytes");
    let frames = [
        (
            frame(
                &[0x8100],
                0x86dd,
                &version6(0, &[&[44, 0, 0, 0, 0, 0, 0, 0, 17, 0][..], &[0; 6], &PORTS].concat()),
            ),
            90,
        ),
        (frame(&[], 0x0800, &version4(6, 0, 5)), 1500),
    ];
    let capture = FORMS[1].capture(&frames);
    let (mut taken, mut refused) = (0, 0);
    for at in 0..2 * capture.len() {
        let mut bytes = capture.clone();
        bytes[at / 2] ^= if at % 2 == 0 {
            1 << rng.below(8)
        } else {
            1 + rng.below(255) as u8
        };
        let output = meter(&["feed", "--from-pcap", "-", "--key", "flow"], &bytes);
        match output.status.code() {
            Some(0) => {
                taken += 1;
                good(&["feed", "--text"], &output.stdout);
            }
            Some(1) => {
                refused += 1;
                assert!(output.stdout.is_empty() && text(&output.stderr).contains(": offset "));
            }
            other => panic!("byte {}: {other:?}: {}", at / 2, text(&output.stderr)),
        }
    }
    println!("{taken} captures taken, {refused} refused");
    assert!(taken > 50 && refused > 10);
}

#[test]
fn wrong_usage() {
    for wrong in [
        &["feed", "--from-pcap", "-"][..],
        &["feed", "--from-pcap", "-", "--key", "port"],
        &["feed", "--from-pcap"],
        &["feed", "--key", "src"],
        &["feed", "--from-pcap", "-", "--key", "src", "--text"],
        &["feed", "--from-pcap", "-", "--key", "src", "more"],
        &["feed", "--from-pcap", "-", "--key", "src", "--ask", "--list"],
        &["feed", "--from-pcap", "-", "--key", "src", "--geometry", "4", "100"],
        &["feed", "--from-pcap", "-", "--key", "src", "--geometry", "4"],
    ] {
        bad(wrong, b"", 2);
    }
}

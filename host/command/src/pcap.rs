//! Capture files in the classic pcap format, packet by packet.

use crate::cli::{refused, Failure, Outcome};
use crate::files::Input;
use std::io::{BufReader, Read};

/// What no packet is longer than, whatever the file's head says.
const MOST: u32 = 256 * 1024;

const ETHERNET: u32 = 1;

/// Captured bytes and the length that the packet had on the wire.
pub struct Packet<'a> {
    pub bytes: &'a [u8],
    pub original: u32,
}

/// A capture file that is being read.
pub struct Capture {
    input: BufReader<Input>,
    name: String,
    length: Option<u64>,
    /// The offset of the next byte.
    at: u64,
    high_first: bool,
    /// The most bytes that a packet may have here.
    most: u32,
    packet: Vec<u8>,
}

impl Capture {
    /// Reads the head of a capture file.
    pub fn open(input: Input) -> Outcome<Capture> {
        let mut capture = Capture {
            name: input.name.clone(),
            length: input.length,
            input: BufReader::with_capacity(1 << 16, input),
            at: 0,
            high_first: true,
            most: MOST,
            packet: Vec::new(),
        };
        let mut head = [0; 24];
        let n = capture.fill(&mut head)?;
        if n < 4 {
            return Err(capture.damage(0, format_args!("{n} bytes are no capture file")));
        }
        let [a, b, c, d, ..] = head;
        capture.high_first = match [a, b, c, d] {
            // microseconds, nanoseconds
            [0xa1, 0xb2, 0xc3, 0xd4] | [0xa1, 0xb2, 0x3c, 0x4d] => true,
            [0xd4, 0xc3, 0xb2, 0xa1] | [0x4d, 0x3c, 0xb2, 0xa1] => false,
            [0x0a, 0x0d, 0x0d, 0x0a] => {
                return Err(capture.damage(0, "the file is pcapng; only classic pcap is read (editcap -F pcap makes it)"))
            }
            [0x1f, 0x8b, _, _] => return Err(capture.damage(0, "the file is compressed by gzip; unpack it first")),
            _ => return Err(capture.damage(0, format_args!("{a:02x}{b:02x}{c:02x}{d:02x} is not how a pcap file begins"))),
        };
        if n < head.len() {
            return Err(capture.damage(n as u64, format_args!("the file's head of {} bytes is cut", head.len())));
        }
        let major = capture.long(&head[4..6]);
        if major != 2 {
            return Err(capture.damage(4, format_args!("the format's version is {major}, not 2")));
        }
        let most = capture.long(&head[16..20]);
        // 0 and huge numbers stand for no limit
        if most != 0 && most < MOST {
            capture.most = most;
        }
        // the top six bits are about check sums
        let link = capture.long(&head[20..24]) & 0x03ff_ffff;
        if link != ETHERNET {
            return Err(capture.damage(20, format_args!("the link type is {link}; only Ethernet, 1, is read")));
        }
        Ok(capture)
    }

    /// The offset up to which the file was read, and its length if it has one.
    pub fn position(&self) -> (u64, Option<u64>) {
        (self.at, self.length)
    }

    /// The next packet, if there is one.
    pub fn next(&mut self) -> Outcome<Option<Packet<'_>>> {
        let start = self.at;
        let mut head = [0; 16];
        let n = self.fill(&mut head)?;
        if n == 0 {
            return Ok(None);
        }
        if n < head.len() {
            return Err(self.damage(start, format_args!("a packet's head is cut: {n} bytes of {}", head.len())));
        }
        let captured = self.long(&head[8..12]);
        let original = self.long(&head[12..16]);
        if captured > self.most {
            let most = self.most;
            return Err(self.damage(
                start + 8,
                format_args!("{captured} captured bytes, and at most {most} can be"),
            ));
        }
        if captured > original {
            return Err(self.damage(start + 8, format_args!("{captured} captured bytes of a packet of {original}")));
        }
        let mut packet = std::mem::take(&mut self.packet);
        packet.resize(captured as usize, 0);
        let n = self.fill(&mut packet)?;
        self.packet = packet;
        if n < self.packet.len() {
            return Err(self.damage(start, format_args!("a packet is cut: {n} bytes of {captured}")));
        }
        Ok(Some(Packet {
            bytes: &self.packet,
            original,
        }))
    }

    /// As many bytes as there is room for, fewer only at the end.
    fn fill(&mut self, room: &mut [u8]) -> Outcome<usize> {
        let mut n = 0;
        while n < room.len() {
            match self.input.read(&mut room[n..]) {
                Ok(0) => break,
                Ok(more) => n += more,
                Err(error) => return refused(format_args!("{}: {error}", self.name)),
            }
        }
        self.at += n as u64;
        Ok(n)
    }

    /// A number of up to four bytes in the file's byte order.
    fn long(&self, bytes: &[u8]) -> u32 {
        let add = |n: u32, byte: &u8| n << 8 | u32::from(*byte);
        if self.high_first {
            bytes.iter().fold(0, add)
        } else {
            bytes.iter().rev().fold(0, add)
        }
    }

    fn damage(&self, offset: u64, what: impl std::fmt::Display) -> Failure {
        Failure::Refused(format!("{}: offset {offset}: {what}", self.name))
    }
}

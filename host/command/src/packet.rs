//! The key of an Ethernet frame: an address of its IP packet, or the five parts of its flow.

use crate::words::Key;

/// Which part of a packet is its key.
#[derive(Clone, Copy, Debug, PartialEq, Eq)]
pub enum By {
    Source,
    Destination,
    Flow,
}

/// Why a packet has no key.
#[derive(Clone, Copy, Debug, PartialEq, Eq)]
pub enum Skip {
    /// Neither IPv4 nor IPv6.
    NotIp,
    /// So few bytes were captured that the key is not among them.
    Short,
    /// It says it is IP and its head is not.
    Malformed,
}

const VLAN: [u32; 4] = [0x8100, 0x88a8, 0x9100, 0x9200];
const IPV4: u32 = 0x0800;
const IPV6: u32 = 0x86dd;

/// TCP, UDP, DCCP, SCTP, UDP-Lite: ports in the first four bytes.
const WITH_PORTS: [u8; 5] = [6, 17, 33, 132, 136];

// IPv6's heads that another head may follow, and the one of fragments.
const HOP_BY_HOP: u8 = 0;
const ROUTING: u8 = 43;
const FRAGMENT: u8 = 44;
const AUTHENTICATION: u8 = 51;
const DESTINATION: u8 = 60;
const MOBILITY: u8 = 135;
const HOST_IDENTITY: u8 = 139;
const SHIM: u8 = 140;

fn part(bytes: &[u8], at: usize, n: usize) -> Result<&[u8], Skip> {
    bytes.get(at..).and_then(|rest| rest.get(..n)).ok_or(Skip::Short)
}

fn two(bytes: &[u8], at: usize) -> Result<u32, Skip> {
    let two = part(bytes, at, 2)?;
    Ok(u32::from(two[0]) << 8 | u32::from(two[1]))
}

/// The key of a frame.
pub fn key(frame: &[u8], by: By) -> Result<Key, Skip> {
    let mut at = 12;
    let mut kind = two(frame, at)?;
    while VLAN.contains(&kind) {
        at += 4;
        kind = two(frame, at)?;
    }
    let packet = &frame[at + 2..];
    let bytes = match kind {
        IPV4 => version4(packet, by)?,
        IPV6 => version6(packet, by)?,
        _ => return Err(Skip::NotIp),
    };
    Key::new(&bytes).ok_or(Skip::Malformed)
}

fn flow(addresses: &[u8], ports: [u8; 4], protocol: u8) -> Vec<u8> {
    [addresses, &ports, &[protocol]].concat()
}

/// The ports of a protocol's head that starts there; 0 where it has none.
fn ports(packet: &[u8], at: usize, protocol: u8) -> Result<[u8; 4], Skip> {
    if !WITH_PORTS.contains(&protocol) {
        return Ok([0; 4]);
    }
    let four = part(packet, at, 4)?;
    Ok([four[0], four[1], four[2], four[3]])
}

fn version4(packet: &[u8], by: By) -> Result<Vec<u8>, Skip> {
    let head = part(packet, 0, 20)?;
    let length = usize::from(head[0] & 15) * 4;
    if head[0] >> 4 != 4 || length < 20 {
        return Err(Skip::Malformed);
    }
    match by {
        By::Source => return Ok(head[12..16].to_vec()),
        By::Destination => return Ok(head[16..20].to_vec()),
        By::Flow => {}
    }
    let protocol = head[9];
    // Only the first of a packet's fragments has ports, and all of them are to have one key.
    let fragment = two(head, 6)? & 0x3fff != 0;
    let ports = if fragment { [0; 4] } else { ports(packet, length, protocol)? };
    Ok(flow(&head[12..20], ports, protocol))
}

fn version6(packet: &[u8], by: By) -> Result<Vec<u8>, Skip> {
    let head = part(packet, 0, 40)?;
    if head[0] >> 4 != 6 {
        return Err(Skip::Malformed);
    }
    let addresses = &head[8..40];
    match by {
        By::Source => return Ok(addresses[..16].to_vec()),
        By::Destination => return Ok(addresses[16..].to_vec()),
        By::Flow => {}
    }
    let mut next = head[6];
    let mut at = 40;
    loop {
        let length = match next {
            HOP_BY_HOP | ROUTING | DESTINATION | MOBILITY | HOST_IDENTITY | SHIM => {
                (usize::from(part(packet, at, 2)?[1]) + 1) * 8
            }
            AUTHENTICATION => (usize::from(part(packet, at, 2)?[1]) + 2) * 4,
            FRAGMENT => {
                let fragment = part(packet, at, 8)?;
                // offset or more to come; a packet in one piece goes on
                if two(fragment, 2)? & 0xfff9 != 0 {
                    return Ok(flow(addresses, [0; 4], fragment[0]));
                }
                8
            }
            protocol => return Ok(flow(addresses, ports(packet, at, protocol)?, protocol)),
        };
        next = part(packet, at, 1)?[0];
        at += length;
    }
}

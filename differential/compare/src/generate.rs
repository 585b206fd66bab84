//! Random cases around every limit.

use crate::case::{Case, Kind, NETWORKS};
use crate::rng::Rng;
use crate::rust::{self, compact_size};
use crate::stream::{HELD_OVER, SHORT_OUTPUT, SHORT_STORE};

/// Where a number or a compact size changes its form.
pub const EDGES: [u64; 11] = [
    0,
    1,
    252,
    253,
    255,
    256,
    65_535,
    65_536,
    u32::MAX as u64,
    1 << 32,
    u64::MAX,
];

/// Counted lists, from type 5 on: the type, an item's width, the bytes after the list, and the limit.
pub const LISTS: [(u8, usize, usize, u64); 7] = [
    (5, 88, 0, 1_000),
    (6, 36, 0, 50_000),
    (7, 36, 0, 50_000),
    (8, 36, 0, 50_000),
    (9, 32, 32, 50_000),
    (10, 32, 32, 50_000),
    (11, 236, 0, 2_000),
];

/// Payload lengths that a header may say.
const LENGTHS: [u32; 6] = [0, 1, 7_999_999, 8_000_000, 8_000_001, u32::MAX];

pub fn case(rng: &mut Rng, kind: Kind) -> Case {
    let case = match kind {
        Kind::ReadU8 | Kind::ReadU16 | Kind::ReadU32 | Kind::ReadU64 | Kind::Finish => {
            plain(rng, kind)
        }
        Kind::CompactSize | Kind::CompactUsize | Kind::Varbytes => counted(rng, kind),
        Kind::Slice | Kind::Bounded => sliced(rng, kind),
        Kind::CompactSizes => sizes(rng),
        Kind::Reads => reads(rng),
        Kind::Puts => puts(rng),
        Kind::HeaderDecode | Kind::HeaderRead | Kind::HeaderPut => header(rng, kind),
        Kind::FramePrefix | Kind::FrameExact => front(rng, kind),
        Kind::Row => row(rng),
        Kind::Card => Case::new(kind, Vec::new(), &[rng.below(256)]),
        Kind::FrameEncode => written(rng),
        Kind::Stream | Kind::OwnedStream => stream(rng, kind),
        Kind::Write | Kind::OwnedFields => {
            let rest = if rng.one_in(2) { rng.below(236) } else { 0 };
            let numbers = [fields_type(rng), rng.next(), rng.below(5), rest];
            Case::new(kind, Vec::new(), &numbers)
        }
        Kind::Packet | Kind::Item | Kind::Find | Kind::Rewrite => packet(rng, kind),
        Kind::OwnedPacket => packet(rng, kind),
        Kind::Rights => sent(rng),
        Kind::OwnedFrame => packet(rng, kind).on(rng.index(NETWORKS.len())),
    };
    // The network of a case with frames is the one that they were made for, or another.
    let wrong = rng.one_in(40);
    let network = if wrong { rng.index(4) } else { case.network };
    case.on(network)
}

/// A number at an edge or beside it, or any of some width.
fn edge(rng: &mut Rng) -> u64 {
    match rng.below(4) {
        0 => rng.next() >> rng.below(64),
        _ => rng.pick(&EDGES).wrapping_add(rng.below(3)).wrapping_sub(1),
    }
}

/// A length that is one short of, exactly, or one over another.
fn around(rng: &mut Rng, n: usize) -> usize {
    (n + rng.index(3)).saturating_sub(1)
}

fn place(rng: &mut Rng, n: usize) -> u64 {
    match rng.below(4) {
        0 => 0,
        1 => n as u64,
        _ => rng.below(n as u64 + 1),
    }
}

fn plain(rng: &mut Rng, kind: Kind) -> Case {
    let n = rng.index(18);
    let bytes = rng.bytes(n);
    let place = place(rng, n);
    Case::new(kind, bytes, &[place])
}

/// A compact size in one of its four forms, shortest or not, whole or cut.
fn compact(rng: &mut Rng) -> Vec<u8> {
    let value = edge(rng);
    let all = value.to_le_bytes();
    let shortest = match value {
        0..=252 => 0,
        253..=0xffff => 1,
        0x1_0000..=0xffff_ffff => 2,
        _ => 3,
    };
    let form = if rng.one_in(4) {
        rng.index(4)
    } else {
        shortest
    };
    let mut bytes = match form {
        0 => vec![value as u8],
        1 => [&[0xfd], &all[..2]].concat(),
        2 => [&[0xfe], &all[..4]].concat(),
        _ => [&[0xff], &all[..]].concat(),
    };
    if rng.one_in(5) {
        bytes.truncate(rng.index(bytes.len() + 1));
    }
    bytes
}

/// A compact size at a place, bytes after it, and a limit beside its value.
fn counted(rng: &mut Rng, kind: Kind) -> Case {
    let start = rng.index(4);
    let mut bytes = rng.bytes(start);
    let size = compact(rng);
    bytes.extend_from_slice(&size);
    let value = hns_encoding::Decoder::new(&size).read_compact_size();
    let value = value.unwrap_or_else(|_| edge(rng));
    let after = around(rng, (value as usize).min(700));
    let after = if rng.one_in(8) { rng.index(40) } else { after };
    bytes.extend_from_slice(&rng.bytes(after));
    let limit = match rng.below(4) {
        0 => edge(rng),
        1 => value.saturating_sub(1),
        2 => value.saturating_add(1),
        _ => value,
    };
    Case::new(kind, bytes, &[start as u64, limit])
}

fn sliced(rng: &mut Rng, kind: Kind) -> Case {
    let n = rng.index(80);
    let bytes = rng.bytes(n);
    let at = place(rng, n);
    let length = match rng.below(6) {
        0 => edge(rng),
        _ => around(rng, n - at as usize) as u64,
    };
    let maximum = match rng.below(3) {
        0 => edge(rng),
        _ => around(rng, length.min(1 << 40) as usize) as u64,
    };
    Case::new(kind, bytes, &[at, length, maximum])
}

/// Compact sizes one after another, most of them good, and room for some, all or more.
fn sizes(rng: &mut Rng) -> Case {
    let start = rng.index(3);
    let mut bytes = rng.bytes(start);
    let n = rng.index(30);
    let mut encoder = hns_encoding::Encoder::new();
    (0..n).for_each(|_| encoder.put_compact_size(edge(rng)));
    bytes.extend_from_slice(&encoder.into_bytes());
    if rng.one_in(3) {
        bytes.extend_from_slice(&compact(rng));
    }
    if rng.one_in(4) {
        damage(rng, &mut bytes);
    }
    let room = around(rng, n) + rng.index(3);
    Case::new(Kind::CompactSizes, bytes, &[start as u64, room as u64])
}

fn reads(rng: &mut Rng) -> Case {
    let mut bytes = Vec::new();
    for _ in 0..rng.index(12) {
        let more = if rng.one_in(2) {
            compact(rng)
        } else {
            let n = rng.index(40);
            rng.bytes(n)
        };
        bytes.extend_from_slice(&more);
    }
    let n = 1 + rng.index(12);
    let numbers: Vec<u64> = (0..n)
        .map(|_| {
            let limits = [rng.below(20), rng.below(300), rng.below(65_536)];
            let (a, b) = (rng.pick(&limits), rng.pick(&limits));
            // `finish` ends a sequence, so it is rare.
            let kind = if rng.one_in(20) { 9 } else { rng.below(9) };
            (kind + 10 * rng.below(20)) | (a << 8) | (b << 24)
        })
        .collect();
    Case::new(Kind::Reads, bytes, &numbers)
}

fn puts(rng: &mut Rng) -> Case {
    let pool = if rng.one_in(30) { 66_000 } else { 300 };
    let n = rng.index(pool);
    let bytes = rng.bytes(n);
    let mut numbers = vec![rng.below(20), 0];
    let mut length = numbers[0];
    for _ in 0..1 + rng.index(8) {
        let put = rng.below(7);
        let value = if put < 5 { edge(rng) } else { place(rng, n) };
        length += if put < 5 { 9 } else { value };
        numbers.extend_from_slice(&[put, value]);
    }
    numbers[1] = match rng.below(3) {
        0 => rng.below(length + 1),
        _ => length + rng.below(16),
    };
    Case::new(Kind::Puts, bytes, &numbers)
}

fn header(rng: &mut Rng, kind: Kind) -> Case {
    let start = if kind == Kind::HeaderRead {
        rng.index(300)
    } else {
        0
    };
    let size = match rng.below(4) {
        _ if kind == Kind::HeaderPut => 236,
        0 => around(rng, 236),
        1 => rng.index(500),
        _ => 236,
    };
    let bytes = rng.bytes(start + size);
    let (at, room) = (rng.below(40), rng.below(400));
    let at = if kind == Kind::HeaderRead {
        start as u64
    } else {
        at
    };
    Case::new(kind, bytes, &[at, room])
}

fn type_byte(rng: &mut Rng) -> u8 {
    if rng.one_in(3) {
        rng.next() as u8
    } else {
        rng.index(32) as u8
    }
}

fn payload_length(rng: &mut Rng) -> usize {
    match rng.below(40) {
        0 => rng.index(6000),
        1..=4 => rng.index(600),
        5..=12 => rng.index(64),
        13..=20 => 8,
        _ => rng.index(3),
    }
}

/// A header that says a length.
fn said(network: usize, packet_type: u8, length: u32) -> Vec<u8> {
    let magic = rust::NETWORKS[network].as_u32().to_le_bytes();
    [&magic[..], &[packet_type], &length.to_le_bytes()].concat()
}

pub fn frame(rng: &mut Rng, network: usize, length: usize) -> Vec<u8> {
    let mut bytes = said(network, type_byte(rng), length as u32);
    bytes.extend_from_slice(&rng.bytes(length));
    bytes
}

/// Flips a bit, drops or adds a byte, or cuts.
fn damage(rng: &mut Rng, bytes: &mut Vec<u8>) {
    if bytes.is_empty() {
        return;
    }
    let at = rng.index(bytes.len());
    match rng.below(4) {
        0 => bytes[at] ^= 1 << rng.below(8),
        1 => drop(bytes.remove(at)),
        2 => bytes.insert(at, rng.next() as u8),
        _ => bytes.truncate(at),
    }
}

fn front(rng: &mut Rng, kind: Kind) -> Case {
    let network = rng.index(NETWORKS.len());
    let length = payload_length(rng).min(400);
    let mut bytes = frame(rng, network, length);
    match rng.below(6) {
        0 => bytes.truncate(around(rng, 9)),
        1 => bytes.truncate(around(rng, 9 + length)),
        2 => bytes[5..9].copy_from_slice(&rng.pick(&LENGTHS).to_le_bytes()),
        3 => damage(rng, &mut bytes),
        4 => {
            let more = rng.index(12);
            bytes.extend_from_slice(&rng.bytes(more));
        }
        _ => {}
    }
    let numbers = [bytes.get(4).copied().unwrap_or(0).into(), rng.below(4)];
    Case::new(kind, bytes, &numbers).on(network)
}

/// Bytes for calls of every kind: a frame or a payload, and a type and a place. Longer ones show
/// nothing more, and each is asked about many times.
fn row(rng: &mut Rng) -> Case {
    if rng.one_in(3) {
        return front(rng, Kind::Row);
    }
    let mut case = packet(rng, Kind::Row);
    case.bytes.truncate(1000);
    case.on(rng.index(NETWORKS.len()))
}

fn written(rng: &mut Rng) -> Case {
    let n = payload_length(rng).min(700);
    let bytes = rng.bytes(n);
    let room = match rng.below(3) {
        0 => around(rng, 9 + n),
        1 => rng.index(9 + n),
        _ => 9 + n + rng.index(20),
    };
    let numbers = [type_byte(rng).into(), room as u64];
    Case::new(Kind::FrameEncode, bytes, &numbers).on(rng.index(NETWORKS.len()))
}

/// Mixed frames, sometimes damaged, in random chunks, with pushes that are turned away between.
fn stream(rng: &mut Rng, kind: Kind) -> Case {
    let network = rng.index(NETWORKS.len());
    let mut bytes = Vec::new();
    let frames = if rng.one_in(50) {
        rng.index(400)
    } else {
        rng.index(12)
    };
    for _ in 0..frames {
        let length = payload_length(rng);
        bytes.extend_from_slice(&frame(rng, network, length));
    }
    if rng.one_in(4) {
        damage(rng, &mut bytes);
    }
    if rng.one_in(6) {
        let length = rng.pick(&LENGTHS);
        bytes.extend_from_slice(&said(network, type_byte(rng), length));
        let more = rng.index(30);
        bytes.extend_from_slice(&rng.bytes(more));
    }
    let numbers = chunks(rng, bytes.len());
    Case::new(kind, bytes, &numbers).on(network)
}

fn chunks(rng: &mut Rng, total: usize) -> Vec<u64> {
    let size = rng.pick(&[1, 3, 9, 10, 40, 300, 4096]);
    let mut numbers = Vec::new();
    let mut left = total;
    while left > 0 && numbers.len() < 600 {
        let n = rng.index(2 * size).min(left);
        if rng.one_in(24) {
            numbers.push(n as u64 | rng.pick(&[SHORT_OUTPUT, SHORT_STORE, HELD_OVER]));
        }
        numbers.push(n as u64);
        left -= n;
    }
    numbers
}

/// A type that is not carried; half of the time one with fields that can be bad.
fn fields_type(rng: &mut Rng) -> u64 {
    if rng.one_in(2) {
        return rng.pick(&[0, 5, 6, 9, 11, 15, 24]);
    }
    match rng.below(31) {
        13 | 14 | 23 | 25 | 27 => 30 + rng.below(226),
        other => other,
    }
}

fn packet(rng: &mut Rng, kind: Kind) -> Case {
    let packet_type = match kind {
        _ if rng.one_in(12) => rng.below(256) as u8,
        Kind::Item => rng.pick(&[5, 6, 7, 8, 9, 10, 11, 24]) as u8,
        Kind::Find => rng.pick(&[6, 7, 8]) as u8,
        _ => rng.below(30) as u8,
    };
    let mut bytes = payload(rng, packet_type);
    match rng.below(8) {
        0 => damage(rng, &mut bytes),
        1 => bytes.truncate(rng.index(bytes.len() + 1)),
        2 => {
            let n = 1 + rng.index(3);
            let more = rng.bytes(n);
            bytes.extend_from_slice(&more);
        }
        _ => {}
    }
    // Room for what is put out, or the place of an item.
    let second = match kind {
        Kind::Rewrite if rng.one_in(8) => around(rng, bytes.len()),
        Kind::Rewrite => bytes.len() + rng.index(9),
        Kind::Packet if rng.one_in(4) => rng.index(256),
        Kind::Packet => 255 + rng.index(3),
        _ if rng.one_in(20) => edge(rng) as usize,
        _ => rng.index(6),
    };
    // Whether the room for all items is one short; or which hash is looked for.
    let third = match kind {
        Kind::Find if rng.one_in(2) => rng.below(260 + bytes.len().min(200) as u64),
        Kind::Find => 0,
        _ => rng.below(2),
    };
    let numbers = [u64::from(packet_type), second as u64, third];
    Case::new(kind, bytes, &numbers)
}

/// A payload, and a role and a mask for it.
fn sent(rng: &mut Rng) -> Case {
    let mut case = packet(rng, Kind::Rights);
    case.numbers[1] = rng.next();
    case.numbers[2] = rng.next() & rng.next();
    case
}

/// A payload that most often reads as a packet of the type.
pub fn payload(rng: &mut Rng, packet_type: u8) -> Vec<u8> {
    match packet_type {
        0 => version(rng),
        1 | 4 | 12 | 16 | 19 => Vec::new(),
        2 | 3 | 21 => rng.bytes(8),
        5..=11 => list(rng, LISTS[usize::from(packet_type) - 5]),
        15 => reject(rng),
        22 => rng.bytes(9),
        24 => requested(rng),
        26 => rng.bytes(64),
        _ => {
            let n = rng.index(80);
            rng.bytes(n)
        }
    }
}

/// A length byte and as many bytes, some of them over 127.
fn text(rng: &mut Rng) -> Vec<u8> {
    let n = match rng.below(6) {
        0 => 0,
        1 => 255,
        _ => rng.index(40),
    };
    let mut bytes = vec![n as u8];
    bytes.extend_from_slice(&rng.bytes(n));
    bytes
}

fn version(rng: &mut Rng) -> Vec<u8> {
    let mut bytes = rng.bytes(116);
    if rng.one_in(2) {
        bytes[36] = 0;
    }
    let agent = text(rng);
    bytes.extend_from_slice(&agent);
    bytes.extend_from_slice(&rng.bytes(4));
    bytes.push(rng.below(4) as u8);
    bytes
}

fn reject(rng: &mut Rng) -> Vec<u8> {
    let message = rng.pick(&[13, 14, 28, 29, 0, 12, 15, 27, 30, 255]) as u8;
    let mut bytes = vec![message, rng.below(256) as u8];
    let reason = text(rng);
    bytes.extend_from_slice(&reason);
    if matches!(message, 13 | 14 | 28 | 29) != rng.one_in(16) {
        bytes.extend_from_slice(&rng.bytes(32));
    }
    bytes
}

/// A count, most often as many items, and so many bytes after them.
fn list(rng: &mut Rng, (_, width, after, limit): (u8, usize, usize, u64)) -> Vec<u8> {
    let count = match rng.below(40) {
        0 => limit + rng.below(3) - 1,
        1 => rng.pick(&[252, 253, 254]),
        2 => edge(rng),
        _ => rng.below(5),
    };
    let mut bytes = if rng.one_in(30) {
        compact(rng)
    } else {
        compact_size(count)
    };
    let items = if count <= limit && (count < 300 || rng.one_in(4)) {
        count as usize * width + after
    } else {
        rng.index(200)
    };
    bytes.extend_from_slice(&rng.bytes(items));
    bytes
}

/// A hash and differences, whose sums pass 65,535 here and there; every other list is calm, so that
/// long ones read too.
fn requested(rng: &mut Rng) -> Vec<u8> {
    let mut bytes = rng.bytes(32);
    let count = match rng.below(40) {
        0 => 16_661 + rng.below(3),
        1 => edge(rng),
        2..=7 => rng.below(70),
        _ => rng.below(6),
    };
    bytes.extend_from_slice(&compact_size(count));
    let calm = rng.one_in(2);
    for _ in 0..count.min(16_663) {
        let difference = match rng.below(120) {
            _ if calm => compact_size(rng.below(3)),
            0..=2 => compact_size(edge(rng)),
            3..=5 => compact_size(65_534 + rng.below(3)),
            6..=11 => compact_size(250 + rng.below(8)),
            12..=13 => compact(rng),
            _ => compact_size(rng.below(3)),
        };
        bytes.extend_from_slice(&difference);
    }
    if rng.one_in(20) {
        bytes.truncate(32);
        bytes.extend_from_slice(&compact(rng));
    }
    bytes
}

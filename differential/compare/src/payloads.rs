//! Payloads, where every input of some form can be asked: short ones, cuts and changes of one that
//! reads, counts, hashes to find, and lists to write.

use crate::case::{Case, Kind};
use crate::generate::{self, LISTS};
use crate::packets;
use crate::rng::Rng;

pub fn all(short: bool, run: &mut impl FnMut(&Case)) {
    let mut rng = Rng::new(2);
    for packet_type in 0..=255 {
        of_two_bytes(short, packet_type, run);
        let good = good(&mut rng, packet_type);
        cuts(packet_type, &good, run);
        let named = packet_type < 30;
        let most = if short && !named { 4 } else { good.len() };
        changes(packet_type, &good, most, run);
    }
    counts(short, run);
    finds(run);
    rests(run);
}

/// A payload of a type by every question about packets.
pub fn ask_all(packet_type: u8, bytes: &[u8], run: &mut impl FnMut(&Case)) {
    let questions = [
        (Kind::Rewrite, bytes.len() as u64),
        (Kind::Packet, 255),
        (Kind::Item, 0),
        (Kind::Find, 0),
        (Kind::OwnedPacket, 0),
        (Kind::OwnedFrame, 0),
        // The role goes round with the length.
        (Kind::Rights, bytes.len() as u64),
    ];
    let mut case = Case::new(Kind::Packet, bytes.to_vec(), &[packet_type.into(), 0]);
    for (kind, second) in questions {
        case.kind = kind;
        case.numbers[1] = second;
        run(&case);
    }
}

/// All of up to two bytes; in the short run the second is at most 3.
fn of_two_bytes(short: bool, packet_type: u8, run: &mut impl FnMut(&Case)) {
    let last = if short { 3 } else { 255 };
    ask_all(packet_type, &[], run);
    for a in 0..=255 {
        ask_all(packet_type, &[a], run);
        for b in 0..=last {
            ask_all(packet_type, &[a, b], run);
        }
    }
}

/// A payload that reads, with two items in a list, a text and a hash where the type can have them; of
/// at most three headers, and so short enough for all its changes.
fn good(rng: &mut Rng, packet_type: u8) -> Vec<u8> {
    let mut payloads = std::iter::repeat_with(|| generate::payload(rng, packet_type));
    let full = |payload: &Vec<u8>| {
        let packet = packets::decode(packet_type, payload);
        let full = packet.is_ok_and(|packet| match packet_type {
            0 => !packets::words(&packet).is_empty(),
            5..=11 | 24 => packets::rust_item(&packet, 1).is_ok(),
            15 => !packets::words(&packet).is_empty() && packets::rust_seen(&packet).0[2] == 1,
            1 | 4 | 12 | 16 | 19 => true,
            _ => !payload.is_empty(),
        });
        full && payload.len() <= 710
    };
    payloads.find(full).expect("many are such")
}

/// All cuts, and the rows of each.
fn cuts(packet_type: u8, good: &[u8], run: &mut impl FnMut(&Case)) {
    for cut in 0..=good.len() {
        ask_all(packet_type, &good[..cut], run);
        let numbers = [packet_type.into(), cut as u64 % 3];
        run(&Case::new(Kind::Row, good[..cut].to_vec(), &numbers));
    }
}

/// All changes in one of so many bytes.
fn changes(packet_type: u8, good: &[u8], most: usize, run: &mut impl FnMut(&Case)) {
    let mut bytes = good.to_vec();
    for at in 0..good.len().min(most) {
        for byte in 0..=255 {
            bytes[at] = byte;
            ask_all(packet_type, &bytes, run);
        }
        bytes[at] = good[at];
    }
}

/// Lists of every type that has one: every first byte of the count with every length of what follows,
/// up to a byte over two items, in the short run over one, and what stands after them.
fn counts(short: bool, run: &mut impl FnMut(&Case)) {
    let mut rng = Rng::new(3);
    for (packet_type, width, after, _) in LISTS.into_iter().chain([(24, 3, 0, 0)]) {
        let front = if packet_type == 24 { 32 } else { 0 };
        let items = if short { 1 } else { 2 };
        let longest = items * width + after + 1;
        let bytes = rng.bytes(front + 1 + longest);
        for count in 0..=255 {
            for length in 0..=longest {
                let mut payload = bytes[..front + 1 + length].to_vec();
                payload[front] = count;
                ask_all(packet_type, &payload, run);
            }
        }
    }
}

/// Inventories of a few items, the last of three or more being the first again: the hash of each and
/// of none, with each bit changed, and all bytes of the payload that stand together.
fn finds(run: &mut impl FnMut(&Case)) {
    let mut rng = Rng::new(4);
    for packet_type in 6..=8 {
        for count in [0, 1, 2, 3, 9] {
            let mut bytes = [vec![count as u8], rng.bytes(count * 36)].concat();
            if count > 2 {
                bytes.copy_within(1..37, 1 + (count - 1) * 36);
            }
            let mut case = Case::new(Kind::Find, bytes, &[packet_type, 0, 0]);
            for place in 0..=count {
                for other in 0..=257 + count * 36 {
                    case.numbers[1] = place as u64;
                    case.numbers[2] = other as u64;
                    run(&case);
                }
            }
        }
    }
}

/// Lists to write with every number of bytes after their last whole item.
fn rests(run: &mut impl FnMut(&Case)) {
    for (packet_type, width) in [
        (5, 67),
        (6, 36),
        (7, 36),
        (8, 36),
        (9, 32),
        (10, 32),
        (11, 236),
    ] {
        for rest in 0..width {
            for seed in 0..8 {
                let numbers = [packet_type, seed, seed % 3, rest];
                run(&Case::new(Kind::Write, Vec::new(), &numbers));
            }
        }
    }
}

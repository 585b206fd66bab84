//! The large limits: payloads of 8,000,000, held counts of 8,000,008, streams of 16,000,018.

use crate::card;
use crate::case::{Case, Kind, NETWORKS};
use crate::generate::{LISTS, frame};
use crate::payloads::ask_all;
use crate::rng::Rng;
use crate::rust::compact_size;

const PAYLOAD: usize = 8_000_000;
const WHOLE: usize = 9 + PAYLOAD;
const STREAM: usize = 2 * WHOLE;

/// On so many networks, from one that the seed says on.
pub fn all(rng: &mut Rng, networks: usize, run: &mut impl FnMut(&Case)) {
    let first = rng.index(NETWORKS.len());
    for i in 0..networks {
        let network = (first + i) % NETWORKS.len();
        single(rng, network, run);
        pushed(rng, network, run);
        over(rng, network, run);
    }
    lists(rng, run);
    payloads(rng, run);
    for packet_type in 0..=255 {
        run(&Case::new(Kind::Card, Vec::new(), &[packet_type]));
    }
}

/// Lists at their limit, one item below and one over; items at both ends and past them, and hashes.
fn lists(rng: &mut Rng, run: &mut impl FnMut(&Case)) {
    for (packet_type, width, after, limit) in LISTS {
        for count in [limit - 1, limit, limit + 1] {
            let items = rng.bytes(count as usize * width + after);
            let payload = [compact_size(count), items].concat();
            asked(packet_type, &payload, count, run);
        }
    }
    for count in [16_661, 16_662, 16_663] {
        let differences = vec![rng.below(3) as u8; count as usize];
        let payload = [rng.bytes(32), compact_size(count), differences].concat();
        asked(24, &payload, count, run);
    }
    // The most differences of three bytes, and one more, which passes 65,535.
    for long in [193, 194] {
        asked(24, &card::requested(long), 16_662, run);
    }
}

fn asked(packet_type: u8, bytes: &[u8], count: u64, run: &mut impl FnMut(&Case)) {
    ask_all(packet_type, bytes, run);
    let mut ask = |kind: Kind, second: u64, third: u64| {
        let numbers = [packet_type.into(), second, third];
        run(&Case::new(kind, bytes.to_vec(), &numbers));
    };
    let length = bytes.len() as u64;
    ask(Kind::Rewrite, length - 1, 0);
    ask(Kind::Rewrite, length + 3, 0);
    for place in [0, count - 1, count, u64::MAX] {
        ask(Kind::Item, place, place % 2);
        // The hash itself, and one with the first or the last byte changed.
        for other in [0, 31, 32] {
            ask(Kind::Find, place, other);
        }
    }
}

/// Payloads of 8,000,000 bytes and one more, raw and of types that take no such length.
fn payloads(rng: &mut Rng, run: &mut impl FnMut(&Case)) {
    for length in [PAYLOAD, PAYLOAD + 1] {
        let bytes = rng.bytes(length);
        for packet_type in [0, 1, 6, 13, 17, 24, 29, 30, 255] {
            ask_all(packet_type, &bytes, run);
        }
    }
}

/// Frames whose length is at the limit or beside it, read and written.
fn single(rng: &mut Rng, network: usize, run: &mut impl FnMut(&Case)) {
    for length in [PAYLOAD - 1, PAYLOAD, PAYLOAD + 1] {
        let bytes = frame(rng, network, length);
        for kind in [Kind::FramePrefix, Kind::FrameExact] {
            run(&Case::new(kind, bytes.clone(), &[]).on(network));
            run(&Case::new(kind, bytes[..bytes.len() - 1].to_vec(), &[]).on(network));
            run(&Case::new(kind, [&bytes[..], &[0]].concat(), &[]).on(network));
        }
        for room in [length + 8, length + 9, length + 10] {
            let numbers = [rng.below(256), room as u64];
            let payload = bytes[9..].to_vec();
            run(&Case::new(Kind::FrameEncode, payload, &numbers).on(network));
        }
    }
}

/// A frame at the limit in chunks, whole, and with a rest after it.
fn pushed(rng: &mut Rng, network: usize, run: &mut impl FnMut(&Case)) {
    for length in [PAYLOAD - 1, PAYLOAD, PAYLOAD + 1] {
        let more = rng.index(40);
        let bytes = [frame(rng, network, length), frame(rng, network, more)].concat();
        for chunk in [4096, 65_536, 1_000_003, WHOLE - 1, WHOLE, bytes.len()] {
            let pushes = bytes.len().div_ceil(chunk);
            // A refused header makes each push walk again from the front: few are enough.
            let pushes = if length > PAYLOAD {
                pushes.min(3)
            } else {
                pushes
            };
            let numbers = vec![chunk as u64; pushes];
            let end = bytes.len().min(chunk * pushes);
            run(&Case::new(Kind::Stream, bytes[..end].to_vec(), &numbers).on(network));
        }
    }
}

/// Held 8,000,008 and then as much as a stream takes, or one more and then less; a stream that is
/// stuck at a bad header; and one push of all.
fn over(rng: &mut Rng, network: usize, run: &mut impl FnMut(&Case)) {
    let two = [frame(rng, network, PAYLOAD), frame(rng, network, PAYLOAD)].concat();
    let longer = [&two[..], &frame(rng, network, 20)].concat();
    let mut stuck = longer.clone();
    stuck[0] ^= 1;
    let held = WHOLE - 1;
    let (exact, more) = (STREAM - held, STREAM - held + 1);
    let lists: [&[usize]; 7] = [
        &[held, exact],
        &[held, more, 1, exact],
        &[held, more, exact],
        &[STREAM],
        &[STREAM + 1, STREAM],
        &[STREAM - 5, 5, 1, 0],
        &[held, 0, 1, 8],
    ];
    for bytes in [&two, &longer, &stuck] {
        for list in lists {
            let numbers: Vec<u64> = list.iter().map(|n| *n as u64).collect();
            for kind in [Kind::Stream, Kind::OwnedStream] {
                run(&Case::new(kind, bytes.clone(), &numbers).on(network));
            }
        }
    }
}

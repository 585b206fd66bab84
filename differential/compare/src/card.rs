//! The length card: the shortest and the longest payload that read as a type.

use hns_port::Refusal;

use crate::case::{Case, Verdict};
use crate::generate::LISTS;
use crate::packets::{decode, packet_type};
use crate::rights;
use crate::rust::compact_size;

/// A length that reads is within the card's.
pub fn holds(kind: u8, length: usize, reads: bool) -> Verdict {
    if !reads {
        return Verdict::Same(1);
    }
    let (least, greatest) = hns_port::length_card(kind);
    let length = length as u64;
    let wider = (least.min(length), greatest.max(length));
    Verdict::of(&(least, greatest), &wider)
}

/// The card's lengths are those of the shortest and the longest payload, and both sides read these.
pub fn check(case: &Case) -> Verdict {
    let kind = packet_type(case);
    let both = [shortest(kind), longest(kind)];
    let [least, greatest] = both.each_ref().map(|payload| payload.len() as u64);
    let terms = rights::full(case);
    let read =
        |payload: &Vec<u8>| hns_port::read_packet(&terms, kind, payload, &mut [0; 255]).map(drop);
    let port: [Result<(), Refusal>; 2] = both.each_ref().map(read);
    let rust = both
        .each_ref()
        .map(|payload| decode(kind, payload).map(drop));
    Verdict::of(
        &(hns_port::length_card(kind), port),
        &((least, greatest), rust),
    )
}

fn shortest(kind: u8) -> Vec<u8> {
    let length = match kind {
        0 => 122,
        2 | 3 | 21 => 8,
        5..=8 | 11 => 1,
        9 | 10 | 24 => 33,
        15 => 3,
        22 => 9,
        26 => 64,
        _ => 0,
    };
    vec![0; length]
}

/// As many items as a list may have, 255 bytes of text, a hash where there may be one.
fn longest(kind: u8) -> Vec<u8> {
    match kind {
        0 => [&[0; 116][..], &[255], &[0; 255 + 5]].concat(),
        5..=11 => {
            let (_, width, after, limit) = LISTS[usize::from(kind) - 5];
            let items = vec![0; limit as usize * width + after];
            [compact_size(limit), items].concat()
        }
        15 => [&[14, 0, 255][..], &[0; 255 + 32]].concat(),
        // As many differences of three bytes as leave the last index below 65,536.
        24 => requested(193),
        1..=4 | 12 | 16 | 19 | 21 | 22 | 26 => shortest(kind),
        _ => vec![0; 8_000_000],
    }
}

/// A getblocktxn of 16,662 indexes, so many of which have differences of three bytes.
pub fn requested(long: usize) -> Vec<u8> {
    let front = [&[0; 32], &compact_size(16_662)[..]].concat();
    let long_ones = [0xfd, 0xfd, 0].repeat(long);
    [front, long_ones, vec![0; 16_662 - long]].concat()
}

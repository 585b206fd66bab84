//! Every input, where these are short.

use crate::case::{Case, Kind, NETWORKS};
use crate::rng::Rng;
use crate::{differences, generate, payloads};

pub fn all(short: bool, run: &mut impl FnMut(&Case)) {
    compact_sizes(if short { 0xfd } else { 0 }, run);
    frame_headers(run);
    cuts(if short { 10 } else { 16 }, run);
    payloads::all(short, run);
    differences::all(run);
}

/// All bytes up to three as a compact size; of three, those that begin with `first` or more, with
/// the end right after them and with more bytes than the longest form has.
fn compact_sizes(first: u8, run: &mut impl FnMut(&Case)) {
    let mut case = Case::new(Kind::CompactSize, Vec::new(), &[]);
    run(&case);
    for a in 0..=255 {
        case.bytes = vec![a];
        run(&case);
        for b in 0..=255 {
            case.bytes = vec![a, b];
            run(&case);
            if a < first {
                continue;
            }
            for c in 0..=255 {
                case.bytes = vec![a, b, c];
                run(&case);
                case.bytes = vec![a, b, c, 0, 0, 0, 0, 0, 0, 0];
                run(&case);
            }
        }
    }
}

/// All frame headers that differ from a good one in one byte, with and without a payload.
fn frame_headers(run: &mut impl FnMut(&Case)) {
    let mut rng = Rng::new(0);
    for network in 0..NETWORKS.len() {
        for length in [0, 3] {
            let good = generate::frame(&mut rng, network, length);
            for at in 0..9 {
                for byte in 0..=255 {
                    let mut bytes = good.clone();
                    bytes[at] = byte;
                    for kind in [Kind::FramePrefix, Kind::FrameExact, Kind::Stream] {
                        run(&Case::new(kind, bytes.clone(), &[]).on(network));
                    }
                }
            }
        }
    }
}

/// Short streams: whole frames, one cut, a bad header after a good frame, another network's.
fn short_streams() -> Vec<(usize, Vec<u8>)> {
    let mut rng = Rng::new(1);
    let mut streams = Vec::new();
    for network in 0..NETWORKS.len() {
        let two = [
            generate::frame(&mut rng, network, 0),
            generate::frame(&mut rng, network, 1),
        ]
        .concat();
        let mut cut = generate::frame(&mut rng, network, 7);
        cut.truncate(15);
        let mut large = two[..18].to_vec();
        large[14..18].copy_from_slice(&8_000_001_u32.to_le_bytes());
        let other = [
            &two[..9],
            &generate::frame(&mut rng, (network + 1) % 4, 0)[..],
        ]
        .concat();
        streams.extend([two, cut, large, other].map(|bytes| (network, bytes)));
    }
    streams
}

/// All cuts of short streams into chunks, of at most so many bytes of each.
fn cuts(longest: usize, run: &mut impl FnMut(&Case)) {
    for (network, mut bytes) in short_streams() {
        // The end is what differs, so the front is left out where a stream is too long.
        let whole_front = bytes.len().saturating_sub(longest) as u64;
        let free = bytes.len() - whole_front as usize;
        for cut in 0_u32..1 << (free - 1) {
            let mut numbers = Vec::new();
            let mut length = whole_front + 1;
            for i in 0..free - 1 {
                if cut >> i & 1 == 1 {
                    numbers.push(length);
                    length = 0;
                }
                length += 1;
            }
            numbers.push(length);
            let case = Case::new(Kind::Stream, std::mem::take(&mut bytes), &numbers).on(network);
            run(&case);
            bytes = case.bytes;
        }
    }
}

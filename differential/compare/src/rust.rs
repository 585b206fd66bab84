//! The Rust's errors as the port's refusals: the table of the scope paper, read from the left.

use std::sync::atomic::{AtomicU64, Ordering};

use hns_encoding::DecodeError;
use hns_header_consensus::HeaderError;
use hns_p2p_wire::{MAX_STREAM_BUFFER_SIZE, NetworkMagic, WireError};
use hns_port::Refusal;

pub const NETWORKS: [NetworkMagic; 4] = [
    NetworkMagic::Mainnet,
    NetworkMagic::Testnet,
    NetworkMagic::Regtest,
    NetworkMagic::Simnet,
];

/// How often each refusal was the answer.
pub static REFUSED: [AtomicU64; 23] = [const { AtomicU64::new(0) }; 23];

pub fn refusal(number: u64, a: u64, b: u64) -> Refusal {
    REFUSED[number as usize].fetch_add(1, Ordering::Relaxed);
    Refusal { number, a, b, c: 0 }
}

/// How often a refusal that the Rust lacks was the answer.
pub fn refused_alone() -> u64 {
    let counts = REFUSED[16..].iter();
    counts.map(|count| count.load(Ordering::Relaxed)).sum()
}

/// The Rust grows a vector; an output that is too short is the port's own refusal, 16.
pub fn enough(needed: usize, room: usize) -> Result<(), Refusal> {
    if needed <= room {
        return Ok(());
    }
    Err(refusal(16, needed as u64, 0))
}

pub fn fits(bytes: Vec<u8>, room: usize) -> Result<Vec<u8>, Refusal> {
    enough(bytes.len(), room).map(|()| bytes)
}

/// A compact size in its shortest form.
pub fn compact_size(value: u64) -> Vec<u8> {
    let mut encoder = hns_encoding::Encoder::new();
    encoder.put_compact_size(value);
    encoder.into_bytes()
}

pub fn decode_error(error: DecodeError) -> Refusal {
    match error {
        DecodeError::UnexpectedEnd { offset, needed } => refusal(1, offset as u64, needed as u64),
        DecodeError::InvalidValue { reason, .. } => refusal(2, bits(reason), 0),
        DecodeError::TrailingBytes { remaining } => refusal(3, remaining as u64, 0),
        DecodeError::LengthExceedsBound { actual, maximum } => {
            refusal(7, actual as u64, maximum as u64)
        }
    }
}

fn bits(reason: &str) -> u64 {
    match reason {
        "noncanonical u16 encoding" => 16,
        "noncanonical u32 encoding" => 32,
        "noncanonical u64 encoding" => 64,
        other => panic!("no refusal for {other}"),
    }
}

pub fn wire_error(error: WireError) -> Refusal {
    match error {
        WireError::Decode(error) => decode_error(error),
        WireError::NetworkMagicMismatch { expected, actual } => {
            refusal(4, expected.into(), actual.into())
        }
        WireError::PayloadTooLarge { actual, maximum } => {
            let number = if maximum == MAX_STREAM_BUFFER_SIZE {
                6
            } else {
                5
            };
            refusal(number, actual as u64, maximum as u64)
        }
        WireError::IncompleteFrame { needed } => refusal(8, needed as u64, 0),
        other => panic!("no refusal for {other:?}"),
    }
}

pub fn header_error(error: HeaderError) -> Refusal {
    match error {
        HeaderError::Decode(error) => decode_error(error),
        HeaderError::InvalidLength { actual } => refusal(15, actual as u64, 0),
        other => panic!("no refusal for {other:?}"),
    }
}

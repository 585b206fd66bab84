//! The inputs, the same in every run.

use hns_p2p_wire::{Frame, NetworkMagic, PacketType};

pub struct Inputs {
    /// Frames with payloads of 21 bytes.
    pub small: Vec<u8>,
    /// Frames of the lengths that a node sees.
    pub mixed: Vec<u8>,
    /// One frame with 8,000,000 bytes of payload.
    pub large: Vec<u8>,
    /// Compact sizes of all widths, and of one byte alone, with what they say.
    pub compact: Vec<u8>,
    pub values: Vec<u64>,
    pub short: Vec<u8>,
    pub headers: Vec<u8>,
}

impl Inputs {
    pub fn new() -> Self {
        let mut noise = Noise::new();
        let small = frames(&mut noise, 4_000_000, |_| 21);
        let mixed = frames(&mut noise, 15_000_000, seen);
        let large = frame(&mut noise, 8_000_000);
        let values: Vec<u64> = (0..100_000).map(|_| value(&mut noise)).collect();
        let mut encoder = hns_encoding::Encoder::new();
        values.iter().for_each(|v| encoder.put_compact_size(*v));
        let compact = encoder.into_bytes();
        let short = values.iter().map(|v| (v % 253) as u8).collect();
        let headers = noise.bytes(236 * 2000);
        Self {
            small,
            mixed,
            large,
            compact,
            values,
            short,
            headers,
        }
    }
}

/// Pings and inventories most of all, transactions, addresses, headers, and now and then a block.
fn seen(noise: &mut Noise) -> usize {
    match noise.below(100) {
        0..30 => 8,
        30..60 => 1 + 36 * (1 + noise.below(4)),
        60..85 => 200 + noise.below(400),
        85..92 => 1 + 36 * noise.below(400),
        92..97 => 1 + 88 * noise.below(30),
        97..99 => 3 + 236 * noise.below(200),
        _ => 20_000 + noise.below(300_000),
    }
}

/// Most counts are short.
fn value(noise: &mut Noise) -> u64 {
    match noise.below(10) {
        0..6 => noise.next() % 253,
        6..8 => noise.next() % 65_536,
        8 => noise.next() % (1 << 32),
        _ => noise.next(),
    }
}

fn frames(noise: &mut Noise, total: usize, length: impl Fn(&mut Noise) -> usize) -> Vec<u8> {
    let mut bytes = Vec::new();
    while bytes.len() < total {
        let n = length(noise);
        bytes.extend_from_slice(&frame(noise, n));
    }
    bytes
}

fn frame(noise: &mut Noise, length: usize) -> Vec<u8> {
    let packet_type = PacketType::from_u8(noise.below(30) as u8);
    let payload = noise.bytes(length);
    let frame = Frame {
        packet_type,
        payload,
    };
    frame
        .encode(NetworkMagic::Mainnet)
        .expect("a short payload")
}

pub struct Noise(u64);

impl Noise {
    pub const fn new() -> Self {
        Self(1)
    }

    pub fn array<const N: usize>(&mut self) -> [u8; N] {
        std::array::from_fn(|_| self.next() as u8)
    }

    pub fn next(&mut self) -> u64 {
        self.0 ^= self.0 << 13;
        self.0 ^= self.0 >> 7;
        self.0 ^= self.0 << 17;
        self.0
    }

    pub fn below(&mut self, n: usize) -> usize {
        (self.next() % n as u64) as usize
    }

    pub fn bytes(&mut self, n: usize) -> Vec<u8> {
        (0..n).map(|_| self.next() as u8).collect()
    }
}

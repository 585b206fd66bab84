//! Frames, and pushes of their bytes.

use compare::rust;
use hns_p2p_wire::{Frame, FrameDecoder, PacketType, decode_frame_prefix};

use crate::list::{List, hex, row, spliced};

impl List {
    pub fn frames(&mut self) {
        for network in 0..4 {
            for (packet_type, length) in [(0, 0), (1, 1), (30, 7), (255, 20)] {
                self.written(network, packet_type, length);
            }
            let good = encoded(network, 2, 5);
            for length in 0..=good.len() {
                self.front(network, &good[..length]);
            }
            self.front(network, &[&good[..], &good[..3]].concat());
            self.front((network + 1) % 4, &good);
            for length in [7_999_999, 8_000_000, 8_000_001, u32::MAX] {
                self.front(network, &headed(&good, length));
            }
            self.front((network + 1) % 4, &headed(&good, 8_000_001));
        }
    }

    fn written(&mut self, network: usize, packet_type: u8, length: usize) {
        let bytes = encoded(network, packet_type, length);
        let answer = row(Ok([bytes.len() as u64, 0, 0, 0, 0]), 0);
        let answer = format!("{answer} {}", hex(&spliced(48, 0, &bytes)));
        let numbers = [packet_type.into(), 0, 0];
        self.add(21, network as u8, numbers, &payload(length), &answer);
    }

    /// The frame at the front of the bytes, and the one that they are.
    fn front(&mut self, network: usize, bytes: &[u8]) {
        let untouched = hex(&spliced(48, 0, &[]));
        let front = decode_frame_prefix(rust::NETWORKS[network], bytes).map_err(rust::wire_error);
        let front = front.map(|whole| {
            whole.map_or([0; 5], |(frame, taken)| {
                let [packet_type, length] = parts(&frame);
                [1, packet_type, length, taken as u64, 0]
            })
        });
        self.add(
            19,
            network as u8,
            [0; 3],
            bytes,
            &format!("{} {untouched}", row(front, 0)),
        );
        let exact = Frame::decode_exact(rust::NETWORKS[network], bytes).map_err(rust::wire_error);
        let exact = exact.map(|frame| {
            let [packet_type, length] = parts(&frame);
            [packet_type, length, 0, 0, 0]
        });
        self.add(
            20,
            network as u8,
            [0; 3],
            bytes,
            &format!("{} {untouched}", row(exact, 0)),
        );
    }

    pub fn pushes(&mut self) {
        for network in 0..4 {
            let two = [encoded(network, 0, 0), encoded(network, 10, 4)].concat();
            for held in 0..9 {
                self.push(network, held, &two);
            }
            for length in [0, 8, 9, 10, 21, 22] {
                self.push(network, 0, &two[..length]);
            }
            let mut bad = two.clone();
            bad[9] ^= 1;
            // a good frame and a bad header; held bytes that a header was refused for, and more
            self.push(network, 0, &bad);
            self.push(network, 18, &[&bad[9..], &two[..9]].concat()[..]);
            self.push(network, 8, &headed(&two, 8_000_000));
            self.push(network, 8, &headed(&two, 8_000_001));
            self.push((network + 1) % 4, 3, &headed(&two, 8_000_001));
        }
    }

    /// A push of what follows the first bytes, into a stream that was given those.
    fn push(&mut self, network: usize, held: usize, bytes: &[u8]) {
        let held = held.min(bytes.len());
        let mut stream = FrameDecoder::new(rust::NETWORKS[network]);
        let _ = stream.push(&bytes[..held]);
        assert_eq!(stream.buffered_len(), held, "all is held");
        let mut delivered = Vec::new();
        let answer = stream.push(&bytes[held..]).map_err(rust::wire_error);
        let left = stream.buffered_len() as u64;
        let answer = answer.map(|frames| {
            for frame in &frames {
                let bytes = frame.encode(rust::NETWORKS[network]);
                delivered.extend(bytes.expect("a frame that was read"));
            }
            [frames.len() as u64, delivered.len() as u64, left, 0, 0]
        });
        let store = hex(&buffered(&stream));
        let output = hex(&spliced(64, 0, &delivered));
        let answer = format!("{} {store} {output}", row(answer, left));
        self.add(22, network as u8, [held as u64, 0, 0], bytes, &answer);
    }
}

fn payload(length: usize) -> Vec<u8> {
    (0..length).map(|i| (i * 11 + 5) as u8).collect()
}

fn encoded(network: usize, packet_type: u8, length: usize) -> Vec<u8> {
    let frame = Frame {
        packet_type: PacketType::from_u8(packet_type),
        payload: payload(length),
    };
    let bytes = frame.encode(rust::NETWORKS[network]);
    bytes.expect("a short payload")
}

/// The bytes with another payload length in their first header.
fn headed(bytes: &[u8], length: u32) -> Vec<u8> {
    [&bytes[..5], &length.to_le_bytes(), &bytes[9..]].concat()
}

fn parts(frame: &Frame) -> [u64; 2] {
    [frame.packet_type.as_u8().into(), frame.payload.len() as u64]
}

/// The Rust shows its held bytes only as text.
fn buffered(stream: &FrameDecoder) -> Vec<u8> {
    let text = format!("{stream:?}");
    let (_, list) = text.split_once('[').expect("a list of bytes");
    let (list, _) = list.split_once(']').expect("a list of bytes");
    let bytes = list.split(", ").filter(|byte| !byte.is_empty());
    bytes.map(|byte| byte.parse().expect("a byte")).collect()
}

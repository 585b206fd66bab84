//! The rows of the table.

use std::cell::RefCell;
use std::hint::black_box;

use hns_header_consensus::Header as Published;
use hns_p2p_wire as rust;
use hns_port::lent as port;

use crate::Row;
use crate::inputs::Inputs;

const STREAM: usize = 16_000_018;

/// What is lent in every run.
pub struct Buffers {
    store: RefCell<Vec<u8>>,
    pub output: RefCell<Vec<u8>>,
    pub copied: RefCell<Vec<u8>>,
}

impl Buffers {
    pub fn new() -> Self {
        let buffer = || RefCell::new(vec![0; STREAM]);
        Self {
            store: buffer(),
            output: buffer(),
            copied: buffer(),
        }
    }
}

/// Like beside like: a call beside a call, a list in one call beside the Rust inlined.
pub const NAMES: [&str; 17] = [
    "push, frames of 30 bytes, chunks of 4,096",
    "push, frames of 30 bytes, chunks of 65,536",
    "push, frames of 30 bytes, walked, 4,096",
    "push, mixed frames, chunks of 4,096",
    "push, mixed frames, chunks of 65,536",
    "push, mixed frames, walked, 65,536",
    "push, 8,000,000 of payload, chunks of 4,096",
    "push, 8,000,000 of payload, chunks of 65,536",
    "push, 8,000,000 of payload, whole",
    "frame prefix, frames of 30 bytes",
    "frame prefix, mixed frames",
    "read compact sizes, a list",
    "read compact sizes, a call each",
    "put compact sizes, a call each",
    "decode headers",
    "encode headers",
    "write frames with 21 bytes of payload",
];

/// Pushes with a tally. The push without stands in the place of the copy.
pub const TALLIED: [&str; 4] = [
    "push with a tally, frames of 30 bytes, chunks of 4,096",
    "push with a tally, frames of 30 bytes, chunks of 65,536",
    "push with a tally, mixed frames, chunks of 4,096",
    "push with a tally, mixed frames, chunks of 65,536",
];

/// What is left beside the Rust inlined: a list of the least work, and a call of the port for each,
/// which a library behind a C boundary costs.
pub const INLINED: [&str; 4] = [
    "read compact sizes of one byte, a list",
    "read compact sizes, Rust inlined",
    "read compact sizes of one byte, Rust inlined",
    "put compact sizes, Rust inlined",
];

fn input<'a>(name: &str, inputs: &'a Inputs) -> &'a [u8] {
    match name {
        _ if name.contains("30 bytes") || name.starts_with("write") => &inputs.small,
        _ if name.contains("mixed") => &inputs.mixed,
        _ if name.contains("8,000,000") => &inputs.large,
        _ if name.contains("of one byte") => &inputs.short,
        _ if name.contains("compact") => &inputs.compact,
        _ => &inputs.headers,
    }
}

fn chunk(name: &str, bytes: &[u8]) -> usize {
    match name {
        _ if name.ends_with("4,096") => 4096,
        _ if name.ends_with("65,536") => 65_536,
        _ => bytes.len(),
    }
}

pub fn row<'a>(name: &'static str, inputs: &'a Inputs, buffers: &'a Buffers) -> Row<'a> {
    let bytes = input(name, inputs);
    let chunk = chunk(name, bytes);
    let walked = name.contains("walked");
    let list = name.ends_with("list");
    let inlined = name.ends_with("inlined");
    let (port, rust): (Side<'a>, Side<'a>) = match name.split([' ', ',']).next() {
        Some("push") => push(bytes, chunk, walked, buffers),
        Some("frame") => prefix(bytes),
        Some("read") if list => read_list(bytes, inputs.values.len()),
        Some("read") if inlined => (
            Box::new(|| port_read(bytes)),
            Box::new(|| rust_inlined(bytes)),
        ),
        Some("read") => (Box::new(|| port_read(bytes)), Box::new(|| rust_read(bytes))),
        Some("put") => put(&inputs.values, inlined, buffers),
        Some("decode") => (
            Box::new(|| decode_port(bytes)),
            Box::new(|| decode_rust(bytes)),
        ),
        Some("encode") => encode(bytes, buffers),
        _ => write(bytes, buffers),
    };
    Row {
        name: name.to_owned(),
        bytes: bytes.len(),
        items: 0,
        port,
        rust,
        copy: Box::new(move || copy(bytes, chunk, &mut buffers.copied.borrow_mut())),
    }
}

pub fn tallied<'a>(name: &'static str, inputs: &'a Inputs, buffers: &'a Buffers) -> Row<'a> {
    let bytes = input(name, inputs);
    let chunk = chunk(name, bytes);
    let (without, rust) = push(bytes, chunk, false, buffers);
    Row {
        name: name.to_owned(),
        bytes: bytes.len(),
        items: 0,
        port: push_tallying(bytes, chunk, buffers),
        rust,
        copy: without,
    }
}

pub type Side<'a> = Box<dyn FnMut() + 'a>;

/// Each chunk after the one before, from the front again where there is no more room.
pub fn copy(bytes: &[u8], chunk: usize, to: &mut [u8]) {
    let mut at = 0;
    for part in bytes.chunks(chunk) {
        if at + part.len() > to.len() {
            at = 0;
        }
        to[at..at + part.len()].copy_from_slice(part);
        at += part.len();
    }
    black_box(to);
}

fn push<'a>(
    bytes: &'a [u8],
    chunk: usize,
    walk: bool,
    buffers: &'a Buffers,
) -> (Side<'a>, Side<'a>) {
    let on_port = move || {
        let (mut store, mut output) = (buffers.store.borrow_mut(), buffers.output.borrow_mut());
        let mut stream = port::FrameDecoder::new(port::NetworkMagic::Mainnet, &mut store);
        for part in bytes.chunks(chunk) {
            let delivered = stream.push(part, &mut output).expect("good frames");
            if walk {
                walk_port(&output[..delivered.bytes]);
            }
            black_box(delivered);
        }
    };
    let mut stream = rust::FrameDecoder::new(rust::NetworkMagic::Mainnet);
    let on_rust = move || {
        for part in bytes.chunks(chunk) {
            let frames = stream.push(part).expect("good frames");
            if walk {
                let look = |frame: &rust::Frame| {
                    black_box((frame.packet_type, frame.payload.len()));
                };
                frames.iter().for_each(look);
            }
            black_box(frames);
        }
    };
    (Box::new(on_port), Box::new(on_rust))
}

fn push_tallying<'a>(bytes: &'a [u8], chunk: usize, buffers: &'a Buffers) -> Side<'a> {
    let mut tally = hns_port::Tally::new();
    Box::new(move || {
        let (mut store, mut output) = (buffers.store.borrow_mut(), buffers.output.borrow_mut());
        let mut stream = port::FrameDecoder::new(port::NetworkMagic::Mainnet, &mut store);
        for part in bytes.chunks(chunk) {
            let delivered = stream.push_tallying(part, &mut output, tally.numbers_mut());
            black_box(delivered.expect("good frames"));
        }
    })
}

fn walk_port(mut bytes: &[u8]) {
    while let Ok(Some((frame, taken))) =
        port::decode_frame_prefix(port::NetworkMagic::Mainnet, bytes)
    {
        black_box(frame);
        bytes = &bytes[taken..];
    }
}

fn prefix(bytes: &[u8]) -> (Side<'_>, Side<'_>) {
    let on_rust = move || {
        let mut rest = bytes;
        while let Ok(Some((frame, taken))) =
            rust::decode_frame_prefix(rust::NetworkMagic::Mainnet, rest)
        {
            black_box(frame);
            rest = &rest[taken..];
        }
    };
    (Box::new(move || walk_port(bytes)), Box::new(on_rust))
}

fn port_read(bytes: &[u8]) {
    let mut decoder = port::Decoder::new(bytes);
    while decoder.remaining() > 0 {
        black_box(decoder.read_compact_size().expect("a good one"));
    }
}

/// A call that is not inlined, as a call into a library is not.
#[inline(never)]
fn one_size(decoder: &mut hns_encoding::Decoder<'_>) -> Result<u64, hns_encoding::DecodeError> {
    decoder.read_compact_size()
}

fn rust_read(bytes: &[u8]) {
    let mut decoder = hns_encoding::Decoder::new(bytes);
    while decoder.remaining() > 0 {
        black_box(one_size(&mut decoder).expect("a good one"));
    }
}

fn rust_inlined(bytes: &[u8]) {
    let mut decoder = hns_encoding::Decoder::new(bytes);
    while decoder.remaining() > 0 {
        black_box(decoder.read_compact_size().expect("a good one"));
    }
}

/// All of them into a slice: one call of the port, and the Rust's reads inlined.
fn read_list(bytes: &[u8], count: usize) -> (Side<'_>, Side<'_>) {
    let (mut ported, mut published) = (vec![0; count], vec![0; count]);
    let on_port = move || {
        let read = port::Decoder::new(bytes).read_compact_sizes(&mut ported);
        assert_eq!(read, count);
        black_box(&mut ported);
    };
    let on_rust = move || {
        let mut decoder = hns_encoding::Decoder::new(bytes);
        for value in &mut published {
            *value = decoder.read_compact_size().expect("a good one");
        }
        black_box(&mut published);
    };
    (Box::new(on_port), Box::new(on_rust))
}

#[inline(never)]
fn put_size(encoder: &mut hns_encoding::Encoder, value: u64) {
    encoder.put_compact_size(value);
}

/// The Rust's vector has its room from the start.
fn put<'a>(values: &'a [u64], inlined: bool, buffers: &'a Buffers) -> (Side<'a>, Side<'a>) {
    let on_port = move || {
        let mut output = buffers.output.borrow_mut();
        let mut encoder = port::Encoder::new(&mut output);
        values.iter().for_each(|v| encoder.put_compact_size(*v));
        black_box(encoder.position());
    };
    let on_rust = move || {
        let mut encoder = hns_encoding::Encoder::with_capacity(9 * values.len());
        if inlined {
            values.iter().for_each(|v| encoder.put_compact_size(*v));
        } else {
            values.iter().for_each(|v| put_size(&mut encoder, *v));
        }
        black_box(encoder.into_bytes());
    };
    (Box::new(on_port), Box::new(on_rust))
}

fn decode_port(bytes: &[u8]) {
    for header in bytes.chunks(236) {
        black_box(port::Header::decode(header).expect("236 bytes"));
    }
}

fn decode_rust(bytes: &[u8]) {
    for header in bytes.chunks(236) {
        black_box(Published::decode(header).expect("236 bytes"));
    }
}

fn encode<'a>(bytes: &'a [u8], buffers: &'a Buffers) -> (Side<'a>, Side<'a>) {
    let headers = |part| port::Header::decode(part).expect("236 bytes");
    let ported: Vec<port::Header> = bytes.chunks(236).map(headers).collect();
    let headers = |part| Published::decode(part).expect("236 bytes");
    let published: Vec<Published> = bytes.chunks(236).map(headers).collect();
    let on_port = move || {
        let mut output = buffers.output.borrow_mut();
        let mut encoder = port::Encoder::new(&mut output);
        ported.iter().for_each(|h| h.encode_to(&mut encoder));
        black_box(encoder.position());
    };
    let on_rust = move || {
        let mut output = buffers.store.borrow_mut();
        for (header, to) in published.iter().zip(output.chunks_mut(236)) {
            to.copy_from_slice(&header.encode());
        }
        black_box(output.len());
    };
    (Box::new(on_port), Box::new(on_rust))
}

fn write<'a>(bytes: &'a [u8], buffers: &'a Buffers) -> (Side<'a>, Side<'a>) {
    let on_port = move || {
        let mut output = buffers.output.borrow_mut();
        for frame in bytes.chunks_exact(30) {
            let network = port::NetworkMagic::Mainnet;
            let written = port::encode(network, frame[4], &frame[9..], &mut output[..]);
            black_box(written.expect("room"));
        }
    };
    let frame = |frame: &[u8]| rust::Frame {
        packet_type: rust::PacketType::from_u8(frame[4]),
        payload: frame[9..].to_vec(),
    };
    let frames: Vec<rust::Frame> = bytes.chunks_exact(30).map(frame).collect();
    let on_rust = move || {
        for frame in &frames {
            black_box(
                frame
                    .encode(rust::NetworkMagic::Mainnet)
                    .expect("a short payload"),
            );
        }
    };
    (Box::new(on_port), Box::new(on_rust))
}

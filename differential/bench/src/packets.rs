//! The rows of packets: read, with every item fetched, searched, and written.

use std::hint::black_box;

use hns_header_consensus::Header;
use hns_p2p_wire::{
    CompactBlockRequest, Inventory, InventoryKind, NetAddress, Packet, PacketType, RejectPacket,
    VersionPacket,
};
use hns_port as port;
use hns_primitives::BlockHash;

use crate::Row;
use crate::inputs::Noise;
use crate::rows::{Buffers, Side, copy};

/// A packet of each kind that is measured, and how often it is taken in one run.
pub struct Sample {
    name: &'static str,
    times: usize,
    items: usize,
    packet: Packet,
    payload: Vec<u8>,
}

/// Lists at their limit, and at a tenth of it.
const LISTS: [(&str, usize); 8] = [
    ("addr of 1,000", 1_000),
    ("addr of 100", 100),
    ("inv of 50,000", 50_000),
    ("inv of 5,000", 5_000),
    ("headers of 2,000", 2_000),
    ("headers of 200", 200),
    ("getblocktxn of 16,662", 16_662),
    ("getblocktxn of 1,666", 1_666),
];

/// An inventory whose hashes all share 31 bytes with the one that is looked for: the worst for a search
/// that compares the first bytes first.
pub fn alike() -> Sample {
    let items = (0..50_000).map(|i| {
        let mut hash = NOWHERE;
        hash[31] = 10 + (i % 200) as u8;
        let kind = InventoryKind::from_u32(2);
        Inventory { kind, hash }
    });
    sample(("inv of 50,000", Packet::Inv(items.collect())))
}

/// What the port reads under if no role is named.
const NO_TERMS: port::Terms = port::Terms::full();

/// A hash that no sample has.
const NOWHERE: [u8; 32] = [9; 32];

fn sample((name, packet): (&'static str, Packet)) -> Sample {
    let payload = packet.encode_payload().expect("a good packet");
    let times = (400_000 / payload.len()).clamp(1, 10_000);
    let items = look(&packet).max(1);
    Sample {
        name,
        times,
        items,
        packet,
        payload,
    }
}

pub fn samples() -> Vec<Sample> {
    let mut noise = Noise::new();
    let short = [
        ("version", Packet::Version(version(&mut noise))),
        ("reject", Packet::Reject(reject(&mut noise))),
        ("ping", Packet::Ping(noise.array())),
    ];
    let long = LISTS.map(|(name, count)| (name, list(&mut noise, name, count)));
    short.into_iter().chain(long).map(sample).collect()
}

fn list(noise: &mut Noise, name: &str, count: usize) -> Packet {
    match name.split(' ').next() {
        Some("addr") => Packet::Addr((0..count).map(|_| address(noise)).collect()),
        Some("inv") => Packet::Inv((0..count).map(|_| inventory(noise)).collect()),
        Some("headers") => Packet::Headers((0..count).map(|_| header(noise)).collect()),
        _ => Packet::GetBlockTxn(request(noise, count)),
    }
}

fn version(noise: &mut Noise) -> VersionPacket {
    VersionPacket {
        version: 3,
        services: 1,
        time: noise.next() >> 32,
        remote: address(noise),
        nonce: noise.array(),
        agent: "/hsd:8.0.0/".to_owned(),
        height: 300_000,
        no_relay: false,
    }
}

fn reject(noise: &mut Noise) -> RejectPacket {
    RejectPacket {
        message: PacketType::Tx,
        code: 0x42,
        reason: "insufficient-fee".to_owned(),
        hash: Some(noise.array()),
    }
}

fn address(noise: &mut Noise) -> NetAddress {
    NetAddress {
        time: noise.next() >> 32,
        services: 1,
        ip: noise.array(),
        port: 12_038,
        key: noise.array(),
    }
}

fn inventory(noise: &mut Noise) -> Inventory {
    Inventory {
        kind: InventoryKind::from_u32(1 + noise.below(2) as u32),
        hash: noise.array(),
    }
}

fn header(noise: &mut Noise) -> Header {
    Header::decode(&noise.bytes(236)).expect("236 bytes")
}

/// Indexes that rise by one to four, which keeps the last of 16,662 below 65,535.
fn request(noise: &mut Noise, count: usize) -> CompactBlockRequest {
    let mut next = 0;
    let mut index = || {
        let index = next;
        next += 1 + noise.below(4);
        index
    };
    CompactBlockRequest {
        block_hash: BlockHash::new([7; 32]),
        indexes: (0..count).map(|_| index()).collect(),
    }
}

/// Every row of packets, in the order of the table.
pub fn rows<'a>(samples: &'a [Sample], buffers: &'a Buffers) -> Vec<Row<'a>> {
    let lists = || samples.iter().filter(|sample| sample.name.contains("of"));
    let mut rows: Vec<Row<'a>> = samples.iter().map(|s| read(s, buffers)).collect();
    rows.extend(lists().map(|s| fetch(s, buffers)));
    rows.extend(samples.iter().map(|s| write(s, buffers)));
    let searched = lists().filter(|sample| sample.name.starts_with("inv"));
    rows.extend(searched.flat_map(|s| finders(s, buffers)));
    rows
}

/// A call of the port for each item, beside the Rust's one: what a boundary costs.
pub fn called_each<'a>(samples: &'a [Sample], buffers: &'a Buffers) -> Vec<Row<'a>> {
    let flat = |sample: &&Sample| matches!(sample.packet_type(), 5 | 6 | 11);
    let samples = samples.iter().filter(|sample| sample.name.contains("of"));
    samples
        .filter(flat)
        .map(|s| fetch_each(s, buffers))
        .collect()
}

/// The packet with values of its own on both sides.
pub fn owned<'a>(samples: &'a [Sample], buffers: &'a Buffers) -> Vec<Row<'a>> {
    let mut rows: Vec<Row<'a>> = samples.iter().map(|s| decode_owned(s, buffers)).collect();
    rows.extend(samples.iter().map(|s| encode_owned(s, buffers)));
    rows
}

fn decoded(sample: &Sample, packet_type: port::PacketType) -> port::Packet {
    port::Packet::decode(packet_type, black_box(&sample.payload)).expect("a good one")
}

fn decode_owned<'a>(sample: &'a Sample, buffers: &'a Buffers) -> Row<'a> {
    let packet_type = port::PacketType::from_u8(sample.packet_type());
    let on_port = sample.again(move || decoded(sample, black_box(packet_type)));
    let packet_type = sample.packet.packet_type();
    let on_rust = sample.again(move || {
        Packet::decode(black_box(packet_type), black_box(&sample.payload)).expect("a good one")
    });
    sample.row("Packet::decode,", buffers, on_port, on_rust)
}

fn encode_owned<'a>(sample: &'a Sample, buffers: &'a Buffers) -> Row<'a> {
    let packet = decoded(sample, port::PacketType::from_u8(sample.packet_type()));
    let on_port = sample.again(move || packet.encode_payload().expect("a good one"));
    let on_rust = sample.again(|| sample.packet.encode_payload().expect("a good one"));
    sample.row("encode_payload,", buffers, on_port, on_rust)
}

impl Sample {
    fn row<'a>(
        &'a self,
        what: &str,
        buffers: &'a Buffers,
        port: Side<'a>,
        rust: Side<'a>,
    ) -> Row<'a> {
        let copied = move || {
            for _ in 0..self.times {
                copy(&self.payload, usize::MAX, &mut buffers.copied.borrow_mut());
            }
        };
        Row {
            name: format!("{what} {}", self.name),
            bytes: self.times * self.payload.len(),
            items: self.times * self.items,
            port,
            rust,
            copy: Box::new(copied),
        }
    }

    /// What one side does with the packet, as often as in one run.
    fn again<'a, T>(&'a self, mut once: impl FnMut() -> T + 'a) -> Side<'a> {
        Box::new(move || {
            for _ in 0..self.times {
                black_box(once());
            }
        })
    }

    fn inventory(&self) -> &[Inventory] {
        match &self.packet {
            Packet::Inv(items) => items,
            _ => unreachable!("no inventory"),
        }
    }

    fn packet_type(&self) -> u8 {
        self.packet.packet_type().as_u8()
    }

    fn read_port(&self, text: &mut [u8]) -> port::PacketRow {
        self.read_under(&NO_TERMS, text)
    }

    fn read_under(&self, terms: &port::Terms, text: &mut [u8]) -> port::PacketRow {
        let payload = black_box(&self.payload);
        port::read_packet(terms, self.packet_type(), payload, text).expect("a good one")
    }

    fn read_rust(&self) -> Packet {
        Packet::decode(self.packet.packet_type(), black_box(&self.payload)).expect("a good one")
    }
}

fn read<'a>(sample: &'a Sample, buffers: &'a Buffers) -> Row<'a> {
    let mut text = [0; 255];
    let on_port = sample.again(move || {
        let row = sample.read_port(&mut text);
        (row[1], row[2], row[3])
    });
    let on_rust = sample.again(|| sample.read_rust());
    sample.row("read", buffers, on_port, on_rust)
}

/// Packets to read under the terms of a role, each often enough to time one call.
pub fn sent() -> Vec<Sample> {
    let names = ["version", "ping", "inv of 50,000"];
    let named = samples()
        .into_iter()
        .filter(|sample| names.contains(&sample.name));
    let often = |sample: Sample| Sample {
        times: sample.times.max(100),
        ..sample
    };
    named.map(often).collect()
}

/// Read under the terms of a role, which may send every type; instead of the copy, under no terms.
pub fn read_as<'a>(sample: &'a Sample, buffers: &'a Buffers) -> Row<'a> {
    let terms = port::Terms::new(7, [0, 0, 0, 0, 0, 0, 0, port::Terms::EVERY_TYPE]);
    let (mut text, mut other) = ([0; 255], [0; 255]);
    let on_port = sample.again(move || {
        let row = sample.read_under(black_box(&terms), &mut text);
        (row[1], row[2], row[3])
    });
    let no_terms = sample.again(move || {
        let row = sample.read_port(&mut other);
        (row[1], row[2], row[3])
    });
    let on_rust = sample.again(|| sample.read_rust());
    Row {
        // Nanoseconds for one call, whatever its packet lists.
        items: sample.times,
        copy: no_terms,
        ..sample.row("read as a role,", buffers, on_port, on_rust)
    }
}

/// Every item, with all that its payload is refused for: numbers of all items in one call, or headers
/// one by one from their places.
fn fetch<'a>(sample: &'a Sample, buffers: &'a Buffers) -> Row<'a> {
    let (mut text, mut numbers) = ([0; 255], vec![0; 100_000]);
    let (packet_type, payload) = (sample.packet_type(), &sample.payload);
    let on_port = sample.again(move || match packet_type {
        24 => {
            let count =
                port::indexes(&NO_TERMS, black_box(payload), &mut numbers).expect("a good one");
            numbers[..count].iter().map(black_box).count()
        }
        11 => {
            let row = sample.read_port(&mut text);
            let headers = payload[row[2] as usize..].chunks(236);
            let decoded = headers.map(|header| port::Header::decode(header).expect("236 bytes"));
            decoded.map(black_box).count()
        }
        _ => {
            let count =
                port::item_numbers(&NO_TERMS, packet_type, black_box(payload), &mut numbers);
            numbers[..count.expect("a good one")]
                .iter()
                .map(black_box)
                .count()
        }
    });
    let on_rust = sample.again(|| look(&sample.read_rust()));
    sample.row("read, every item of", buffers, on_port, on_rust)
}

/// The same by a call for each item.
fn fetch_each<'a>(sample: &'a Sample, buffers: &'a Buffers) -> Row<'a> {
    let mut text = [0; 255];
    let on_port = sample.again(move || {
        let row = sample.read_port(&mut text);
        for place in 0..row[1] as usize {
            let item = port::item(
                &NO_TERMS,
                sample.packet_type(),
                black_box(&sample.payload),
                place,
            );
            let item = item.expect("an item");
            black_box((item[1], item[2]));
        }
    });
    let on_rust = sample.again(|| look(&sample.read_rust()));
    sample.row("a call for each item of", buffers, on_port, on_rust)
}

fn look(packet: &Packet) -> usize {
    match packet {
        Packet::Addr(items) => items.iter().map(black_box).count(),
        Packet::Inv(items) => items.iter().map(black_box).count(),
        Packet::Headers(items) => items.iter().map(black_box).count(),
        Packet::GetBlockTxn(request) => request.indexes.iter().map(black_box).count(),
        _ => 0,
    }
}

fn write<'a>(sample: &'a Sample, buffers: &'a Buffers) -> Row<'a> {
    let mut call = writer(&sample.packet, &sample.payload);
    let mut expected = vec![0; sample.payload.len()];
    call(&mut expected).expect("room");
    assert!(expected == sample.payload, "the writers differ");
    let on_port = sample.again(move || call(&mut buffers.output.borrow_mut()).expect("room"));
    let on_rust = sample.again(|| sample.packet.encode_payload().expect("a good one"));
    sample.row("write", buffers, on_port, on_rust)
}

type Writer<'a> = Box<dyn FnMut(&mut [u8]) -> Result<usize, port::Refusal> + 'a>;

/// The port's writer with its fields ready, as the Rust has its packet ready.
fn writer<'a>(packet: &'a Packet, payload: &'a [u8]) -> Writer<'a> {
    match packet {
        Packet::Version(version) => {
            let fields = version_fields(version);
            Box::new(move |out| port::write_version(&fields, version.agent.as_bytes(), out))
        }
        Packet::Reject(reject) => Box::new(|out| {
            let hash = reject.hash.as_ref().expect("there is one");
            let message = reject.message.as_u8();
            port::write_reject(
                message,
                reject.code,
                reject.reason.as_bytes(),
                true,
                hash,
                out,
            )
        }),
        Packet::Ping(nonce) => Box::new(|out| port::write_nonce(u64::from_le_bytes(*nonce), out)),
        Packet::Addr(items) => {
            let flat: Vec<u8> = items.iter().flat_map(|item| fields(item).flat()).collect();
            Box::new(move |out| port::write_addr(&flat, out))
        }
        Packet::Inv(items) => {
            let flat = &payload[payload.len() - 36 * items.len()..];
            Box::new(move |out| port::write_inventory(flat, out))
        }
        Packet::Headers(headers) => {
            let flat = &payload[payload.len() - 236 * headers.len()..];
            Box::new(move |out| port::write_headers(flat, out))
        }
        Packet::GetBlockTxn(request) => {
            let indexes: Vec<u64> = request.indexes.iter().map(|i| *i as u64).collect();
            let hash = request.block_hash.into_bytes();
            Box::new(move |out| port::write_getblocktxn(&hash, &indexes, out))
        }
        _ => unreachable!("no sample of it"),
    }
}

fn version_fields(version: &VersionPacket) -> port::VersionFields {
    port::VersionFields {
        version: version.version,
        services: version.services,
        time: version.time,
        remote: fields(&version.remote),
        nonce: u64::from_le_bytes(version.nonce),
        height: version.height,
        no_relay: version.no_relay,
    }
}

fn fields(address: &NetAddress) -> port::AddressFields {
    port::AddressFields {
        time: address.time,
        services: address.services,
        ip: address.ip,
        port: address.port,
        key: address.key,
    }
}

/// The hash of the last item and one that no item has, beside a search of the Rust's vector, which
/// is decoded before or in the run.
fn finders<'a>(sample: &'a Sample, buffers: &'a Buffers) -> Vec<Row<'a>> {
    let last = sample.inventory().last().expect("there are some").hash;
    vec![
        find(sample, buffers, "find the last, Rust decodes,", last, false),
        find(
            sample,
            buffers,
            "find the last, Rust decoded before,",
            last,
            true,
        ),
        find(sample, buffers, "find none, Rust decodes,", NOWHERE, false),
        find(
            sample,
            buffers,
            "find none, Rust decoded before,",
            NOWHERE,
            true,
        ),
    ]
}

pub fn find_alike<'a>(sample: &'a Sample, buffers: &'a Buffers) -> Row<'a> {
    let what = "find none, 31 bytes shared, Rust decoded before,";
    find(sample, buffers, what, NOWHERE, true)
}

fn find<'a>(
    sample: &'a Sample,
    buffers: &'a Buffers,
    what: &str,
    hash: [u8; 32],
    decoded: bool,
) -> Row<'a> {
    let items = sample.inventory();
    assert_eq!(
        port::find(&NO_TERMS, 6, &sample.payload, &hash),
        Ok(search(items, &hash))
    );
    let on_port = sample.again(move || port::find(&NO_TERMS, 6, black_box(&sample.payload), &hash));
    let on_vector = sample.again(move || search(black_box(items), &hash));
    let on_payload = sample.again(move || match sample.read_rust() {
        Packet::Inv(items) => search(&items, &hash),
        _ => None,
    });
    let on_rust = if decoded { on_vector } else { on_payload };
    sample.row(what, buffers, on_port, on_rust)
}

fn search(items: &[Inventory], hash: &[u8; 32]) -> Option<usize> {
    items.iter().position(|item| item.hash == *hash)
}

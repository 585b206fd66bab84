//! Writers given fields of their own, good and bad. A case has the arguments of a fixed size first,
//! and last the text, list or bytes; indexes are compact sizes.

use compare::packets::inventory;
use compare::rust::{self, compact_size};
use compare::writes::{flat, refused};
use hns_header_consensus::Header;
use hns_p2p_wire::{
    CompactBlockRequest, GetProofPacket, Inventory, InventoryKind, LocatorPacket, NetAddress,
    Packet, PacketType, RejectPacket, VersionPacket,
};
use hns_primitives::{BlockHash, NameHash, TreeRoot};

use crate::list::List;
use crate::packets::{rooms, written};
use crate::payloads::{WITH_HASH, WITHOUT_HASH, bytes};

const WRITE: u8 = 29;
/// The room of what is refused, and of what is too long to be shown: no packet here fits but those of
/// fewer bytes, so that 16 comes last.
const LITTLE: usize = 4;
/// A character of two bytes over 127.
const ACCENT: char = '\u{e9}';

impl List {
    pub fn writers(&mut self) {
        for packet in plain().into_iter().chain(good_lists()).chain(good_texts()) {
            let length = packet.encode_payload().expect("a good packet").len();
            for room in rooms(length) {
                self.write(&packet, room, &[]);
            }
        }
        for packet in good_lists() {
            // what follows the last whole item
            self.write(&packet, 800, &[1, 2, 3]);
        }
        for packet in index_lists() {
            let length = packet.encode_payload().map_or(LITTLE, |bytes| bytes.len());
            self.write(&packet, length, &[]);
        }
        for packet in bad_texts().into_iter().chain(limits()) {
            self.write(&packet, LITTLE, &[]);
        }
    }

    fn write(&mut self, packet: &Packet, room: usize, rest: &[u8]) {
        let bytes = packet.encode_payload();
        let bytes = bytes.map_err(|error| refused(packet, error));
        let answer = written(bytes.and_then(|bytes| rust::fits(bytes, room)), room);
        let fields = [&arguments(packet), rest].concat();
        let packet_type = packet.packet_type().as_u8();
        self.ask(WRITE, packet_type, room as u64, &fields, &answer);
    }
}

/// What a writer is given.
fn arguments(packet: &Packet) -> Vec<u8> {
    match packet {
        Packet::Version(version) => version_arguments(version),
        Packet::Ping(nonce) | Packet::Pong(nonce) => nonce.to_vec(),
        Packet::Addr(items) => items.iter().flat_map(flat).collect(),
        Packet::Inv(items) | Packet::GetData(items) | Packet::NotFound(items) => {
            items.iter().flat_map(inventory).collect()
        }
        Packet::GetBlocks(packet) | Packet::GetHeaders(packet) => {
            let hashes = packet.locator.iter().map(|hash| hash.as_bytes().to_vec());
            after(packet.stop.as_bytes(), hashes)
        }
        Packet::Headers(headers) => headers.iter().flat_map(Header::encode).collect(),
        Packet::Reject(reject) => reject_arguments(reject),
        Packet::FeeFilter(rate) => rate.to_le_bytes().to_vec(),
        Packet::SendCmpct { mode, version } => [&[*mode], &version.to_le_bytes()[..]].concat(),
        Packet::GetBlockTxn(request) => {
            let indexes = request.indexes.iter().map(|index| *index as u64);
            after(request.block_hash.as_bytes(), indexes.map(compact_size))
        }
        Packet::GetProof(packet) => [*packet.root.as_bytes(), *packet.key.as_bytes()].concat(),
        // raw bytes, and none of the empty ones
        other => other.encode_payload().unwrap_or_else(|_| too_long()),
    }
}

/// What follows a hash.
fn after(hash: &[u8; 32], parts: impl Iterator<Item = Vec<u8>>) -> Vec<u8> {
    hash.iter().copied().chain(parts.flatten()).collect()
}

fn reject_arguments(reject: &RejectPacket) -> Vec<u8> {
    let present = reject.hash.is_some().into();
    let front = [reject.message.as_u8(), reject.code, present];
    let hash = reject.hash.unwrap_or([0xee; 32]);
    [&front, &hash[..], reject.reason.as_bytes()].concat()
}

fn version_arguments(version: &VersionPacket) -> Vec<u8> {
    [
        &version.version.to_le_bytes()[..],
        &version.services.to_le_bytes(),
        &version.time.to_le_bytes(),
        &flat(&version.remote),
        &version.nonce,
        &version.height.to_le_bytes(),
        &[version.no_relay.into()],
        version.agent.as_bytes(),
    ]
    .concat()
}

fn array<const N: usize>(seed: usize) -> [u8; N] {
    bytes(N, seed).try_into().expect("as many bytes")
}

fn address(services: u64, seed: usize) -> NetAddress {
    NetAddress {
        time: u64::from_le_bytes(array(seed)),
        services,
        ip: array(seed + 1),
        port: u16::from_le_bytes(array(seed + 2)),
        key: array(seed + 3),
    }
}

fn version(services: u64, agent: String, no_relay: bool) -> Packet {
    Packet::Version(VersionPacket {
        version: u32::from_le_bytes(array(1)),
        services,
        time: u64::from_le_bytes(array(2)),
        remote: address(services.rotate_left(32), 3),
        nonce: array(4),
        agent,
        height: u32::from_le_bytes(array(5)),
        no_relay,
    })
}

fn reject(message: u8, reason: String, present: bool) -> Packet {
    Packet::Reject(RejectPacket {
        message: PacketType::from_u8(message),
        code: message ^ 0x91,
        reason,
        hash: present.then(|| array(7)),
    })
}

fn locator(count: usize, hash: [u8; 32]) -> LocatorPacket {
    LocatorPacket {
        locator: vec![BlockHash::new(hash); count],
        stop: BlockHash::new(array(9)),
    }
}

fn requested(indexes: Vec<usize>) -> Packet {
    Packet::GetBlockTxn(CompactBlockRequest {
        block_hash: BlockHash::new(array(8)),
        indexes,
    })
}

fn too_long() -> Vec<u8> {
    vec![0; 8_000_001]
}

/// Packets of numbers, of nothing, and of raw bytes.
fn plain() -> Vec<Packet> {
    let mut packets = vec![
        Packet::Verack,
        Packet::GetAddr,
        Packet::SendHeaders,
        Packet::Mempool,
        Packet::FilterClear,
        Packet::Ping(array(1)),
        Packet::Pong([255; 8]),
        Packet::GetProof(GetProofPacket {
            root: TreeRoot::new(array(1)),
            key: NameHash::new(array(2)),
        }),
    ];
    packets.extend([0, 1, -1, 1_000, i64::MAX, i64::MIN].map(Packet::FeeFilter));
    for (mode, version) in [(0, 1), (1, 2), (255, u64::MAX)] {
        packets.push(Packet::SendCmpct { mode, version });
    }
    for length in [0, 20] {
        let payload = bytes(length, 0);
        packets.extend([
            Packet::FilterLoad(payload.clone()),
            Packet::FilterAdd(payload.clone()),
            Packet::MerkleBlock(payload.clone()),
            Packet::Claim(payload.clone()),
            Packet::Airdrop(payload.clone()),
        ]);
        packets.extend([30, 255].map(|packet_type| Packet::Unknown {
            packet_type,
            payload: payload.clone(),
        }));
    }
    packets
}

/// Lists of no items, of one and of three.
fn good_lists() -> Vec<Packet> {
    let services = [1, u64::MAX, 0xffff_ffff_0000_0000];
    let kinds = [1, 6, u32::MAX];
    let mut packets = Vec::new();
    for count in [0, 1, 3] {
        let items: Vec<_> = kinds[..count]
            .iter()
            .map(|kind| Inventory {
                kind: InventoryKind::from_u32(*kind),
                hash: array(*kind as usize % 8),
            })
            .collect();
        let header = Header::decode(&bytes(236, count)).expect("every 236 bytes are a header");
        packets.extend([
            Packet::Addr(
                services[..count]
                    .iter()
                    .map(|s| address(*s, count))
                    .collect(),
            ),
            Packet::Inv(items.clone()),
            Packet::GetData(items.clone()),
            Packet::NotFound(items),
            Packet::GetBlocks(locator(count, array(count))),
            Packet::GetHeaders(locator(count, array(count))),
            Packet::Headers(vec![header; count]),
        ]);
    }
    packets
}

fn good_texts() -> Vec<Packet> {
    let mut packets = vec![
        version(1, String::new(), false),
        version(u64::MAX, "/hsd:8.0.0/".to_owned(), true),
        version(0xffff_ffff_0000_0000, "\u{7f}".repeat(255), true),
        reject(28, "a".repeat(255), true),
        reject(1, "a".repeat(255), false),
    ];
    packets.extend(WITH_HASH.map(|message| reject(message, "late".to_owned(), true)));
    packets.extend(WITHOUT_HASH.map(|message| reject(message, String::new(), false)));
    packets
}

/// Texts over 255 bytes, characters over 127, hashes against the type, and two of these at once.
fn bad_texts() -> Vec<Packet> {
    let accent = ACCENT.to_string();
    let texts = [
        accent.clone(),
        format!("agent{accent}"),
        format!("{}{accent}", "a".repeat(253)),
        format!("{}{accent}", "a".repeat(254)),
        "a".repeat(256),
        accent.repeat(128),
        "a".repeat(300),
    ];
    let mut packets = Vec::new();
    for text in texts {
        packets.push(version(1, text.clone(), true));
        for (message, present) in [(14, true), (15, false), (14, false), (15, true)] {
            packets.push(reject(message, text.clone(), present));
        }
    }
    packets.extend(WITH_HASH.map(|message| reject(message, "late".to_owned(), false)));
    packets.extend(WITHOUT_HASH.map(|message| reject(message, String::new(), true)));
    packets
}

/// Indexes that rise, are too large, do not rise, and both.
fn index_lists() -> Vec<Packet> {
    let lists = [
        vec![],
        vec![0],
        vec![3, 4, 9],
        vec![65_535],
        vec![0, 65_535],
        vec![252, 505, 65_535],
        (0..300).map(|i| i * 200).collect(),
        vec![65_536],
        vec![usize::MAX],
        vec![0, 65_536],
        vec![1, 2, usize::MAX],
        vec![3, 3],
        vec![9, 2],
        vec![3, 4, 4, 2],
        vec![70_000, 5],
        vec![5, 5, 70_000],
        vec![5, 70_000, 70_000],
        vec![65_536, 65_536],
    ];
    lists.into_iter().map(requested).collect()
}

/// Lists at their limit, which do not fit, and one over it; a payload at the limit and one over it.
fn limits() -> Vec<Packet> {
    let no_item = Inventory {
        kind: InventoryKind::from_u32(0),
        hash: [0; 32],
    };
    let no_address = NetAddress {
        ip: [0; 16],
        ..NetAddress::default()
    };
    let no_header = Header::decode(&[0; 236]).expect("every 236 bytes are a header");
    let mut packets = vec![
        Packet::FilterLoad(too_long()),
        Packet::FilterLoad(vec![0; 8_000_000]),
    ];
    for over in [0, 1] {
        packets.extend([
            Packet::Addr(vec![no_address.clone(); 1_000 + over]),
            Packet::Inv(vec![no_item.clone(); 50_000 + over]),
            Packet::GetData(vec![no_item.clone(); 50_000 + over]),
            Packet::NotFound(vec![no_item.clone(); 50_000 + over]),
            Packet::GetBlocks(locator(50_000 + over, [0; 32])),
            Packet::GetHeaders(locator(50_000 + over, [0; 32])),
            Packet::Headers(vec![no_header.clone(); 2_000 + over]),
            requested(vec![0; 16_662 + over]),
        ]);
    }
    packets
}

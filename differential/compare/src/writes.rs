//! Packet writers given fields of their own, good and bad. A case is a type, a seed, the output's
//! length beside that of the payload, and how many bytes follow a list's last whole item.

use std::net::Ipv4Addr;

use hns_header_consensus::Header;
use hns_p2p_wire::{
    CompactBlockError, CompactBlockRequest, GetProofPacket, Inventory, InventoryKind,
    LocatorPacket, NetAddress, Packet, PacketType, RejectPacket, VersionPacket, WireError,
};
use hns_port::{AddressFields, Refusal, VersionFields};
use hns_primitives::{BlockHash, NameHash, TreeRoot};

use crate::buffer::{filled, written};
use crate::case::{Case, Verdict};
use crate::packets;
use crate::rng::Rng;
use crate::rust;

pub fn check(case: &Case) -> Verdict {
    let mut rng = Rng::new(case.number(1));
    let packet = packet(&mut rng, case.number(0) as u8);
    let rust = packet.encode_payload();
    let beside = case.number(2) as usize;
    let room = match &rust {
        Ok(bytes) => (bytes.len() + beside).saturating_sub(1),
        // Every other refusal comes before that of an output that is too short.
        Err(_) => [0, 1, 5, 400][beside % 4],
    };
    let mut out = filled(room);
    let port = write(&packet, case.number(3) as usize, &mut out);
    let rust = rust.map_err(|error| refused(&packet, error));
    written(&port, &out, rust)
}

// ---- packets to write

fn array<const N: usize>(rng: &mut Rng) -> [u8; N] {
    rng.bytes(N).try_into().expect("as many bytes")
}

/// A text of some length around its limit, with a character over 127 now and then.
fn text(rng: &mut Rng) -> String {
    let n = match rng.below(8) {
        0 => 248 + rng.index(10),
        1 => 0,
        _ => rng.index(40),
    };
    let mut text: String = (0..n).map(|_| char::from(rng.below(128) as u8)).collect();
    if rng.one_in(if n > 40 { 2 } else { 5 }) {
        text.insert(rng.index(n + 1), '\u{e9}');
    }
    text
}

/// Any ip, or one that is mapped from IPv4.
fn ip(rng: &mut Rng) -> [u8; 16] {
    let ip: [u8; 16] = array(rng);
    if rng.one_in(2) {
        return ip;
    }
    Ipv4Addr::new(ip[0], ip[1], ip[2], ip[3])
        .to_ipv6_mapped()
        .octets()
}

fn address(rng: &mut Rng) -> NetAddress {
    NetAddress {
        time: rng.next(),
        services: rng.next() >> rng.below(64),
        ip: ip(rng),
        port: rng.below(65_536) as u16,
        key: array(rng),
    }
}

/// A count, now and then one at the limit or beside it.
fn count(rng: &mut Rng, limit: usize) -> usize {
    if rng.one_in(200) {
        return limit + rng.index(3) - 1;
    }
    match rng.below(20) {
        0 => 252 + rng.index(3),
        _ => rng.index(5),
    }
}

fn many<T>(rng: &mut Rng, limit: usize, make: impl Fn(&mut Rng) -> T) -> Vec<T> {
    (0..count(rng, limit)).map(|_| make(rng)).collect()
}

fn inventory(rng: &mut Rng) -> Inventory {
    Inventory {
        kind: InventoryKind::from_u32(rng.next() as u32 >> rng.below(32)),
        hash: array(rng),
    }
}

fn locator(rng: &mut Rng) -> LocatorPacket {
    LocatorPacket {
        locator: many(rng, 50_000, |rng| BlockHash::new(array(rng))),
        stop: BlockHash::new(array(rng)),
    }
}

fn version(rng: &mut Rng) -> VersionPacket {
    VersionPacket {
        version: rng.next() as u32,
        services: rng.next() >> rng.below(64),
        time: rng.next(),
        remote: address(rng),
        nonce: array(rng),
        agent: text(rng),
        height: rng.next() as u32,
        no_relay: rng.one_in(2),
    }
}

fn reject(rng: &mut Rng) -> RejectPacket {
    let message = PacketType::from_u8(rng.pick(&[13, 14, 28, 29, 0, 12, 15, 27, 30, 255]) as u8);
    let carries = message.carries_reject_hash() != rng.one_in(6);
    RejectPacket {
        message,
        code: rng.below(256) as u8,
        reason: text(rng),
        hash: carries.then(|| array(rng)),
    }
}

/// Indexes that rise, but for one here and there.
fn indexes(rng: &mut Rng) -> Vec<usize> {
    let n = count(rng, 16_662);
    let mut next = 0;
    (0..n)
        .map(|_| {
            let index = match rng.below(60) {
                0 => rng.index(70_000),
                1 => 65_534 + rng.index(3),
                _ => next + rng.index(3),
            };
            next = index + 1;
            index
        })
        .collect()
}

pub fn packet(rng: &mut Rng, packet_type: u8) -> Packet {
    match packet_type {
        0 => Packet::Version(version(rng)),
        2 => Packet::Ping(array(rng)),
        3 => Packet::Pong(array(rng)),
        5 => Packet::Addr(many(rng, 1_000, address)),
        6 => Packet::Inv(many(rng, 50_000, inventory)),
        7 => Packet::GetData(many(rng, 50_000, inventory)),
        8 => Packet::NotFound(many(rng, 50_000, inventory)),
        9 => Packet::GetBlocks(locator(rng)),
        10 => Packet::GetHeaders(locator(rng)),
        11 => Packet::Headers(many(rng, 2_000, |rng| {
            Header::decode(&array::<236>(rng)).expect("every 236 bytes are a header")
        })),
        15 => Packet::Reject(reject(rng)),
        21 => Packet::FeeFilter(rng.next() as i64 >> rng.below(64)),
        22 => Packet::SendCmpct {
            mode: rng.below(256) as u8,
            version: rng.next(),
        },
        24 => Packet::GetBlockTxn(CompactBlockRequest {
            block_hash: BlockHash::new(array(rng)),
            indexes: indexes(rng),
        }),
        26 => Packet::GetProof(GetProofPacket {
            root: TreeRoot::new(array(rng)),
            key: NameHash::new(array(rng)),
        }),
        _ => plain(rng, packet_type),
    }
}

/// Packets without fields: empty, or raw bytes.
fn plain(rng: &mut Rng, packet_type: u8) -> Packet {
    match packet_type {
        1 => Packet::Verack,
        4 => Packet::GetAddr,
        12 => Packet::SendHeaders,
        16 => Packet::Mempool,
        19 => Packet::FilterClear,
        17 => Packet::FilterLoad(raw(rng)),
        18 => Packet::FilterAdd(raw(rng)),
        20 => Packet::MerkleBlock(raw(rng)),
        28 => Packet::Claim(raw(rng)),
        29 => Packet::Airdrop(raw(rng)),
        _ => Packet::Unknown {
            packet_type,
            payload: raw(rng),
        },
    }
}

/// Raw bytes, rarely as many as a payload may have or one more.
fn raw(rng: &mut Rng) -> Vec<u8> {
    let n = if rng.one_in(2_000) {
        8_000_000 + rng.index(2)
    } else {
        rng.index(80)
    };
    rng.bytes(n)
}

// ---- the port's calls

/// Lists have so many bytes after their last whole item, fewer than an item has.
fn write(packet: &Packet, rest: usize, out: &mut [u8]) -> Result<usize, Refusal> {
    match packet {
        Packet::Version(version) => write_version(version, out),
        Packet::Ping(nonce) | Packet::Pong(nonce) => {
            hns_port::write_nonce(u64::from_le_bytes(*nonce), out)
        }
        Packet::Addr(items) => hns_port::write_addr(&joined(items, flat, rest % 67), out),
        Packet::Inv(items) | Packet::GetData(items) | Packet::NotFound(items) => {
            hns_port::write_inventory(&joined(items, packets::inventory, rest % 36), out)
        }
        Packet::GetBlocks(packet) | Packet::GetHeaders(packet) => {
            let hashes = joined(&packet.locator, |hash| *hash.as_bytes(), rest % 32);
            hns_port::write_locator(&hashes, packet.stop.as_bytes(), out)
        }
        Packet::Headers(headers) => {
            hns_port::write_headers(&joined(headers, Header::encode, rest % 236), out)
        }
        Packet::Reject(reject) => write_reject(reject, out),
        Packet::FeeFilter(rate) => hns_port::write_feefilter(*rate, out),
        Packet::SendCmpct { mode, version } => hns_port::write_sendcmpct(*mode, *version, out),
        Packet::GetBlockTxn(request) => {
            let indexes: Vec<u64> = request.indexes.iter().map(|index| *index as u64).collect();
            hns_port::write_getblocktxn(request.block_hash.as_bytes(), &indexes, out)
        }
        Packet::GetProof(proof) => {
            hns_port::write_getproof(proof.root.as_bytes(), proof.key.as_bytes(), out)
        }
        Packet::FilterLoad(payload)
        | Packet::FilterAdd(payload)
        | Packet::MerkleBlock(payload)
        | Packet::Claim(payload)
        | Packet::Airdrop(payload)
        | Packet::Unknown { payload, .. } => hns_port::write_raw(payload, out),
        _ => hns_port::write_empty(out),
    }
}

/// Items side by side, and a rest.
fn joined<T, B: IntoIterator<Item = u8>>(
    items: &[T],
    bytes: impl Fn(&T) -> B,
    rest: usize,
) -> Vec<u8> {
    let items = items.iter().flat_map(bytes);
    items.chain(filled(rest)).collect()
}

/// An address as an item of a flat list.
pub fn flat(address: &NetAddress) -> Vec<u8> {
    let mut bytes = address.time.to_le_bytes().to_vec();
    bytes.extend(address.services.to_le_bytes());
    bytes.extend(address.ip);
    bytes.extend(address.port.to_le_bytes());
    bytes.extend(address.key);
    bytes
}

fn write_reject(reject: &RejectPacket, out: &mut [u8]) -> Result<usize, Refusal> {
    hns_port::write_reject(
        reject.message.as_u8(),
        reject.code,
        reject.reason.as_bytes(),
        reject.hash.is_some(),
        &reject.hash.unwrap_or([0xee; 32]),
        out,
    )
}

fn write_version(version: &VersionPacket, out: &mut [u8]) -> Result<usize, Refusal> {
    let remote = &version.remote;
    let fields = VersionFields {
        version: version.version,
        services: version.services,
        time: version.time,
        remote: AddressFields {
            time: remote.time,
            services: remote.services,
            ip: remote.ip,
            port: remote.port,
            key: remote.key,
        },
        nonce: u64::from_le_bytes(version.nonce),
        height: version.height,
        no_relay: version.no_relay,
    };
    hns_port::write_version(&fields, version.agent.as_bytes(), out)
}

// ---- the Rust's errors

/// The Rust says which index list is refused by a text, and not where: the place is looked for here.
pub fn refused(packet: &Packet, error: WireError) -> Refusal {
    match error {
        WireError::InvalidPacket {
            context: "reject packet",
            ..
        } => rust::refusal(11, 0, 0),
        WireError::InvalidPacket { context, .. } => Refusal {
            c: packets::field(context),
            ..rust::refusal(10, 0, 0)
        },
        WireError::CompactBlock(CompactBlockError::Malformed(text)) => list_refused(packet, &text),
        other => packets::packet_error(other),
    }
}

fn list_refused(packet: &Packet, text: &str) -> Refusal {
    let Packet::GetBlockTxn(request) = packet else {
        panic!("{text}");
    };
    let list = &request.indexes;
    let large = list.iter().position(|index| *index > 65_535);
    let falls = (1..list.len()).find(|i| list[*i] <= list[i - 1]);
    if text.starts_with("index count") {
        rust::refusal(12, list.len() as u64, 16_662)
    } else if text.ends_with("exceeds u16") {
        rust::refusal(13, large.expect("one is large") as u64, 0)
    } else {
        rust::refusal(14, falls.expect("one does not rise") as u64, 0)
    }
}

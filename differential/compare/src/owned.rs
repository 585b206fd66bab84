//! The owned packet, frame and stream: programs over the Rust's names, compiled once with each crate.

use hns_p2p_wire::{
    CompactBlockRequest, GetProofPacket, Inventory, InventoryKind, LocatorPacket,
    MAX_STREAM_BUFFER_SIZE, NetAddress, Packet, RejectPacket, VersionPacket,
};

use crate::case::{Case, NETWORKS, Verdict};
use crate::headers::ported;
use crate::packets::{CARRIED, decode, packet_error, packet_type};
use crate::rights;
use crate::rng::Rng;
use crate::rust;
use crate::stream::LENGTH;
use crate::tally::{Recount, too_great, with};
use crate::writes;

/// What users of the Rust write: only the crates' names differ.
macro_rules! program {
    ($side:ident, $wire:ident, $primitives:ident) => {
        mod $side {
            use std::net::SocketAddr;

            use $primitives::{BlockHash, NameHash, TreeRoot};
            use $wire::{
                CompactBlockRequest, Frame, FrameDecoder, GetProofPacket, LocatorPacket,
                NetAddress, NetworkMagic, Packet, PacketType, WireError, decode_frame_prefix,
            };

            pub type Frames = Vec<(u8, Vec<u8>)>;

            fn parts(frame: Frame) -> (u8, Vec<u8>) {
                (frame.packet_type.as_u8(), frame.payload)
            }

            pub fn read(number: u8, payload: &[u8]) -> Result<Packet, WireError> {
                Packet::decode(PacketType::from_u8(number), payload)
            }

            pub fn made(number: u8, payload: &[u8]) -> Result<(u8, Vec<u8>), WireError> {
                Frame::new(PacketType::from_u8(number), payload.to_vec()).map(parts)
            }

            /// A payload in a frame as it is, also where a new frame is refused.
            pub fn framed(
                number: u8,
                payload: &[u8],
                network: NetworkMagic,
            ) -> Result<Vec<u8>, WireError> {
                let frame = Frame {
                    packet_type: PacketType::from_u8(number),
                    payload: payload.to_vec(),
                };
                frame.encode(network)
            }

            pub fn sent(packet: &Packet, network: NetworkMagic) -> Result<Vec<u8>, WireError> {
                Frame::from_packet(packet)?.encode(network)
            }

            pub fn received(bytes: &[u8], network: NetworkMagic) -> Result<Packet, WireError> {
                Frame::decode_exact(network, bytes)?.decode_packet()
            }

            pub fn first(
                bytes: &[u8],
                network: NetworkMagic,
            ) -> Result<Option<((u8, Vec<u8>), usize)>, WireError> {
                let whole = decode_frame_prefix(network, bytes)?;
                Ok(whole.map(|(frame, taken)| (parts(frame), taken)))
            }

            pub fn pushed(stream: &mut FrameDecoder, chunk: &[u8]) -> Result<Frames, WireError> {
                Ok(stream.push(chunk)?.into_iter().map(parts).collect())
            }

            /// Packets whose hashes have types of their own.
            pub fn asked(hash: [u8; 32], index: usize) -> [Packet; 3] {
                let locator = LocatorPacket {
                    locator: vec![BlockHash::new(hash)],
                    stop: BlockHash::default(),
                };
                let proof = GetProofPacket {
                    root: TreeRoot::new(hash),
                    key: NameHash::default(),
                };
                let request = CompactBlockRequest {
                    block_hash: BlockHash::new(*locator.locator[0].as_bytes()),
                    indexes: vec![index],
                };
                [
                    Packet::GetHeaders(locator),
                    Packet::GetProof(proof),
                    Packet::GetBlockTxn(request),
                ]
            }

            /// What is said of a type, and of a network.
            pub fn names(number: u8, network: NetworkMagic) -> (String, u8, bool, u32) {
                let packet_type = PacketType::from_u8(number);
                let name = format!("{packet_type:?} {network:?}");
                let carries = packet_type.carries_reject_hash();
                (name, packet_type.as_u8(), carries, network.as_u32())
            }

            /// An address's bytes, and sockets from it and to it; then no address.
            pub fn address(address: &NetAddress) -> (Vec<u8>, SocketAddr, [Vec<u8>; 2]) {
                let (time, services) = (address.time, address.services);
                let socket = address.socket_addr();
                let from = NetAddress::from_socket_addr(socket, time, services);
                let others = [from, NetAddress::default()].map(|other| other.encode().to_vec());
                (address.encode().to_vec(), socket, others)
            }
        }
    };
}

program!(port, hns_port, hns_port);
program!(wire, hns_p2p_wire, hns_primitives);

/// The push that the Rust lacks, with its frames as `pushed` has them.
fn counted(
    stream: &mut hns_port::FrameDecoder,
    chunk: &[u8],
    tally: &mut hns_port::Tally,
) -> Result<port::Frames, hns_port::Refusal> {
    let frames = stream.push_tallying(chunk, tally)?.into_iter();
    Ok(frames
        .map(|frame| (frame.packet_type.as_u8(), frame.payload))
        .collect())
}

macro_rules! same_constants {
    ($($name:ident)*) => {
        $(const _: () = assert!(hns_port::$name as u64 == hns_p2p_wire::$name as u64);)*
    };
}

same_constants! {
    PROTOCOL_VERSION MIN_PROTOCOL_VERSION SERVICE_NETWORK SERVICE_BLOOM FRAME_HEADER_SIZE
    MAX_FRAME_PAYLOAD_SIZE MAX_INVENTORY_ITEMS MAX_LOCATOR_HASHES MAX_HEADERS MAX_ADDR_ITEMS
    MAX_USER_AGENT_SIZE MAX_REJECT_REASON_SIZE MAX_COMPACT_BLOCK_TRANSACTIONS NET_ADDRESS_SIZE
    MAX_STREAM_BUFFER_SIZE
}

/// The first that differs, or the last.
fn all(verdicts: impl IntoIterator<Item = Verdict>) -> Verdict {
    let mut last = Verdict::Same(1);
    for verdict in verdicts {
        if verdict.differs() {
            return verdict;
        }
        last = verdict;
    }
    last
}

// ---- the checks

/// A payload as a packet with its fields, and the packet's payload.
pub fn packet(case: &Case) -> Verdict {
    let number = packet_type(case);
    let port = port::read(number, &case.bytes);
    let rust = decode(number, &case.bytes);
    let answers = Verdict::of(&port, &rust.as_ref().map(owned).map_err(|refusal| *refusal));
    let kind = hns_port::PacketType::from_u8(number);
    let under = hns_port::Packet::decode_under(&rights::full(case), kind, &case.bytes);
    let answers = answers.and_then(|| Verdict::of(&under, &port));
    match &rust {
        Ok(rust) if !answers.differs() => all([encoded(rust), addresses(rust)]),
        _ => answers,
    }
}

/// A packet of fields of its own, good and bad.
pub fn fields(case: &Case) -> Verdict {
    let packet = writes::packet(&mut Rng::new(case.number(1)), case.number(0) as u8);
    let type_of = Verdict::of(
        &owned(&packet).packet_type().as_u8(),
        &packet.packet_type().as_u8(),
    );
    all([
        type_of,
        addresses(&packet),
        encoded(&packet),
        asked(case.number(1)),
    ])
}

fn asked(seed: u64) -> Verdict {
    let hash = std::array::from_fn(|i| (seed >> (i % 8)) as u8);
    let (port, rust) = (port::asked(hash, 7), wire::asked(hash, 7));
    Verdict::of(&port, &rust.each_ref().map(owned))
}

fn encoded(packet: &Packet) -> Verdict {
    let rust = packet.encode_payload();
    let rust = rust.map_err(|error| writes::refused(packet, error));
    Verdict::of(&owned(packet).encode_payload(), &rust)
}

/// An address from its bytes. The Rust has one error for another length, where the port has 1 or 3.
fn address_of(bytes: &[u8], refused: Option<u64>) -> Verdict {
    let port = hns_port::NetAddress::decode(bytes).map_err(|refusal| Some(refusal.number));
    let rust = NetAddress::decode(bytes).map_err(|_| refused);
    Verdict::of(&port, &rust.as_ref().map(address).map_err(|number| *number))
}

/// A few addresses by themselves: bytes, read again, and sockets.
fn addresses(packet: &Packet) -> Verdict {
    let items = match packet {
        Packet::Version(version) => std::slice::from_ref(&version.remote),
        Packet::Addr(items) => &items[..items.len().min(3)],
        _ => &[],
    };
    all(items.iter().map(|item| {
        let rust = wire::address(item);
        let longer = [&rust.0[..], &[0]].concat();
        all([
            address_of(&rust.0, None),
            address_of(&rust.0[1..], Some(1)),
            address_of(&longer, Some(3)),
            Verdict::of(&port::address(&address(item)), &rust),
        ])
    }))
}

/// The frame of a payload and of its packet, and what they are read as: whole, cut, with a byte
/// more, on another network. What is carried is compared as a frame.
pub fn frame(case: &Case) -> Verdict {
    let (number, change) = (case.number(0) as u8, case.number(1));
    let networks = |i: usize| (NETWORKS[i], rust::NETWORKS[i]);
    let (network, theirs) = networks(case.network);
    let names = Verdict::of(&port::names(number, network), &wire::names(number, theirs));
    let frame = port::framed(number, &case.bytes, network);
    let rust = wire::framed(number, &case.bytes, theirs).map_err(rust::wire_error);
    let made = wire::made(number, &case.bytes).map_err(rust::wire_error);
    let made = Verdict::of(&port::made(number, &case.bytes), &made);
    let framed = all([names, made, Verdict::of(&frame, &rust)]);
    let Ok(mut bytes) = frame else {
        return framed;
    };
    let sent = sent(case, &bytes);
    match change {
        1 => drop(bytes.pop()),
        2 => bytes.push(number),
        _ => {}
    }
    let (network, theirs) = networks((case.network + usize::from(change == 3)) % 4);
    let first = wire::first(&bytes, theirs).map_err(packet_error);
    let first = Verdict::of(&port::first(&bytes, network), &first);
    if CARRIED.contains(&number) {
        return all([framed, sent, first]);
    }
    let packet = wire::received(&bytes, theirs).map_err(packet_error);
    let packet = packet.as_ref().map(owned).map_err(|refusal| *refusal);
    let received = Verdict::of(&port::received(&bytes, network), &packet);
    all([framed, sent, first, received])
}

/// The frame of a payload's packet; of what is carried it is the payload's own.
fn sent(case: &Case, whole: &[u8]) -> Verdict {
    let (number, network) = (case.number(0) as u8, NETWORKS[case.network]);
    let port = port::read(number, &case.bytes).and_then(|packet| port::sent(&packet, network));
    if CARRIED.contains(&number) {
        return Verdict::of(&port.as_deref(), &Ok(whole));
    }
    let network = rust::NETWORKS[case.network];
    let rust = wire::read(number, &case.bytes).and_then(|packet| wire::sent(&packet, network));
    Verdict::of(&port, &rust.map_err(packet_error))
}

/// Chunks into both sides' streams, into one of the port's with a tally: frames, refusals, how much is
/// held, and the tally.
pub fn stream(case: &Case) -> Verdict {
    let mut port = hns_port::FrameDecoder::new(NETWORKS[case.network]);
    let (mut tallying, mut tally, mut recount) =
        (port.clone(), hns_port::Tally::new(), Recount::new());
    let mut rust = hns_p2p_wire::FrameDecoder::new(rust::NETWORKS[case.network]);
    let mut rest = &case.bytes[..];
    let mut compared = 0;
    // A number with a mark is a push that is turned away for too little lent; here nothing is.
    let chunks = case.numbers.iter().filter(|number| **number <= LENGTH);
    for (turn, number) in chunks.chain([&u64::MAX]).enumerate() {
        let (chunk, after) = rest.split_at((*number).min(rest.len() as u64) as usize);
        rest = after;
        let frames = wire::pushed(&mut rust, chunk).map_err(rust::wire_error);
        for (packet_type, payload) in frames.iter().flatten() {
            recount.add(*packet_type, payload);
        }
        let held = rust.buffered_len();
        let turned_away = full(&mut tallying, chunk, turn);
        let tallied = counted(&mut tallying, chunk, &mut tally);
        let verdicts = [
            Verdict::of(&port::pushed(&mut port, chunk), &frames),
            Verdict::of(&port.buffered_len(), &held),
            Verdict::of(&tallied, &frames),
            Verdict::of(&tallying.buffered_len(), &held),
            recount.check(tally.numbers()),
        ];
        match (turned_away, all(verdicts)) {
            (Verdict::Same(alone), Verdict::Same(n)) => compared += alone + n,
            (Verdict::Same(_), other) | (other, _) => return other,
        }
    }
    match recount.check_calls(&tally) {
        Verdict::Same(_) => Verdict::Same(compared),
        other => other,
    }
}

/// A push whose tally is full changes neither it nor the stream.
fn full(stream: &mut hns_port::FrameDecoder, chunk: &[u8], turn: usize) -> Verdict {
    let held = stream.buffered_len();
    let total = held + chunk.len();
    if total > MAX_STREAM_BUFFER_SIZE {
        return Verdict::Same(0);
    }
    let numbers = with(too_great(turn, [0, 0], total));
    let mut tally = hns_port::Tally::from(numbers);
    let refused = stream.push_tallying(chunk, &mut tally);
    let seen = (refused, *tally.numbers(), stream.buffered_len());
    Verdict::of(&seen, &(Err(rust::refusal(20, 0, 0)), numbers, held))
}

// ---- the Rust's packet as the port's

fn owned(packet: &Packet) -> hns_port::Packet {
    use hns_port::Packet as To;
    match packet {
        Packet::Version(packet) => To::Version(version(packet)),
        Packet::Verack => To::Verack,
        Packet::Ping(nonce) => To::Ping(*nonce),
        Packet::Pong(nonce) => To::Pong(*nonce),
        Packet::GetAddr => To::GetAddr,
        Packet::Addr(items) => To::Addr(items.iter().map(address).collect()),
        Packet::Inv(items) => To::Inv(inventory(items)),
        Packet::GetData(items) => To::GetData(inventory(items)),
        Packet::NotFound(items) => To::NotFound(inventory(items)),
        Packet::GetBlocks(packet) => To::GetBlocks(locator(packet)),
        Packet::GetHeaders(packet) => To::GetHeaders(locator(packet)),
        Packet::Headers(headers) => To::Headers(headers.iter().map(ported).collect()),
        Packet::SendHeaders => To::SendHeaders,
        Packet::Reject(packet) => To::Reject(reject(packet)),
        Packet::Mempool => To::Mempool,
        Packet::FilterLoad(bytes) => To::FilterLoad(bytes.clone()),
        Packet::FilterAdd(bytes) => To::FilterAdd(bytes.clone()),
        Packet::FilterClear => To::FilterClear,
        Packet::MerkleBlock(bytes) => To::MerkleBlock(bytes.clone()),
        Packet::FeeFilter(rate) => To::FeeFilter(*rate),
        Packet::SendCmpct { mode, version } => sendcmpct(*mode, *version),
        Packet::GetBlockTxn(request) => To::GetBlockTxn(requested(request)),
        Packet::GetProof(packet) => To::GetProof(getproof(packet)),
        Packet::Claim(bytes) => To::Claim(bytes.clone()),
        Packet::Airdrop(bytes) => To::Airdrop(bytes.clone()),
        Packet::Unknown {
            packet_type,
            payload,
        } => unknown(*packet_type, payload),
        carried => panic!("{:?} is carried", carried.packet_type()),
    }
}

const fn sendcmpct(mode: u8, version: u64) -> hns_port::Packet {
    hns_port::Packet::SendCmpct { mode, version }
}

/// What is carried has a name in the port, and reads as raw bytes.
fn unknown(packet_type: u8, payload: &[u8]) -> hns_port::Packet {
    use hns_port::Packet as To;
    let payload = payload.to_vec();
    match packet_type {
        13 => To::Block(payload),
        14 => To::Tx(payload),
        23 => To::CmpctBlock(payload),
        25 => To::BlockTxn(payload),
        27 => To::Proof(payload),
        _ => To::Unknown {
            packet_type,
            payload,
        },
    }
}

fn version(packet: &VersionPacket) -> hns_port::VersionPacket {
    hns_port::VersionPacket {
        version: packet.version,
        services: packet.services,
        time: packet.time,
        remote: address(&packet.remote),
        nonce: packet.nonce,
        agent: packet.agent.clone(),
        height: packet.height,
        no_relay: packet.no_relay,
    }
}

const fn address(address: &NetAddress) -> hns_port::NetAddress {
    hns_port::NetAddress {
        time: address.time,
        services: address.services,
        ip: address.ip,
        port: address.port,
        key: address.key,
    }
}

fn inventory(items: &[Inventory]) -> Vec<hns_port::Inventory> {
    let item = |item: &Inventory| hns_port::Inventory {
        kind: inventory_kind(item.kind),
        hash: item.hash,
    };
    items.iter().map(item).collect()
}

const fn inventory_kind(kind: InventoryKind) -> hns_port::InventoryKind {
    use hns_port::InventoryKind as To;
    match kind {
        InventoryKind::Transaction => To::Transaction,
        InventoryKind::Block => To::Block,
        InventoryKind::FilteredBlock => To::FilteredBlock,
        InventoryKind::CompactBlock => To::CompactBlock,
        InventoryKind::Claim => To::Claim,
        InventoryKind::Airdrop => To::Airdrop,
        InventoryKind::Unknown(number) => To::Unknown(number),
    }
}

const fn block_hash(hash: &hns_primitives::BlockHash) -> hns_port::BlockHash {
    hns_port::BlockHash::new(hash.into_bytes())
}

fn locator(packet: &LocatorPacket) -> hns_port::LocatorPacket {
    hns_port::LocatorPacket {
        locator: packet.locator.iter().map(block_hash).collect(),
        stop: block_hash(&packet.stop),
    }
}

/// The message by its number; `names` compares what each number is called.
fn reject(packet: &RejectPacket) -> hns_port::RejectPacket {
    hns_port::RejectPacket {
        message: hns_port::PacketType::from_u8(packet.message.as_u8()),
        code: packet.code,
        reason: packet.reason.clone(),
        hash: packet.hash,
    }
}

fn requested(request: &CompactBlockRequest) -> hns_port::CompactBlockRequest {
    hns_port::CompactBlockRequest {
        block_hash: block_hash(&request.block_hash),
        indexes: request.indexes.clone(),
    }
}

const fn getproof(packet: &GetProofPacket) -> hns_port::GetProofPacket {
    hns_port::GetProofPacket {
        root: hns_port::TreeRoot::new(packet.root.into_bytes()),
        key: hns_port::NameHash::new(packet.key.into_bytes()),
    }
}

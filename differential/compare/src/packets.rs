//! Packets: read, item by item, searched, and written again.

use hns_p2p_wire::{
    Inventory, LocatorPacket, NetAddress, Packet, PacketType, RejectPacket, VersionPacket,
    WireError,
};
use hns_port::{PacketRow, Refusal, Terms};

use crate::buffer::{filled, splice, written};
use crate::card;
use crate::case::{Case, Verdict};
use crate::{rights, rows, rust};

/// Types that the port reads as raw bytes, and the Rust as what they carry.
pub const CARRIED: [u8; 5] = [13, 14, 23, 25, 27];

/// What a packet holds: numbers, and bytes that stand in the payload or were put out as text.
pub type Seen = (Vec<u64>, Vec<Vec<u8>>);

pub fn packet_type(case: &Case) -> u8 {
    case.number(0) as u8
}

/// The field code of a limit or a text, by the Rust's name for it.
pub fn field(context: &str) -> u64 {
    match context {
        "address" => 1,
        "inventory" => 2,
        "locator" => 3,
        "header" => 4,
        "compact-block requested indexes" => 5,
        "compact-block requested index" => 6,
        "version user agent" => 7,
        "reject reason" => 8,
        other => panic!("no field code for {other}"),
    }
}

/// An error of a packet. The Rust has one text for every index that passes 65,535.
pub fn packet_error(error: WireError) -> Refusal {
    match error {
        WireError::CountTooLarge {
            context,
            actual,
            maximum,
        } => Refusal {
            c: field(context),
            ..rust::refusal(7, actual as u64, maximum as u64)
        },
        WireError::CompactBlock(_) => rust::refusal(9, 0, 0),
        other => rust::wire_error(other),
    }
}

/// The Rust's packet. What is carried is raw bytes by document 01, and so as the Rust reads a type
/// without a name.
pub fn decode(kind: u8, payload: &[u8]) -> Result<Packet, Refusal> {
    let packet_type = if CARRIED.contains(&kind) {
        PacketType::Unknown(kind)
    } else {
        PacketType::from_u8(kind)
    };
    Packet::decode(packet_type, payload).map_err(packet_error)
}

/// The packet, and the output for its text with the bytes that are left alone.
pub fn read(case: &Case) -> Verdict {
    let kind = packet_type(case);
    let mut text = filled(case.number(1) as usize);
    let mut expected = text.clone();
    let row = hns_port::read_packet(&rights::full(case), kind, &case.bytes, &mut text);
    let port = row.map(|row| port_seen(kind, &case.bytes, &row));
    let rust = decode(kind, &case.bytes).and_then(|packet| {
        let put = rust::fits(words(&packet).into(), expected.len())?;
        splice(&mut expected, 0, &put);
        Ok(rust_seen(&packet))
    });
    let reads = rust.is_ok();
    Verdict::of(&port, &rust)
        .and_then(|| Verdict::of(&text, &expected))
        .and_then(|| rows::rest(&row, |row| rows::of_packet(kind, row)))
        .and_then(|| card::holds(kind, case.bytes.len(), reads))
}

/// The text that a packet puts out.
pub fn words(packet: &Packet) -> &str {
    match packet {
        Packet::Version(version) => &version.agent,
        Packet::Reject(reject) => &reject.reason,
        _ => "",
    }
}

fn port_seen(kind: u8, payload: &[u8], row: &PacketRow) -> Seen {
    let place = |i: usize| row[i] as usize;
    let bytes = |i: usize, n: usize| payload[place(i)..][..n].to_vec();
    match kind {
        0 => {
            let numbers = [&row[1..9], &[row[10], row[13], row[14]]].concat();
            (numbers, vec![bytes(9, 33), masked(&bytes(11, place(12)))])
        }
        2 | 3 | 21 => (vec![row[1]], vec![]),
        5 => (vec![row[1], row[2]], vec![]),
        6..=8 | 11 => (vec![row[1]], vec![payload[place(2)..].to_vec()]),
        9 | 10 => (
            vec![row[1]],
            vec![payload[place(2)..place(3)].to_vec(), bytes(3, 32)],
        ),
        15 => {
            let hash = if row[5] == 1 { bytes(6, 32) } else { vec![] };
            let reason = masked(&bytes(3, place(4)));
            (vec![row[1], row[2], row[5]], vec![reason, hash])
        }
        22 => (row[1..3].to_vec(), vec![]),
        24 => (row[1..3].to_vec(), vec![bytes(3, 32)]),
        26 => (vec![], vec![bytes(1, 32), bytes(2, 32)]),
        1 | 4 | 12 | 16 | 19 => (vec![], vec![]),
        _ => (vec![], vec![bytes(1, place(2))]),
    }
}

fn masked(bytes: &[u8]) -> Vec<u8> {
    bytes.iter().map(|byte| byte & 127).collect()
}

/// The indexes of a getblocktxn; no other packet has any.
pub fn indexes(packet: &Packet) -> Vec<u64> {
    match packet {
        Packet::GetBlockTxn(request) => request.indexes.iter().map(|i| *i as u64).collect(),
        _ => vec![],
    }
}

/// The numbers of all addresses or inventory items, with the places where key and hash stand; no other
/// packet has any.
pub fn item_numbers(packet: &Packet) -> Vec<u64> {
    let at = |k: usize, n: usize, width: usize| compact_length(n) + (k * width) as u64;
    match packet {
        Packet::Addr(items) => {
            let key = |k: usize| at(k, items.len(), 88) + 55;
            let numbers = |(k, item)| [address_numbers(item), vec![key(k)]].concat();
            items.iter().enumerate().flat_map(numbers).collect()
        }
        Packet::Inv(items) | Packet::GetData(items) | Packet::NotFound(items) => {
            let hash = |k: usize| at(k, items.len(), 36) + 4;
            let numbers = |(k, item): (usize, &Inventory)| [item.kind.as_u32().into(), hash(k)];
            items.iter().enumerate().flat_map(numbers).collect()
        }
        _ => vec![],
    }
}

pub fn rust_seen(packet: &Packet) -> Seen {
    match packet {
        Packet::Version(version) => version_seen(version),
        Packet::Ping(nonce) | Packet::Pong(nonce) => (vec![u64::from_le_bytes(*nonce)], vec![]),
        Packet::Addr(items) => (
            vec![items.len() as u64, compact_length(items.len())],
            vec![],
        ),
        Packet::Inv(items) | Packet::GetData(items) | Packet::NotFound(items) => (
            vec![items.len() as u64],
            vec![items.iter().flat_map(inventory).collect()],
        ),
        Packet::GetBlocks(packet) | Packet::GetHeaders(packet) => locator_seen(packet),
        Packet::Headers(headers) => {
            let bytes = headers.iter().flat_map(|header| header.encode()).collect();
            (vec![headers.len() as u64], vec![bytes])
        }
        Packet::Reject(reject) => reject_seen(reject),
        Packet::FeeFilter(rate) => (vec![*rate as u64], vec![]),
        Packet::SendCmpct { mode, version } => (vec![u64::from(*mode), *version], vec![]),
        Packet::GetBlockTxn(request) => {
            let count = request.indexes.len();
            let numbers = vec![count as u64, 32 + compact_length(count)];
            (numbers, vec![request.block_hash.as_bytes().to_vec()])
        }
        Packet::GetProof(proof) => {
            let hashes = [proof.root.as_bytes(), proof.key.as_bytes()];
            (vec![], hashes.map(|hash| hash.to_vec()).to_vec())
        }
        Packet::FilterLoad(bytes)
        | Packet::FilterAdd(bytes)
        | Packet::MerkleBlock(bytes)
        | Packet::Claim(bytes)
        | Packet::Airdrop(bytes)
        | Packet::Unknown { payload: bytes, .. } => (vec![], vec![bytes.clone()]),
        _ => (vec![], vec![]),
    }
}

fn locator_seen(packet: &LocatorPacket) -> Seen {
    let hashes = packet.locator.iter().flat_map(|hash| *hash.as_bytes());
    let bytes = vec![hashes.collect(), packet.stop.as_bytes().to_vec()];
    (vec![packet.locator.len() as u64], bytes)
}

fn compact_length(count: usize) -> u64 {
    rust::compact_size(count as u64).len() as u64
}

fn address_numbers(address: &NetAddress) -> Vec<u64> {
    let half = |at: usize| u64::from_le_bytes(address.ip[at..at + 8].try_into().expect("8 bytes"));
    vec![
        address.time,
        address.services,
        half(0),
        half(8),
        u64::from(address.port),
    ]
}

fn version_seen(version: &VersionPacket) -> Seen {
    let mut numbers = vec![u64::from(version.version), version.services, version.time];
    numbers.extend(address_numbers(&version.remote));
    numbers.extend([
        u64::from_le_bytes(version.nonce),
        u64::from(version.height),
        u64::from(version.no_relay),
    ]);
    let agent = version.agent.as_bytes().to_vec();
    (numbers, vec![version.remote.key.to_vec(), agent])
}

fn reject_seen(reject: &RejectPacket) -> Seen {
    let present = u64::from(reject.hash.is_some());
    let reason = reject.reason.as_bytes().to_vec();
    let hash = reject.hash.map_or(vec![], |hash| hash.to_vec());
    let numbers = vec![
        u64::from(reject.message.as_u8()),
        u64::from(reject.code),
        present,
    ];
    (numbers, vec![reason, hash])
}

pub fn inventory(item: &Inventory) -> Vec<u8> {
    [&item.kind.as_u32().to_le_bytes()[..], &item.hash].concat()
}

/// The item at a place: its numbers, and the bytes that stand at its places.
pub fn item(case: &Case) -> Verdict {
    let (kind, place) = (packet_type(case), case.number(1) as usize);
    let terms = rights::full(case);
    let row = hns_port::item(&terms, kind, &case.bytes, place);
    let port = row.map(|row| port_item(kind, &case.bytes, &row));
    let packet = decode(kind, &case.bytes);
    let packet = packet.as_ref().map_err(|refusal| *refusal);
    let rust = packet.and_then(|packet| rust_item(packet, place));
    let short = case.number(2) == 1;
    let all = || match kind {
        24 => all_indexes(&terms, &case.bytes, packet.map(indexes), short),
        _ => {
            let items = packet.map(|packet| numbered(kind, packet));
            all_items((&terms, kind), &case.bytes, items, short)
        }
    };
    Verdict::of(&port, &rust)
        .and_then(|| rows::rest(&row, |_| rows::of_item(kind)))
        .and_then(all)
}

/// The items that have numbers.
fn numbered(kind: u8, packet: &Packet) -> Vec<Seen> {
    let items = (0..).map_while(|place| listed(packet, place));
    items.take_while(|_| matches!(kind, 5..=8)).collect()
}

/// The numbers of all items by one call: of each item so many, the last of which is a place of so many
/// bytes.
fn all_items(
    (terms, kind): (&Terms, u8),
    payload: &[u8],
    items: Result<Vec<Seen>, Refusal>,
    short: bool,
) -> Verdict {
    let (each, width) = if kind == 5 { (6, 33) } else { (2, 32) };
    let needed = items.as_ref().map_or(0, |items| items.len() * each);
    let room = room(needed, short);
    let call = |out: &mut [u64]| hns_port::item_numbers(terms, kind, payload, out);
    let (numbers, left_alone) = stored(call, room);
    let seen = |item: &[u64]| {
        let bytes = payload[item[each - 1] as usize..][..width].to_vec();
        (item[..each - 1].to_vec(), vec![bytes])
    };
    let port = numbers.map(|numbers| numbers.chunks(each).map(seen).collect());
    let rust = items.and_then(|items| rust::enough(needed, room).map(|()| items));
    Verdict::of(&(port, left_alone), &(rust, true))
}

/// All indexes by one call.
fn all_indexes(
    terms: &Terms,
    payload: &[u8],
    indexes: Result<Vec<u64>, Refusal>,
    short: bool,
) -> Verdict {
    let needed = indexes.as_ref().map_or(0, Vec::len);
    let room = room(needed, short);
    let port = stored(|out| hns_port::indexes(terms, payload, out), room);
    let rust = indexes.and_then(|indexes| rust::enough(needed, room).map(|()| indexes));
    Verdict::of(&port, &(rust, true))
}

/// One place more than is needed, or one short where any is needed.
const fn room(needed: usize, short: bool) -> usize {
    if short && needed > 0 {
        needed - 1
    } else {
        needed + 1
    }
}

/// The numbers that a call stores into a room, and whether all others are left alone.
fn stored(
    call: impl FnOnce(&mut [u64]) -> Result<usize, Refusal>,
    room: usize,
) -> (Result<Vec<u64>, Refusal>, bool) {
    let mut out = vec![u64::MAX; room];
    let answer = call(&mut out);
    let rest = out.split_off(answer.map_or(0, |count| count.min(room)));
    let left_alone = rest.iter().all(|number| *number == u64::MAX);
    (answer.map(|_| out), left_alone)
}

fn port_item(kind: u8, payload: &[u8], row: &PacketRow) -> Seen {
    let bytes = |i: usize, n: usize| payload[row[i] as usize..][..n].to_vec();
    match kind {
        5 => (row[1..6].to_vec(), vec![bytes(6, 33)]),
        6..=8 => (vec![row[1]], vec![bytes(2, 32)]),
        9 | 10 => (vec![], vec![bytes(1, 32)]),
        11 => (vec![], vec![bytes(1, 236)]),
        _ => (vec![row[1]], vec![]),
    }
}

/// The item at a place; 19 is the port's own refusal.
pub fn rust_item(packet: &Packet, place: usize) -> Result<Seen, Refusal> {
    listed(packet, place).ok_or_else(|| rust::refusal(19, 0, 0))
}

fn listed(packet: &Packet, place: usize) -> Option<Seen> {
    Some(match packet {
        Packet::Addr(items) => {
            let address = items.get(place)?;
            (address_numbers(address), vec![address.key.to_vec()])
        }
        Packet::Inv(items) | Packet::GetData(items) | Packet::NotFound(items) => {
            let item = items.get(place)?;
            (
                vec![u64::from(item.kind.as_u32())],
                vec![item.hash.to_vec()],
            )
        }
        Packet::GetBlocks(packet) | Packet::GetHeaders(packet) => {
            (vec![], vec![packet.locator.get(place)?.as_bytes().to_vec()])
        }
        Packet::Headers(headers) => (vec![], vec![headers.get(place)?.encode().to_vec()]),
        Packet::GetBlockTxn(request) => (vec![*request.indexes.get(place)? as u64], vec![]),
        _ => return None,
    })
}

/// The items that a hash is looked for among.
pub fn inventories(packet: &Packet) -> &[Inventory] {
    match packet {
        Packet::Inv(items) | Packet::GetData(items) | Packet::NotFound(items) => items,
        _ => &[],
    }
}

/// The hash of the item at a place; with one bit changed, for each of the 256; or, past these, bytes
/// of the payload from its first on, which may stand across items.
fn sought(case: &Case, items: &[Inventory]) -> [u8; 32] {
    let (place, other) = (case.number(1) as usize, case.number(2) as usize);
    let from = other.checked_sub(257).and_then(|at| case.bytes.get(at..));
    if let Some(bytes) = from.and_then(|from| from.first_chunk()) {
        return *bytes;
    }
    let mut hash = items.get(place).map_or([7; 32], |item| item.hash);
    if other > 0 {
        hash[other % 32] ^= 1 << (other / 32 % 8);
    }
    hash
}

/// Whether a hash is found, and that it stands there.
pub fn find(case: &Case) -> Verdict {
    let kind = packet_type(case);
    let packet = decode(kind, &case.bytes);
    let items = packet.as_ref().map_or(&[][..], inventories);
    let hash = sought(case, items);
    let port = hns_port::find(&rights::full(case), kind, &case.bytes, &hash);
    let rust = packet.as_ref().map_err(|refusal| *refusal);
    let rust = rust.map(|_| items.iter().any(|item| item.hash == hash).then_some(true));
    let stands = |place: usize| items.get(place).is_some_and(|item| item.hash == hash);
    // Where it stands nowhere a place is wrong, and where it stands somewhere another place is.
    let port = port.map(|place| place.map(stands));
    Verdict::of(&port, &rust)
}

/// Read, and written again by the type's writer.
pub fn rewrite(case: &Case) -> Verdict {
    let (kind, room) = (packet_type(case), case.number(1) as usize);
    let mut out = filled(room);
    let port = hns_port::rewrite(&rights::full(case), kind, &case.bytes, &mut out);
    written(&port, &out, again(kind, &case.bytes, room))
}

/// What a payload is written as again, where there is room for it.
pub fn again(kind: u8, payload: &[u8], room: usize) -> Result<Vec<u8>, Refusal> {
    let bytes = decode(kind, payload)?
        .encode_payload()
        .map_err(packet_error)?;
    rust::fits(bytes, room)
}

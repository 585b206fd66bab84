//! What packets are made of, and the protocol's numbers, under the Rust's names.

use std::net::{Ipv4Addr, Ipv6Addr, SocketAddr};

use crate::{BlockHash, Decoder, NameHash, Refusal, Terms, TreeRoot, item_numbers, write_addr};

/// The version of the protocol that a node of today announces.
pub const PROTOCOL_VERSION: u32 = 3;
/// The least version of the protocol that a peer may have.
pub const MIN_PROTOCOL_VERSION: u32 = 1;
/// The bit of `services` that says: has the chain.
pub const SERVICE_NETWORK: u64 = 1;
/// The bit of `services` that says: takes filters.
pub const SERVICE_BLOOM: u64 = 1 << 1;
/// The bytes of a frame before its payload.
pub const FRAME_HEADER_SIZE: usize = 9;
/// The most bytes of a payload.
pub const MAX_FRAME_PAYLOAD_SIZE: usize = 8_000_000;
/// The most items of an inv, a getdata or a notfound.
pub const MAX_INVENTORY_ITEMS: usize = 50_000;
/// The most hashes of a locator, the stop hash not counted.
pub const MAX_LOCATOR_HASHES: usize = MAX_INVENTORY_ITEMS;
/// The most headers of a headers packet.
pub const MAX_HEADERS: usize = 2_000;
/// The most addresses of an addr.
pub const MAX_ADDR_ITEMS: usize = 1_000;
/// The most bytes of a version's agent.
pub const MAX_USER_AGENT_SIZE: usize = u8::MAX as usize;
/// The most bytes of a reject's reason.
pub const MAX_REJECT_REASON_SIZE: usize = u8::MAX as usize;
/// The most indexes of a getblocktxn.
pub const MAX_COMPACT_BLOCK_TRANSACTIONS: usize = 16_662;
/// The bytes of an address.
pub const NET_ADDRESS_SIZE: usize = 88;
/// The most bytes that a stream holds: two frames of the longest payload.
pub const MAX_STREAM_BUFFER_SIZE: usize = 2 * (FRAME_HEADER_SIZE + MAX_FRAME_PAYLOAD_SIZE);

/// A network, by which a frame begins.
#[derive(Clone, Copy, Debug, Eq, Hash, PartialEq)]
#[repr(u8)]
pub enum NetworkMagic {
    /// The network itself.
    Mainnet,
    /// The public one for trials.
    Testnet,
    /// A private one, for tests.
    Regtest,
    /// A private one, for simulations.
    Simnet,
}

impl NetworkMagic {
    /// The first four bytes of a frame, as a number.
    pub const fn as_u32(self) -> u32 {
        match self {
            Self::Mainnet => 0x5b6e_f2d3,
            Self::Testnet => 0xb152_0dd2,
            Self::Regtest => 0xae38_95cf,
            Self::Simnet => 0x0e64_8edc,
        }
    }
}

/// An enum over all numbers of a width: names for some, and `Unknown` for the others.
macro_rules! numbered {
    (
        $(#[$doc:meta])*
        $name:ident($number:ty), $as_number:ident, $from_number:ident:
        $($variant:ident = $value:literal,)*
    ) => {
        $(#[$doc])*
        #[derive(Clone, Copy, Debug, Eq, Hash, PartialEq)]
        pub enum $name {
            $(#[doc = concat!("Number ", $value, ".")] $variant,)*
            /// A number without a name. One that has a name is read and written as that.
            Unknown($number),
        }

        impl $name {
            /// The number on the wire.
            pub const fn $as_number(self) -> $number {
                match self {
                    $(Self::$variant => $value,)*
                    Self::Unknown(value) => value,
                }
            }

            /// What a number on the wire stands for.
            pub const fn $from_number(value: $number) -> Self {
                match value {
                    $($value => Self::$variant,)*
                    other => Self::Unknown(other),
                }
            }
        }
    };
}

numbered! {
    /// A packet's type.
    PacketType(u8), as_u8, from_u8:
    Version = 0,
    Verack = 1,
    Ping = 2,
    Pong = 3,
    GetAddr = 4,
    Addr = 5,
    Inv = 6,
    GetData = 7,
    NotFound = 8,
    GetBlocks = 9,
    GetHeaders = 10,
    Headers = 11,
    SendHeaders = 12,
    Block = 13,
    Tx = 14,
    Reject = 15,
    Mempool = 16,
    FilterLoad = 17,
    FilterAdd = 18,
    FilterClear = 19,
    MerkleBlock = 20,
    FeeFilter = 21,
    SendCmpct = 22,
    CmpctBlock = 23,
    GetBlockTxn = 24,
    BlockTxn = 25,
    GetProof = 26,
    Proof = 27,
    Claim = 28,
    Airdrop = 29,
}

impl PacketType {
    /// Whether a reject of this type has a hash.
    pub const fn carries_reject_hash(self) -> bool {
        matches!(self.as_u8(), 13 | 14 | 28 | 29)
    }
}

numbered! {
    /// What an inventory item is the hash of.
    InventoryKind(u32), as_u32, from_u32:
    Transaction = 1,
    Block = 2,
    FilteredBlock = 3,
    CompactBlock = 4,
    Claim = 5,
    Airdrop = 6,
}

/// An item of an inv, a getdata or a notfound.
#[derive(Clone, Debug, Eq, Hash, PartialEq)]
pub struct Inventory {
    /// What it is.
    pub kind: InventoryKind,
    /// Its hash.
    pub hash: [u8; 32],
}

/// A peer's address. Of `services` the low 32 bits are written.
#[derive(Clone, Copy, Debug, Eq, PartialEq)]
pub struct NetAddress {
    /// When the peer was last seen.
    pub time: u64,
    /// What the peer offers.
    pub services: u64,
    /// An IPv6 address, or an IPv4 address mapped to one; zeros where the host is of another kind.
    pub ip: [u8; 16],
    /// The port.
    pub port: u16,
    /// The peer's key, zeros where it has none.
    pub key: [u8; 33],
}

impl NetAddress {
    /// The address of a socket, without a key.
    pub fn from_socket_addr(address: SocketAddr, time: u64, services: u64) -> Self {
        let ip = match address {
            SocketAddr::V4(v4) => v4.ip().to_ipv6_mapped(),
            SocketAddr::V6(v6) => *v6.ip(),
        };
        Self {
            time,
            services,
            ip: ip.octets(),
            port: address.port(),
            key: [0; 33],
        }
    }

    /// The socket to connect to: IPv4 where the address is mapped from one.
    pub fn socket_addr(&self) -> SocketAddr {
        SocketAddr::new(Ipv6Addr::from(self.ip).to_canonical(), self.port)
    }

    /// The 88 bytes of the address, which are those of an addr packet after its count.
    pub fn encode(&self) -> [u8; NET_ADDRESS_SIZE] {
        let mut out = [0; 1 + NET_ADDRESS_SIZE];
        write_addr(&self.flat(), &mut out).expect("one address fits");
        *out.last_chunk().expect("longer")
    }

    /// Reads an address. The Rust has one error for every other length than 88; this is refused by 1
    /// or 3, as one read of 88 bytes is.
    pub fn decode(input: &[u8]) -> Result<Self, Refusal> {
        let mut decoder = Decoder::new(input);
        let bytes = decoder.read_slice(NET_ADDRESS_SIZE)?;
        decoder.finish()?;
        let mut payload = [1; 1 + NET_ADDRESS_SIZE];
        payload[1..].copy_from_slice(bytes);
        Ok(Self::list(&Terms::full(), &payload, 1)?[0])
    }

    /// The addresses of an addr payload, which are so many.
    pub(crate) fn list(terms: &Terms, payload: &[u8], count: usize) -> Result<Vec<Self>, Refusal> {
        let mut items = vec![[0; 6]; count];
        item_numbers(
            terms,
            PacketType::Addr.as_u8(),
            payload,
            items.as_flattened_mut(),
        )?;
        let address = |[time, services, first, last, port, key]: [u64; 6]| Self {
            time,
            services,
            ip: ip(first, last),
            port: port as u16,
            key: array(payload, key),
        };
        Ok(items.into_iter().map(address).collect())
    }

    /// The fields side by side, as [`write_addr`] takes them.
    pub fn flat(&self) -> [u8; 67] {
        let mut flat = [0; 67];
        flat[..8].copy_from_slice(&self.time.to_le_bytes());
        flat[8..16].copy_from_slice(&self.services.to_le_bytes());
        flat[16..32].copy_from_slice(&self.ip);
        flat[32..34].copy_from_slice(&self.port.to_le_bytes());
        flat[34..].copy_from_slice(&self.key);
        flat
    }
}

impl Default for NetAddress {
    fn default() -> Self {
        Self::from_socket_addr((Ipv4Addr::UNSPECIFIED, 0).into(), 0, 0)
    }
}

/// The bytes of an ip from its two numbers.
pub(crate) fn ip(first: u64, last: u64) -> [u8; 16] {
    (u128::from(last) << 64 | u128::from(first)).to_le_bytes()
}

/// As many bytes as the array has, at a place that was answered.
pub(crate) fn array<const N: usize>(payload: &[u8], place: u64) -> [u8; N] {
    *payload[place as usize..]
        .first_chunk()
        .expect("an answered place has its bytes")
}

/// A version packet. Of `services` the low 32 bits are written.
#[derive(Clone, Debug, Eq, PartialEq)]
pub struct VersionPacket {
    /// The sender's version of the protocol.
    pub version: u32,
    /// What the sender offers.
    pub services: u64,
    /// The sender's clock.
    pub time: u64,
    /// Where the sender sees the receiver.
    pub remote: NetAddress,
    /// By which a node knows a connection to itself.
    pub nonce: [u8; 8],
    /// The sender's name for itself: ASCII, at most 255 bytes.
    pub agent: String,
    /// The height of the sender's chain.
    pub height: u32,
    /// Whether the sender wants no transactions.
    pub no_relay: bool,
}

/// A getblocks or a getheaders packet.
#[derive(Clone, Debug, Eq, PartialEq)]
pub struct LocatorPacket {
    /// Hashes of blocks that the sender has, the newest first.
    pub locator: Vec<BlockHash>,
    /// The last block that is asked for, or zeros.
    pub stop: BlockHash,
}

/// A reject packet.
#[derive(Clone, Debug, Eq, PartialEq)]
pub struct RejectPacket {
    /// The type of what is rejected.
    pub message: PacketType,
    /// Why, as a number.
    pub code: u8,
    /// Why, in words: ASCII, at most 255 bytes.
    pub reason: String,
    /// The hash of what is rejected, for the types that have one.
    pub hash: Option<[u8; 32]>,
}

/// A getproof packet.
#[derive(Clone, Copy, Debug, Eq, PartialEq)]
pub struct GetProofPacket {
    /// The root of the tree.
    pub root: TreeRoot,
    /// The hash of the name.
    pub key: NameHash,
}

/// A getblocktxn packet.
#[derive(Clone, Debug, Eq, PartialEq)]
pub struct CompactBlockRequest {
    /// The hash of the block.
    pub block_hash: BlockHash,
    /// The places of the transactions in the block. They rise, and none is above 65,535.
    pub indexes: Vec<usize>,
}

//! The packet with values of its own. The library reads and writes; here bytes are copied from the
//! places that it answers, and into the flat lists that its writers take.

use std::mem::MaybeUninit;

use crate::packet::{all_indexes, numbers, read_row};
use crate::types::{array, ip};
use crate::writers::VersionFields;
use crate::{
    BlockHash, CompactBlockRequest, Encoder, GetProofPacket, HEADER_SIZE, Header, Inventory,
    InventoryKind, LocatorPacket, MAX_FRAME_PAYLOAD_SIZE, MAX_REJECT_REASON_SIZE,
    MAX_USER_AGENT_SIZE, NET_ADDRESS_SIZE, NameHash, NetAddress, PacketRow, PacketType, Refusal,
    RejectPacket, Terms, TreeRoot, VersionPacket, write_addr, write_empty, write_feefilter,
    write_getblocktxn, write_getproof, write_headers, write_inventory, write_locator, write_nonce,
    write_raw, write_reject, write_sendcmpct, write_version,
};

/// A packet. Blocks, transactions and proofs are carried as the bytes that they were sent as.
///
/// ```
/// use hns_port::{Inventory, InventoryKind, Packet, PacketType};
///
/// let packet = Packet::Inv(vec![Inventory { kind: InventoryKind::Block, hash: [7; 32] }]);
/// let payload = packet.encode_payload()?;
/// assert_eq!(payload.len(), 37);
/// assert_eq!(Packet::decode(PacketType::Inv, &payload)?, packet);
///
/// // A byte short: refused by 1, in the field that begins at 5.
/// let refusal = Packet::decode(PacketType::Inv, &payload[..36]).unwrap_err();
/// assert_eq!((refusal.number, refusal.a, refusal.b), (1, 5, 1));
/// # Ok::<(), hns_port::Refusal>(())
/// ```
#[derive(Clone, Debug, Eq, PartialEq)]
pub enum Packet {
    /// The first packet of a connection.
    Version(VersionPacket),
    /// A version was taken.
    Verack,
    /// Asks for a pong of the same nonce.
    Ping([u8; 8]),
    /// Answers a ping.
    Pong([u8; 8]),
    /// Asks for addresses.
    GetAddr,
    /// Addresses of peers.
    Addr(Vec<NetAddress>),
    /// Things that the sender has.
    Inv(Vec<Inventory>),
    /// Asks for things.
    GetData(Vec<Inventory>),
    /// Things that were asked for and are not there.
    NotFound(Vec<Inventory>),
    /// Asks for hashes of blocks.
    GetBlocks(LocatorPacket),
    /// Asks for headers.
    GetHeaders(LocatorPacket),
    /// Headers of blocks.
    Headers(Vec<Header>),
    /// Asks for new blocks by their headers.
    SendHeaders,
    /// A block, carried.
    Block(Vec<u8>),
    /// A transaction, carried.
    Tx(Vec<u8>),
    /// What was sent is not taken.
    Reject(RejectPacket),
    /// Asks for the hashes of waiting transactions.
    Mempool,
    /// A filter, raw.
    FilterLoad(Vec<u8>),
    /// Bytes to add to a filter, raw.
    FilterAdd(Vec<u8>),
    /// Ends a filter.
    FilterClear,
    /// A filtered block, raw.
    MerkleBlock(Vec<u8>),
    /// The least fee rate that the sender wants transactions with.
    FeeFilter(i64),
    /// How the sender wants new blocks.
    SendCmpct {
        /// Whether they come unasked.
        mode: u8,
        /// The version of compact blocks.
        version: u64,
    },
    /// A compact block, carried.
    CmpctBlock(Vec<u8>),
    /// Asks for transactions of a compact block.
    GetBlockTxn(CompactBlockRequest),
    /// Transactions of a compact block, carried.
    BlockTxn(Vec<u8>),
    /// Asks for a proof about a name.
    GetProof(GetProofPacket),
    /// A proof about a name, carried.
    Proof(Vec<u8>),
    /// A claim, raw.
    Claim(Vec<u8>),
    /// An airdrop, raw.
    Airdrop(Vec<u8>),
    /// A type without a name, raw.
    Unknown {
        /// The type.
        packet_type: u8,
        /// The payload.
        payload: Vec<u8>,
    },
}

impl Packet {
    /// The packet's type.
    pub const fn packet_type(&self) -> PacketType {
        match self {
            Self::Version(_) => PacketType::Version,
            Self::Verack => PacketType::Verack,
            Self::Ping(_) => PacketType::Ping,
            Self::Pong(_) => PacketType::Pong,
            Self::GetAddr => PacketType::GetAddr,
            Self::Addr(_) => PacketType::Addr,
            Self::Inv(_) => PacketType::Inv,
            Self::GetData(_) => PacketType::GetData,
            Self::NotFound(_) => PacketType::NotFound,
            Self::GetBlocks(_) => PacketType::GetBlocks,
            Self::GetHeaders(_) => PacketType::GetHeaders,
            Self::Headers(_) => PacketType::Headers,
            Self::SendHeaders => PacketType::SendHeaders,
            Self::Block(_) => PacketType::Block,
            Self::Tx(_) => PacketType::Tx,
            Self::Reject(_) => PacketType::Reject,
            Self::Mempool => PacketType::Mempool,
            Self::FilterLoad(_) => PacketType::FilterLoad,
            Self::FilterAdd(_) => PacketType::FilterAdd,
            Self::FilterClear => PacketType::FilterClear,
            Self::MerkleBlock(_) => PacketType::MerkleBlock,
            Self::FeeFilter(_) => PacketType::FeeFilter,
            Self::SendCmpct { .. } => PacketType::SendCmpct,
            Self::CmpctBlock(_) => PacketType::CmpctBlock,
            Self::GetBlockTxn(_) => PacketType::GetBlockTxn,
            Self::BlockTxn(_) => PacketType::BlockTxn,
            Self::GetProof(_) => PacketType::GetProof,
            Self::Proof(_) => PacketType::Proof,
            Self::Claim(_) => PacketType::Claim,
            Self::Airdrop(_) => PacketType::Airdrop,
            Self::Unknown { packet_type, .. } => PacketType::Unknown(*packet_type),
        }
    }

    /// Reads a payload as a packet of a type. No role is named, so that every type may be sent.
    pub fn decode(packet_type: PacketType, payload: &[u8]) -> Result<Self, Refusal> {
        Self::decode_under(&Terms::full(), packet_type, payload)
    }

    /// Reads a payload as a packet of a type under terms: 21 and 22 come before all other refusals.
    pub fn decode_under(
        terms: &Terms,
        packet_type: PacketType,
        payload: &[u8],
    ) -> Result<Self, Refusal> {
        let read = |make: fn(Answer<'_>) -> Self| read(terms, packet_type, payload, make);
        match packet_type {
            PacketType::Version => read_text(terms, packet_type, payload, 12, |answer, agent| {
                answer.version(agent)
            }),
            PacketType::Verack => read(|_| Self::Verack),
            PacketType::Ping => read(|answer| Self::Ping(answer.nonce())),
            PacketType::Pong => read(|answer| Self::Pong(answer.nonce())),
            PacketType::GetAddr => read(|_| Self::GetAddr),
            PacketType::Addr => addresses(terms, payload).map(Self::Addr),
            PacketType::Inv => read(|answer| Self::Inv(answer.inventory())),
            PacketType::GetData => read(|answer| Self::GetData(answer.inventory())),
            PacketType::NotFound => read(|answer| Self::NotFound(answer.inventory())),
            PacketType::GetBlocks => read(|answer| Self::GetBlocks(answer.locator())),
            PacketType::GetHeaders => read(|answer| Self::GetHeaders(answer.locator())),
            PacketType::Headers => headers(terms, payload).map(Self::Headers),
            PacketType::SendHeaders => read(|_| Self::SendHeaders),
            PacketType::Block => read(|answer| Self::Block(answer.raw())),
            PacketType::Tx => read(|answer| Self::Tx(answer.raw())),
            PacketType::Reject => read_text(terms, packet_type, payload, 4, |answer, reason| {
                answer.reject(reason)
            }),
            PacketType::Mempool => read(|_| Self::Mempool),
            PacketType::FilterLoad => read(|answer| Self::FilterLoad(answer.raw())),
            PacketType::FilterAdd => read(|answer| Self::FilterAdd(answer.raw())),
            PacketType::FilterClear => read(|_| Self::FilterClear),
            PacketType::MerkleBlock => read(|answer| Self::MerkleBlock(answer.raw())),
            PacketType::FeeFilter => read(|answer| Self::FeeFilter(answer.row[1] as i64)),
            PacketType::SendCmpct => read(|answer| answer.sendcmpct()),
            PacketType::CmpctBlock => read(|answer| Self::CmpctBlock(answer.raw())),
            PacketType::GetBlockTxn => request(terms, payload).map(Self::GetBlockTxn),
            PacketType::BlockTxn => read(|answer| Self::BlockTxn(answer.raw())),
            PacketType::GetProof => read(|answer| Self::GetProof(answer.getproof())),
            PacketType::Proof => read(|answer| Self::Proof(answer.raw())),
            PacketType::Claim => read(|answer| Self::Claim(answer.raw())),
            PacketType::Airdrop => read(|answer| Self::Airdrop(answer.raw())),
            PacketType::Unknown(number) => unknown(terms, number, payload),
        }
    }

    /// Writes the packet's payload.
    pub fn encode_payload(&self) -> Result<Vec<u8>, Refusal> {
        match self {
            Self::Version(packet) => encode_version(packet),
            Self::Verack
            | Self::GetAddr
            | Self::SendHeaders
            | Self::Mempool
            | Self::FilterClear => written(0, write_empty),
            Self::Ping(nonce) | Self::Pong(nonce) => {
                written(8, |out| write_nonce(u64::from_le_bytes(*nonce), out))
            }
            Self::Addr(items) => encode_addr(items),
            Self::Inv(items) | Self::GetData(items) | Self::NotFound(items) => {
                encode_inventory(items)
            }
            Self::GetBlocks(packet) | Self::GetHeaders(packet) => encode_locator(packet),
            Self::Headers(headers) => encode_headers(headers),
            Self::Reject(packet) => encode_reject(packet),
            Self::FeeFilter(rate) => written(8, |out| write_feefilter(*rate, out)),
            Self::SendCmpct { mode, version } => {
                written(9, |out| write_sendcmpct(*mode, *version, out))
            }
            Self::GetBlockTxn(request) => encode_getblocktxn(request),
            Self::GetProof(packet) => encode_getproof(packet),
            Self::Block(payload)
            | Self::Tx(payload)
            | Self::FilterLoad(payload)
            | Self::FilterAdd(payload)
            | Self::MerkleBlock(payload)
            | Self::CmpctBlock(payload)
            | Self::BlockTxn(payload)
            | Self::Proof(payload)
            | Self::Claim(payload)
            | Self::Airdrop(payload)
            | Self::Unknown { payload, .. } => {
                written(most(payload.len(), 1, 0), |out| write_raw(payload, out))
            }
        }
    }
}

// ---- reading

/// What is made of the answer to a reading. Inlined, so that a packet is built where it is returned.
#[inline(always)]
fn read<T>(
    terms: &Terms,
    packet_type: PacketType,
    payload: &[u8],
    make: impl FnOnce(Answer<'_>) -> T,
) -> Result<T, Refusal> {
    let mut row = MaybeUninit::uninit();
    let row = read_row(
        terms,
        packet_type.as_u8(),
        payload,
        &mut [0_u8; 0],
        &mut row,
    )?;
    Ok(make(Answer { payload, row }))
}

/// The same with the packet's text, whose length is one of the row's numbers.
#[inline(always)]
fn read_text(
    terms: &Terms,
    packet_type: PacketType,
    payload: &[u8],
    length: usize,
    make: impl FnOnce(Answer<'_>, String) -> Packet,
) -> Result<Packet, Refusal> {
    let mut row = MaybeUninit::uninit();
    // The text is a part of the payload.
    let mut text = Vec::with_capacity(payload.len().min(MAX_USER_AGENT_SIZE));
    let to = text.spare_capacity_mut();
    let row = read_row(terms, packet_type.as_u8(), payload, to, &mut row)?;
    // SAFETY: an accepted call has stored every byte of the text whose length it answers, each below 128.
    let text = unsafe {
        text.set_len(row[length] as usize);
        String::from_utf8_unchecked(text)
    };
    Ok(make(Answer { payload, row }, text))
}

fn addresses(terms: &Terms, payload: &[u8]) -> Result<Vec<NetAddress>, Refusal> {
    let count = read(terms, PacketType::Addr, payload, |answer| answer.at(1))?;
    NetAddress::list(terms, payload, count)
}

fn headers(terms: &Terms, payload: &[u8]) -> Result<Vec<Header>, Refusal> {
    let (count, first) = read(terms, PacketType::Headers, payload, |answer| {
        (answer.at(1), answer.at(2))
    })?;
    // A list of results would not know how long it will be, and grow.
    let mut headers = Vec::with_capacity(count);
    for item in payload[first..].chunks_exact(HEADER_SIZE) {
        headers.push(Header::decode(item)?);
    }
    Ok(headers)
}

/// A getblocktxn by its indexes: these read where the payload does, which begins with its hash.
fn request(terms: &Terms, payload: &[u8]) -> Result<CompactBlockRequest, Refusal> {
    let indexes = all_indexes(terms, payload)?;
    Ok(CompactBlockRequest {
        block_hash: BlockHash::new(array(payload, 0)),
        indexes,
    })
}

/// The number decides, also where it is that of a type with a name.
fn unknown(terms: &Terms, packet_type: u8, payload: &[u8]) -> Result<Packet, Refusal> {
    if let 0..30 = packet_type {
        return Packet::decode_under(terms, PacketType::from_u8(packet_type), payload);
    }
    read(terms, PacketType::Unknown(packet_type), payload, |answer| {
        Packet::Unknown {
            packet_type,
            payload: answer.raw(),
        }
    })
}

/// What the library answered about a payload: every place in the row has its bytes.
struct Answer<'payload> {
    payload: &'payload [u8],
    row: &'payload PacketRow,
}

impl Answer<'_> {
    /// A number of the row as a place or a count.
    fn at(&self, i: usize) -> usize {
        self.row[i] as usize
    }

    /// The bytes at the place that a number of the row is.
    fn array<const N: usize>(&self, i: usize) -> [u8; N] {
        array(self.payload, self.row[i])
    }

    fn nonce(&self) -> [u8; 8] {
        self.row[1].to_le_bytes()
    }

    fn raw(&self) -> Vec<u8> {
        self.payload[self.at(1)..][..self.at(2)].to_vec()
    }

    fn version(&self, agent: String) -> Packet {
        let row = self.row;
        Packet::Version(VersionPacket {
            version: row[1] as u32,
            services: row[2],
            time: row[3],
            remote: NetAddress {
                time: row[4],
                services: row[5],
                ip: ip(row[6], row[7]),
                port: row[8] as u16,
                key: self.array(9),
            },
            nonce: row[10].to_le_bytes(),
            agent,
            height: row[13] as u32,
            no_relay: row[14] == 1,
        })
    }

    fn inventory(&self) -> Vec<Inventory> {
        let (items, _) = self.payload[self.at(2)..].as_chunks::<36>();
        items.iter().map(Inventory::from_flat).collect()
    }

    fn locator(&self) -> LocatorPacket {
        let (hashes, _) = self.payload[self.at(2)..self.at(3)].as_chunks();
        LocatorPacket {
            locator: hashes.iter().copied().map(BlockHash::new).collect(),
            stop: BlockHash::new(self.array(3)),
        }
    }

    fn reject(&self, reason: String) -> Packet {
        Packet::Reject(RejectPacket {
            message: PacketType::from_u8(self.row[1] as u8),
            code: self.row[2] as u8,
            reason,
            hash: (self.row[5] == 1).then(|| self.array(6)),
        })
    }

    fn sendcmpct(&self) -> Packet {
        Packet::SendCmpct {
            mode: self.row[1] as u8,
            version: self.row[2],
        }
    }

    fn getproof(&self) -> GetProofPacket {
        GetProofPacket {
            root: TreeRoot::new(self.array(1)),
            key: NameHash::new(self.array(2)),
        }
    }
}

impl Inventory {
    fn from_flat(item: &[u8; 36]) -> Self {
        Self {
            kind: InventoryKind::from_u32(u32::from_le_bytes(array(item, 0))),
            hash: array(item, 4),
        }
    }

    fn flat(&self) -> [u8; 36] {
        let mut flat = [0; 36];
        flat[..4].copy_from_slice(&self.kind.as_u32().to_le_bytes());
        flat[4..].copy_from_slice(&self.hash);
        flat
    }
}

// ---- writing

/// What a writer writes, by one call into room for the most that it may need; that is not cleared before.
#[inline]
pub(crate) fn written(
    most: usize,
    write: impl Fn(&mut [MaybeUninit<u8>]) -> Result<usize, Refusal>,
) -> Result<Vec<u8>, Refusal> {
    let mut out = Vec::with_capacity(most);
    let length = write(out.spare_capacity_mut())?;
    // SAFETY: an accepted call has stored every byte of the length that it answers.
    unsafe { out.set_len(length) };
    Ok(out)
}

/// Room for items of a width and what else there is: what is refused for its length needs none.
fn most(count: usize, item: usize, other: usize) -> usize {
    count
        .saturating_mul(item)
        .saturating_add(3 + other)
        .min(MAX_FRAME_PAYLOAD_SIZE)
}

fn encode_addr(items: &[NetAddress]) -> Result<Vec<u8>, Refusal> {
    let flat: Vec<[u8; 67]> = items.iter().map(NetAddress::flat).collect();
    written(most(items.len(), NET_ADDRESS_SIZE, 0), |out| {
        write_addr(flat.as_flattened(), out)
    })
}

fn encode_inventory(items: &[Inventory]) -> Result<Vec<u8>, Refusal> {
    let flat: Vec<[u8; 36]> = items.iter().map(Inventory::flat).collect();
    written(most(items.len(), 36, 0), |out| {
        write_inventory(flat.as_flattened(), out)
    })
}

fn encode_locator(packet: &LocatorPacket) -> Result<Vec<u8>, Refusal> {
    let (hashes, stop) = (BlockHash::flat(&packet.locator), packet.stop.as_bytes());
    written(most(packet.locator.len(), 32, 32), |out| {
        write_locator(hashes, stop, out)
    })
}

/// Headers are put side by side where the writer takes them, and not encoded one by one and copied.
fn encode_headers(headers: &[Header]) -> Result<Vec<u8>, Refusal> {
    let mut flat = vec![0; headers.len() * HEADER_SIZE];
    let mut encoder = Encoder::new(&mut flat);
    headers
        .iter()
        .for_each(|header| header.encode_to(&mut encoder));
    written(most(headers.len(), HEADER_SIZE, 0), |out| {
        write_headers(&flat, out)
    })
}

fn encode_version(packet: &VersionPacket) -> Result<Vec<u8>, Refusal> {
    let fields = VersionFields {
        version: packet.version,
        services: packet.services,
        time: packet.time,
        remote: packet.remote,
        nonce: u64::from_le_bytes(packet.nonce),
        height: packet.height,
        no_relay: packet.no_relay,
    };
    let agent = packet.agent.as_bytes();
    written(122 + agent.len().min(MAX_USER_AGENT_SIZE), |out| {
        write_version(&fields, agent, out)
    })
}

fn encode_reject(packet: &RejectPacket) -> Result<Vec<u8>, Refusal> {
    let (message, reason) = (packet.message.as_u8(), packet.reason.as_bytes());
    let (present, hash) = (packet.hash.is_some(), packet.hash.unwrap_or_default());
    written(35 + reason.len().min(MAX_REJECT_REASON_SIZE), |out| {
        write_reject(message, packet.code, reason, present, &hash, out)
    })
}

fn encode_getproof(packet: &GetProofPacket) -> Result<Vec<u8>, Refusal> {
    let (root, key) = (packet.root.as_bytes(), packet.key.as_bytes());
    written(64, |out| write_getproof(root, key, out))
}

fn encode_getblocktxn(request: &CompactBlockRequest) -> Result<Vec<u8>, Refusal> {
    let indexes = numbers(&request.indexes);
    let hash = request.block_hash.as_bytes();
    written(most(indexes.len(), 3, 32), |out| {
        write_getblocktxn(hash, indexes, out)
    })
}

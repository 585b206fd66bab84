//! An input for both sides.

use std::fmt;

use hns_port::NetworkMagic;

use crate::packets::{CARRIED, packet_type};

#[derive(Clone, Copy, Debug, Eq, Ord, PartialEq, PartialOrd)]
pub enum Kind {
    ReadU8,
    ReadU16,
    ReadU32,
    ReadU64,
    CompactSize,
    CompactUsize,
    Slice,
    Bounded,
    Varbytes,
    Finish,
    CompactSizes,
    Reads,
    Puts,
    HeaderDecode,
    HeaderRead,
    HeaderPut,
    FramePrefix,
    FrameExact,
    FrameEncode,
    Stream,
    Packet,
    Item,
    Find,
    Rewrite,
    Write,
    OwnedPacket,
    OwnedFields,
    OwnedFrame,
    OwnedStream,
    Card,
    Row,
    Rights,
}

impl Kind {
    pub const ALL: [Self; 32] = [
        Self::ReadU8,
        Self::ReadU16,
        Self::ReadU32,
        Self::ReadU64,
        Self::CompactSize,
        Self::CompactUsize,
        Self::Slice,
        Self::Bounded,
        Self::Varbytes,
        Self::Finish,
        Self::CompactSizes,
        Self::Reads,
        Self::Puts,
        Self::HeaderDecode,
        Self::HeaderRead,
        Self::HeaderPut,
        Self::FramePrefix,
        Self::FrameExact,
        Self::FrameEncode,
        Self::Stream,
        Self::Packet,
        Self::Item,
        Self::Find,
        Self::Rewrite,
        Self::Write,
        Self::OwnedPacket,
        Self::OwnedFields,
        Self::OwnedFrame,
        Self::OwnedStream,
        Self::Card,
        Self::Row,
        Self::Rights,
    ];

    /// The parts of all random comparisons that the Rust has a side in.
    pub fn shares() -> u64 {
        let compared = |kind: &&Self| **kind != Self::Rights;
        let kinds = Self::ALL.iter().filter(compared);
        kinds.map(|kind| kind.share()).sum()
    }

    /// Its part of the random comparisons.
    pub const fn share(self) -> u64 {
        match self {
            // A push counts three times: itself with and without a tally, and two refusals of the tally.
            Self::Stream => 24,
            Self::Rewrite | Self::Packet | Self::Write => 8,
            // It comes on top: `shares` does not count it.
            Self::Rights => 2,
            Self::OwnedPacket | Self::OwnedFields | Self::OwnedFrame => 4,
            Self::FramePrefix | Self::FrameExact | Self::Reads | Self::Puts => 2,
            Self::OwnedStream => 4,
            // It has 256 cases, and the limits take them all.
            Self::Card => 0,
            _ => 1,
        }
    }

    /// What is compared, and what the numbers of a case are.
    pub const fn what(self) -> &'static str {
        match self {
            Self::ReadU8 => "read_u8 (place)",
            Self::ReadU16 => "read_u16_le (place)",
            Self::ReadU32 => "read_u32_le (place)",
            Self::ReadU64 => "read_u64_le (place)",
            Self::CompactSize => "read_compact_size (place)",
            Self::CompactUsize => "read_compact_usize (place, maximum)",
            Self::Slice => "read_slice (place, length)",
            Self::Bounded => "read_bounded_vec (place, length, maximum)",
            Self::Varbytes => "read_varbytes (place, maximum)",
            Self::Finish => "finish (place)",
            Self::CompactSizes => "compact sizes in a list (place, room)",
            Self::Reads => "reads one after another (kinds)",
            Self::Puts => "puts (place, room, then put and value)",
            Self::HeaderDecode => "Header::decode and encode",
            Self::HeaderRead => "a header at a place (place)",
            Self::HeaderPut => "Header::encode to a place (place, room)",
            Self::FramePrefix => "decode_frame_prefix",
            Self::FrameExact => "Frame::decode_exact",
            Self::FrameEncode => "Frame::encode (type, room)",
            Self::Stream => "FrameDecoder::push, and a tally (chunks)",
            Self::Packet => "Packet::decode (type, room for the text)",
            Self::Item => "an item of a Packet (type, place, short)",
            Self::Find => "a hash among inventory (type, place, other)",
            Self::Card => "the length card, both ends (type)",
            Self::Rewrite => "Packet::encode_payload (type, room)",
            Self::Write => "writers (type, seed, room, rest of a list)",
            Self::OwnedPacket => "owned: Packet, read and written (type)",
            Self::OwnedFields => "owned: Packet of fields (type, seed)",
            Self::OwnedFrame => "owned: Frame of a packet (type, change)",
            Self::OwnedStream => "owned: FrameDecoder::push, tally (chunks)",
            Self::Row => "rows by themselves (type, place)",
            Self::Rights => "rights by role (type, role, mask)",
        }
    }
}

pub const NETWORKS: [NetworkMagic; 4] = [
    NetworkMagic::Mainnet,
    NetworkMagic::Testnet,
    NetworkMagic::Regtest,
    NetworkMagic::Simnet,
];

#[derive(Clone)]
pub struct Case {
    pub kind: Kind,
    pub network: usize,
    pub bytes: Vec<u8>,
    pub numbers: Vec<u64>,
}

impl Case {
    pub fn new(kind: Kind, bytes: Vec<u8>, numbers: &[u64]) -> Self {
        let numbers = numbers.to_vec();
        Self {
            kind,
            network: 0,
            bytes,
            numbers,
        }
    }

    pub const fn on(mut self, network: usize) -> Self {
        self.network = network;
        self
    }

    /// A number of the case, 0 where it has none.
    pub fn number(&self, i: usize) -> u64 {
        self.numbers.get(i).copied().unwrap_or(0)
    }

    /// Whether the Rust has no answer of its own: rows, rights, and packets that it parses and the
    /// port carries.
    pub fn alone(&self) -> bool {
        match self.kind {
            Kind::Row | Kind::Rights => true,
            Kind::Packet | Kind::Item | Kind::Find | Kind::Rewrite => self.carried(),
            Kind::OwnedPacket | Kind::Card => self.carried(),
            _ => false,
        }
    }

    fn carried(&self) -> bool {
        CARRIED.contains(&packet_type(self))
    }

    /// The place, which the Rust's decoder never moves past the end.
    pub fn place(&self) -> usize {
        self.bytes.len().min(self.number(0) as usize)
    }
}

impl fmt::Display for Case {
    fn fmt(&self, f: &mut fmt::Formatter<'_>) -> fmt::Result {
        let network = NETWORKS[self.network];
        writeln!(f, "  {}, {network:?}", self.kind.what())?;
        writeln!(f, "  numbers {:?}", self.numbers)?;
        write!(f, "  {} bytes ", self.bytes.len())?;
        for byte in self.bytes.iter().take(200) {
            write!(f, "{byte:02x}")?;
        }
        let more = if self.bytes.len() > 200 { " .." } else { "" };
        writeln!(f, "{more}")
    }
}

/// What became of a case.
pub enum Verdict {
    /// So many answers compared, and the same.
    Same(u64),
    /// One of the intended differences.
    LeftOut,
    Differs {
        port: String,
        rust: String,
    },
}

impl Verdict {
    pub fn of<T: fmt::Debug + PartialEq>(port: &T, rust: &T) -> Self {
        if port == rust {
            return Self::Same(1);
        }
        Self::Differs {
            port: format!("{port:?}"),
            rust: format!("{rust:?}"),
        }
    }

    pub const fn differs(&self) -> bool {
        matches!(self, Self::Differs { .. })
    }

    /// This where it differs, and otherwise what comes next.
    pub fn and_then(self, next: impl FnOnce() -> Self) -> Self {
        if self.differs() { self } else { next() }
    }
}

/// Both answers where they are not the same.
impl fmt::Display for Verdict {
    fn fmt(&self, f: &mut fmt::Formatter<'_>) -> fmt::Result {
        match self {
            Self::Differs { port, rust } => {
                writeln!(f, "  port {port:.600}\n  rust {rust:.600}")
            }
            _ => Ok(()),
        }
    }
}

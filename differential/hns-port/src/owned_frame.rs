//! The frame and the stream with buffers of their own.

use crate::owned_packet::written;
use crate::{
    FRAME_HEADER_SIZE, MAX_FRAME_PAYLOAD_SIZE, NetworkMagic, Packet, PacketType, Refusal, Tally,
    Terms, lent, write_raw,
};

/// A frame.
///
/// ```
/// use hns_port::{Frame, NetworkMagic, Packet};
///
/// let frame = Frame::from_packet(&Packet::Ping([1, 2, 3, 4, 5, 6, 7, 8]))?;
/// let bytes = frame.encode(NetworkMagic::Mainnet)?;
/// assert_eq!(bytes[..9], [0xd3, 0xf2, 0x6e, 0x5b, 2, 8, 0, 0, 0]);
///
/// let read = Frame::decode_exact(NetworkMagic::Mainnet, &bytes)?;
/// assert_eq!(read.decode_packet()?, Packet::Ping([1, 2, 3, 4, 5, 6, 7, 8]));
/// # Ok::<(), hns_port::Refusal>(())
/// ```
#[derive(Clone, Debug, Eq, PartialEq)]
pub struct Frame {
    /// The type of its packet.
    pub packet_type: PacketType,
    /// The packet's payload.
    pub payload: Vec<u8>,
}

impl Frame {
    /// A frame of a payload, which is refused by 5 where it is too long.
    pub fn new(packet_type: PacketType, payload: Vec<u8>) -> Result<Self, Refusal> {
        // Without room, what is not refused before is refused by 16.
        match write_raw(&payload, &mut []) {
            Err(refusal) if refusal.number != 16 => Err(refusal),
            _ => Ok(Self {
                packet_type,
                payload,
            }),
        }
    }

    /// The frame of a packet.
    pub fn from_packet(packet: &Packet) -> Result<Self, Refusal> {
        Self::new(packet.packet_type(), packet.encode_payload()?)
    }

    /// Reads the payload as a packet of the frame's type. No role is named, so that every type may be sent.
    pub fn decode_packet(&self) -> Result<Packet, Refusal> {
        self.decode_packet_under(&Terms::full())
    }

    /// The same under terms: 21 and 22 come before all other refusals.
    pub fn decode_packet_under(&self, terms: &Terms) -> Result<Packet, Refusal> {
        Packet::decode_under(terms, self.packet_type, &self.payload)
    }

    /// Writes the frame.
    pub fn encode(&self, network: NetworkMagic) -> Result<Vec<u8>, Refusal> {
        let (packet_type, payload) = (self.packet_type.as_u8(), &self.payload[..]);
        // A longer payload is refused, and needs no room.
        let most = FRAME_HEADER_SIZE + payload.len().min(MAX_FRAME_PAYLOAD_SIZE);
        written(most, |out| lent::encode(network, packet_type, payload, out))
    }

    /// Reads bytes that are one frame.
    pub fn decode_exact(network: NetworkMagic, input: &[u8]) -> Result<Self, Refusal> {
        lent::decode_exact(network, input).map(Self::from)
    }
}

impl From<lent::Frame<'_>> for Frame {
    fn from(frame: lent::Frame<'_>) -> Self {
        Self {
            packet_type: PacketType::from_u8(frame.packet_type),
            payload: frame.payload.to_vec(),
        }
    }
}

/// The frame that bytes begin with and how many it takes; none where it is not yet there.
pub fn decode_frame_prefix(
    network: NetworkMagic,
    input: &[u8],
) -> Result<Option<(Frame, usize)>, Refusal> {
    let whole = lent::decode_frame_prefix(network, input)?;
    Ok(whole.map(|(frame, taken)| (frame.into(), taken)))
}

/// A stream of frames.
///
/// ```
/// use hns_port::{Frame, FrameDecoder, NetworkMagic, Packet};
///
/// let bytes = Frame::from_packet(&Packet::Verack)?.encode(NetworkMagic::Regtest)?;
/// let mut stream = FrameDecoder::new(NetworkMagic::Regtest);
/// assert_eq!(stream.push(&bytes[..5])?, []);
/// assert_eq!(stream.buffered_len(), 5);
///
/// let frames = stream.push(&bytes[5..])?;
/// assert_eq!(frames[0].decode_packet()?, Packet::Verack);
/// assert_eq!(stream.buffered_len(), 0);
/// # Ok::<(), hns_port::Refusal>(())
/// ```
#[derive(Clone, Debug)]
pub struct FrameDecoder {
    network: NetworkMagic,
    store: Vec<u8>,
    held: usize,
    output: Vec<u8>,
}

impl FrameDecoder {
    /// A stream that holds nothing.
    pub const fn new(network: NetworkMagic) -> Self {
        Self {
            network,
            store: Vec::new(),
            held: 0,
            output: Vec::new(),
        }
    }

    /// How many bytes wait for the rest of their frame.
    pub const fn buffered_len(&self) -> usize {
        self.held
    }

    /// Takes bytes, and gives the frames that are whole by now. After a refusal by 4 or 5 the bytes are
    /// held, and the stream does not go on; after one by 6 the stream is as it was.
    pub fn push(&mut self, input: &[u8]) -> Result<Vec<Frame>, Refusal> {
        self.pushed(|network, store, held, output| lent::push(network, store, held, input, output))
    }

    /// The same, and adds these frames to a tally. It is refused by 20 too, where a total of the tally
    /// would pass 2^63 - 1; stream and tally are then as they were.
    pub fn push_tallying(
        &mut self,
        input: &[u8],
        tally: &mut Tally,
    ) -> Result<Vec<Frame>, Refusal> {
        self.pushed(|network, store, held, output| {
            lent::push_tallying(network, store, held, input, output, tally.numbers_mut())
        })
    }

    /// A push, once store and output are long enough, and its frames.
    fn pushed(
        &mut self,
        mut push: impl FnMut(NetworkMagic, &mut [u8], usize, &mut [u8]) -> lent::Pushed,
    ) -> Result<Vec<Frame>, Refusal> {
        let delivered = loop {
            let (store, output) = (&mut self.store, &mut self.output);
            let pushed = push(self.network, store, self.held, output);
            self.held = pushed.held;
            // These two change nothing, and say the length that is needed.
            match pushed.answer {
                Err(Refusal { number: 17, a, .. }) => store.resize(a as usize, 0),
                Err(Refusal { number: 16, a, .. }) => output.resize(a as usize, 0),
                answer => break answer?,
            }
        };
        let mut rest = &self.output[..delivered.bytes];
        let mut frames = Vec::with_capacity(delivered.frames);
        while let Some((frame, taken)) = decode_frame_prefix(self.network, rest)? {
            frames.push(frame);
            rest = &rest[taken..];
        }
        Ok(frames)
    }
}

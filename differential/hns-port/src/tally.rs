/// How many numbers a tally has.
pub const TALLY_SIZE: usize = 514;

/// Where its parts begin: frames by type at 0, then these.
const BYTES: usize = 256;
const TOTAL_FRAMES: usize = 512;
const TOTAL_BYTES: usize = 513;

/// What was delivered, by type byte: how many frames, and their bytes, each payload plus 9.
///
/// It starts as zeros and is handed from push to push, and on to a second stream if its frames are to be
/// counted on top. A push adds the frames that it delivers, a refused one none.
///
/// ```
/// use hns_port::{Frame, FrameDecoder, NetworkMagic, Packet, Tally};
///
/// let ping = Frame::from_packet(&Packet::Ping([7; 8]))?.encode(NetworkMagic::Mainnet)?;
/// let mut tally = Tally::new();
/// let mut stream = FrameDecoder::new(NetworkMagic::Mainnet);
/// stream.push_tallying(&[&ping[..], &ping[..5]].concat(), &mut tally)?;
/// assert_eq!((tally.frames(2), tally.bytes(2)), (1, 17));
///
/// // What the first stream still holds is not delivered, and not counted.
/// let mut second = FrameDecoder::new(NetworkMagic::Mainnet);
/// second.push_tallying(&ping, &mut tally)?;
/// assert_eq!((tally.total_frames(), tally.total_bytes()), (2, 34));
/// # Ok::<(), hns_port::Refusal>(())
/// ```
#[derive(Clone, Debug, Eq, PartialEq)]
pub struct Tally(Box<[u64; TALLY_SIZE]>);

impl Tally {
    /// A tally of nothing.
    pub fn new() -> Self {
        Self::from([0; TALLY_SIZE])
    }

    /// The frames of a type.
    pub const fn frames(&self, packet_type: u8) -> u64 {
        self.0[packet_type as usize]
    }

    /// The bytes of a type's frames.
    pub const fn bytes(&self, packet_type: u8) -> u64 {
        self.0[BYTES + packet_type as usize]
    }

    /// The frames of all types. 20 goes by this number and by [`total_bytes`](Self::total_bytes): neither
    /// is summed up again.
    pub const fn total_frames(&self) -> u64 {
        self.0[TOTAL_FRAMES]
    }

    /// The bytes of all frames.
    pub const fn total_bytes(&self) -> u64 {
        self.0[TOTAL_BYTES]
    }

    /// The numbers as the library has them, to be kept: frames by type, bytes by type, both totals.
    pub const fn numbers(&self) -> &[u64; TALLY_SIZE] {
        &self.0
    }

    /// The numbers to lend.
    pub const fn numbers_mut(&mut self) -> &mut [u64; TALLY_SIZE] {
        &mut self.0
    }
}

impl Default for Tally {
    fn default() -> Self {
        Self::new()
    }
}

/// Numbers that were kept. Their totals are taken as they are.
impl From<[u64; TALLY_SIZE]> for Tally {
    fn from(numbers: [u64; TALLY_SIZE]) -> Self {
        Self(Box::new(numbers))
    }
}

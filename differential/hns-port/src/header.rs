use std::mem::{MaybeUninit, offset_of};

use crate::{
    BlockHash, BlockTime, CompactTarget, Encoder, MerkleRoot, PowMask, Refusal, ReservedRoot, Row,
    TreeRoot, WitnessRoot, ffi, row,
};

/// The bytes of a header.
pub const HEADER_SIZE: usize = 236;

/// The bytes of a header's extra nonce.
pub const EXTRA_NONCE_SIZE: usize = 24;

/// A header's hashes side by side.
pub const HASHES_SIZE: usize = 216;

/// A block's header.
///
/// ```
/// use hns_port::{BlockTime, HEADER_SIZE, Header};
///
/// let header = Header { time: BlockTime::new(1_580_745_078), ..Header::default() };
/// let bytes = header.encode();
/// assert_eq!(bytes.len(), HEADER_SIZE);
/// assert_eq!(Header::decode(&bytes)?, header);
/// assert_eq!(Header::decode(&bytes[1..]).unwrap_err().number, 15);
/// # Ok::<(), hns_port::Refusal>(())
/// ```
// The hashes stand last and in the library's order, so that it reads and writes them in place.
#[derive(Clone, Debug, Default, Eq, PartialEq)]
#[repr(C)]
pub struct Header {
    /// When the block was made.
    pub time: BlockTime,
    /// What a miner counts up.
    pub nonce: u32,
    /// The block's version.
    pub version: u32,
    /// The target, in its short form.
    pub bits: CompactTarget,
    /// The hash of the block before.
    pub previous_block: BlockHash,
    /// The root of the tree of names.
    pub tree_root: TreeRoot,
    /// More room for a miner to count in.
    pub extra_nonce: [u8; EXTRA_NONCE_SIZE],
    /// Kept for later use.
    pub reserved_root: ReservedRoot,
    /// The root of the witnesses.
    pub witness_root: WitnessRoot,
    /// The root of the transactions.
    pub merkle_root: MerkleRoot,
    /// What the hash of the work is masked with.
    pub mask: PowMask,
}

const HASHES: usize = offset_of!(Header, previous_block);
const _: () = assert!(offset_of!(Header, mask) + 32 == HASHES + HASHES_SIZE);

impl Header {
    /// Reads 236 bytes; any other length is refused by 15.
    #[inline]
    pub fn decode(input: &[u8]) -> Result<Self, Refusal> {
        let (bytes, len) = (input.as_ptr(), input.len());
        // SAFETY: the pointers and counts are those of slices, and they do not overlap.
        let call = |hashes, m, answer, n| unsafe {
            ffi::hns_decode_header(bytes, len, hashes, m, answer, n);
        };
        Ok(Self::filled(call)?.0)
    }

    /// A header at a place, and the place after it.
    #[inline]
    pub fn read(input: &[u8], position: usize) -> Result<(Self, usize), Refusal> {
        let (bytes, len) = (input.as_ptr(), input.len());
        // SAFETY: as above.
        Self::filled(|hashes, m, answer, n| unsafe {
            ffi::hns_read_header(bytes, len, position, hashes, m, answer, n);
        })
    }

    /// The header's bytes.
    #[inline]
    pub fn encode(&self) -> [u8; HEADER_SIZE] {
        let mut out = [0; HEADER_SIZE];
        self.encode_to(&mut Encoder::new(&mut out));
        out
    }

    /// Puts the header's bytes.
    #[inline]
    pub fn encode_to(&self, encoder: &mut Encoder<'_>) {
        let (hashes, m) = (self.hashes(), HASHES_SIZE);
        let (nonce, time) = (self.nonce, self.time.get());
        let (version, bits) = (self.version, self.bits.get());
        // SAFETY: as above.
        encoder.put(|out, len, at| unsafe {
            ffi::hns_put_header(nonce, time, hashes, m, version, bits, out, len, at)
        });
    }

    /// The header that a call fills, hashes in place and numbers in a row, and the place after it.
    #[inline]
    fn filled(
        call: impl FnOnce(*mut u8, usize, *mut u64, usize),
    ) -> Result<(Self, usize), Refusal> {
        let mut header = MaybeUninit::<Self>::uninit();
        let to = header.as_mut_ptr();
        // SAFETY: the hashes are within the header.
        let hashes = unsafe { to.cast::<u8>().add(HASHES) };
        // SAFETY: the places of fields.
        let numbers = |row: &Row| unsafe {
            (&raw mut (*to).nonce).write(row.at(2) as u32);
            (&raw mut (*to).time).write(BlockTime::new(row.at(3)));
            (&raw mut (*to).version).write(row.at(4) as u32);
            (&raw mut (*to).bits).write(CompactTarget::new(row.at(5) as u32));
            row.at(1) as usize
        };
        let next = row(|answer, n| call(hashes, HASHES_SIZE, answer, n), numbers)?;
        // SAFETY: an accepted call has stored every hash, and the other fields were written here.
        Ok((unsafe { header.assume_init() }, next))
    }

    #[inline]
    fn hashes(&self) -> *const u8 {
        // SAFETY: as above.
        unsafe { (&raw const *self).cast::<u8>().add(HASHES) }
    }
}

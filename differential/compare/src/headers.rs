//! Headers: alone, at a place, and put.

use hns_header_consensus::Header as Published;
use hns_port::{
    BlockHash, BlockTime, CompactTarget, HASHES_SIZE, HEADER_SIZE, Header, MerkleRoot, PowMask,
    Refusal, ReservedRoot, TreeRoot, WitnessRoot, ffi,
};

use crate::buffer::{filled, splice};
use crate::case::{Case, Verdict};
use crate::rust::{decode_error, header_error};

pub fn decode(case: &Case) -> Verdict {
    let port = Header::decode(&case.bytes);
    let rust = Published::decode(&case.bytes).map_err(header_error);
    let fields = Verdict::of(&port, &rust.as_ref().map(ported).map_err(|e| *e));
    let again = || {
        Verdict::of(
            &port.map(|h| h.encode().to_vec()),
            &rust.map(|h| h.encode().to_vec()),
        )
    };
    fields.and_then(again).and_then(|| hashes_alone(case))
}

/// A refused read leaves the hashes alone, and an accepted one changes no others.
fn hashes_alone(case: &Case) -> Verdict {
    let mut hashes = filled(HASHES_SIZE + 8);
    let mut expected = hashes.clone();
    let mut row = [0; 6];
    let (input, output) = (case.bytes.as_ptr(), hashes.as_mut_ptr());
    // SAFETY: the pointers and counts are those of slices, and they do not overlap.
    unsafe {
        ffi::hns_decode_header(
            input,
            case.bytes.len(),
            output,
            hashes.len(),
            row.as_mut_ptr(),
            row.len(),
        );
    }
    if case.bytes.len() == HEADER_SIZE {
        splice(&mut expected, 0, &case.bytes[12..196]);
        splice(&mut expected, 184, &case.bytes[204..]);
    }
    Verdict::of(&hashes, &expected)
}

pub fn read(case: &Case) -> Verdict {
    let place = case.place();
    let port = Header::read(&case.bytes, place);
    let rust = read_published(&case.bytes, place).map(|h| (ported(&h), place + HEADER_SIZE));
    Verdict::of(&port, &rust)
}

/// As a headers packet reads one.
fn read_published(bytes: &[u8], place: usize) -> Result<Published, Refusal> {
    let mut decoder = hns_encoding::Decoder::new(bytes);
    decoder.read_slice(place).expect("a place within the bytes");
    let bytes = decoder.read_slice(HEADER_SIZE).map_err(decode_error)?;
    Published::decode(bytes).map_err(header_error)
}

pub fn put(case: &Case) -> Verdict {
    let Ok(header) = Published::decode(&case.bytes) else {
        return Verdict::LeftOut;
    };
    let (place, room) = (case.number(0) as usize, case.number(1) as usize);
    let mut out = filled(room);
    let mut expected = out.clone();
    let mut encoder = hns_port::Encoder::at(&mut out, place);
    ported(&header).encode_to(&mut encoder);
    let next = encoder.position();
    splice(&mut expected, place, &header.encode());
    Verdict::of(&(next, out), &(place + HEADER_SIZE, expected))
}

/// The Rust's header with the port's names for its types.
pub fn ported(header: &Published) -> Header {
    Header {
        nonce: header.nonce,
        time: BlockTime::new(header.time.get()),
        previous_block: BlockHash::new(header.previous_block.into_bytes()),
        tree_root: TreeRoot::new(header.tree_root.into_bytes()),
        extra_nonce: header.extra_nonce,
        reserved_root: ReservedRoot::new(header.reserved_root.into_bytes()),
        witness_root: WitnessRoot::new(header.witness_root.into_bytes()),
        merkle_root: MerkleRoot::new(header.merkle_root.into_bytes()),
        version: header.version,
        bits: CompactTarget::new(header.bits.get()),
        mask: PowMask::new(header.mask.into_bytes()),
    }
}

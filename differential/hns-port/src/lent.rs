//! The calls as the library has them: on lent buffers, without an allocation. A packet is a row of
//! numbers and places, and what is written goes to the front of a lent output.
//!
//! The crate's root has all of these too, but for [`Frame`], [`FrameDecoder`] and
//! [`decode_frame_prefix`], whose names are the owned ones there.
//!
//! ```
//! use hns_port::lent::{FrameDecoder, decode_frame_prefix, encode};
//! use hns_port::NetworkMagic::Mainnet;
//!
//! let mut bytes = [0; 17];
//! assert_eq!(encode(Mainnet, 2, &[1, 2, 3, 4, 5, 6, 7, 8], &mut bytes)?, 17);
//!
//! // A store of 16,000,018 bytes serves every stream, one of 17 this one.
//! let (mut store, mut output) = ([0; 17], [0; 17]);
//! let mut stream = FrameDecoder::new(Mainnet, &mut store);
//! assert_eq!(stream.push(&bytes[..10], &mut output)?.frames, 0);
//! assert_eq!(stream.push(&bytes[10..], &mut output)?.frames, 1);
//! let (frame, taken) = decode_frame_prefix(Mainnet, &output)?.expect("a whole frame");
//! assert_eq!((frame.packet_type, frame.payload, taken), (2, &bytes[9..], 17));
//! # Ok::<(), hns_port::Refusal>(())
//! ```

pub use crate::Output;
pub use crate::encoding::{Decoder, Encoder};
pub use crate::frame::{
    Delivered, Frame, FrameDecoder, Pushed, decode_exact, decode_frame_prefix, encode, push,
    push_tallying,
};
pub use crate::header::{EXTRA_NONCE_SIZE, HASHES_SIZE, HEADER_SIZE, Header};
pub use crate::packet::{
    PacketRow, find, indexes, item, item_numbers, length_card, read_packet, rewrite,
};
pub use crate::terms::Terms;
pub use crate::types::NetworkMagic;
pub use crate::writers::{
    AddressFields, VersionFields, write_addr, write_empty, write_feefilter, write_getblocktxn,
    write_getproof, write_headers, write_inventory, write_locator, write_nonce, write_raw,
    write_reject, write_sendcmpct, write_version,
};

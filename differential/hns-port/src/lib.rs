//! The proved Handshake codec for Rust: safe calls over its static libraries, under the names of the
//! published crates. A program for `hns_p2p_wire` has `use hns_port::..` in its place.
//!
//! ```
//! use hns_port::{Packet, PacketType};
//!
//! let payload = [1, 2, 3, 4, 5, 6, 7, 8];
//! let packet = Packet::decode(PacketType::Ping, &payload)?;
//! assert_eq!(packet, Packet::Ping(payload));
//! assert_eq!(packet.encode_payload()?, payload);
//! # Ok::<(), hns_port::Refusal>(())
//! ```
//!
//! What is read, refused or written is decided by the proved code: a decode is one call of it (a second
//! for addresses, which are no bytes of the payload, and one for each header), and copies of the bytes at
//! the places that it answers. What differs from the Rust:
//!
//! - a [`Refusal`] is a number and its values; `WireError` is another name for it;
//! - [`BlockHash`] and the other values of `hns_primitives` are here, since no other crate is needed;
//! - blocks, transactions, compact blocks and proofs are the bytes that they were sent as.
//!
//! [`Terms`] say which types the role of a peer may send; [`Packet::decode`] and
//! [`Frame::decode_packet`] name no role.
//! [`lent`] has the calls without allocations.
//!
//! # Linking
//!
//! The libraries are taken from the folder that HNS_FFI_LIB names, or from target/staticlib of the
//! repository, where `tools/staticlib hns_ffi hns_ffi_frames hns_ffi_packets hns_ffi_writers` puts
//! them.
//!
//! # Why every function is safe
//!
//! The library asks nothing of its callers but what a Rust slice already is: a pointer that is not
//! null, a count, and no overlap of what is lent to be changed. Room for a vector is lent before it
//! holds anything; that an accepted call has stored all that it says, and a text below 128, is proved.
//! So there is nothing left to test here.

#![warn(missing_docs)]

use std::mem::MaybeUninit;

mod encoding;
pub mod ffi;
mod frame;
mod header;
pub mod lent;
mod owned_frame;
mod owned_packet;
mod packet;
mod primitives;
mod refusal;
mod tally;
mod terms;
mod types;
mod writers;

pub use lent::*;
pub use owned_frame::{Frame, FrameDecoder, decode_frame_prefix};
pub use owned_packet::Packet;
pub use primitives::*;
pub use refusal::{DecodeError, HeaderError, Refusal, WireError};
pub use tally::{TALLY_SIZE, Tally};
pub use terms::Terms;
pub use types::*;

#[cfg(doctest)]
#[doc = include_str!("../README.md")]
struct Readme;

/// The folder of the libraries that were linked.
pub const LIBRARIES: &str = env!("HNS_FFI_LIBRARIES");

/// An answer of the library: six numbers.
#[repr(transparent)]
struct Row([u64; 6]);

impl Row {
    /// One of the numbers, loaded by itself: a load of two that were just stored one by one waits
    /// for both stores, and the compiler would join two loads.
    #[inline]
    fn at(&self, i: usize) -> u64 {
        // SAFETY: the place of a number of the row.
        unsafe { (&raw const self.0[i]).read_volatile() }
    }

    #[cold]
    fn refusal(&self) -> Refusal {
        let [number, a, b, c, ..] = self.0;
        Refusal { number, a, b, c }
    }
}

/// What a call's row says.
#[inline]
fn answer<T>(call: impl FnOnce(*mut u64, usize), says: impl FnOnce(&Row) -> T) -> T {
    let mut row = MaybeUninit::<Row>::uninit();
    call(row.as_mut_ptr().cast(), 6);
    // SAFETY: every call stores all six numbers where there is room for them.
    says(unsafe { row.assume_init_ref() })
}

/// What the row of an accepted call says, or the refusal.
#[inline]
fn row<T>(call: impl FnOnce(*mut u64, usize), says: impl FnOnce(&Row) -> T) -> Result<T, Refusal> {
    answer(call, |row| match row.at(0) {
        0 => Ok(says(row)),
        _ => Err(row.refusal()),
    })
}

/// An output to lend: bytes, or room that holds none yet. A call stores there and does not read.
///
/// # Safety
///
/// The places are those of bytes that `self` owns or alone borrows, so that they may be written while
/// `self` is borrowed, and are no part of another slice of the call.
pub unsafe trait Output {
    /// The first place, and how many there are.
    fn places(&mut self) -> (*mut u8, usize);
}

macro_rules! output {
    ($($slice:ty)*) => {$(
        // SAFETY: the places of the slice.
        unsafe impl Output for $slice {
            #[inline]
            fn places(&mut self) -> (*mut u8, usize) {
                (self.as_mut_ptr().cast(), self.len())
            }
        }
    )*};
}

output! { [u8] Vec<u8> [MaybeUninit<u8>] }

// SAFETY: the places of the array.
unsafe impl<const N: usize> Output for [u8; N] {
    #[inline]
    fn places(&mut self) -> (*mut u8, usize) {
        (self.as_mut_ptr(), N)
    }
}

/// The length that a call writes to a lent output, which it takes with the row.
#[inline]
fn length(
    out: &mut (impl Output + ?Sized),
    call: impl FnOnce(*mut u8, usize, *mut u64, usize),
) -> Result<usize, Refusal> {
    let (to, room) = out.places();
    row(
        |answer, n| call(to, room, answer, n),
        |row| row.at(1) as usize,
    )
}

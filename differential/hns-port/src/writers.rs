//! The packet writers: each writes a payload to the output's front and answers its length.

use crate::{NetAddress, Output, Refusal, ffi, length};

type WriteBytes =
    unsafe extern "C" fn(*const u8, usize, to: *mut u8, room: usize, row: *mut u64, n: usize);

/// A writer whose fields are bytes.
#[inline]
fn write_bytes(
    write: WriteBytes,
    bytes: &[u8],
    out: &mut (impl Output + ?Sized),
) -> Result<usize, Refusal> {
    let (from, len) = (bytes.as_ptr(), bytes.len());
    // SAFETY: the pointers and counts are those of slices, and they do not overlap.
    length(out, |to, room, answer, n| unsafe {
        write(from, len, to, room, answer, n);
    })
}

/// No bytes: a verack, getaddr, sendheaders, mempool or filterclear.
#[inline]
pub fn write_empty(out: &mut (impl Output + ?Sized)) -> Result<usize, Refusal> {
    // SAFETY: as above.
    length(out, |to, room, answer, n| unsafe {
        ffi::hns_write_empty(to, room, answer, n);
    })
}

/// A ping or a pong.
#[inline]
pub fn write_nonce(nonce: u64, out: &mut (impl Output + ?Sized)) -> Result<usize, Refusal> {
    // SAFETY: as above.
    length(out, |to, room, answer, n| unsafe {
        ffi::hns_write_nonce(nonce, to, room, answer, n);
    })
}

/// An addr of flat items: time 8, services 8, ip 16, port 2, key 33.
#[inline]
pub fn write_addr(items: &[u8], out: &mut (impl Output + ?Sized)) -> Result<usize, Refusal> {
    write_bytes(ffi::hns_write_addr, items, out)
}

/// An inv, a getdata or a notfound of flat items: kind 4, hash 32.
#[inline]
pub fn write_inventory(items: &[u8], out: &mut (impl Output + ?Sized)) -> Result<usize, Refusal> {
    write_bytes(ffi::hns_write_inventory, items, out)
}

/// A getblocks or a getheaders of flat hashes.
#[inline]
pub fn write_locator(
    hashes: &[u8],
    stop: &[u8; 32],
    out: &mut (impl Output + ?Sized),
) -> Result<usize, Refusal> {
    let (from, len) = (hashes.as_ptr(), hashes.len());
    // SAFETY: as above.
    length(out, |to, room, answer, n| unsafe {
        ffi::hns_write_locator(from, len, stop.as_ptr(), 32, to, room, answer, n);
    })
}

/// A headers packet of flat headers.
#[inline]
pub fn write_headers(items: &[u8], out: &mut (impl Output + ?Sized)) -> Result<usize, Refusal> {
    write_bytes(ffi::hns_write_headers, items, out)
}

/// A reject; the hash is written where it is said to be present.
#[inline]
pub fn write_reject(
    message: u8,
    code: u8,
    reason: &[u8],
    present: bool,
    hash: &[u8; 32],
    out: &mut (impl Output + ?Sized),
) -> Result<usize, Refusal> {
    let (text, len) = (reason.as_ptr(), reason.len());
    let hash = hash.as_ptr();
    // SAFETY: as above.
    length(out, |to, room, answer, n| unsafe {
        ffi::hns_write_reject(
            message, code, text, len, present, hash, 32, to, room, answer, n,
        );
    })
}

/// A feefilter.
#[inline]
pub fn write_feefilter(rate: i64, out: &mut (impl Output + ?Sized)) -> Result<usize, Refusal> {
    // SAFETY: as above.
    length(out, |to, room, answer, n| unsafe {
        ffi::hns_write_feefilter(rate, to, room, answer, n);
    })
}

/// A sendcmpct.
#[inline]
pub fn write_sendcmpct(
    mode: u8,
    version: u64,
    out: &mut (impl Output + ?Sized),
) -> Result<usize, Refusal> {
    // SAFETY: as above.
    length(out, |to, room, answer, n| unsafe {
        ffi::hns_write_sendcmpct(mode, version, to, room, answer, n);
    })
}

/// A getblocktxn of indexes that rise.
#[inline]
pub fn write_getblocktxn(
    hash: &[u8; 32],
    indexes: &[u64],
    out: &mut (impl Output + ?Sized),
) -> Result<usize, Refusal> {
    let (from, len) = (indexes.as_ptr(), indexes.len());
    // SAFETY: as above.
    length(out, |to, room, answer, n| unsafe {
        ffi::hns_write_getblocktxn(hash.as_ptr(), 32, from, len, to, room, answer, n);
    })
}

/// A getproof.
#[inline]
pub fn write_getproof(
    root: &[u8; 32],
    key: &[u8; 32],
    out: &mut (impl Output + ?Sized),
) -> Result<usize, Refusal> {
    // SAFETY: as above.
    length(out, |to, room, answer, n| unsafe {
        ffi::hns_write_getproof(root.as_ptr(), 32, key.as_ptr(), 32, to, room, answer, n);
    })
}

/// Raw bytes: what is carried, and types without a name.
#[inline]
pub fn write_raw(payload: &[u8], out: &mut (impl Output + ?Sized)) -> Result<usize, Refusal> {
    write_bytes(ffi::hns_write_raw, payload, out)
}

/// The fields of a version but for the agent.
#[derive(Clone, Copy, Debug, Eq, PartialEq)]
pub struct VersionFields {
    /// The sender's version of the protocol.
    pub version: u32,
    /// What the sender offers.
    pub services: u64,
    /// The sender's clock.
    pub time: u64,
    /// Where the sender sees the receiver.
    pub remote: AddressFields,
    /// By which a node knows a connection to itself.
    pub nonce: u64,
    /// The height of the sender's chain.
    pub height: u32,
    /// Whether the sender wants no transactions.
    pub no_relay: bool,
}

/// The fields of an address.
pub type AddressFields = NetAddress;

/// A version.
#[inline]
pub fn write_version(
    fields: &VersionFields,
    agent: &[u8],
    out: &mut (impl Output + ?Sized),
) -> Result<usize, Refusal> {
    let remote = &fields.remote;
    let half = |at: usize| u64::from_le_bytes(remote.ip[at..at + 8].try_into().expect("8 bytes"));
    // SAFETY: as above.
    length(out, |to, room, answer, n| unsafe {
        ffi::hns_write_version(
            fields.version,
            fields.services,
            fields.time,
            remote.time,
            remote.services,
            half(0),
            half(8),
            remote.port,
            remote.key.as_ptr(),
            remote.key.len(),
            fields.nonce,
            agent.as_ptr(),
            agent.len(),
            fields.height,
            fields.no_relay,
            to,
            room,
            answer,
            n,
        );
    })
}

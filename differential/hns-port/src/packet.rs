use std::mem::MaybeUninit;

use crate::{MAX_COMPACT_BLOCK_TRANSACTIONS, Output, Refusal, Terms, ffi, length};

/// What a call about packets answers: sixteen numbers, as hns_ffi.h has them.
pub type PacketRow = [u64; 16];

/// The row of an accepted call, where it was stored: a copy of numbers that were just stored one by
/// one waits for every store.
#[inline]
fn stored(
    row: &mut MaybeUninit<PacketRow>,
    call: impl FnOnce(*mut u64, usize),
) -> Result<&PacketRow, Refusal> {
    call(row.as_mut_ptr().cast(), 16);
    // SAFETY: every call stores all sixteen numbers where there is room for them.
    let row = unsafe { row.assume_init_ref() };
    match row[0] {
        0 => Ok(row),
        _ => Err(refusal(row)),
    }
}

#[cold]
fn refusal(row: &PacketRow) -> Refusal {
    let [number, a, b, c, ..] = *row;
    Refusal { number, a, b, c }
}

#[inline]
fn long_row(call: impl FnOnce(*mut u64, usize)) -> Result<PacketRow, Refusal> {
    stored(&mut MaybeUninit::uninit(), call).copied()
}

/// As `read_packet`, with the row in place.
#[inline]
pub(crate) fn read_row<'row>(
    terms: &Terms,
    packet_type: u8,
    payload: &[u8],
    text: &mut (impl Output + ?Sized),
    row: &'row mut MaybeUninit<PacketRow>,
) -> Result<&'row PacketRow, Refusal> {
    let (on, terms) = terms.places();
    let (bytes, len) = (payload.as_ptr(), payload.len());
    let (to, room) = text.places();
    // SAFETY: the pointers and counts are those of slices, and they do not overlap.
    stored(row, |answer, n| unsafe {
        ffi::hns_read_packet(on, terms, packet_type, bytes, len, to, room, answer, n);
    })
}

/// Reads a payload as a packet of a type. An agent or a reason goes to the front of `text`.
#[inline]
pub fn read_packet(
    terms: &Terms,
    packet_type: u8,
    payload: &[u8],
    text: &mut [u8],
) -> Result<PacketRow, Refusal> {
    read_row(
        terms,
        packet_type,
        payload,
        text,
        &mut MaybeUninit::uninit(),
    )
    .copied()
}

/// The item at a place of a payload's list.
#[inline]
pub fn item(
    terms: &Terms,
    packet_type: u8,
    payload: &[u8],
    place: usize,
) -> Result<PacketRow, Refusal> {
    let (on, terms) = terms.places();
    let (bytes, len) = (payload.as_ptr(), payload.len());
    // SAFETY: as above.
    long_row(|answer, n| unsafe {
        ffi::hns_item(on, terms, packet_type, bytes, len, place, answer, n)
    })
}

/// All indexes of a getblocktxn payload to the front of `out`; answers how many.
#[inline]
pub fn indexes(terms: &Terms, payload: &[u8], out: &mut [u64]) -> Result<usize, Refusal> {
    let (on, terms) = terms.places();
    let (bytes, len) = (payload.as_ptr(), payload.len());
    let (to, room) = (out.as_mut_ptr(), out.len());
    // SAFETY: as above.
    let row = long_row(|answer, n| unsafe {
        ffi::hns_indexes(on, terms, bytes, len, to, room, answer, n)
    })?;
    Ok(row[1] as usize)
}

const _: () = assert!(size_of::<usize>() == size_of::<u64>());

/// Indexes as the library takes them.
pub(crate) const fn numbers(indexes: &[usize]) -> &[u64] {
    // SAFETY: both are numbers of 64 bits.
    unsafe { std::slice::from_raw_parts(indexes.as_ptr().cast(), indexes.len()) }
}

/// All indexes of a getblocktxn payload as a vector. A payload has no more indexes than bytes after its hash and its count.
pub(crate) fn all_indexes(terms: &Terms, payload: &[u8]) -> Result<Vec<usize>, Refusal> {
    let (on, terms) = terms.places();
    let (bytes, len) = (payload.as_ptr(), payload.len());
    let room = len.saturating_sub(33).min(MAX_COMPACT_BLOCK_TRANSACTIONS);
    let mut out = Vec::<usize>::with_capacity(room);
    let to = out.as_mut_ptr().cast();
    // SAFETY: as above.
    let row = long_row(|answer, n| unsafe {
        ffi::hns_indexes(on, terms, bytes, len, to, room, answer, n)
    })?;
    // SAFETY: an accepted call has stored as many numbers as it answers.
    unsafe { out.set_len(row[1] as usize) };
    Ok(out)
}

/// The numbers of all addresses or inventory items side by side to the front of `out`, six or two for
/// each; answers how many.
#[inline]
pub fn item_numbers(
    terms: &Terms,
    packet_type: u8,
    payload: &[u8],
    out: &mut [u64],
) -> Result<usize, Refusal> {
    let (on, terms) = terms.places();
    let (bytes, len) = (payload.as_ptr(), payload.len());
    let (to, room) = (out.as_mut_ptr(), out.len());
    // SAFETY: as above.
    let row = long_row(|answer, n| unsafe {
        ffi::hns_item_numbers(on, terms, packet_type, bytes, len, to, room, answer, n);
    })?;
    Ok(row[1] as usize)
}

/// A place of an inventory item with the hash, or none.
///
/// ```
/// use hns_port::{Inventory, InventoryKind, Packet, Terms, find};
///
/// let item = |byte| Inventory { kind: InventoryKind::Transaction, hash: [byte; 32] };
/// let payload = Packet::Inv(vec![item(1), item(2)]).encode_payload()?;
/// assert_eq!(find(&Terms::full(), 6, &payload, &[2; 32])?, Some(1));
/// assert_eq!(find(&Terms::full(), 6, &payload, &[3; 32])?, None);
/// # Ok::<(), hns_port::Refusal>(())
/// ```
#[inline]
pub fn find(
    terms: &Terms,
    packet_type: u8,
    payload: &[u8],
    hash: &[u8; 32],
) -> Result<Option<usize>, Refusal> {
    let (on, terms) = terms.places();
    let (bytes, len) = (payload.as_ptr(), payload.len());
    // SAFETY: as above.
    let row = long_row(|answer, n| unsafe {
        ffi::hns_find(
            on,
            terms,
            packet_type,
            bytes,
            len,
            hash.as_ptr(),
            32,
            answer,
            n,
        );
    })?;
    Ok((row[1] == 1).then_some(row[2] as usize))
}

/// The least and the greatest length of a payload that reads as a type.
#[inline]
pub fn length_card(packet_type: u8) -> (u64, u64) {
    let mut row = [0; 16];
    // SAFETY: as above.
    unsafe { ffi::hns_length_card(packet_type, row.as_mut_ptr(), row.len()) };
    (row[1], row[2])
}

/// Reads a payload as a packet of a type and writes it again, by the writer of that type, to the
/// output's front; answers the length.
#[inline]
pub fn rewrite(
    terms: &Terms,
    packet_type: u8,
    payload: &[u8],
    out: &mut (impl Output + ?Sized),
) -> Result<usize, Refusal> {
    let (on, terms) = terms.places();
    let (bytes, len) = (payload.as_ptr(), payload.len());
    // SAFETY: as above.
    length(out, |to, room, answer, n| unsafe {
        ffi::hns_rewrite(on, terms, packet_type, bytes, len, to, room, answer, n);
    })
}

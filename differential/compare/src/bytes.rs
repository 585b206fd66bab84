//! A case from any bytes, and a case as bytes, for a fuzzer.
//!
//! The first byte says the kind and the second the network. Then come the numbers, each a length of
//! at most eight and as many bytes from the lowest on, up to a byte over eight or to as many as the
//! kind takes. The rest are the bytes of the case.

use crate::case::{Case, Kind, NETWORKS};

/// Bytes past which a fuzzer makes no case.
pub const LONGEST: usize = 4096;
/// Rooms and places of an output are below this: longer ones cost time and show nothing more.
const ROOM: u64 = 2 * LONGEST as u64;
const END: u8 = u8::MAX;

impl Case {
    /// Every input is a case; what it lacks is 0.
    pub fn from_bytes(mut from: &[u8]) -> Self {
        let kind = Kind::ALL[usize::from(byte(&mut from)) % Kind::ALL.len()];
        let network = usize::from(byte(&mut from)) % NETWORKS.len();
        let mut numbers = Vec::new();
        while numbers.len() < most(kind)
            && let Some(number) = number(&mut from)
        {
            numbers.push(bounded(kind, numbers.len(), number));
        }
        Self::new(kind, from.to_vec(), &numbers).on(network)
    }

    /// The bytes that the case is made from, with its numbers brought within their bounds.
    pub fn to_bytes(&self) -> Vec<u8> {
        let kind = Kind::ALL.iter().position(|kind| *kind == self.kind);
        let mut bytes = vec![kind.expect("one of all") as u8, self.network as u8];
        let most = most(self.kind);
        for (i, number) in self.numbers.iter().take(most).enumerate() {
            let number = bounded(self.kind, i, *number);
            let length = 8 - number.leading_zeros() as usize / 8;
            bytes.push(length as u8);
            bytes.extend_from_slice(&number.to_le_bytes()[..length]);
        }
        if self.numbers.len() < most {
            bytes.push(END);
        }
        bytes.extend_from_slice(&self.bytes);
        bytes
    }
}

fn byte(from: &mut &[u8]) -> u8 {
    from.split_off_first().copied().unwrap_or(0)
}

fn number(from: &mut &[u8]) -> Option<u64> {
    let length = usize::from(*from.split_off_first()?);
    if length > 8 {
        return None;
    }
    let mut bytes = [0; 8];
    let there = from.split_off(..length.min(from.len()))?;
    bytes[..there.len()].copy_from_slice(there);
    Some(u64::from_le_bytes(bytes))
}

/// As many numbers as a kind takes: a list of them is as long as the generators' longest.
const fn most(kind: Kind) -> usize {
    match kind {
        Kind::Stream | Kind::OwnedStream => 600,
        _ => 40,
    }
}

/// A number as the kind can use it. Free are limits, lengths of what is read, values, seeds and places
/// among items, for which nothing is allocated. All others, and those of a kind that is not named
/// here, are taken for a room.
const fn bounded(kind: Kind, i: usize, number: u64) -> u64 {
    let free = match kind {
        Kind::CompactUsize | Kind::Slice | Kind::Bounded | Kind::Varbytes => true,
        Kind::Reads | Kind::Stream | Kind::OwnedStream | Kind::Item | Kind::Find => true,
        Kind::Rights => true,
        Kind::Puts => i > 1,
        Kind::Write | Kind::OwnedFields => i == 1,
        _ => false,
    };
    if free { number } else { number % ROOM }
}

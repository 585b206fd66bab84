use crate::{Refusal, ffi, row};

/// The numbers that are lent if a role is named: the role, and eight masks.
const SIZE: usize = 9;

/// What a payload is read under: the role of the peer who sent it, and what each role may send.
///
/// The default names no role, and then every type may be sent. Every call that reads a payload as a packet
/// takes terms in front; a role above 7 is refused by 21, a type that the role may not send by 22, before
/// the payload is looked at.
///
/// ```
/// use hns_port::{Packet, PacketType, Terms};
///
/// // Role 0 may send version, verack, ping and pong; role 1 every type; the others nothing.
/// let masks = [0b1111, Terms::EVERY_TYPE, 0, 0, 0, 0, 0, 0];
/// let guest = Terms::new(0, masks);
/// assert_eq!(guest.types_granted()?, 4);
/// assert_eq!(guest.may_send(2), Ok(()));
/// assert_eq!(guest.may_send(6).unwrap_err().number, 22);
///
/// let refused = Packet::decode_under(&guest, PacketType::Inv, &[0]);
/// assert_eq!(refused.unwrap_err().number, 22);
/// let member = Terms::new(1, masks);
/// assert_eq!(Packet::decode_under(&member, PacketType::Inv, &[0])?, Packet::Inv(vec![]));
/// assert_eq!(Terms::new(8, masks).may_send(2).unwrap_err().number, 21);
/// # Ok::<(), hns_port::Refusal>(())
/// ```
#[derive(Clone, Copy, Debug, Eq, PartialEq)]
pub struct Terms {
    numbers: [u64; SIZE],
    /// How many of them are lent: all, or none.
    count: usize,
}

impl Terms {
    /// The mask of every type: bits 0 to 29 are the types with a name, bit 30 is every other type byte.
    pub const EVERY_TYPE: u32 = (1 << 31) - 1;

    /// No role is named, and every type may be sent.
    #[inline]
    pub const fn full() -> Self {
        Self {
            numbers: [0; SIZE],
            count: 0,
        }
    }

    /// The role of a peer, and the masks of roles 0 to 7. Of a mask bit 31 is ignored.
    pub const fn new(role: u64, masks: [u32; 8]) -> Self {
        let [a, b, c, d, e, f, g, h] = masks;
        let [a, b, c, d] = [a as u64, b as u64, c as u64, d as u64];
        let [e, f, g, h] = [e as u64, f as u64, g as u64, h as u64];
        Self {
            numbers: [role, a, b, c, d, e, f, g, h],
            count: SIZE,
        }
    }

    /// Whether the role may send a frame of a type, to be asked before its payload is read.
    #[inline]
    pub fn may_send(&self, packet_type: u8) -> Result<(), Refusal> {
        let (terms, n) = self.places();
        // SAFETY: the pointers and counts are those of slices, and they do not overlap.
        let call = |answer, len| unsafe { ffi::hns_may_send(terms, n, packet_type, answer, len) };
        row(call, |_| ())
    }

    /// How many types the role may send; every type byte from 30 on counts as one type together.
    #[inline]
    pub fn types_granted(&self) -> Result<u32, Refusal> {
        let (terms, n) = self.places();
        // SAFETY: as above.
        let call = |answer, len| unsafe { ffi::hns_types_granted(terms, n, answer, len) };
        row(call, |row| row.at(1) as u32)
    }

    /// The numbers as the library takes them.
    pub fn numbers(&self) -> &[u64] {
        &self.numbers[..self.count]
    }

    /// Where they stand, and how many are lent.
    #[inline]
    pub(crate) const fn places(&self) -> (*const u64, usize) {
        (self.numbers.as_ptr(), self.count)
    }
}

impl Default for Terms {
    #[inline]
    fn default() -> Self {
        Self::full()
    }
}

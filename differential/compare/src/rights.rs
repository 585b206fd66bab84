//! Rights by role. The Rust has none, so it is compared under the full mask; what a role may not send is of
//! the port alone.

use hns_port::{Frame, Packet, PacketRow, PacketType, Refusal, Terms, ffi};

use crate::buffer::filled;
use crate::case::{Case, Verdict};
use crate::packets::packet_type;
use crate::rust;

/// Roles that there are not, of which some would be one without their high bits.
const NO_ROLES: [u64; 6] = [8, 9, 255, 256, 1 << 32, u64::MAX];

/// Room for bytes and for numbers, which is too little for some.
const ROOM: usize = 300;
const UNSET: u64 = 777_777;

/// The full mask by turns, which the case says: no terms, or those of a role with all bits of its own mask,
/// bit 31 too, and none of the others.
pub fn full(case: &Case) -> Terms {
    let numbers = case.numbers.iter().copied();
    let first = case.bytes.first().copied().unwrap_or(0);
    let turn = numbers.fold(
        case.bytes.len() as u64 + u64::from(first),
        u64::wrapping_add,
    );
    match turn % 9 {
        8 => Terms::full(),
        role => of(role, u32::MAX, 0),
    }
}

/// The role's own mask, and one for all others.
fn of(role: u64, own: u32, others: u32) -> Terms {
    let mut masks = [others; 8];
    masks[role as usize] = own;
    Terms::new(role, masks)
}

/// What every call on a payload answers and leaves in what it was lent.
#[derive(Debug, PartialEq)]
struct Calls {
    may_send: Result<(), Refusal>,
    packet: Result<PacketRow, Refusal>,
    item: Result<PacketRow, Refusal>,
    found: Result<Option<usize>, Refusal>,
    rewritten: Result<usize, Refusal>,
    numbers: Result<usize, Refusal>,
    /// It reads type 24 alone.
    indexes: Option<Result<usize, Refusal>>,
    owned: Result<Packet, Refusal>,
    bytes: [Vec<u8>; 2],
    stored: [[u64; ROOM]; 2],
}

impl Calls {
    fn under(terms: &Terms, case: &Case) -> Self {
        let (kind, payload, place) = (packet_type(case), &case.bytes, case.number(1) as usize % 4);
        let (mut text, mut out) = (filled(ROOM), filled(ROOM));
        let (mut numbers, mut indexes) = ([UNSET; ROOM], [UNSET; ROOM]);
        let frame = Frame {
            packet_type: PacketType::from_u8(kind),
            payload: payload.clone(),
        };
        let hash = payload.get(5..).and_then(|from| from.first_chunk());
        Self {
            may_send: terms.may_send(kind),
            packet: hns_port::read_packet(terms, kind, payload, &mut text),
            item: hns_port::item(terms, kind, payload, place),
            found: hns_port::find(terms, kind, payload, hash.unwrap_or(&[0; 32])),
            rewritten: hns_port::rewrite(terms, kind, payload, &mut out),
            numbers: hns_port::item_numbers(terms, kind, payload, &mut numbers),
            indexes: (kind == 24).then(|| hns_port::indexes(terms, payload, &mut indexes)),
            owned: frame.decode_packet_under(terms),
            bytes: [text, out],
            stored: [numbers, indexes],
        }
    }

    /// All refused, and nothing changed.
    fn refused(number: u64, kind: u8) -> Self {
        let refusal = rust::refusal(number, 0, 0);
        Self {
            may_send: Err(refusal),
            packet: Err(refusal),
            item: Err(refusal),
            found: Err(refusal),
            rewritten: Err(refusal),
            numbers: Err(refusal),
            indexes: (kind == 24).then_some(Err(refusal)),
            owned: Err(refusal),
            bytes: [filled(ROOM), filled(ROOM)],
            stored: [[UNSET; ROOM]; 2],
        }
    }
}

/// A payload under a role that lacks its type, one that has it alone, and one that is none.
pub fn check(case: &Case) -> Verdict {
    let kind = packet_type(case);
    let bit = 1 << kind.min(30);
    let (role, over) = (case.number(1) % 8, case.number(1) as usize % NO_ROLES.len());
    let without = of(role, !bit, u32::MAX);
    let alone = of(role, bit, 0);
    let no_role = Terms::new(NO_ROLES[over], [u32::MAX; 8]);
    let no_terms = Calls::under(&Terms::full(), case);
    let under = |terms| Calls::under(terms, case);
    Verdict::of(&under(&without), &Calls::refused(22, kind))
        .and_then(|| Verdict::of(&under(&no_role), &Calls::refused(21, kind)))
        .and_then(|| Verdict::of(&under(&alone), &no_terms))
        .and_then(|| counts(case, role, [without, alone, no_role]))
        .and_then(|| lent(kind, role as usize))
}

/// How many types a role may send, and whether this one, also by a mask of the case's own.
fn counts(case: &Case, role: u64, [without, alone, no_role]: [Terms; 3]) -> Verdict {
    let (kind, mask) = (packet_type(case), case.number(2) as u32);
    let any = of(role, mask, !mask);
    let terms = [Terms::full(), without, alone, any, no_role];
    let port = (
        terms.map(|terms| terms.types_granted()),
        any.may_send(kind).is_ok(),
    );
    let ones = (0..31).filter(|bit| mask >> bit & 1 == 1).count() as u32;
    let no_role = Err(rust::refusal(21, 0, 0));
    let granted = mask >> kind.min(30) & 1 == 1;
    Verdict::of(
        &port,
        &([Ok(31), Ok(30), Ok(1), Ok(ones), no_role], granted),
    )
}

/// Slices of every length: none is the full mask, one that lacks a mask grants nothing, and what stands
/// after the masks is not looked at. Nor are a mask's bits from 31 on.
fn lent(kind: u8, role: usize) -> Verdict {
    let mut numbers = [u64::from(u32::MAX); 12];
    numbers[0] = role as u64;
    let mut high = numbers;
    high[1 + role] = u64::MAX << 31;
    let seen: Vec<u64> = (0..=12)
        .map(|count| number(kind, &numbers[..count]))
        .chain([number(kind, &high)])
        .collect();
    let cut = |count: usize| {
        if (1..9).contains(&count) { 22 } else { 0 }
    };
    let expected: Vec<u64> = (0..=12).map(cut).chain([22]).collect();
    Verdict::of(&seen, &expected)
}

/// The first number of the answer.
fn number(kind: u8, terms: &[u64]) -> u64 {
    let mut row = [UNSET; 6];
    let (lent, count) = (terms.as_ptr(), terms.len());
    // SAFETY: the pointers and counts are those of slices, and they do not overlap.
    unsafe { ffi::hns_may_send(lent, count, kind, row.as_mut_ptr(), row.len()) };
    row[0]
}

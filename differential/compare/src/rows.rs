//! Rows by themselves, as the header promises them: what follows the numbers that a row uses is 0, a
//! row that does not fit is its front, and no other number changes.

use hns_port::{PacketRow, Refusal, TALLY_SIZE, ffi};

use crate::buffer::filled;
use crate::case::{Case, Verdict};
use crate::packets::packet_type;

/// Numbers that are lent, two more than the longest row has.
const LENT: usize = 18;
const UNSET: u64 = 777_777;
/// Room for what a call puts out, which is too little for some.
const ROOM: usize = 300;

type Used<'case> = Box<dyn Fn(&[u64]) -> usize + 'case>;

/// A call, how many numbers its row has, and how many of these it uses, accepted or refused.
struct Call<'case> {
    name: &'static str,
    width: usize,
    used: Used<'case>,
    refused: usize,
    ask: Box<dyn Fn(*mut u64, usize) + 'case>,
}

macro_rules! call {
    ($width:literal, $used:expr, $name:ident($($argument:expr),*)) => {
        Call {
            name: stringify!($name),
            width: $width,
            used: Box::new($used),
            refused: 4,
            // SAFETY: the pointers and counts are those of slices, and they do not overlap.
            ask: Box::new(move |answer, n| unsafe { ffi::$name($($argument,)* answer, n) }),
        }
    };
}

impl Call<'_> {
    fn lent(&self, room: usize) -> [u64; LENT] {
        let mut numbers = [UNSET; LENT];
        (self.ask)(numbers.as_mut_ptr(), room);
        numbers
    }

    /// With every length of what is lent.
    fn check(&self) -> Verdict {
        let whole = self.lent(LENT);
        let used = match whole[0] {
            0 => (self.used)(&whole),
            _ => self.refused,
        };
        let mut expected = [UNSET; LENT];
        expected[..self.width].fill(0);
        expected[..used].copy_from_slice(&whole[..used]);
        (0..=LENT).fold(Verdict::Same(1), |verdict, room| {
            let mut front = [UNSET; LENT];
            front[..room].copy_from_slice(&expected[..room]);
            let seen = |numbers| (self.name, room, numbers);
            verdict.and_then(|| Verdict::of(&seen(self.lent(room)), &seen(front)))
        })
    }
}

/// The rest of an accepted row is 0.
pub fn rest(row: &Result<PacketRow, Refusal>, used: impl Fn(&[u64]) -> usize) -> Verdict {
    let rest = row.as_ref().map_or(&[][..], |row| &row[used(row)..]);
    Verdict::of(&rest, &&[0; 16][..rest.len()])
}

/// The bytes of the case as the input of each call.
pub fn check(case: &Case) -> Verdict {
    let mut out = filled(ROOM);
    let mut store = filled(case.bytes.len());
    let mut numbers = [UNSET; ROOM];
    let (to, many) = (out.as_mut_ptr(), numbers.as_mut_ptr());
    let mut tally = [0; TALLY_SIZE];
    let calls = [
        reads(case, to, many),
        frames(case, to, store.as_mut_ptr(), tally.as_mut_ptr()),
        packets(case, to),
        lists(case, many),
        writers(case, to),
    ];
    let calls = calls.iter().flatten();
    calls.fold(Verdict::Same(1), |verdict, call| {
        verdict.and_then(|| call.check())
    })
}

fn reads(case: &Case, to: *mut u8, many: *mut u64) -> Vec<Call<'_>> {
    let (input, len) = (case.bytes.as_ptr(), case.bytes.len());
    let at = case.number(1) as usize;
    vec![
        call!(6, |_| 3, hns_read_compact_size(input, len, at)),
        call!(6, |_| 3, hns_read_compact_sizes(input, len, at, many, ROOM)),
        call!(6, |_| 3, hns_read_varbytes(input, len, at, len)),
        call!(6, |_| 1, hns_finish(input, len, at)),
        call!(6, |_| 6, hns_read_header(input, len, at, to, ROOM)),
    ]
}

fn frames(case: &Case, to: *mut u8, store: *mut u8, tally: *mut u64) -> Vec<Call<'_>> {
    let (input, len) = (case.bytes.as_ptr(), case.bytes.len());
    let (on, kind) = (case.network as u8, packet_type(case));
    let whole = |row: &[u64]| if row[1] == 1 { 5 } else { 2 };
    let pushed = call!(6, |_| 4, hns_push(on, store, len, 0, input, len, to, ROOM));
    let tallied = call!(
        6,
        |_| 4,
        hns_push_tallying(on, store, len, 0, input, len, to, ROOM, tally, TALLY_SIZE)
    );
    vec![
        call!(6, whole, hns_decode_frame_prefix(on, input, len)),
        call!(6, |_| 3, hns_decode_exact(on, input, len)),
        call!(6, |_| 2, hns_encode_frame(on, kind, input, len, to, ROOM)),
        // The held count stands after the values of its refusal.
        Call {
            refused: 5,
            ..pushed
        },
        // And here before them.
        Call {
            refused: 6,
            ..tallied
        },
    ]
}

/// The numbers of a role with the full mask; if one alone is lent, nothing may be sent.
static TERMS: [u64; 9] = [0, u64::MAX, 0, 0, 0, 0, 0, 0, 0];
/// A role that there is not.
static NO_ROLE: [u64; 1] = [8];

/// The full mask in turn: no numbers, or all.
const fn terms(case: &Case) -> (*const u64, usize) {
    let lent = [0, TERMS.len()][case.bytes.len() % 2];
    (TERMS.as_ptr(), lent)
}

fn packets(case: &Case, to: *mut u8) -> Vec<Call<'_>> {
    let (input, len) = (case.bytes.as_ptr(), case.bytes.len());
    let (on, n) = terms(case);
    let kind = packet_type(case);
    let of_packet = move |row: &[u64]| of_packet(kind, row);
    vec![
        call!(
            16,
            of_packet,
            hns_read_packet(on, n, kind, input, len, to, ROOM)
        ),
        call!(16, |_| 3, hns_length_card(kind)),
        call!(6, |_| 2, hns_rewrite(on, n, kind, input, len, to, ROOM)),
        call!(6, |_| 1, hns_may_send(on, n, kind)),
        call!(6, |_| 2, hns_types_granted(on, n)),
        // What no role may send.
        call!(
            16,
            of_packet,
            hns_read_packet(on, 1, kind, input, len, to, ROOM)
        ),
        call!(6, |_| 2, hns_rewrite(on, 1, kind, input, len, to, ROOM)),
        call!(6, |_| 1, hns_may_send(on, 1, kind)),
        call!(6, |_| 2, hns_types_granted(NO_ROLE.as_ptr(), 1)),
    ]
}

/// Numbers of the row of a packet that reads.
pub fn of_packet(kind: u8, row: &[u64]) -> usize {
    match kind {
        0 => 15,
        1 | 4 | 12 | 16 | 19 => 1,
        2 | 3 | 21 => 2,
        9 | 10 | 24 => 4,
        15 if row[5] == 1 => 7,
        15 => 6,
        _ => 3,
    }
}

/// Numbers of the row of an item that is there.
pub const fn of_item(kind: u8) -> usize {
    match kind {
        5 => 7,
        6..=8 => 3,
        _ => 2,
    }
}

/// The hash to find is that of the item at the place, or of zeros.
fn lists(case: &Case, many: *mut u64) -> Vec<Call<'_>> {
    let (input, len) = (case.bytes.as_ptr(), case.bytes.len());
    let (on, n) = terms(case);
    let (kind, place) = (packet_type(case), case.number(1) as usize);
    let found = |row: &[u64]| if row[1] == 1 { 3 } else { 2 };
    let at = place.saturating_mul(36).saturating_add(5);
    let hash = case.bytes.get(at..).and_then(|from| from.first_chunk());
    let hash = hash.unwrap_or(&[0; 32]).as_ptr();
    vec![
        call!(
            16,
            move |_| of_item(kind),
            hns_item(on, n, kind, input, len, place)
        ),
        call!(16, |_| 2, hns_indexes(on, n, input, len, many, ROOM)),
        call!(
            16,
            |_| 2,
            hns_item_numbers(on, n, kind, input, len, many, ROOM)
        ),
        call!(16, found, hns_find(on, n, kind, input, len, hash, 32)),
    ]
}

fn writers(case: &Case, to: *mut u8) -> Vec<Call<'_>> {
    let (input, len) = (case.bytes.as_ptr(), case.bytes.len());
    vec![
        call!(6, |_| 2, hns_write_raw(input, len, to, ROOM)),
        call!(6, |_| 2, hns_write_inventory(input, len, to, ROOM)),
    ]
}

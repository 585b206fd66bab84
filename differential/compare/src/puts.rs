//! Puts into a lent output, one after another.

use crate::buffer::{filled, splice};
use crate::case::{Case, Verdict};

pub fn check(case: &Case) -> Verdict {
    let (place, room) = (case.number(0) as usize, case.number(1) as usize);
    let mut out = filled(room);
    let mut rust = hns_encoding::Encoder::new();
    let mut next = place;
    let mut compared = 0;
    for put in case.numbers[case.numbers.len().min(2)..].chunks(2) {
        let value = put.get(1).copied().unwrap_or(0);
        let bytes = &case.bytes[..case.bytes.len().min(value as usize)];
        let mut port = hns_port::Encoder::at(&mut out, next);
        put_both(&mut port, &mut rust, put[0], value, bytes);
        next = port.position();
        let written = rust.clone().into_bytes();
        let mut expected = filled(room);
        splice(&mut expected, place, &written);
        let verdict = Verdict::of(&(next, &out), &(place + written.len(), &expected));
        if verdict.differs() {
            return verdict;
        }
        compared += 1;
    }
    Verdict::Same(compared)
}

fn put_both(
    port: &mut hns_port::Encoder<'_>,
    rust: &mut hns_encoding::Encoder,
    put: u64,
    value: u64,
    bytes: &[u8],
) {
    macro_rules! both {
        ($put:ident, $value:expr) => {{
            port.$put($value);
            rust.$put($value);
        }};
    }
    match put % 7 {
        0 => both!(put_u8, value as u8),
        1 => both!(put_u16_le, value as u16),
        2 => both!(put_u32_le, value as u32),
        3 => both!(put_u64_le, value),
        4 => both!(put_compact_size, value),
        5 => both!(put_bytes, bytes),
        _ => both!(put_varbytes, bytes),
    }
}

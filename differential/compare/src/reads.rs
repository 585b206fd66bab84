//! Reads at a place, and reads one after another.

use std::borrow::Cow;

use hns_encoding::DecodeError;
use hns_port::Refusal;

use crate::case::{Case, Kind, Verdict};
use crate::rust::decode_error;

/// What a read gives, and the place after it.
#[derive(Debug, PartialEq)]
enum Value<'input> {
    Number(u64),
    Bytes(Cow<'input, [u8]>),
    Done,
}

type Answer<'input, Error> = Result<(Value<'input>, usize), Error>;

/// A read of one side. The Rust has another name for bounded bytes, and takes a text beside a limit.
macro_rules! read {
    ($name:ident, $side:ident, $error:ty, $bounded:ident $(, $text:literal)?) => {
        fn $name<'input>(
            kind: Kind,
            from: &mut $side::Decoder<'input>,
            a: usize,
            b: usize,
        ) -> Answer<'input, $error> {
            let value = match kind {
                Kind::ReadU8 => Value::Number(from.read_u8()?.into()),
                Kind::ReadU16 => Value::Number(from.read_u16_le()?.into()),
                Kind::ReadU32 => Value::Number(from.read_u32_le()?.into()),
                Kind::ReadU64 => Value::Number(from.read_u64_le()?),
                Kind::CompactSize => Value::Number(from.read_compact_size()?),
                Kind::CompactUsize => {
                    Value::Number(from.read_compact_usize(a $(, $text)?)? as u64)
                }
                Kind::Slice if a == 3 => Value::Bytes(from.read_array::<3>()?.to_vec().into()),
                Kind::Slice => Value::Bytes(from.read_slice(a)?.into()),
                Kind::Bounded => Value::Bytes(from.$bounded(a, b)?.into()),
                Kind::Varbytes => Value::Bytes(from.read_varbytes(a $(, $text)?)?.into()),
                Kind::Finish => from.finish().map(|()| Value::Done)?,
                _ => unreachable!("no read"),
            };
            Ok((value, from.position()))
        }
    };
}

read!(port_read, hns_port, Refusal, read_bounded);
read!(rust_read, hns_encoding, DecodeError, read_bounded_vec, "");

pub fn check(case: &Case) -> Verdict {
    if passes_2_64(case) {
        return Verdict::LeftOut;
    }
    let (mut port, mut rust) = sides(case);
    let (a, b) = (case.number(1) as usize, case.number(2) as usize);
    Verdict::of(
        &port_read(case.kind, &mut port, a, b),
        &rust_read(case.kind, &mut rust, a, b).map_err(decode_error),
    )
}

type Sides<'input> = (hns_port::Decoder<'input>, hns_encoding::Decoder<'input>);

fn sides(case: &Case) -> Sides<'_> {
    let place = case.place();
    let mut rust = hns_encoding::Decoder::new(&case.bytes);
    rust.read_slice(place).expect("a place within the bytes");
    (hns_port::Decoder::at(&case.bytes, place), rust)
}

/// An intended difference: a read whose place and length sum past 2^64 - 1.
fn passes_2_64(case: &Case) -> bool {
    let (a, b) = (case.number(1), case.number(2));
    let start = case.place() as u64;
    match case.kind {
        Kind::Slice => start.checked_add(a).is_none(),
        Kind::Bounded => a <= b && start.checked_add(a).is_none(),
        Kind::Varbytes => {
            let mut counted = sides(case).1;
            let length = counted.read_compact_size();
            let next = counted.position() as u64;
            length.is_ok_and(|n| n <= a && next.checked_add(n).is_none())
        }
        _ => false,
    }
}

/// A list in one call is the Rust's reads one after another up to the first that is refused.
pub fn check_sizes(case: &Case) -> Verdict {
    let (mut port, mut rust) = sides(case);
    let untouched: Vec<u64> = (0..case.number(1)).map(|i| i ^ 0xa5a5).collect();
    let mut ported = untouched.clone();
    let count = port.read_compact_sizes(&mut ported);
    let mut published = untouched;
    let mut read = 0;
    let mut next = rust.position();
    for place in &mut published {
        let Ok(value) = rust.read_compact_size() else {
            break;
        };
        *place = value;
        next = rust.position();
        read += 1;
    }
    Verdict::of(&(count, port.position(), ported), &(read, next, published))
}

/// Each number of the case is a kind of read, with limits from its upper bytes.
pub fn check_sequence(case: &Case) -> Verdict {
    let mut port = hns_port::Decoder::new(&case.bytes);
    let mut rust = hns_encoding::Decoder::new(&case.bytes);
    let mut compared = 0;
    for number in &case.numbers {
        let kind = Kind::ALL[(number % 10) as usize];
        let (a, b) = (
            (number >> 8) as u16 as usize,
            (number >> 24) as u16 as usize,
        );
        let ported = port_read(kind, &mut port, a, b);
        let published = rust_read(kind, &mut rust, a, b).map_err(decode_error);
        let verdict = Verdict::of(&ported, &published);
        if verdict.differs() {
            return verdict;
        }
        compared += 1;
        // After a refused read the Rust's decoder stands where it came to, and the port's where
        // it was.
        if ported.is_err() {
            break;
        }
    }
    Verdict::Same(compared)
}

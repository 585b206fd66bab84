use std::error::Error;
use std::fmt;

/// A refusal by its number and its values, 0 where it has none. hns_ffi.h has the table.
#[derive(Clone, Copy, Debug, Eq, Hash, PartialEq)]
pub struct Refusal {
    /// Which refusal, from 1 on.
    pub number: u64,
    /// Its first value.
    pub a: u64,
    /// Its second value.
    pub b: u64,
    /// Its third value: of 7 and 10 the field.
    pub c: u64,
}

/// The Rust's name for the error of packets and frames.
pub type WireError = Refusal;

/// The Rust's name for the error of reads.
pub type DecodeError = Refusal;

/// The Rust's name for the error of headers.
pub type HeaderError = Refusal;

impl Refusal {
    /// The field that 7 and 10 are about.
    const fn field(&self) -> &'static str {
        match self.c {
            1 => "addresses",
            2 => "inventory items",
            3 => "locator hashes",
            4 => "headers",
            5 => "indexes",
            6 => "index",
            7 => "agent",
            8 => "reason",
            _ => "length",
        }
    }
}

impl fmt::Display for Refusal {
    fn fmt(&self, f: &mut fmt::Formatter<'_>) -> fmt::Result {
        let Self { number, a, b, .. } = *self;
        let field = self.field();
        write!(f, "refused by {number}: ")?;
        match number {
            1 => write!(f, "bytes end in the field at {a}, {b} missing"),
            2 => write!(f, "compact size in {a} bits is not the shortest"),
            3 => write!(f, "{a} bytes left"),
            4 => write!(f, "magic {b:08x} where {a:08x} is expected"),
            5 => write!(f, "payload of {a} bytes, limit {b}"),
            6 => write!(f, "held bytes and input are {a}, limit {b}"),
            7 => write!(f, "{field} {a}, limit {b}"),
            8 => write!(f, "frame is incomplete, {a} missing"),
            9 => write!(f, "index over 65,535"),
            10 => write!(f, "{field} has a byte over 127"),
            11 => write!(f, "hash against the rejected type"),
            12 => write!(f, "{a} indexes to write, limit {b}"),
            13 => write!(f, "index to write over 65,535, at place {a}"),
            14 => write!(f, "index not above the one before it, at place {a}"),
            15 => write!(f, "header of {a} bytes"),
            16 => write!(f, "output too short, {a} needed"),
            17 => write!(f, "store too short, {a} needed"),
            18 => write!(f, "held count {a} over the store"),
            19 => write!(f, "no item at the place"),
            20 => write!(f, "tally full"),
            21 => write!(f, "role over 7"),
            22 => write!(f, "type not granted to the role"),
            _ => write!(f, "values {a}, {b}"),
        }
    }
}

impl Error for Refusal {}

//! The port beside the published Rust: the cases, and what compares one. The program `compare`
//! runs lists of them.

mod buffer;
pub mod bytes;
mod card;
pub mod case;
mod differences;
pub mod exhaustive;
mod frames;
pub mod generate;
mod headers;
pub mod limits;
mod owned;
pub mod packets;
mod payloads;
mod puts;
mod reads;
mod rights;
pub mod rng;
mod rows;
pub mod rust;
pub mod shrink;
mod stream;
mod tally;
pub mod writes;

use std::any::Any;
use std::panic::catch_unwind;

use case::{Case, Kind, Verdict};

/// Asks both sides, and says whether they answer the same. A panic is a mismatch: a place past the
/// payload's end makes one, or an error that has no number.
pub fn check(case: &Case) -> Verdict {
    catch_unwind(|| ask(case)).unwrap_or_else(|panic| Verdict::Differs {
        port: format!("a panic of either side: {}", message(&*panic)),
        rust: "no answer to compare".to_owned(),
    })
}

fn message(panic: &(dyn Any + Send)) -> &str {
    match panic.downcast_ref::<String>() {
        Some(text) => text,
        None => panic.downcast_ref::<&str>().unwrap_or(&""),
    }
}

fn ask(case: &Case) -> Verdict {
    match case.kind {
        Kind::CompactSizes => reads::check_sizes(case),
        Kind::Reads => reads::check_sequence(case),
        Kind::Puts => puts::check(case),
        Kind::HeaderDecode => headers::decode(case),
        Kind::HeaderRead => headers::read(case),
        Kind::HeaderPut => headers::put(case),
        Kind::FramePrefix => frames::prefix(case),
        Kind::FrameExact => frames::exact(case),
        Kind::FrameEncode => frames::encode(case),
        Kind::Stream => stream::check(case),
        Kind::Packet => packets::read(case),
        Kind::Item => packets::item(case),
        Kind::Find => packets::find(case),
        Kind::Rewrite => packets::rewrite(case),
        Kind::Write => writes::check(case),
        Kind::OwnedPacket => owned::packet(case),
        Kind::OwnedFields => owned::fields(case),
        Kind::OwnedFrame => owned::frame(case),
        Kind::OwnedStream => owned::stream(case),
        Kind::Card => card::check(case),
        Kind::Row => rows::check(case),
        Kind::Rights => rights::check(case),
        Kind::ReadU8 | Kind::ReadU16 | Kind::ReadU32 | Kind::ReadU64 => reads::check(case),
        Kind::CompactSize | Kind::CompactUsize => reads::check(case),
        Kind::Slice | Kind::Bounded | Kind::Varbytes | Kind::Finish => reads::check(case),
    }
}

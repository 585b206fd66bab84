//! A published crate as it stands; see build.rs.
// The stubs' types have no values, and the compiler says so where the code would make one.
#![allow(unreachable_code, unused_assignments, unused_mut, unused_variables)]
// The stubs' hashes are arrays already.
#![allow(clippy::useless_conversion)]
include!(concat!(env!("OUT_DIR"), "/published.rs"));
pub use published::*;

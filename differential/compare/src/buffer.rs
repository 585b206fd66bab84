//! Lent buffers, filled with a pattern, so that a byte that should be left alone shows.

use hns_port::Refusal;

use crate::case::Verdict;
use crate::rust;

const fn pattern(i: usize) -> u8 {
    (i.wrapping_mul(131) >> 3) as u8 ^ 0xa5
}

pub fn fill(buffer: &mut [u8], from: usize) {
    for (i, byte) in buffer.iter_mut().enumerate() {
        *byte = pattern(from + i);
    }
}

pub fn filled(n: usize) -> Vec<u8> {
    let mut buffer = vec![0; n];
    fill(&mut buffer, 0);
    buffer
}

/// Bytes at a place of a buffer; those past its end are dropped.
pub fn splice(buffer: &mut [u8], at: usize, bytes: &[u8]) {
    let at = at.min(buffer.len());
    let n = bytes.len().min(buffer.len() - at);
    buffer[at..at + n].copy_from_slice(&bytes[..n]);
}

/// The answer of a call that writes to the front of a buffer, and the buffer after it, beside the
/// bytes that the Rust writes.
pub fn written(
    port: &Result<usize, Refusal>,
    out: &[u8],
    rust: Result<Vec<u8>, Refusal>,
) -> Verdict {
    let mut expected = filled(out.len());
    let rust = rust.and_then(|bytes| rust::fits(bytes, out.len()));
    let rust = rust.map(|bytes| {
        splice(&mut expected, 0, &bytes);
        bytes.len()
    });
    Verdict::of(port, &rust).and_then(|| Verdict::of(&out, &&expected[..]))
}

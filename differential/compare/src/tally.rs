//! A tally that is lent beside a stream, and a recount of the frames that the Rust delivered.

use hns_port::TALLY_SIZE;

use crate::case::Verdict;

const BYTES: usize = 256;
const TOTAL_FRAMES: usize = 512;
const TOTAL_BYTES: usize = 513;
/// The most that a total may be with held and input, 2^63 - 1.
const MOST: u64 = i64::MAX as u64;

/// Numbers behind a tally that are lent too.
const UNSET: [u64; 2] = [777_777; 2];

/// Both totals, of frames and of bytes.
pub type Totals = [u64; 2];

/// Both too great for any push.
pub const FULL: Totals = [u64::MAX; 2];

/// What a tally should hold.
pub struct Recount([u64; TALLY_SIZE]);

impl Recount {
    pub const fn new() -> Self {
        Self([0; TALLY_SIZE])
    }

    /// A frame that the Rust delivered.
    pub fn add(&mut self, packet_type: u8, payload: &[u8]) {
        let packet_type = usize::from(packet_type);
        let bytes = payload.len() as u64 + 9;
        self.0[packet_type] += 1;
        self.0[BYTES + packet_type] += bytes;
        self.0[TOTAL_FRAMES] += 1;
        self.0[TOTAL_BYTES] += bytes;
    }

    pub const fn totals(&self) -> Totals {
        [self.0[TOTAL_FRAMES], self.0[TOTAL_BYTES]]
    }

    /// The first number of a tally that is another.
    pub fn check(&self, tally: &[u64]) -> Verdict {
        let pairs = || tally.iter().zip(self.0.iter().chain(&UNSET));
        let at = pairs().position(|(port, rust)| port != rust).unwrap_or(0);
        let (port, rust) = pairs().nth(at).expect("a number");
        Verdict::of(&("tally at", at, port), &("tally at", at, rust))
    }

    /// A tally by its calls.
    pub fn check_calls(&self, tally: &hns_port::Tally) -> Verdict {
        let by_type = (0..=255).flat_map(|i| [tally.frames(i), tally.bytes(i)]);
        let calls: Vec<u64> = by_type
            .chain([tally.total_frames(), tally.total_bytes()])
            .collect();
        let by_type = (0..BYTES).flat_map(|i| [self.0[i], self.0[BYTES + i]]);
        Verdict::of(&calls, &by_type.chain(self.totals()).collect())
    }
}

/// A tally to lend, and what it should hold.
pub struct Tally {
    pub lent: [u64; TALLY_SIZE + UNSET.len()],
    pub recount: Recount,
}

impl Tally {
    pub fn new() -> Self {
        let mut lent = [0; TALLY_SIZE + UNSET.len()];
        lent[TALLY_SIZE..].copy_from_slice(&UNSET);
        Self {
            lent,
            recount: Recount::new(),
        }
    }

    pub fn check(&self) -> Verdict {
        self.recount.check(&self.lent)
    }

    /// Other totals, in the recount too.
    pub fn set(&mut self, totals: Totals) {
        for numbers in [&mut self.lent[..], &mut self.recount.0] {
            numbers[TOTAL_FRAMES..TALLY_SIZE].copy_from_slice(&totals);
        }
    }

    /// Its own totals again, with what was added to those that were set.
    pub fn back(&mut self, own: Totals, set: Totals) {
        let [frames, bytes] = self.recount.totals();
        self.set([own[0] + (frames - set[0]), own[1] + (bytes - set[1])]);
    }
}

/// Numbers with these totals alone.
pub fn with(totals: Totals) -> [u64; TALLY_SIZE] {
    let mut numbers = [0; TALLY_SIZE];
    numbers[TOTAL_FRAMES..].copy_from_slice(&totals);
    numbers
}

/// Totals for a push of so many bytes, held and new: both at the most that is taken, both one less, one
/// of the two at the most, or their own.
pub const fn greatest(turn: usize, own: Totals, bytes: usize) -> Totals {
    let most = MOST - bytes as u64;
    match turn % 5 {
        0 => [most, most],
        1 => [most - 1, most - 1],
        2 => [most, own[1]],
        3 => [own[0], most],
        _ => own,
    }
}

/// Totals of which one is too great: by one, or so that the sum would wrap.
pub const fn too_great(turn: usize, own: Totals, bytes: usize) -> Totals {
    let least = MOST - bytes as u64 + 1;
    match turn % 4 {
        0 => [least, own[1]],
        1 => [own[0], least],
        2 => [u64::MAX, own[1]],
        _ => [own[0], u64::MAX],
    }
}

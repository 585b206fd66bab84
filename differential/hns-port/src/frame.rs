use crate::{FRAME_HEADER_SIZE, NetworkMagic, Output, Refusal, answer, ffi, length, row};

/// A frame: its payload is a part of the caller's slice.
#[derive(Clone, Copy, Debug, Eq, PartialEq)]
pub struct Frame<'input> {
    /// The type of its packet.
    pub packet_type: u8,
    /// The packet's payload.
    pub payload: &'input [u8],
}

/// The frame that a slice begins with and the bytes that it takes; none where it is not yet there.
#[inline]
pub fn decode_frame_prefix(
    network: NetworkMagic,
    input: &[u8],
) -> Result<Option<(Frame<'_>, usize)>, Refusal> {
    let (bytes, len) = (input.as_ptr(), input.len());
    // SAFETY: the pointers and counts are those of slices, and they do not overlap.
    let call = |answer, n| unsafe {
        ffi::hns_decode_frame_prefix(network as u8, bytes, len, answer, n);
    };
    row(call, |row| match row.at(1) {
        0 => None,
        _ => Some((frame(input, row.at(2), row.at(3)), row.at(4) as usize)),
    })
}

/// A slice that is one frame.
#[inline]
pub fn decode_exact(network: NetworkMagic, input: &[u8]) -> Result<Frame<'_>, Refusal> {
    let (bytes, len) = (input.as_ptr(), input.len());
    // SAFETY: as above.
    let call = |answer, n| unsafe {
        ffi::hns_decode_exact(network as u8, bytes, len, answer, n);
    };
    row(call, |row| frame(input, row.at(1), row.at(2)))
}

#[inline]
fn frame(input: &[u8], packet_type: u64, length: u64) -> Frame<'_> {
    Frame {
        packet_type: packet_type as u8,
        payload: &input[FRAME_HEADER_SIZE..][..length as usize],
    }
}

/// Writes a frame to the output's front and answers the length of its encoding.
#[inline]
pub fn encode(
    network: NetworkMagic,
    packet_type: u8,
    payload: &[u8],
    out: &mut (impl Output + ?Sized),
) -> Result<usize, Refusal> {
    let (bytes, len) = (payload.as_ptr(), payload.len());
    // SAFETY: as above.
    length(out, |to, room, answer, n| unsafe {
        ffi::hns_encode_frame(network as u8, packet_type, bytes, len, to, room, answer, n);
    })
}

/// What a push delivered: as many frames, their encodings this long at the output's front.
#[derive(Clone, Copy, Debug, Default, Eq, PartialEq)]
pub struct Delivered {
    /// How many frames.
    pub frames: usize,
    /// How long their encodings are.
    pub bytes: usize,
}

/// A push's answer and the held count after it.
#[derive(Clone, Copy, Debug, Eq, PartialEq)]
pub struct Pushed {
    /// What was delivered, or why nothing was.
    pub answer: Result<Delivered, Refusal>,
    /// The held count for the next push.
    pub held: usize,
}

/// Takes input into a stream whose held bytes are the store's first.
#[inline]
pub fn push(
    network: NetworkMagic,
    store: &mut [u8],
    held: usize,
    input: &[u8],
    output: &mut [u8],
) -> Pushed {
    let (bytes, len) = (input.as_ptr(), input.len());
    let (kept, room) = (store.as_mut_ptr(), store.len());
    let (to, most) = (output.as_mut_ptr(), output.len());
    // SAFETY: as above.
    let call = |row, n| unsafe {
        ffi::hns_push(
            network as u8,
            kept,
            room,
            held,
            bytes,
            len,
            to,
            most,
            row,
            n,
        );
    };
    answer(call, |row| match row.at(0) {
        0 => Pushed {
            answer: Ok(Delivered {
                frames: row.at(1) as usize,
                bytes: row.at(2) as usize,
            }),
            held: row.at(3) as usize,
        },
        _ => Pushed {
            answer: Err(row.refusal()),
            held: row.at(4) as usize,
        },
    })
}

/// The same push, which adds the frames that it delivers to a tally of [`TALLY_SIZE`](crate::TALLY_SIZE)
/// numbers, as [`Tally`](crate::Tally) has them: fewer are refused by 16, and totals that would pass
/// 2^63 - 1 by 20. A refused push leaves the tally as it was.
#[inline]
pub fn push_tallying(
    network: NetworkMagic,
    store: &mut [u8],
    held: usize,
    input: &[u8],
    output: &mut [u8],
    tally: &mut [u64],
) -> Pushed {
    let (bytes, len) = (input.as_ptr(), input.len());
    let (kept, room) = (store.as_mut_ptr(), store.len());
    let (to, most) = (output.as_mut_ptr(), output.len());
    let (counts, size) = (tally.as_mut_ptr(), tally.len());
    // SAFETY: as above.
    let call = |row, n| unsafe {
        ffi::hns_push_tallying(
            network as u8,
            kept,
            room,
            held,
            bytes,
            len,
            to,
            most,
            counts,
            size,
            row,
            n,
        );
    };
    answer(call, |row| Pushed {
        answer: match row.at(0) {
            0 => Ok(Delivered {
                frames: row.at(1) as usize,
                bytes: row.at(2) as usize,
            }),
            number => Err(Refusal {
                number,
                a: row.at(4),
                b: row.at(5),
                c: 0,
            }),
        },
        held: row.at(3) as usize,
    })
}

/// A stream of frames over a lent store.
#[derive(Debug)]
pub struct FrameDecoder<'store> {
    network: NetworkMagic,
    store: &'store mut [u8],
    held: usize,
}

impl<'store> FrameDecoder<'store> {
    /// A store of 16,000,018 bytes serves every stream.
    #[inline]
    pub const fn new(network: NetworkMagic, store: &'store mut [u8]) -> Self {
        Self {
            network,
            store,
            held: 0,
        }
    }

    /// How many bytes wait for the rest of their frame.
    #[inline]
    pub const fn buffered_len(&self) -> usize {
        self.held
    }

    /// The store, which the held bytes are the first of.
    #[inline]
    pub const fn store(&self) -> &[u8] {
        self.store
    }

    /// Takes input, and puts the frames that are whole by now to the output's front.
    #[inline]
    pub fn push(&mut self, input: &[u8], output: &mut [u8]) -> Result<Delivered, Refusal> {
        let pushed = push(self.network, self.store, self.held, input, output);
        self.held = pushed.held;
        pushed.answer
    }

    /// The same, and adds these frames to a tally.
    #[inline]
    pub fn push_tallying(
        &mut self,
        input: &[u8],
        output: &mut [u8],
        tally: &mut [u64],
    ) -> Result<Delivered, Refusal> {
        let pushed = push_tallying(self.network, self.store, self.held, input, output, tally);
        self.held = pushed.held;
        pushed.answer
    }
}

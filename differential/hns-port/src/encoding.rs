use crate::{Refusal, Row, answer, ffi, row};

/// Reads from the front of a slice on. A refused read leaves the place where it was.
///
/// ```
/// use hns_port::Decoder;
///
/// let mut decoder = Decoder::new(&[0xfd, 0xfd, 0x00, 7]);
/// assert_eq!(decoder.read_compact_size()?, 253);
/// assert_eq!(decoder.read_u16_le().unwrap_err().number, 1);
/// assert_eq!(decoder.read_u8()?, 7);
/// decoder.finish()?;
/// # Ok::<(), hns_port::Refusal>(())
/// ```
#[derive(Clone, Copy, Debug)]
pub struct Decoder<'input> {
    input: &'input [u8],
    position: usize,
}

/// A value, a first place or a count, and the place after.
#[inline]
fn two(row: &Row) -> (u64, u64) {
    (row.at(1), row.at(2))
}

type Read = unsafe extern "C" fn(*const u8, usize, usize, *mut u64, usize);

impl<'input> Decoder<'input> {
    /// Reads from the first byte on.
    #[inline]
    pub const fn new(input: &'input [u8]) -> Self {
        Self::at(input, 0)
    }

    /// Reads from a place on, which may be past the end.
    #[inline]
    pub const fn at(input: &'input [u8], position: usize) -> Self {
        Self { input, position }
    }

    /// The next byte to read.
    #[inline]
    pub const fn position(&self) -> usize {
        self.position
    }

    /// How many bytes are left.
    #[inline]
    pub const fn remaining(&self) -> usize {
        self.input.len().saturating_sub(self.position)
    }

    /// A number of one byte.
    #[inline]
    pub fn read_u8(&mut self) -> Result<u8, Refusal> {
        Ok(self.number(ffi::hns_read_u8)? as u8)
    }

    /// A number of two bytes, the lowest first.
    #[inline]
    pub fn read_u16_le(&mut self) -> Result<u16, Refusal> {
        Ok(self.number(ffi::hns_read_u16_le)? as u16)
    }

    /// A number of four bytes, the lowest first.
    #[inline]
    pub fn read_u32_le(&mut self) -> Result<u32, Refusal> {
        Ok(self.number(ffi::hns_read_u32_le)? as u32)
    }

    /// A number of eight bytes, the lowest first.
    #[inline]
    pub fn read_u64_le(&mut self) -> Result<u64, Refusal> {
        self.number(ffi::hns_read_u64_le)
    }

    /// A compact size, which must be in its shortest form.
    #[inline]
    pub fn read_compact_size(&mut self) -> Result<u64, Refusal> {
        self.number(ffi::hns_read_compact_size)
    }

    /// Compact sizes one after another, up to the first that is refused: how many were read.
    #[inline]
    pub fn read_compact_sizes(&mut self, values: &mut [u64]) -> usize {
        let (input, len, at) = self.parts();
        let (to, room) = (values.as_mut_ptr(), values.len());
        // SAFETY: the pointers and counts are those of slices, and they do not overlap.
        let call = |row, n| unsafe {
            ffi::hns_read_compact_sizes(input, len, at, to, room, row, n);
        };
        let (count, next) = answer(call, two);
        self.position = next as usize;
        count as usize
    }

    /// A compact size that is not over a limit.
    #[inline]
    pub fn read_compact_usize(&mut self, maximum: usize) -> Result<usize, Refusal> {
        let (input, len, at) = self.parts();
        // SAFETY: the pointers and counts are those of slices, and they do not overlap.
        let call = |answer, n| unsafe {
            ffi::hns_read_compact_usize(input, len, at, maximum, answer, n);
        };
        let (value, next) = row(call, two)?;
        self.position = next as usize;
        Ok(value as usize)
    }

    /// So many bytes.
    #[inline]
    pub fn read_slice(&mut self, length: usize) -> Result<&'input [u8], Refusal> {
        let (input, len, at) = self.parts();
        // SAFETY: as above.
        self.slice(|answer, n| unsafe { ffi::hns_read_slice(input, len, at, length, answer, n) })
    }

    /// So many bytes as the array has.
    #[inline]
    pub fn read_array<const LENGTH: usize>(&mut self) -> Result<[u8; LENGTH], Refusal> {
        let bytes = self.read_slice(LENGTH)?;
        Ok(*bytes.first_chunk().expect("as many as were asked for"))
    }

    /// So many bytes, if that is not over a limit.
    #[inline]
    pub fn read_bounded(&mut self, length: usize, maximum: usize) -> Result<&'input [u8], Refusal> {
        let (input, len, at) = self.parts();
        // SAFETY: as above.
        self.slice(|answer, n| unsafe {
            ffi::hns_read_bounded(input, len, at, length, maximum, answer, n);
        })
    }

    /// A compact size that is not over a limit, and as many bytes.
    #[inline]
    pub fn read_varbytes(&mut self, maximum: usize) -> Result<&'input [u8], Refusal> {
        let (input, len, at) = self.parts();
        // SAFETY: as above.
        self.slice(|answer, n| unsafe {
            ffi::hns_read_varbytes(input, len, at, maximum, answer, n);
        })
    }

    /// Refuses bytes that are left.
    #[inline]
    pub fn finish(self) -> Result<(), Refusal> {
        let (input, len, at) = self.parts();
        // SAFETY: as above.
        let call = |answer, n| unsafe { ffi::hns_finish(input, len, at, answer, n) };
        row(call, |_| ())
    }

    #[inline]
    fn parts(&self) -> (*const u8, usize, usize) {
        (self.input.as_ptr(), self.input.len(), self.position)
    }

    #[inline]
    fn number(&mut self, read: Read) -> Result<u64, Refusal> {
        let (input, len, at) = self.parts();
        // SAFETY: as above.
        let call = |answer, n| unsafe { read(input, len, at, answer, n) };
        let (value, next) = row(call, two)?;
        self.position = next as usize;
        Ok(value)
    }

    #[inline]
    fn slice(&mut self, read: impl FnOnce(*mut u64, usize)) -> Result<&'input [u8], Refusal> {
        let (start, next) = row(read, two)?;
        self.position = next as usize;
        // No byte past the end is answered, but no bytes may be asked for past the end.
        Ok(self.input.get(start as usize..next as usize).unwrap_or(&[]))
    }
}

/// Puts into a lent output. What does not fit is counted and not stored, so the last position is
/// the length that is needed.
#[derive(Debug)]
pub struct Encoder<'out> {
    out: &'out mut [u8],
    position: usize,
}

impl<'out> Encoder<'out> {
    /// Puts from the first byte on.
    #[inline]
    pub const fn new(out: &'out mut [u8]) -> Self {
        Self::at(out, 0)
    }

    /// Puts from a place on, which may be past the end.
    #[inline]
    pub const fn at(out: &'out mut [u8], position: usize) -> Self {
        Self { out, position }
    }

    /// The place after what was put.
    #[inline]
    pub const fn position(&self) -> usize {
        self.position
    }

    /// A number of one byte.
    #[inline]
    pub fn put_u8(&mut self, value: u8) {
        // SAFETY: the pointer and the count are those of the lent slice.
        self.put(|out, len, at| unsafe { ffi::hns_put_u8(value, out, len, at) });
    }

    /// A number of two bytes, the lowest first.
    #[inline]
    pub fn put_u16_le(&mut self, value: u16) {
        // SAFETY: as above.
        self.put(|out, len, at| unsafe { ffi::hns_put_u16_le(value, out, len, at) });
    }

    /// A number of four bytes, the lowest first.
    #[inline]
    pub fn put_u32_le(&mut self, value: u32) {
        // SAFETY: as above.
        self.put(|out, len, at| unsafe { ffi::hns_put_u32_le(value, out, len, at) });
    }

    /// A number of eight bytes, the lowest first.
    #[inline]
    pub fn put_u64_le(&mut self, value: u64) {
        // SAFETY: as above.
        self.put(|out, len, at| unsafe { ffi::hns_put_u64_le(value, out, len, at) });
    }

    /// A compact size in its shortest form.
    #[inline]
    pub fn put_compact_size(&mut self, value: u64) {
        // SAFETY: as above.
        self.put(|out, len, at| unsafe { ffi::hns_put_compact_size(value, out, len, at) });
    }

    /// Bytes.
    #[inline]
    pub fn put_bytes(&mut self, value: &[u8]) {
        let (bytes, count) = (value.as_ptr(), value.len());
        // SAFETY: as above; a shared and a lent slice do not overlap.
        self.put(|out, len, at| unsafe { ffi::hns_put_bytes(bytes, count, out, len, at) });
    }

    /// A compact size and as many bytes.
    #[inline]
    pub fn put_varbytes(&mut self, value: &[u8]) {
        let (bytes, count) = (value.as_ptr(), value.len());
        // SAFETY: as above.
        self.put(|out, len, at| unsafe { ffi::hns_put_varbytes(bytes, count, out, len, at) });
    }

    pub(crate) fn put(&mut self, call: impl FnOnce(*mut u8, usize, usize) -> usize) {
        self.position = call(self.out.as_mut_ptr(), self.out.len(), self.position);
    }
}

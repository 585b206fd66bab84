//! Reads and puts.

use compare::generate::EDGES;
use compare::rust;
use hns_encoding::{DecodeError, Decoder, Encoder};

use crate::list::{List, hex, row, spliced};

impl List {
    pub fn encoding(&mut self) {
        self.numbers();
        self.compact_sizes();
        self.sizes();
        self.slices();
        self.puts();
    }

    /// A read at a place with two further numbers.
    fn read(&mut self, kind: u8, bytes: &[u8], place: usize, a: u64, b: u64) {
        let mut from = Decoder::new(bytes);
        from.read_slice(place).expect("a place within the bytes");
        let answer = read(kind, &mut from, a as usize, b as usize).map_err(rust::decode_error);
        let numbers = [place as u64, a, b];
        self.add(kind, 0, numbers, bytes, &row(answer, 0));
    }

    fn numbers(&mut self) {
        let bytes = [0x01, 0x82, 0xff, 0x00, 0x7f, 0x80, 0xfe, 0x0a, 0xd3];
        for kind in 0..4 {
            for length in 0..=bytes.len() {
                self.read(kind, &bytes[..length], 0, 0, 0);
                self.read(kind, &bytes[..length], length.min(1), 0, 0);
            }
        }
        for left in 0..3 {
            self.read(9, &bytes, bytes.len() - left, 0, 0);
        }
    }

    fn compact_sizes(&mut self) {
        for value in EDGES {
            let mut to = Encoder::new();
            to.put_compact_size(value);
            let bytes = to.into_bytes();
            for length in 0..=bytes.len() {
                self.read(4, &bytes[..length], 0, 0, 0);
            }
            for maximum in [value.saturating_sub(1), value, value.saturating_add(1)] {
                self.read(5, &bytes, 0, maximum, 0);
            }
            for (marker, width) in [(0xfd, 2), (0xfe, 4), (0xff, 8)] {
                let wide = [&[marker], &value.to_le_bytes()[..width]].concat();
                self.read(4, &wide, 0, 0, 0);
                self.read(5, &wide, 0, value, 0);
            }
        }
    }

    /// Lists of six and of fewer, cut at each place, with a size that is not the shortest, and from
    /// a place on.
    fn sizes(&mut self) {
        for values in EDGES.chunks(4) {
            let mut to = Encoder::new();
            values.iter().for_each(|value| to.put_compact_size(*value));
            let bytes = to.into_bytes();
            for length in 0..=bytes.len() {
                self.list_of_sizes(&bytes[..length], 0);
            }
            let longer = [&bytes[..], &[0xfd, 0xfc, 0x00], &bytes].concat();
            self.list_of_sizes(&longer, 0);
            self.list_of_sizes(&longer, 1);
            self.list_of_sizes(&longer, longer.len());
        }
        self.list_of_sizes(&[1, 2, 3, 4, 5, 6, 7, 8], 0);
    }

    fn list_of_sizes(&mut self, bytes: &[u8], place: usize) {
        let mut from = Decoder::new(bytes);
        from.read_slice(place).expect("a place within the bytes");
        let mut values = [170; 6];
        let (mut count, mut next) = (0, place);
        for to in &mut values {
            let Ok(value) = from.read_compact_size() else {
                break;
            };
            *to = value;
            count += 1;
            next = from.position();
        }
        let numbers = row(Ok([count, next as u64, 0, 0, 0]), 0);
        let values = values.map(|value| value.to_string()).join(" ");
        let answer = format!("{numbers} {values}");
        self.add(23, 0, [place as u64, 0, 0], bytes, &answer);
    }

    fn slices(&mut self) {
        let bytes: Vec<u8> = (0..6).collect();
        for place in [0, 2, 6] {
            for length in [0, 1, 4, 6, 7] {
                self.read(6, &bytes, place, length, 0);
                for maximum in [length.saturating_sub(1), length] {
                    self.read(7, &bytes, place, length, maximum);
                }
            }
        }
        for count in [0, 1, 4, 5, 6] {
            let counted = [&[9, count], &bytes[..5]].concat();
            for maximum in [u64::from(count).saturating_sub(1), u64::from(count), 100] {
                self.read(8, &counted, 1, maximum, 0);
            }
        }
        self.read(8, &[0xfd, 0x01, 0x00, 0x07], 0, 4, 0);
        self.read(8, &[0xfd, 0x01], 0, 4, 0);
    }

    fn puts(&mut self) {
        for value in EDGES {
            for kind in 10..15 {
                let mut to = Encoder::new();
                match kind {
                    10 => to.put_u8(value as u8),
                    11 => to.put_u16_le(value as u16),
                    12 => to.put_u32_le(value as u32),
                    13 => to.put_u64_le(value),
                    _ => to.put_compact_size(value),
                }
                self.put(kind, value, &[], to);
            }
        }
        for length in [0, 1, 20] {
            let bytes: Vec<u8> = (0..length).collect();
            let mut to = Encoder::new();
            to.put_bytes(&bytes);
            self.put(15, 0, &bytes, to);
            let mut to = Encoder::new();
            to.put_varbytes(&bytes);
            self.put(16, 0, &bytes, to);
        }
    }

    fn put(&mut self, kind: u8, value: u64, bytes: &[u8], to: Encoder) {
        let written = to.into_bytes();
        for place in [0, 3] {
            let answer = format!(
                "{} {}",
                place + written.len(),
                hex(&spliced(32, place, &written))
            );
            self.add(kind, 0, [place as u64, value, 0], bytes, &answer);
        }
    }
}

fn read(kind: u8, from: &mut Decoder<'_>, a: usize, b: usize) -> Result<[u64; 5], DecodeError> {
    let number = |value: u64, from: &Decoder| [value, from.position() as u64, 0, 0, 0];
    let part = |length: usize, from: &Decoder| {
        let next = from.position();
        [(next - length) as u64, next as u64, 0, 0, 0]
    };
    Ok(match kind {
        0 => number(from.read_u8()?.into(), from),
        1 => number(from.read_u16_le()?.into(), from),
        2 => number(from.read_u32_le()?.into(), from),
        3 => number(from.read_u64_le()?, from),
        4 => number(from.read_compact_size()?, from),
        5 => number(from.read_compact_usize(a, "")? as u64, from),
        6 => part(from.read_slice(a)?.len(), from),
        7 => part(from.read_bounded_vec(a, b)?.len(), from),
        8 => part(from.read_varbytes(a, "")?.len(), from),
        _ => from.finish().map(|()| [0; 5])?,
    })
}

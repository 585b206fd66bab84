//! Headers: decoded, at a place, and encoded again.

use compare::rust;
use hns_encoding::Decoder;
use hns_header_consensus::Header;
use hns_port::Refusal;

use crate::list::{List, hex, row, spliced};

impl List {
    pub fn headers(&mut self) {
        let bytes: Vec<u8> = (0..240).map(|i| (i * 7 + 3) as u8).collect();
        for length in [0, 1, 235, 236, 237, 240] {
            let header = Header::decode(&bytes[..length]).map_err(rust::header_error);
            self.header(17, &bytes[..length], 0, header);
        }
        for (length, place) in [(236, 0), (240, 0), (240, 4), (240, 5), (240, 240), (0, 0)] {
            let mut from = Decoder::new(&bytes[..length]);
            from.read_slice(place).expect("a place within the bytes");
            let part = from.read_slice(236).map_err(rust::decode_error);
            let header = part.and_then(|b| Header::decode(b).map_err(rust::header_error));
            self.header(18, &bytes[..length], place, header);
        }
    }

    /// Its numbers and hashes, and its bytes again.
    fn header(&mut self, kind: u8, bytes: &[u8], place: usize, header: Result<Header, Refusal>) {
        let mut hashes = Vec::new();
        let mut again = String::new();
        let answer = header.map(|h| {
            hashes.extend(h.previous_block.as_bytes());
            hashes.extend(h.tree_root.as_bytes());
            hashes.extend(h.extra_nonce);
            hashes.extend(h.reserved_root.as_bytes());
            hashes.extend(h.witness_root.as_bytes());
            hashes.extend(h.merkle_root.as_bytes());
            hashes.extend(h.mask.as_bytes());
            again = format!(" {}", hex(&spliced(240, 2, &h.encode())));
            let next = place as u64 + 236;
            let (version, bits) = (h.version.into(), h.bits.get().into());
            [next, h.nonce.into(), h.time.get(), version, bits]
        });
        let hashes = hex(&spliced(220, 0, &hashes));
        let answer = format!("{} {hashes}{again}", row(answer, 0));
        self.add(kind, 0, [place as u64, 0, 0], bytes, &answer);
    }
}

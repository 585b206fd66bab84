//! The names that the published crates use. No hash can be made: the type has no values.

pub trait Digest {
    type Output;
    fn new() -> Self;
    fn update(&mut self, data: impl AsRef<[u8]>);
    fn finalize(self) -> Self::Output;
}

pub enum Sha3_256 {}

impl Digest for Sha3_256 {
    type Output = [u8; 32];

    fn new() -> Self {
        unimplemented!("hashes are outside the comparison")
    }

    fn update(&mut self, _: impl AsRef<[u8]>) {
        match *self {}
    }

    fn finalize(self) -> [u8; 32] {
        match self {}
    }
}

//! The names that the published crates use. No hash can be made: the types have no values.

pub mod digest {
    pub trait Update {
        fn update(&mut self, data: &[u8]);
    }

    pub trait VariableOutput: Sized {
        fn new(size: usize) -> Result<Self, InvalidOutputSize>;
        fn finalize_variable(self, output: &mut [u8]) -> Result<(), InvalidBufferSize>;
    }

    #[derive(Debug)]
    pub struct InvalidOutputSize;

    #[derive(Debug)]
    pub struct InvalidBufferSize;
}

pub trait Digest {
    type Output;
    fn new() -> Self;
    fn update(&mut self, data: impl AsRef<[u8]>);
    fn finalize(self) -> Self::Output;
}

pub enum Blake2bVar {}

impl digest::Update for Blake2bVar {
    fn update(&mut self, _: &[u8]) {
        match *self {}
    }
}

impl digest::VariableOutput for Blake2bVar {
    fn new(_: usize) -> Result<Self, digest::InvalidOutputSize> {
        Err(digest::InvalidOutputSize)
    }

    fn finalize_variable(self, _: &mut [u8]) -> Result<(), digest::InvalidBufferSize> {
        match self {}
    }
}

pub enum Blake2b512 {}

impl Digest for Blake2b512 {
    type Output = [u8; 64];

    fn new() -> Self {
        unimplemented!("hashes are outside the comparison")
    }

    fn update(&mut self, _: impl AsRef<[u8]>) {
        match *self {}
    }

    fn finalize(self) -> [u8; 64] {
        match self {}
    }
}

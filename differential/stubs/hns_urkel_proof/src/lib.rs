//! A proof without values: the compiler shows that no packet of the comparison has one.
use std::fmt;

use hns_primitives::{NameHash, TreeRoot};

#[derive(Clone, Debug, Eq, PartialEq)]
pub enum HsdUrkelProof {}

#[derive(Clone, Debug, Eq, PartialEq)]
pub struct UrkelError;

impl fmt::Display for UrkelError {
    fn fmt(&self, f: &mut fmt::Formatter<'_>) -> fmt::Result {
        f.write_str("proofs are outside the comparison")
    }
}

impl std::error::Error for UrkelError {}

impl HsdUrkelProof {
    pub fn decode_strict(_: &[u8]) -> Result<Self, UrkelError> {
        Err(UrkelError)
    }

    pub fn encode(&self) -> Result<Vec<u8>, UrkelError> {
        match *self {}
    }

    pub fn verify(&self, _: TreeRoot, _: NameHash) -> Result<Option<Vec<u8>>, UrkelError> {
        match *self {}
    }
}

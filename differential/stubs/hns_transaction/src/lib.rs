//! A transaction without values: the compiler shows that no packet of the comparison has one.
use std::fmt;

use hns_encoding::Decoder;

#[derive(Clone, Debug, Eq, PartialEq)]
pub enum Transaction {}

#[derive(Debug)]
pub struct TransactionError;

impl fmt::Display for TransactionError {
    fn fmt(&self, f: &mut fmt::Formatter<'_>) -> fmt::Result {
        f.write_str("transactions are outside the comparison")
    }
}

impl Transaction {
    pub fn decode(_: &[u8]) -> Result<Self, TransactionError> {
        Err(TransactionError)
    }

    pub fn decode_from(_: &mut Decoder<'_>) -> Result<Self, TransactionError> {
        Err(TransactionError)
    }

    pub fn encode(&self) -> Result<Vec<u8>, TransactionError> {
        match *self {}
    }

    pub fn witness_hash(&self) -> Result<[u8; 32], TransactionError> {
        match *self {}
    }
}

//! A block has the fields that the published code names. It can have no transaction, since these
//! have no values, and none is read, written or accepted.
use hns_header_consensus::Header;
use hns_transaction::Transaction;

#[derive(Clone, Debug, Eq, PartialEq)]
pub struct Block {
    pub header: Header,
    pub transactions: Vec<Transaction>,
}

#[derive(Debug)]
pub struct BlockError;

impl Block {
    pub fn decode(_: &[u8]) -> Result<Self, BlockError> {
        Err(BlockError)
    }

    pub fn encode(&self) -> Result<Vec<u8>, BlockError> {
        Err(BlockError)
    }
}

pub fn validate_block_body(_: &Block) -> Result<(), BlockError> {
    Err(BlockError)
}

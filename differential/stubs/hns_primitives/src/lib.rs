//! The newtypes of a header and of a packet. Work and difficulty are outside the comparison, so
//! arithmetic on `Chainwork` has no result.

macro_rules! bytes32 {
    ($($name:ident)*) => {$(
        #[derive(Clone, Copy, Debug, Default, Eq, Hash, PartialEq)]
        pub struct $name([u8; 32]);

        impl $name {
            pub const fn new(bytes: [u8; 32]) -> Self {
                Self(bytes)
            }

            pub const fn as_bytes(&self) -> &[u8; 32] {
                &self.0
            }

            pub const fn into_bytes(self) -> [u8; 32] {
                self.0
            }
        }
    )*};
}

macro_rules! number {
    ($($name:ident($inner:ty))*) => {$(
        #[derive(Clone, Copy, Debug, Default, Eq, Hash, Ord, PartialEq, PartialOrd)]
        pub struct $name($inner);

        impl $name {
            pub const fn new(value: $inner) -> Self {
                Self(value)
            }

            pub const fn get(self) -> $inner {
                self.0
            }
        }
    )*};
}

bytes32! { BlockHash MerkleRoot NameHash PowHash PowMask ReservedRoot ShareHash TreeRoot WitnessRoot }
number! { BlockTime(u64) CompactTarget(u32) Height(u32) }

#[derive(Clone, Copy, Debug, Eq, PartialEq)]
pub struct Chainwork([u8; 32]);

#[derive(Clone, Copy, Debug, Eq, PartialEq)]
pub struct NoArithmetic;

impl Chainwork {
    pub const ZERO: Self = Self([0; 32]);

    pub const fn from_be_bytes(bytes: [u8; 32]) -> Self {
        Self(bytes)
    }

    pub const fn to_be_bytes(self) -> [u8; 32] {
        self.0
    }

    pub fn checked_sub(self, _: Self) -> Result<Self, NoArithmetic> {
        Err(NoArithmetic)
    }

    pub fn checked_mul_u64(self, _: u64) -> Result<Self, NoArithmetic> {
        Err(NoArithmetic)
    }

    pub fn checked_div_u64(self, _: u64) -> Result<Self, NoArithmetic> {
        Err(NoArithmetic)
    }
}

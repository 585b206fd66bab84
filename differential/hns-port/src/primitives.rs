//! Hashes and numbers that are told apart by their types, as `hns_primitives` has them for the Rust.

/// Types of 32 bytes, which lie in memory as the bytes alone.
macro_rules! bytes32 {
    ($($(#[$doc:meta])* $name:ident,)*) => {$(
        $(#[$doc])*
        #[derive(Clone, Copy, Debug, Default, Eq, Hash, PartialEq)]
        #[repr(transparent)]
        pub struct $name([u8; 32]);

        impl $name {
            /// From its bytes.
            #[inline]
            pub const fn new(bytes: [u8; 32]) -> Self {
                Self(bytes)
            }

            /// Its bytes.
            #[inline]
            pub const fn as_bytes(&self) -> &[u8; 32] {
                &self.0
            }

            /// Its bytes.
            #[inline]
            pub const fn into_bytes(self) -> [u8; 32] {
                self.0
            }
        }
    )*};
}

macro_rules! number {
    ($($(#[$doc:meta])* $name:ident($number:ty),)*) => {$(
        $(#[$doc])*
        #[derive(Clone, Copy, Debug, Default, Eq, Hash, Ord, PartialEq, PartialOrd)]
        #[repr(transparent)]
        pub struct $name($number);

        impl $name {
            /// From its number.
            #[inline]
            pub const fn new(value: $number) -> Self {
                Self(value)
            }

            /// Its number.
            #[inline]
            pub const fn get(self) -> $number {
                self.0
            }
        }
    )*};
}

bytes32! {
    /// The hash of a block.
    BlockHash,
    /// The root of the tree of names.
    TreeRoot,
    /// The hash of a name.
    NameHash,
    /// A root that is kept for later use.
    ReservedRoot,
    /// The root of a block's witnesses.
    WitnessRoot,
    /// The root of a block's transactions.
    MerkleRoot,
    /// What the hash of the work is masked with.
    PowMask,
}

number! {
    /// When a block was made.
    BlockTime(u64),
    /// The target of the work, in its short form.
    CompactTarget(u32),
}

impl BlockHash {
    /// Hashes side by side, as a writer takes them.
    pub(crate) const fn flat(hashes: &[Self]) -> &[u8] {
        // SAFETY: a hash is its 32 bytes in memory.
        let bytes: &[[u8; 32]] =
            unsafe { std::slice::from_raw_parts(hashes.as_ptr().cast(), hashes.len()) };
        bytes.as_flattened()
    }
}

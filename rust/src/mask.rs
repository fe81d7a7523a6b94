//! The null mask.

use crate::Kind;
use std::fmt;

/// Which kinds Null may become: bit k stands for kind k.
///
/// ```
/// use pemzhulaq::{Kind, Mask};
/// let mask = Mask::NONE.with(Kind::Int64);
/// assert!(mask.has(Kind::Int64) && !mask.has(Kind::Utf8));
/// assert_eq!(Mask::ALL.without(Kind::Null).bits(), 0x7F_FFFF_FFFC);
/// ```
#[derive(Clone, Copy, Debug, PartialEq, Eq, Hash)]
pub struct Mask(u64);

impl Mask {
    /// Every bit from 1 to 38: Null may become any kind.
    pub const ALL: Mask = Mask((1 << 39) - 2);
    /// No bit: Null becomes nothing.
    pub const NONE: Mask = Mask(0);

    /// A mask of these bits; a call refuses one with a bit outside 1 to 38.
    pub const fn from_bits(bits: u64) -> Mask {
        Mask(bits)
    }

    /// The bits.
    pub const fn bits(self) -> u64 {
        self.0
    }

    /// This mask with a kind's bit set.
    pub const fn with(self, kind: Kind) -> Mask {
        Mask(self.0 | 1 << kind as u8)
    }

    /// This mask without a kind's bit.
    pub const fn without(self, kind: Kind) -> Mask {
        Mask(self.0 & !(1 << kind as u8))
    }

    /// Whether a kind's bit is set.
    pub const fn has(self, kind: Kind) -> bool {
        self.0 >> kind as u8 & 1 == 1
    }
}

impl fmt::LowerHex for Mask {
    fn fmt(&self, f: &mut fmt::Formatter<'_>) -> fmt::Result {
        fmt::LowerHex::fmt(&self.0, f)
    }
}

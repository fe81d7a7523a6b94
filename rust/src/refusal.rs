//! The refusal numbers: why a call was refused.

use std::fmt;

/// Why a call was refused. The lowest number that applies is reported, and no lent byte changes.
#[derive(Clone, Copy, Debug, PartialEq, Eq, Hash, PartialOrd, Ord)]
#[non_exhaustive]
pub enum Refusal {
    /// 1: under 16 bytes, a count outside its limits, a wrong length, or a header that is not zero.
    Torn = 1,
    /// 2: a kind outside 1 to 38.
    Kind = 2,
    /// 3: the walk or a number of parts is wrong.
    Chain = 3,
    /// 4: precision, scale, unit, size, nullable where none may be, or an unused bit or byte.
    Figure = 4,
    /// 5: a label out of its place, one where none may be, or two equal names in a Struct.
    Label = 5,
    /// 6: a mask bit outside 1 to 38.
    Mask = 6,
    /// 7: union or compare without exactly two types.
    Pair = 7,
    /// 8: output shorter than the sheet, or work space shorter than twice it.
    Space = 8,
}

impl Refusal {
    /// All refusals, in the order of their numbers.
    pub const ALL: [Refusal; 8] = [
        Refusal::Torn,
        Refusal::Kind,
        Refusal::Chain,
        Refusal::Figure,
        Refusal::Label,
        Refusal::Mask,
        Refusal::Pair,
        Refusal::Space,
    ];

    /// The number, 1 to 8.
    pub fn number(self) -> u8 {
        self as u8
    }

    /// The word that stands for the number.
    pub fn word(self) -> &'static str {
        match self {
            Refusal::Torn => "torn",
            Refusal::Kind => "kind",
            Refusal::Chain => "chain",
            Refusal::Figure => "figure",
            Refusal::Label => "label",
            Refusal::Mask => "mask",
            Refusal::Pair => "pair",
            Refusal::Space => "space",
        }
    }

    /// The refusal with this number, if there is one.
    pub fn from_number(number: usize) -> Option<Refusal> {
        Refusal::ALL.get(number.checked_sub(1)?).copied()
    }
}

/// As the command-line program prints it: `refused 7 (pair)`.
impl fmt::Display for Refusal {
    fn fmt(&self, f: &mut fmt::Formatter<'_>) -> fmt::Result {
        write!(f, "refused {} ({})", self.number(), self.word())
    }
}

impl std::error::Error for Refusal {}

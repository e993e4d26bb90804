//! Levels, dimensions, numbers of refusal, and what the jobs answer.
use crate::{raw, CONTRACT};
use core::fmt;

/// A level, a height or a Λ: 0 to 32.
#[derive(Clone, Copy, Debug, PartialEq, Eq, PartialOrd, Ord, Hash)]
pub struct Level(pub u8);

/// A dimension or an involution: 0 to 4.
#[derive(Clone, Copy, Debug, PartialEq, Eq, PartialOrd, Ord, Hash)]
pub struct Dimension(pub u8);

/// The two marks of a dimension, as they stand in mark rows and in Δ.
impl Dimension {
    /// The mark of a dart that is removed with this dimension, below n: the dimension itself.
    #[must_use]
    pub const fn removed(self) -> u8 {
        self.0
    }

    /// The mark of a dart that is contracted with this dimension, 1 to n: 9 to 8 + n.
    #[must_use]
    pub const fn contracted(self) -> u8 {
        CONTRACT.saturating_add(self.0)
    }
}

/// Of a number that no refusal has.
const NO_NUMBER: &str = "no number of a refusal";

/// Makes the enum of the numbers, each with its name and its phrase.
macro_rules! numbers {
    ($($number:literal $name:ident $text:literal,)*) => {
        /// The numbers of refusal by name: those of the header, `ZG_E_NOT_TWICE` as `NotTwice`. A later version may
        /// have more.
        #[derive(Clone, Copy, Debug, PartialEq, Eq, Hash)]
        #[non_exhaustive]
        pub enum Number {
            $(
                #[doc = concat!($number, ": ", $text)]
                $name,
            )*
            /// A number that no refusal of this version has.
            Other(u16),
        }

        impl Number {
            /// What the number says, in a phrase; the header's `zg_refusal_text` has the same.
            #[must_use]
            pub const fn text(self) -> &'static str {
                match self {
                    $(Number::$name => $text,)*
                    Number::Other(_) => NO_NUMBER,
                }
            }
        }

        impl From<u16> for Number {
            fn from(number: u16) -> Number {
                match number {
                    $($number => Number::$name,)*
                    other => Number::Other(other),
                }
            }
        }

        impl From<Number> for u16 {
            fn from(number: Number) -> u16 {
                match number {
                    $(Number::$name => $number,)*
                    Number::Other(other) => other,
                }
            }
        }
    };
}

numbers! {
    0 Accepted "accepted",
    1 Dimension "the dimension is not 1 to 4, or not 2 for a combinatorial map",
    2 Darts "the number of darts is not 1 to 4096 (of a combinatorial map 2048), or a new base has none",
    3 Height "the height is above 32",
    4 Length "a length is not the one due",
    5 Strays "an entry names no dart that is there",
    6 NotTwice "an involution applied twice is not the identity",
    7 NotCommuting "two involutions do not commute",
    8 Marks "a mark is not allowed",
    9 NotWhole "a kernel is not made of whole cells",
    10 NotRemovable "a cell is not removable or not contractible",
    11 NoLevel "the level asked is above the height, or too near it for a decimation or a join",
    12 NoDart "the dart asked is not on the level",
    13 NoInvolution "the involution or dimension asked is too large",
    14 NoPass "a walk meets a removed or contracted dart that it cannot pass",
    15 TooLong "a walk needs more than 1 + 2N reads",
    16 EndsEarly "the record ends early",
    17 OtherTag "the record has another tag than the one due",
    18 WrongLength "a field of the record has a wrong length",
    19 BytesAfter "bytes follow the end of the record",
    20 Full "a level is added at height 32",
    21 TwoToOne "a vertex row sends two darts to one",
    22 NoRows "no two rows yield the base",
    23 Contracted "regions have names only in a pyramid without contraction",
}

/// Why a job is refused. A field that says nothing is 0; in records the byte offset stands in place of the dart.
///
/// `Display` and `Debug` both print its line with the phrase, so that a `main` that ends with a refusal says it in words:
///
/// ```
/// use zompelgors::{Number, Refusal};
///
/// let refusal = Refusal { number: 16, level: 0, involution: 0, dart: 34 };
/// assert_eq!(format!("{refusal:?}"), "refused 16 0 0 34: the record ends early");
/// assert_eq!(refusal.kind(), Number::EndsEarly);
/// ```
#[derive(Clone, Copy, PartialEq, Eq, Hash)]
pub struct Refusal {
    /// Why: [`Refusal::kind`] has its name.
    pub number: u16,
    /// On which level, or of which kernel.
    pub level: u16,
    /// The row where it was found.
    pub involution: u16,
    /// The dart, or the byte offset.
    pub dart: u16,
}

impl Refusal {
    /// The number by name.
    #[must_use]
    pub fn kind(&self) -> Number {
        Number::from(self.number)
    }

    /// What the number says, in a phrase.
    #[must_use]
    pub fn text(&self) -> &'static str {
        self.kind().text()
    }
}

impl fmt::Display for Refusal {
    fn fmt(&self, to: &mut fmt::Formatter<'_>) -> fmt::Result {
        write!(
            to,
            "refused {} {} {} {}: {}",
            self.number,
            self.level,
            self.involution,
            self.dart,
            self.text()
        )
    }
}

/// The same line: a `main` that returns a refusal prints this one.
impl fmt::Debug for Refusal {
    fn fmt(&self, to: &mut fmt::Formatter<'_>) -> fmt::Result {
        fmt::Display::fmt(self, to)
    }
}

#[cfg(feature = "std")]
impl std::error::Error for Refusal {}

/// A neighbour, with the number of base entries read to find it.
#[derive(Clone, Copy, Debug, PartialEq, Eq)]
pub struct Reading {
    /// The neighbour.
    pub neighbour: u16,
    /// Base entries read.
    pub count: u32,
}

/// A neighbour found by the direct walk, with the number of base entries read to find it, and the lowest level on which
/// the dart already has it.
#[derive(Clone, Copy, Debug, PartialEq, Eq)]
pub struct Link {
    /// The neighbour.
    pub neighbour: u16,
    /// Base entries read.
    pub count: u32,
    /// Since which level it stands.
    pub since: Level,
}

/// Of all readings of an unfolding: the sum of their counts, and the largest of their levels.
#[derive(Clone, Copy, Debug, PartialEq, Eq)]
pub struct Unfolding {
    /// Base entries read in all.
    pub count: u32,
    /// Since which level all links stand.
    pub since: Level,
}

/// What a record that was taken says of itself.
#[derive(Clone, Copy, Debug, PartialEq, Eq)]
pub struct Header {
    /// n.
    pub n: Dimension,
    /// The height.
    pub h: Level,
    /// N.
    pub darts: u16,
}

/// How fast a pyramid shrinks from a level to the next.
#[derive(Clone, Copy, Debug, PartialEq)]
pub enum Factor {
    /// The level's survivors by those of the next: the double nearest to the fraction of the two counts.
    By(f64),
    /// The next level has no dart.
    Empty,
}

/// The size of a new base.
#[derive(Clone, Copy, Debug, PartialEq, Eq)]
pub struct Base {
    /// N of the new base.
    pub darts: u16,
    /// Its height.
    pub h: Level,
}

impl raw::ZgRefusal {
    pub(crate) fn accepted(self) -> Result<(), Refusal> {
        match self.number {
            0 => Ok(()),
            number => Err(Refusal {
                number,
                level: self.level,
                involution: self.involution,
                dart: self.dart,
            }),
        }
    }
}

macro_rules! accepted {
    ($($name:ident),*) => {
        $(
            impl raw::$name {
                /// The answer itself, unless it begins with a refusal.
                pub(crate) fn accepted(self) -> Result<Self, Refusal> {
                    self.refusal.accepted().map(|()| self)
                }
            }
        )*
    };
}

accepted!(
    ZgReading,
    ZgLink,
    ZgUnfolding,
    ZgCount,
    ZgHeight,
    ZgPart,
    ZgRecord,
    ZgWritten,
    ZgFactor,
    ZgBase
);

//! The quantities and answers of the calls.

use std::fmt;

/// A measured value or level in whole tenths of a decibel.
///
/// It is no [`Decibels`], and neither becomes the other unasked:
///
/// ```
/// use imbrolt::{Decibels, Tenths};
/// assert_eq!(Decibels(52).in_tenths(), Tenths(520));
/// assert_eq!(Tenths(-5).to_string(), "-0.5 dB");
/// ```
///
/// ```compile_fail
/// let target: imbrolt::Decibels = imbrolt::Tenths(520);
/// ```
#[derive(Clone, Copy, Debug, PartialEq, Eq, PartialOrd, Ord, Hash)]
#[repr(transparent)]
pub struct Tenths(pub i32);

/// A rating, a target or a rounded term in whole decibels.
#[derive(Clone, Copy, Debug, PartialEq, Eq, PartialOrd, Ord, Hash)]
#[repr(transparent)]
pub struct Decibels(pub i32);

/// A price, a charge or a total in whole fen.
///
/// It is neither [`Tenths`] nor [`Decibels`]:
///
/// ```compile_fail
/// let price: imbrolt::Fen = imbrolt::Tenths(520);
/// ```
#[derive(Clone, Copy, Debug, Default, PartialEq, Eq, PartialOrd, Ord, Hash)]
#[repr(transparent)]
pub struct Fen(pub u32);

impl Decibels {
    /// The same level in tenths; the extreme tenths where it has none.
    pub fn in_tenths(self) -> Tenths {
        Tenths(self.0.saturating_mul(10))
    }
}

impl fmt::Display for Tenths {
    fn fmt(&self, to: &mut fmt::Formatter<'_>) -> fmt::Result {
        let sign = if self.0 < 0 { "-" } else { "" };
        let size = self.0.unsigned_abs();
        write!(to, "{sign}{}.{} dB", size / 10, size % 10)
    }
}

impl fmt::Display for Decibels {
    fn fmt(&self, to: &mut fmt::Formatter<'_>) -> fmt::Result {
        write!(to, "{} dB", self.0)
    }
}

impl fmt::Display for Fen {
    fn fmt(&self, to: &mut fmt::Formatter<'_>) -> fmt::Result {
        write!(to, "{} fen", self.0)
    }
}

/// A band as an analyser gives it, in decibels.
#[derive(Clone, Copy, Debug, PartialEq)]
pub enum Reading {
    Level(f32),
    /// A value that stands for "at least" (airborne) or "at most" (impact).
    Limit(f32),
    Missing,
}

/// A value and whether it is a limit.
#[derive(Clone, Copy, Debug, PartialEq, Eq)]
#[non_exhaustive]
pub struct Value {
    pub tenths: Tenths,
    pub limit: bool,
}

/// What a rating answers.
///
/// A term is worked out in tenths and rounded to a whole decibel, a half to the even one (GB 8170).
#[derive(Clone, Copy, Debug, PartialEq, Eq)]
#[non_exhaustive]
pub struct Sheet {
    pub rating: Decibels,
    /// C for airborne, the impact term for impact.
    pub first: Decibels,
    /// Ctr for airborne; impact has none.
    pub second: Option<Decibels>,
    /// How often the curve was shifted from its start.
    pub shifts: u32,
    /// Whether any band is a limit: at least (airborne), at most (impact).
    pub limit: bool,
}

/// What a call on a register answers.
#[derive(Clone, Copy, Debug, PartialEq, Eq)]
pub struct Billed {
    pub sheet: Sheet,
    /// The price for a new key, 0 where it was charged before.
    pub charged: Fen,
}

/// The improvement by a floor cover.
#[derive(Clone, Copy, Debug, PartialEq, Eq)]
#[non_exhaustive]
pub struct Cover {
    pub improvement: Decibels,
    pub term: Decibels,
    pub limit: bool,
}

/// One band as two rooms are measured: levels in decibels, the time in seconds.
#[derive(Clone, Copy, Debug, PartialEq)]
pub struct RawBand {
    pub source: f32,
    pub receiving: f32,
    pub background: f32,
    pub time: f32,
}

/// Band values worked out from others, and their limit marks: bit i for band i.
#[derive(Clone, Copy, Debug, PartialEq, Eq)]
pub struct Bands<const N: usize> {
    pub values: [Tenths; N],
    pub marks: u16,
}

/// The grade of a door or window.
#[derive(Clone, Copy, Debug, PartialEq, Eq)]
#[non_exhaustive]
pub struct Grade {
    pub rating: Decibels,
    pub c: Decibels,
    pub ctr: Decibels,
    /// Rating + Ctr outside, rating + C inside.
    pub deciding: Decibels,
    /// 0 to 6.
    pub grade: u32,
    pub limit: bool,
}

/// How far a block of lines got.
#[derive(Clone, Copy, Debug, Default, PartialEq, Eq)]
pub struct Progress {
    /// Bytes of the input that are done with; the others go to the front of the next block.
    pub used: usize,
    /// Bytes written.
    pub wrote: usize,
    /// To be handed to the next call: the rest of a line too long for a request is passed over.
    pub skipping: bool,
}

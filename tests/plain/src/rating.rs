//! The four kinds and the rating.
//!
//! Impact levels are turned over, that is, their signs are changed: then for every kind more is
//! better, a deficit is what a band lacks below the curve, and the rating is the greatest position.

use crate::energy;
use crate::intake::all_in_range;
use crate::refusal::{Answered, BAND_COUNT, BAND_RANGE};

/// What a kind of N bands owns, in tenths, turned over for impact.
pub struct Kind<const N: usize> {
    /// 1 for airborne; -1 for impact.
    sign: i32,
    limit: i32,
    reference: [i32; N],
    /// 10 L of the first and the second term; none for impact.
    spectra: [[i32; N]; 2],
    /// What is taken off the position once, in dB.
    off: i32,
}

const fn times<const N: usize>(factor: i32, decibels: [i32; N]) -> [i32; N] {
    let mut product = decibels;
    let mut band = 0;
    while band < N {
        product[band] *= factor;
        band += 1;
    }
    product
}

pub static A3: Kind<16> = Kind {
    sign: 1,
    limit: 320,
    reference: times(10, [-19, -16, -13, -10, -7, -4, -1, 0, 1, 2, 3, 4, 4, 4, 4, 4]),
    spectra: [
        times(10, [-29, -26, -23, -21, -19, -17, -15, -13, -12, -11, -10, -9, -9, -9, -9, -9]),
        times(10, [-20, -20, -18, -16, -15, -14, -13, -12, -11, -9, -8, -9, -10, -11, -13, -15]),
    ],
    off: 0,
};

pub static A1: Kind<5> = Kind {
    sign: 1,
    limit: 100,
    reference: times(10, [-16, -7, 0, 3, 4]),
    spectra: [times(10, [-21, -14, -8, -5, -4]), times(10, [-14, -10, -7, -4, -6])],
    off: 0,
};

pub static I3: Kind<16> = Kind {
    sign: -1,
    limit: 320,
    reference: times(-10, [2, 2, 2, 2, 2, 2, 1, 0, -1, -2, -3, -6, -9, -12, -15, -18]),
    spectra: [[0; 16]; 2],
    off: 0,
};

pub static I1: Kind<5> = Kind {
    sign: -1,
    limit: 100,
    reference: times(-10, [2, 2, 0, -3, -16]),
    spectra: [[0; 5]; 2],
    off: 5,
};

/// Ratings and terms in dB; no second term for impact.
pub struct Sheet {
    pub rating: i32,
    pub first: i32,
    pub second: Option<i32>,
    pub shifts: i32,
}

impl<const N: usize> Kind<N> {
    /// A value turned so that more is better.
    #[inline(always)]
    pub fn turned(&self, value: i32) -> i32 {
        self.sign * value
    }

    #[inline(always)]
    pub fn limit(&self) -> i32 {
        self.limit
    }

    /// The position whose rating is this.
    pub fn position_of_rating(&self, rating: i32) -> i32 {
        self.turned(rating + self.off)
    }

    #[inline(always)]
    fn rating_of_position(&self, position: i32) -> i32 {
        self.turned(position) - self.off
    }

    /// The deficits of values at a position.
    pub fn deficits(&self, values: &[i32; N], position: i32) -> [i32; N] {
        core::array::from_fn(|band| {
            deficit(self.turned(values[band]), self.reference[band], 10 * position)
        })
    }

    /// The greatest position whose deficits total at most the limit.
    ///
    /// The total is convex in the position: from where it would stand if every band had a deficit,
    /// each step by the slope at hand stays at or above the answer.
    #[inline(always)]
    fn position(&self, values: &[i32; N]) -> i32 {
        let surplus = self.turned(values.iter().sum::<i32>()) - self.reference.iter().sum::<i32>();
        let mut position = (self.limit + surplus).div_euclid(10 * N as i32);
        loop {
            let (total, short) = total_deficit(self.sign, values, &self.reference, 10 * position);
            if total <= self.limit {
                return position;
            }
            position -= ((total - self.limit) as u32).div_ceil(10 * short) as i32;
        }
    }

    /// Where the curve method starts: the mean rounded up to a whole dB, plus 5.
    #[inline(always)]
    fn start(&self, values: &[i32; N]) -> i32 {
        let sum = self.turned(values.iter().sum());
        let tenths_of_a_decibel = 10 * N as i32;
        (sum + tenths_of_a_decibel - 1).div_euclid(tenths_of_a_decibel) + 5
    }

    /// A term in whole dB.
    #[inline(always)]
    fn term(&self, values: &[i32; N], spectrum: &[i32; N], rating: i32) -> i32 {
        let weighted = core::array::from_fn(|band| self.turned(values[band]) - spectrum[band]);
        let level = self.turned(energy::together::<N>(&weighted));
        let tenths = level - 10 * rating - if self.sign < 0 { 150 } else { 0 };
        whole_decibels(tenths)
    }

    /// The rating of accepted values.
    #[inline(always)]
    pub fn rating(&self, values: &[i32; N]) -> i32 {
        self.rating_of_position(self.position(values))
    }

    /// The sheet of accepted values.
    #[inline(always)]
    pub fn sheet(&self, values: &[i32; N]) -> Sheet {
        let position = self.position(values);
        let rating = self.rating_of_position(position);
        Sheet {
            rating,
            first: self.term(values, &self.spectra[0], rating),
            second: (self.sign > 0).then(|| self.term(values, &self.spectra[1], rating)),
            shifts: self.start(values) - position,
        }
    }
}

/// Tenths in whole dB by GB 8170: the nearest, and of two that are as near the even one.
#[inline(always)]
fn whole_decibels(tenths: i32) -> i32 {
    let up = (tenths + 5).div_euclid(10);
    let odd_tie = tenths == 10 * up - 5 && up % 2 != 0;
    up - i32::from(odd_tie)
}

/// What a band lacks below a curve.
#[inline(always)]
fn deficit(turned: i32, reference: i32, curve: i32) -> i32 {
    (curve + reference - turned).max(0)
}

/// The total of the deficits below a curve, and how many bands have one.
///
/// On slices, so that the loop is kept and the machine does several bands at once.
#[inline(never)]
fn total_deficit(sign: i32, values: &[i32], reference: &[i32], curve: i32) -> (i32, u32) {
    let mut total = 0;
    let mut short = 0;
    for (value, &reference) in values.iter().zip(reference) {
        let deficit = deficit(sign * value, reference, curve);
        total += deficit;
        short += u32::from(deficit > 0);
    }
    (total, short)
}

/// A kind's number of bands; refusal 1 for a number that is no kind.
pub fn bands(kind: u32) -> Answered<usize> {
    match kind {
        0 | 2 => Ok(16),
        1 | 3 => Ok(5),
        _ => Err(BAND_COUNT),
    }
}

/// N values as they stand: 1, then 4.
#[inline(always)]
pub fn accepted<const N: usize>(values: &[i32]) -> Answered<&[i32; N]> {
    let values: &[i32; N] = values.try_into().map_err(|_| BAND_COUNT)?;
    if all_in_range(values) {
        Ok(values)
    } else {
        Err(BAND_RANGE)
    }
}

/// The sheet of a set: 1, then 4.
pub fn sheet(kind: u32, values: &[i32]) -> Answered<Sheet> {
    match kind {
        0 => Ok(A3.sheet(accepted(values)?)),
        1 => Ok(A1.sheet(accepted(values)?)),
        2 => Ok(I3.sheet(accepted(values)?)),
        3 => Ok(I1.sheet(accepted(values)?)),
        _ => Err(BAND_COUNT),
    }
}

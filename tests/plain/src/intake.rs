//! From the analyser's 32-bit floats to whole tenths and hundredths.

use crate::refusal::{Answered, BAND_RANGE, NOT_FINITE, READING_MISSING, TIME_RANGE};

/// The least and the greatest band value, in tenths.
pub const LEAST: i32 = -200;
pub const GREATEST: i32 = 1500;

pub const LEVEL: u32 = 0;
pub const LIMIT: u32 = 1;

/// Whether a band value is in range.
#[inline(always)]
pub fn in_range(tenths: i32) -> bool {
    // One comparison: what lies below the range wraps to a large number.
    tenths.wrapping_sub(LEAST) as u32 <= (GREATEST - LEAST) as u32
}

/// Whether all values are in range: without a branch for each, several at once.
#[inline(always)]
pub fn all_in_range(values: &[i32]) -> bool {
    values.iter().fold(true, |all, &value| all & in_range(value))
}

/// Refusal 4 for a band value out of range.
pub fn ranged(tenths: i32) -> Answered<i32> {
    if in_range(tenths) {
        Ok(tenths)
    } else {
        Err(BAND_RANGE)
    }
}

/// The whole number of 1/`parts` nearest the float's exact value, a tie to the greater; refusal 2
/// for NaN and the infinities. From 4096 on, far past every range, it is the extreme number.
fn nearest(value: f32, parts: i64) -> Answered<i32> {
    let bits = value.to_bits();
    let exponent = (bits >> 23 & 0xff) as i32;
    if exponent == 0xff {
        return Err(NOT_FINITE);
    }
    // The value is significand x 2^-places.
    let places = 150 - exponent.max(1);
    let hidden = i64::from(exponent > 0) << 23;
    let significand = i64::from(bits & 0x7f_ffff) + hidden;
    let signed = if bits >> 31 == 1 { -significand } else { significand };
    if places < 12 {
        return Ok(if signed < 0 { i32::MIN } else { i32::MAX });
    }
    if places > 40 {
        return Ok(0); // under 2^-17, far less than half of any part
    }
    // floor(value x parts + 1/2)
    let doubled = 2 * parts * signed + (1 << places);
    Ok((doubled >> (places + 1)) as i32)
}

/// A level's tenths: 2, then 4.
pub fn tenths(value: f32) -> Answered<i32> {
    ranged(nearest(value, 10)?)
}

/// A reverberation time's hundredths: 2, then 7.
pub fn hundredths(seconds: f32) -> Answered<i32> {
    let hundredths = nearest(seconds, 100)?;
    if (10..=2000).contains(&hundredths) {
        Ok(hundredths)
    } else {
        Err(TIME_RANGE)
    }
}

/// A reading's tenths and whether it is a limit value: 3, 2, 4.
pub fn take_reading(mark: u32, value: f32) -> Answered<(i32, bool)> {
    if mark != LEVEL && mark != LIMIT {
        return Err(READING_MISSING);
    }
    Ok((tenths(value)?, mark == LIMIT))
}

/// Takes in readings, one for each place; answers their limit marks, or the first refusal in their
/// order. A mark past the end of the marks is that of a missing reading.
pub fn take_readings(marks: &[u8], values: &[f32], taken: &mut [i32]) -> Answered<u64> {
    let mut limits = 0;
    for (band, (place, &value)) in taken.iter_mut().zip(values).enumerate() {
        let mark = marks.get(band).copied().ok_or(READING_MISSING)?;
        let (tenths, limit) = take_reading(u32::from(mark), value)?;
        *place = tenths;
        limits |= u64::from(limit) << band;
    }
    Ok(limits)
}

//! Background, raw bands, octaves, specimens, covers and grades.

use crate::energy;
use crate::intake::{hundredths, in_range, ranged, tenths};
use crate::rating::{Sheet, A3, I3};
use crate::refusal::{Answered, BACKGROUND_TOO_NEAR, DERIVED_RANGE};

/// Field rule on tested levels: the corrected level, and whether it is a limit.
fn field_rule(total: i32, background: i32) -> (i32, bool) {
    match total - background {
        100.. => (total, false),
        d @ 61..=99 => (total - energy::background(d), false),
        _ => (total - 13, true),
    }
}

/// Field rule: 4 for the total, then for the background.
pub fn correct_field(total: i32, background: i32) -> Answered<(i32, bool)> {
    Ok(field_rule(ranged(total)?, ranged(background)?))
}

/// Laboratory rule: 4, 4, then 5.
pub fn correct_laboratory(total: i32, background: i32) -> Answered<i32> {
    match ranged(total)? - ranged(background)? {
        150.. => Ok(total),
        d @ 60..=149 => Ok(total - energy::background(d)),
        _ => Err(BACKGROUND_TOO_NEAR),
    }
}

/// Standardized difference of a raw band and its mark: each float 2, then 4 or 7; then 6.
pub fn standardized(
    source: f32,
    receiving: f32,
    background: f32,
    time: f32,
) -> Answered<(i32, bool)> {
    let source = tenths(source)?;
    let receiving = tenths(receiving)?;
    let background = tenths(background)?;
    let time = hundredths(time)?;
    let (corrected, limit) = field_rule(receiving, background);
    let difference = source - corrected + energy::reverberation(time);
    if in_range(difference) {
        Ok((difference, limit))
    } else {
        Err(DERIVED_RANGE)
    }
}

/// Octaves of sixteen accepted thirds; the last is not used.
pub fn octaves(values: &[i32; 16], marks: u32) -> ([i32; 5], u32) {
    let means = core::array::from_fn(|octave| {
        energy::mean(&core::array::from_fn(|third| values[3 * octave + third]))
    });
    let limits = (0..5).map(|octave| u32::from(marks >> (3 * octave) & 7 != 0) << octave).sum();
    (means, limits)
}

/// Band means of 48 accepted values, specimen after specimen.
pub fn specimens(values: &[i32; 48], marks: u64) -> ([i32; 16], u32) {
    let means = core::array::from_fn(|band| {
        energy::mean(&core::array::from_fn(|specimen| values[16 * specimen + band]))
    });
    (means, ((marks | marks >> 16 | marks >> 32) & 0xffff) as u32)
}

const FLOOR: [i32; 16] =
    [670, 675, 680, 685, 690, 695, 700, 705, 710, 715, 720, 720, 720, 720, 720, 720];

/// Improvement rating and term of sixteen accepted improvements: 6.
pub fn cover(improvements: &[i32; 16]) -> Answered<(i32, i32)> {
    let derived = core::array::from_fn(|band| FLOOR[band] - improvements[band]);
    if !derived.iter().all(|&level| in_range(level)) {
        return Err(DERIVED_RANGE);
    }
    let Sheet { rating, first, .. } = I3.sheet(&derived);
    Ok((78 - rating, -(first + 10)))
}

/// Rating, C, Ctr, deciding number and grade of band means.
pub fn grade(outside: bool, means: &[i32; 16]) -> [i32; 5] {
    let Sheet { rating, first, second, .. } = A3.sheet(means);
    let ctr = second.unwrap_or(0);
    let deciding = rating + if outside { ctr } else { first };
    // 20 to 24 is grade 1, and so on by fives to 45 and above.
    let grade = ((deciding - 15).max(0) / 5).min(6);
    [rating, first, ctr, deciding, grade]
}

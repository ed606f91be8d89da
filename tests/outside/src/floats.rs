//! The floats of an analyser, good and damaged, by their bits.

use crate::seeded::Seeded;
use crate::sets::{accepted, GREATEST, KINDS, LEAST};

/// The float nearest so many parts of a whole.
fn nearest(number: f64, parts: f64) -> f32 {
    (number / parts) as f32
}

/// A float a few steps along the grid.
fn stepped(float: f32, steps: i32) -> f32 {
    f32::from_bits(float.to_bits().wrapping_add_signed(steps))
}

/// What an analyser writes for a tenth: the tenth, or something that rounds to it.
fn written(seeded: &mut Seeded, tenths: i32) -> f32 {
    let finer = if seeded.chance(2) { 0 } else { seeded.between(-490, 490) };
    nearest(f64::from(1000 * tenths + finer), 10_000.0)
}

/// Around the tie between two parts: the tie itself where it has a float, and its neighbours.
fn near_tie(seeded: &mut Seeded, low: i32, high: i32, parts: f64) -> f32 {
    let tie = nearest(f64::from(2 * seeded.between(low, high) + 1), 2.0 * parts);
    stepped(tie, seeded.between(-2, 2))
}

/// The fractions at the ends: of NaNs the first and the last, signalling and quiet.
const END_FRACTIONS: [u32; 6] = [1, 0x3f_ffff, 0x40_0000, 0x40_0001, 0x7f_fffe, 0x7f_ffff];

/// NaNs of every payload, infinities, tiny and huge numbers, any bits.
fn odd(seeded: &mut Seeded) -> f32 {
    let bits = seeded.next() as u32;
    let sign = bits & 1 << 31;
    let fraction = if seeded.chance(3) { seeded.pick(&END_FRACTIONS) } else { bits & 0x7f_ffff };
    f32::from_bits(match seeded.below(6) {
        0 => sign | 0xff << 23 | fraction.max(1),
        1 => sign | 0xff << 23,
        2 => sign | fraction >> seeded.below(24),
        3 => sign | (seeded.below(255) as u32) << 23 | fraction,
        4 => sign | (seeded.below(255) as u32) << 23,
        _ => bits,
    })
}

/// A level: mostly in range.
pub fn level(seeded: &mut Seeded) -> f32 {
    match seeded.below(8) {
        0 => odd(seeded),
        1 => stepped(nearest(f64::from(seeded.pick(&[LEAST, GREATEST, 0])), 10.0), 0),
        2 => {
            let edge = seeded.pick(&[LEAST, GREATEST]);
            near_tie(seeded, edge - 2, edge + 1, 10.0)
        }
        3 | 4 => near_tie(seeded, LEAST, GREATEST, 10.0),
        5 => nearest(f64::from(seeded.between(-850, 6050)), 40.0),
        _ => {
            let tenths = seeded.between(LEAST, GREATEST);
            written(seeded, tenths)
        }
    }
}

/// A level as rooms have it, some damaged.
pub fn room_level(seeded: &mut Seeded, tenths: i32) -> f32 {
    if seeded.chance(20) {
        level(seeded)
    } else {
        written(seeded, tenths)
    }
}

/// A reverberation time in seconds, some out of range.
pub fn time(seeded: &mut Seeded) -> f32 {
    match seeded.below(12) {
        0 => odd(seeded),
        1 => near_tie(seeded, 7, 12, 100.0),
        2 => near_tie(seeded, 1997, 2002, 100.0),
        3..=5 => near_tie(seeded, 10, 2000, 100.0),
        _ => nearest(f64::from(seeded.between(10, 2000)), 100.0),
    }
}

/// A reading's mark: mostly a level, some limits, few missing or unknown.
pub fn mark(seeded: &mut Seeded) -> u32 {
    match seeded.below(12) {
        0 | 1 => 1,
        2 => seeded.pick(&[2, 3, 255, 256, 257, u32::MAX]),
        _ => 0,
    }
}

/// Marks and floats of some sets in tenths, mostly good.
pub fn readings(seeded: &mut Seeded, tenths: &[i32]) -> (Vec<u8>, Vec<f32>) {
    let mut floats: Vec<f32> = tenths.iter().map(|&value| written(seeded, value)).collect();
    let one_limit_in = seeded.pick(&[2, 10, 1000]);
    let mut marks: Vec<u8> = floats.iter().map(|_| seeded.chance(one_limit_in).into()).collect();
    if seeded.chance(5) && !floats.is_empty() {
        for _ in 0..seeded.between(1, 3) {
            let band = seeded.below(floats.len());
            if seeded.chance(2) {
                floats[band] = level(seeded);
            } else {
                marks[band] = mark(seeded) as u8;
            }
        }
    }
    (marks, floats)
}

/// 48 tenths: three specimens of one product, or of no likeness.
pub fn three_specimens(seeded: &mut Seeded) -> Vec<i32> {
    let first = accepted(seeded, &KINDS[0]);
    let spread = seeded.pick(&[0, 4, 15, 60, 1700]);
    let mut like = |value: i32| (value + seeded.between(-spread, spread)).clamp(LEAST, GREATEST);
    (0..3).flat_map(|_| first.clone()).map(&mut like).collect()
}

//! The lift list.

use crate::intake::{GREATEST, LEAST};
use crate::rating::{accepted, Kind, A1, A3, I1, I3};
use crate::refusal::{Answered, BAND_COUNT, OUTPUT_TOO_SMALL, TARGET_NOT_BETTER, TARGET_RANGE};

/// The places that the list needs: every set of 1 to 3 bands.
const fn places(bands: usize) -> usize {
    bands + bands * (bands - 1) / 2 + bands * (bands - 1) * (bands - 2) / 6
}

/// The lift list of a set, its count: 1, 4, then 9, 8, 10.
pub fn lift(kind: u32, values: &[i32], target: i32, list: &mut [u16]) -> Answered<usize> {
    match kind {
        0 => listed(&A3, accepted(values)?, target, list),
        1 => listed(&A1, accepted(values)?, target, list),
        2 => listed(&I3, accepted(values)?, target, list),
        3 => listed(&I1, accepted(values)?, target, list),
        _ => Err(BAND_COUNT),
    }
}

fn listed<const N: usize>(
    kind: &Kind<N>,
    values: &[i32; N],
    target: i32,
    list: &mut [u16],
) -> Answered<usize> {
    if !(-100..=200).contains(&target) {
        return Err(TARGET_RANGE);
    }
    if kind.turned(target) <= kind.turned(kind.rating(values)) {
        return Err(TARGET_NOT_BETTER);
    }
    if list.len() < places(N) {
        return Err(OUTPUT_TOO_SMALL);
    }
    let (gains, need) = gains(kind, values, target);
    Ok(minimal_sets(&gains, need, list))
}

/// What lifting each band takes off the total deficit at the target, and what has to go.
///
/// A set reaches the target exactly when its gains come to the need: the total at the target is
/// then within the limit. The need is more than 0, since the target is better than the rating.
fn gains<const N: usize>(kind: &Kind<N>, values: &[i32; N], target: i32) -> ([i32; N], i32) {
    let position = kind.position_of_rating(target);
    let best = if kind.turned(GREATEST) > kind.turned(LEAST) { GREATEST } else { LEAST };
    let now = kind.deficits(values, position);
    let lifted = kind.deficits(&[best; N], position);
    let gains = core::array::from_fn(|band| now[band] - lifted[band]);
    (gains, now.iter().sum::<i32>() - kind.limit())
}

/// Writes the minimal reaching sets in order, answers their count.
///
/// No gain is negative, so a set that holds a reaching set reaches too: it is enough to pass over
/// bands that reach alone, and pairs that reach.
fn minimal_sets<const N: usize>(gains: &[i32; N], need: i32, list: &mut [u16]) -> usize {
    let mut count = 0;
    let mut put = |mask: u16| {
        list[count] = mask;
        count += 1;
    };
    let mut alone = 0u16;
    for (band, &gain) in gains.iter().enumerate() {
        if gain >= need {
            alone |= 1 << band;
            put(1 << band);
        }
    }
    let mut paired = [alone; N];
    for low in bands_of(!alone, N) {
        for next in bands_of(!alone & above(low), N) {
            if gains[low] + gains[next] >= need {
                paired[low] |= 1 << next;
                put(1 << low | 1 << next);
            }
        }
    }
    for low in bands_of(!alone, N) {
        for next in bands_of(!paired[low] & above(low), N) {
            let left = need - gains[low] - gains[next];
            for last in bands_of(!paired[low] & !paired[next] & above(next), N) {
                if gains[last] >= left {
                    put(1 << low | 1 << next | 1 << last);
                }
            }
        }
    }
    count
}

/// The mask of all bands above this one.
fn above(band: usize) -> u16 {
    u16::MAX << band << 1
}

/// The bands of a mask among the first `count`, from the lowest.
fn bands_of(mask: u16, count: usize) -> impl Iterator<Item = usize> {
    let mut left = u32::from(mask) & ((1 << count) - 1);
    core::iter::from_fn(move || {
        let band = left.trailing_zeros() as usize;
        left &= left.checked_sub(1)?;
        Some(band)
    })
}

//! Sets of bands in tenths: measured, near every edge, and damaged.

use crate::seeded::Seeded;

pub const LEAST: i32 = -200;
pub const GREATEST: i32 = 1500;
pub const OUTSIDE: [i32; 6] = [LEAST - 1, GREATEST + 1, i32::MIN, i32::MAX, -1000, 10_000];

/// What the inputs have to know of a kind.
pub struct Kind {
    pub number: u32,
    pub airborne: bool,
    pub reference: &'static [i32],
    pub limit: i32,
}

pub static KINDS: [Kind; 4] = [
    Kind {
        number: 0,
        airborne: true,
        reference: &[-19, -16, -13, -10, -7, -4, -1, 0, 1, 2, 3, 4, 4, 4, 4, 4],
        limit: 320,
    },
    Kind { number: 1, airborne: true, reference: &[-16, -7, 0, 3, 4], limit: 100 },
    Kind {
        number: 2,
        airborne: false,
        reference: &[2, 2, 2, 2, 2, 2, 1, 0, -1, -2, -3, -6, -9, -12, -15, -18],
        limit: 320,
    },
    Kind { number: 3, airborne: false, reference: &[2, 2, 0, -3, -16], limit: 100 },
];

/// Typical thirds in whole dB: doors, glazings and walls; floors; improvements by covers.
const AIRBORNE: [[i32; 16]; 4] = [
    [20, 21, 22, 23, 24, 25, 26, 27, 28, 28, 29, 30, 30, 31, 31, 33],
    [23, 21, 20, 19, 22, 26, 29, 32, 34, 36, 38, 38, 35, 33, 37, 41],
    [37, 38, 39, 41, 44, 47, 49, 51, 53, 56, 58, 60, 62, 63, 66, 68],
    [17, 23, 31, 36, 40, 45, 48, 51, 53, 56, 58, 58, 56, 50, 53, 56],
];
const IMPACT: [[i32; 16]; 3] = [
    [60, 63, 65, 66, 67, 68, 69, 70, 70, 70, 71, 71, 72, 72, 71, 71],
    [59, 57, 55, 54, 51, 47, 45, 41, 38, 34, 31, 28, 25, 23, 22, 20],
    [71, 70, 70, 69, 67, 66, 64, 61, 59, 56, 52, 47, 44, 40, 36, 34],
];
const COVERS: [[i32; 16]; 3] = [
    [0, 0, 0, 2, 6, 10, 14, 18, 22, 26, 30, 30, 30, 30, 30, 30],
    [-1, -2, -2, -1, 2, 5, 9, 12, 15, 18, 22, 24, 27, 30, 31, 34],
    [1, 1, 2, 2, 3, 4, 5, 7, 8, 10, 12, 14, 15, 17, 18, 20],
];

fn clamped(value: i32) -> i32 {
    value.clamp(LEAST, GREATEST)
}

/// A shape in tenths, moved as a whole and made uneven.
fn noisy(seeded: &mut Seeded, shape: &[i32], around: i32) -> Vec<i32> {
    let moved = seeded.between(-around, around);
    let spread = seeded.pick(&[0, 3, 12, 40]);
    shape
        .iter()
        .map(|level| clamped(10 * level + moved + seeded.between(-spread, spread)))
        .collect()
}

fn measured(seeded: &mut Seeded, kind: &Kind) -> Vec<i32> {
    let shape = if kind.airborne { seeded.pick(&AIRBORNE) } else { seeded.pick(&IMPACT) };
    let thirds = noisy(seeded, &shape, 150);
    if kind.reference.len() == 16 {
        return thirds;
    }
    thirds[1..].iter().step_by(3).copied().collect()
}

/// Deficits at some position that total the limit, or a tenth from it.
fn near_limit(seeded: &mut Seeded, kind: &Kind) -> Vec<i32> {
    let bands = kind.reference.len();
    let mut deficits = vec![0; bands];
    let mut left = kind.limit + seeded.between(-1, 1);
    while left > 0 {
        let part = left.min(seeded.pick(&[1, 7, 10, 33, 90]));
        deficits[seeded.below(bands)] += part;
        left -= part;
    }
    let position = seeded.between(10, 70);
    let sign = if kind.airborne { -1 } else { 1 };
    let mut at = |(&reference, &deficit): (&i32, &i32)| {
        let surplus = if deficit > 0 || seeded.chance(2) { 0 } else { seeded.between(0, 150) };
        clamped(10 * (position + reference) + sign * (deficit - surplus))
    };
    kind.reference.iter().zip(&deficits).map(&mut at).collect()
}

/// A mean that is a whole decibel, or a tenth of a band from it.
fn near_whole_mean(seeded: &mut Seeded, kind: &Kind) -> Vec<i32> {
    let mut values = measured(seeded, kind);
    let bands = values.len() as i32;
    let wanted = 10 * bands * seeded.between(-3, 70) + seeded.between(-1, 1);
    let less = wanted - values.iter().sum::<i32>();
    for value in &mut values {
        *value = clamped(*value + less.div_euclid(bands));
    }
    let rest = less.rem_euclid(bands) as usize;
    values[..rest].iter_mut().for_each(|value| *value = clamped(*value + 1));
    values
}

/// Bands at the ends of the range and anywhere.
fn ends(seeded: &mut Seeded, bands: usize) -> Vec<i32> {
    let any = |seeded: &mut Seeded| {
        let anywhere = seeded.between(LEAST, GREATEST);
        seeded.pick(&[LEAST, GREATEST, LEAST + 1, GREATEST - 1, anywhere])
    };
    (0..bands).map(|_| any(seeded)).collect()
}

/// Values within a span, from around zero or anywhere.
fn within(seeded: &mut Seeded, bands: usize) -> Vec<i32> {
    let span = seeded.pick(&[3, 30, 300, GREATEST - LEAST]);
    let low = seeded.between(LEAST, GREATEST - span);
    let low = if seeded.chance(2) { low.min(-span / 2).max(LEAST) } else { low };
    (0..bands).map(|_| low + seeded.between(0, span)).collect()
}

/// A set that a kind accepts.
pub fn accepted(seeded: &mut Seeded, kind: &Kind) -> Vec<i32> {
    match seeded.below(10) {
        0..=3 => measured(seeded, kind),
        4 | 5 => near_limit(seeded, kind),
        6 => near_whole_mean(seeded, kind),
        7 => ends(seeded, kind.reference.len()),
        _ => within(seeded, kind.reference.len()),
    }
}

/// Improvements by a cover, some near the greatest that the reference floor allows.
pub fn improvements(seeded: &mut Seeded) -> Vec<i32> {
    match seeded.below(4) {
        0 | 1 => {
            let shape = seeded.pick(&COVERS);
            noisy(seeded, &shape, 60)
        }
        2 => (0..16).map(|_| seeded.between(LEAST, 870)).collect(),
        _ => {
            let mut values: Vec<i32> = (0..16).map(|_| seeded.between(0, 400)).collect();
            values[seeded.below(16)] = seeded.between(868, 922);
            values
        }
    }
}

/// Any tenth that a band may have or not.
pub fn any_value(seeded: &mut Seeded) -> i32 {
    match seeded.below(4) {
        0 => seeded.pick(&OUTSIDE),
        1 => seeded.next() as i32,
        _ => seeded.between(LEAST, GREATEST),
    }
}

/// Mostly the set as it is; else some bands changed, often out of range.
pub fn sometimes_damaged(seeded: &mut Seeded, mut values: Vec<i32>) -> Vec<i32> {
    if seeded.chance(6) && !values.is_empty() {
        for _ in 0..seeded.between(1, 3) {
            let band = seeded.below(values.len());
            values[band] = any_value(seeded);
        }
    }
    values
}

/// The values cut or filled up to a length.
pub fn of_length(seeded: &mut Seeded, mut values: Vec<i32>, length: Option<usize>) -> Vec<i32> {
    if let Some(length) = length {
        values.truncate(length);
        while values.len() < length {
            values.push(any_value(seeded));
        }
    }
    values
}

/// Limit marks: none, some of the low sixteen, or any 32 bits.
pub fn marks(seeded: &mut Seeded) -> u32 {
    let any = seeded.next() as u32;
    seeded.pick(&[0, 0, 0, any & 0xffff, any, 1 << (any % 32), any & 0xffff_0000])
}

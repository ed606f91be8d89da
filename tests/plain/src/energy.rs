//! Sums of energies: table look-ups in place of powers and logarithms.

use crate::tables::{C, F, FIRST_K, G, H, TIMES};

/// F(d) for every difference of two accepted bands under any spectrum, 0 above 900.
static ENERGIES: [u32; 2048] = {
    let mut padded = [0; 2048];
    let mut d = 0;
    while d < F.len() {
        padded[d] = F[d];
        d += 1;
    }
    padded
};

/// Sums are looked up by their bits from 2^24 on: two steps of H or G lie farther apart than
/// that, so at most one of them is left to compare.
const SHIFT: u32 = 24;

/// The number of steps H(j) up to each multiple of 2^24.
static SUM_STEPS: [u8; 1024] = {
    let mut counts = [0; 1024];
    let mut at = 0;
    let mut j = 0;
    while at < counts.len() {
        while j < H.len() && H[j] <= (at as u64) << SHIFT {
            j += 1;
        }
        counts[at] = j as u8;
        at += 1;
    }
    counts
};

/// The number of steps G(j) from each multiple of 2^24 on.
static MEAN_STEPS: [u8; 256] = {
    let mut counts = [0; 256];
    let mut at = 0;
    let mut j = G.len();
    while at < counts.len() {
        while j > 0 && G[j - 1] < (at as u64) << SHIFT {
            j -= 1;
        }
        counts[at] = j as u8;
        at += 1;
    }
    counts
};

/// The least of the levels and the sum of F(level - least).
#[inline(always)]
fn sum<const N: usize>(levels: &[i32; N]) -> (i32, u64) {
    let least = levels.iter().fold(i32::MAX, |least, &level| least.min(level));
    let energy = |level: i32| u64::from(ENERGIES[(level - least) as usize & 2047]);
    (least, levels.iter().map(|&level| energy(level)).sum())
}

/// u: the number of j >= 1 with H(j) <= S, for S from 10^9 to 16 x 10^9.
#[inline(always)]
fn sum_steps(energies: u64) -> i32 {
    let least = SUM_STEPS[(energies >> SHIFT) as usize & 1023];
    let next = H[usize::from(least).min(H.len() - 1)];
    i32::from(least) + i32::from(next <= energies)
}

/// v: the number of j >= 1 with S <= G(j), for S from 10^9 to 3 x 10^9.
#[inline(always)]
fn mean_steps(energies: u64) -> i32 {
    let most = MEAN_STEPS[(energies >> SHIFT) as usize & 255];
    let below = most > 0 && G[usize::from(most) - 1] < energies;
    i32::from(most) - i32::from(below)
}

/// The level of all energies together: the least level less u.
#[inline(always)]
pub fn together<const N: usize>(levels: &[i32; N]) -> i32 {
    let (least, energies) = sum(levels);
    least - sum_steps(energies)
}

/// Mean of three: the least level plus v.
pub fn mean(levels: &[i32; 3]) -> i32 {
    let (least, energies) = sum(levels);
    least + mean_steps(energies)
}

/// c(d), for d from 60 to 149.
pub fn background(d: i32) -> i32 {
    C[(d - 60) as usize]
}

/// k, for a time from 10 to 2000 hundredths.
pub fn reverberation(hundredths: i32) -> i32 {
    FIRST_K - 1 + TIMES.partition_point(|&least| least <= hundredths) as i32
}

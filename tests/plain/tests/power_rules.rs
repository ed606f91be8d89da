//! Every entry of the tables is held to its power rule, in whole numbers of any size.

use imbrolt_plain::tables::{C, F, FIRST_K, G, H, TIMES};
use std::cmp::Ordering;

/// A natural number of any size, in digits of 2^32 from the lowest.
#[derive(Clone, PartialEq, Eq)]
struct Natural(Vec<u32>);

impl Natural {
    fn one() -> Natural {
        Natural(vec![1])
    }

    fn times(mut self, factor: u64) -> Natural {
        let mut carry = 0u128;
        for digit in &mut self.0 {
            carry += u128::from(*digit) * u128::from(factor);
            *digit = carry as u32;
            carry >>= 32;
        }
        while carry > 0 {
            self.0.push(carry as u32);
            carry >>= 32;
        }
        while self.0.last() == Some(&0) {
            self.0.pop();
        }
        self
    }

    fn times_power(mut self, base: u64, exponent: u32) -> Natural {
        for _ in 0..exponent {
            self = self.times(base);
        }
        self
    }
}

impl PartialOrd for Natural {
    fn partial_cmp(&self, other: &Natural) -> Option<Ordering> {
        let by_length = self.0.len().cmp(&other.0.len());
        Some(by_length.then_with(|| self.0.iter().rev().cmp(other.0.iter().rev())))
    }
}

fn power(base: u64, exponent: u32) -> Natural {
    Natural::one().times_power(base, exponent)
}

#[test]
fn energies() {
    let whole = power(10, 900);
    for (d, &n) in F.iter().enumerate() {
        let holds = |n: u32| power(n.into(), 100).times_power(10, d as u32) <= whole;
        assert!(holds(n) && !holds(n + 1), "F({d})");
    }
    assert_eq!((F[0], F[900]), (1_000_000_000, 1));
}

#[test]
fn steps_of_sums() {
    for (j, &n) in (1..).zip(&H) {
        let holds = |n: u64| power(n, 200) >= power(10, 1799 + 2 * j);
        assert!(holds(n) && !holds(n - 1), "H({j})");
    }
    assert!(*H.last().unwrap() > 16_000_000_000, "no sum of sixteen is past the table");
}

#[test]
fn steps_of_means() {
    let whole = power(3, 200).times_power(10, 1800);
    for (j, &n) in (1..).zip(&G) {
        let holds = |n: u64| power(n, 200).times_power(10, 2 * j - 1) <= whole;
        assert!(holds(n) && !holds(n + 1), "G({j})");
    }
    assert!(*G.last().unwrap() < 1_000_000_000, "no sum of three is past the table");
}

#[test]
fn background_corrections() {
    // n <= B(j) exactly when n^200 x 10^(2j-1) <= 10^1800
    let whole = power(10, 1800);
    for (d, &c) in (60..).zip(&C) {
        let rest = u64::from(1_000_000_000 - F[d]);
        let holds = |j: i32| power(rest, 200).times_power(10, 2 * j as u32 - 1) <= whole;
        assert!(holds(c) && !holds(c + 1), "c({d})");
    }
    assert_eq!((C[0], C[1], C[10], C[89]), (13, 12, 10, 1));
}

#[test]
fn reverberation_times() {
    // whether a time of so many hundredths adds k or more
    let adds = |time: i32, k: i32| {
        let (left, right) = if k < 1 { (1 - 2 * k, 0) } else { (0, 2 * k - 1) };
        power(time as u64, 200).times_power(10, left as u32)
            >= power(50, 200).times_power(10, right as u32)
    };
    for (k, &time) in (FIRST_K..).zip(&TIMES) {
        assert!(adds(time, k) && !adds(time - 1, k), "k = {k}");
    }
    let past = FIRST_K + TIMES.len() as i32;
    assert!(adds(10, FIRST_K - 1) && !adds(2000, past), "no time is past the table");
}

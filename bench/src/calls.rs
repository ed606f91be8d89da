//! Nanoseconds of single calls, through the C door and by the plain implementation.

use crate::processor::{time_of_self, Best};
use imbrolt_plain::register::{Register, ENTRIES};
use std::hint::black_box;
use std::time::Duration;

const RUNS: usize = 9;
/// Different inputs, so that no branch is learnt by heart.
const INPUTS: usize = 1024;

/// A door window with its seals, a concrete wall, a floor: thirds in whole dB.
const WINDOW: [i32; 16] = [24, 22, 19, 18, 22, 26, 29, 32, 35, 37, 38, 38, 36, 33, 37, 42];
const WALL: [i32; 16] = [38, 37, 39, 42, 44, 46, 49, 51, 54, 56, 58, 60, 62, 64, 66, 67];
const FLOOR: [i32; 16] = [61, 63, 65, 66, 67, 68, 69, 69, 70, 70, 71, 71, 72, 72, 72, 71];

/// Uneven tenths around a curve, the same in every run.
struct Noise(u64);

impl Noise {
    fn below(&mut self, count: i32) -> i32 {
        self.0 =
            self.0.wrapping_mul(6_364_136_223_846_793_005).wrapping_add(1_442_695_040_888_963_407);
        ((self.0 >> 33) % count as u64) as i32
    }

    fn around(&mut self, shape: &[i32; 16]) -> [i32; 16] {
        let moved = self.below(300) - 150;
        shape.map(|level| 10 * level + moved + self.below(60) - 30)
    }
}

fn sets(shape: &[i32; 16]) -> Vec<[i32; 16]> {
    let mut noise = Noise(2005);
    (0..INPUTS).map(|_| noise.around(shape)).collect()
}

/// Nanoseconds of one call, the best of several runs over all inputs.
fn nanoseconds<T>(inputs: &[T], mut call: impl FnMut(&T) -> u32) -> f64 {
    let mut best = Best::new();
    let mut rounds = 1;
    for _ in 0..RUNS {
        let mut took = Duration::ZERO;
        while took < Duration::from_millis(20) {
            // Long enough for the clock, which counts in microseconds at best.
            let before = time_of_self();
            for _ in 0..rounds {
                for input in inputs {
                    let returned = call(black_box(input));
                    assert_eq!(returned, 0);
                }
            }
            took = time_of_self() - before;
            rounds = if took < Duration::from_millis(20) { 2 * rounds } else { rounds };
        }
        best.take(took / rounds);
    }
    best.least().as_nanos() as f64 / inputs.len() as f64
}

/// A row: the call through the C door, then plain.
macro_rules! row {
    ($name:expr, $inputs:expr, $input:pat => $call:ident($($argument:expr),*)) => {{
        let inputs = $inputs;
        let proved = nanoseconds(&inputs, |$input| imbrolt::door::$call($($argument),*));
        let plain = nanoseconds(&inputs, |$input| imbrolt_plain::door::$call($($argument),*));
        print_row($name, proved, plain);
    }};
}

fn print_row(name: &str, proved: f64, plain: f64) {
    println!("{name:<44}{proved:>12.1}{plain:>12.1}{:>12.2}", plain / proved);
}

pub fn time_calls() {
    println!("{:<44}{:>12}{:>12}{:>12}", "nanoseconds of a call", "C door", "plain Rust", "ratio");
    let mut out = [0; 17];
    row!("rating, airborne thirds", sets(&WALL), set => rate(0, set, 0, &mut out));
    row!("rating, impact thirds", sets(&FLOOR), set => rate(2, set, 0, &mut out));
    row!("rating, airborne octaves", sets(&WALL), set => rate(1, &set[..5], 0, &mut out));
    row!("rating from readings, airborne thirds", readings(&WALL, 1),
        floats => rate_readings(0, &[0; 16], floats, &mut out));
    let mut list = [0; 696];
    row!("lift list, airborne thirds, 1 to 4 dB", targets::<16>(0),
        (set, target) => lift(0, set, 0, *target, &mut list, &mut out));
    row!("lift list, airborne octaves, 1 to 4 dB", targets::<5>(1),
        (set, target) => lift(1, set, 0, *target, &mut list, &mut out));
    row!("grade, three specimens", readings(&WINDOW, 3),
        floats => grade(0, &[0; 48], floats, &mut out));
    let mut text = [0; 64];
    let mut wrote = [0];
    row!("line, airborne thirds", lines(), line => answer_line(line, &mut text, 0, &mut wrote));
    time_bills();
    time_closings();
}

/// Bills on a register of 511 entries of one customer: of new keys, and of those that are there.
///
/// Before each call the count is set to 511 again, which takes back what a new key did: one store
/// within the time, the same on both sides.
fn time_bills() {
    const ENTERED: usize = ENTRIES - 1;
    let mut words = [0; imbrolt::Register::BYTES / 8];
    let mut register = Box::new(Register::EMPTY);
    let (mut out, mut plain_out) = ([0; 7], [0; 7]);
    let mut proved = |count: usize, (key, set): &(Vec<u8>, [i32; 16])| {
        let [.., last] = &mut words;
        *last = count as u64;
        imbrolt::door::bill(&mut words, 7, key, 0, set, 0, 500, &mut out)
    };
    let mut plain = |count: usize, (key, set): &(Vec<u8>, [i32; 16])| {
        register.count = count as u64;
        imbrolt_plain::door::bill(&mut register, 7, key, 0, set, 0, 500, &mut plain_out)
    };
    let keys = |name: &str, count| -> Vec<_> {
        let key = |(place, set)| (format!("{name}-{place}").into_bytes(), set);
        sets(&WALL).into_iter().take(count).enumerate().map(key).collect()
    };
    let (entered, new) = (keys("wall", ENTERED), keys("new", 128));
    for (count, bill) in entered.iter().enumerate() {
        assert_eq!((proved(count, bill), plain(count, bill)), (0, 0));
    }
    for (name, bills) in
        [("bill, a new key after 511", &new), ("bill, one of 511 keys again", &entered)]
    {
        let by_door = nanoseconds(bills, |bill| proved(ENTERED, bill));
        print_row(name, by_door, nanoseconds(bills, |bill| plain(ENTERED, bill)));
    }
}

/// Closings on a full register: of a customer who has every other entry, and of one without any.
///
/// Before each call the register is copied from a full one. What the copy takes is measured by
/// itself and taken off, the same on both sides.
fn time_closings() {
    let mut words = Box::new([0; imbrolt::Register::BYTES / 8]);
    let mut register = Box::new(Register::EMPTY);
    let mut out = [0; 7];
    for (place, set) in sets(&WALL)[..ENTRIES].iter().enumerate() {
        let (customer, key) = (7 + place as u64 % 2, format!("wall-{place}").into_bytes());
        let door = imbrolt::door::bill(&mut words, customer, &key, 0, set, 0, 500, &mut out);
        let plain =
            imbrolt_plain::door::bill(&mut register, customer, &key, 0, set, 0, 500, &mut out);
        assert_eq!((door, plain), (0, 0));
    }
    for (name, customer) in
        [("close, a customer with half of 512 keys", 7), ("close, a customer without keys", 9)]
    {
        let by_door = on_copies(&words, |words| imbrolt::door::close(words, customer, &mut out));
        let plain =
            on_copies(&register, |copy| imbrolt_plain::door::close(copy, customer, &mut out));
        print_row(name, by_door, plain);
    }
}

/// Nanoseconds of a call on a copy that is made anew each time, less those of the copy.
fn on_copies<R: Clone>(full: &R, mut call: impl FnMut(&mut R) -> u32) -> f64 {
    let mut copy = full.clone();
    let mut timed = |call: &mut dyn FnMut(&mut R) -> u32| {
        nanoseconds(&[(); 64], |()| {
            copy.clone_from(full);
            call(black_box(&mut copy))
        })
    };
    timed(&mut call) - timed(&mut |_| 0)
}

/// So many sets one after another, as an analyser's floats.
fn readings(shape: &[i32; 16], sets: usize) -> Vec<Vec<f32>> {
    let mut noise = Noise(8485);
    let mut specimens = || (0..sets).flat_map(|_| noise.around(shape)).collect::<Vec<i32>>();
    let floats = |tenths: Vec<i32>| tenths.iter().map(|&value| value as f32 / 10.0).collect();
    (0..INPUTS).map(|_| floats(specimens())).collect()
}

/// Sets with targets 1 to 4 dB above their ratings.
fn targets<const N: usize>(kind: u32) -> Vec<([i32; N], i32)> {
    let mut sheet = [0; 6];
    let target = |(place, set): (usize, [i32; 16])| {
        let set: [i32; N] = core::array::from_fn(|band| set[band * 16 / N]);
        assert_eq!(imbrolt_plain::door::rate(kind, &set, 0, &mut sheet), 0);
        (set, sheet[0] + 1 + place as i32 % 4)
    };
    sets(&WALL).into_iter().enumerate().map(target).collect()
}

fn lines() -> Vec<Vec<u8>> {
    let text = |set: [i32; 16]| {
        let bands: String = set.iter().map(|x| format!("\t{}.{}", x / 10, x % 10)).collect();
        format!("A3\twall-7{bands}\n").into_bytes()
    };
    sets(&WALL).into_iter().map(text).collect()
}

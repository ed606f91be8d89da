//! Case lines of the reference (tests/reference/README.md), answered through the door.

use crate::compare::same;
use crate::doors::{Door, PLAIN};
use crate::frame::{Builder, Call, Frame};
use crate::seeded::Seeded;

/// The frame of a case: with exactly the places that its answer needs.
fn frame_of(seeded: &mut Seeded, numbers: &[i64]) -> Frame {
    let (operation, rest) = numbers.split_first().expect("a case has an operation");
    match operation {
        1 => rate(seeded, rest),
        2 => plain_numbers(seeded, Call::TakeReading, rest, 2),
        3 => {
            let (marks, bits) = readings(seeded, rest[1], &rest[2..]);
            Builder::new(seeded, Call::RateReadings)
                .number(rest[0] as u64)
                .give(&marks)
                .give(&bits)
                .lend::<i32>(6)
                .done()
        }
        5 => plain_numbers(seeded, Call::CorrectField, rest, 2),
        6 => plain_numbers(seeded, Call::CorrectLaboratory, rest, 1),
        7 => plain_numbers(seeded, Call::Standardized, rest, 2),
        8 => sixteen(seeded, Call::Octaves, rest, 6),
        9 => specimens(seeded, Call::Specimens, 0, rest, 17),
        10 => sixteen(seeded, Call::Cover, rest, 3),
        11 => specimens(seeded, Call::Grade, rest[0], &rest[1..], 6),
        12 => lift(seeded, rest),
        _ => panic!("no call answers operation {operation}"),
    }
}

/// A call of numbers alone.
fn plain_numbers(seeded: &mut Seeded, call: Call, numbers: &[i64], places: usize) -> Frame {
    let builder = Builder::new(seeded, call);
    let filled = numbers.iter().fold(builder, |builder, &number| builder.number(number as u64));
    filled.lend::<i32>(places).done()
}

/// As many of the values as the case says, junk past those that the line has.
fn values(seeded: &mut Seeded, length: i64, values: &[i64]) -> Vec<i32> {
    let mut given: Vec<i32> = values.iter().map(|&value| value as i32).collect();
    given.resize_with(length as usize, || seeded.next() as i32);
    given
}

/// Marks and float bits of pairs, as many as the case says.
fn readings(seeded: &mut Seeded, length: i64, pairs: &[i64]) -> (Vec<u8>, Vec<u32>) {
    let (mut marks, mut bits): (Vec<u8>, Vec<u32>) =
        pairs.chunks_exact(2).map(|pair| (pair[0] as u8, pair[1] as u32)).unzip();
    marks.resize_with(length as usize, || seeded.next() as u8);
    bits.resize_with(length as usize, || seeded.next() as u32);
    (marks, bits)
}

fn rate(seeded: &mut Seeded, rest: &[i64]) -> Frame {
    let values = values(seeded, rest[1], &rest[3..]);
    Builder::new(seeded, Call::Rate)
        .number(rest[0] as u64)
        .number(rest[2] as u64)
        .give(&values)
        .lend::<i32>(6)
        .done()
}

fn sixteen(seeded: &mut Seeded, call: Call, rest: &[i64], places: usize) -> Frame {
    let values = values(seeded, rest[0], &rest[2..]);
    Builder::new(seeded, call).number(rest[1] as u64).give(&values).lend::<i32>(places).done()
}

fn specimens(seeded: &mut Seeded, call: Call, side: i64, rest: &[i64], places: usize) -> Frame {
    let (marks, bits) = readings(seeded, rest[0], &rest[1..]);
    Builder::new(seeded, call)
        .number(side as u64)
        .give(&marks)
        .give(&bits)
        .lend::<i32>(places)
        .done()
}

fn lift(seeded: &mut Seeded, rest: &[i64]) -> Frame {
    let values = values(seeded, rest[1], &rest[5..]);
    Builder::new(seeded, Call::Lift)
        .number(rest[0] as u64)
        .number(rest[2] as u64)
        .number(rest[3] as u64)
        .give(&values)
        .lend::<u16>(rest[4] as usize)
        .lend::<i32>(1)
        .done()
}

/// The numbers of an answer, or the refusal's number alone.
pub fn answer_of(returned: u32, frame: &Frame) -> String {
    if returned != 0 {
        return returned.to_string();
    }
    let mut words = vec!["0".to_string()];
    let mut say = |numbers: &[i32]| words.extend(numbers.iter().map(|number| number.to_string()));
    match frame.call {
        Call::Lift => {
            let count = frame.array::<i32>(2)[0];
            say(&[count]);
            let masks = &frame.array::<u16>(1)[..count as usize];
            words.extend(masks.iter().map(|mask| mask.to_string()));
        }
        Call::Rate | Call::Cover | Call::Octaves => say(frame.array(1)),
        Call::RateReadings | Call::Specimens | Call::Grade => say(frame.array(2)),
        Call::Bill => say(&frame.array(3)[..7]),
        Call::Owed | Call::Close => say(&frame.array(1)[..1]),
        Call::OpenRegister => (),
        _ => say(frame.array(0)),
    }
    words.join(" ")
}

/// One answer line for each case line, of the door and the plain implementation alike.
pub fn answers(door: &mut Door, cases: &str) -> Result<String, String> {
    let mut seeded = Seeded::new(0xca5e);
    let mut text = String::new();
    for line in cases.lines() {
        let numbers: Vec<i64> =
            line.split(' ').map(|word| word.parse().expect("whole numbers")).collect();
        let mut frame = frame_of(&mut seeded, &numbers);
        same(door, vec![frame.clone()])?;
        let returned = PLAIN.make(&mut frame);
        text.push_str(&answer_of(returned, &frame));
        text.push('\n');
    }
    Ok(text)
}

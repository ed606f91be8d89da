//! Seeded frames of every call.

use crate::doors::PLAIN;
use crate::floats::{level, mark, readings, room_level, three_specimens, time};
use crate::frame::{Builder, Call, Frame};
use crate::seeded::Seeded;
use crate::sets::{accepted, any_value, improvements, marks, of_length, sometimes_damaged, KINDS};
use crate::texts;

/// Lengths that a frame is to have in place of the ones that fit.
#[derive(Clone, Copy, Default)]
pub struct Lengths {
    pub values: Option<usize>,
    pub marks: Option<usize>,
    pub out: Option<usize>,
}

impl Lengths {
    /// Mostly those that fit.
    pub fn any(seeded: &mut Seeded) -> Lengths {
        let mut once_in = |times, most| seeded.chance(times).then(|| seeded.below(most));
        Lengths { values: once_in(10, 51), marks: once_in(20, 51), out: once_in(12, 20) }
    }
}

/// A frame of a call that stands alone.
pub fn frame(seeded: &mut Seeded, call: Call, lengths: Lengths) -> Frame {
    match call {
        Call::TakeReading => take_reading(seeded, lengths),
        Call::Rate => rate(seeded, lengths),
        Call::RateReadings => rate_readings(seeded, lengths),
        Call::Cover | Call::Octaves => sixteen(seeded, call, lengths),
        Call::CorrectField | Call::CorrectLaboratory => correction(seeded, call, lengths),
        Call::Standardized => standardized(seeded, lengths),
        Call::Specimens | Call::Grade => specimens(seeded, call, lengths),
        Call::Lift => lift(seeded, lengths),
        Call::AnswerLine => answer_line(seeded, lengths),
        Call::AnswerBlock => unreachable!("blocks come in streams"),
        Call::OpenRegister | Call::Bill | Call::Owed | Call::Close => {
            unreachable!("calls on a register come in histories")
        }
    }
}

/// One of the four kinds, and its number or, rarely, one that is no kind's.
fn kind(seeded: &mut Seeded) -> (usize, u64) {
    let which = seeded.below(4);
    let junk = seeded.next() as u32;
    let number =
        if seeded.chance(30) { seeded.pick(&[4, 5, 255, u32::MAX, junk]) } else { which as u32 };
    (which, number.into())
}

fn bits(float: f32) -> u64 {
    float.to_bits().into()
}

fn word(number: i32) -> u64 {
    u64::from(number as u32)
}

fn take_reading(seeded: &mut Seeded, lengths: Lengths) -> Frame {
    let (mark, value) = (mark(seeded), level(seeded));
    Builder::new(seeded, Call::TakeReading)
        .number(mark.into())
        .number(bits(value))
        .lend::<i32>(lengths.out.unwrap_or(2))
        .done()
}

fn rate(seeded: &mut Seeded, lengths: Lengths) -> Frame {
    let (which, number) = kind(seeded);
    let values = accepted(seeded, &KINDS[which]);
    let values = sometimes_damaged(seeded, values);
    let values = of_length(seeded, values, lengths.values);
    let marks = marks(seeded);
    Builder::new(seeded, Call::Rate)
        .number(number)
        .number(marks.into())
        .give(&values)
        .lend::<i32>(lengths.out.unwrap_or(6))
        .done()
}

/// Marks and floats cut or filled up with junk to the lengths asked for.
fn readings_of_lengths(
    seeded: &mut Seeded,
    tenths: &[i32],
    lengths: Lengths,
) -> (Vec<u8>, Vec<f32>) {
    let (mut marks, mut floats) = readings(seeded, tenths);
    if let Some(length) = lengths.values {
        floats.resize_with(length, || level(seeded));
    }
    if let Some(length) = lengths.marks.or(lengths.values) {
        marks.resize_with(length, || mark(seeded) as u8);
    }
    (marks, floats)
}

fn rate_readings(seeded: &mut Seeded, lengths: Lengths) -> Frame {
    let (which, number) = kind(seeded);
    let tenths = accepted(seeded, &KINDS[which]);
    let (marks, floats) = readings_of_lengths(seeded, &tenths, lengths);
    Builder::new(seeded, Call::RateReadings)
        .number(number)
        .give(&marks)
        .give(&floats)
        .lend::<i32>(lengths.out.unwrap_or(6))
        .done()
}

/// Cover and octaves: sixteen values and marks.
fn sixteen(seeded: &mut Seeded, call: Call, lengths: Lengths) -> Frame {
    let (values, places) = match call {
        Call::Cover => (improvements(seeded), 3),
        _ => (accepted(seeded, &KINDS[0]), 6),
    };
    let values = sometimes_damaged(seeded, values);
    let values = of_length(seeded, values, lengths.values);
    let marks = marks(seeded);
    Builder::new(seeded, call)
        .number(marks.into())
        .give(&values)
        .lend::<i32>(lengths.out.unwrap_or(places))
        .done()
}

/// Total and background: mostly near each other, where the rules change.
fn correction(seeded: &mut Seeded, call: Call, lengths: Lengths) -> Frame {
    let total = if seeded.chance(8) { any_value(seeded) } else { seeded.between(-200, 1500) };
    let less = seeded.between(-20, 170);
    let background = if seeded.chance(6) { any_value(seeded) } else { total.saturating_sub(less) };
    Builder::new(seeded, call)
        .number(word(total))
        .number(word(background))
        .lend::<i32>(lengths.out.unwrap_or(2))
        .done()
}

fn standardized(seeded: &mut Seeded, lengths: Lengths) -> Frame {
    let source = seeded.between(-200, 1500);
    let receiving = source - seeded.between(-100, 900);
    let background = receiving - seeded.between(-40, 200);
    let levels = [source, receiving, background].map(|tenths| room_level(seeded, tenths));
    let time = time(seeded);
    let [source, receiving, background] = levels.map(bits);
    Builder::new(seeded, Call::Standardized)
        .number(source)
        .number(receiving)
        .number(background)
        .number(bits(time))
        .lend::<i32>(lengths.out.unwrap_or(2))
        .done()
}

/// Specimens and grade: 48 readings.
fn specimens(seeded: &mut Seeded, call: Call, lengths: Lengths) -> Frame {
    let tenths = three_specimens(seeded);
    let (marks, floats) = readings_of_lengths(seeded, &tenths, lengths);
    let side = seeded.pick(&[0, 0, 0, 1, 1, 2, u64::from(u32::MAX)]);
    let places = if call == Call::Specimens { 17 } else { 6 };
    Builder::new(seeded, call)
        .number(if call == Call::Grade { side } else { 0 })
        .give(&marks)
        .give(&floats)
        .lend::<i32>(lengths.out.unwrap_or(places))
        .done()
}

/// A target: mostly a little better than the rating.
fn target(seeded: &mut Seeded, number: u64, values: &[i32]) -> i32 {
    let mut sheet = [0; 6];
    if seeded.chance(10) || (PLAIN.rate)(number as u32, values, 0, &mut sheet) != 0 {
        let any = seeded.between(-110, 210);
        return seeded.pick(&[any, any, -101, -100, 200, 201, i32::MIN, i32::MAX]);
    }
    let better = if number < 2 { 1 } else { -1 };
    let most = seeded.pick(&[2, 6, 30]);
    sheet[0] + better * seeded.between(-1, most)
}

fn lift(seeded: &mut Seeded, lengths: Lengths) -> Frame {
    let (which, number) = kind(seeded);
    let values = accepted(seeded, &KINDS[which]);
    let values = if seeded.chance(4) { sometimes_damaged(seeded, values) } else { values };
    let values = of_length(seeded, values, lengths.values);
    let needed = if KINDS[which].reference.len() == 16 { 696 } else { 25 };
    let short = seeded.below(800);
    let places =
        seeded.pick(&[needed, needed, needed, needed, needed, needed - 1, needed + 3, short]);
    let target = target(seeded, number, &values);
    let marks = marks(seeded);
    Builder::new(seeded, Call::Lift)
        .number(number)
        .number(marks.into())
        .number(word(target))
        .give(&values)
        .lend::<u16>(places)
        .lend::<i32>(lengths.out.unwrap_or(1))
        .done()
}

/// A line, and an offset within the output, at its end, or past it.
fn answer_line(seeded: &mut Seeded, lengths: Lengths) -> Frame {
    let mut text = texts::line(seeded);
    if let Some(length) = lengths.values {
        text.resize(length, b'\t');
    }
    let at = seeded.pick(&[0, 0, 1, 5, 40]);
    let room = seeded.below(70);
    let places = at + seeded.pick(&[64, 64, 64, 100, room, room]);
    let past = [places, places + 1, usize::MAX, usize::MAX - 63, 1 << 63];
    let at = if seeded.chance(12) { seeded.pick(&past) } else { at };
    Builder::new(seeded, Call::AnswerLine)
        .number(at as u64)
        .give(&text)
        .lend::<u8>(places)
        .lend::<u64>(lengths.out.map_or(1, |length| length % 3))
        .done()
}

//! The calls, in the shape of the C functions of `include/imbrolt.h`.
//!
//! Each answers 0 or a refusal's number. Answers go to the lent slices from their first place;
//! a refusal changes none of them, and neither do places past the answer change.

use crate::rating::{accepted, bands, sheet, Sheet};
use crate::refusal::{Answered, BAND_COUNT, OUTPUT_TOO_SMALL, SPECIMEN_COUNT};
use crate::register::{Asked, Register};
use crate::{intake, lift as lifts, line as lines, rooms};

/// Writes an answer of N numbers: 0, or 10 where the output is too small; or passes a refusal on.
fn put<T: Copy, const N: usize>(answer: Answered<[T; N]>, out: &mut [T]) -> u32 {
    match (answer, out.first_chunk_mut()) {
        (Ok(numbers), Some(places)) => {
            *places = numbers;
            0
        }
        (Ok(_), None) => OUTPUT_TOO_SMALL,
        (Err(refusal), _) => refusal,
    }
}

/// Whether any of the first bands has a limit mark, as the last number of an answer.
fn limited(bands: usize, marks: u32) -> i32 {
    i32::from(marks & ((1 << bands.min(16)) - 1) != 0)
}

fn numbers(sheet: Sheet, limit: i32) -> [i32; 6] {
    let second = sheet.second.unwrap_or(0);
    let has_second = i32::from(sheet.second.is_some());
    [sheet.rating, sheet.first, second, has_second, sheet.shifts, limit]
}

/// Intake of a reading: tenths, limit.
pub fn take_reading(mark: u32, value: f32, out: &mut [i32]) -> u32 {
    let answer =
        intake::take_reading(mark, value).map(|(tenths, limit)| [tenths, i32::from(limit)]);
    put(answer, out)
}

/// Rating of a set: rating, first term, second term, whether there is one, shifts, limit.
pub fn rate(kind: u32, values: &[i32], marks: u32, out: &mut [i32]) -> u32 {
    let limit = limited(values.len(), marks);
    put(sheet(kind, values).map(|sheet| numbers(sheet, limit)), out)
}

/// Rating from readings, as `rate`.
pub fn rate_readings(kind: u32, marks: &[u8], values: &[f32], out: &mut [i32]) -> u32 {
    let answer = || {
        if values.len() != bands(kind)? {
            return Err(BAND_COUNT);
        }
        let mut tenths = [0; 16];
        let taken = &mut tenths[..values.len()];
        let limits = intake::take_readings(marks, values, taken)?;
        Ok(numbers(sheet(kind, taken)?, i32::from(limits != 0)))
    };
    put(answer(), out)
}

/// Improvement of a cover: improvement rating, term, limit.
pub fn cover(values: &[i32], marks: u32, out: &mut [i32]) -> u32 {
    let answer = || {
        let (improvement, term) = rooms::cover(accepted(values)?)?;
        Ok([improvement, term, limited(16, marks)])
    };
    put(answer(), out)
}

/// Field rule: level, limit.
pub fn correct_field(total: i32, background: i32, out: &mut [i32]) -> u32 {
    put(
        rooms::correct_field(total, background).map(|(level, limit)| [level, i32::from(limit)]),
        out,
    )
}

/// Laboratory rule: level.
pub fn correct_laboratory(total: i32, background: i32, out: &mut [i32]) -> u32 {
    put(rooms::correct_laboratory(total, background).map(|level| [level]), out)
}

/// Raw band: difference, limit.
pub fn standardized(
    source: f32,
    receiving: f32,
    background: f32,
    time: f32,
    out: &mut [i32],
) -> u32 {
    let answer = rooms::standardized(source, receiving, background, time);
    put(answer.map(|(difference, limit)| [difference, i32::from(limit)]), out)
}

/// Octaves of thirds: five values, marks.
pub fn octaves(values: &[i32], marks: u32, out: &mut [i32]) -> u32 {
    let answer = || {
        let ([a, b, c, d, e], limits) = rooms::octaves(accepted(values)?, marks);
        Ok([a, b, c, d, e, limits as i32])
    };
    put(answer(), out)
}

/// The band means of 48 readings and their marks: 12, then 3, 2, 4 in the order given.
fn means(marks: &[u8], values: &[f32]) -> Answered<([i32; 16], u32)> {
    if values.len() != 48 {
        return Err(SPECIMEN_COUNT);
    }
    let mut taken = [0; 48];
    let limits = intake::take_readings(marks, values, &mut taken)?;
    Ok(rooms::specimens(&taken, limits))
}

/// Means of three specimens: sixteen values, marks.
pub fn specimens(marks: &[u8], values: &[f32], out: &mut [i32]) -> u32 {
    let answer = means(marks, values).map(|(means, limits)| {
        let mut numbers = [limits as i32; 17];
        numbers[..16].copy_from_slice(&means);
        numbers
    });
    put(answer, out)
}

/// Grade of a door or window: rating, C, Ctr, deciding number, grade, limit.
pub fn grade(side: u32, marks: &[u8], values: &[f32], out: &mut [i32]) -> u32 {
    let answer = means(marks, values).map(|(means, limits)| {
        let [rating, c, ctr, deciding, grade] = rooms::grade(side == 0, &means);
        [rating, c, ctr, deciding, grade, i32::from(limits != 0)]
    });
    put(answer, out)
}

/// Lift list: the masks to the list, the count to `out`.
pub fn lift(
    kind: u32,
    values: &[i32],
    _marks: u32,
    target: i32,
    list: &mut [u16],
    out: &mut [i32],
) -> u32 {
    // Where there is no place for the count, the list may not change either.
    let room = if out.is_empty() { &mut [] } else { list };
    put(lifts::lift(kind, values, target, room).map(|count| [count as i32]), out)
}

/// Line call: the answer line to `out` from the place `at` on, its length to `wrote`.
pub fn answer_line(line: &[u8], out: &mut [u8], at: usize, wrote: &mut [u64]) -> u32 {
    let room = if wrote.is_empty() { &mut [] } else { out };
    put(lines::answer_line(line, room, at).map(|length| [length as u64]), wrote)
}

/// Block call: bytes used, bytes written and the skipping flag to `progress`.
pub fn answer_block(
    input: &[u8],
    skipping: u32,
    last: u32,
    out: &mut [u8],
    progress: &mut [u64],
) -> u32 {
    if progress.len() < 3 {
        return OUTPUT_TOO_SMALL;
    }
    let got = lines::answer_block(input, skipping != 0, last != 0, out);
    put(Ok([got.used as u64, got.wrote as u64, u64::from(got.skipping)]), progress)
}

/// Opens a register empty.
pub fn open_register(register: &mut Register) -> u32 {
    *register = Register::EMPTY;
    0
}

/// A call on a register: the sheet as `rate`, and what is charged now.
#[allow(clippy::too_many_arguments)] // as C has them
pub fn bill(
    register: &mut Register,
    customer: u64,
    key: &[u8],
    kind: u32,
    values: &[i32],
    marks: u32,
    price: u32,
    out: &mut [i32],
) -> u32 {
    let billed = match register.billed(&Asked { customer, key, kind, values, marks, price }) {
        Ok(billed) => billed,
        Err(refusal) => return refusal,
    };
    let [a, b, c, d, e, f] = numbers(billed.sheet, limited(values.len(), marks));
    let charged = billed.entry.map_or(0, |entry| entry.price as i32);
    let returned = put(Ok([a, b, c, d, e, f, charged]), out);
    if let (0, Some(entry)) = (returned, billed.entry) {
        register.enter(entry);
    }
    returned
}

/// The total of a customer.
pub fn owed(register: &Register, customer: u64, out: &mut [i32]) -> u32 {
    put(register.owed(customer).map(|total| [total as i32]), out)
}

/// The total of a customer, whose entries go.
pub fn close(register: &mut Register, customer: u64, out: &mut [i32]) -> u32 {
    let returned = owed(register, customer, out);
    if returned == 0 {
        register.close(customer);
    }
    returned
}

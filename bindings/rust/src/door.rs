//! The C functions with slices in place of pointers and lengths.
//!
//! Each but [`version`] answers 0 or a refusal's number, as `include/imbrolt.h` says; the typed calls
//! of the crate stand on these.
// Safe: each C function reads and writes within the slices and the register that it is given, and
// they are borrowed for the length of the call; what is lent to write is lent to nothing else.

use crate::sys;

/// A register as it stands in memory: 512 entries of 112 bytes and their count, as words.
pub type Register = [u64; 7169];

/// The version of the library that is linked.
pub fn version() -> u32 {
    unsafe { sys::imbrolt_version() }
}

/// Intake of a reading: tenths, limit.
pub fn take_reading(mark: u32, value: f32, out: &mut [i32]) -> u32 {
    unsafe { sys::imbrolt_take_reading(mark, value, out.as_mut_ptr(), out.len()) }
}

/// Rating of a set: rating, first term, second term, whether there is one, shifts, limit.
pub fn rate(kind: u32, values: &[i32], marks: u32, out: &mut [i32]) -> u32 {
    unsafe {
        sys::imbrolt_rate(kind, values.as_ptr(), values.len(), marks, out.as_mut_ptr(), out.len())
    }
}

/// Rating from readings, as [`rate`].
pub fn rate_readings(kind: u32, marks: &[u8], values: &[f32], out: &mut [i32]) -> u32 {
    unsafe {
        sys::imbrolt_rate_readings(
            kind,
            marks.as_ptr(),
            marks.len(),
            values.as_ptr(),
            values.len(),
            out.as_mut_ptr(),
            out.len(),
        )
    }
}

/// Improvement of a cover: improvement rating, term, limit.
pub fn cover(values: &[i32], marks: u32, out: &mut [i32]) -> u32 {
    unsafe { sys::imbrolt_cover(values.as_ptr(), values.len(), marks, out.as_mut_ptr(), out.len()) }
}

/// Field rule: level, limit.
pub fn correct_field(total: i32, background: i32, out: &mut [i32]) -> u32 {
    unsafe { sys::imbrolt_correct_field(total, background, out.as_mut_ptr(), out.len()) }
}

/// Laboratory rule: level.
pub fn correct_laboratory(total: i32, background: i32, out: &mut [i32]) -> u32 {
    unsafe { sys::imbrolt_correct_laboratory(total, background, out.as_mut_ptr(), out.len()) }
}

/// Raw band: difference, limit.
pub fn standardized(
    source: f32,
    receiving: f32,
    background: f32,
    time: f32,
    out: &mut [i32],
) -> u32 {
    unsafe {
        sys::imbrolt_standardized(source, receiving, background, time, out.as_mut_ptr(), out.len())
    }
}

/// Octaves of thirds: five values, marks.
pub fn octaves(values: &[i32], marks: u32, out: &mut [i32]) -> u32 {
    unsafe {
        sys::imbrolt_octaves(values.as_ptr(), values.len(), marks, out.as_mut_ptr(), out.len())
    }
}

/// Means of three specimens: sixteen values, marks.
pub fn specimens(marks: &[u8], values: &[f32], out: &mut [i32]) -> u32 {
    unsafe {
        sys::imbrolt_specimens(
            marks.as_ptr(),
            marks.len(),
            values.as_ptr(),
            values.len(),
            out.as_mut_ptr(),
            out.len(),
        )
    }
}

/// Grade of a door or window: rating, C, Ctr, deciding number, grade, limit.
pub fn grade(side: u32, marks: &[u8], values: &[f32], out: &mut [i32]) -> u32 {
    unsafe {
        sys::imbrolt_grade(
            side,
            marks.as_ptr(),
            marks.len(),
            values.as_ptr(),
            values.len(),
            out.as_mut_ptr(),
            out.len(),
        )
    }
}

/// Lift list: the masks to the list, the count to `out`.
pub fn lift(
    kind: u32,
    values: &[i32],
    marks: u32,
    target: i32,
    list: &mut [u16],
    out: &mut [i32],
) -> u32 {
    unsafe {
        sys::imbrolt_lift(
            kind,
            values.as_ptr(),
            values.len(),
            marks,
            target,
            list.as_mut_ptr(),
            list.len(),
            out.as_mut_ptr(),
            out.len(),
        )
    }
}

/// Line call: the answer line to `out` from the place `at` on, its length to `wrote`.
pub fn answer_line(line: &[u8], out: &mut [u8], at: usize, wrote: &mut [u64]) -> u32 {
    unsafe {
        sys::imbrolt_answer_line(
            line.as_ptr(),
            line.len(),
            out.as_mut_ptr(),
            out.len(),
            at,
            wrote.as_mut_ptr(),
            wrote.len(),
        )
    }
}

/// Block call: bytes used, bytes written and the skipping flag to `progress`.
pub fn answer_block(
    input: &[u8],
    skipping: u32,
    last: u32,
    out: &mut [u8],
    progress: &mut [u64],
) -> u32 {
    unsafe {
        sys::imbrolt_answer_block(
            input.as_ptr(),
            input.len(),
            skipping,
            last,
            out.as_mut_ptr(),
            out.len(),
            progress.as_mut_ptr(),
            progress.len(),
        )
    }
}

/// Opens a register empty.
pub fn open_register(register: &mut Register) -> u32 {
    unsafe { sys::imbrolt_open_register(register.as_mut_ptr()) }
}

/// A call on a register: the sheet as [`rate`], and what is charged now.
#[allow(clippy::too_many_arguments)] // as C has them
pub fn bill(
    register: &mut Register,
    customer: u64,
    key: &[u8],
    kind: u32,
    values: &[i32],
    marks: u32,
    price: u32,
    out: &mut [i32],
) -> u32 {
    unsafe {
        sys::imbrolt_bill(
            register.as_mut_ptr(),
            customer,
            key.as_ptr(),
            key.len(),
            kind,
            values.as_ptr(),
            values.len(),
            marks,
            price,
            out.as_mut_ptr(),
            out.len(),
        )
    }
}

/// The total of a customer.
pub fn owed(register: &Register, customer: u64, out: &mut [i32]) -> u32 {
    unsafe { sys::imbrolt_owed(register.as_ptr(), customer, out.as_mut_ptr(), out.len()) }
}

/// The total of a customer, whose entries go.
pub fn close(register: &mut Register, customer: u64, out: &mut [i32]) -> u32 {
    unsafe { sys::imbrolt_close(register.as_mut_ptr(), customer, out.as_mut_ptr(), out.len()) }
}

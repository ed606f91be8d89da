//! The C functions as `include/imbrolt.h` declares and documents them.
//!
//! A register is given by its words, which are its 57352 bytes.

extern "C" {
    pub fn imbrolt_version() -> u32;
    pub fn imbrolt_take_reading(mark: u32, value: f32, out: *mut i32, out_len: usize) -> u32;
    pub fn imbrolt_rate(
        kind: u32,
        values: *const i32,
        values_len: usize,
        marks: u32,
        out: *mut i32,
        out_len: usize,
    ) -> u32;
    pub fn imbrolt_rate_readings(
        kind: u32,
        marks: *const u8,
        marks_len: usize,
        values: *const f32,
        values_len: usize,
        out: *mut i32,
        out_len: usize,
    ) -> u32;
    pub fn imbrolt_cover(
        values: *const i32,
        values_len: usize,
        marks: u32,
        out: *mut i32,
        out_len: usize,
    ) -> u32;
    pub fn imbrolt_correct_field(total: i32, background: i32, out: *mut i32, out_len: usize)
        -> u32;
    pub fn imbrolt_correct_laboratory(
        total: i32,
        background: i32,
        out: *mut i32,
        out_len: usize,
    ) -> u32;
    pub fn imbrolt_standardized(
        source: f32,
        receiving: f32,
        background: f32,
        time: f32,
        out: *mut i32,
        out_len: usize,
    ) -> u32;
    pub fn imbrolt_octaves(
        values: *const i32,
        values_len: usize,
        marks: u32,
        out: *mut i32,
        out_len: usize,
    ) -> u32;
    pub fn imbrolt_specimens(
        marks: *const u8,
        marks_len: usize,
        values: *const f32,
        values_len: usize,
        out: *mut i32,
        out_len: usize,
    ) -> u32;
    pub fn imbrolt_grade(
        side: u32,
        marks: *const u8,
        marks_len: usize,
        values: *const f32,
        values_len: usize,
        out: *mut i32,
        out_len: usize,
    ) -> u32;
    pub fn imbrolt_lift(
        kind: u32,
        values: *const i32,
        values_len: usize,
        marks: u32,
        target: i32,
        list: *mut u16,
        list_len: usize,
        out: *mut i32,
        out_len: usize,
    ) -> u32;
    pub fn imbrolt_answer_line(
        line: *const u8,
        line_len: usize,
        out: *mut u8,
        out_len: usize,
        at: usize,
        wrote: *mut u64,
        wrote_len: usize,
    ) -> u32;
    pub fn imbrolt_answer_block(
        input: *const u8,
        input_len: usize,
        skipping: u32,
        last: u32,
        out: *mut u8,
        out_len: usize,
        progress: *mut u64,
        progress_len: usize,
    ) -> u32;
    pub fn imbrolt_open_register(register: *mut u64) -> u32;
    pub fn imbrolt_bill(
        register: *mut u64,
        customer: u64,
        key: *const u8,
        key_len: usize,
        kind: u32,
        values: *const i32,
        values_len: usize,
        marks: u32,
        price: u32,
        out: *mut i32,
        out_len: usize,
    ) -> u32;
    pub fn imbrolt_owed(register: *const u64, customer: u64, out: *mut i32, out_len: usize) -> u32;
    pub fn imbrolt_close(register: *mut u64, customer: u64, out: *mut i32, out_len: usize) -> u32;
}

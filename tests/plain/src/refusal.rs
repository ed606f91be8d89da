//! The refusal numbers.

pub const BAND_COUNT: u32 = 1;
pub const NOT_FINITE: u32 = 2;
pub const READING_MISSING: u32 = 3;
pub const BAND_RANGE: u32 = 4;
pub const BACKGROUND_TOO_NEAR: u32 = 5;
pub const DERIVED_RANGE: u32 = 6;
pub const TIME_RANGE: u32 = 7;
pub const TARGET_NOT_BETTER: u32 = 8;
pub const TARGET_RANGE: u32 = 9;
pub const OUTPUT_TOO_SMALL: u32 = 10;
pub const NOT_A_REQUEST: u32 = 11;
pub const SPECIMEN_COUNT: u32 = 12;
pub const PRICE_RANGE: u32 = 16;
pub const OTHER_BANDS: u32 = 17;
pub const REGISTER_FULL: u32 = 18;
pub const REGISTER_DAMAGED: u32 = 19;

/// An answer, or a refusal's number.
pub type Answered<T> = Result<T, u32>;

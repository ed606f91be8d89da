#![doc = include_str!("../README.md")]

pub mod door;
mod numbered;
mod register;
mod sys;
mod types;

pub use numbered::{Kind, Refusal, Side, UnknownKind, UnknownRefusal, UnknownSide};
pub use register::{open_register, Register};
pub use types::{
    Bands, Billed, Cover, Decibels, Fen, Grade, Progress, RawBand, Reading, Sheet, Tenths, Value,
};

/// The version of this crate. That of the library that is linked is [`version`].
pub const VERSION: &str = env!("CARGO_PKG_VERSION");

/// The numbers that a call writes, or its refusal.
fn answered<const N: usize>(call: impl FnOnce(&mut [i32]) -> u32) -> Result<[i32; N], Refusal> {
    let mut out = [0; N];
    accepted(call(&mut out)).map(|()| out)
}

fn accepted(number: u32) -> Result<(), Refusal> {
    if number == 0 {
        return Ok(());
    }
    Err(Refusal::try_from(number).expect("a call answers 0 or a refusal's number"))
}

/// The bare numbers of some tenths.
fn numbers(values: &[Tenths]) -> &[i32] {
    // Safe: `Tenths` is a transparent wrapper of its number.
    unsafe { std::slice::from_raw_parts(values.as_ptr().cast(), values.len()) }
}

/// Readings as the marks and floats of the C functions.
fn parted(readings: &[Reading]) -> (Vec<u8>, Vec<f32>) {
    readings.iter().map(|&reading| mark_and_float(reading)).unzip()
}

fn mark_and_float(reading: Reading) -> (u8, f32) {
    match reading {
        Reading::Level(value) => (0, value),
        Reading::Limit(value) => (1, value),
        Reading::Missing => (2, 0.0),
    }
}

fn value([tenths, limit]: [i32; 2]) -> Value {
    Value { tenths: Tenths(tenths), limit: limit != 0 }
}

fn sheet([rating, first, second, has_second, shifts, limit]: [i32; 6]) -> Sheet {
    Sheet {
        rating: Decibels(rating),
        first: Decibels(first),
        second: (has_second != 0).then_some(Decibels(second)),
        shifts: shifts as u32,
        limit: limit != 0,
    }
}

/// The version of the library that is linked: 10000 times the first part, 100 times the second, and
/// the third.
pub fn version() -> u32 {
    door::version()
}

/// Takes in one reading: the tenth nearest its exact value, a tie to the greater.
///
/// Refused with `ReadingMissing`, `NotFinite`, `BandRange`, in this order.
///
/// ```
/// use imbrolt::{take_reading, Reading, Refusal, Tenths};
/// assert_eq!(take_reading(Reading::Level(-0.25))?.tenths, Tenths(-2));
/// assert!(take_reading(Reading::Limit(62.4))?.limit);
/// assert_eq!(take_reading(Reading::Level(150.0625)), Err(Refusal::BandRange));
/// # Ok::<(), Refusal>(())
/// ```
pub fn take_reading(reading: Reading) -> Result<Value, Refusal> {
    let (mark, float) = mark_and_float(reading);
    answered(|out| door::take_reading(u32::from(mark), float, out)).map(value)
}

/// Rates a set of bands from the lowest.
///
/// Refused with `BandCount`, `BandRange`, in this order.
///
/// ```
/// use imbrolt::{rate, Decibels, Kind, Refusal, Tenths};
/// let octaves = [240, 330, 400, 430, 440].map(Tenths);
/// assert_eq!(rate(Kind::A1, &octaves, 0)?.rating, Decibels(42));
/// assert!(rate(Kind::A1, &octaves, 0b10000)?.limit);
/// assert_eq!(rate(Kind::A3, &octaves, 0), Err(Refusal::BandCount));
/// let weak = [360, 500, 500, 500, 500].map(Tenths);
/// assert_eq!(rate(Kind::A1, &weak, 0)?.first, Decibels(-2)); // of -1.5 dB
/// # Ok::<(), Refusal>(())
/// ```
pub fn rate(kind: Kind, values: &[Tenths], marks: u16) -> Result<Sheet, Refusal> {
    answered(|out| door::rate(kind.into(), numbers(values), u32::from(marks), out)).map(sheet)
}

/// Rates readings from the lowest band.
///
/// Refused with `BandCount`; then for each band with `ReadingMissing`, `NotFinite`, `BandRange`.
///
/// ```
/// use imbrolt::{rate_readings, Decibels, Kind, Reading, Refusal};
/// let mut readings = [24.0, 33.0, 40.0, 43.0, 44.0].map(Reading::Level);
/// assert_eq!(rate_readings(Kind::A1, &readings)?.rating, Decibels(42));
/// readings[4] = Reading::Missing;
/// assert_eq!(rate_readings(Kind::A1, &readings), Err(Refusal::ReadingMissing));
/// # Ok::<(), Refusal>(())
/// ```
pub fn rate_readings(kind: Kind, readings: &[Reading]) -> Result<Sheet, Refusal> {
    let (marks, floats) = parted(readings);
    answered(|out| door::rate_readings(kind.into(), &marks, &floats, out)).map(sheet)
}

/// Rates the improvement by a floor cover, 16 thirds from the lowest.
///
/// Refused with `BandCount`, `BandRange`, `DerivedRange`, in this order.
///
/// ```
/// use imbrolt::{cover, Decibels, Tenths};
/// let carpet = [0, 0, 0, 2, 6, 10, 14, 18, 22, 26, 30, 30, 30, 30, 30, 30];
/// let rated = cover(&carpet.map(|decibels| Decibels(decibels).in_tenths()), 0)?;
/// assert_eq!((rated.improvement, rated.term), (Decibels(19), Decibels(-10)));
/// # Ok::<(), imbrolt::Refusal>(())
/// ```
pub fn cover(values: &[Tenths], marks: u16) -> Result<Cover, Refusal> {
    let [improvement, term, limit] =
        answered(|out| door::cover(numbers(values), u32::from(marks), out))?;
    Ok(Cover { improvement: Decibels(improvement), term: Decibels(term), limit: limit != 0 })
}

/// Corrects a level for background noise by the field rule. The result is not tested for range.
///
/// Refused with `BandRange`.
///
/// ```
/// use imbrolt::{correct_field, Tenths};
/// assert_eq!(correct_field(Tenths(500), Tenths(430))?.tenths, Tenths(490));
/// assert!(correct_field(Tenths(500), Tenths(440))?.limit);
/// # Ok::<(), imbrolt::Refusal>(())
/// ```
pub fn correct_field(total: Tenths, background: Tenths) -> Result<Value, Refusal> {
    answered(|out| door::correct_field(total.0, background.0, out)).map(value)
}

/// Corrects a level for background noise by the laboratory rule. The result is not tested for range.
///
/// Refused with `BandRange`, `BackgroundTooNear`, in this order.
///
/// ```
/// use imbrolt::{correct_laboratory, Refusal, Tenths};
/// assert_eq!(correct_laboratory(Tenths(500), Tenths(440))?, Tenths(487));
/// assert_eq!(correct_laboratory(Tenths(500), Tenths(441)), Err(Refusal::BackgroundTooNear));
/// # Ok::<(), Refusal>(())
/// ```
pub fn correct_laboratory(total: Tenths, background: Tenths) -> Result<Tenths, Refusal> {
    let [level] = answered(|out| door::correct_laboratory(total.0, background.0, out))?;
    Ok(Tenths(level))
}

/// Works out the standardized level difference of one raw band.
///
/// Refused with `NotFinite`, `BandRange` for each level in the order of the fields; `NotFinite`,
/// `TimeRange` for the time; then `DerivedRange`.
///
/// ```
/// use imbrolt::{standardized, RawBand, Tenths};
/// let band = RawBand { source: 95.0, receiving: 55.0, background: 30.0, time: 1.0 };
/// assert_eq!(standardized(band)?.tenths, Tenths(430));
/// # Ok::<(), imbrolt::Refusal>(())
/// ```
pub fn standardized(band: RawBand) -> Result<Value, Refusal> {
    let RawBand { source, receiving, background, time } = band;
    answered(|out| door::standardized(source, receiving, background, time, out)).map(value)
}

/// Forms the 5 octaves of 16 thirds; the last third is not used.
///
/// Refused with `BandCount`, `BandRange`, in this order.
///
/// ```
/// use imbrolt::{octaves, Tenths};
/// assert_eq!(octaves(&[Tenths(500); 16], 1 << 4)?.marks, 0b00010);
/// # Ok::<(), imbrolt::Refusal>(())
/// ```
pub fn octaves(values: &[Tenths], marks: u16) -> Result<Bands<5>, Refusal> {
    let numbers: [i32; 6] = answered(|out| door::octaves(numbers(values), u32::from(marks), out))?;
    Ok(bands(&numbers))
}

/// The answer of N values and then their marks.
fn bands<const N: usize>(numbers: &[i32]) -> Bands<N> {
    Bands { values: std::array::from_fn(|band| Tenths(numbers[band])), marks: numbers[N] as u16 }
}

/// Forms the band means of three specimens: 48 readings, specimen after specimen.
///
/// Refused with `SpecimenCount`; then for each reading with `ReadingMissing`, `NotFinite`,
/// `BandRange`.
///
/// ```
/// use imbrolt::{specimens, Reading, Tenths};
/// assert_eq!(specimens(&[Reading::Level(35.0); 48])?.values, [Tenths(350); 16]);
/// # Ok::<(), imbrolt::Refusal>(())
/// ```
pub fn specimens(readings: &[Reading]) -> Result<Bands<16>, Refusal> {
    let (marks, floats) = parted(readings);
    let numbers: [i32; 17] = answered(|out| door::specimens(&marks, &floats, out))?;
    Ok(bands(&numbers))
}

/// Grades a door or window from three specimens, given as for [`specimens`] and refused as it.
///
/// ```
/// use imbrolt::{grade, Reading, Side};
/// assert_eq!(grade(Side::Outside, &[Reading::Level(35.0); 48])?.grade, 4);
/// # Ok::<(), imbrolt::Refusal>(())
/// ```
pub fn grade(side: Side, readings: &[Reading]) -> Result<Grade, Refusal> {
    let (marks, floats) = parted(readings);
    let [rating, c, ctr, deciding, grade, limit] =
        answered(|out| door::grade(side.into(), &marks, &floats, out))?;
    Ok(Grade {
        rating: Decibels(rating),
        c: Decibels(c),
        ctr: Decibels(ctr),
        deciding: Decibels(deciding),
        grade: grade as u32,
        limit: limit != 0,
    })
}

/// Lists the smallest sets of 1 to 3 bands that would have to be lifted for a better rating.
///
/// Each is a mask, bit 0 the lowest band; they stand by size, then by lowest, next and last band.
/// Refused with `BandCount`, `BandRange`, `TargetRange`, `TargetNotBetter`, in this order.
///
/// ```
/// use imbrolt::{lift, Decibels, Kind, Tenths};
/// let wall = [310, 340, 370, 400, 430, 460, 490, 400, 510, 520, 530, 540, 540, 540, 540, 540];
/// assert_eq!(lift(Kind::A3, &wall.map(Tenths), Decibels(52))?, [1 << 7]);
/// # Ok::<(), imbrolt::Refusal>(())
/// ```
pub fn lift(kind: Kind, values: &[Tenths], target: Decibels) -> Result<Vec<u16>, Refusal> {
    let mut list = vec![0; kind.lift_places()];
    let count = lift_into(kind, values, target, &mut list)?;
    list.truncate(count);
    Ok(list)
}

/// The list of [`lift`], written from the first place of a lent list; answers their number.
///
/// The list needs [`Kind::lift_places`], however many there are, and keeps what lies past them.
/// Refused as `lift`, then with `OutputTooSmall`.
pub fn lift_into(
    kind: Kind,
    values: &[Tenths],
    target: Decibels,
    list: &mut [u16],
) -> Result<usize, Refusal> {
    let [count] = answered(|out| door::lift(kind.into(), numbers(values), 0, target.0, list, out))?;
    Ok(count as usize)
}

/// Answers one request line, given with its line feed, into `out` from the place `at` on.
///
/// Answers the number of bytes written. Refused only with `OutputTooSmall`: a refused request is
/// answered by a line that names its refusal.
///
/// ```
/// use imbrolt::answer_line;
/// let mut out = [0; 64];
/// let length = answer_line(b"A1\tK2\t24.0\t33.0\t40.0\t43.0\t44.0\n", &mut out, 0)?;
/// assert_eq!(&out[..length], b"A1\tK2\t0\t42\t-2\t-6\t0\t=\n");
/// # Ok::<(), imbrolt::Refusal>(())
/// ```
pub fn answer_line(line: &[u8], out: &mut [u8], at: usize) -> Result<usize, Refusal> {
    let mut wrote = [0];
    accepted(door::answer_line(line, out, at, &mut wrote))?;
    Ok(wrote[0] as usize)
}

/// Answers the whole lines of a block of a stream for which `out` has room.
///
/// `skipping` is that of the call before, false at first; `last` says that the stream ends with
/// this block. An `out` of 64 bytes has room for any answer.
///
/// ```
/// use imbrolt::answer_block;
/// let mut out = [0; 64];
/// let got = answer_block(b"what?\nA1\tK", false, false, &mut out);
/// assert_eq!((got.used, &out[..got.wrote]), (6, &b"?\t?\t11\n"[..]));
/// ```
pub fn answer_block(input: &[u8], skipping: bool, last: bool, out: &mut [u8]) -> Progress {
    let mut progress = [0; 3];
    let number =
        door::answer_block(input, u32::from(skipping), u32::from(last), out, &mut progress);
    assert_eq!(number, 0, "three places are enough");
    let [used, wrote, skipping] = progress;
    Progress { used: used as usize, wrote: wrote as usize, skipping: skipping != 0 }
}

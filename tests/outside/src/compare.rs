//! The comparison: each frame through the door and through the plain implementation.

use crate::doors::{Door, PLAIN};
use crate::frame::{Call, Frame, Part};
use crate::inputs::{frame, Lengths};
use crate::seeded::Seeded;
use crate::{histories, streams};
use imbrolt_plain::register::{Entry, Register};
use std::fmt::{self, Write};

/// The calls that are compared, and how many frames or streams of each; of a register, how many
/// calls in histories.
pub const PLAN: [(Call, &str, usize); 15] = [
    (Call::TakeReading, "take_reading", 200_000),
    (Call::Rate, "rate", 250_000),
    (Call::RateReadings, "rate_readings", 100_000),
    (Call::Cover, "cover", 80_000),
    (Call::CorrectField, "correct_field", 60_000),
    (Call::CorrectLaboratory, "correct_laboratory", 60_000),
    (Call::Standardized, "standardized", 120_000),
    (Call::Octaves, "octaves", 60_000),
    (Call::Specimens, "specimens", 40_000),
    (Call::Grade, "grade", 40_000),
    (Call::Lift, "lift", 50_000),
    (Call::AnswerLine, "answer_line", 150_000),
    (Call::AnswerBlock, "answer_block", 2_000),
    (Call::Bill, "register", 220_000),
    (Call::Close, "closings", 180_000),
];

/// A program is handed the whole register with each call on one: of those calls it is asked one in
/// so many.
const HANDED: usize = 20;

/// Frames are made and sent so many at a time.
const BATCH: usize = 500;

/// What a comparison found: how many inputs it compared, or the first that differs.
pub type Compared = Result<usize, String>;

/// Compares all calls of the plan that are wanted, 1/`part` of their number; says of each call how
/// often it returned which number.
pub fn all(door: &mut Door, wanted: &[String], part: usize) -> Compared {
    let mut compared = 0;
    for (call, name, count) in PLAN {
        if !wanted.is_empty() && !wanted.iter().any(|want| want == name) {
            continue;
        }
        let mut seeded = Seeded::new(0x1b50_1a11 + call as u64);
        if call == Call::AnswerBlock {
            let streams = streams::compare(door, &mut seeded, count / part)?;
            println!("  {name}: {streams} streams");
            compared += streams;
            continue;
        }
        let tally = match call {
            Call::Bill | Call::Close => {
                let slow = if matches!(door, Door::Program(_)) { HANDED } else { 1 };
                histories::compare(door, &mut seeded, call == Call::Close, count / part / slow)?
            }
            _ => {
                let mut tally = every_length(door, &mut seeded, call)?;
                tally.add(&random(door, &mut seeded, call, count / part)?);
                tally
            }
        };
        println!("  {name}: {tally}");
        compared += tally.total();
    }
    Ok(compared)
}

/// How often calls returned 0 and each refusal.
pub struct Tally([usize; 20]);

impl Tally {
    pub fn of(returned: &[u32]) -> Tally {
        let mut tally = Tally([0; 20]);
        returned.iter().for_each(|&number| tally.0[number as usize] += 1);
        tally
    }

    pub fn add(&mut self, other: &Tally) {
        self.0.iter_mut().zip(other.0).for_each(|(count, more)| *count += more);
    }

    pub fn total(&self) -> usize {
        self.0.iter().sum()
    }
}

impl fmt::Display for Tally {
    fn fmt(&self, to: &mut fmt::Formatter<'_>) -> fmt::Result {
        write!(to, "{} calls, {} answered", self.total(), self.0[0])?;
        for (number, count) in self.0.iter().enumerate().skip(1).filter(|(_, &count)| count > 0) {
            write!(to, ", {count} refused with {number}")?;
        }
        Ok(())
    }
}

/// Every length of values, of marks and of outputs from 0 to 50.
fn every_length(door: &mut Door, seeded: &mut Seeded, call: Call) -> Result<Tally, String> {
    let mut frames = Vec::new();
    for length in (0..=50).map(Some) {
        for lengths in [
            Lengths { values: length, ..Lengths::default() },
            Lengths { marks: length, ..Lengths::default() },
            Lengths { out: length, ..Lengths::default() },
            Lengths { values: length, marks: length, out: length },
        ] {
            frames.extend((0..6).map(|_| frame(seeded, call, lengths)));
        }
    }
    same(door, frames)
}

fn random(door: &mut Door, seeded: &mut Seeded, call: Call, count: usize) -> Result<Tally, String> {
    let mut tally = Tally::of(&[]);
    while tally.total() < count {
        let size = BATCH.min(count - tally.total());
        let mut next = || {
            let lengths = Lengths::any(seeded);
            frame(seeded, call, lengths)
        };
        let frames = (0..size).map(|_| next()).collect();
        tally.add(&same(door, frames)?);
    }
    Ok(tally)
}

/// Whether door and plain implementation answer and leave the same.
pub fn same(door: &mut Door, frames: Vec<Frame>) -> Result<Tally, String> {
    let mut proved = frames.clone();
    let mut plain = frames.clone();
    let mut by_plain = Vec::with_capacity(frames.len());
    let by_proved = door.make(&mut proved, || {
        by_plain.extend(plain.iter_mut().map(|frame| PLAIN.make(frame)));
    });
    for at in 0..frames.len() {
        agree(&frames[at], (by_proved[at], &proved[at]), (by_plain[at], &plain[at]))?;
    }
    Ok(Tally::of(&by_plain))
}

/// Whether both returned the same for what was asked, and left the same.
pub fn agree(asked: &Frame, proved: (u32, &Frame), plain: (u32, &Frame)) -> Result<(), String> {
    if proved == plain {
        return Ok(());
    }
    Err(told(asked, proved, plain))
}

/// A difference in words.
fn told(asked: &Frame, proved: (u32, &Frame), plain: (u32, &Frame)) -> String {
    let mut text = shown(asked);
    writeln!(text, "  desk_c returns {}, plain returns {}", proved.0, plain.0).unwrap();
    let places = asked.bytes().len();
    for place in 0..places {
        let (was, is, wanted) =
            (asked.bytes()[place], proved.1.bytes()[place], plain.1.bytes()[place]);
        if is != wanted {
            writeln!(
                text,
                "  byte {place} ({}) was {was:#04x}, desk_c leaves {is:#04x}, plain {wanted:#04x}",
                whereabouts(asked, place)
            )
            .unwrap();
            break;
        }
    }
    text
}

/// Where a byte of the memory stands.
fn whereabouts(frame: &Frame, place: usize) -> String {
    let sizes = sizes(frame.call);
    for (which, (Part { start, length }, size)) in frame.parts.iter().zip(sizes).enumerate() {
        let within = place.wrapping_sub(*start);
        if within < length * size {
            let size = if size == size_of::<Register>() { size_of::<Entry>() } else { size };
            return format!("array {which}, element {}, its byte {}", within / size, within % size);
        }
    }
    "in no array".into()
}

/// The sizes of the elements of a call's arrays.
fn sizes(call: Call) -> [usize; 4] {
    match call {
        Call::RateReadings | Call::Specimens | Call::Grade => [1, 4, 4, 1],
        Call::Lift => [4, 2, 4, 1],
        Call::AnswerLine | Call::AnswerBlock => [1, 1, 8, 1],
        Call::OpenRegister | Call::Bill => [size_of::<Register>(), 1, 4, 4],
        Call::Owed | Call::Close => [size_of::<Register>(), 4, 1, 1],
        _ => [4, 4, 4, 1],
    }
}

/// A frame's call with all that it is given; floats by their bits.
pub fn shown(frame: &Frame) -> String {
    let mut text = match frame.call {
        Call::TakeReading | Call::Standardized => {
            format!("{:?} of numbers {:#x?}", frame.call, frame.numbers)
        }
        _ => format!("{:?} of numbers {:?}", frame.call, frame.numbers),
    };
    for (which, size) in sizes(frame.call).into_iter().enumerate() {
        let length = frame.parts[which].length;
        write!(text, ", array {which} of {length}: ").unwrap();
        match (frame.call, size) {
            (Call::AnswerLine | Call::AnswerBlock | Call::Bill, 1) => {
                write!(text, "\"{}\"", frame.array::<u8>(which).escape_ascii())
            }
            (_, 1) => write!(text, "{:?}", frame.array::<u8>(which)),
            (_, 4) if which == 1 && sizes(frame.call)[0] == 1 => {
                write!(text, "{:x?}", frame.array::<u32>(which))
            }
            (_, 4) => write!(text, "{:?}", frame.array::<i32>(which)),
            (Call::Bill | Call::Owed | Call::Close, _) => {
                write!(text, "count {}", frame.array::<Register>(which)[0].count)
            }
            _ => write!(text, "(junk)"),
        }
        .unwrap();
    }
    text.push('\n');
    text
}

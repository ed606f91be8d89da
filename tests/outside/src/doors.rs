//! The doors through which a frame's call is made.

use crate::frame::{Call, Element, Frame, Part};
use std::io::{Read, Write};
use std::process::{Child, ChildStdin, ChildStdout, Command, Stdio};

/// The calls of one door, as functions on slices; R is what the door calls a register.
#[allow(clippy::type_complexity)] // as C has them
pub struct Calls<R> {
    take_reading: fn(u32, f32, &mut [i32]) -> u32,
    pub rate: fn(u32, &[i32], u32, &mut [i32]) -> u32,
    rate_readings: fn(u32, &[u8], &[f32], &mut [i32]) -> u32,
    cover: fn(&[i32], u32, &mut [i32]) -> u32,
    correct_field: fn(i32, i32, &mut [i32]) -> u32,
    correct_laboratory: fn(i32, i32, &mut [i32]) -> u32,
    standardized: fn(f32, f32, f32, f32, &mut [i32]) -> u32,
    octaves: fn(&[i32], u32, &mut [i32]) -> u32,
    specimens: fn(&[u8], &[f32], &mut [i32]) -> u32,
    grade: fn(u32, &[u8], &[f32], &mut [i32]) -> u32,
    lift: fn(u32, &[i32], u32, i32, &mut [u16], &mut [i32]) -> u32,
    pub answer_line: fn(&[u8], &mut [u8], usize, &mut [u64]) -> u32,
    answer_block: fn(&[u8], u32, u32, &mut [u8], &mut [u64]) -> u32,
    open_register: fn(&mut R) -> u32,
    bill: fn(&mut R, u64, &[u8], u32, &[i32], u32, u32, &mut [i32]) -> u32,
    owed: fn(&R, u64, &mut [i32]) -> u32,
    close: fn(&mut R, u64, &mut [i32]) -> u32,
}

macro_rules! calls_of {
    ($door:path) => {{
        use $door::*;
        Calls {
            take_reading,
            rate,
            rate_readings,
            cover,
            correct_field,
            correct_laboratory,
            standardized,
            octaves,
            specimens,
            grade,
            lift,
            answer_line,
            answer_block,
            open_register,
            bill,
            owed,
            close,
        }
    }};
}

/// The archive that this program is linked with.
pub static PROVED: Calls<imbrolt::door::Register> = calls_of!(imbrolt::door);
/// The plain implementation.
pub static PLAIN: Calls<imbrolt_plain::register::Register> = calls_of!(imbrolt_plain::door);

impl<R: Element> Calls<R> {
    /// Makes the call of a frame, in its memory.
    pub fn make(&self, frame: &mut Frame) -> u32 {
        let [a, b, c, d] = frame.numbers;
        let word = |number: u64| number as u32;
        let signed = |number: u64| number as i32;
        let float = |number: u64| f32::from_bits(number as u32);
        // A call that has fewer arrays than are taken leaves the others empty.
        match frame.call {
            Call::TakeReading => {
                (self.take_reading)(word(a), float(b), frame.arrays::<i32, u8, u8>().0)
            }
            Call::Rate => {
                let (values, out, _) = frame.arrays::<i32, i32, u8>();
                (self.rate)(word(a), values, word(b), out)
            }
            Call::RateReadings => {
                let (marks, values, out) = frame.arrays();
                (self.rate_readings)(word(a), marks, values, out)
            }
            Call::Cover => {
                let (values, out, _) = frame.arrays::<i32, i32, u8>();
                (self.cover)(values, word(a), out)
            }
            Call::CorrectField => {
                (self.correct_field)(signed(a), signed(b), frame.arrays::<i32, u8, u8>().0)
            }
            Call::CorrectLaboratory => {
                (self.correct_laboratory)(signed(a), signed(b), frame.arrays::<i32, u8, u8>().0)
            }
            Call::Standardized => {
                let out = frame.arrays::<i32, u8, u8>().0;
                (self.standardized)(float(a), float(b), float(c), float(d), out)
            }
            Call::Octaves => {
                let (values, out, _) = frame.arrays::<i32, i32, u8>();
                (self.octaves)(values, word(a), out)
            }
            Call::Specimens => {
                let (marks, values, out) = frame.arrays();
                (self.specimens)(marks, values, out)
            }
            Call::Grade => {
                let (marks, values, out) = frame.arrays();
                (self.grade)(word(a), marks, values, out)
            }
            Call::Lift => {
                let (values, list, out) = frame.arrays();
                (self.lift)(word(a), values, word(b), signed(c), list, out)
            }
            Call::AnswerLine => {
                let (line, out, wrote) = frame.arrays();
                (self.answer_line)(line, out, a as usize, wrote)
            }
            Call::AnswerBlock => {
                let (input, out, progress) = frame.arrays();
                (self.answer_block)(input, word(a), word(b), out, progress)
            }
            Call::OpenRegister => (self.open_register)(&mut frame.arrays::<R, u8, u8>().0[0]),
            Call::Bill => {
                let (register, key, values, out) = frame.four_arrays::<R, _, _, _>();
                (self.bill)(&mut register[0], a, key, word(b), values, word(c), word(d), out)
            }
            Call::Owed => {
                let (register, out, _) = frame.arrays::<R, _, u8>();
                (self.owed)(&register[0], a, out)
            }
            Call::Close => {
                let (register, out, _) = frame.arrays::<R, _, u8>();
                (self.close)(&mut register[0], a, out)
            }
        }
    }
}

/// Where the proved library is called.
pub enum Door {
    /// In the archive that this program is linked with.
    Linked,
    /// In another program, which speaks as door.c does.
    Program(Program),
}

impl Door {
    /// Makes each frame's call in its memory; answers what the calls returned. `meanwhile` runs
    /// while the calls are made, or after them.
    pub fn make(&mut self, frames: &mut [Frame], meanwhile: impl FnOnce()) -> Vec<u32> {
        match self {
            Door::Linked => {
                let returned = frames.iter_mut().map(|frame| PROVED.make(frame)).collect();
                meanwhile();
                returned
            }
            Door::Program(program) => {
                program.send(frames);
                meanwhile();
                program.receive(frames)
            }
        }
    }

    /// Makes one call.
    pub fn make_one(&mut self, frame: &mut Frame) -> u32 {
        self.make(std::slice::from_mut(frame), || ())[0]
    }
}

/// A running door program.
pub struct Program {
    child: Child,
    to: ChildStdin,
    from: ChildStdout,
}

/// The bytes of a frame before its memory: the call, the words of the memory, four numbers, and
/// the start and length of four arrays.
const HEAD: usize = 4 + 4 + 4 * 8 + 4 * (4 + 4);

impl Program {
    pub fn start(words: &[String]) -> std::io::Result<Program> {
        let mut child = Command::new(&words[0])
            .args(&words[1..])
            .stdin(Stdio::piped())
            .stdout(Stdio::piped())
            .spawn()?;
        let to = child.stdin.take().expect("it is piped");
        let from = child.stdout.take().expect("it is piped");
        Ok(Program { child, to, from })
    }

    /// A batch: its length in bytes, then its frames.
    fn send(&mut self, frames: &[Frame]) {
        let mut batch = vec![0; 8];
        for frame in frames {
            batch.extend((frame.call as u32).to_ne_bytes());
            batch.extend((frame.memory.len() as u32).to_ne_bytes());
            batch.extend(frame.numbers.iter().flat_map(|number| number.to_ne_bytes()));
            for Part { start, length } in frame.parts {
                batch.extend((start as u32).to_ne_bytes());
                batch.extend((length as u32).to_ne_bytes());
            }
            batch.extend(frame.bytes());
        }
        let length = batch.len() as u64 - 8;
        batch[..8].copy_from_slice(&length.to_ne_bytes());
        self.to.write_all(&batch).expect("the door program reads its batch");
    }

    /// The batch again, each frame's call number replaced by what the call returned.
    fn receive(&mut self, frames: &mut [Frame]) -> Vec<u32> {
        let length = frames.iter().map(|frame| HEAD + 8 * frame.memory.len()).sum();
        let mut batch = vec![0; length];
        self.from.read_exact(&mut batch).expect("the door program answers its batch");
        let mut rest = &batch[..];
        let mut returned = Vec::with_capacity(frames.len());
        for frame in frames {
            let (head, tail) = rest.split_at(HEAD);
            let (memory, tail) = tail.split_at(8 * frame.memory.len());
            returned.push(u32::from_ne_bytes(head[..4].try_into().expect("four bytes")));
            for (word, bytes) in frame.memory.iter_mut().zip(memory.chunks_exact(8)) {
                *word = u64::from_ne_bytes(bytes.try_into().expect("eight bytes"));
            }
            rest = tail;
        }
        returned
    }
}

impl Drop for Program {
    fn drop(&mut self) {
        // It ends at the end of its input; this makes sure where this program fails first.
        let _ = self.child.kill();
        let _ = self.child.wait();
    }
}

//! One call as it is made through a door: its numbers, its arrays, and the memory around them.

use crate::seeded::Seeded;
use imbrolt::door::Register as Words;
use imbrolt_plain::register::Register;

/// The calls that are compared, in the order of `include/imbrolt.h`: their numbers are door.c's, too.
#[derive(Clone, Copy, Debug, PartialEq, Eq)]
#[repr(u32)]
pub enum Call {
    TakeReading,
    Rate,
    RateReadings,
    Cover,
    CorrectField,
    CorrectLaboratory,
    Standardized,
    Octaves,
    Specimens,
    Grade,
    Lift,
    AnswerLine,
    AnswerBlock,
    OpenRegister,
    Bill,
    Owed,
    Close,
}

/// An array in the memory of a frame: where it starts, in bytes, and how many elements it has.
#[derive(Clone, Copy, Debug, Default, PartialEq, Eq)]
pub struct Part {
    pub start: usize,
    pub length: usize,
}

/// A call that can be made more than once, each time on a copy.
///
/// All arrays stand in one memory, among junk. Two doors agree on a call when they answer the same
/// number and leave the same memory: so the junk shows whatever is written where it should not be.
#[derive(Debug, PartialEq, Eq)]
pub struct Frame {
    pub call: Call,
    /// The numbers of the call in their order, floats by their bits.
    pub numbers: [u64; 4],
    /// The arrays of the call in their order; a register is an array of one.
    pub parts: [Part; 4],
    pub memory: Vec<u64>,
}

impl Clone for Frame {
    fn clone(&self) -> Frame {
        Frame { memory: self.memory.clone(), ..*self }
    }

    /// A frame with a register is large: its memory is used again.
    fn clone_from(&mut self, other: &Frame) {
        let mut memory = std::mem::take(&mut self.memory);
        memory.clone_from(&other.memory);
        *self = Frame { memory, ..*other };
    }
}

/// What fills an array as it is: any bytes of its size are one.
pub trait Element {}
impl Element for u8 {}
impl Element for u16 {}
impl Element for u32 {}
impl Element for i32 {}
impl Element for u64 {}
impl Element for f32 {}
impl Element for Words {}
impl Element for Register {}

impl Frame {
    /// An array of the frame.
    pub fn array<T: Element>(&self, part: usize) -> &[T] {
        let Part { start, length } = self.within::<T>(part);
        // Safe: the array lies within the memory, is aligned, and any bits are a number.
        unsafe { std::slice::from_raw_parts(self.memory.as_ptr().byte_add(start).cast(), length) }
    }

    /// Three arrays of the frame, each to read or to write.
    pub fn arrays<A: Element, B: Element, C: Element>(&mut self) -> (&mut [A], &mut [B], &mut [C]) {
        let (a, b, c, _) = self.four_arrays::<A, B, C, u8>();
        (a, b, c)
    }

    /// All arrays of the frame, each to read or to write.
    pub fn four_arrays<A: Element, B: Element, C: Element, D: Element>(
        &mut self,
    ) -> (&mut [A], &mut [B], &mut [C], &mut [D]) {
        let [a, b] = [self.within::<A>(0), self.within::<B>(1)];
        let [c, d] = [self.within::<C>(2), self.within::<D>(3)];
        let memory = self.memory.as_mut_ptr();
        // Safe: as above, and the arrays of a frame do not overlap.
        unsafe { (lent(memory, a), lent(memory, b), lent(memory, c), lent(memory, d)) }
    }

    fn within<T>(&self, part: usize) -> Part {
        let part = self.parts[part];
        let end = part.start + part.length * size_of::<T>();
        assert!(end <= 8 * self.memory.len() && part.start.is_multiple_of(align_of::<T>()));
        part
    }

    /// The memory as bytes.
    pub fn bytes(&self) -> &[u8] {
        // Safe: any number is eight bytes.
        unsafe { std::slice::from_raw_parts(self.memory.as_ptr().cast(), 8 * self.memory.len()) }
    }

    /// The memory as bytes, to be changed.
    pub fn bytes_mut(&mut self) -> &mut [u8] {
        let length = 8 * self.memory.len();
        // Safe: as above, and any eight bytes are a number.
        unsafe { std::slice::from_raw_parts_mut(self.memory.as_mut_ptr().cast(), length) }
    }
}

/// An array of a memory, for as long as the memory is borrowed.
unsafe fn lent<'a, T: Element>(memory: *mut u64, part: Part) -> &'a mut [T] {
    unsafe { std::slice::from_raw_parts_mut(memory.byte_add(part.start).cast(), part.length) }
}

/// Puts a frame together, with junk before, between and after its arrays.
pub struct Builder<'a> {
    seeded: &'a mut Seeded,
    frame: Frame,
    numbers: usize,
    parts: usize,
}

impl Builder<'_> {
    pub fn new(seeded: &mut Seeded, call: Call) -> Builder<'_> {
        let memory = Vec::with_capacity(256);
        let frame = Frame { call, numbers: [0; 4], parts: [Part::default(); 4], memory };
        Builder { seeded, frame, numbers: 0, parts: 0 }.junk(2)
    }

    /// Another call on the register of a frame, where it stands.
    pub fn again(seeded: &mut Seeded, frame: Frame, call: Call) -> Builder<'_> {
        let Frame { parts: [register, ..], mut memory, .. } = frame;
        memory.truncate((register.start + size_of::<Register>()) / 8);
        let parts = [register, Part::default(), Part::default(), Part::default()];
        let frame = Frame { call, numbers: [0; 4], parts, memory };
        Builder { seeded, frame, numbers: 0, parts: 1 }.junk(1)
    }

    fn junk(mut self, words: usize) -> Self {
        for _ in 0..words {
            self.frame.memory.push(self.seeded.next());
        }
        self
    }

    pub fn number(mut self, number: u64) -> Self {
        self.frame.numbers[self.numbers] = number;
        self.numbers += 1;
        self
    }

    /// An array whose contents do not matter to the call, or must stay.
    pub fn lend<T: Element>(mut self, length: usize) -> Self {
        self.frame.parts[self.parts] = Part { start: 8 * self.frame.memory.len(), length };
        self.parts += 1;
        let guards = 1 + self.seeded.below(2);
        self.junk((length * size_of::<T>()).div_ceil(8) + guards)
    }

    /// An array with these contents.
    pub fn give<T: Element + Copy>(self, contents: &[T]) -> Self {
        let mut builder = self.lend::<T>(contents.len());
        let part = builder.frame.parts[builder.parts - 1];
        // Safe: the array was just made for elements of this type.
        unsafe { lent(builder.frame.memory.as_mut_ptr(), part) }.copy_from_slice(contents);
        builder
    }

    pub fn done(self) -> Frame {
        self.frame
    }
}

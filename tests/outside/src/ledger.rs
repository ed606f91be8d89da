//! A register in memory, on which calls are made through the door and by the plain implementation.

use crate::compare::{agree, shown};
use crate::doors::{Door, PLAIN};
use crate::frame::{Builder, Call, Frame};
use crate::seeded::Seeded;
use imbrolt_plain::register::Register;

/// What a caller gives with a key.
#[derive(Clone)]
pub struct Asked {
    pub customer: u64,
    pub key: Vec<u8>,
    pub kind: u32,
    pub values: Vec<i32>,
    pub marks: u32,
    pub price: u32,
}

/// The register and all memory around it, as it is, before the last call, and as the door left it.
pub struct Ledger {
    now: Frame,
    before: Frame,
    proved: Frame,
}

impl Ledger {
    /// A register of junk.
    pub fn new(seeded: &mut Seeded) -> Ledger {
        let now = Builder::new(seeded, Call::OpenRegister).lend::<Register>(1).done();
        Ledger { before: now.clone(), proved: now.clone(), now }
    }

    /// The register, to be changed between calls.
    pub fn register(&mut self) -> &mut Register {
        &mut self.now.arrays::<Register, u8, u8>().0[0]
    }

    /// The frame of the last call, as it was left.
    pub fn frame(&self) -> &Frame {
        &self.now
    }

    /// The bytes of the register before the last call, and after it.
    pub fn bytes(&self) -> (&[u8], &[u8]) {
        let start = self.now.parts[0].start;
        let end = start + size_of::<Register>();
        (&self.before.bytes()[start..end], &self.now.bytes()[start..end])
    }

    /// Replaces bytes of the register from a place on.
    pub fn put(&mut self, place: usize, bytes: &[u8]) {
        let start = self.now.parts[0].start + place;
        assert!(place + bytes.len() <= size_of::<Register>());
        self.now.bytes_mut()[start..start + bytes.len()].copy_from_slice(bytes);
    }

    /// Opens it.
    pub fn open(&mut self, door: &mut Door, seeded: &mut Seeded) -> Result<u32, String> {
        self.make(door, seeded, Call::OpenRegister, |builder| builder)
    }

    /// A call with an output of so many places.
    pub fn bill(
        &mut self,
        door: &mut Door,
        seeded: &mut Seeded,
        asked: &Asked,
        places: usize,
    ) -> Result<u32, String> {
        self.make(door, seeded, Call::Bill, |builder| {
            builder
                .number(asked.customer)
                .number(asked.kind.into())
                .number(asked.marks.into())
                .number(asked.price.into())
                .give(&asked.key)
                .give(&asked.values)
                .lend::<i32>(places)
        })
    }

    /// A call for a customer's total, owed or closed, to an output of so many places.
    pub fn total(
        &mut self,
        door: &mut Door,
        seeded: &mut Seeded,
        call: Call,
        customer: u64,
        places: usize,
    ) -> Result<u32, String> {
        self.make(door, seeded, call, |builder| builder.number(customer).lend::<i32>(places))
    }

    /// Makes a call both ways: what it returned. All memory has to be left the same, and a refused
    /// call leaves it as it was.
    fn make(
        &mut self,
        door: &mut Door,
        seeded: &mut Seeded,
        call: Call,
        arguments: impl FnOnce(Builder) -> Builder,
    ) -> Result<u32, String> {
        // The frame is built where it stands; one without memory holds its place meanwhile.
        let memory = std::mem::take(&mut self.now.memory);
        let frame = Frame { memory, ..self.now };
        self.now = arguments(Builder::again(seeded, frame, call)).done();
        self.before.clone_from(&self.now);
        self.proved.clone_from(&self.now);
        let by_proved = door.make_one(&mut self.proved);
        let by_plain = PLAIN.make(&mut self.now);
        agree(&self.before, (by_proved, &self.proved), (by_plain, &self.now))?;
        if by_plain != 0 && self.now != self.before {
            return Err(format!("{}  refused with {by_plain}, and changed\n", shown(&self.now)));
        }
        Ok(by_plain)
    }
}

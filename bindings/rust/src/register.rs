//! The register of request keys.

use crate::{accepted, answered, door, numbers, sheet, Billed, Fen, Kind, Refusal, Tenths};
use std::fmt;

/// The keys that customers were charged for, up to 512.
///
/// A new key is entered and charged; the same customer, key, kind and bands again get the same
/// sheet and no charge. So a program that got no answer may ask again. A register holds no sheets:
/// in one that another version left, a key's sheet is this version's.
///
/// ```
/// use imbrolt::{open_register, Fen, Kind, Refusal, Tenths};
/// let mut register = open_register();
/// let door = [240, 330, 400, 430, 440].map(Tenths);
/// let first = register.bill(7, b"door-1", Kind::A1, &door, 0, Fen(500))?;
/// let again = register.bill(7, b"door-1", Kind::A1, &door, 0, Fen(500))?;
/// assert_eq!((first.charged, again.charged), (Fen(500), Fen(0)));
/// assert_eq!(first.sheet, again.sheet);
/// assert_eq!(register.owed(7)?, Fen(500));
/// # Ok::<(), Refusal>(())
/// ```
#[derive(Clone, PartialEq, Eq)]
pub struct Register(Box<door::Register>);

/// Opens a register without entries. That of [`Register::default`] is the same.
pub fn open_register() -> Register {
    let mut words = Box::new([0; Register::BYTES / 8]);
    accepted(door::open_register(&mut words)).expect("a register is always opened");
    Register(words)
}

impl Register {
    /// The size of a register in bytes.
    pub const BYTES: usize = size_of::<door::Register>();

    /// Rates a set of bands from the lowest, and enters and charges its key if it is new.
    ///
    /// The first price of a key counts; that of a retry is tested and without effect. Refused with
    /// `RegisterDamaged`, `NotARequest` (the key is not 1 to 32 ASCII letters, digits or hyphens),
    /// `BandCount`, `BandRange`, `PriceRange`, `OtherBands`, `RegisterFull`, in this order; the
    /// register is then unchanged.
    ///
    /// ```
    /// use imbrolt::{open_register, Fen, Kind, Refusal, Tenths};
    /// let mut register = open_register();
    /// register.bill(7, b"K1", Kind::A3, &[Tenths(500); 16], 0, Fen(800))?;
    /// let other = register.bill(7, b"K1", Kind::A3, &[Tenths(501); 16], 0, Fen(800));
    /// assert_eq!(other, Err(Refusal::OtherBands));
    /// let spaced = register.bill(7, b"K 2", Kind::A3, &[Tenths(500); 16], 0, Fen(800));
    /// assert_eq!(spaced, Err(Refusal::NotARequest));
    /// # Ok::<(), Refusal>(())
    /// ```
    pub fn bill(
        &mut self,
        customer: u64,
        key: &[u8],
        kind: Kind,
        values: &[Tenths],
        marks: u16,
        price: Fen,
    ) -> Result<Billed, Refusal> {
        let (kind, values, marks) = (kind.into(), numbers(values), u32::from(marks));
        let [a, b, c, d, e, f, charged] = answered(|out| {
            door::bill(&mut self.0, customer, key, kind, values, marks, price.0, out)
        })?;
        Ok(Billed { sheet: sheet([a, b, c, d, e, f]), charged: Fen(charged as u32) })
    }

    /// The total of a customer: the sum of the prices of that customer's keys, of those entered
    /// since the last [`close`](Register::close).
    ///
    /// Refused with `RegisterDamaged`.
    ///
    /// ```
    /// assert_eq!(imbrolt::open_register().owed(7), Ok(imbrolt::Fen(0)));
    /// ```
    pub fn owed(&self, customer: u64) -> Result<Fen, Refusal> {
        answered(|out| door::owed(&self.0, customer, out)).map(total)
    }

    /// Hands out the total of a customer, whose entries go; the others move together in their order.
    ///
    /// A key used before is new again, and there is room for as many keys as went. What was handed
    /// out is not in the register any more: keep the total, and save the register, before the
    /// customer is told. Refused with `RegisterDamaged`; the register is then unchanged, as it is
    /// for a customer without keys.
    ///
    /// ```
    /// use imbrolt::{open_register, Fen, Kind, Refusal, Tenths};
    /// let mut register = open_register();
    /// let (door, sealed) = ([Tenths(400); 5], [Tenths(420); 5]);
    /// register.bill(7, b"door-1", Kind::A1, &door, 0, Fen(500))?;
    /// register.bill(8, b"door-1", Kind::A1, &door, 0, Fen(600))?;
    /// assert_eq!(register.close(7)?, Fen(500));
    /// assert_eq!((register.owed(7)?, register.owed(8)?), (Fen(0), Fen(600)));
    /// let kept = register.clone();
    /// assert_eq!(register.close(7)?, Fen(0));
    /// assert_eq!(register, kept);
    /// let new = register.bill(7, b"door-1", Kind::A1, &sealed, 0, Fen(700))?;
    /// let retry = register.bill(8, b"door-1", Kind::A1, &door, 0, Fen(600))?;
    /// assert_eq!((new.charged, retry.charged), (Fen(700), Fen(0)));
    /// # Ok::<(), Refusal>(())
    /// ```
    pub fn close(&mut self, customer: u64) -> Result<Fen, Refusal> {
        answered(|out| door::close(&mut self.0, customer, out)).map(total)
    }

    /// Its bytes, as they stand in memory, to be kept.
    pub fn as_bytes(&self) -> &[u8] {
        // Safe: any word is eight bytes.
        unsafe { std::slice::from_raw_parts(self.0.as_ptr().cast(), Register::BYTES) }
    }

    /// The register of such bytes; none where they are not [`Register::BYTES`].
    ///
    /// Any bytes of this number are taken. Where no calls could have left them so, every call is
    /// refused with `RegisterDamaged`.
    ///
    /// ```
    /// use imbrolt::{open_register, Refusal, Register};
    /// let register = open_register();
    /// assert_eq!(Register::from_bytes(register.as_bytes()), Some(register));
    /// assert_eq!(Register::from_bytes(&[0; 100]), None);
    /// let damaged = Register::from_bytes(&[0xff; Register::BYTES]).unwrap();
    /// assert_eq!(damaged.owed(7), Err(Refusal::RegisterDamaged));
    /// ```
    pub fn from_bytes(bytes: &[u8]) -> Option<Register> {
        let (words, rest) = bytes.as_chunks();
        let words: Vec<u64> = words.iter().map(|&word| u64::from_ne_bytes(word)).collect();
        let words = words.into_boxed_slice().try_into().ok()?;
        rest.is_empty().then_some(Register(words))
    }
}

fn total([fen]: [i32; 1]) -> Fen {
    Fen(fen as u32)
}

impl Default for Register {
    fn default() -> Register {
        open_register()
    }
}

impl fmt::Debug for Register {
    fn fmt(&self, to: &mut fmt::Formatter<'_>) -> fmt::Result {
        let [.., count] = *self.0;
        write!(to, "Register of {count} entries")
    }
}

//! The choices and refusals, which are numbers in C.

use std::error::Error;
use std::fmt;

/// An enumeration with the numbers of C, and the error of a number that it has not.
macro_rules! numbered {
    (
        $(#[$about:meta])*
        $name:ident, $unknown:ident: $word:literal {
            $($(#[$comment:meta])* $case:ident = $number:literal,)*
        }
    ) => {
        $(#[$about])*
        #[derive(Clone, Copy, Debug, PartialEq, Eq, Hash)]
        pub enum $name {
            $($(#[$comment])* $case = $number,)*
        }

        impl From<$name> for u32 {
            fn from(case: $name) -> u32 {
                case as u32
            }
        }

        impl TryFrom<u32> for $name {
            type Error = $unknown;

            fn try_from(number: u32) -> Result<$name, $unknown> {
                match number {
                    $($number => Ok($name::$case),)*
                    _ => Err($unknown(number)),
                }
            }
        }

        #[doc = concat!("A number that is the number of no ", $word, ".")]
        #[derive(Clone, Copy, Debug, PartialEq, Eq, Hash)]
        pub struct $unknown(pub u32);

        impl fmt::Display for $unknown {
            fn fmt(&self, to: &mut fmt::Formatter<'_>) -> fmt::Result {
                write!(to, concat!("{} is the number of no ", $word), self.0)
            }
        }

        impl Error for $unknown {}
    };
}

numbered! {
    /// What was measured.
    Kind, UnknownKind: "kind" {
        /// Airborne, 16 thirds of an octave, 100 to 3150 Hz.
        A3 = 0,
        /// Airborne, 5 octaves, 125 to 2000 Hz.
        A1 = 1,
        /// Impact, 16 thirds of an octave.
        I3 = 2,
        /// Impact, 5 octaves.
        I1 = 3,
    }
}

impl Kind {
    /// The number of its bands.
    pub fn bands(self) -> usize {
        match self {
            Kind::A3 | Kind::I3 => 16,
            Kind::A1 | Kind::I1 => 5,
        }
    }

    /// The places that its lift list needs.
    pub fn lift_places(self) -> usize {
        match self {
            Kind::A3 | Kind::I3 => 696,
            Kind::A1 | Kind::I1 => 25,
        }
    }
}

numbered! {
    /// Which term decides on a grade.
    Side, UnknownSide: "side" {
        /// Outside doors and windows: Ctr.
        Outside = 0,
        /// Inside ones: C.
        Inside = 1,
    }
}

/// The refusals with their sentences, which are their comments too.
macro_rules! refusals {
    ($($case:ident = $number:literal, $sentence:literal;)*) => {
        numbered! {
            /// Why a call was refused. A refused call changes nothing that was lent to it.
            ///
            /// As text it is its sentence. There will be more refusals, with other numbers.
            ///
            /// ```
            /// use imbrolt::{Refusal, UnknownRefusal};
            /// assert_eq!(Refusal::ReadingMissing.number(), 3);
            /// assert_eq!(Refusal::ReadingMissing.to_string(), "a reading is missing");
            /// assert_eq!(Refusal::try_from(3), Ok(Refusal::ReadingMissing));
            /// assert_eq!(Refusal::try_from(0), Err(UnknownRefusal(0)));
            /// ```
            #[non_exhaustive]
            Refusal, UnknownRefusal: "refusal" {
                $(
                    #[doc = concat!("Refusal ", $number, ": ", $sentence, ".")]
                    $case = $number,
                )*
            }
        }

        impl fmt::Display for Refusal {
            fn fmt(&self, to: &mut fmt::Formatter<'_>) -> fmt::Result {
                to.pad(match self {
                    $(Refusal::$case => $sentence,)*
                })
            }
        }
    };
}

refusals! {
    BandCount = 1, "the number of bands is not the kind's";
    NotFinite = 2, "a float is NaN or infinite";
    ReadingMissing = 3, "a reading is missing";
    BandRange = 4, "a band value lies outside -20.0 to 150.0 dB";
    BackgroundTooNear = 5, "laboratory rule: the total lies less than 6.0 dB above the background";
    DerivedRange = 6, "a derived value lies outside -20.0 to 150.0 dB";
    TimeRange = 7, "the reverberation time lies outside 0.10 to 20.00 s";
    TargetNotBetter = 8, "the target is not better than the rating";
    TargetRange = 9, "the target lies outside -100 to 200 dB";
    OutputTooSmall = 10, "the lent output is too small for the answer, or the offset lies beyond its end";
    NotARequest = 11, "the line is not a request, or the key has not a key's shape";
    SpecimenCount = 12, "the specimens are not 48 values";
    PriceRange = 16, "the price lies outside 0 to 1,000,000 fen";
    OtherBands = 17, "the same customer and key came with another kind or other bands";
    RegisterFull = 18, "there is no room for a new key";
    RegisterDamaged = 19, "no calls could have left the register so";
}

impl Refusal {
    /// Its number.
    pub fn number(self) -> u32 {
        self.into()
    }
}

impl Error for Refusal {}

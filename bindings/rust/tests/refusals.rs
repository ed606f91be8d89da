//! Refusals, kinds and sides as numbers, as text and as errors.

use imbrolt::{rate, Kind, Refusal, Side, Tenths, UnknownKind, UnknownRefusal, UnknownSide};
use std::collections::HashSet;
use std::error::Error;

/// The numbers of the refusals.
fn numbers() -> impl Iterator<Item = u32> {
    (1..=12).chain(16..=19)
}

fn refusals() -> impl Iterator<Item = Refusal> {
    numbers().map(|number| Refusal::try_from(number).expect("it is a refusal's number"))
}

#[test]
fn every_number_is_that_of_one_refusal_or_of_none() {
    for number in 0..=100 {
        match Refusal::try_from(number) {
            Ok(refusal) => assert_eq!((refusal.number(), u32::from(refusal)), (number, number)),
            Err(unknown) => assert_eq!(unknown, UnknownRefusal(number)),
        }
    }
    let known = (0..=100).filter(|&number| Refusal::try_from(number).is_ok());
    assert!(known.eq(numbers()));
}

#[test]
fn every_sentence_is_of_one_refusal() {
    let sentences: HashSet<String> = refusals().map(|refusal| refusal.to_string()).collect();
    assert_eq!(sentences.len(), numbers().count());
    for sentence in sentences {
        assert!(sentence.starts_with(char::is_lowercase), "{sentence}");
        assert!(sentence.ends_with(char::is_alphanumeric), "{sentence}");
    }
}

#[test]
fn a_refusal_is_an_error() {
    fn rated(tenths: &[Tenths]) -> Result<(), Box<dyn Error>> {
        rate(Kind::A1, tenths, 0)?;
        Ok(())
    }
    assert!(rated(&[Tenths(400); 5]).is_ok());
    let error = rated(&[Tenths(400); 4]).expect_err("a band is missing");
    assert_eq!(error.to_string(), "the number of bands is not the kind's");
    assert_eq!(error.downcast_ref(), Some(&Refusal::BandCount));
}

#[test]
fn an_unknown_number_is_an_error_that_names_it() {
    let errors: [Box<dyn Error>; 3] =
        [Box::new(UnknownRefusal(13)), Box::new(UnknownKind(4)), Box::new(UnknownSide(2))];
    let texts = errors.map(|error| error.to_string());
    let wanted = ["13 is the number of no refusal", "4 is the number of no kind"];
    assert_eq!(texts[..2], wanted);
    assert_eq!(texts[2], "2 is the number of no side");
}

#[test]
fn every_number_is_that_of_one_kind_or_of_none() {
    let kinds = [Kind::A3, Kind::A1, Kind::I3, Kind::I1];
    assert_eq!(kinds.map(u32::from), [0, 1, 2, 3]);
    assert_eq!([0, 1, 2, 3].map(Kind::try_from), kinds.map(Ok));
    assert!((4..=100).all(|number| Kind::try_from(number) == Err(UnknownKind(number))));
}

#[test]
fn every_number_is_that_of_one_side_or_of_none() {
    let sides = [Side::Outside, Side::Inside];
    assert_eq!(sides.map(u32::from), [0, 1]);
    assert_eq!([0, 1].map(Side::try_from), sides.map(Ok));
    assert!((2..=100).all(|number| Side::try_from(number) == Err(UnknownSide(number))));
}

//! Steps on a register (tests/reference/inputs/histories.py), answered through the door.
//!
//! A step is words parted by one space: `open`; `put PLACE DATA`; `bill CUSTOMER KEY KIND MARKS PRICE
//! PLACES VALUE..`; `owed CUSTOMER PLACES`; `close CUSTOMER PLACES`; `read`. Data and keys are in
//! hexadecimal, `-` for none. A call is answered as a case is, and then each run of bytes that it
//! changed in the register: `@PLACE:DATA`.

use crate::cases::answer_of;
use crate::doors::Door;
use crate::frame::Call;
use crate::ledger::{Asked, Ledger};
use crate::seeded::Seeded;
use std::fmt::{Debug, Write};
use std::str::FromStr;

fn number<T: FromStr<Err: Debug>>(word: &str) -> T {
    word.parse().expect("a whole number that fits")
}

fn data(word: &str) -> Vec<u8> {
    let byte = |pair: &[u8; 2]| {
        let pair = std::str::from_utf8(pair).expect("hexadecimal digits");
        u8::from_str_radix(pair, 16).expect("hexadecimal digits")
    };
    word.as_bytes().as_chunks().0.iter().map(byte).collect()
}

fn hexadecimal(bytes: &[u8]) -> String {
    bytes.iter().fold(String::with_capacity(2 * bytes.len()), |mut text, byte| {
        write!(text, "{byte:02x}").expect("a string takes all");
        text
    })
}

/// Each run of bytes that changed.
fn changes((before, after): (&[u8], &[u8])) -> String {
    let mut text = String::new();
    let mut place = 0;
    while place < after.len() && before[place..] != after[place..] {
        let differs = |at: &usize| before[*at] != after[*at];
        let start = (place..after.len()).find(differs).expect("the rest differs");
        place = (start..after.len()).find(|at| !differs(at)).unwrap_or(after.len());
        write!(text, " @{start}:{}", hexadecimal(&after[start..place])).expect("it takes all");
    }
    text
}

/// One answer line for each step, of the door and the plain implementation alike.
pub fn answers(door: &mut Door, steps: &str) -> Result<String, String> {
    let seeded = &mut Seeded::new(0x57e9);
    let mut ledger = Ledger::new(seeded);
    let mut text = String::new();
    for line in steps.lines() {
        let words: Vec<&str> = line.split(' ').collect();
        let answer = match words[..] {
            ["read"] => hexadecimal(ledger.bytes().1),
            ["open"] => ledger.open(door, seeded)?.to_string(),
            ["put", place, bytes] => {
                ledger.put(number(place), &data(bytes));
                "0".to_string()
            }
            ["bill", customer, key, kind, marks, price, places, ref values @ ..] => {
                let asked = Asked {
                    customer: number(customer),
                    key: data(key),
                    kind: number(kind),
                    values: values.iter().map(|word| number(word)).collect(),
                    marks: number(marks),
                    price: number(price),
                };
                let returned = ledger.bill(door, seeded, &asked, number(places))?;
                answer_of(returned, ledger.frame()) + &changes(ledger.bytes())
            }
            [word @ ("owed" | "close"), customer, places] => {
                let call = if word == "owed" { Call::Owed } else { Call::Close };
                let (customer, places) = (number(customer), number(places));
                let returned = ledger.total(door, seeded, call, customer, places)?;
                answer_of(returned, ledger.frame()) + &changes(ledger.bytes())
            }
            _ => panic!("{line} is no step"),
        };
        text.push_str(&answer);
        text.push('\n');
    }
    Ok(text)
}

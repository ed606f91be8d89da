//! Histories of calls on a register: opened empty, nearly full, full of junk, damaged.

mod closings;

use crate::accounts::Accounts;
use crate::compare::Tally;
use crate::doors::Door;
use crate::frame::Call;
use crate::ledger::{Asked, Ledger};
use crate::seeded::Seeded;
use crate::sets::{accepted, of_length, KINDS, OUTSIDE};
use crate::texts::{key, KEY_BYTES};
use imbrolt_plain::register::{Entry, ENTRIES, GREATEST_PRICE};
use std::collections::HashSet;

const PRICES: [u32; 5] = [0, 1, 45_000, GREATEST_PRICE - 1, GREATEST_PRICE];
const WRONG_PRICES: [u32; 4] = [GREATEST_PRICE + 1, 2 * GREATEST_PRICE, 1 << 31, u32::MAX];
/// Keys that are parts of others, or others but for the case of a letter.
const SHORT_KEYS: [&[u8]; 7] =
    [b"k", b"K", b"K1", b"K12", b"K-1", b"-", b"00000000000000000000000000000000"];
/// Bytes beside those that a key may have, and some of them with their highest bit set.
const ODD_BYTES: &[u8] = b"/:@[`{ ,._\0\n\x7f\x80\xad\xb0\xc1\xe1\xff";

/// Compares so many calls in histories of every sort; without closings every byte, length and kind
/// before that.
pub fn compare(
    door: &mut Door,
    seeded: &mut Seeded,
    closes: bool,
    count: usize,
) -> Result<Tally, String> {
    let mut tally = Tally::of(&[]);
    let mut ledger = Ledger::new(seeded);
    for number in 0.. {
        if tally.total() >= count {
            break;
        }
        let customers = customers(seeded);
        let mut history = History {
            door,
            seeded,
            ledger: &mut ledger,
            accounts: Accounts::default(),
            customers,
            closes,
            sent: vec![],
            tally: &mut tally,
        };
        let compared = match number {
            _ if closes => history.run_with_closings(),
            0 => history.every_byte(),
            _ => history.run(),
        };
        compared.map_err(|difference| format!("history {number}: {difference}"))?;
    }
    Ok(tally)
}

/// One customer, a few, or many; some differ only in their high half.
fn customers(seeded: &mut Seeded) -> Vec<u64> {
    let count = seeded.pick(&[1, 2, 3, 60]);
    let mut any = |place: u64| seeded.pick(&[place, place << 32, u64::MAX - place]);
    let few = (0..count).map(&mut any).collect();
    if count == 60 && seeded.chance(2) {
        return (0..count).map(|_| seeded.next()).collect();
    }
    few
}

/// Calls on one register, one after another.
struct History<'a> {
    door: &'a mut Door,
    seeded: &'a mut Seeded,
    ledger: &'a mut Ledger,
    accounts: Accounts,
    customers: Vec<u64>,
    /// Whether customers are closed.
    closes: bool,
    /// The calls that may have been accepted.
    sent: Vec<Asked>,
    tally: &'a mut Tally,
}

impl History<'_> {
    fn run(&mut self) -> Result<(), String> {
        match self.seeded.below(100) {
            0..=39 => self.opened(),
            40..=64 => self.filled(),
            65..=67 => self.full(),
            68..=95 => self.damaged(),
            _ => self.random(),
        }
    }

    fn open(&mut self) -> Result<(), String> {
        self.ledger.open(self.door, self.seeded)?;
        self.accounts = Accounts::default();
        self.sent.clear();
        Ok(())
    }

    fn opened(&mut self) -> Result<(), String> {
        self.open()?;
        let count = self.seeded.pick(&[10, 40, 150]);
        self.calls(count)
    }

    fn filled(&mut self) -> Result<(), String> {
        let count = self.seeded.pick(&[0, 1, 2, 8, 30, 80]);
        self.fill(count);
        self.calls(40)
    }

    fn full(&mut self) -> Result<(), String> {
        let less = self.seeded.below(5);
        self.fill(ENTRIES - less);
        self.calls(30)
    }

    /// Damaged in one way or several, and then opened.
    fn damaged(&mut self) -> Result<(), String> {
        let count = if self.seeded.chance(15) { ENTRIES } else { 1 + self.seeded.below(30) };
        self.fill(count);
        for _ in 0..self.seeded.pick(&[1, 1, 1, 2, 5]) {
            self.damage();
        }
        self.calls(10)?;
        self.open()?;
        self.calls(5)
    }

    /// Random bytes: with any count, with a small one, and with none.
    fn random(&mut self) -> Result<(), String> {
        *self.ledger = Ledger::new(self.seeded);
        self.calls(5)?;
        self.ledger.register().count = self.seeded.below(ENTRIES + 2) as u64;
        self.calls(5)?;
        self.ledger.register().count = 0;
        self.accounts = Accounts::default();
        self.calls(15)
    }

    /// Every byte in a key, every length and every kind: of a call, and in an entry.
    fn every_byte(&mut self) -> Result<(), String> {
        const CHANGES: [fn(&mut Entry, u8); 4] = [
            |entry, byte| entry.key[0] = byte,
            |entry, byte| entry.key[31] = byte,
            |entry, byte| entry.length = byte,
            |entry, byte| entry.kind = byte,
        ];
        for byte in 0..=255 {
            let ending = [&[b'k'; 31][..], &[byte]].concat();
            for key in [vec![byte], ending, vec![b'k'; byte.into()]] {
                self.open()?;
                let asked = Asked { key, ..self.new_call() };
                self.bill(&asked, 7)?;
            }
            for change in CHANGES {
                self.fill(1);
                let entry = &mut self.ledger.register().entries[0];
                *entry = Entry { key: [b'k'; 32], values: [400; 16], length: 32, ..*entry };
                change(entry, byte);
                self.calls(2)?;
            }
        }
        Ok(())
    }

    fn bill(&mut self, asked: &Asked, places: usize) -> Result<(), String> {
        let returned = self.ledger.bill(self.door, self.seeded, asked, places)?;
        self.tally.add(&Tally::of(&[returned]));
        if returned == 0 {
            self.accounts.charge(asked.customer, self.ledger.frame().array(3)[6]);
        }
        Ok(())
    }

    /// A customer's total, owed or closed.
    fn total(&mut self, call: Call, customer: u64, places: usize) -> Result<(), String> {
        let returned = self.ledger.total(self.door, self.seeded, call, customer, places)?;
        self.tally.add(&Tally::of(&[returned]));
        if returned != 0 {
            return Ok(());
        }
        let total = self.ledger.frame().array(1)[0];
        if call == Call::Owed {
            return self.accounts.settle(customer, total);
        }
        self.accounts.hand_out(customer, total);
        self.owed_after_closing(customer)
    }

    fn calls(&mut self, count: usize) -> Result<(), String> {
        (0..count).try_for_each(|_| self.call())
    }

    /// Any call.
    fn call(&mut self) -> Result<(), String> {
        if self.seeded.chance(8) {
            return self.any_total(Call::Owed);
        }
        if self.closes && self.seeded.chance(8) {
            return self.any_total(Call::Close);
        }
        let which = if self.sent.is_empty() { 0 } else { self.seeded.below(8) };
        let mut asked = match which {
            0..=2 => self.new_call(),
            3..=5 => self.again(),
            _ => self.otherwise(),
        };
        while self.seeded.chance(6) {
            asked = self.faulty(asked);
        }
        let few = self.seeded.below(10);
        let places = self.seeded.pick(&[7, 7, 7, 7, 7, 7, 7, 7, 20, few]);
        self.bill(&asked, places)
    }

    /// The total of any customer.
    fn any_total(&mut self, call: Call) -> Result<(), String> {
        let (known, any) = (self.customer(), self.seeded.next());
        let customer = self.seeded.pick(&[known, known, known, any]);
        let places = self.seeded.pick(&[1, 1, 1, 1, 0, 5]);
        self.total(call, customer, places)
    }

    fn customer(&mut self) -> u64 {
        self.seeded.pick(&self.customers)
    }

    /// A good call, mostly with a key that was not there yet.
    fn new_call(&mut self) -> Asked {
        let customer = self.customer();
        let seeded = &mut *self.seeded;
        let kind = &KINDS[seeded.below(4)];
        let prices = [seeded.pick(&PRICES), seeded.below(GREATEST_PRICE as usize + 1) as u32];
        let key = match seeded.below(3) {
            0 => seeded.pick(&SHORT_KEYS).to_vec(),
            _ => (0..1 + seeded.below(32)).map(|_| seeded.pick(KEY_BYTES)).collect(),
        };
        let asked = Asked {
            customer,
            key,
            kind: kind.number,
            values: accepted(seeded, kind),
            marks: seeded.next() as u32 & seeded.pick(&[0, 0x1f, 0xffff, u32::MAX]),
            price: seeded.pick(&prices),
        };
        self.sent.push(asked.clone());
        asked
    }

    /// A call that was sent before, at any price, with any marks past the bands.
    fn again(&mut self) -> Asked {
        let seeded = &mut *self.seeded;
        let mut asked = self.sent[seeded.below(self.sent.len())].clone();
        asked.price = seeded.pick(&PRICES);
        asked.marks ^= (seeded.next() as u32).unbounded_shl(asked.values.len() as u32);
        asked
    }

    /// A call that was sent before, but for one thing.
    fn otherwise(&mut self) -> Asked {
        let mut asked = self.again();
        let customer = self.customer();
        let seeded = &mut *self.seeded;
        let band = seeded.below(asked.values.len());
        match seeded.below(7) {
            0 => asked.kind ^= 2,
            1 => asked.marks ^= 1 << band,
            2 => asked.values[band] -= asked.values[band].signum() | 1,
            3 => asked.customer = customer,
            4 => asked.key.push(b'1'),
            5 => drop(asked.key.pop()),
            _ => asked.key[0] ^= 0x20,
        }
        asked
    }

    /// A call with one thing wrong.
    fn faulty(&mut self, mut asked: Asked) -> Asked {
        let seeded = &mut *self.seeded;
        match seeded.below(6) {
            0 => asked.key = key(seeded),
            1 => {
                asked.key.resize(seeded.pick(&[0, 33, 34, 40, 64, 256 + asked.key.len()]), b'k');
            }
            2 if !asked.key.is_empty() => {
                let place = seeded.below(asked.key.len());
                asked.key[place] = seeded.pick(ODD_BYTES);
            }
            3 => {
                let wide = asked.kind % 4 + 256;
                asked.kind = seeded.pick(&[4, 5, 255, wide, wide << 8, u32::MAX]);
            }
            4 => asked.price = seeded.pick(&WRONG_PRICES),
            _ => {
                let any = seeded.below(51);
                let length = seeded.pick(&[None, Some(5), Some(16), Some(any)]);
                asked.values = of_length(seeded, asked.values, length);
                if let Some(band) = asked.values.len().checked_sub(1) {
                    asked.values[seeded.below(band + 1)] = seeded.pick(&OUTSIDE);
                }
            }
        }
        asked
    }

    /// So many entries, none of a customer and key twice; mostly with junk where it never matters.
    fn fill(&mut self, count: usize) {
        let junk = !self.seeded.chance(3);
        let mut names = HashSet::new();
        self.sent.clear();
        while self.sent.len() < count {
            let asked = self.new_call();
            if !names.insert((asked.customer, asked.key)) {
                self.sent.pop();
            }
        }
        if junk {
            *self.ledger = Ledger::new(self.seeded);
        }
        self.accounts = Accounts::default();
        for (place, asked) in self.sent.iter().enumerate() {
            self.ledger.register().entries[place] = entry_of(self.seeded, asked, junk);
            self.accounts.charge(asked.customer, asked.price as i32);
        }
        self.ledger.register().count = count as u64;
    }

    /// Does one of the things to the register that no calls could have done.
    fn damage(&mut self) {
        let count = self.sent.len();
        let place = self.seeded.below(count);
        let twin = self.seeded.below(count);
        let bands = self.sent[place].values.len();
        let length = self.sent[place].key.len();
        let seeded = &mut *self.seeded;
        let register = self.ledger.register();
        let small = count as u64;
        let entry = &mut register.entries[place];
        // That a count is above 512 shows by itself only where all 512 entries are sound.
        let way = if count == ENTRIES && seeded.chance(2) { 0 } else { seeded.below(7) };
        match way {
            0 => {
                let counts = [513, 514, 1 << 16, small + (1 << 32), 1 << 63, u64::MAX];
                register.count = seeded.pick(&counts);
            }
            1 => entry.price = seeded.pick(&WRONG_PRICES),
            2 => entry.kind = seeded.pick(&[4, 5, 16, 127, 128, 252, 255]),
            3 => entry.values[seeded.below(bands)] = seeded.pick(&OUTSIDE),
            4 => {
                entry.key[length..].fill(b'k');
                entry.length = seeded.pick(&[0, 33, 34, 64, 128, 255]);
            }
            5 => entry.key[seeded.below(length)] = seeded.pick(ODD_BYTES),
            _ => {
                let other = self.sent[twin].clone();
                let named =
                    Asked { customer: other.customer, key: other.key, ..self.sent[place].clone() };
                register.entries[place] = entry_of(seeded, &named, true);
            }
        }
    }
}

/// The entry of a call; with junk where it never matters, or zeros.
fn entry_of(seeded: &mut Seeded, asked: &Asked, junk: bool) -> Entry {
    let bands = asked.values.len();
    let mut next = || if junk { seeded.next() } else { 0 };
    let past_bands = u32::MAX.unbounded_shl(bands as u32);
    let mut entry = Entry {
        customer: asked.customer,
        key: std::array::from_fn(|_| next() as u8),
        values: std::array::from_fn(|_| next() as i32),
        price: asked.price,
        marks: (asked.marks & !past_bands | next() as u32 & past_bands) as u16,
        length: asked.key.len() as u8,
        kind: asked.kind as u8,
    };
    entry.key[..asked.key.len()].copy_from_slice(&asked.key);
    entry.values[..bands].copy_from_slice(&asked.values);
    entry
}

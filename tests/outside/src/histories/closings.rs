//! Histories with closings, settled by their answers: for each customer, what was handed out and
//! what is owed is what was charged, after each closing and at the end.

use super::History;
use crate::frame::Call;
use crate::ledger::Asked;
use imbrolt_plain::register::ENTRIES;

/// After a closing at most so many customers are asked for what they owe, beside the one closed.
const ASKED: usize = 2;

impl History<'_> {
    pub(super) fn run_with_closings(&mut self) -> Result<(), String> {
        match self.seeded.below(100) {
            0..=44 => self.months()?,
            45..=69 => self.filled()?,
            70..=71 => self.full()?,
            72..=75 => self.refilled()?,
            76..=95 => self.damaged()?,
            _ => self.random()?,
        }
        self.all_owed(self.accounts.customers())
    }

    /// Months of calls on a register that was opened empty.
    fn months(&mut self) -> Result<(), String> {
        self.open()?;
        let calls = self.seeded.pick(&[5, 20, 50]);
        for _ in 0..3 {
            self.calls(calls)?;
            self.month_end()?;
        }
        Ok(())
    }

    /// Some customers are closed, each twice in a row.
    fn month_end(&mut self) -> Result<(), String> {
        let mut charged = self.accounts.customers();
        charged.push(self.customer());
        for _ in 0..self.seeded.pick(&[1, 2, 5]) {
            let customer = self.seeded.pick(&charged);
            self.total(Call::Close, customer, 1)?;
            self.total(Call::Close, customer, 1)?;
        }
        Ok(())
    }

    /// Full; one customer is closed, whose keys come with other bands until it is full again.
    fn refilled(&mut self) -> Result<(), String> {
        self.fill(ENTRIES);
        let customer = self.customer();
        self.total(Call::Close, customer, 1)?;
        let (closed, others): (Vec<Asked>, _) =
            self.sent.drain(..).partition(|asked| asked.customer == customer);
        self.sent = others;
        for before in closed {
            let asked = Asked { customer, key: before.key, ..self.new_call() };
            self.bill(&asked, 7)?;
            self.sent.pop();
            self.sent.push(asked);
        }
        if self.ledger.register().count != ENTRIES as u64 {
            return Err(format!("the keys of customer {customer} did not fill the register\n"));
        }
        self.calls(30)
    }

    /// After a closing: what the customer owes, and what some others do.
    pub(super) fn owed_after_closing(&mut self, customer: u64) -> Result<(), String> {
        let mut asked = self.accounts.customers();
        while asked.len() > ASKED {
            asked.swap_remove(self.seeded.below(asked.len()));
        }
        asked.push(customer);
        self.all_owed(asked)
    }

    fn all_owed(&mut self, customers: Vec<u64>) -> Result<(), String> {
        customers.into_iter().try_for_each(|customer| self.total(Call::Owed, customer, 1))
    }
}

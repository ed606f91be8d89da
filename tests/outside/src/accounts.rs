//! What customers were charged and handed out, by the answers alone.

use std::collections::HashMap;

/// Of each customer what was charged and what was handed out, in fen, since a register was opened.
#[derive(Default)]
pub struct Accounts(HashMap<u64, [i64; 2]>);

impl Accounts {
    pub fn charge(&mut self, customer: u64, fen: i32) {
        self.0.entry(customer).or_default()[0] += i64::from(fen);
    }

    pub fn hand_out(&mut self, customer: u64, fen: i32) {
        self.0.entry(customer).or_default()[1] += i64::from(fen);
    }

    /// Those who were charged or closed.
    pub fn customers(&self) -> Vec<u64> {
        let mut customers: Vec<u64> = self.0.keys().copied().collect();
        customers.sort_unstable();
        customers
    }

    /// What was handed out and what is owed have to be what was charged.
    pub fn settle(&self, customer: u64, owed: i32) -> Result<(), String> {
        let [charged, handed_out] = self.0.get(&customer).copied().unwrap_or_default();
        if handed_out + i64::from(owed) == charged {
            return Ok(());
        }
        Err(format!(
            "customer {customer} was charged {charged} fen, of which {handed_out} were handed out \
             and {owed} are owed\n"
        ))
    }
}

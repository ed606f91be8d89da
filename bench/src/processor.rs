//! Processor time: what a program itself took, whatever else the machine did.

use std::time::Duration;

extern "C" {
    fn getrusage(who: i32, usage: *mut Usage) -> i32;
}

/// C's `struct rusage` on 64-bit Linux.
#[repr(C)]
#[derive(Default)]
struct Usage {
    user: [i64; 2],
    system: [i64; 2],
    others: [i64; 14],
}

const SELF: i32 = 0;
const CHILDREN: i32 = -1;

fn time_of(who: i32) -> Duration {
    let mut usage = Usage::default();
    // Safe: the structure is there to be filled.
    let done = unsafe { getrusage(who, &mut usage) };
    assert_eq!(done, 0, "the system tells processor times");
    [usage.user, usage.system]
        .map(|[seconds, micros]| Duration::new(seconds as u64, 1000 * micros as u32))
        .iter()
        .sum()
}

/// What this program has taken.
pub fn time_of_self() -> Duration {
    time_of(SELF)
}

/// What the programs have taken that it ran to their ends.
pub fn time_of_children() -> Duration {
    time_of(CHILDREN)
}

/// The least of some times.
pub struct Best(Duration);

impl Best {
    pub fn new() -> Best {
        Best(Duration::MAX)
    }

    pub fn take(&mut self, time: Duration) {
        self.0 = self.0.min(time);
    }

    pub fn least(&self) -> Duration {
        self.0
    }
}

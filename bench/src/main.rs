//! Times the proved library beside plain programs and prints a table.
//!
//! ```text
//! bench REQUESTS RATE PLAIN TUNED
//! ```
//!
//! The programs RATE (proved), PLAIN (doubles) and TUNED (whole numbers) answer the file REQUESTS.
//! All times are processor times, the best of several runs, so that other work on the machine
//! matters little.

mod calls;
mod processor;

use processor::{time_of_children, Best};
use std::fs::File;
use std::path::Path;
use std::process::{Command, Stdio};
use std::time::Duration;

const RUNS: usize = 9;

fn main() {
    let words: Vec<String> = std::env::args().skip(1).collect();
    let [requests, rate, plain, tuned] = &words[..] else {
        eprintln!("usage: bench REQUESTS RATE PLAIN TUNED");
        std::process::exit(2);
    };
    time_programs(Path::new(requests), [rate, plain, tuned]);
    println!();
    calls::time_calls();
}

/// Lines per second of each program, and how many times as fast the first is.
fn time_programs(requests: &Path, programs: [&String; 3]) {
    let lines = lines_of(&std::fs::read(requests).expect("the requests can be read"));
    let [by_rate, by_plain, by_tuned] = programs.map(|program| answers(program, requests));
    assert!(by_rate == by_tuned, "rate and the tuned program answer the same");
    let unlike = by_rate.iter().zip(&by_plain).filter(|(one, other)| one != other).count();
    let times = best_times(programs, requests);
    let per_second = times.map(|time| lines.len() as f64 / time.as_secs_f64());

    println!("{} request lines, best of {RUNS} runs", lines.len());
    println!("{:<44}{:>12}{:>20}", "", "lines/s", "rate is faster by");
    let names = ["rate, proved", "plain C in doubles", "tuned Rust in whole numbers"];
    for (name, speed) in names.into_iter().zip(per_second) {
        println!("{name:<44}{speed:>12.0}{:>20.2}", per_second[0] / speed);
    }
    println!("(plain C answers {unlike} lines otherwise)");
}

fn lines_of(bytes: &[u8]) -> Vec<Vec<u8>> {
    bytes.split_inclusive(|&byte| byte == b'\n').map(<[u8]>::to_vec).collect()
}

fn command(program: &str, requests: &Path) -> Command {
    let mut command = Command::new(program);
    command.stdin(File::open(requests).expect("the requests can be read"));
    command
}

fn answers(program: &str, requests: &Path) -> Vec<Vec<u8>> {
    let done = command(program, requests).output().expect("the program runs");
    assert!(done.status.success(), "{program} ended with {}", done.status);
    lines_of(&done.stdout)
}

/// The least processor time of each program, their runs taking turns.
fn best_times(programs: [&String; 3], requests: &Path) -> [Duration; 3] {
    let mut best = programs.map(|_| Best::new());
    for _ in 0..RUNS {
        for (program, best) in programs.into_iter().zip(&mut best) {
            let before = time_of_children();
            let status = command(program, requests).stdout(Stdio::null()).status();
            assert!(status.expect("the program runs").success(), "{program} failed");
            best.take(time_of_children() - before);
        }
    }
    best.map(|best| best.least())
}

//! `scripts-stats [count [seed]]` prints what so many scripts meet, and fails
//! if they miss something that a script can meet.

use scripts::{script, Statistics};
use std::process::ExitCode;

fn main() -> ExitCode {
    let mut numbers = std::env::args().skip(1).map(|text| text.parse::<u64>());
    let count = numbers.next().unwrap_or(Ok(20_000));
    let seed = numbers.next().unwrap_or(Ok(1));
    let (Ok(count), Ok(seed)) = (count, seed) else {
        eprintln!("usage: scripts-stats [count [seed]]");
        return ExitCode::FAILURE;
    };
    let mut statistics = Statistics::default();
    for index in 0..count {
        statistics.add(&script(seed, index));
    }
    print!("{statistics}");
    if statistics.missing().is_empty() {
        ExitCode::SUCCESS
    } else {
        ExitCode::FAILURE
    }
}

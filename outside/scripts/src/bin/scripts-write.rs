//! `scripts-write seed index` writes one script to standard output, to look
//! at it or to hand it to a program.

use std::io::{self, Write};
use std::process::ExitCode;

fn main() -> ExitCode {
    let numbers: Vec<u64> = std::env::args()
        .skip(1)
        .filter_map(|text| text.parse().ok())
        .collect();
    let [seed, index] = numbers[..] else {
        eprintln!("usage: scripts-write seed index");
        return ExitCode::FAILURE;
    };
    match io::stdout().lock().write_all(&scripts::script(seed, index)) {
        Ok(()) => ExitCode::SUCCESS,
        Err(_) => ExitCode::FAILURE,
    }
}

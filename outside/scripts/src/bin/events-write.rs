//! `events-write seed lists length` writes so many lists of so many events, in
//! rows, as `cases rows` reads them.

use scripts::EventList;
use std::io::{self, Write};
use std::process::ExitCode;

/// The most slots of a board.
const SLOTS: usize = 4;

fn main() -> ExitCode {
    let numbers: Vec<u64> = std::env::args()
        .skip(1)
        .filter_map(|text| text.parse().ok())
        .collect();
    let [seed, lists, length] = numbers[..] else {
        eprintln!("usage: events-write seed lists length");
        return ExitCode::FAILURE;
    };
    let list = |index| {
        let list = EventList::new(seed, index, SLOTS, length as usize);
        list.rows(&format!("generated {index}"))
    };
    let rows: Vec<String> = (0..lists).map(list).collect();
    match io::stdout().lock().write_all(rows.join("\n").as_bytes()) {
        Ok(()) => ExitCode::SUCCESS,
        Err(_) => ExitCode::FAILURE,
    }
}

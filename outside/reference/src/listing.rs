//! The listing of a whole script.

use crate::board::Board;
use crate::refusal::*;
use crate::script::{push_number, put, read_line, Record};

/// The most bytes of a script.
pub const SCRIPT_LIMIT: usize = 65_535;

/// The first line of every listing.
pub const HEADING: &[u8] = b"step\tanswer\tdebt\tstate\n";

/// The lines of a script without their bytes 10. The last may lack it, and
/// after a last byte 10 no further line begins.
pub fn script_lines(script: &[u8]) -> impl Iterator<Item = &[u8]> {
    let body = script.strip_suffix(b"\n").unwrap_or(script);
    // An empty script has no line, where a split would give an empty one.
    let most = if script.is_empty() { 0 } else { usize::MAX };
    body.split(|&byte| byte == b'\n').take(most)
}

/// Goes through a script and shows for each line its number, its bytes, its
/// answer and the board after it. Gives the refusal of the first line, or of
/// the script, and has then shown nothing.
pub fn walk(script: &[u8], mut show: impl FnMut(usize, &[u8], u16, &Board)) -> Result<(), Refusal> {
    if script.len() > SCRIPT_LIMIT {
        return Err(SCRIPT_TOO_LONG);
    }
    let mut lines = script_lines(script);
    let first = lines.next().ok_or(BOARD_MISPLACED)?;
    let Record::Board { m, d, parents } = read_line(first, true)? else {
        return Err(BOARD_MISPLACED);
    };
    let (mut board, refusal) = Board::open(m, d, &parents);
    if refusal != ACCEPTED {
        return Err(refusal);
    }
    show(0, first, ACCEPTED, &board);
    for (number, line) in (1..).zip(lines) {
        let answer = match read_line(line, false) {
            Ok(Record::Step(step)) => board.step(step),
            Ok(Record::Board { .. }) => BOARD_MISPLACED,
            Err(refusal) => refusal,
        };
        show(number, line, answer, &board);
    }
    Ok(())
}

/// The listing of a script: what the program writes for it.
pub fn list(script: &[u8]) -> Vec<u8> {
    let mut listing = HEADING.to_vec();
    let outcome = walk(script, |number, _, answer, board| {
        push_line(&mut listing, number, answer, board.debt, state(board.debt));
    });
    if let Err(refusal) = outcome {
        push_line(&mut listing, 0, refusal, 0, b"refused");
    }
    listing
}

/// How many bytes the listing of a script has.
pub fn listing_length(script: &[u8]) -> usize {
    list(script).len()
}

/// Writes the whole listing, or nothing, and gives its length. [27]
pub fn list_into(script: &[u8], out: &mut [u8]) -> Result<usize, Refusal> {
    put(&list(script), out, 0)
}

/// Writes the heading from place `at` on. [27]
pub fn write_heading(out: &mut [u8], at: usize) -> Result<usize, Refusal> {
    put(HEADING, out, at)
}

/// Writes one line of a listing, with its byte 10, from place `at` on, and
/// gives the number of bytes written. [27]
pub fn write_listing_line(
    number: usize,
    answer: u16,
    debt: u64,
    out: &mut [u8],
    at: usize,
) -> Result<usize, Refusal> {
    let mut line = Vec::new();
    push_line(&mut line, number, answer, debt, state(debt));
    put(&line, out, at)
}

fn state(debt: u64) -> &'static [u8] {
    if debt == 0 {
        b"finished"
    } else {
        b"working"
    }
}

fn push_line(out: &mut Vec<u8>, number: usize, answer: u16, debt: u64, state: &[u8]) {
    push_number(out, number as u64);
    out.push(b'\t');
    push_number(out, u64::from(answer));
    out.push(b'\t');
    push_number(out, debt);
    out.push(b'\t');
    out.extend_from_slice(state);
    out.push(b'\n');
}

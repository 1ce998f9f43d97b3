//! Scripts with neighbouring lines exchanged that may come in either order
//! (M-107). The boards on which that is told are the reference's.

use reference::{independent, read_line, script_lines, touched, Board, Record, Step, SCRIPT_LIMIT};

/// Two neighbouring lines of a script, accepted steps that are independent on the
/// board before them.
#[derive(Clone, Copy, Debug, PartialEq, Eq)]
pub struct Exchange {
    /// The first of the two lines; the board line is 0.
    pub line: usize,
    pub first: Step,
    pub second: Step,
    /// Whether a send's v or a move's p is a unit that the other step touches.
    pub through_other: bool,
}

/// The places of a script where two lines may be exchanged.
pub fn exchanges(script: &[u8]) -> Vec<Exchange> {
    let mut found = vec![];
    go_through(script, |exchange| {
        found.push(exchange);
        false
    });
    found
}

/// The script with a line and the one behind it exchanged. Both keep their bytes,
/// and a last line that lacks its byte 10 lacks it still.
pub fn exchanged(script: &[u8], line: usize) -> Vec<u8> {
    let mut lines = parts(script);
    lines.swap(line, line + 1);
    lines.join(&b'\n')
}

/// The script after many exchanges, one after another: from the first line on,
/// each line goes down as far as it may. Gives the number of exchanges, too.
pub fn tidied(script: &[u8]) -> (Vec<u8>, usize) {
    let mut count = 0;
    let lines = go_through(script, |_| {
        count += 1;
        true
    });
    (lines.join(&b'\n'), count)
}

/// Whether a send's v or a move's p is a unit that the other step touches.
pub fn through_other(board: &Board, first: Step, second: Step) -> bool {
    let names = |one: Step, step: Step| {
        let has_other = matches!(one.kind, Step::SEND | Step::MOVE);
        has_other && touched(board, step).unit == Some(one.other)
    };
    names(first, second) || names(second, first)
}

/// Goes through a script and asks at each place where two lines may be exchanged
/// whether to exchange them. Gives the lines that this leads to.
fn go_through(script: &[u8], mut exchange: impl FnMut(Exchange) -> bool) -> Vec<&[u8]> {
    let mut lines = parts(script);
    let Some(mut board) = open(script) else {
        return lines;
    };
    for line in 1..lines.len() - 1 {
        if let (Some(first), Some(second)) = (step(lines[line]), step(lines[line + 1])) {
            let met = Exchange {
                line,
                first,
                second,
                through_other: through_other(&board, first, second),
            };
            if independent(&board, first, second) && exchange(met) {
                lines.swap(line, line + 1);
            }
        }
        // A refused step leaves the board, and a line that is no step, too.
        if let Some(step) = step(lines[line]) {
            board.step(step);
        }
    }
    lines
}

/// The parts of a script between its bytes 10. Behind a last byte 10 stands an
/// empty part, so that joining them gives the script again.
fn parts(script: &[u8]) -> Vec<&[u8]> {
    script.split(|&byte| byte == b'\n').collect()
}

/// The fresh board of a script that is not refused.
fn open(script: &[u8]) -> Option<Board> {
    let first = script_lines(script).next()?;
    match read_line(first, true) {
        Ok(Record::Board { m, d, parents }) if script.len() <= SCRIPT_LIMIT => {
            let (board, _) = Board::open(m, d, &parents);
            board.is_sound().then_some(board)
        }
        _ => None,
    }
}

fn step(line: &[u8]) -> Option<Step> {
    match read_line(line, false) {
        Ok(Record::Step(step)) => Some(step),
        _ => None,
    }
}

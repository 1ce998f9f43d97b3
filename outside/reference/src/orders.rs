//! Two steps in either order (M-107): what a step touches, which two steps are
//! independent, and what a program is to tell for a file of pairs.

use crate::board::{Board, Kind};
use crate::refusal::ACCEPTED;
use crate::script::{letters, read_line, Letter, Record};
use crate::step::Step;

/// What a step touches on a board. It is one unit and one slot at most: only a
/// delivery touches a receiver, and it has no unit u.
#[derive(Clone, Copy, Debug, Default, PartialEq, Eq)]
pub struct Touched {
    pub unit: Option<u16>,
    pub slot: Option<u16>,
}

impl Touched {
    /// Whether a unit or a slot is touched by both.
    pub fn shares(self, other: Touched) -> bool {
        let same = |a: Option<u16>, b: Option<u16>| a.is_some() && a == b;
        same(self.unit, other.unit) || same(self.slot, other.slot)
    }
}

/// What a step touches on a board: its unit u and its slot s, where it has them,
/// and for a delivery the receiver of the message in the slot. A send's v is not
/// touched: its work is under way to v, and only the delivery changes v. Nor is a
/// move's p (M-108). A step of no kind has no letters, and an empty slot has no
/// receiver; both are refused.
pub fn touched(board: &Board, mut step: Step) -> Touched {
    let mut touched = Touched::default();
    if !Step::KINDS.contains(&step.kind) {
        return touched;
    }
    for letter in letters(step.kind) {
        let number = *letter.of(&mut step);
        match letter {
            Letter::Unit => touched.unit = Some(number),
            Letter::Slot => touched.slot = Some(number),
            Letter::Other => (),
        }
    }
    if step.kind == Step::DELIVER {
        let message = board.slots.get(usize::from(step.slot));
        touched.unit = message
            .filter(|slot| slot.kind != Kind::Empty)
            .map(|slot| slot.to);
    }
    touched
}

/// Whether M-107 speaks of two steps in the order given, on a sound board: they
/// touch nothing in common, both are accepted and neither changes the debt. What
/// they touch is read on the board before both, the answers and the debt on the
/// board that each step gets.
pub fn independent(board: &Board, first: Step, second: Step) -> bool {
    if touched(board, first).shares(touched(board, second)) {
        return false;
    }
    let mut after = board.clone();
    [first, second]
        .into_iter()
        .all(|step| after.step(step) == ACCEPTED && after.debt == board.debt)
}

/// What a program is to tell for a file of pairs, or the line that is none of
/// what the file may have. Its format stands at the top of `bin/cases.rs`.
pub fn tell_orders(rows: &str) -> Result<String, String> {
    let mut told = String::new();
    let mut board = Board::BLANK;
    for line in rows.split_terminator('\n') {
        if line.starts_with('#') {
            told += &format!("{line}\n");
        } else if let Some((first, second)) = line.split_once(';') {
            let pair = read_step(first).zip(read_step(second));
            let (first, second) = pair.ok_or(line)?;
            told += &format!("{line}\tgives\t{}\n", either_order(&board, first, second));
        } else if line == "round" {
            count(&mut board);
        } else if let Ok(Record::Board { m, d, parents }) = read_line(line.as_bytes(), true) {
            (board, _) = Board::open(m, d, &parents);
        } else if !line.is_empty() {
            board.step_checked(read_step(line).ok_or(line)?);
        }
    }
    Ok(told)
}

fn read_step(line: &str) -> Option<Step> {
    match read_line(line.as_bytes(), false) {
        Ok(Record::Step(step)) => Some(step),
        _ => None,
    }
}

/// A counting round that visits every unit that it may: those that are not
/// active.
fn count(board: &mut Board) {
    board.begin();
    for unit in 0..board.n {
        // A refused visit leaves the board, and the others follow all the same.
        let _ = board.visit(unit);
    }
}

/// The answers in the order given and in the other, and whether the boards after
/// both orders are equal, counts and rounds too.
fn either_order(board: &Board, first: Step, second: Step) -> String {
    let (mut given, mut other) = (board.clone(), board.clone());
    let answers = [
        given.step_checked(first),
        given.step_checked(second),
        other.step_checked(second),
        other.step_checked(first),
    ];
    let [a, b, c, d] = answers;
    let boards = if given == other { "same" } else { "differ" };
    format!("{a}\t{b}\tand\t{c}\t{d}\t{boards}")
}

//! Every reason to refuse a line or a step, told without regard to the order
//! of the checks, to see that scripts put that order to the test.

use reference::{is_padded, read_number, Board, Kind, State, Step, LINE_LIMIT, WORDS};
use std::ops::RangeInclusive;

/// Two reasons to refuse a step that can hold at once: the word, the one that
/// is checked first, the other. 28 is its line's, and the other is what the
/// step without the padding would get. For a send 33 is checked before 34
/// (M-103).
pub const STEP_PAIRS: [(u16, u16, u16); 40] = [
    (Step::START, 28, 13),
    (Step::SEND, 28, 13),
    (Step::REQUEST, 28, 13),
    (Step::DELIVER, 28, 14),
    (Step::REST, 28, 13),
    (Step::TICK, 28, 13),
    (Step::RELEASE, 28, 13),
    (Step::MOVE, 28, 13),
    (Step::MOVE, 28, 47),
    (Step::START, 13, 37),
    (Step::SEND, 13, 14),
    (Step::SEND, 13, 31),
    (Step::SEND, 13, 32),
    (Step::SEND, 13, 33),
    (Step::SEND, 13, 34),
    (Step::SEND, 14, 31),
    (Step::SEND, 14, 32),
    (Step::SEND, 14, 33),
    (Step::SEND, 31, 33),
    (Step::SEND, 31, 34),
    (Step::SEND, 32, 33),
    (Step::SEND, 32, 34),
    (Step::SEND, 33, 34),
    (Step::REQUEST, 13, 14),
    (Step::REQUEST, 13, 34),
    (Step::REQUEST, 14, 31),
    (Step::REQUEST, 14, 32),
    (Step::REQUEST, 14, 41),
    (Step::REQUEST, 31, 34),
    (Step::REQUEST, 31, 41),
    (Step::REQUEST, 32, 34),
    (Step::REQUEST, 32, 41),
    (Step::REQUEST, 41, 34),
    (Step::RELEASE, 13, 14),
    (Step::RELEASE, 13, 34),
    (Step::RELEASE, 14, 38),
    (Step::RELEASE, 14, 40),
    (Step::RELEASE, 38, 34),
    (Step::RELEASE, 40, 34),
    (Step::MOVE, 13, 47),
];

/// Every reason that a step has to be refused, in no order.
pub fn step_reasons(board: &Board, step: Step) -> Vec<u16> {
    let kind = step.kind;
    let mut reasons = vec![];
    let mut reason = |number: u16, kinds: &[u16], holds: bool| {
        if holds && kinds.contains(&kind) {
            reasons.push(number);
        }
    };
    use Step as S;
    let with_slot = [S::SEND, S::REQUEST, S::DELIVER, S::RELEASE];
    let no_unit = kind != S::DELIVER && step.unit >= board.n;
    let no_other = kind == S::SEND && step.other >= board.n;
    reason(13, &[kind], no_unit || no_other);
    reason(14, &with_slot, step.slot >= board.m);
    reason(37, &[S::START], board.debt > 0);
    reason(47, &[S::MOVE], step.unit == 0 || step.other >= step.unit);
    if step.unit < board.n {
        let unit = board.units[usize::from(step.unit)];
        let active = unit.state == State::Active;
        let waiting = unit.state == State::Waiting;
        reason(31, &[S::SEND, S::REQUEST, S::REST], !active);
        reason(32, &[S::SEND, S::REQUEST, S::REST], unit.suspended);
        reason(33, &[S::SEND], unit.weight == 1);
        reason(41, &[S::REQUEST], unit.weight > 1);
        reason(38, &[S::TICK, S::RELEASE], !waiting);
        reason(39, &[S::TICK], waiting && unit.countdown == 0);
        reason(40, &[S::RELEASE], unit.countdown > 0);
    }
    if step.slot < board.m {
        let empty = board.slots[usize::from(step.slot)].kind == Kind::Empty;
        reason(34, &[S::SEND, S::REQUEST, S::RELEASE], !empty);
        reason(35, &[S::DELIVER], empty);
    }
    reasons
}

/// Two reasons to refuse a line that can hold at once: whether it is the
/// first line, the reason that is checked first, the other.
pub const LINE_PAIRS: [(bool, u16, u16); 32] = [
    (true, 21, 22),
    (true, 21, 28),
    (true, 21, 24),
    (true, 21, 11),
    (true, 22, 28),
    (true, 22, 24),
    (true, 25, 23),
    (true, 25, 28),
    (true, 25, 24),
    (true, 23, 28),
    (true, 23, 24),
    (true, 23, 11),
    (true, 28, 24),
    (true, 28, 11),
    (true, 28, 12),
    (true, 24, 11),
    (true, 24, 12),
    (true, 11, 12),
    (false, 21, 22),
    (false, 21, 25),
    (false, 21, 23),
    (false, 21, 28),
    (false, 21, 24),
    (false, 22, 28),
    (false, 22, 24),
    (false, 25, 23),
    (false, 25, 28),
    (false, 25, 24),
    (false, 25, 12),
    (false, 23, 28),
    (false, 23, 24),
    (false, 28, 24),
];

/// Every reason that a line has to be refused but those of a step's own, in
/// no order.
pub fn line_reasons(line: &[u8], first: bool) -> Vec<u16> {
    let fields: Vec<&[u8]> = line.split(|&byte| byte == b'\t').collect();
    let word = WORDS.iter().position(|known| *known == fields[0]);
    // A padded number is read too: what it says may be a reason of its own.
    let numbers: Vec<_> = fields[1..].iter().map(|field| read_number(field)).collect();
    let outside = |place: usize, range: RangeInclusive<u16>| match numbers.get(place) {
        Some(Ok(number)) => !range.contains(number),
        _ => false,
    };
    let parents = numbers.iter().skip(2).zip(1..);
    let mut reasons = vec![];
    let mut reason = |number: u16, holds: bool| {
        if holds {
            reasons.push(number);
        }
    };
    reason(21, line.len() > LINE_LIMIT);
    reason(22, word.is_none());
    reason(25, word.is_some() && (word == Some(0)) != first);
    reason(28, fields[1..].iter().any(|field| is_padded(field)));
    reason(24, numbers.iter().any(Result::is_err));
    let count = numbers.len();
    match word {
        Some(0) => {
            reason(23, count < 2);
            reason(11, count > 65 || outside(0, 1..=256) || outside(1, 0..=255));
            reason(
                12,
                parents
                    .into_iter()
                    .any(|(parent, unit)| matches!(parent, Ok(parent) if *parent >= unit)),
            );
        }
        Some(word) => reason(23, count != [1, 3, 2, 1, 1, 1, 2, 2][word - 1]),
        None => (),
    }
    reasons
}

/// A line without the zeros that pad its numbers.
pub fn unpadded(line: &[u8]) -> Vec<u8> {
    let fields = line.split(|&byte| byte == b'\t').map(|mut field| {
        while is_padded(field) {
            field = &field[1..];
        }
        field
    });
    fields.collect::<Vec<_>>().join(&b'\t')
}

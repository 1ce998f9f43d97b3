//! Rows: cases written by hand, one a line, and what a program is to tell for
//! them, line for line.
//!
//! Fields are parted by tabs. A line begins with a word:
//! - `blank`: a blank board, on which the cases that follow build;
//! - `keep`: the board that was built becomes the stage;
//! - `stage`: the stage again, on which the cases that follow build;
//! - `run TITLE`: the title is told, and then the cases that follow, each on
//!   the board that the one before it left;
//! - `each TITLE`: the same, but each on the same board.
//!
//! An empty line and one that begins with # is skipped. Any other line is a
//! case. One that builds is not told. Missing numbers are 0, numbers wrap at 64
//! bits, one that goes into a field of 16 bits is cut to 65,535 at most, and
//! reading ends at the first field that is no number, such as a comment.
//!
//! Openings, told with what they hand back:
//! - `open M d COUNT LAST`: as many parents, at most 320, all 0 but the last;
//! - `chain M d COUNT`: each unit's parent is the unit before it.
//!
//! `depth U` is told with its answer. Edits set fields of the board and are told
//! with what the calls say of it:
//! - `sizes n M d`, `parent U P`, `debt X`;
//! - `idle unit U WEIGHT COUNTDOWN SUSPENDED`, `active unit ..`,
//!   `waiting unit ..`;
//! - `empty slot S FROM TO WEIGHT`, `work slot ..`, `return slot ..`,
//!   `request slot ..`, `supply slot ..`;
//! - `counts U CREATED PROCESSED`, `mark U T`, where T is not 0 for a unit that
//!   the open round has visited, and `round K TOTAL1 TOTAL2`, where K is 0 for
//!   none, 1, and 2 or more for round two.
//!
//! The edits of units and slots move the debt, too, so that it follows the
//! weights, and those of slots move unit 0's created count, so that the created
//! total follows the work under way.
//!
//! Events are told with what they changed: `begin`, `visit U`, and steps. Any
//! other word is a step's kind, as a word or as a number, before its unit, other
//! and slot.

use crate::board::{Board, Kind, Slot, State, Unit, SLOTS, UNITS};
use crate::refusal::ACCEPTED;
use crate::rounds::{Finding, Round};
use crate::script::WORDS;
use crate::step::Step;
use std::fmt::Write;

/// The most parents of an opening: enough to be refused, and no more.
const PARENTS: u64 = 320;

enum Mode {
    /// Cases build and are not told.
    Build,
    Run,
    Each,
}

/// What a program is to tell for a file of rows, or the line that no case is.
pub fn tell_rows(rows: &str) -> Result<String, String> {
    let mut told = String::new();
    let mut board = Board::BLANK;
    let mut stage = Board::BLANK;
    let mut mode = Mode::Build;
    for line in rows.lines() {
        if line.is_empty() || line.starts_with('#') {
            continue;
        }
        let mut fields = line.split('\t');
        let word = fields.next().unwrap_or_default();
        match word {
            "blank" => (board, mode) = (Board::BLANK, Mode::Build),
            "keep" => (stage, mode) = (board.clone(), Mode::Build),
            "stage" => (board, mode) = (stage.clone(), Mode::Build),
            "run" | "each" => {
                told += fields.next().unwrap_or_default();
                told.push('\n');
                mode = if word == "run" { Mode::Run } else { Mode::Each };
            }
            _ => {
                let mut after = board.clone();
                let numbers = read_numbers(fields);
                let text = take(&mut after, word, numbers).ok_or_else(|| line.to_string())?;
                if !matches!(mode, Mode::Build) {
                    told += &text;
                }
                if !matches!(mode, Mode::Each) {
                    board = after;
                }
            }
        }
    }
    Ok(told)
}

fn read_numbers<'a>(fields: impl Iterator<Item = &'a str>) -> [u64; 4] {
    let mut numbers = [0; 4];
    for (number, field) in numbers.iter_mut().zip(fields) {
        match read_number(field) {
            Some(read) => *number = read,
            None => break,
        }
    }
    numbers
}

fn read_number(field: &str) -> Option<u64> {
    let digits = !field.is_empty() && field.bytes().all(|byte| byte.is_ascii_digit());
    let value = |number: u64, byte| number.wrapping_mul(10).wrapping_add(u64::from(byte - b'0'));
    digits.then(|| field.bytes().fold(0, value))
}

/// Cut to a field of 16 bits.
fn cut(number: u64) -> u16 {
    u16::try_from(number).unwrap_or(u16::MAX)
}

/// Takes one case on a board and gives what is told of it.
fn take(board: &mut Board, word: &str, numbers: [u64; 4]) -> Option<String> {
    let [a, b, c, d] = numbers;
    if word == "open" || word == "chain" {
        let answer = open(board, word, numbers);
        let head = format!("{word}\t{a}\t{b}\t{c}\t{d}");
        return Some(outcome(&head, answer, &Board::BLANK, board, "blank"));
    }
    if word == "depth" {
        return Some(format!("{word}\t{a}\t{}\n", depth(board, cut(a))));
    }
    if edit(board, word, numbers).is_some() {
        let sound = if board.is_sound() { "sound" } else { "unsound" };
        let (depth, finished) = (depth(board, 0), finished(board));
        let answer = board.clone().step_checked(Step::tick(0));
        return Some(format!(
            "{word}\t{a}\t{b}\t{c}\t{d}\t{sound}\t{answer}\t{depth}\t{finished}\n"
        ));
    }
    let before = board.clone();
    if word == "begin" {
        let answer = board.begin();
        return Some(outcome(word, answer, &before, board, "kept"));
    }
    if word == "visit" {
        let (finding, answer) = match board.visit(cut(a)) {
            Ok(Finding::NoVerdictYet) => ("no verdict yet", ACCEPTED),
            Ok(Finding::Quiet) => ("quiet", ACCEPTED),
            Ok(Finding::Unsettled) => ("unsettled", ACCEPTED),
            Err(refusal) => ("refused", refusal),
        };
        let head = format!("{word}\t{a}\t{finding}");
        return Some(outcome(&head, answer, &before, board, "kept"));
    }
    let step = Step {
        kind: kind(word)?,
        unit: cut(a),
        other: cut(b),
        slot: cut(c),
    };
    let head = format!("{}\t{a}\t{b}\t{c}", kind_word(step.kind));
    let answer = board.step_checked(step);
    Some(outcome(&head, answer, &before, board, "kept"))
}

fn open(board: &mut Board, word: &str, [m, d, count, last]: [u64; 4]) -> u16 {
    let count = count.min(PARENTS) as u16;
    let parents: Vec<u16> = match word {
        "chain" => (0..count).collect(),
        _ => (1..=count)
            .map(|unit| if unit == count { cut(last) } else { 0 })
            .collect(),
    };
    let (opened, answer) = Board::open(cut(m), cut(d), &parents);
    *board = opened;
    answer
}

/// Sets what an edit names; nothing where the board has no such entry. Gives
/// nothing where the word is no edit's.
fn edit(board: &mut Board, word: &str, numbers: [u64; 4]) -> Option<()> {
    let [a, b, c, d] = numbers;
    match word {
        "sizes" => (board.n, board.m, board.d) = (cut(a), cut(b), cut(c)),
        "parent" => {
            if let Some(parent) = entry(&mut board.parents, a) {
                *parent = cut(b);
            }
        }
        "debt" => board.debt = a,
        "counts" => {
            if let Some(created) = entry(&mut board.created, a) {
                *created = u32::try_from(b).unwrap_or(u32::MAX);
            }
            if let Some(processed) = entry(&mut board.processed, a) {
                *processed = c;
            }
        }
        "mark" => {
            if let Some(mark) = entry(&mut board.rounds.visited, a) {
                *mark = b != 0;
            }
        }
        "round" => {
            board.rounds.open = match a {
                0 => Round::None,
                1 => Round::One,
                _ => Round::Two,
            };
            (board.rounds.processed, board.rounds.created) = (b, c);
        }
        _ => {
            let (weight, work) = (board.weight(), board.work_under_way());
            match word.split_once(' ')? {
                (state, "unit") => {
                    let unit = Unit {
                        state: STATES
                            .into_iter()
                            .find(|&known| state_word(known) == state)?,
                        weight: b,
                        countdown: cut(c),
                        suspended: d != 0,
                    };
                    if let Some(place) = entry(&mut board.units, a) {
                        *place = unit;
                    }
                }
                (kind, "slot") => {
                    let slot = Slot {
                        kind: KINDS.into_iter().find(|&known| slot_word(known) == kind)?,
                        from: cut(b),
                        to: cut(c),
                        weight: d,
                    };
                    if let Some(place) = entry(&mut board.slots, a) {
                        *place = slot;
                    }
                }
                _ => return None,
            }
            // The changes may be below 0; the debt and the count wrap.
            let change = board.weight().wrapping_sub(weight);
            board.debt = board.debt.wrapping_add(change as u64);
            let change = board.work_under_way().wrapping_sub(work);
            board.created[0] = board.created[0].wrapping_add(change as u32);
        }
    }
    Some(())
}

fn entry<T>(entries: &mut [T], index: u64) -> Option<&mut T> {
    entries.get_mut(usize::try_from(index).ok()?)
}

/// A step's kind by its word or its number.
fn kind(word: &str) -> Option<u16> {
    let by_word = Step::KINDS
        .into_iter()
        .find(|&kind| kind_word(kind) == word);
    by_word.or_else(|| read_number(word).map(cut))
}

fn kind_word(kind: u16) -> String {
    if Step::KINDS.contains(&kind) {
        String::from_utf8_lossy(WORDS[usize::from(kind)]).into_owned()
    } else {
        kind.to_string()
    }
}

const STATES: [State; 3] = [State::Idle, State::Active, State::Waiting];

fn state_word(state: State) -> &'static str {
    match state {
        State::Idle => "idle",
        State::Active => "active",
        State::Waiting => "waiting",
    }
}

const KINDS: [Kind; 5] = [
    Kind::Empty,
    Kind::Work,
    Kind::Return,
    Kind::Request,
    Kind::Supply,
];

fn slot_word(kind: Kind) -> &'static str {
    match kind {
        Kind::Empty => "empty",
        Kind::Work => "work",
        Kind::Return => "return",
        Kind::Request => "request",
        Kind::Supply => "supply",
    }
}

/// An answer, the debt and finished after it, and how the board differs.
fn outcome(head: &str, answer: u16, before: &Board, after: &Board, same: &str) -> String {
    let (debt, finished) = (after.debt, finished(after));
    let told = format!("{head}\t{answer}\t{debt}\t{finished}");
    if before == after {
        format!("{told}\t{same}\n")
    } else {
        format!("{told}\n{}", differences(before, after))
    }
}

/// What stands in `after` where it differs, but for the debt.
fn differences(before: &Board, after: &Board) -> String {
    let mut lines = String::new();
    let mut line = |cells: std::fmt::Arguments| writeln!(lines, "\t{cells}").expect("a string");
    let (n, m, d) = (after.n, after.m, after.d);
    if (before.n, before.m, before.d) != (n, m, d) {
        line(format_args!("sizes\t{n}\t{m}\t{d}"));
    }
    for i in 0..UNITS {
        let parent = after.parents[i];
        if before.parents[i] != parent {
            line(format_args!("parent\t{i}\t{parent}"));
        }
    }
    for i in 0..UNITS {
        let unit = after.units[i];
        if before.units[i] != unit {
            let (state, weight, countdown) = (state_word(unit.state), unit.weight, unit.countdown);
            let free = if unit.suspended { "suspended" } else { "free" };
            line(format_args!(
                "unit\t{i}\t{state}\t{weight}\t{countdown}\t{free}"
            ));
        }
    }
    for i in 0..SLOTS {
        let slot = after.slots[i];
        if before.slots[i] != slot {
            let (kind, from, to, weight) = (slot_word(slot.kind), slot.from, slot.to, slot.weight);
            line(format_args!("slot\t{i}\t{kind}\t{from}\t{to}\t{weight}"));
        }
    }
    for i in 0..UNITS {
        let (created, processed) = (after.created[i], after.processed[i]);
        if (before.created[i], before.processed[i]) != (created, processed) {
            line(format_args!("counts\t{i}\t{created}\t{processed}"));
        }
    }
    for i in 0..UNITS {
        let visited = after.rounds.visited[i];
        if before.rounds.visited[i] != visited {
            line(format_args!("mark\t{i}\t{}", u8::from(visited)));
        }
    }
    let round = |board: &Board| {
        let (round, one, two) = (
            board.rounds.open,
            board.rounds.processed,
            board.rounds.created,
        );
        format!("{}\t{one}\t{two}", round_word(round))
    };
    if round(before) != round(after) {
        line(format_args!("round\t{}", round(after)));
    }
    lines
}

fn round_word(round: Round) -> &'static str {
    match round {
        Round::None => "none",
        Round::One => "one",
        Round::Two => "two",
    }
}

fn depth(board: &Board, unit: u16) -> String {
    match board.depth(unit) {
        Ok(depth) => format!("deep\t{depth}"),
        Err(refusal) => refusal.to_string(),
    }
}

fn finished(board: &Board) -> String {
    match board.finished() {
        Ok(true) => "finished".to_string(),
        Ok(false) => "working".to_string(),
        Err(refusal) => refusal.to_string(),
    }
}

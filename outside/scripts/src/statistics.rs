//! What a set of scripts has met on the reference board.

use crate::exchanges::exchanges;
use crate::reasons::{line_reasons, step_reasons, unpadded, LINE_PAIRS, STEP_PAIRS};
use reference::{
    is_padded, read_line, read_number, script_lines, walk, Board, Kind, Record, Slot, State, Step,
    Unit, FULL_WEIGHT, UNITS, WORDS,
};
use std::collections::BTreeMap;
use std::fmt;

/// Every number that a script can meet: as the refusal of its first line or
/// of the whole script, and as the answer of a later line.
pub const REACHABLE: ([u16; 9], [u16; 20]) = (
    [11, 12, 21, 22, 23, 24, 25, 26, 28],
    [
        0, 13, 14, 21, 22, 23, 24, 25, 28, 31, 32, 33, 34, 35, 37, 38, 39, 40, 41, 47,
    ],
);

/// What an accepted step can bring about, or a board can be seen in.
const EVENTS: [&str; 62] = [
    "start of unit 0",
    "start of another unit",
    "start after a finish",
    "send of 16,384 from 2^20 or more",
    "send from exactly 2^20",
    "send of 1,024 from 2,048 or more",
    "send of half a weight",
    "send that leaves weight 1",
    "send to itself",
    "send into the last empty slot",
    "request of unit 0",
    "request of another unit",
    "work to an idle unit",
    "work to an active unit",
    "work to a suspended unit",
    "work to a waiting unit, countdown above 0",
    "work to a waiting unit, countdown 0",
    "return to unit 0",
    "return to unit 0 while it is active",
    "return to another idle unit",
    "return to another active unit",
    "return to another suspended unit",
    "return to a waiting unit, d = 0",
    "return to a waiting unit, countdown d above 0",
    "return to a waiting unit, countdown 1 to d - 1",
    "return to a waiting unit, countdown 0 below d",
    "grant",
    "supply to unit 0",
    "supply to another unit",
    "supply to a unit above weight 1",
    "rest of unit 0",
    "rest of another unit",
    "tick to above 0",
    "tick to 0",
    "release with d = 0",
    "release after ticks",
    "release after a return, countdown below d",
    "release after a return, countdown 0 below d",
    "return to unit 0, its sender moved since",
    "return to another unit, its sender moved since",
    "return to a unit not less deep than its sender",
    "release to another parent than at first",
    "release after a move in its wait",
    "release with a return to another unit under way",
    "move of an idle unit",
    "move of an active unit",
    "move of a suspended unit",
    "move of a waiting unit, countdown above 0",
    "move of a waiting unit, countdown 0",
    "move under the same parent",
    "move up, to a lesser depth",
    "move down, to a greater depth",
    "move to the same depth under another parent",
    "move with units below it",
    "move to another parent, its return under way",
    "move to another parent, a return to it under way",
    "move on a finished board",
    "move on a quiet board that is not finished",
    "finish by a rest",
    "finish by a delivery",
    "two or more units suspended after a step",
    "debt of 2^26 or more after a step",
];

/// Why 47 refuses a move.
const NO_MOVES: [&str; 4] = [
    "47: unit 0",
    "47: p is the unit itself",
    "47: p above the unit, on the board",
    "47: p not on the board",
];

/// Forms that a line can have, counted in first lines and in later ones. The
/// padded numbers are those of lines that are refused by 28, and a field that
/// is no number is not padded.
const FORMS: [&str; 15] = [
    "accepted line with the number 0",
    "line of 255 bytes",
    "line of 255 bytes, padded number",
    "line of 256 bytes",
    "padded number, the first of several",
    "padded number, between others",
    "padded number, the last of several",
    "padded number above 65,535",
    "padded number, a field behind it is no number",
    "padded number, a field before it is no number",
    "field of 0 and what is no digit, refused by 24",
    "line with a carriage return at its end",
    "line with a byte above 127",
    "line with the number 65535",
    "line with the number 65536",
];

pub struct Statistics {
    pub scripts: u64,
    pub bytes: u64,
    /// Lines after the first of scripts with an accepted first line.
    pub lines: u64,
    /// Those of them that are empty. A few scripts are full of them.
    pub empty_lines: u64,
    /// By the refusal of the first line or of the script, 0 if accepted.
    pub openings: [u64; 64],
    /// Of later lines, by answer, and by word: unknown words last.
    pub answers: [[u64; 64]; WORDS.len() + 1],
    events: [u64; EVENTS.len()],
    no_moves: [u64; NO_MOVES.len()],
    /// Later lines refused by 22 whose word has move in it.
    near_moves: u64,
    /// Of first lines, and of later ones.
    forms: [[u64; FORMS.len()]; 2],
    /// Later lines refused by 28 whose step would else be accepted.
    padded_alone: u64,
    /// Scripts with an accepted first line and no byte 10 at their end.
    not_ended: u64,
    /// By step's kind, answer and a further reason to refuse the step.
    pairs: BTreeMap<(u16, u16, u16), u64>,
    /// The same for lines, by whether the line is the first.
    line_pairs: BTreeMap<(bool, u16, u16), u64>,
    /// Scripts with neighbouring lines that may be exchanged.
    exchange_scripts: u64,
    /// Such neighbours by their kinds, the lower first, and those of them in which
    /// a send's v or a move's p is a unit that the other step touches (M-107).
    exchanges: BTreeMap<(u16, u16), (u64, u64)>,
    /// By length, as the bounds say.
    lengths: [u64; LENGTHS.len()],
    /// By n, M and d: see `fmt`.
    sizes: [[u64; 6]; 3],
    /// Finishes in one script, the most.
    most_finishes: u64,
    largest_debt: u64,
}

impl Default for Statistics {
    fn default() -> Statistics {
        Statistics {
            scripts: 0,
            bytes: 0,
            lines: 0,
            empty_lines: 0,
            openings: [0; 64],
            answers: [[0; 64]; WORDS.len() + 1],
            events: [0; EVENTS.len()],
            no_moves: [0; NO_MOVES.len()],
            near_moves: 0,
            forms: [[0; FORMS.len()]; 2],
            padded_alone: 0,
            not_ended: 0,
            pairs: BTreeMap::new(),
            line_pairs: BTreeMap::new(),
            exchange_scripts: 0,
            exchanges: BTreeMap::new(),
            lengths: [0; LENGTHS.len()],
            sizes: [[0; 6]; 3],
            most_finishes: 0,
            largest_debt: 0,
        }
    }
}

const LENGTH_BOUNDS: [usize; 9] = [0, 100, 400, 1_500, 8_000, 65_533, 65_534, 65_535, 65_536];
const LENGTHS: [&str; 10] = [
    "0",
    "1-100",
    "101-400",
    "401-1500",
    "1501-8000",
    "8001-65533",
    "65534",
    "65535",
    "65536",
    "above",
];
const SIZE_BOUNDS: [[usize; 5]; 3] = [[1, 5, 16, 32, 63], [1, 4, 16, 64, 255], [0, 1, 4, 20, 254]];

/// What came before in a script and its board does not tell.
struct Past {
    finishes: u64,
    /// The parents at first.
    parents: [u16; UNITS],
    /// By unit: whether it got another parent in its present wait.
    moved: [bool; UNITS],
    /// By unit: the countdown at which the last return of its present wait was
    /// delivered to it, if one was. Below d, a restart would have held up the
    /// release (M-104).
    returns: [Option<u16>; UNITS],
}

impl Past {
    const NONE: Past = Past {
        finishes: 0,
        parents: [0; UNITS],
        moved: [false; UNITS],
        returns: [None; UNITS],
    };

    /// Takes in an accepted step.
    fn add(&mut self, step: Step, before: &Board, after: &Board) {
        self.finishes += u64::from(after.debt == 0);
        if step.kind == Step::DELIVER {
            let message = before.slots[usize::from(step.slot)];
            let to = usize::from(message.to);
            if message.kind == Kind::Return && before.units[to].state == State::Waiting {
                self.returns[to] = Some(before.units[to].countdown);
            }
        }
        // A wait ends with a release or with work.
        for u in 0..UNITS {
            self.moved[u] |= before.parents[u] != after.parents[u];
            if after.units[u].state != State::Waiting {
                (self.returns[u], self.moved[u]) = (None, false);
            }
        }
    }
}

/// The kinds of two lines that may be exchanged: all but a start, which always
/// changes the debt.
fn exchange_kinds() -> impl Iterator<Item = (u16, u16)> {
    let from = |first| (first..=Step::MOVE).map(move |second| (first, second));
    (Step::SEND..=Step::MOVE).flat_map(from)
}

/// How far a unit is from unit 0. The board is sound.
fn depth(board: &Board, mut unit: u16) -> u16 {
    let mut depth = 0;
    while unit != 0 {
        unit = board.parents[usize::from(unit)];
        depth += 1;
    }
    depth
}

/// No unit is active and no work under way, as where a drain begins.
fn is_quiet(board: &Board) -> bool {
    let active = |unit: &Unit| unit.state == State::Active;
    !board.units.iter().any(active) && board.work_under_way() == 0
}

/// Whether a return from a unit to one of these is under way.
fn return_under_way(board: &Board, from: u16, to: impl Fn(u16) -> bool) -> bool {
    let slots = board.slots.iter();
    let mut returns = slots.filter(|slot| slot.kind == Kind::Return);
    returns.any(|slot| slot.from == from && to(slot.to))
}

fn kind_words((first, second): (u16, u16)) -> [String; 2] {
    [first, second].map(|kind| String::from_utf8_lossy(WORDS[usize::from(kind)]).into_owned())
}

fn class(bounds: &[usize], value: usize) -> usize {
    bounds.iter().filter(|&&bound| bound < value).count()
}

impl Statistics {
    /// Counts one more script.
    pub fn add(&mut self, script: &[u8]) {
        self.scripts += 1;
        self.bytes += script.len() as u64;
        self.lengths[class(&LENGTH_BOUNDS, script.len())] += 1;
        let mut before = Board::BLANK;
        let mut past = Past::NONE;
        let outcome = walk(script, |number, line, answer, board| {
            self.see_form(line, number == 0, answer);
            if number == 0 {
                let sizes = [board.n, board.m, board.d];
                for (place, size) in sizes.into_iter().enumerate() {
                    self.sizes[place][class(&SIZE_BOUNDS[place], size.into())] += 1;
                }
                before = board.clone();
                past.parents = board.parents;
                return;
            }
            self.lines += 1;
            self.empty_lines += u64::from(line.is_empty());
            let word = line.split(|&byte| byte == b'\t').next();
            let word = word.unwrap_or_default();
            let near_move = answer == 22 && word.windows(4).any(|part| part == b"move");
            self.near_moves += u64::from(near_move);
            let word = WORDS.iter().position(|known| *known == word);
            self.answers[word.unwrap_or(WORDS.len())][usize::from(answer)] += 1;
            if let Ok(Record::Step(step)) = read_line(line, false) {
                if answer == 0 {
                    self.see(step, &before, board, &past);
                    past.add(step, &before, board);
                } else {
                    self.see_refused(step, &before, answer);
                }
            } else {
                self.see_refused_line(line, false, answer);
            }
            if answer == 28 {
                self.see_padded(line, &before);
            }
            if answer != 0 {
                return;
            }
            self.largest_debt = self.largest_debt.max(board.debt);
            before = board.clone();
        });
        let refusal = outcome.err().unwrap_or(0);
        match (refusal, script_lines(script).next()) {
            (0, _) => self.not_ended += u64::from(!script.ends_with(b"\n")),
            (26, _) | (_, None) => (),
            (_, Some(line)) => {
                self.see_form(line, true, refusal);
                self.see_refused_line(line, true, refusal);
            }
        }
        self.openings[usize::from(refusal)] += 1;
        self.see_exchanges(script);
        self.most_finishes = self.most_finishes.max(past.finishes);
    }

    fn see_form(&mut self, line: &[u8], first: bool, answer: u16) {
        let fields: Vec<&[u8]> = line.split(|&byte| byte == b'\t').skip(1).collect();
        let has = |number: &[u8]| fields.contains(&number);
        let zeros = fields
            .iter()
            .any(|field| field.len() > 1 && field[0] == b'0');
        let refused = answer == 28;
        let counts = |field: &&[u8]| refused && is_padded(field);
        let padded: Vec<bool> = fields.iter().map(counts).collect();
        let none = |place: usize| !padded[place] && read_number(fields[place]).is_err();
        // Where the first and the last padded number stand, if there are any.
        let count = fields.len();
        let from = padded.iter().position(|&padded| padded).unwrap_or(count);
        let to = padded.iter().rposition(|&padded| padded).unwrap_or(0);
        let seen = [
            answer == 0 && has(b"0"),
            line.len() == 255,
            line.len() == 255 && refused,
            line.len() == 256,
            count > 1 && padded[0],
            count > 2 && padded[1..count - 1].contains(&true),
            count > 1 && padded[count - 1],
            (0..count).any(|place| padded[place] && read_number(fields[place]).is_err()),
            (from..count).any(none),
            (0..to).any(none),
            answer == 24 && zeros,
            line.last() == Some(&b'\r'),
            !line.is_ascii(),
            has(b"65535"),
            has(b"65536"),
        ];
        for (count, seen) in self.forms[usize::from(!first)].iter_mut().zip(seen) {
            *count += u64::from(seen);
        }
    }

    fn see_exchanges(&mut self, script: &[u8]) {
        let found = exchanges(script);
        self.exchange_scripts += u64::from(!found.is_empty());
        for exchange in found {
            let (first, second) = (exchange.first.kind, exchange.second.kind);
            let kinds = (first.min(second), first.max(second));
            let (all, through_other) = self.exchanges.entry(kinds).or_default();
            *all += 1;
            *through_other += u64::from(exchange.through_other);
        }
    }

    /// Counts what a later line's padded number hides: that its step would be
    /// accepted, or what would refuse it.
    fn see_padded(&mut self, line: &[u8], board: &Board) {
        let Ok(Record::Step(step)) = read_line(&unpadded(line), false) else {
            return;
        };
        let reasons = step_reasons(board, step);
        self.padded_alone += u64::from(reasons.is_empty());
        for also in reasons {
            *self.pairs.entry((step.kind, 28, also)).or_default() += 1;
        }
    }

    /// Counts what an accepted step did.
    fn see(&mut self, step: Step, before: &Board, after: &Board, past: &Past) {
        let mut met = |event: &str, happened: bool| {
            let place = EVENTS.iter().position(|known| *known == event);
            self.events[place.expect(event)] += u64::from(happened);
        };
        let unit = before.units[usize::from(step.unit)];
        let root = step.unit == 0;
        match step.kind {
            Step::START => {
                met("start of unit 0", root);
                met("start of another unit", !root);
                met("start after a finish", past.finishes > 0);
            }
            Step::SEND => {
                let left = after.units[usize::from(step.unit)].weight;
                let in_use = &after.slots[..usize::from(after.m)];
                let large = unit.weight >= 1 << 20;
                let half = unit.weight < 2048;
                met("send of 16,384 from 2^20 or more", large);
                met("send from exactly 2^20", unit.weight == 1 << 20);
                met("send of 1,024 from 2,048 or more", !large && !half);
                met("send of half a weight", half);
                met("send that leaves weight 1", left == 1);
                met("send to itself", step.unit == step.other);
                met(
                    "send into the last empty slot",
                    in_use.iter().all(|slot| slot.kind != Kind::Empty),
                );
            }
            Step::REQUEST => {
                met("request of unit 0", root);
                met("request of another unit", !root);
            }
            Step::DELIVER => {
                let message: Slot = before.slots[usize::from(step.slot)];
                let to = before.units[usize::from(message.to)];
                let to_root = message.to == 0;
                let parent = before.parents[usize::from(message.from)];
                let moved = message.kind == Kind::Return && message.to != parent;
                met("return to unit 0, its sender moved since", moved && to_root);
                met(
                    "return to another unit, its sender moved since",
                    moved && !to_root,
                );
                met(
                    "return to a unit not less deep than its sender",
                    moved && depth(before, message.to) >= depth(before, message.from),
                );
                let active = to.state == State::Active && !to.suspended;
                let waiting = to.state == State::Waiting;
                let idle = to.state == State::Idle;
                match message.kind {
                    Kind::Work => {
                        met("work to an idle unit", idle);
                        met("work to an active unit", active);
                        met("work to a suspended unit", to.suspended);
                        met(
                            "work to a waiting unit, countdown above 0",
                            waiting && to.countdown > 0,
                        );
                        met(
                            "work to a waiting unit, countdown 0",
                            waiting && to.countdown == 0,
                        );
                    }
                    Kind::Return if to_root => {
                        met("return to unit 0", true);
                        met("return to unit 0 while it is active", !idle);
                    }
                    Kind::Return => {
                        met("return to another idle unit", idle);
                        met("return to another active unit", active);
                        met("return to another suspended unit", to.suspended);
                        let (countdown, d) = (to.countdown, before.d);
                        met("return to a waiting unit, d = 0", waiting && d == 0);
                        met(
                            "return to a waiting unit, countdown d above 0",
                            waiting && countdown == d && d > 0,
                        );
                        met(
                            "return to a waiting unit, countdown 1 to d - 1",
                            waiting && (1..d).contains(&countdown),
                        );
                        met(
                            "return to a waiting unit, countdown 0 below d",
                            waiting && countdown == 0 && d > 0,
                        );
                    }
                    Kind::Request => met("grant", true),
                    Kind::Supply => {
                        met("supply to unit 0", to_root);
                        met("supply to another unit", !to_root);
                        met("supply to a unit above weight 1", to.weight > 1);
                    }
                    Kind::Empty => unreachable!("an empty slot is not delivered"),
                }
                met("finish by a delivery", after.debt == 0);
            }
            Step::REST => {
                met("rest of unit 0", root);
                met("rest of another unit", !root);
                met("finish by a rest", after.debt == 0);
            }
            Step::TICK => {
                met("tick to above 0", unit.countdown > 1);
                met("tick to 0", unit.countdown == 1);
            }
            Step::RELEASE => {
                let u = usize::from(step.unit);
                let parent = before.parents[u];
                met(
                    "release to another parent than at first",
                    parent != past.parents[u],
                );
                met("release after a move in its wait", past.moved[u]);
                met(
                    "release with a return to another unit under way",
                    return_under_way(before, step.unit, |to| to != parent),
                );
                met("release with d = 0", before.d == 0);
                met("release after ticks", before.d > 0);
                let last_return = past.returns[usize::from(step.unit)];
                let below = last_return.filter(|&countdown| countdown < before.d);
                met("release after a return, countdown below d", below.is_some());
                met(
                    "release after a return, countdown 0 below d",
                    below == Some(0),
                );
            }
            _ => {
                let waiting = unit.state == State::Waiting;
                let other = before.parents != after.parents;
                met("move of an idle unit", unit.state == State::Idle);
                met(
                    "move of an active unit",
                    unit.state == State::Active && !unit.suspended,
                );
                met("move of a suspended unit", unit.suspended);
                met(
                    "move of a waiting unit, countdown above 0",
                    waiting && unit.countdown > 0,
                );
                met(
                    "move of a waiting unit, countdown 0",
                    waiting && unit.countdown == 0,
                );
                met("move under the same parent", !other);
                let (from, to) = (depth(before, step.unit), depth(after, step.unit));
                met("move up, to a lesser depth", to < from);
                met("move down, to a greater depth", to > from);
                met(
                    "move to the same depth under another parent",
                    other && to == from,
                );
                met(
                    "move with units below it",
                    other && before.parents.contains(&step.unit),
                );
                met(
                    "move to another parent, its return under way",
                    other && return_under_way(before, step.unit, |_| true),
                );
                let to_it = |slot: &Slot| slot.kind == Kind::Return && slot.to == step.unit;
                met(
                    "move to another parent, a return to it under way",
                    other && before.slots.iter().any(to_it),
                );
                met("move on a finished board", before.debt == 0);
                met(
                    "move on a quiet board that is not finished",
                    before.debt > 0 && is_quiet(before),
                );
            }
        }
        let suspended = after.units.iter().filter(|unit| unit.suspended).count();
        met("two or more units suspended after a step", suspended > 1);
        met(
            "debt of 2^26 or more after a step",
            after.debt >= 4 * FULL_WEIGHT,
        );
    }

    /// Counts what else would have refused a refused step.
    fn see_refused(&mut self, step: Step, board: &Board, answer: u16) {
        let reasons = step_reasons(board, step);
        assert!(reasons.contains(&answer), "{step:?} answered {answer}");
        if answer == 47 {
            let cause = match (step.unit, step.other) {
                (0, _) => 0,
                (unit, parent) if parent == unit => 1,
                (_, parent) if parent < board.n => 2,
                _ => 3,
            };
            self.no_moves[cause] += 1;
        }
        for also in reasons {
            if also != answer {
                *self.pairs.entry((step.kind, answer, also)).or_default() += 1;
            }
        }
    }

    /// Counts what else would have refused a refused line.
    fn see_refused_line(&mut self, line: &[u8], first: bool, answer: u16) {
        let reasons = line_reasons(line, first);
        assert!(reasons.contains(&answer), "{line:?} answered {answer}");
        for also in reasons {
            if also != answer {
                *self.line_pairs.entry((first, answer, also)).or_default() += 1;
            }
        }
    }

    /// How often an answer was given to later lines.
    pub fn answered(&self, answer: u16) -> u64 {
        self.answers
            .iter()
            .map(|row| row[usize::from(answer)])
            .sum()
    }

    /// The accepted lines of a hundred later lines that are not empty.
    pub fn accepted_share(&self) -> f64 {
        let whole = self.lines - self.empty_lines;
        100.0 * self.answered(0) as f64 / whole.max(1) as f64
    }

    /// Neighbouring lines that may be exchanged.
    pub fn exchanges(&self) -> u64 {
        self.exchanges.values().map(|(all, _)| all).sum()
    }

    /// What a script can meet and these did not.
    pub fn missing(&self) -> Vec<String> {
        let mut missing = vec![];
        for number in REACHABLE.0 {
            if self.openings[usize::from(number)] == 0 {
                missing.push(format!("refusal {number} of a first line or script"));
            }
        }
        for number in REACHABLE.1 {
            if self.answered(number) == 0 {
                missing.push(format!("answer {number}"));
            }
        }
        for (name, count) in LENGTHS.iter().zip(self.lengths) {
            if count == 0 {
                missing.push(format!("script of {name} bytes"));
            }
        }
        let [first, later] = &self.forms;
        for (name, &count) in FORMS.iter().zip(first) {
            if count == 0 {
                missing.push(format!("first line: {name}"));
            }
        }
        let events = EVENTS.iter().zip(&self.events);
        let others = [
            (&"padded line of a step to accept", &self.padded_alone),
            (&"script without a last byte 10", &self.not_ended),
            (&"word with move in it, refused by 22", &self.near_moves),
        ];
        let no_moves = NO_MOVES.iter().zip(&self.no_moves);
        let later = FORMS.iter().zip(later).chain(others);
        for (name, &count) in events.chain(no_moves).chain(later) {
            if count == 0 {
                missing.push(name.to_string());
            }
        }
        for pair in STEP_PAIRS {
            if !self.pairs.contains_key(&pair) {
                let (kind, answer, also) = pair;
                let word = String::from_utf8_lossy(WORDS[usize::from(kind)]);
                missing.push(format!("{word}: {answer} before {also}"));
            }
        }
        for pair in LINE_PAIRS {
            if !self.line_pairs.contains_key(&pair) {
                let (first, answer, also) = pair;
                let place = if first { "first" } else { "later" };
                missing.push(format!("{place} line: {answer} before {also}"));
            }
        }
        for (word, row) in WORDS.iter().zip(&self.answers).skip(1) {
            // Accepted, and refused by the reader.
            for answer in [0, 21, 23, 24, 28] {
                if row[answer] == 0 {
                    let word = String::from_utf8_lossy(word);
                    missing.push(format!("{word} answered {answer}"));
                }
            }
        }
        for kinds in exchange_kinds() {
            if !self.exchanges.contains_key(&kinds) {
                let [first, second] = kind_words(kinds);
                missing.push(format!("{first} and {second} that may be exchanged"));
            }
        }
        missing
    }
}

impl fmt::Display for Statistics {
    fn fmt(&self, f: &mut fmt::Formatter) -> fmt::Result {
        let share = |part: u64, whole: u64| 100.0 * part as f64 / whole.max(1) as f64;
        let (scripts, bytes, lines) = (self.scripts, self.bytes, self.lines);
        writeln!(f, "{scripts} scripts, {bytes} bytes")?;
        writeln!(f, "lengths of scripts:")?;
        for (name, count) in LENGTHS.iter().zip(self.lengths) {
            writeln!(
                f,
                "  {name:<12}{count:>10}  {:6.2} %",
                share(count, scripts)
            )?;
        }
        writeln!(
            f,
            "first line, or the whole script, by refusal (0: accepted):"
        )?;
        for (number, &count) in self.openings.iter().enumerate() {
            if count > 0 {
                writeln!(
                    f,
                    "  {number:<12}{count:>10}  {:6.2} %",
                    share(count, scripts)
                )?;
            }
        }
        let size_names = [
            ("n", ["1", "2-5", "6-16", "17-32", "33-63", "64"]),
            ("M", ["1", "2-4", "5-16", "17-64", "65-255", "256"]),
            ("d", ["0", "1", "2-4", "5-20", "21-254", "255"]),
        ];
        writeln!(f, "accepted boards:")?;
        for ((size, names), counts) in size_names.iter().zip(self.sizes) {
            write!(f, "  {size}:")?;
            for (name, count) in names.iter().zip(counts) {
                write!(f, "  {name}: {count}")?;
            }
            writeln!(f)?;
        }

        let accepted = self.accepted_share();
        let empty = self.empty_lines;
        writeln!(f, "{lines} later lines, {empty} of them empty")?;
        writeln!(f, "accepted of those that are not empty: {accepted:.2} %")?;
        write!(f, "  answer")?;
        for word in WORDS {
            write!(f, "{:>10}", String::from_utf8_lossy(word))?;
        }
        writeln!(f, "{:>10}{:>11}", "no word", "all")?;
        for number in 0..64 {
            let all = self.answered(number);
            if all > 0 {
                write!(f, "  {number:>6}")?;
                for row in &self.answers {
                    write!(f, "{:>10}", row[usize::from(number)])?;
                }
                writeln!(f, "{all:>11}")?;
            }
        }
        writeln!(f, "accepted steps, by what they did:")?;
        for (event, count) in EVENTS.iter().zip(self.events) {
            writeln!(f, "  {event:<48}{count:>10}")?;
        }
        writeln!(f, "refused moves, by their cause:")?;
        for (cause, count) in NO_MOVES.iter().zip(self.no_moves) {
            writeln!(f, "  {cause:<48}{count:>10}")?;
        }
        let near = self.near_moves;
        writeln!(f, "words with move in them, refused by 22: {near}")?;
        writeln!(f, "forms of later lines and of first lines:")?;
        let [first, later] = self.forms;
        for ((form, first), later) in FORMS.iter().zip(first).zip(later) {
            writeln!(f, "  {form:<48}{later:>10}{first:>10}")?;
        }
        let alone = self.padded_alone;
        writeln!(f, "padded lines of steps that would be accepted: {alone}")?;
        let not_ended = self.not_ended;
        writeln!(f, "scripts without a last byte 10: {not_ended}")?;
        writeln!(f, "refused steps with a further reason to refuse them:")?;
        for (&(kind, answer, also), count) in &self.pairs {
            let word = String::from_utf8_lossy(WORDS[usize::from(kind)]);
            writeln!(f, "  {word:<10}{answer} before {also}{count:>10}")?;
        }
        writeln!(f, "refused lines with a further reason to refuse them:")?;
        for (&(first, answer, also), count) in &self.line_pairs {
            let place = if first { "first" } else { "later" };
            writeln!(f, "  {place:<10}{answer} before {also}{count:>10}")?;
        }
        let (exchanges, scripts) = (self.exchanges(), self.exchange_scripts);
        writeln!(
            f,
            "{exchanges} neighbouring lines that may be exchanged, in {scripts} scripts,"
        )?;
        writeln!(
            f,
            "and those where the other step touches a send's v or a move's p:"
        )?;
        for (&kinds, (all, through_other)) in &self.exchanges {
            let [first, second] = kind_words(kinds);
            writeln!(f, "  {first:<10}{second:<10}{all:>10}{through_other:>10}")?;
        }
        writeln!(f, "most finishes in one script: {}", self.most_finishes)?;
        writeln!(f, "largest debt: {}", self.largest_debt)?;
        writeln!(f, "never met, as it needs 65,536 grants: 36")?;
        match self.missing()[..] {
            [] => writeln!(f, "everything else that a script can meet was met"),
            ref missing => writeln!(f, "MISSING: {}", missing.join("; ")),
        }
    }
}

//! The longest drain of a board (M-109): its length, one list of that length,
//! and what a program is to tell for a file of boards.
//!
//! The length is the sum that the request gives. The list is found by taking its
//! steps, one by one, on a copy of the board, and knows nothing of that sum.

use crate::board::{Board, Kind, State, DELAY_LIMIT};
use crate::listing::walk;
use crate::refusal::*;
use crate::script::write_step;
use crate::step::Step;

/// The most steps of a drain that is handed back by value.
pub const SHORT: usize = 512;

/// A drain by value: its steps stand first, and the others are all 0.
#[derive(Clone, Debug, PartialEq, Eq)]
pub struct ShortDrain {
    pub steps: [Step; SHORT],
    pub length: usize,
}

impl Board {
    /// The number of steps of the longest drain. [30, 48, 49]
    pub fn longest_length(&self) -> Result<usize, Refusal> {
        self.drained_through()?;
        // What a unit costs that begins to wait: its ticks, a release, a delivery.
        let wait = usize::from(self.d) + 2;
        let depth = |unit: u16| usize::from(self.depth_of(usize::from(unit)));
        let mut length = 0;
        for (u, unit) in (0..).zip(&self.units) {
            if unit.state == State::Waiting {
                length += usize::from(unit.countdown) + 2 + wait * (depth(u) - 1);
            }
        }
        for slot in &self.slots {
            if slot.kind == Kind::Return {
                length += 1 + wait * depth(slot.to);
            }
        }
        Ok(length)
    }

    /// Writes one longest drain to the first entries of a list, leaves the others,
    /// and gives the number of its steps. A refused call leaves them all.
    /// [30, 48, 49, 50]
    pub fn write_longest(&self, list: &mut [Step]) -> Result<usize, Refusal> {
        let slot = self.drained_through()?;
        let room = self.longest_length()?;
        let list = list.get_mut(..room).ok_or(LIST_TOO_SHORT)?;
        list.copy_from_slice(&self.drained(slot));
        Ok(room)
    }

    /// The same drain by value. [30, 48, 49, 50]
    pub fn longest_short(&self) -> Result<ShortDrain, Refusal> {
        let mut steps = [Step::default(); SHORT];
        let length = self.write_longest(&mut steps)?;
        Ok(ShortDrain { steps, length })
    }

    /// The slot that serves all releases of the drain: the lowest that is free.
    /// [30, 48, 49]
    fn drained_through(&self) -> Result<u16, Refusal> {
        if !self.is_sound() {
            return Err(UNSOUND);
        }
        if self.is_busy() {
            return Err(BUSY);
        }
        let free = |slot: &u16| self.slots[usize::from(*slot)].kind == Kind::Empty;
        (0..self.m).find(free).ok_or(NO_FREE_SLOT)
    }

    /// A drain in which every weight goes its whole way to unit 0 alone: first that
    /// of the waiting units, in ascending order, for a unit's way leads over lower
    /// ones, which are idle by then; after them that of the returns.
    fn drained(&self, through: u16) -> Vec<Step> {
        let mut drain = Drain {
            board: self.clone(),
            through,
            steps: Vec::new(),
        };
        for unit in 0..self.n {
            if self.units[usize::from(unit)].state == State::Waiting {
                drain.go_home(unit);
            }
        }
        for s in 0..self.m {
            let slot = &self.slots[usize::from(s)];
            if slot.kind == Kind::Return {
                drain.take(Step::deliver(s));
                drain.go_home(slot.to);
            }
        }
        drain.steps
    }
}

/// A drain on its way: its steps so far and the board that they left.
struct Drain {
    board: Board,
    through: u16,
    steps: Vec<Step>,
}

impl Drain {
    fn take(&mut self, step: Step) {
        let answer = self.board.step(step);
        assert_eq!(answer, ACCEPTED, "a drain's steps are accepted: {step:?}");
        self.steps.push(step);
    }

    /// What a unit has goes to unit 0, by the unit's parent, the parent's, and so on:
    /// each of them waits until it may release.
    fn go_home(&mut self, mut unit: u16) {
        while unit != 0 {
            while self.board.units[usize::from(unit)].countdown > 0 {
                self.take(Step::tick(unit));
            }
            self.take(Step::release(unit, self.through));
            self.take(Step::deliver(self.through));
            unit = self.board.parents[usize::from(unit)];
        }
    }
}

/// What a program is to tell for a file of boards, or what is wrong with the file.
/// Its format stands at the top of `bin/cases.rs`.
pub fn tell_drains(blocks: &str) -> Result<String, String> {
    let mut told = String::new();
    let lines: Vec<&str> = blocks.split_terminator('\n').collect();
    for block in lines.split(|line| line.is_empty()) {
        let (title, script) = block.split_first().ok_or("a block without a title")?;
        told += &format!("{title}\n{}\n", tell_board(&script.join("\n")));
    }
    Ok(told)
}

/// What is told of the board that a script comes to.
fn tell_board(script: &str) -> String {
    let mut board = Board::BLANK;
    if let Err(refusal) = walk(script.as_bytes(), |_, _, _, after| board.clone_from(after)) {
        return refused(refusal);
    }
    let length = match board.longest_length() {
        Ok(length) => format!("length\t{length}\n"),
        Err(refusal) => refused(refusal),
    };
    let list = match board.longest_short() {
        Ok(drain) => {
            let steps = drain.steps[..drain.length].iter().map(line_of);
            format!("list\t{}\n{}", drain.length, steps.collect::<String>())
        }
        Err(refusal) => refused(refusal),
    };
    board.d = DELAY_LIMIT + 1;
    let damaged = board.longest_length().err().unwrap_or(ACCEPTED);
    format!("{length}damaged\t{damaged}\n{list}")
}

fn refused(refusal: Refusal) -> String {
    format!("refused\t{refusal}\n")
}

/// A step as a line of a script.
fn line_of(step: &Step) -> String {
    let mut line = [0; 32];
    let length = write_step(*step, &mut line, 0).expect("a step's line has 23 bytes at most");
    String::from_utf8_lossy(&line[..length]).into_owned()
}

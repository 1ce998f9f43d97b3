//! Lists of steps, made from a seed, that leave a board quiet: no unit is active and
//! no work under way. There drains begin (M-108, M-109).

use crate::random::Random;
use reference::refusal::ACCEPTED;
use reference::{Board, Kind, State, Step};

/// A list of steps behind its opening. Some of them are refused.
pub struct QuietList {
    pub m: u16,
    pub d: u16,
    pub parents: Vec<u16>,
    pub steps: Vec<Step>,
}

impl QuietList {
    /// The list at `index` of the sequence that `seed` gives.
    pub fn new(seed: u64, index: u64) -> QuietList {
        let random = &mut Random::new(seed, index);
        let n = match random.below(20) {
            0 => 1,
            1..=12 => random.within(2, 5),
            13..=17 => random.within(6, 20),
            _ => random.within(21, 64),
        };
        let m = match random.below(20) {
            0..=2 => 1,
            3..=14 => random.within(2, 5),
            15..=18 => random.within(6, 30),
            _ => random.within(31, 256),
        } as u16;
        let d = match random.below(20) {
            0..=5 => 0,
            6..=16 => random.within(1, 4),
            17..=18 => random.within(5, 30),
            _ => random.within(31, 255),
        } as u16;
        let chain = random.chance(1, 2);
        let mut parent = |unit| if chain { unit - 1 } else { random.below(unit) };
        let parents: Vec<u16> = (1..n).map(|unit| parent(unit) as u16).collect();
        let mut walk = Walk {
            board: Board::open(m, d, &parents).0,
            steps: vec![],
            random,
        };
        walk.spread();
        walk.settle();
        walk.drain_a_while();
        QuietList {
            m,
            d,
            parents,
            steps: walk.steps,
        }
    }

    /// The board that the list leaves.
    pub fn board(&self) -> Board {
        let (mut board, answer) = Board::open(self.m, self.d, &self.parents);
        assert_eq!(answer, ACCEPTED);
        for &step in &self.steps {
            board.step(step);
        }
        board
    }
}

/// The steps that make a board quiet: work and supplies are delivered, requests are
/// granted, active units rest. Returns under way and units that wait stay.
pub fn settling(board: &Board) -> Vec<Step> {
    let mut board = board.clone();
    let mut steps = vec![];
    loop {
        let before = steps.len();
        let slots = (0..board.m).map(Step::deliver);
        for step in slots.chain((0..board.n).map(Step::rest)) {
            let kind = board.slots[usize::from(step.slot)].kind;
            if step.kind == Step::DELIVER && kind == Kind::Return {
                continue;
            }
            if board.step(step) == ACCEPTED {
                steps.push(step);
            }
        }
        if steps.len() == before {
            return steps;
        }
    }
}

struct Walk<'r> {
    random: &'r mut Random,
    board: Board,
    steps: Vec<Step>,
}

impl Walk<'_> {
    /// Takes a step; a refused one mostly does not come into the list.
    fn take(&mut self, step: Step) {
        if self.board.step(step) == ACCEPTED || self.random.chance(1, 20) {
            self.steps.push(step);
        }
    }

    fn unit(&mut self) -> u16 {
        self.random.below(usize::from(self.board.n)) as u16
    }

    /// A unit in this state, if there is one.
    fn unit_in(&mut self, state: State) -> Option<u16> {
        let is = |unit: &u16| self.board.units[usize::from(*unit)].state == state;
        let units: Vec<u16> = (0..self.board.n).filter(is).collect();
        (!units.is_empty()).then(|| self.random.pick(&units))
    }

    /// A slot that is empty, or that is not, if there is one.
    fn slot(&mut self, empty: bool) -> Option<u16> {
        let is = |slot: &u16| {
            let kind = self.board.slots[usize::from(*slot)].kind;
            (kind == Kind::Empty) == empty
        };
        let slots: Vec<u16> = (0..self.board.m).filter(is).collect();
        (!slots.is_empty()).then(|| self.random.pick(&slots))
    }

    /// Work goes to units, and many of them give their weight back at once, into slots
    /// that mostly stay filled.
    fn spread(&mut self) {
        let unit = self.unit();
        self.take(Step::start(unit));
        let most = if self.board.d > 30 { 12 } else { 300 };
        let most = most.min(4 * usize::from(self.board.m) + 6);
        for _ in 0..self.random.within(0, most) {
            match self.random.below(12) {
                0..=4 => self.give(),
                5..=8 => self.hand_back(State::Active),
                9 => self.move_any(),
                10 => self.deliver_any(),
                _ => {
                    let step = self.careless_step();
                    self.take(step);
                }
            }
        }
    }

    /// A unit sends work to another, which mostly arrives.
    fn give(&mut self) {
        if let (Some(unit), Some(slot)) = (self.unit_in(State::Active), self.slot(true)) {
            let other = self.unit();
            self.take(Step::send(unit, other, slot));
            if self.random.chance(9, 10) {
                self.take(Step::deliver(slot));
            }
        }
    }

    /// A unit in this state rests, waits for some of its delay or all of it, and then is
    /// released.
    fn hand_back(&mut self, state: State) {
        let Some(unit) = self.unit_in(state) else {
            return;
        };
        if state == State::Active {
            // The last one stays, or the sheet is soon complete.
            if self.random.chance(2, 3) {
                self.give();
            }
            self.take(Step::rest(unit));
        }
        let countdown = usize::from(self.board.units[usize::from(unit)].countdown);
        let ticks = match self.random.below(3) {
            0 => self.random.within(0, countdown),
            _ => countdown,
        };
        for _ in 0..ticks {
            self.take(Step::tick(unit));
        }
        if let (true, Some(slot)) = (ticks == countdown, self.slot(true)) {
            self.take(Step::release(unit, slot));
        }
    }

    fn move_any(&mut self) {
        let (unit, parent) = (self.unit(), self.unit());
        self.take(Step::move_under(unit.max(parent), unit.min(parent)));
    }

    fn deliver_any(&mut self) {
        if let Some(slot) = self.slot(false) {
            self.take(Step::deliver(slot));
        }
    }

    /// Any step of the board, most of them refused.
    fn careless_step(&mut self) -> Step {
        let m = usize::from(self.board.m);
        Step {
            kind: self.random.within(0, 9) as u16,
            unit: self.unit(),
            other: self.unit(),
            slot: self.random.within(0, m) as u16,
        }
    }

    fn settle(&mut self) {
        for step in settling(&self.board) {
            self.take(step);
        }
    }

    /// Some steps of a drain, and moves between them.
    fn drain_a_while(&mut self) {
        for _ in 0..self.random.below(12) {
            match self.random.below(4) {
                0 | 1 => self.hand_back(State::Waiting),
                2 => self.move_any(),
                _ => self.deliver_any(),
            }
        }
    }
}

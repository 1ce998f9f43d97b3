//! The eight steps, and the run over a list of them.

use crate::board::{Board, Kind, Slot, State, Unit, DEBT_LIMIT, FULL_WEIGHT};
use crate::refusal::*;
use crate::rounds::Rounds;
use std::ops::RangeInclusive;

/// A step record. Fields that its kind has no letter for are not read.
#[derive(Clone, Copy, Debug, Default, PartialEq, Eq)]
pub struct Step {
    pub kind: u16,
    pub unit: u16,
    pub other: u16,
    pub slot: u16,
}

impl Step {
    pub const START: u16 = 1;
    pub const SEND: u16 = 2;
    pub const REQUEST: u16 = 3;
    pub const DELIVER: u16 = 4;
    pub const REST: u16 = 5;
    pub const TICK: u16 = 6;
    pub const RELEASE: u16 = 7;
    pub const MOVE: u16 = 8;
    /// A kind outside them is refused by 16.
    pub const KINDS: RangeInclusive<u16> = Step::START..=Step::MOVE;

    const fn new(kind: u16, unit: u16, other: u16, slot: u16) -> Step {
        Step {
            kind,
            unit,
            other,
            slot,
        }
    }

    pub const fn start(unit: u16) -> Step {
        Step::new(Step::START, unit, 0, 0)
    }

    pub const fn send(unit: u16, other: u16, slot: u16) -> Step {
        Step::new(Step::SEND, unit, other, slot)
    }

    pub const fn request(unit: u16, slot: u16) -> Step {
        Step::new(Step::REQUEST, unit, 0, slot)
    }

    pub const fn deliver(slot: u16) -> Step {
        Step::new(Step::DELIVER, 0, 0, slot)
    }

    pub const fn rest(unit: u16) -> Step {
        Step::new(Step::REST, unit, 0, 0)
    }

    pub const fn tick(unit: u16) -> Step {
        Step::new(Step::TICK, unit, 0, 0)
    }

    pub const fn release(unit: u16, slot: u16) -> Step {
        Step::new(Step::RELEASE, unit, 0, slot)
    }

    pub const fn move_under(unit: u16, parent: u16) -> Step {
        Step::new(Step::MOVE, unit, parent, 0)
    }
}

/// The part of a weight that a send gives away: the scope document's share,
/// but for weights from 2^20 on, which give 2^14 (M-100). [33]
pub fn share(weight: u64) -> Result<u64, Refusal> {
    match weight {
        0 | 1 => Err(WEIGHT_ONE),
        2..=2047 => Ok(weight / 2),
        2048..=1_048_575 => Ok(1024),
        1_048_576.. => Ok(16_384),
    }
}

impl Board {
    /// One step with its soundness test. [30, 16, then the step's own]
    pub fn step_checked(&mut self, step: Step) -> u16 {
        if self.is_sound() {
            self.step(step)
        } else {
            UNSOUND
        }
    }

    /// One step on a board that is known to be sound, as is every board that
    /// accepted openings and steps lead to. [16, then the step's own]
    pub fn step(&mut self, step: Step) -> u16 {
        let outcome = match step.kind {
            Step::START => self.start(step.unit),
            Step::SEND => self.send(step.unit, step.other, step.slot),
            Step::REQUEST => self.request(step.unit, step.slot),
            Step::DELIVER => self.deliver(step.slot),
            Step::REST => self.rest(step.unit),
            Step::TICK => self.tick(step.unit),
            Step::RELEASE => self.release(step.unit, step.slot),
            Step::MOVE => self.move_under(step.unit, step.other),
            _ => Err(NO_SUCH_KIND),
        };
        match outcome {
            Ok(()) => ACCEPTED,
            Err(refusal) => refusal,
        }
    }

    /// Runs a list of steps, past refusals, and gives the number of accepted
    /// ones. A step keeps a sound board sound, so one test serves all.
    /// [30, 15]
    pub fn run(&mut self, steps: &[Step], answers: &mut [u16]) -> Result<usize, Refusal> {
        if !self.is_sound() {
            return Err(UNSOUND);
        }
        if answers.len() < steps.len() {
            return Err(ANSWERS_TOO_SHORT);
        }
        let mut accepted = 0;
        for (step, answer) in steps.iter().zip(answers) {
            *answer = self.step(*step);
            if *answer == ACCEPTED {
                accepted += 1;
            }
        }
        Ok(accepted)
    }

    // Each step makes all its checks, in the order of the scope document, for a
    // send in that of M-103, before it changes anything: a refused step leaves the
    // board as it was. A created count that is full comes last (M-105). A processed
    // count has no such check: soundness holds it below 2^38.

    /// A start drops the rounds, without a verdict. [13, 37, 44]
    fn start(&mut self, u: u16) -> Result<(), Refusal> {
        let u = self.unit_index(u)?;
        if self.debt > 0 {
            return Err(DEBT_ABOVE_ZERO);
        }
        self.created[u] = self.one_more_created(u)?;
        self.processed[u] += 1;
        self.rounds = Rounds::BLANK;
        self.units[u].state = State::Active;
        self.units[u].weight = FULL_WEIGHT;
        self.debt = FULL_WEIGHT;
        Ok(())
    }

    /// The scope document has 34 before 33; where both hold, 33 is now the
    /// answer (M-103). [13 for u or v, 14, 31, 32, 33, 34, 44]
    fn send(&mut self, u: u16, v: u16, s: u16) -> Result<(), Refusal> {
        let unit = self.unit_index(u)?;
        self.unit_index(v)?;
        let slot = self.slot_index(s)?;
        self.must_be_ready(unit)?;
        let given = share(self.units[unit].weight)?;
        self.must_be_empty(slot)?;
        self.created[unit] = self.one_more_created(unit)?;
        self.units[unit].weight -= given;
        self.slots[slot] = Slot {
            kind: Kind::Work,
            from: u,
            to: v,
            weight: given,
        };
        Ok(())
    }

    /// [13, 14, 31, 32, 41, 34]
    fn request(&mut self, u: u16, s: u16) -> Result<(), Refusal> {
        let unit = self.unit_index(u)?;
        let slot = self.slot_index(s)?;
        self.must_be_ready(unit)?;
        if self.units[unit].weight > 1 {
            return Err(WEIGHT_ABOVE_ONE);
        }
        self.must_be_empty(slot)?;
        self.units[unit].suspended = true;
        self.slots[slot] = Slot {
            kind: Kind::Request,
            from: u,
            to: 0,
            weight: 0,
        };
        Ok(())
    }

    /// [14, 35, 36]
    fn deliver(&mut self, s: u16) -> Result<(), Refusal> {
        let slot = self.slot_index(s)?;
        let message = self.slots[slot];
        let receiver = &mut self.units[usize::from(message.to)];
        match message.kind {
            Kind::Empty => return Err(SLOT_EMPTY),
            Kind::Work => {
                receiver.weight += message.weight;
                receiver.state = State::Active;
                receiver.countdown = 0;
                self.processed[usize::from(message.to)] += 1;
            }
            Kind::Return if message.to == 0 => self.debt -= message.weight,
            Kind::Return => {
                receiver.weight += message.weight;
                // Only an idle unit begins a wait; the countdown of a waiting
                // one stands (M-104). For returns this is what is compared, and
                // no longer the source of the scheme.
                if receiver.state == State::Idle {
                    receiver.state = State::Waiting;
                    receiver.countdown = self.d;
                }
            }
            Kind::Request => {
                // The supply counts in the debt from the grant on, while it
                // is still under way.
                if self.debt + FULL_WEIGHT > DEBT_LIMIT {
                    return Err(GRANT_PAST_LIMIT);
                }
                self.debt += FULL_WEIGHT;
                self.slots[slot] = Slot {
                    kind: Kind::Supply,
                    from: 0,
                    to: message.from,
                    weight: FULL_WEIGHT,
                };
                return Ok(());
            }
            Kind::Supply => {
                receiver.weight += message.weight;
                receiver.suspended = false;
            }
        }
        self.slots[slot] = Slot::BLANK;
        Ok(())
    }

    /// [13, 31, 32]
    fn rest(&mut self, u: u16) -> Result<(), Refusal> {
        let unit = self.unit_index(u)?;
        self.must_be_ready(unit)?;
        if unit == 0 {
            self.debt -= self.units[0].weight;
            self.units[0] = Unit::BLANK;
        } else {
            self.units[unit].state = State::Waiting;
            self.units[unit].countdown = self.d;
        }
        Ok(())
    }

    /// [13, 38, 39]
    fn tick(&mut self, u: u16) -> Result<(), Refusal> {
        let unit = self.unit_index(u)?;
        self.must_be_waiting(unit)?;
        if self.units[unit].countdown == 0 {
            return Err(COUNTDOWN_ZERO);
        }
        self.units[unit].countdown -= 1;
        Ok(())
    }

    /// [13, 14, 38, 40, 34]
    fn release(&mut self, u: u16, s: u16) -> Result<(), Refusal> {
        let unit = self.unit_index(u)?;
        let slot = self.slot_index(s)?;
        self.must_be_waiting(unit)?;
        if self.units[unit].countdown > 0 {
            return Err(COUNTDOWN_ABOVE_ZERO);
        }
        self.must_be_empty(slot)?;
        self.slots[slot] = Slot {
            kind: Kind::Return,
            from: u,
            to: self.parents[unit],
            weight: self.units[unit].weight,
        };
        self.units[unit] = Unit::BLANK;
        Ok(())
    }

    /// The unit gets another parent in whatever state it is, or the one that it has:
    /// only then an accepted step leaves the board as it was (M-108). Its returns
    /// under way go on to where they were sent. A p lower than u is a unit of the
    /// board, so it is not looked at for 13. [13 for u alone, 47]
    fn move_under(&mut self, u: u16, p: u16) -> Result<(), Refusal> {
        let unit = self.unit_index(u)?;
        if u == 0 || p >= u {
            return Err(NO_SUCH_MOVE);
        }
        self.parents[unit] = p;
        Ok(())
    }

    /// [31, 32]
    fn must_be_ready(&self, unit: usize) -> Result<(), Refusal> {
        if self.units[unit].state != State::Active {
            Err(NOT_ACTIVE)
        } else if self.units[unit].suspended {
            Err(SUSPENDED)
        } else {
            Ok(())
        }
    }

    /// [38]
    fn must_be_waiting(&self, unit: usize) -> Result<(), Refusal> {
        if self.units[unit].state == State::Waiting {
            Ok(())
        } else {
            Err(NOT_WAITING)
        }
    }

    /// [34]
    fn must_be_empty(&self, slot: usize) -> Result<(), Refusal> {
        if self.slots[slot].kind == Kind::Empty {
            Ok(())
        } else {
            Err(SLOT_FILLED)
        }
    }

    /// [44]
    fn one_more_created(&self, unit: usize) -> Result<u32, Refusal> {
        self.created[unit].checked_add(1).ok_or(CREATED_FULL)
    }
}

//! The board: unit records, slots, the debt and the counts; opening,
//! soundness, depth and finished.

use crate::refusal::*;
use crate::rounds::Rounds;

/// The most units a board can use.
pub const UNITS: usize = 64;
/// The most slots a board can use.
pub const SLOTS: usize = 256;
/// The largest delay d.
pub const DELAY_LIMIT: u16 = 255;
/// The weight that a start and a supply bring in.
pub const FULL_WEIGHT: u64 = 1 << 24;
/// The largest debt of a sound board.
pub const DEBT_LIMIT: u64 = 1 << 40;

#[derive(Clone, Copy, Debug, PartialEq, Eq)]
pub enum State {
    Idle,
    Active,
    Waiting,
}

#[derive(Clone, Copy, Debug, PartialEq, Eq)]
pub struct Unit {
    pub state: State,
    pub weight: u64,
    pub countdown: u16,
    pub suspended: bool,
}

impl Unit {
    pub const BLANK: Unit = Unit {
        state: State::Idle,
        weight: 0,
        countdown: 0,
        suspended: false,
    };
}

#[derive(Clone, Copy, Debug, PartialEq, Eq)]
pub enum Kind {
    Empty,
    Work,
    Return,
    Request,
    Supply,
}

#[derive(Clone, Copy, Debug, PartialEq, Eq)]
pub struct Slot {
    pub kind: Kind,
    pub from: u16,
    pub to: u16,
    pub weight: u64,
}

impl Slot {
    pub const BLANK: Slot = Slot {
        kind: Kind::Empty,
        from: 0,
        to: 0,
        weight: 0,
    };
}

/// All fields are open, so that boards that no step leads to can be built
/// and handed to the calls that test soundness.
#[derive(Clone, Debug, PartialEq, Eq)]
pub struct Board {
    /// Units in use.
    pub n: u16,
    /// Slots in use, M in the scope document.
    pub m: u16,
    /// The delay.
    pub d: u16,
    pub parents: [u16; UNITS],
    pub units: [Unit; UNITS],
    pub slots: [Slot; SLOTS],
    pub debt: u64,
    /// Work that each unit created: its accepted sends and starts (M-105).
    pub created: [u32; UNITS],
    /// Work that each unit processed: deliveries of work to it, and its starts.
    pub processed: [u64; UNITS],
    pub rounds: Rounds,
}

impl Board {
    /// What a refused opening hands back. It is not sound, since n = 0.
    pub const BLANK: Board = Board {
        n: 0,
        m: 0,
        d: 0,
        parents: [0; UNITS],
        units: [Unit::BLANK; UNITS],
        slots: [Slot::BLANK; SLOTS],
        debt: 0,
        created: [0; UNITS],
        processed: [0; UNITS],
        rounds: Rounds::BLANK,
    };

    /// Opens a board with `m` slots, delay `d` and the parents of units 1 on.
    /// [11, 12]
    pub fn open(m: u16, d: u16, parents: &[u16]) -> (Board, u16) {
        let in_range =
            parents.len() < UNITS && (1..=SLOTS).contains(&usize::from(m)) && d <= DELAY_LIMIT;
        if !in_range {
            return (Board::BLANK, OUT_OF_RANGE);
        }
        let mut board = Board::BLANK;
        for (unit, &parent) in (1..).zip(parents) {
            if usize::from(parent) >= unit {
                return (Board::BLANK, PARENT_NOT_BELOW);
            }
            board.parents[unit] = parent;
        }
        board.n = parents.len() as u16 + 1;
        board.m = m;
        board.d = d;
        (board, ACCEPTED)
    }

    /// S1 to S6, and what M-105 asks of counts and rounds, of any board, whatever
    /// stands in its fields.
    pub fn is_sound(&self) -> bool {
        self.ranges_hold()
            && self.units_hold()
            && self.slots_hold()
            && self.suspensions_hold()
            && self.weight() == u128::from(self.debt)
            && self.debt <= DEBT_LIMIT
            && self.counts_hold()
            && self.rounds_hold()
    }

    /// S1. A parent entry from n on is part of a blank entry, hence 0.
    fn ranges_hold(&self) -> bool {
        let (n, m) = (usize::from(self.n), usize::from(self.m));
        (1..=UNITS).contains(&n)
            && (1..=SLOTS).contains(&m)
            && self.d <= DELAY_LIMIT
            && self.parents[0] == 0
            && (1..n).all(|unit| usize::from(self.parents[unit]) < unit)
            && self.parents[n..].iter().all(|&parent| parent == 0)
            && self.units[n..].iter().all(|unit| *unit == Unit::BLANK)
            && self.slots[m..].iter().all(|slot| *slot == Slot::BLANK)
    }

    /// S2.
    fn units_hold(&self) -> bool {
        self.units
            .iter()
            .enumerate()
            .all(|(u, unit)| match unit.state {
                State::Idle => unit.weight == 0 && unit.countdown == 0 && !unit.suspended,
                State::Active => unit.weight >= 1 && unit.countdown == 0,
                State::Waiting => {
                    unit.weight >= 1 && unit.countdown <= self.d && !unit.suspended && u != 0
                }
            })
    }

    /// S3. A return goes to a unit lower than its sender, which has another parent
    /// now if it was moved since (M-108).
    fn slots_hold(&self) -> bool {
        let in_use = |unit: u16| unit < self.n;
        self.slots.iter().all(|slot| match slot.kind {
            Kind::Empty => slot.from == 0 && slot.to == 0 && slot.weight == 0,
            Kind::Work => in_use(slot.from) && in_use(slot.to) && slot.weight >= 1,
            Kind::Return => {
                slot.from >= 1 && in_use(slot.from) && slot.to < slot.from && slot.weight >= 1
            }
            Kind::Request => in_use(slot.from) && slot.to == 0 && slot.weight == 0,
            Kind::Supply => slot.from == 0 && in_use(slot.to) && slot.weight == FULL_WEIGHT,
        })
    }

    /// S4.
    fn suspensions_hold(&self) -> bool {
        let mut pending = [0u16; UNITS];
        for slot in &self.slots {
            let unit = match slot.kind {
                Kind::Request => slot.from,
                Kind::Supply => slot.to,
                Kind::Empty | Kind::Work | Kind::Return => continue,
            };
            // A unit that the board has no record of is S3's matter.
            if let Some(count) = pending.get_mut(usize::from(unit)) {
                *count += 1;
            }
        }
        self.units
            .iter()
            .zip(pending)
            .all(|(unit, count)| count == u16::from(unit.suspended))
    }

    /// The weight in units and slots together, wide enough never to wrap.
    pub fn weight(&self) -> u128 {
        let units = self.units.iter().map(|unit| u128::from(unit.weight));
        let slots = self.slots.iter().map(|slot| u128::from(slot.weight));
        units.chain(slots).sum()
    }

    /// How many parents lie between a unit and unit 0. [30, 13]
    pub fn depth(&self, unit: u16) -> Result<u16, Refusal> {
        if !self.is_sound() {
            return Err(UNSOUND);
        }
        let unit = self.unit_index(unit)?;
        Ok(self.depth_of(unit))
    }

    /// The depth of a unit in use, on a board that is known to be sound.
    pub(crate) fn depth_of(&self, unit: usize) -> u16 {
        let mut at = unit;
        let mut depth = 0;
        while at != 0 {
            at = usize::from(self.parents[at]);
            depth += 1;
        }
        depth
    }

    /// Whether some unit is active or work is under way.
    pub(crate) fn is_busy(&self) -> bool {
        let active = |unit: &Unit| unit.state == State::Active;
        let work = |slot: &Slot| slot.kind == Kind::Work;
        self.units.iter().any(active) || self.slots.iter().any(work)
    }

    /// Whether the debt is paid. [30]
    pub fn finished(&self) -> Result<bool, Refusal> {
        if self.is_sound() {
            Ok(self.debt == 0)
        } else {
            Err(UNSOUND)
        }
    }

    pub(crate) fn unit_index(&self, unit: u16) -> Result<usize, Refusal> {
        if unit < self.n {
            Ok(usize::from(unit))
        } else {
            Err(NO_SUCH_UNIT)
        }
    }

    pub(crate) fn slot_index(&self, slot: u16) -> Result<usize, Refusal> {
        if slot < self.m {
            Ok(usize::from(slot))
        } else {
            Err(NO_SUCH_SLOT)
        }
    }
}

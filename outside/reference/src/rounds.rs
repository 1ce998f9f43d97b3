//! The counting rounds beside the weights (M-105): beginning, visits, and what
//! soundness asks of counts and rounds.

use crate::board::{Board, Kind, Slot, State, UNITS};
use crate::refusal::*;

/// The round that is open, if any.
#[derive(Clone, Copy, Debug, PartialEq, Eq)]
pub enum Round {
    None,
    One,
    Two,
}

#[derive(Clone, Debug, PartialEq, Eq)]
pub struct Rounds {
    pub open: Round,
    /// The units that the open round has visited.
    pub visited: [bool; UNITS],
    /// Round one's total, of processed counts. Round two keeps it.
    pub processed: u64,
    /// Round two's total, of created counts.
    pub created: u64,
}

impl Rounds {
    pub const BLANK: Rounds = Rounds {
        open: Round::None,
        visited: [false; UNITS],
        processed: 0,
        created: 0,
    };
}

/// What an accepted visit tells.
#[derive(Clone, Copy, Debug, PartialEq, Eq)]
pub enum Finding {
    NoVerdictYet,
    Quiet,
    Unsettled,
}

impl Board {
    /// Opens round one and drops what was open. [30]
    pub fn begin(&mut self) -> u16 {
        if !self.is_sound() {
            return UNSOUND;
        }
        self.rounds = Rounds {
            open: Round::One,
            ..Rounds::BLANK
        };
        ACCEPTED
    }

    /// Visits a unit in the open round, and tells the verdict where that was
    /// round two's last visit. A refused visit leaves the board as it was.
    /// [30, 13, 43, 42]
    pub fn visit(&mut self, u: u16) -> Result<Finding, Refusal> {
        if !self.is_sound() {
            return Err(UNSOUND);
        }
        let unit = self.unit_index(u)?;
        let rounds = &mut self.rounds;
        if rounds.open == Round::None || rounds.visited[unit] {
            return Err(NOTHING_TO_VISIT);
        }
        // A suspended unit is active, too.
        if self.units[unit].state == State::Active {
            return Err(ACTIVE_AT_VISIT);
        }
        rounds.visited[unit] = true;
        // No total wraps: soundness bounds it by counts of a sum below 2^38.
        if rounds.open == Round::One {
            rounds.processed += self.processed[unit];
        } else {
            rounds.created += u64::from(self.created[unit]);
        }
        if rounds.visited[..usize::from(self.n)].contains(&false) {
            return Ok(Finding::NoVerdictYet);
        }
        if rounds.open == Round::One {
            rounds.open = Round::Two;
            rounds.visited = [false; UNITS];
            return Ok(Finding::NoVerdictYet);
        }
        let equal = rounds.processed == rounds.created;
        *rounds = Rounds::BLANK;
        Ok(if equal {
            Finding::Quiet
        } else {
            Finding::Unsettled
        })
    }

    /// The created total is the processed total and the work under way. The
    /// processed counts may be any numbers, so the sums are wide enough never to
    /// wrap.
    pub(crate) fn counts_hold(&self) -> bool {
        let n = usize::from(self.n);
        self.created[n..].iter().all(|&count| count == 0)
            && self.processed[n..].iter().all(|&count| count == 0)
            && self.created_total() == self.processed_total() + self.work_under_way()
    }

    /// The totals are at most what the units count now; no round, no marks and
    /// no totals. Round two's marks are its own, and round one's total is of all
    /// units by then.
    pub(crate) fn rounds_hold(&self) -> bool {
        let rounds = &self.rounds;
        let visited = || (0..UNITS).filter(|&unit| rounds.visited[unit]);
        let none_past_n = visited().all(|unit| unit < usize::from(self.n));
        none_past_n
            && match rounds.open {
                Round::None => *rounds == Rounds::BLANK,
                Round::One => {
                    let present = visited().map(|unit| u128::from(self.processed[unit]));
                    u128::from(rounds.processed) <= present.sum() && rounds.created == 0
                }
                Round::Two => {
                    let present = visited().map(|unit| u128::from(self.created[unit]));
                    u128::from(rounds.processed) <= self.processed_total()
                        && u128::from(rounds.created) <= present.sum()
                }
            }
    }

    /// All that the units created.
    pub fn created_total(&self) -> u128 {
        self.created.iter().map(|&count| u128::from(count)).sum()
    }

    /// All that the units processed.
    pub fn processed_total(&self) -> u128 {
        self.processed.iter().map(|&count| u128::from(count)).sum()
    }

    /// The work messages in all slots.
    pub fn work_under_way(&self) -> u128 {
        let work = |slot: &&Slot| slot.kind == Kind::Work;
        self.slots.iter().filter(work).count() as u128
    }
}

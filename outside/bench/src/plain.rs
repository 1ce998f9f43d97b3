//! The same in plain Rust: the board in place, the soundness test in one pass over the slots and one over the units.
//! The steps are the reference's; its own test goes over the board some six times, so it is not the one to measure with.

use crate::lists::Case;
use reference::{Board, Kind, Round, Slot, State, Unit, DEBT_LIMIT, DELAY_LIMIT, FULL_WEIGHT, SLOTS, UNITS};

/// The most that all units together can have created. No unit of a sound board has processed more, and sums of counts
/// up to it do not wrap.
const CREATED_LIMIT: u64 = UNITS as u64 * u32::MAX as u64;

/// Whether a slot in use holds what its kind allows. A return goes to a unit lower than its sender (M-108).
fn slot_fits(b: &Board, slot: &Slot) -> bool {
    match slot.kind {
        Kind::Empty => slot.from == 0 && slot.to == 0 && slot.weight == 0,
        Kind::Work => slot.from < b.n && slot.to < b.n && slot.weight >= 1,
        Kind::Return => slot.from >= 1 && slot.from < b.n && slot.to < slot.from && slot.weight >= 1,
        Kind::Request => slot.from < b.n && slot.to == 0 && slot.weight == 0,
        Kind::Supply => slot.from == 0 && slot.to < b.n && slot.weight == FULL_WEIGHT,
    }
}

/// Whether a unit in use has what its state allows.
fn unit_fits(b: &Board, u: usize, unit: &Unit) -> bool {
    match unit.state {
        State::Idle => unit.weight == 0 && unit.countdown == 0 && !unit.suspended,
        State::Active => unit.weight >= 1 && unit.countdown == 0,
        State::Waiting => unit.weight >= 1 && unit.countdown <= b.d && !unit.suspended && u != 0,
    }
}

/// S1 to S6, and what M-105 asks of counts and rounds. The weights are taken off the debt one by one, so that nothing
/// wraps.
pub fn is_sound(b: &Board) -> bool {
    let (n, m) = (usize::from(b.n), usize::from(b.m));
    if !(1..=UNITS).contains(&n) || !(1..=SLOTS).contains(&m) || b.d > DELAY_LIMIT || b.debt > DEBT_LIMIT {
        return false;
    }
    let mut left = b.debt;
    let mut pending = [0u16; UNITS];
    let mut work = 0;
    for (s, slot) in b.slots.iter().enumerate() {
        if !(s < m || slot.kind == Kind::Empty) || !slot_fits(b, slot) || slot.weight > left {
            return false;
        }
        left -= slot.weight;
        match slot.kind {
            Kind::Request => pending[usize::from(slot.from)] += 1,
            Kind::Supply => pending[usize::from(slot.to)] += 1,
            Kind::Work => work += 1,
            Kind::Empty | Kind::Return => {}
        }
    }
    // Sums over all units, and over those that the open round has visited.
    let (mut created, mut processed) = (0, 0);
    let (mut visits, mut visited_created, mut visited_processed) = (0, 0, 0);
    for (u, unit) in b.units.iter().enumerate() {
        let parent = usize::from(b.parents[u]);
        let parent_fits = parent == 0 || (u < n && parent < u);
        let uncounted = b.created[u] == 0 && b.processed[u] == 0 && !b.rounds.visited[u];
        let blank_past_n = u < n || (unit.state == State::Idle && uncounted);
        if !parent_fits || !blank_past_n || !unit_fits(b, u, unit) || unit.weight > left {
            return false;
        }
        if pending[u] != u16::from(unit.suspended) || b.processed[u] > CREATED_LIMIT {
            return false;
        }
        left -= unit.weight;
        created += u64::from(b.created[u]);
        processed += b.processed[u];
        if b.rounds.visited[u] {
            visits += 1;
            visited_created += u64::from(b.created[u]);
            visited_processed += b.processed[u];
        }
    }
    let rounds = &b.rounds;
    let rounds_fit = match rounds.open {
        Round::None => visits == 0 && rounds.processed == 0 && rounds.created == 0,
        Round::One => rounds.processed <= visited_processed && rounds.created == 0,
        Round::Two => rounds.processed <= processed && rounds.created <= visited_created,
    };
    left == 0 && created == processed + work && rounds_fit
}

fn opened(case: &Case) -> Board {
    let parents: Vec<u16> = (1..case.n).map(|unit| (unit - 1) / 2).collect();
    Board::open(case.m, case.d, &parents).0
}

/// Each step with its soundness test.
pub fn tested(case: &mut Case) -> u64 {
    let mut board = opened(case);
    let mut accepted = 0;
    for step in &case.steps {
        if is_sound(&board) && board.step(*step) == 0 {
            accepted += 1;
        }
    }
    accepted
}

/// The steps without tests, the answers written.
pub fn untested(case: &mut Case) -> u64 {
    let mut board = opened(case);
    let mut accepted = 0;
    for (step, answer) in case.steps.iter().zip(&mut case.answers) {
        *answer = board.step(*step);
        accepted += u64::from(*answer == 0);
    }
    accepted
}

/// The soundness test alone, on the board after the list, once for each delay.
pub fn soundness(case: &mut Case) -> u64 {
    let mut board = opened(case);
    for step in &case.steps {
        board.step(*step);
    }
    let mut sound = 0;
    for &delay in &case.delays {
        board.d = delay;
        sound += u64::from(is_sound(std::hint::black_box(&board)));
    }
    sound
}

#[cfg(test)]
mod tests {
    use super::*;
    use reference::Step;

    /// Makes work a return of the same weight, and takes it off what unit 0 created.
    fn returned(b: &mut Board, slot: usize, from: u16, to: u16) {
        let message = &mut b.slots[slot];
        assert_eq!(message.kind, Kind::Work);
        (message.kind, message.from, message.to) = (Kind::Return, from, to);
        b.created[0] -= 1;
    }

    /// The two tests agree on a walked board and on the same board with one field changed, whatever round is open.
    #[test]
    fn agrees_with_the_reference() {
        let case = Case::new(8, 16, 500);
        let mut board = opened(&case);
        for step in &case.steps {
            board.step(*step);
            assert!(is_sound(&board) && board.is_sound());
        }
        let changes: [fn(&mut Board, usize); 24] = [
            |b, _| b.n -= 1,
            |b, _| b.m = 0,
            |b, _| b.debt += 1,
            |b, i| b.parents[i % UNITS] = i as u16,
            |b, i| b.units[i % UNITS].weight ^= 1,
            |b, i| b.units[i % UNITS].suspended ^= true,
            |b, i| b.units[i % UNITS].state = State::Waiting,
            |b, i| b.slots[i].kind = Kind::Work,
            |b, i| b.slots[i].kind = Kind::Request,
            // From each unit to each, and past n. The slots from 8 on hold work.
            |b, i| returned(b, 8 + i % 8, i as u16 % 10, i as u16 / 10),
            |b, i| returned(b, 8 + i % 8, 1 + i as u16 / 32, i as u16 % 9),
            |b, i| returned(b, 8 + i % 8, 65_535, i as u16),
            // Without weight.
            |b, i| {
                returned(b, 8 + i % 8, 2, 0);
                b.debt -= std::mem::take(&mut b.slots[8 + i % 8].weight);
            },
            |b, i| {
                b.step(Step::move_under(i as u16 % 9, i as u16 / 9));
            },
            |b, i| b.created[i % UNITS] ^= 1,
            |b, i| b.processed[i % UNITS] ^= 1,
            |b, i| b.processed[i % UNITS] = u64::MAX - i as u64,
            // These two add up to what was there only modulo 2^64, or modulo 2^32.
            |b, i| [i, i + 1].iter().for_each(|u| b.processed[u % UNITS] ^= 1 << 63),
            |b, i| b.processed[i % UNITS] ^= 1 << 32,
            |b, i| {
                b.created[i % UNITS] += 1;
                b.processed[(i + 1) % UNITS] += 1;
            },
            |b, i| b.rounds.visited[i % UNITS] ^= true,
            |b, i| b.rounds.open = [Round::None, Round::One, Round::Two][i % 3],
            |b, i| b.rounds.processed = i as u64 * 2,
            |b, i| b.rounds.created = i as u64 / 2,
        ];
        let mut sound = [0; 3];
        for (count, open) in sound.iter_mut().zip([Round::None, Round::One, Round::Two]) {
            let mut board = board.clone();
            board.rounds.open = open;
            if open != Round::None {
                board.rounds.visited[2..6].fill(true);
                board.rounds.processed = board.processed[2..6].iter().sum();
            }
            if open == Round::Two {
                board.rounds.created = board.created[2..6].iter().map(|&count| u64::from(count)).sum();
            }
            assert!(is_sound(&board) && board.is_sound());
            for change in changes {
                for i in 0..SLOTS {
                    let mut damaged = board.clone();
                    change(&mut damaged, i);
                    assert_eq!(is_sound(&damaged), damaged.is_sound());
                    *count += u32::from(is_sound(&damaged));
                }
            }
        }
        assert!(sound.iter().all(|&count| count > 100), "{sound:?}");
    }
}

//! The census of short lists (M-106) in plain Rust, counted quickly: a refused step leaves the board as it was, so the
//! lists that go on from there are counted once for all refused choices. The steps are the reference's.

use crate::plain::is_sound;
use reference::refusal::{Refusal, ACCEPTED, BEYOND_CENSUS};
use reference::{choices, Board, Kind, State, Step};

/// Lists that end on a finished board, on a busy one, on any other.
type Counts = [u64; 3];

/// The sort of a board, as a place in the counts. Units and slots that are not in use are blank.
fn sort_of(board: &Board) -> usize {
    let (units, slots) = (&board.units[..usize::from(board.n)], &board.slots[..usize::from(board.m)]);
    if board.debt == 0 {
        0
    } else if units.iter().any(|unit| unit.state == State::Active) || slots.iter().any(|slot| slot.kind == Kind::Work) {
        1
    } else {
        2
    }
}

fn add(counts: &mut Counts, times: u64, more: Counts) {
    for (count, more) in counts.iter_mut().zip(more) {
        *count += times * more;
    }
}

/// The counts over the lists of so many steps from a board, each step with its soundness test or without.
fn lists_from<const TESTED: bool>(board: &Board, choices: &[Step], steps: u16) -> Counts {
    let mut counts = [0; 3];
    if steps == 0 {
        counts[sort_of(board)] = 1;
        return counts;
    }
    let mut refused = 0;
    let mut after = board.clone();
    for &step in choices {
        if (!TESTED || is_sound(&after)) && after.step(step) == ACCEPTED {
            add(&mut counts, 1, lists_from::<TESTED>(&after, choices, steps - 1));
            after.clone_from(board);
        } else {
            // The copy is as it was, and serves the next choice too.
            refused += 1;
        }
    }
    add(&mut counts, refused, lists_from::<TESTED>(board, choices, steps - 1));
    counts
}

fn all_counts<const TESTED: bool>(m: u16, d: u16, parents: &[u16], length: u16) -> Result<Counts, Refusal> {
    if parents.len() > 2 || !(1..=2).contains(&m) || d > 1 || length > 4 {
        return Err(BEYOND_CENSUS);
    }
    let (board, answer) = Board::open(m, d, parents);
    if answer != ACCEPTED {
        return Err(answer);
    }
    Ok(lists_from::<TESTED>(&board, &choices(board.n, m), length))
}

/// The count of one sort: 0 finished, 1 busy, from 2 on other; or the refusal.
fn one_count(counts: Result<Counts, Refusal>, sort: u16) -> u64 {
    counts.map_or_else(u64::from, |counts| counts[usize::from(sort.min(2))])
}

/// The steps without tests.
pub fn census(m: u16, d: u16, parents: &[u16], length: u16, sort: u16) -> u64 {
    one_count(all_counts::<false>(m, d, parents, length), sort)
}

/// Each step with its soundness test.
pub fn census_tested(m: u16, d: u16, parents: &[u16], length: u16, sort: u16) -> u64 {
    one_count(all_counts::<true>(m, d, parents, length), sort)
}

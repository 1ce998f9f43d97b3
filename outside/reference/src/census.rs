//! The census of short lists (M-106): how many lists of a length leave a fresh
//! board finished, how many leave it busy, and how many neither.
//!
//! Every list is run to its end. None is left out and none stands for others, so
//! that the counts rest on the steps alone.

use crate::board::Board;
use crate::refusal::*;
use crate::step::Step;

/// The most parents of a board that is counted, so that it has three units.
const MOST_PARENTS: usize = 2;
/// The most slots of such a board.
const MOST_SLOTS: u16 = 2;
/// Its largest delay.
const MOST_DELAY: u16 = 1;
/// The most steps of a list.
const MOST_STEPS: u16 = 4;

/// How many lists of steps end on which sort of board.
#[derive(Clone, Copy, Debug, Default, PartialEq, Eq)]
pub struct Counts {
    /// On a finished one.
    pub finished: u64,
    /// On one with some unit active or work under way.
    pub busy: u64,
    /// On any other: no work is left, and weight is still on its way back.
    pub other: u64,
}

impl Counts {
    /// All lists, whatever they end on.
    pub fn lists(&self) -> u64 {
        self.finished + self.busy + self.other
    }

    /// One more list that ends on this board. The board is sound, since steps
    /// led to it, so its debt alone tells whether it is finished; the test of
    /// soundness would take most of the time. And it is of one sort only: active
    /// units and work have weight, which a paid debt leaves none of.
    fn add(&mut self, board: &Board) {
        if board.debt == 0 {
            self.finished += 1;
        } else if board.is_busy() {
            self.busy += 1;
        } else {
            self.other += 1;
        }
    }
}

/// Counts the lists of `length` steps over all choices, from the fresh board
/// that is opened with `m` slots, delay `d` and these parents. [46, 12]
pub fn census(m: u16, d: u16, parents: &[u16], length: u16) -> Result<Counts, Refusal> {
    let in_reach = parents.len() <= MOST_PARENTS
        && (1..=MOST_SLOTS).contains(&m)
        && d <= MOST_DELAY
        && length <= MOST_STEPS;
    if !in_reach {
        return Err(BEYOND_CENSUS);
    }
    let (board, answer) = Board::open(m, d, parents);
    if answer != ACCEPTED {
        return Err(answer);
    }
    let mut counts = Counts::default();
    run_lists(&board, &choices(board.n, m), length, &mut counts);
    Ok(counts)
}

/// Runs every list of so many more steps from a board. Lists that begin with the
/// same steps share the board after them, and each choice goes on from a copy of
/// its own. A refused step is one of the list like others.
fn run_lists(board: &Board, choices: &[Step], more: u16, counts: &mut Counts) {
    if more == 0 {
        return counts.add(board);
    }
    for &step in choices {
        let mut after = board.clone();
        after.step(step);
        run_lists(&after, choices, more - 1, counts);
    }
}

/// The steps to choose from: seven kinds, without the move (M-108), with every unit
/// below `n` and every slot below `m`, fields that a kind does not read being 0.
pub fn choices(n: u16, m: u16) -> Vec<Step> {
    let mut choices = Vec::new();
    for u in 0..n {
        choices.extend([Step::start(u), Step::rest(u), Step::tick(u)]);
        for s in 0..m {
            choices.extend((0..n).map(|v| Step::send(u, v, s)));
            choices.extend([Step::request(u, s), Step::release(u, s)]);
        }
    }
    choices.extend((0..m).map(Step::deliver));
    choices
}
